"""Tests of what `./aeth` tells on a terminal while the program is at work: for how long; and that nothing else is changed."""
from dataclasses import dataclass
import os
import pty
import signal
import time
import unittest

from home import Home

# It waits, and tells what it was given, its words and its group; with a second word it ends with that as its status.
PROGRAM = """#!/bin/sh
[ "$2" != wait ] || exec sleep "$1"
[ "$2" != file ] || exec cat /dev/fd/8
sleep "$1"
cat
read -r process </proc/$$/stat
set -- "$1" "$2" ${process##*) }
echo "$1 $5"
[ -z "$2" ] || { echo "refused app 3 OutOfRange 1 2" >&2; exit "$2"; }
"""


@dataclass
class Told:
    """How a call ended, and what it told the terminal."""

    process: int
    status: int
    said: str


class Running(unittest.TestCase):
    def setUp(self):
        self.home = Home()
        self.addCleanup(self.home.end)
        program = self.home.put("../program", PROGRAM)
        program.chmod(0o755)
        self.home.settings["PROGRAM"] = str(program)
        self.assertEqual(self.home.run("--prove-only")[0], 0)
        self.out = self.home.room / "out"
        self.given = self.home.room / "given"
        self.given.write_text("given ")

    def on_terminal(self, *words, does=None, when="aeth: 1 s"):
        """A call on a terminal of its own, to which something is done when it has told something, given its process and the
        terminal."""
        process, ours = pty.fork()
        if process == 0:
            # (who runs the tests may ignore some of them, as `nohup` does)
            for name in ("PIPE", "XFSZ", "INT", "QUIT", "HUP", "TERM", "USR1"):
                signal.signal(signal.Signals[f"SIG{name}"], signal.SIG_DFL)
            os.chdir(self.home.room)
            os.closerange(3, 64)
            os.dup2(os.open(self.given, os.O_RDONLY), 0)
            os.dup2(os.open(self.out, os.O_WRONLY | os.O_CREAT | os.O_TRUNC, 0o644), 1)
            os.execve(words[0], [str(word) for word in words], self.home.settings)
        os.set_blocking(ours, False)
        said = b""
        while True:
            try:
                part = os.read(ours, 1 << 16)
            except BlockingIOError:
                part = None
                time.sleep(0.02)
            except OSError:
                break
            if part == b"":
                break
            said += part or b""
            if does and when.encode() in said:
                does(process, ours)
                does = None
        os.close(ours)
        return Told(process, os.waitstatus_to_exitcode(os.waitpid(process, 0)[1]), said.decode())

    def aeth(self, *words, **how):
        return self.on_terminal(self.home.top / "aeth", *words, **how)

    def shell(self, text):
        return self.on_terminal("/bin/sh", "-c", text.replace("AETH", str(self.home.top / "aeth")))

    def test_the_time_is_told_and_taken_away(self):
        told = self.aeth("2.4")
        self.assertEqual(told.status, 0)
        self.assertRegex(told.said, r"\A(\raeth: \d+ s\r){2,}\r\x1b\[K\Z")
        self.assertRegex(self.out.read_text(), f"\\Agiven 2.4 {told.process}\n\\Z")

    def test_what_is_quick_is_done_without_a_word(self):
        began = time.monotonic()
        told = self.aeth("0.1")
        self.assertEqual(told.status, 0)
        if time.monotonic() - began < 1:
            self.assertEqual(told.said, "")
        self.assertRegex(self.out.read_text(), f"\\Agiven 0.1 {told.process}\n\\Z")

    def test_a_message_covers_the_time(self):
        told = self.aeth("1.3", "3")
        self.assertEqual(told.status, 3)
        self.assertRegex(told.said, r"\A(\raeth: \d+ s\r)+refused app 3 OutOfRange 1 2\r\n\r\x1b\[K\Z")

    def test_signals_end_it_as_they_would_the_program(self):
        for number in (signal.SIGINT, signal.SIGTERM, signal.SIGHUP, signal.SIGQUIT, signal.SIGUSR1):
            told = self.aeth("70", "wait", does=lambda process, _: os.kill(process, number))
            self.assertEqual(told.status, -number, told.said)
            self.assertRegex(told.said, r"\A(\raeth: \d+ s\r)+\r\x1b\[K\Z", number)
            self.assertEqual(self.out.read_text(), "")

    def test_the_interrupt_of_the_terminal(self):
        for when in ("", "aeth: 1 s"):
            told = self.aeth("70", "wait", does=lambda _, terminal: os.write(terminal, b"\x03"), when=when)
            self.assertEqual(told.status, -signal.SIGINT, told.said)

    def test_nothing_is_told_where_it_would_stand_in_the_way(self):
        for text in ("AETH 1.3 | cat", "AETH 1.3 > text & wait", "AETH 1.3 >&-", "AETH 1.3 <&- > text", "setsid -w AETH 1.3 > text"):
            self.assertNotRegex(self.shell(text).said, r"aeth: \d+ s", text)

    def test_nothing_is_told_elsewhere(self):
        self.assertEqual(self.home.run("1.3", given=b"given ")[2], "")

    def test_files_that_the_caller_opened_are_the_programs(self):
        for number in (8, 9):
            told = self.shell(f"exec {number}<{self.given}; AETH x file 8<&{number}")
            self.assertEqual((told.status, told.said, self.out.read_text()), (0, "", "given "))
