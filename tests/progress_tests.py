"""Tests of what `design` and `draw` tell while they are at work: where a call of `aeth` takes long, and nothing where none does."""
from concurrent.futures import ThreadPoolExecutor
import re
import unittest

from home import Home

# It answers late, as a large design does.
SLOW = """#!/bin/sh
case $1 in slots) exit 0 ;; esac
sleep 1.7
echo "refused chip 3 OutOfRange 1 7" >&2
exit 2
"""
REFUSED = "refused chip 3 OutOfRange 1 7\r\n"
CLEARED = r"\r\x1b\[K"
CALLS = (
    ("draw", "plan", "x", "x", "x", "u"), ("draw", "run", *"xxxxxx", "9"), ("draw", "report", *"xxx"), ("draw", "refusal", *"xx"),
    ("draw", "wave", *"xxxxxx", "9"), ("design", "words", "x", "x", "u", "9"), ("design", "receivers", "x", "x", "u", "9"),
    ("design", "switches", "x", "x", "9", "u"), ("design", "fit", "x", "x"), ("design", "rtl", *"xxx", "--to", "made"),
    ("design", "cosim", *"xxxxxx", "9"), ("design", "where", "chip", "x"),
)


class Slow(unittest.TestCase):
    def setUp(self):
        self.home = Home()
        self.addCleanup(self.home.end)
        self.home.put("../program", SLOW).chmod(0o755)
        self.home.put("x", "")
        self.home.settings["PROGRAM"] = str(self.home.room / "program")
        self.assertEqual(self.home.run("--prove-only")[0], 0)

    def test_a_line_that_is_rewritten_on_a_terminal(self):
        with ThreadPoolExecutor(len(CALLS)) as pool:
            ran = list(pool.map(lambda call: self.home.on_terminal(*call[1:], script=call[0]), CALLS))
        for (script, *words), (status, said) in zip(CALLS, ran):
            self.assertEqual(status, 2, words)
            told, cleared, refused = re.split(f"({CLEARED})(?=refused)", said)
            self.assertRegex(told, rf"\A(\r{script}: [^\r\n]+, \d s\x1b\[K)+\Z", words)
            self.assertTrue(refused.startswith(REFUSED), words)

    def test_nothing_elsewhere(self):
        for script, *words in CALLS[:2]:
            self.assertEqual(self.home.run(*words, script=script), (2, "", REFUSED.replace("\r", "")))

    def test_the_first_build_tells_what_it_does_alone(self):
        self.home.put("crates/aeth_base/src/lib.rt", "changed\n")
        (self.home.top / "out/aeth").unlink()
        _, said = self.home.on_terminal("plan", "x", "x", "x", "u", script="draw", SLOW="1")
        build, _, after = said.rpartition("crates proved")
        self.assertNotIn("draw: ", build)
        self.assertIn("draw: plan, ", after)
