"""Tests of `design` with hostile files and words: it tells them in a line, and `aeth`'s own line and status stay."""
import os
import re
import signal
import subprocess
import sys
import time
import tracemalloc
import unittest

from home import Home, PROGRAM, TOP

sys.path.append(str(TOP / "design.d"))
import ending  # noqa: E402: its folder is told above
import toml_lines  # noqa: E402

EXAMPLES = TOP / "examples"
PAIR, ONE = EXAMPLES / "pair.toml", EXAMPLES / "one.toml"


@unittest.skipUnless(PROGRAM, "there is no built program")
class WithHome(unittest.TestCase):
    """Tests that share a folder with the scripts and the program."""

    @classmethod
    def setUpClass(cls):
        cls.home = Home(PROGRAM)
        cls.home.run("slots", "1", "1", "1", "0")  # it is built, and says so, in the first call

    @classmethod
    def tearDownClass(cls):
        cls.home.end()

    def file(self, text, name="hostile.toml"):
        path = self.home.room / name
        path.write_bytes(text if isinstance(text, bytes) else text.encode())
        return path

    def where(self, *words):
        """What `design where` says below the lines of `aeth`, which stay as they are, with their status."""
        status, out, errors = self.home.design("where", *words)
        lines = errors.splitlines(keepends=True)
        own = "".join(line for line in lines if not line.startswith("  "))
        self.assertEqual((status, out, own), self.home.run(*words))
        self.assertTrue(all(letter.isprintable() or letter == "\n" for letter in errors), errors)
        self.assertNotIn("fault of the script", errors)
        return "".join(line for line in lines if line.startswith("  "))

    def chip(self, old, new):
        text = PAIR.read_text(encoding="utf-8")
        self.assertEqual(text.count(old), 1)
        return self.file(text.replace(old, new))


class Hostile(WithHome):
    """Files and words that are broken on purpose."""

    def test_letters_and_numbers_that_cant_be(self):
        for old, new, tells in (
            ('"n0", "n1"', '"n0", "\\UFFFFFFFF"', "line 5: `\\UFFFFFFFF` is no letter"),
            ('"n0", "n1"', '"n0", "\\uD800"', "line 5: `\\uD800` is no letter"),
            ("slots = 8", "slots = " + 5_000 * "9", "line 3: the number 99999999999999999999.. of 5,000 letters is past 64 bits"),
            ("slots = 8", "slots = 1979-02-30", "line 3: there is no 1979-02-30"),
            ("slots = 8", "slots = 08", "line 3: the end of the line is missing"),
            ("slots = 8", "slots = \u0663", "line 3: a value is missing"),
            ("slots = 8", 'slots = "', "line 3: a string has no end on its line"),
        ):
            with self.subTest(new=new[:40]):
                path = self.chip(old, new)
                told = self.where("chip", path)
                self.assertIn(f"  {path}, {tells}", told)
                self.assertIn("Rule 1 of chip files, BadToml, is broken where", told)

    def test_paths_at_which_no_file_can_be_read(self):
        self.file("", "plain")
        for path, tells in (
            ("a" * 256, "File name too long"),
            (self.home.room / "plain" / "under", "Not a directory"),
            (self.home.room, "Is a directory"),
            ("none", "No such file or directory"),
        ):
            told = self.where("chip", path)
            self.assertEqual(told, f"  {path} can't be read: {tells}.\n")

    @unittest.skipIf(os.geteuid() == 0, "the root user may enter each folder")
    def test_a_folder_that_may_not_be_entered(self):
        folder = self.home.room / "shut"
        folder.mkdir(mode=0o600)
        self.addCleanup(folder.chmod, 0o700)
        self.assertEqual(self.where("chip", folder / "chip"), f"  {folder / 'chip'} can't be read: Permission denied.\n")

    def test_outputs_that_are_closed_or_full(self):
        script = [str(self.home.top / "design"), "chip", "ring", "3"]
        for closing in (">&-", "> /dev/full", ">&- 2>&-", "<&- >&- 2>&-", "2>&-", "2> /dev/full"):
            ran = subprocess.run(["sh", "-c", f'"$@" {closing}', "sh", *script], capture_output=True, text=True, check=False)
            shut = ">&-" in closing.replace("2>&-", "") or closing == "> /dev/full"
            self.assertEqual(ran.returncode, 5 if shut else 0, closing)
            self.assertRegex(ran.stderr, r"\A(design: what was asked for can't be written: [ -~]+\n)?\Z")
            self.assertEqual(bool(ran.stderr), shut and "2>&-" not in closing, closing)

    def test_one_line_where_two_could_be(self):
        """A chip with a note on far pairs, which can't be written."""
        with open("/dev/full", "wb") as full:
            status, _, errors = self.home.design("chip", "ring", "64", out=full)
        self.assertEqual((status, errors), (5, "design: what was asked for can't be written: No space left on device\n"))

    def test_it_is_broken_off_without_a_word(self):
        pipe = self.home.room / "pipe"
        os.mkfifo(pipe)
        line = [str(self.home.top / "design"), "words", pipe, ONE, "main", "9"]
        # Tests that a shell runs in the background are begun with SIGINT ignored, and so would be what they run.
        how = {"preexec_fn": lambda: signal.signal(signal.SIGINT, signal.SIG_DFL)}
        with subprocess.Popen(line, stdout=subprocess.PIPE, stderr=subprocess.PIPE, **how) as ran:
            with open(pipe, "wb"):  # it has opened the pipe by now, and waits for a text
                ran.send_signal(signal.SIGINT)
                self.assertEqual((ran.communicate(), ran.returncode), ((b"", b""), -signal.SIGINT))

    def test_a_file_of_many_brackets(self):
        """What is read of it has a limit: a few seconds, and memory for some of it."""
        for text in (b"a = [" + 2_000_000 * b"[]," + b"]\n", b"a = " + 3_000_000 * b"[", b"a" + 2_000_000 * b".a" + b" = 1\n"):
            path, before = self.file(text), time.monotonic()
            told = self.where("chip", path)
            self.assertLess(time.monotonic() - before, 60)
            self.assertIn(f"  {path}", told)

    def test_a_key_of_many_parts(self):
        path = self.file("a" + 60_000 * ".a" + " = 1\n" + PAIR.read_text(encoding="utf-8"))
        self.assertIn("line 1: a key has more than 80 parts", self.where("chip", path))
        path = self.file("a" + 79 * ".a" + " = 1\n" + PAIR.read_text(encoding="utf-8"))
        self.assertIn("line 1: the root, key `a` is unknown", self.where("chip", path))

    def test_letters_that_a_terminal_obeys(self):
        for new, tells in (
            ('"n0", "\\u001b[2J\\n"', "`nis` 1 is '\\x1b[2J\\n'"),
            ('"n0", "\u2028\u202e"', "`nis` 1 is '\\u2028\\u202e'"),
        ):
            self.assertIn(tells, self.where("chip", self.chip('"n0", "n1"', new)))
        app = ONE.read_text(encoding="utf-8").replace('name = "c0"', 'name = "c\\n\\u001b[2J"', 1)
        self.assertIn("`connection` 0 (c\\x0a\\x1b[2J) `name` is 'c\\n\\x1b[2J'", self.where("app", PAIR, self.file(app)))
        plan = (EXAMPLES / "one.plan").read_text(encoding="ascii").replace("seat mem", "seat \x1b[2Jm\x85em")
        self.assertIn("line 3: seat \\x1b[2Jm", self.where("check", PAIR, ONE, self.file(plan, "odd.plan")))
        self.assertIn("There is no command `\\x1b[2J`", self.where("\x1b[2J"))
        status, _, errors = self.home.design("words", PAIR, ONE, "\x1b[2J\n", "9")
        self.assertEqual((status, errors.count("\n"), "\x1b" in errors), (1, 1, False))

    def test_keys_that_are_no_names(self):
        """`aeth` shows each of them as `?`."""
        for key, tells in (("a-b", "`a-b`"), ('"\\u001b[2J"', "`\\x1b[2J`"), ('""', "``"), (40 * "a", f"`{40 * 'a'}`")):
            told = self.where("chip", self.chip("slots = 8", f"slots = 8\n{key} = 1"))
            self.assertIn(f"line 4: the root, key {tells} is unknown", told)

    def test_items_of_another_type(self):
        told = self.where("chip", self.chip('"n0", "n1"', '"n0", 5'))
        self.assertIn("line 5: the root, key `nis` has another type: its item 1 is 5\n", told)
        told = self.where("chip", self.chip("slots = 8", 'slots = "8"'))
        self.assertIn("line 3: the root, key `slots` has another type: it is '8'\n", told)
        told = self.where("chip", self.chip('{from = "r0", to = "r1"}', '{from = "r0", to = "r1", delay = 2}'))
        self.assertRegex(told, r"`link` \d, key `delay` is unknown where `version` isn't 2\n")

    def test_lines_are_those_of_the_file(self):
        """A form feed and a line separator end no line of a trace, and a field may be long."""
        head = 'connection,side,cycle,value\n"' + 200_000 * "x" + '\x0c\u2028\x1d",fwd,0,1\n'
        plan = EXAMPLES / "one.plan"
        traces = [self.file(head + "c0,fwd,1,-\n", "words"), EXAMPLES / "two.receivers.csv", EXAMPLES / "one.switches.csv"]
        told = self.where("simulate", PAIR, ONE, plan, *traces, "9")
        self.assertIn(f"  {traces[0]}, line 3: c0,fwd,1,-\n", told)

    def test_switches_that_stand_in_one_cycle(self):
        """As `design switches` itself makes them, and as `aeth` accepts them where nothing is switched."""
        two = EXAMPLES / "two.toml"
        for cycles, drain in (("2", "0"), ("3", "1")):
            status, text, errors = self.home.design("switches", PAIR, two, cycles, "u0", "u0", "u0", "--drain", drain)
            if drain == "1":
                self.assertEqual(status, 0, errors)
                continue
            self.assertEqual(text, "cycle,use,drain\n0,u0,0\n0,u0,0\n1,u0,0\n")
            switches, plan = self.file(text, "same.csv"), self.file(self.home.run("allocate", PAIR, two)[1], "two.plan")
            for command in ("words", "receivers"):
                status, trace, errors = self.home.design(command, PAIR, two, switches, cycles)
                self.assertEqual((status, errors), (0, ""))
                if command == "words":
                    self.assertEqual(self.home.design(command, PAIR, two, switches, cycles, "--plan", plan), (0, trace, ""))
                traces = {"words": self.file(trace, "of.csv")} if command == "words" else {}
            receivers = self.file(trace, "of.receivers.csv")
            told = self.home.run("simulate", PAIR, two, plan, traces.get("words", EXAMPLES / "two.words.csv"), receivers, switches, "2")
            self.assertEqual((told[0], told[2]), (0, ""))

    def test_with_a_plan_aeth_judges_switches(self):
        two = EXAMPLES / "two.toml"
        plan = self.file(self.home.run("allocate", PAIR, two)[1], "two.plan")
        switches = self.file("cycle,use,drain\n0,u0,0\n6,u1,0\n7,u0,0\n", "near.csv")
        ran = self.home.design("words", PAIR, two, switches, "99", "--plan", plan)
        self.assertEqual(ran, (2, "", "refused switches 4 Overlap 3 10\n"))

    def test_what_aeth_refuses(self):
        """Each command ends as `aeth` does, with its own line alone."""
        bad, none = self.file("version = 1\n"), self.home.room / "none"
        for chip, app in ((bad, ONE), (PAIR, bad), (none, ONE), (PAIR, none), (PAIR, self.home.room)):
            own = self.home.run("app", chip, app)
            self.assertIn(own[0], (2, 4))
            for command, rest in (("words", ("main", "9")), ("receivers", ("main", "9")), ("switches", ("9", "main")), ("fit", ())):
                self.assertEqual(self.home.design(command, chip, app, *rest), own)

    def test_words_that_are_no_numbers(self):
        for words in (
            ("chip", "mesh", "2\n", "2"), ("chip", "mesh", "\u0663", "2"), ("chip", "mesh", "1_0", "2"), ("chip", "ring", "9" * 5_000),
            ("chip", "ring", "3", "--slots", "1e3"), ("fit", PAIR, ONE, "--slots", "9" * 5_000), ("words", PAIR, ONE, "main", "0x9"),
            ("receivers", PAIR, ONE, "main", "9", "--stall", "c0,fwd,\u0663"), ("words", PAIR, ONE, "main", "9", "--load", " 5"),
            ("chip",), (), ("chip", "mesh", "2", "2", "\x1b[2J"), ("chip", "mesh", "0", "-3"), ("chip", "tree", "4", "0"),
        ):
            status, out, errors = self.home.design(*words)
            self.assertEqual((status, out), (1, ""), words)
            self.assertRegex(errors, r"\Adesign: [^\x00-\x1f\x7f]{5,500}\n\Z")

    def test_pipes(self):
        """Each file is read once."""
        line = 'design=$1; shift; "$design" "$1" <(cat "$2") <(cat "$3") main 9'
        ran = subprocess.run(["bash", "-c", line, "bash", self.home.top / "design", "words", PAIR, ONE], capture_output=True, check=False)
        self.assertEqual((ran.returncode, ran.stderr), (0, b""))


class Gaps(WithHome):
    """Refusals for latency, of which the cause is the gap between slots that others leave."""

    APP = """version = 1
detour = 0
core = [{name = "a", ni = "n0"}, {name = "b", ni = "n1"}, {name = "c", ni = "n0"}, {name = "d", ni = "n1"}]
connection = [
  {name = "wide", from = "a", to = "b", fwd = {words = 7, per = 8, latency = 4096, delay = 0},
   back = {words = 0, per = 1, latency = 4096, delay = 0}},
  {name = "quick", from = "c", to = "d", fwd = {words = 1, per = 64, latency = %d, delay = 0},
   back = {words = 0, per = 1, latency = 4096, delay = 0}},
]
use = [{name = "main", connections = ["wide", "quick"]}]
"""

    def chip_of(self, slots):
        text = PAIR.read_text(encoding="utf-8").replace("version = 1", "version = 2").replace("slots = 8", f"slots = {slots}")
        return self.file(text, f"chip{slots}.toml")

    def test_the_gap_is_told(self):
        """`wide` takes 56 slots of 128 side by side, which leave a gap of 57: on a path of 3 cycles a latency of 59."""
        app = self.file(self.APP % 58, "gap.toml")
        told = self.where("allocate", self.chip_of(128), app)
        self.assertIn(
            "The slots that others leave are enough, and too far apart: along the path 0,4,3, of 3 cycles, their greatest gap is 57, "
            "and its latency of 58 allows one of 56. With a latency of 59 or more it has a candidate in its turn.", told)
        self.assertEqual(self.home.run("allocate", self.chip_of(128), self.file(self.APP % 59, "wide.toml"))[0], 0)
        self.assertIn("each table of 8, 12, 16, 24, 32, 48, 64 and 96 slots grants everything, and none of the others", told)
        self.assertNotIn("More slots", told)

    def test_it_is_what_aeth_finds(self):
        """Each table that is said to grant everything does, and no other one."""
        app = self.file(self.APP % 30, "gap.toml")
        told = self.where("allocate", self.chip_of(128), app)
        tables = [int(number) for number in re.findall(r"\d+", told.split("each table of ")[1].split(" slots")[0])]
        for slots in (8, 12, 16, 24, 32, 48, 64, 96, 128):
            self.assertEqual(self.home.run("allocate", self.chip_of(slots), app)[0], 0 if slots in tables else 3, slots)

    def test_too_few_slots(self):
        """Where no latency helps it isn't said that one may."""
        app = self.file((self.APP % 4096).replace("words = 1, per = 64", "words = 3, per = 2"), "few.toml")
        told = self.where("allocate", self.chip_of(32), app)
        self.assertIn("No path that it may take has slots enough that are free, whatever its latency is.", told)
        self.assertIn("More slots, a greater detour or a lower rate may help", told)


class Endings(unittest.TestCase):
    """How a script ends, whatever fails."""

    def ended(self, work):
        """The status, and what stands on standard error."""
        ours, theirs = os.pipe()
        child = os.fork()
        if child == 0:
            os.dup2(theirs, 2)
            os._exit(ending.ended("design", work, []))
        os.close(theirs)
        with os.fdopen(ours, "rb") as pipe:
            said = pipe.read().decode()
        return os.waitstatus_to_exitcode(os.waitpid(child, 0)[1]), said

    def raises(self, error):
        def work(_):
            raise error
        return self.ended(work)

    def test_each_ending(self):
        for error, status, said in (
            (ending.Stop(3, "so\n\x1b"), 3, "design: so\\x0a\\x1b\n"),
            (ending.Stop(2), 2, ""),
            (ending.Passed(4, "read fault chip\n"), 4, "read fault chip\n"),
            (KeyboardInterrupt(), 130, ""),
            (MemoryError(), 6, "design: memory is wanting\n"),
        ):
            self.assertEqual(self.raises(error), (status, said))

    def test_a_fault_of_the_script_is_one_line(self):
        status, said = self.raises(KeyError("a\nb"))
        self.assertEqual(status, 70)
        self.assertRegex(
            said, r"\Adesign: this is a fault of the script, KeyError in hostile_tests.py:\d+: please report it, .*'a\\nb'\n\Z")

    def test_pages_of_commands(self):
        page = "Of all.\n\na b X\n  [Y]\n    Text.\n\n    More.\n\na c\n    Other.\n\nLast.\n"
        self.assertEqual(ending.page_of(page, "a", "b"), "a b X\n  [Y]\n    Text.\n\n    More.\n")
        self.assertEqual(ending.page_of(page, "a", "c"), "a c\n    Other.\n")


class Pages(unittest.TestCase):
    """The pages of `design`, without the program."""

    def test_each_command_has_its_page(self):
        page = subprocess.run([TOP / "design", "help"], capture_output=True, text=True, check=True).stdout
        commands = set(re.findall(r"^design ([a-z]+) ", page, re.M))
        self.assertLessEqual({"chip", "words", "receivers", "switches", "fit", "where"}, commands)
        for command in commands:
            for words in ((command, "--help"), (command, "-h"), ("help", command)):
                ran = subprocess.run([TOP / "design", *words], capture_output=True, text=True, check=False)
                self.assertEqual((ran.returncode, ran.stderr), (0, ""))
                self.assertRegex(ran.stdout, rf"\Adesign {command} ")
                self.assertIn(ran.stdout, page)
        ran = subprocess.run([TOP / "design", "words", "a", "b", "c", "--help"], capture_output=True, text=True, check=False)
        self.assertRegex(ran.stdout, r"\Adesign words ")

    def test_pages_of_draw(self):
        for command in ("plan", "run", "report", "refusal", "wave"):
            ran = subprocess.run([TOP / "draw", command, "--help"], capture_output=True, text=True, check=False)
            self.assertEqual((ran.returncode, ran.stderr), (0, ""))
            self.assertRegex(ran.stdout, rf"\Adraw {command} ")


class Toml(unittest.TestCase):
    """The reader of TOML 1.1: what it tells, and where it stops."""

    def test_values(self):
        for text, value in (
            ("0x1F", 31), ("-0", 0), ("1_000", 1000), ("1e3", 1000.0), ("-inf", float("-inf")), ("true", True), ("'a\\b'", "a\\b"),
            ('"\\x41\\u00e9\\U0001F600\\e"', "A\u00e9\U0001f600\x1b"), ('"""\na\\\n   b"""', "ab"), ("'''\na'b'''", "a'b"),
            ('"""a"b""c"""""', 'a"b""c""'), ("[1, [2,],\n# x\n 'y',]", [1, [2], "y"]), ("{a.b = 1,\n c = {}, }", {"a": {"b": 1}, "c": {}}),
            ("1979-05-27 07:32", "1979-05-27 07:32"), ("['a', \"\\u0062\", # c\n 'd']", ["a", "b", "d"]), ('["""a""", "b"]', ["a", "b"]),
            ("['', '''x''']", ["", "x"]), ('["",""]', ["", ""]),
        ):
            with self.subTest(text=text):
                self.assertEqual(toml_lines.read(f"v = {text}\n".encode())[0]["v"], value)

    def test_what_is_no_toml(self):
        for text in (
            "a = 1 b = 2", "a = [1", "a = 01", "a = 1__0", "a = +0x1", "a = 'x", 'a = "\\q"', "[a]\n[a]", "a = 1\na = 2", "a", "= 1", "a = ",
            "a = {b = 1}\na.c = 2", "a = [1]\n[[a]]", "a = \"\x00\"", "# \x07", "a = 1e", "a = .5", "a = 5.", "a.b = 1\n[a.b]\nc = 1",
            "a = 9223372036854775808", "a = 1e309", "a = 2021-13-01", "a = 25:00", "\ufeff\ufeffa = 1", "a = '''x", "a\n= 1", "[a\n]",
        ):
            with self.subTest(text=text), self.assertRaises(toml_lines.TomlError):
                toml_lines.read(text.encode())

    def test_lines_of_strings(self):
        _, lines = toml_lines.read(b"x = 1\na = [\n 'b', # c\n\n \"d\",\n [],\n 'e']\n")
        self.assertEqual([lines["a", place] for place in range(4)], [3, 5, 6, 7])
        self.assertEqual((lines.get(("a", 4)), lines.get(("a", 0, "b")), lines.get(())), (None, None, None))

    def test_memory(self):
        """What is read of a key of many parts, or of many values, has a limit."""
        for text, most in ((b"a" + 20_000 * b".a" + b" = 1", 50), (b"a = [" + 300_000 * b"[]," + b"]", 100)):
            tracemalloc.start()
            try:
                toml_lines.read(text)
            except toml_lines.TomlError as error:
                self.assertRegex(str(error), "more than (80 parts|200,000 keys and values)")
            peak = tracemalloc.get_traced_memory()[1]
            tracemalloc.stop()
            self.assertLess(peak, most << 20)

    def test_depth(self):
        for depth, is_read in ((80, True), (81, False), (100_000, False)):
            for text in (depth * "[" + depth * "]", depth * "{a=" + "1" + depth * "}"):
                try:
                    toml_lines.read(f"x = {text}\n".encode())
                    self.assertTrue(is_read)
                except toml_lines.TomlError as error:
                    self.assertFalse(is_read)
                    self.assertEqual(error.line, 1)
