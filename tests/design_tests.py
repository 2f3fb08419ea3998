"""Tests of `./design`: each shape through `aeth`, each kind of trace by what it may hold, each refusal with its words."""
from collections import Counter
from tempfile import NamedTemporaryFile
import csv
import io
import re
import subprocess
import sys
import tomllib
import unittest

from home import Home, PROGRAM, TOP

sys.path.append(str(TOP / "design.d"))
import files  # noqa: E402: its folder is told above
import given  # noqa: E402
import rules  # noqa: E402
import toml_lines  # noqa: E402
import usage  # noqa: E402
import where  # noqa: E402

EXAMPLES = TOP / "examples"


def rows(text):
    return list(csv.DictReader(io.StringIO(text)))


@unittest.skipUnless(PROGRAM, "there is no built program")
class Designs(unittest.TestCase):
    """Tests that share a folder with the scripts and the program."""

    @classmethod
    def setUpClass(cls):
        cls.home = Home(PROGRAM)
        cls.home.run("slots", "1", "1", "1", "0")  # it is built, and says so, in the first call

    @classmethod
    def tearDownClass(cls):
        cls.home.end()

    def run_script(self, script, *words):
        return self.home.run(*words, script=script)

    def file(self, name, text):
        return self.home.put(name, text)

    def made(self, name, *words):
        status, text, errors = self.run_script("design", *words)
        self.assertEqual(status, 0, errors)
        return self.file(name, text)


class Statuses(Designs):
    """Each status below that of a failing write as the system gets it, with its text on the one stream or the other."""

    def test_statuses(self):
        pair, one = EXAMPLES / "pair.toml", EXAMPLES / "one.toml"
        twice = self.file("twice.toml", pair.read_text(encoding="utf-8").replace('["r0", "r1"]', '["r0", "r0"]'))
        plan = self.file("few.plan", (EXAMPLES / "one.plan").read_text(encoding="ascii").replace("3 0,4", "3 0"))
        for words, tells in (
            (("check", pair, one, EXAMPLES / "one.plan"), (0, "accepted\n", "")),
            (("checks", pair), (1, "", "usage\n")),
            (("chip", twice), (2, "", "refused chip 4 NameTwice 1 r0\n")),
            (("check", pair, one, plan), (3, "", "broken 6 4 0\n")),
            (("chip", "no_such_file.toml"), (4, "", "read fault chip\n")),
        ):
            with self.subTest(words=words):
                ran = subprocess.run([PROGRAM, *words], capture_output=True, text=True, check=False)
                self.assertEqual((ran.returncode, ran.stdout, ran.stderr), tells)


class Chips(Designs):
    """What `aeth chip` says of each shape: routers, links, and the greatest least distance."""

    SHAPES = (
        # shape, routers, links, far: worked out by hand
        ("mesh 4 4", 16, 2 * 16 + 2 * 24, 8),
        ("mesh 8 8", 64, 2 * 64 + 2 * 112, 16),
        ("torus 4 4", 16, 2 * 16 + 2 * 32, 6),
        ("torus 8 8", 64, 2 * 64 + 2 * 128, 10),
        ("ring 16", 16, 2 * 16 + 2 * 16, 10),
        ("ring 64", 64, 2 * 64 + 2 * 64, 34),
        ("tree 16 4", 16, 2 * 16 + 2 * 15, 6),
        ("tree 64 4", 64, 2 * 64 + 2 * 63, 8),
        ("mesh 1 1", 1, 2, 2),
        ("torus 2 2", 4, 2 * 4 + 2 * 4, 4),
        ("ring 2", 2, 2 * 2 + 2, 3),
    )

    def test_each_shape_is_a_chip(self):
        for shape, routers, links, far in self.SHAPES:
            for more in ((), ("--slots", "128"), ("--delay", "4")):
                with self.subTest(shape=shape, more=more):
                    path = self.made("chip", "chip", *shape.split(), *more)
                    status, text, errors = self.run_script("aeth", "chip", path)
                    slots = 128 if "--slots" in more else 64
                    tells = f"chip slots {slots} routers {routers} nis {routers} links {links} far {far} unreached 0\n"
                    self.assertEqual((status, text), (0, tells), errors)

    def test_links_have_their_numbers(self):
        text = self.run_script("design", "chip", "ring", "3", "--delay", "2")[1]
        chip = tomllib.loads(text)
        told = [int(number) for numbers in re.findall(r"(?m)# ([\d, ]+)$", text) for number in numbers.split(", ")]
        self.assertEqual(told, list(range(len(chip["link"]))))
        line = next(line for line in text.splitlines() if line.endswith("# 10, 11"))
        self.assertIn('{from = "r2", to = "r0", delay = 2}, {from = "r0", to = "r2", delay = 2},', line)

    def test_interfaces_at_named_routers(self):
        path = self.made("chip", "chip", "ring", "4", "--at", "r0,r2,r2")
        self.assertEqual(self.run_script("aeth", "chip", path)[1], "chip slots 64 routers 4 nis 3 links 14 far 4 unreached 0\n")

    def test_what_makes_no_chip(self):
        for words, tells in (
            ("mesh 9 9", "a chip has 1 to 64 routers"),
            ("mesh 4", "mesh has 2 sizes, and 1 are given"),
            ("tree 9 8", "router r0 would have 9 links each way, and 8 are allowed"),
            ("ring 3 --at r3", "there is no router r3: they are r0 to r2"),
            ("ring 3 --slots 129", "a slot table has 1 to 128 slots"),
            ("ring 3 --delay 5", "a link has a delay of 1 to 4 cycles"),
        ):
            with self.subTest(words=words):
                self.assertEqual(self.run_script("design", "chip", *words.split()), (1, "", f"design: {tells}\n"))


class Traces(Designs):
    """Words at the rates that channels wish, receivers and switches, for the video pipeline."""

    FILES = (EXAMPLES / "mesh.toml", EXAMPLES / "video.toml")
    # In 960 cycles: 1/8 gives 120, 1/4 gives 240, 1/64 gives 15, 1/16 gives 60.
    DECODE = {"vin_mem": 120, "mem_dec": 120, "dec_mem": 120, "mem_scal": 120, "scal_disp": 240, "mem_aud": 15,
              "cpu_mem": 60, "cpu_ctl": 15}

    def words(self, *more):
        status, text, errors = self.run_script("design", "words", *self.FILES, "decode", "960", *more)
        self.assertEqual(status, 0, errors)
        return rows(text)

    def test_each_kind_has_the_wished_words(self):
        for kind in ("periodic", "greedy", "random"):
            with self.subTest(kind=kind):
                words = self.words("--kind", kind)
                counts = Counter(row["connection"] for row in words if row["side"] == "fwd")
                self.assertEqual(counts, self.DECODE)
                cycles = [int(row["cycle"]) for row in words]
                self.assertEqual(cycles, sorted(cycles))
                self.assertLess(cycles[-1], 960)

    def test_periodic_words_are_evenly_apart(self):
        cycles = [int(row["cycle"]) for row in self.words() if row["connection"] == "scal_disp"]
        self.assertEqual(cycles, list(range(0, 960, 4)))

    def test_half_the_load_is_half_the_words(self):
        counts = Counter(row["connection"] for row in self.words("--load", "50") if row["side"] == "fwd")
        self.assertEqual(counts["scal_disp"], 120)

    def test_seeds_differ_and_repeat(self):
        one, two = (self.words("--kind", "random", "--seed", seed) for seed in ("1", "2"))
        self.assertNotEqual(one, two)
        self.assertEqual(one, self.words("--kind", "random", "--seed", "1"))

    def test_no_word_of_greedy_traffic_is_late(self):
        plan = self.file("plan", self.run_script("aeth", "allocate", *self.FILES)[1])
        words = self.made("words", "words", *self.FILES, "decode", "2000", "--kind", "greedy")
        receivers = self.made("receivers", "receivers", *self.FILES, "decode", "2000", "--late")
        switches = self.made("switches", "switches", *self.FILES, "2000", "decode", "menu", "record")
        status, log, errors = self.run_script("aeth", "simulate", *self.FILES, plan, words, receivers, switches, "2000")
        self.assertEqual(status, 0, errors)
        landings = [list(map(int, line.split()[1:5])) for line in log.splitlines() if line.startswith("land ")]
        self.assertGreater(len(landings), 500)
        self.assertEqual([row for row in landings if row[2] > row[3]], [])

    def test_words_go_with_switches(self):
        """Connections that `menu` keeps go on; what `record` opens goes when the drain is over."""
        switches = self.made("of.csv", "switches", *self.FILES, "3000", "decode", "menu", "record", "--drain", "40")
        status, text, errors = self.run_script("design", "words", *self.FILES, switches, "3000")
        self.assertEqual(status, 0, errors)
        cycles = {}
        for row in rows(text):
            cycles.setdefault(row["connection"], []).append(int(row["cycle"]))
        self.assertEqual(cycles["scal_disp"], list(range(0, 2000, 4)))
        self.assertEqual(cycles["mem_dec"], list(range(0, 1000, 8)))
        self.assertEqual(cycles["cam_mem"], list(range(2040, 3000, 8)))
        self.assertEqual(cycles["vin_mem"], [*range(0, 1000, 8), *range(2040, 3000, 8)])
        status, text, _ = self.run_script("design", "receivers", *self.FILES, switches, "3000", "--stall", "cam_mem,fwd,9")
        self.assertEqual((status, text), (0, "connection,side,cycle,pull\ncam_mem,fwd,9,0\n"))

    def test_switches_behind_the_run_count_for_nothing(self):
        switches = self.file("two.csv", "cycle,use,drain\n0,menu,0\n960,decode,9\n")
        ran = [self.run_script("design", "words", *self.FILES, use, "960") for use in (switches, "menu")]
        self.assertEqual(*ran)

    def test_a_stalled_receiver_takes_nothing(self):
        status, text, _ = self.run_script("design", "receivers", *self.FILES, "decode", "100", "--stall", "cpu_mem,fwd,7")
        self.assertEqual((status, text), (0, "connection,side,cycle,pull\ncpu_mem,fwd,7,0\n"))

    def test_a_late_receiver_takes_in_the_end(self):
        """In a longer run too: its last row lets it take all, where the cycles end within its delay as well."""
        app = (EXAMPLES / "one.toml").read_text(encoding="utf-8").replace("delay = 0", "delay = 4", 1)
        files_ = (EXAMPLES / "pair.toml", self.file("late.toml", app))
        for cycles, last in ((10, (5, 9)), (11, (10, 14)), (1_000_000, (999_995, 999_999)), (999_998, (999_995, 999_999))):
            made = rows(self.run_script("design", "receivers", *files_, "main", str(cycles), "--late")[1])
            found = [(int(row["cycle"]), row["pull"]) for row in made]
            self.assertEqual(found[-2:], [(last[0], "0"), (last[1], "255")])
            self.assertEqual(found, sorted(found))

    def test_switches_are_evenly_apart(self):
        status, text, _ = self.run_script("design", "switches", *self.FILES, "3000", "decode", "menu", "record", "--drain", "9")
        self.assertEqual((status, text), (0, "cycle,use,drain\n0,decode,0\n1000,menu,9\n2000,record,9\n"))

    def test_with_a_plan_each_switch_is_over_by_the_next(self):
        """Without `--plan` this file is made, and `aeth` refuses it."""
        plan = self.file("of.plan", self.run_script("aeth", "allocate", *self.FILES)[1])
        uses = ("300", "decode", "menu", "record", "--drain", "90")
        self.assertEqual(self.run_script("design", "switches", *self.FILES, "3000", *uses[1:], "--plan", plan)[0], 0)
        switches = self.made("near.csv", "switches", *self.FILES, *uses)
        traces = [self.made(f"none.{kind}", kind, *self.FILES, "decode", "1") for kind in ("words", "receivers")]
        refused = self.run_script("aeth", "simulate", *self.FILES, plan, *traces, switches, "300")[2]
        over = re.fullmatch(r"refused switches 4 Overlap 3 (\d+)\n", refused)[1]
        status, text, errors = self.run_script("design", "switches", *self.FILES, *uses, "--plan", plan)
        tells = f"design: the switch to menu in cycle 100 takes up to cycle {over}, and must be over by cycle 200\n"
        self.assertEqual((status, text, errors), (1, "", tells))

    def test_what_makes_no_trace(self):
        none = "no use case has the name play: they are decode, menu, record"
        for words, tells in (
            (("words", *self.FILES, "play", "10"), none + "; the path of a file of switches has a dot or a slash"),
            (("switches", *self.FILES, "10", "menu", "--drain", "1000001"), "a drain is 0 to 1,000,000 cycles"),
            (("receivers", *self.FILES, "menu", "9", "--stall", "cpu_mem,fwd,-5"),
             "argument --stall: this must be CONN,SIDE,CYCLE, with a cycle of 0 to 1,000,000"),
            (("fit", *self.FILES, "--slots", "a"), "argument --slots: these must be numbers with commas"),
            (("fit", *self.FILES, "--costs", "foo"), "a cost is hops or pressure"),
            (("switches", *self.FILES, "10", "play"), none),
            (("switches", *self.FILES, "90", "decode", "menu", "record", "--drain", "31"),
             "these switches are 30 cycles apart, and each takes its drain of 31 and more"),
            (("words", *self.FILES, "decode", "1000001"), "a run has 1 to 1,000,000 cycles"),
            (("receivers", *self.FILES, "menu", "9", "--stall", "vin_mem,fwd,0"), "no channel vin_mem fwd is in menu"),
        ):
            with self.subTest(words=words):
                self.assertEqual(self.run_script("design", *words), (1, "", f"design: {tells}\n"))
        unread = self.run_script("design", "words", *self.FILES, "./none", "9")
        self.assertEqual(unread, (4, "", "design: ./none: No such file or directory\n"))

    def test_what_is_no_file_of_switches(self):
        head, row = "cycle,use,drain\n", "there must be a cycle, a use case and a drain, numbers of 0 to 1,000,000"
        for text, tells in (
            ("", ": the columns must be cycle,use,drain"),
            ("cycle,use\n0,menu\n", ": the columns must be cycle,use,drain"),
            (head, ": the first switch must be in cycle 0, with a drain of 0"),
            (head + "1,menu,0\n", ": the first switch must be in cycle 0, with a drain of 0"),
            (head + "0,menu,1\n", ": the first switch must be in cycle 0, with a drain of 0"),
            (head + "0,menu,0\n5,decode,0\n4,menu,0\n", ", row 3: cycle 4 is before that of the row above, 5"),
            (head + "0,menu,0\n5,decode,-1\n", f", row 2: {row}"),
            (head + "0,menu,0\n1_0,decode,0\n", f", row 2: {row}"),
            (head + "0,menu,0\n5,decode\n", f", row 2: {row}"),
            (head + "0,play,0\n", ", row 1: no use case has the name play: they are decode, menu, record"),
            (head + "".join(f"{cycle},menu,0\n" for cycle in range(1025)), ": a run has at most 1,024 rows of switches"),
        ):
            with self.subTest(text=text[:60]):
                path = self.file("wrong.csv", text)
                ran = self.run_script("design", "words", *self.FILES, path, "9")
                self.assertEqual(ran, (1, "", f"design: {path}{tells}\n"))

    def test_with_a_plan_no_word_is_outside(self):
        """Those of a whole period in its first cycle, in the sessions that the switches open."""
        plan = self.file("of.plan", self.run_script("aeth", "allocate", *self.FILES)[1])
        switches = self.made("of.csv", "switches", *self.FILES, "3000", "decode", "record", "menu", "decode", "record")
        receivers = self.made("of.receivers.csv", "receivers", *self.FILES, switches, "3000")
        outside = []
        for more in ((), ("--plan", plan)):
            words = self.made("of.words.csv", "words", *self.FILES, switches, "3000", "--kind", "greedy", *more)
            status, log, errors = self.run_script("aeth", "simulate", *self.FILES, plan, words, receivers, switches, "3000")
            self.assertEqual(status, 0, errors)
            outside.append(sum(int(line.split(" ")[3]) for line in log.splitlines() if line.startswith("outside ")))
        self.assertGreater(outside[0], 0)
        self.assertEqual(outside[1], 0)
        refused = self.run_script("design", "words", *self.FILES, switches, "9", "--plan", EXAMPLES / "one.plan")
        self.assertEqual(refused[0], 2)

    def test_words_are_counted_as_they_are_made(self):
        """A rate that isn't whole gives a word more than its part of the cycles."""
        app = (EXAMPLES / "one.toml").read_text(encoding="utf-8").replace("words = 1, per = 2", "words = 1999997, per = 1000000")
        files_ = EXAMPLES / "pair.toml", self.file("fast.toml", app)
        status, text, errors = self.run_script("design", "words", *files_, "main", "500001")
        self.assertEqual((status, text), (1, ""))
        self.assertIn("these are more than 1,000,000 words", errors)


class Help(Designs):
    """The page of help."""

    WORDS = {"chip": ("ring", "3"), "words": (*Traces.FILES, "menu", "99"), "switches": (*Traces.FILES, "99", "menu"),
             "fit": (EXAMPLES / "pair.toml", EXAMPLES / "one.toml"), "app": (EXAMPLES / "camera.flows.csv", "--clock", "1GHz")}

    # Words without which nothing stands in their place.
    WITHOUT = {"--at", "--plan", "--stall", "--wave", "--seats", "--chip", "--smooth", "--free", "--words", "--receivers",
               "--evenly"}

    def test_defaults(self):
        """Each command makes the same without and with the words that its page says it has then."""
        page = self.run_script("design", "help")[1]
        for command, text in re.findall(r"^design (\w+) (.*?)^$", page, re.M | re.S):
            defaults = re.findall(r"--\w+ [\w,]*\w", "".join(re.findall(r"Without th\w+ words?: (.*)", text)))
            text = text.replace("[--clock CLOCK [--word SIZE]]", "")
            optional = set(re.findall(r"\[(--\w+) ", text)) - self.WITHOUT
            self.assertEqual({default.split(" ")[0] for default in defaults}, optional, command)
            if command in self.WORDS:
                made = [self.run_script("design", command, *self.WORDS[command], *more)[1]
                        for more in ((), " ".join(defaults).split())]
                self.assertGreater(made[0].count("\n"), 1)
                self.assertEqual(*(re.sub("# Made by: .*", "", text) for text in made))


class Fits(Designs):
    """Which table sizes grant everything."""

    def test_the_smallest_table(self):
        words = (EXAMPLES / "pair.toml", EXAMPLES / "one.toml", "--slots", "1,2,4,8", "--detours", "0", "--costs", "hops")
        status, text, errors = self.run_script("design", "fit", *words)
        self.assertEqual(status, 0, errors)
        self.assertIn("The smallest table that grants everything has", text)

    def test_none_fits(self):
        words = (EXAMPLES / "mesh.toml", EXAMPLES / "video.toml", "--slots", "1", "--detours", "0", "--costs", "hops")
        status, text, _ = self.run_script("design", "fit", *words)
        self.assertEqual(status, 3)
        self.assertTrue(text.endswith("None of these grants everything.\n"))


class Refusals(Designs):
    """Where a refusal points: changes of the examples, each with the line that it is about."""

    def where(self, old, new, example, place, *words):
        text = (EXAMPLES / example).read_text(encoding="utf-8")
        self.assertEqual(text.count(old), 1)
        path = self.file(example, text.replace(old, new))
        line = text[: text.index(old)].count("\n") + 1
        given = [EXAMPLES / word if (EXAMPLES / word).exists() else word for word in words]
        given[place] = path
        status, _, errors = self.run_script("design", "where", *given)
        self.assertEqual(status, 2, errors)
        return errors.replace(str(path), "FILE"), line

    def test_a_pipe_is_read_once(self):
        status, _, errors = self.home.design("where", "chip", "/dev/stdin", given=b"version = 1\n")
        self.assertEqual(status, 2, errors)
        self.assertIn("  /dev/stdin: the root, key `link` is missing\n", errors)

    def test_files_of_toml(self):
        one = ("app", "pair.toml", "one.toml")
        for old, new, example, place, words, tells in (
            ("slots = 8", "slots = 129", "pair.toml", 1, ("chip", "pair.toml"), "`slots` is 129"),
            ('to = "r1"}, {from = "r1", to = "n1"}', 'to = "r7"}, {from = "r1", to = "n1"}', "pair.toml", 1,
             ("chip", "pair.toml"), "`link` 2 `to` is 'r7'"),
            ("detour = 0", "detour = 5", "one.toml", 2, one, "`detour` is 5"),
            ("words = 1, per = 2", "words = 5, per = 2", "one.toml", 2, one, "`connection` 0 (c0) `fwd` `words` is 5"),
            ('to = "mem"', 'to = "cpu"', "one.toml", 2, one, "`connection` 0 (c0) `to` is 'cpu'"),
            ('ni = "n1"', 'ni = "n9"', "one.toml", 2, one, "`core` 1 (mem) `ni` is 'n9'"),
            ("latency = 6, ", "", "one.toml", 2, one, "`connection` 0 (c0) `fwd`, key `latency` is missing"),
        ):
            with self.subTest(new=new):
                said, line = self.where(old, new, example, place, *words)
                self.assertIn(f"FILE, line {line}: {tells}", said)
                self.assertIn("is broken where", said)

    def test_what_is_allowed(self):
        """The sentence on the place, and the part of the rule that speaks of it."""
        one, pair = ("app", "pair.toml", "one.toml"), ("chip", "pair.toml")
        many = ", ".join(f'"k{count}"' for count in range(65))
        slots = "`slots` isn't 1 to 128 where `version` is 2, and 1 to 64 elsewhere.\n"
        for words, old, new, tells, allowed in (
            (pair, "slots = 8", f"slots = {10**20}", f"the number {10**20} is past 64 bits", "64 bits"),
            (pair, "slots = 8", "a = " + 81 * "[" + 81 * "]", "arrays or inline tables stand too deep", "80 arrays"),
            (one, "detour = 0", "detour = 1e309", "the number 1e309 is past 64 bits", "aren't TOML"),
            (pair, "slots = 8", "slot = 8", "the root, key `slot` is unknown: `slots` may be meant", "are `version` (integer), `slots` (integer),"),
            (pair, "slots = 8", "slots = [8]", "the root, key `slots` has another type", "`slots` (integer)"),
            (pair, "slots = 8", "slots = 65", "`slots` is 65", slots),
            (pair, '"r0", "r1"', f'"r0", "r1", {many}', "`routers` has 67 of them", "where the routers aren't 1 to 64.\n"),
            (pair, '"n0", "n1"', '"n0", "N1"', "`nis` 1 is 'N1'", "an interface's text is no name. A name has 1 to 32 bytes"),
            (pair, '"n0", "n1"', '"n0", "n0"', "`nis` 1 is 'n0', as in line 5", "equals an earlier one"),
            (one, 'ni = "n1"', 'ni = "n7"', "`core` 1 (mem) `ni` is 'n7'", "where each `ni` that stands names no interface.\n"),
        ):
            example, place = words[-1], len(words) - 1
            with self.subTest(new=new):
                said, line = self.where(old, new, example, place, *words)
                self.assertIn(f"FILE, line {line}: {tells}", said)
                self.assertIn(allowed, said)

    def test_places_of_rows(self):
        pair, two = EXAMPLES / "pair.toml", EXAMPLES / "two.toml"
        text = self.run_script("aeth", "allocate", pair, two)[1]
        plan = self.file("two.plan", text)
        traces = [EXAMPLES / f"two.{kind}.csv" for kind in ("words", "receivers", "switches")]
        for rows_, tells in (
            ("0,u0,0\n6,u1,0\n7,u0,0", "line 3: 6,u1,0\n  FILE, line 4: 7,u0,0   (the switch before is over in cycle 10)"),
            ("\n".join(f"{100 * row},u{row % 2},0" for row in range(1025)), "FILE: it has 1,025 rows"),
            ("0,u0,-1", "The columns `cycle,use,drain` have 0 to 1,000,000; a name; 0 to 1,000,000."),
        ):
            traces[2] = self.file("switches", f"cycle,use,drain\n{rows_}\n")
            errors = self.run_script("design", "where", "simulate", pair, two, plan, *traces, "24")[2]
            self.assertIn(tells, errors.replace(str(traces[2]), "FILE"))
        broken = self.file("broken.plan", text.replace("seat dsp n0 1\n", ""))
        errors = self.run_script("design", "where", "check", pair, two, broken)[2]
        self.assertIn("it has no line `seat dsp n0 ..`", errors)

    def test_numbers_of_plans(self):
        """What is wrong with a plan's path, slots or two grants, where `check` names their lines alone."""
        pair, one = EXAMPLES / "pair.toml", EXAMPLES / "one.toml"
        text = (EXAMPLES / "one.plan").read_text(encoding="ascii")
        for number, old, new, tells in (
            (5, "fwd 0,4,3", "fwd 0,4,5,1", "It ends at n0, and not at n1."),
            (5, "fwd 0,4,3", "fwd 4,3", "Link 4 leads from r0 to r1, and the way stands at n0 there."),
            (5, "fwd 0,4,3", "fwd 0,4,5,4,3", "It comes to r0 twice."),
            (6, "3 0,4", "3 0", "It needs 2 slots, and has 1."),
            (6, "3 0,4", "3 0,1", "The greatest gap of its slots is 7. A latency of 6 on a path of 3 cycles allows one of 4."),
        ):
            with self.subTest(new=new):
                broken = self.file("broken.plan", text.replace(old, new))
                status, _, errors = self.run_script("design", "where", "check", pair, one, broken)
                self.assertEqual((status, errors.splitlines()[0]), (3, f"broken {number} 4 0"))
                self.assertIn(tells, errors)

    def test_grants_that_meet(self):
        """Two connections from one core to another, of which both have slot 0 of the first link."""
        one = (EXAMPLES / "one.toml").read_text(encoding="utf-8")
        head, connection = one.split("[[connection]]")
        connection, use = connection.split("[[use]]")
        other = connection.replace('"c0"', '"c1"')
        app = self.file("both.toml", "[[connection]]".join([head, connection, other]) + "[[use]]" + use.replace('["c0"]', '["c0", "c1"]'))
        grants = "".join(f"grant {name} 0 fwd 0,4,3 0,4\ngrant {name} 0 back 2,5,1 {slot}\n" for name, slot in (("c0", 0), ("c1", 1)))
        plan = self.file("both.plan", f"plan 1 8\nseat cpu n0 0\nseat mem n1 0\n{grants}end\n")
        errors = self.run_script("design", "where", "check", EXAMPLES / "pair.toml", app, plan)[2]
        self.assertEqual(errors.splitlines()[0], "broken 7 4 6")
        self.assertIn("Both have slot 0 of link 0, from n0 to r0.", errors)

    def test_rows_of_traces(self):
        words = ("simulate", "pair.toml", "two.toml", "two.plan", "two.words.csv", "two.receivers.csv", "two.switches.csv", "24")
        plan = self.file("two.plan", self.run_script("aeth", "allocate", EXAMPLES / "pair.toml", EXAMPLES / "two.toml")[1])
        words = [plan if word == "two.plan" else word for word in words]
        said, line = self.where("c1,fwd,10", "c9,fwd,10", "two.words.csv", 4, *words)
        self.assertIn(f"FILE, line {line}: c9,fwd,10,200", said)

    def refused(self, chip, app):
        """What is said of the one unit that is refused."""
        status, _, errors = self.run_script("design", "where", "allocate", chip, app)
        line, tells, *more = errors.splitlines()
        self.assertEqual((status, line.split(" ")[:2]), (3, ["refused", "unit"]))
        self.assertIn("had no admissible path with a suitable set of free slots.", tells)
        return "\n".join(more)

    def test_a_latency_below_every_path(self):
        """It is told one below the delay of the quickest path, and with that delay the channel is granted."""
        pair, wide = EXAMPLES / "pair.toml", EXAMPLES / "wide.toml"
        text = (EXAMPLES / "one.toml").read_text(encoding="utf-8")
        for chip, delay in ((pair, 3), (wide, 4)):
            more = self.refused(chip, self.file("app", text.replace("latency = 6", f"latency = {delay - 1}")))
            self.assertIn(f"It wishes a latency of {delay - 1}, and the quickest path from `cpu` on n0 to `mem` on n1 ", more)
            self.assertIn(f" takes {delay} cycles. It needs a greater latency, or a shorter way: more slots don't help.", more)
            app = self.file("app", text.replace("latency = 6", f"latency = {delay}"))
            self.assertEqual(self.run_script("aeth", "allocate", chip, app)[0], 0)
        more = self.refused(pair, EXAMPLES / "roll.toml")
        self.assertIn("a latency of 1, and the quickest path from any place of `acc` to `cpu` on n0 takes 2 cycles.", more)

    def test_no_path(self):
        one = (EXAMPLES / "one.toml").read_text(encoding="utf-8").replace("latency = 6", "latency = 99")
        gap = (EXAMPLES / "pair.toml").read_text(encoding="utf-8").replace('{from = "r0", to = "r1"},', "")
        more = self.refused(self.file("gap", gap), self.file("app", one))
        self.assertIn("No links lead from `cpu` on n0 to `mem` on n1.", more)
        for routers, shut in ((7, False), (8, True)):
            ends = self.made("chip", "chip", "tree", str(routers), "1", "--at", f"r0,r{routers - 1}", "--slots", "8")
            app = self.file("app", one.replace("latency = 12", "latency = 99"))
            self.assertEqual(self.run_script("aeth", "allocate", ends, app)[0], 3 if shut else 0)
        more = self.refused(ends, app)
        self.assertIn("A path from `cpu` on n0 to `mem` on n1 has at least 9 links, and 8 are allowed.", more)

    def test_slots_that_are_too_few(self):
        one = (EXAMPLES / "one.toml").read_text(encoding="utf-8").replace('["c0"]', '["c0", "c1"]')
        connection = one[one.index("[[connection]]") : one.index("[[use]]")]
        other = connection.replace("c0", "c1").replace("words = 1, per = 2", "words = 2, per = 1")
        two = one.replace("[[use]]", other + "[[use]]")
        more = self.refused(EXAMPLES / "pair.toml", self.file("app", two))
        self.assertIn("More slots, a greater detour or a lower rate may help, or cores without", more)

    def test_a_carriage_return(self):
        words = (EXAMPLES / "pair.toml", EXAMPLES / "one.toml")
        text = (EXAMPLES / "one.plan").read_text(encoding="ascii")
        for old, new, line, tells in (
            ("\n", "\r\n", "line 1: plan 1 8", "it ends with a carriage return"),
            ("n1 0\n", "n1 0\r\n", "line 3: seat mem n1 0", "it ends with a carriage return"),
            ("n1 0\n", "n1 0 \n", "line 3: seat mem n1 0", "it ends with a blank"),
            ("end\n", "end", "line 6: end", "without a line feed"),
        ):
            plan = self.home.room / "ends.plan"
            plan.write_bytes(text.replace(old, new).encode())
            status, _, errors = self.run_script("design", "where", "check", *words, plan)
            self.assertEqual(status, 2)
            self.assertIn(f"{plan}, {line}   ({tells}", errors)

    def test_words_that_are_no_command(self):
        for words, tells in (
            ("", "These words are no command: `./aeth help` lists them."),
            ("slot 8", "There is no command `slot`: `./aeth help` lists them."),
            ("slots 8", "The words of `slots` must be SIZE NEED GAP FREE, and 1 is given: `./aeth help slots` tells more."),
            ("chip", "The word of `chip` must be CHIP, and none are given: `./aeth help chip` tells more."),
            ("explain a b c d", "The words of `explain` must be CHIP APP [CERT], and 4 are given: `./aeth help explain`"),
            ("slots 8 1 1 0,8", "FREE is `0,8`, and must be a rising list of slots below 8 with commas, or - for none."),
            ("server 8 08 3 0", "NEED is `08`, and must be a number from 1 to 128, in digits alone and without a 0 at"),
            ("links a b c d e f 10001", "CYCLES is `10001`, and must be 1 to 10,000. `./aeth help links` tells more."),
            ("tables a b c A", "USE is `A`, and must be a name: 1 to 32 of a-z, 0-9 and _. `./aeth help tables` tells more."),
            ("chain a b c u c0:fwd:3 f g 9", "CHAIN is `c0:fwd:3`, and must be 1 to 16 items CONN:SIDE:WORK with commas,"),
        ):
            status, _, errors = self.run_script("design", "where", *words.split())
            self.assertEqual((status, errors.splitlines()[0]), (1, "usage"), words)
            self.assertIn(f"  {tells}", errors)

    def test_words_at_their_limits(self):
        """The program answers `usage` exactly where a word is said to be wrong."""
        run = "simulate a b c d e f"
        chain = ",".join(f"c{place}:fwd:4096" for place in range(15))
        for words in (
            "slots 128 1 0 0", "slots 129 1 0 0", "slots 0 1 0 0", "slots 8 128 0 0", "slots 8 129 0 0", "slots 8 0 0 0",
            "slots 8 1 4096 0", "slots 8 1 4097 0", "slots 8 1 1 -", "slots 8 1 1 7", "slots 8 1 1 8", "slots 8 1 1 1,1",
            "slots 8 1 1 1,0", "slots 8 1 1 0,", "slots 8 1 1 +1", "server 8 1 2 0", "server 8 1 1 0", "server 8 1 32 0",
            "server 8 1 33 0", "demo 1000001", f"{run} 0", f"{run} 1", f"{run} 1000000", f"{run} 1000001", f"{run} 1 0",
            f"{run} 1 1000000", f"{run} 1 1000001", f"{run} 1 1 1", "links a b c d e f 10000", "links a b c d e f 10001",
            "audit a b c d e 1000000", "audit a b c d e 1000001", f"tables a b c {32 * 'a'}", f"tables a b c {33 * 'a'}",
            "tables a b c a.b", f"chain a b c u {chain},c:back f g 1", f"chain a b c u {chain},c:fwd:1,c:back f g 1",
            "chain a b c u c:fwd:4097,c:back f g 1", "chain a b c u c:fwd:0,c:back f g 1", "chain a b c u c:up f g 1",
            "chain a b c u c:fwd,c:back f g 1", "chain a b c u c:fwd, f g 1", "chain a b c u : f g 1", "check a b",
        ):
            status, _, _ = self.run_script("aeth", *words.split())
            says = usage.usage(words.split())[0].startswith("A word isn't as")
            self.assertEqual(status != 1, says, words)

    def test_words_of_each_command(self):
        formats = (TOP / "docs/FORMATS.md").read_text(encoding="utf-8")
        self.assertEqual(dict(re.findall(r"^aeth ([a-z-]+) (.*)", formats, re.M)), usage.WORDS)


class Words(unittest.TestCase):
    """What is said of lines of `aeth`, without the program."""

    def told(self, command, line, *words):
        return "\n".join(where.told(given.Given([command, *map(str, words)]), line))

    def test_logs_of_links(self):
        log = EXAMPLES / "one.links.csv"
        words = ("audit", EXAMPLES / "pair.toml", "one.toml", "one.plan", "one.switches.csv", log, 7)
        for line, tells in (
            ("refused log 3 OutOfOrder 2 4", (f"{log}, line 2: 4,0,", f"{log}, line 3: 5,4,", "the row isn't in a later cycle")),
            ("refused log 1 BadRow 1 -", ("line 2: 4,0,", "The columns `cycle,link,header,first,second` have numbers. Cycles are 0")),
            ("refused log 2 Unknown 3 2", ("line 4: 6,3,2147483648,100,101   (field 2)", "is broken where the link is none")),
            ("refused log 4 TooMany 0 1000001", (f"{log}: it has 1,000,001 rows", "more than 1,000,000 rows.")),
            ("fault 3 2", ("line 3: 5,4,", "Link 4 leads from r0 to r1, and cycle 5 is slot 5.",
                           "It breaks rule 3 of the rows of a clean log, which says: It comes from a row on the link before,")),
            ("fault 1 1", ("line 2: 4,0,", "rule 1 of the rows of a clean log, which says: Its link is reserved in its cycle.")),
        ):
            told = self.told(words[0], line, *words[1:])
            for text in tells:
                self.assertIn(text, told)

    def test_certificates(self):
        with NamedTemporaryFile("w", suffix=".cert") as cert:
            cert.write("explain 1\ntry c0 0 back 1\ncut 9\nend\n")
            cert.flush()
            for line, tells in (
                ("refused cert 1 BadLine 2 -", ("line 2: try c0 0 back 1", "hasn't this form at its position", "a `cut` line",
                                                "A line is `explain 1`, `try CONN GROUP SIDE TURN`, `cut LINKS` or `end`.")),
                ("refused cert 2 Unknown 3 2", ("line 3: cut 9   (field 2)", "a link number is no link")),
                ("refused cert 3 WrongTry 2 -", ("line 2: try c0 0 back 1", "isn't that of the refusal in its place")),
                ("not dead 3", ("line 3: cut 9", "Its links are no cut")),
                ("open c0 0 back 0,1", ("No cut of the try begins the path 0,1 of channel back of connection `c0`.",)),
            ):
                told = self.told("explain", line, "pair.toml", "roll.toml", cert.name)
                for text in tells:
                    self.assertIn(text, told)

    def test_chains(self):
        words = ("pair.toml", "local.toml", "local.plan", "main", "c1:fwd:3,c0:back", "words", "receivers", 9)
        told = self.told("chain", "refused chain 3 NotJoined 2 c0", *words)
        self.assertIn("Item 2 of the chain: c0:back", told)
        self.assertIn("Rule 3 of chains, NotJoined, is broken where from the second item on: the channel doesn't begin", told)

    def test_each_kind_of_file(self):
        """It knows where the rules of each kind of file stand, and which words are paths."""
        formats = (TOP / "docs/FORMATS.md").read_text(encoding="utf-8")
        named = re.findall(r"^\| ([A-Z, ]+) \| the paths? of ", formats, re.M)
        self.assertEqual({kind.lower() for kinds in named for kind in kinds.split(", ")}, set(rules.SECTIONS))
        self.assertEqual({kind.lower() for kind in given.FILES}, set(rules.SECTIONS))


class Readers(unittest.TestCase):
    """The reader of TOML 1.1, and texts that say the same."""

    def test_lines(self):
        data = b'\xef\xbb\xbfa = {\n  b = 1, # one\n c = "\\e\\x41",\n}\n[[x]]\ny.z = [1,\n2,\n]\n'
        tree, lines = toml_lines.read(data)
        self.assertEqual(tree, {"a": {"b": 1, "c": "\x1bA"}, "x": [{"y": {"z": [1, 2]}}]})
        self.assertEqual((lines["a", "c"], lines["x", 0, "y", "z", 1]), (3, 7))

    def test_a_text_says_the_same(self):
        for example in EXAMPLES.glob("*.toml"):
            tree, _ = toml_lines.read(example.read_bytes())
            self.assertEqual(toml_lines.read(files.text_of(tree).encode())[0], tree)
