"""Tests of a plan that changes: `./design pin`, `diff`, `drain` and `load`, and `./draw diff`."""
from pathlib import Path
from random import Random
from unittest import mock
import re
import subprocess
import sys
import tempfile
import tomllib
import unittest
import xml.etree.ElementTree as xml

from home import PROGRAM, TOP
from turned import random_design

sys.path[1:1] = [str(TOP / folder) for folder in ("design.d", "common.d", "draw.d")]
import design_files  # noqa: E402: its folder is told above
import ending  # noqa: E402
import least_drain  # noqa: E402
import leaving  # noqa: E402
import plan_texts  # noqa: E402
import program as calls  # noqa: E402
import progress  # noqa: E402
import seat_edits  # noqa: E402
import toml_lines  # noqa: E402

EXAMPLES = TOP / "examples"
PAIR, TWO = EXAMPLES / "pair.toml", EXAMPLES / "two.toml"
MESH, VIDEO = EXAMPLES / "mesh.toml", EXAMPLES / "video.toml"
HEADERS = {"words": "connection,side,cycle,value", "receivers": "connection,side,cycle,pull", "switches": "cycle,use,drain"}


def program(*words):
    """The status of the program itself, and what it prints."""
    ran = subprocess.run([PROGRAM, *map(str, words)], capture_output=True, text=True, check=False)
    return ran.returncode, ran.stdout, ran.stderr


def script(name):
    """What a script does with its words, in this process: its status, its text and its lines."""
    found = {"__name__": name, "__file__": str(TOP / name)}
    with mock.patch.object(ending, "end"):
        exec(compile((TOP / name).read_bytes(), str(TOP / name), "exec"), found)
    work = found["run" if name == "design" else "work"]

    def answer(*words):
        try:
            result = work([str(word) for word in words])
        except ending.Passed as passed:
            return passed.status, "", passed.lines
        except ending.Stop as stop:
            return stop.status, "", f"{name}: {stop.why}\n"
        return result.status, result.text, result.errors

    return answer


DESIGN, DRAW = script("design"), script("draw")


@unittest.skipUnless(PROGRAM, "there is no built program")
class Changes(unittest.TestCase):
    """Tests that share a folder, the scripts, which call the program itself, and plans of two designs."""

    @classmethod
    def setUpClass(cls):
        cls.folder = Path(cls.enterClassContext(tempfile.TemporaryDirectory()))
        cls.enterClassContext(mock.patch.object(calls, "AETH", PROGRAM))
        cls.enterClassContext(mock.patch.object(calls, "built", lambda: PROGRAM))
        cls.enterClassContext(mock.patch.object(progress.teller, "start"))
        cls.two = cls.made("two.plan", program("allocate", PAIR, TWO)[1])
        cls.video = cls.made("video.plan", program("allocate", MESH, VIDEO)[1])

    def design(self, *words):
        return DESIGN(*words)

    def draw(self, *words):
        return DRAW(*words)

    @classmethod
    def made(cls, name, text):
        path = cls.folder / name
        path.write_bytes(text.encode())
        return path

    def changed(self, name, app, *edits):
        """An application and a plan for it that `aeth` accepts, by changes of the first plan's lines."""
        text = self.two.read_text()
        for old, new in edits:
            self.assertIn(old, text)
            text = text.replace(old, new)
        files = self.made(f"{name}.toml", app), self.made(f"{name}.plan", text)
        self.assertEqual(program("check", PAIR, *files)[:2], (0, "accepted\n"))
        return files

    def allocated(self, name, chip, app):
        status, text, errors = program("allocate", chip, app)
        self.assertEqual(status, 0, errors)
        return self.made(name, text)


class SeatEdits(unittest.TestCase):
    """The interfaces of cores are changed in the file's own text, however it is spelled."""

    CASES = (
        # the cores of a file, what is to be at each number, and the cores then
        ('core = [ {name = "a"} ]', {0: "n1"}, 'core = [ {name = "a", ni = "n1"} ]'),
        ('core = [ {name = "a",} ]', {0: "n1"}, 'core = [ {name = "a", ni = "n1",} ]'),
        ('core = [{name = "a", ni = "n0"}, {name = "b"}]', {0: "n1", 1: "n0"}, 'core = [{name = "a", ni = "n1"}, {name = "b", ni = "n0"}]'),
        ("core = [{ni='n0' , name=\"a\"}]", {0: "n1"}, "core = [{ni=\"n1\" , name=\"a\"}]"),
        ("core = [{ni='n0' , name=\"a\"}]", {0: None}, 'core = [{name="a"}]'),
        ('core = [{name = "a", ni = "n0"}]', {0: None}, 'core = [{name = "a"}]'),
        ('core = [{name = "a", ni = "n0",}]', {0: None}, 'core = [{name = "a", }]'),
        ('core = [{\n  name = "a", # the first\n  ni = "n0" # here\n}]', {0: None}, 'core = [{\n  name = "a" # the first\n   # here\n}]'),
        ('core = [{\n  name = "a" # ni = "n9"\n}]', {0: "n1"}, 'core = [{\n  name = "a", ni = "n1" # ni = "n9"\n}]'),
        ('core = [{"name" = "a", "\\u006ei" = """n0"""}]', {0: "n1"}, 'core = [{"name" = "a", "\\u006ei" = "n1"}]'),
        ('[[core]]\nname = "a" # the first\n\n[[core]]\n  name = "b"', {0: "n1", 1: "n0"},
         '[[core]]\nname = "a" # the first\nni = "n1"\n\n[[core]]\n  name = "b"\n  ni = "n0"'),
        ('[[core]]\nni = "n0" # there\nname = "a"', {0: None}, '[[core]]\n# there\nname = "a"'),
        ('[[core]]\nni = "n0"\nname = "a"', {0: None}, '[[core]]\nname = "a"'),
        ('[[core]]\r\nname = "a"\r\n# more\r\n[[core]]\r\nname = "b"\r\n', {0: "n1", 1: "n2"},
         '[[core]]\r\nname = "a"\r\nni = "n1"\r\n# more\r\n[[core]]\r\nname = "b"\r\nni = "n2"\r\n'),
        ('\ufeff# "\u00e9"\r\n[[core]]\nname = "a"\n', {0: "n1"}, '\ufeff# "\u00e9"\r\n[[core]]\nname = "a"\nni = "n1"\n'),
    )

    def test_edits(self):
        for text, seats, wanted in self.CASES:
            with self.subTest(text=text):
                changed = seat_edits.SeatText(text.encode()).changed(seats)
                self.assertEqual(changed, wanted)
                cores = toml_lines.read(changed.encode())[0]["core"]
                self.assertEqual({number: cores[number].get("ni") for number in seats}, seats)

    def test_any_spelling_says_the_same(self):
        """Files of chance, with blanks, comments and line ends wherever there may be some."""
        for seed in range(400):
            chance = Random(seed)
            text, cores = spelled_cores(chance)
            seats = {number: chance.choice((None, "n7", "n8")) for number in range(len(cores)) if chance.randrange(3)}
            changed = seat_edits.SeatText(text.encode()).changed(seats)
            tree = toml_lines.read(changed.encode())[0]
            for number, interface in seats.items():
                cores[number].pop("ni", None)
                if interface:
                    cores[number]["ni"] = interface
            self.assertEqual(tree, {"version": 1, "core": cores, "more": 2}, (seed, text, changed))
            self.assertEqual(re.findall("#.*", changed), re.findall("#.*", text), (seed, text, changed))


def spelled_cores(chance):
    """A text of some cores, and what it says."""
    end = chance.choice(("\n", "\r\n"))
    cores = [{"name": f"c{number}", **({"ni": "n0"} if chance.randrange(2) else {})} for number in range(chance.randrange(1, 5))]

    def pairs(core):
        found = [f'{chance.choice((key, repr(key), f"{key} "))}={chance.choice(("", " "))}"{value}"' for key, value in core.items()]
        return found if chance.randrange(2) else found[::-1]

    def gap():
        return chance.choice(("", " ", "\t", f" # {chance.randrange(99)}{end}", end))

    if chance.randrange(2):
        text = "".join(
            f"[[core]]{end}" + "".join(f"{chance.choice(('', '  '))}{pair}{chance.choice(('', ' # a'))}{end}" for pair in pairs(core))
            for core in cores
        )
        return f"version = 1{end}more = 2{end}{text}", cores
    tables = ",".join(
        gap() + "{" + ",".join(gap() + pair + gap() for pair in pairs(core)) + chance.choice(("", ",")) + gap() + "}" for core in cores
    )
    return f"version = 1{end}core = [{tables}{gap()}]{end}more = 2{end}", cores


class Pins(Changes):
    def test_seats_are_those_of_the_plan(self):
        status, text, errors = self.design("pin", VIDEO, self.video)
        self.assertEqual((status, errors), (0, "design: 2 cores will have other seats of their interfaces, and other queue numbers: "
                                               "cpu 1 to 0, dram 0 to 1\n"))
        before, after = VIDEO.read_text().split("\n"), text.split("\n")
        self.assertEqual(sum(one != other for one, other in zip(before, after)), 1)  # the line of the one free core
        pinned = self.made("pinned.toml", text)
        seats = plan_texts.read_plan(self.video.read_bytes()).interface_of()
        again = plan_texts.read_plan(self.allocated("again.plan", MESH, pinned).read_bytes()).interface_of()
        self.assertEqual(again, seats)
        self.assertEqual({core["name"]: core["ni"] for core in tomllib.loads(text)["core"]}, seats)
        self.assertEqual(self.design("pin", pinned, self.video)[:2], (0, text))

    def test_free_cores(self):
        status, text, _ = self.design("pin", VIDEO, self.video, "--free", "dram", "cpu")
        fixed = {core["name"]: core.get("ni") for core in tomllib.loads(text)["core"]}
        self.assertEqual((status, fixed["dram"], fixed["cpu"], fixed["vin"]), (0, None, None, "n0"))
        status, text, errors = self.design("pin", VIDEO, self.video, "--free", "drum")
        self.assertEqual((status, text, errors.count("\n")), (1, "", 1))
        self.assertIn("no core `drum`: they are cpu, dram", errors)

    def test_a_plan_of_an_earlier_application(self):
        """Cores that are new stay as they are, those that are gone are told, and another order is no fault."""
        app = self.made("later.toml", TWO.read_text().replace(
            '{name = "dsp", ni = "n0"} ]', '{name = "new"}, {name = "dsp", ni = "n1"} ]').replace('{name = "cpu", ni = "n0"}, ', "", 1)
            .replace('from = "cpu"', 'from = "new"'))
        status, text, errors = self.design("pin", app, self.two)
        self.assertEqual((status, errors), (
            0,
            "design: the plan doesn't seat 1 core, as the application has them: new\n"
            "design: the application hasn't 1 core of the plan: cpu\n"
            "design: the application fixed 1 core elsewhere: dsp from n1 to n0\n"
            "design: 1 core will have another seat of its interface, and other queue numbers: dsp 1 to 0\n",
        ))
        self.assertIn('{name = "mem", ni = "n1"}, {name = "new"}, {name = "dsp", ni = "n0"} ]', text)

    def test_what_cant_be_pinned(self):
        five = "".join(f'{{name = "x{number}", ni = "n1"}}, ' for number in range(4))
        app = self.made("five.toml", TWO.read_text().replace("core = [ ", f"core = [ {five}").replace('{name = "mem", ni = "n1"}', '{name = "mem"}'))
        status, text, errors = self.design("pin", app, self.two)
        self.assertEqual((status, text), (3, ""))
        self.assertIn("interface n1 would have 5 cores, and has 4 seats: x0, x1, x2, x3, mem", errors)
        self.assertEqual(self.design("pin", app, self.two, "--free", "x0")[0], 0)
        status, _, errors = self.design("pin", VIDEO, self.two)
        self.assertEqual((status, errors), (0, errors))  # both have a core `cpu`
        other = self.made("other.toml", VIDEO.read_text().replace("cpu", "gpu"))
        self.assertEqual(self.design("pin", other, self.two)[::2], (3, "design: the plan seats none of the application's cores\n"))

    def test_what_aeth_refuses(self):
        plan = self.two.read_text()
        for name, app, text, status, tells in (
            ("app", 'version = 1\ncore = [\n', plan, 2, "refused app 1 BadToml 0 -\n"),
            ("rate", TWO.read_text().replace("words = 1, per = 2", "words = 5, per = 2"), plan, 2, "refused app 6 RateTooHigh 0 5\n"),
            ("core", TWO.read_text().replace('to = "mem"', 'to = "men"', 1), plan, 2, "refused app 5 UnknownName 4 men\n"),
            ("ni", TWO.read_text().replace('ni = "n1"', 'ni = "N1"'), plan, 2, "refused app 5 UnknownName 1 ?\n"),
            ("end", TWO.read_text(), plan[:-1], 2, "refused plan 1 BadLine 9 -\n"),
            ("empty", TWO.read_text(), "", 2, "refused plan 1 BadLine 1 -\n"),
            ("slots", TWO.read_text(), plan.replace("plan 1 8", "plan 1 129"), 2, "refused plan 2 Unknown 1 3\n"),
            ("seat", TWO.read_text(), plan.replace("seat mem n1 0", "seat mem n1 4"), 2, "refused plan 2 Unknown 3 4\n"),
            ("twice", TWO.read_text(), plan.replace("seat dsp n0 1", "seat dsp n0 0"), 3, "broken 1 2 4\n"),
            ("link", TWO.read_text(), plan.replace(" 0,4,3 0,4", " 0,576,3 0,4"), 2, "refused plan 2 Unknown 5 5\n"),
        ):
            with self.subTest(name=name):
                ran = self.design("pin", self.made("a.toml", app), self.made("a.plan", text))
                self.assertEqual(ran, (status, "", tells))
        self.assertEqual(self.design("pin", "none.toml", self.two), (4, "", "read fault app\n"))
        self.assertEqual(self.design("pin", TWO, "none.plan"), (4, "", "read fault plan\n"))


class Differences(Changes):
    def diff(self, *words):
        return self.design("diff", PAIR, *words)

    def test_nothing(self):
        ran = self.diff(TWO, self.two, TWO, self.two)
        self.assertEqual(ran, (0, "Nothing changed: 3 cores and 4 channels are as they were.\n", ""))

    def test_slots_and_latency(self):
        """The private server of the pair, by hand: slots 0 and 4 wait a cycle at the most, 0 and 1 four."""
        near = self.changed("near", TWO.read_text().replace("latency = 6", "latency = 12"), (" 0,4,3 0,4", " 0,4,3 0,2"))
        status, text, errors = self.diff(TWO, self.two, *near)
        self.assertEqual((status, errors), (3, ""))
        self.assertTrue(text.startswith("Of 4 channels 1 is worse, 0 are better, and 1 is on another path or in other slots; 0 new, 0 gone."))
        self.assertRegex(text, r"\n  worse  c0 fwd   u0, u1 +4   4 -> 6  9 -> 10\n")
        self.assertIn("\nSlots\n  channel  in      slots of its first link\n  c0 fwd   u0, u1  0 4 -> 0 2\n", text)
        self.assertIn("12", text.split("\nWishes\n")[1])
        status, text, _ = self.diff(*near, TWO, self.two)
        self.assertEqual(status, 0)
        self.assertIn("  better  c0 fwd", text)

    def test_another_buffer_isnt_worse(self):
        app = self.changed("late", TWO.read_text().replace("latency = 6, delay = 0", "latency = 6, delay = 9"))
        status, text, _ = self.diff(TWO, self.two, *app)
        self.assertEqual(status, 0)
        self.assertRegex(text, r"\n  resized  c0 fwd   u0, u1 +4 +4  9 -> 13\n")

    def test_another_rate(self):
        text = TWO.read_text().replace("words = 1, per = 2", "words = 1, per = 8")
        status, text, _ = self.diff(TWO, self.two, *self.changed("slow", text))
        self.assertEqual(status, 3)
        self.assertRegex(text, r"\n  worse +c0 fwd +u0, u1 +4 -> 2 ")

    def test_new_and_gone(self):
        """A connection less, by the same plan without it; and a use case that another group has."""
        text = TWO.read_text()
        one = text[: text.index('[[connection]]\nname = "c1"')] + '[[use]]\nname = "u0"\nconnections = ["c0"]\n'
        few = self.made("few.toml", one), self.made("few.plan", re.sub("grant c1.*\n", "", self.two.read_text()))
        status, text, _ = self.diff(TWO, self.two, *few)
        self.assertEqual(status, 0)
        self.assertIn("Of 2 channels 0 are worse", text)
        self.assertRegex(text, r"\nGone\n.*\n  c0 fwd +cpu +mem +u1 .*\n  c0 back .*\n  c1 fwd +dsp +mem +u1 ")
        status, text, _ = self.diff(*few, TWO, self.two)
        self.assertRegex(text, r"\nNew\n")
        self.assertEqual(status, 0)

    def test_a_switch_that_isnt_smooth_any_more(self):
        """A connection that two use cases have is closed between them where they are in two groups."""
        app = TWO.read_text().replace('smooth = ["u1"]\n', "")
        plan = self.two.read_text().replace("end\n", "")
        grants = [line for line in plan.splitlines(keepends=True) if line.startswith("grant c0")]
        lines = [line for line in plan.splitlines(keepends=True) if not line.startswith("grant")]
        lines += grants + [line.replace("c0 0", "c0 1") for line in grants]
        lines += [line.replace("c1 0", "c1 1") for line in plan.splitlines(keepends=True) if line.startswith("grant c1")]
        files = self.made("rough.toml", app), self.made("rough.plan", "".join(lines) + "end\n")
        self.assertEqual(program("check", PAIR, *files)[1], "accepted\n")
        status, text, _ = self.diff(TWO, self.two, *files)
        self.assertEqual(status, 3)
        self.assertRegex(text, r"\n  worse  c0 fwd +u0 +4 +4 +9  a switch closes it that kept it\n")
        self.assertNotIn("worse  c1", text)

    def test_seats(self):
        app = TWO.read_text().replace('{name = "dsp", ni = "n0"}', '{name = "dsp"}')
        plan = self.changed("seat", app, ("seat dsp n0 1", "seat dsp n0 3"))
        status, text, _ = self.diff(TWO, self.two, *plan)
        self.assertEqual((status, text.split("\n\n")[1]), (0, "Seats\n  core  before      after\n  dsp   n0, seat 1  n0, seat 3\n"))

    def test_what_aeth_refuses(self):
        bad = self.made("bad.plan", self.two.read_text()[:-1])
        self.assertEqual(self.diff(TWO, bad, TWO, self.two), (
            2, "", f"refused plan 1 BadLine 9 -\ndesign: this is said of {TWO} and {bad}\n"))
        self.assertEqual(self.diff(TWO, self.two, TWO, bad)[2], f"refused plan 1 BadLine 9 -\ndesign: this is said of {TWO} and {bad}\n")
        few = self.made("missing.plan", re.sub("grant c1 0 back.*\n", "", self.two.read_text()))
        self.assertEqual(self.diff(TWO, self.two, TWO, few)[::2], (3, f"missing c1 0 back\ndesign: this is said of {TWO} and {few}\n"))
        self.assertEqual(self.design("diff", "none.toml", TWO, self.two, TWO, self.two), (4, "", "read fault chip\n"))
        self.assertEqual(self.diff(TWO, self.two, TWO)[0], 1)


class Pictures(Changes):
    """The picture tells what the text does."""

    def picture(self, *words):
        status, text, errors = self.draw("diff", *words)
        self.assertEqual((status, errors), (0, ""))
        return xml.fromstring(text), text

    def test_changed_links_and_channels(self):
        near = self.changed("near", TWO.read_text().replace("latency = 6", "latency = 12"), (" 0,4,3 0,4", " 0,4,3 0,2"))
        root, text = self.picture(PAIR, TWO, self.two, *near)
        titles = ["".join(one.itertext()) for one in root.iter() if one.tag.endswith("title")]
        changed = [title for title in titles if title.startswith("link") and "no slot is another" not in title]
        self.assertEqual([title.split(",")[0] for title in changed], ["link 0", "link 3", "link 4"])
        self.assertIn("taken: slot 2; freed: slot 4", changed[0])
        self.assertTrue(any(title.startswith("c0 fwd: worse; n0 \u2192 r0 \u2192 r1 \u2192 n1 in slots 0 4, now ") for title in titles))
        self.assertIn(">worse</text>", text)
        self.assertIn("prefers-color-scheme:dark", text)
        of_one = self.picture(PAIR, TWO, self.two, *near, "u0")[1]
        self.assertIn("What changed in use case u0", of_one)

    def test_nothing(self):
        text = self.picture(PAIR, TWO, self.two, TWO, self.two)[1]
        self.assertIn("Nothing changed: 3 cores and 4 channels are as they were.", text)
        self.assertNotIn('class="line emptier"', text)

    def test_cores_that_moved(self):
        app = self.made("moved.toml", VIDEO.read_text().replace('{name = "cpu"}', '{name = "cpu", ni = "n9"}'))
        plan = self.allocated("moved.plan", MESH, app)
        text = self.picture(MESH, VIDEO, self.video, app, plan)[1]
        self.assertIn("core cpu: from n5 to n9", text)
        self.assertEqual((text.count('class="come"'), text.count('class="left"')), (1, 1))
        self.assertIn("+ cpu", text)
        self.assertIn("\u2212 cpu", text)

    def test_faults(self):
        self.assertEqual(self.draw("diff", PAIR, TWO, self.two, TWO, self.two, "u9"), (2, "", "refused use 1 UnknownUse 0 u9\n"))
        status, _, errors = self.draw("diff", PAIR, TWO, self.two)
        self.assertEqual((status, errors.count("\n")), (1, 1))
        bad = self.made("bad.plan", "plan\n")
        errors = self.draw("diff", PAIR, TWO, bad, TWO, self.two)[2]
        self.assertEqual(errors, f"refused plan 1 BadLine 1 -\ndraw: this is said of {TWO} and {bad}\n")


class Loads(Changes):
    def test_slots_are_those_of_the_tables(self):
        """The slots of the links from interfaces are the entries of these, in each use case."""
        status, text, _ = self.design("load", MESH, VIDEO, self.video)
        self.assertEqual(status, 0)
        parts = text.split("\n\n")
        self.assertEqual([part.split(":")[0] for part in parts], ["use case decode", "use case menu", "use case record"])
        for part, use in zip(parts, ("decode", "menu", "record")):
            rows = [re.fullmatch(r" +(\d+) of 64 +\d+ % +(\d+)  (\S+) +(\S+) +(.*)", line) for line in part.split("\n")[2:]]
            rows = [row for row in rows if row]
            used = [int(row[1]) for row in rows]
            self.assertEqual(used, sorted(used, reverse=True))
            entries = program("tables", MESH, VIDEO, self.video, use)[1]
            for row in rows:
                self.assertEqual(sum(int(slots) for slots in re.findall(r" (\d+)(?:,|$)", row[5])), int(row[1]))
                if row[3].startswith("n"):
                    self.assertEqual(int(row[1]), len(re.findall(f"^entry {row[3]} ", entries, re.M)))
            self.assertIn(f"{sum(used):,} of 5,120 slots of 80 links in use", part)
            self.assertTrue(part.rstrip().endswith(f"0 of 64: {80 - len(rows)} other links"))

    def test_one_use_case(self):
        status, text, _ = self.design("load", PAIR, TWO, self.two, "u0")
        self.assertEqual((status, text.count("use case")), (0, 1))
        self.assertIn("  2 of 8   25 %     0  n0    r0  c0 fwd 2\n", text)
        self.assertEqual(self.design("load", PAIR, TWO, self.two, "u9"), (2, "", "refused use 1 UnknownUse 0 u9\n"))
        self.assertEqual(self.design("load", PAIR, TWO, PAIR), (2, "", "refused plan 1 BadLine 1 -\n"))


class Run:
    """Files of a run by which a drain is tried."""

    def __init__(self, folder, design, use, other):
        self.folder, self.design, self.use, self.other = folder, design, use, other
        chip, app, plan = (Path(path).read_bytes() for path in design)
        self.left = leaving.Leaving(
            design_files.read_chip(chip), design_files.read_application(app), plan_texts.read_plan(plan),
            program("tables", *design, use)[1], use, other,
        )

    def file(self, kind, rows):
        path = self.folder / f"{kind}.csv"
        path.write_text("".join(",".join(map(str, row)) + "\n" for row in [HEADERS[kind].split(","), *rows]))
        return path

    def dropped(self, words, pulls, at, drain):
        """How many words the channels that close drop."""
        switches = self.file("switches", [(0, self.use, 0), (at, self.other, drain)])
        words, pulls = self.file("words", sorted(words, key=lambda row: row[2])), self.file("receivers", sorted(pulls, key=lambda row: row[2]))
        status, text, errors = program("simulate", *self.design, words, pulls, switches, at + drain + self.left.longest + 1)
        assert status == 0, errors
        return sum(int(one) + int(other) for one, other in re.findall(r"^drop (\d+) (\d+)$", text, re.M))

    def worst(self, channel, need, evenly):
        """The words that need a drain with the latest receiver, and the cycle of the switch."""
        pattern, worst = least_drain.Pattern(channel.wish, evenly), need.worst
        ends = channel.name.split(" ")
        words, takes, session = [], [], least_drain.Session(channel, worst.first)
        for step in range(worst.step + 1):
            more = pattern.words(step) - (pattern.words(step - 1) if step else 0)
            words += [(*ends, worst.first + pattern.at(step), 7)] * more
        for *_, offered, _ in words:
            session.credits[0] = max(session.credits[0], offered)
            takes.append(session.send() + channel.delay + channel.wish.delay)
        pulls = {0: 0}
        for cycle in sorted(set(takes)):
            pulls[cycle] = takes.count(cycle)
            pulls.setdefault(cycle + 1, 0)
        rows = [(*ends, cycle, pull) for cycle, pull in pulls.items()] if channel.wish.delay else []
        return words, rows, worst.first + pattern.at(worst.step) + 1


class Drains(Changes):
    MOST_TRIED = 3  # channels of a switch

    def tried(self, design, use, other, evenly):
        """Tries the worst words of channels: with the least drain nothing of them is dropped, and with a cycle less something."""
        with tempfile.TemporaryDirectory() as folder:
            run, tried = Run(Path(folder), design, use, other), 0
            for channel in run.left.channels:
                need = channel.need(evenly)
                if need is None or channel.wish.words > 20 or tried == self.MOST_TRIED:
                    continue
                self.assertEqual(need.most, need.worst.drain, channel)
                drain = need.most + run.left.more(channel)
                words, pulls, at = run.worst(channel, need, evenly)
                tried += 1
                self.assertEqual(run.dropped(words, pulls, at, drain), 0, (channel, need))
                if drain:
                    self.assertGreater(run.dropped(words, pulls, at, drain - 1), 0, (channel, need))
            return tried

    def test_the_least_drain_is_the_least(self):
        tried = 0
        for design, use, other in (
            ((PAIR, TWO, self.two), "u1", "u0"), ((MESH, VIDEO, self.video), "decode", "record"),
            ((MESH, VIDEO, self.video), "decode", "menu"), ((MESH, VIDEO, self.video), "record", "menu"),
        ):
            for evenly in (False, True):
                tried += self.tried(design, use, other, evenly)
        self.assertGreater(tried, 15)

    def test_of_any_design(self):
        """Designs of chance: the worst words, and words of chance that keep their rates, of which none is dropped."""
        tried, number = 0, 0
        while tried < 12:
            chance = Random(f"drain {number}")
            number += 1
            chip, app = (self.folder / name for name in ("any.chip", "any.app"))
            for path, text in zip((chip, app), random_design(chance)):
                path.write_bytes(text)
            told = program("allocate", chip, app)
            uses = list(tomllib.loads(app.read_text())["use"]) if told[0] == 0 else []
            if len(uses) > 1:
                plan = self.made("any.plan", told[1])
                tried += self.tried((chip, app, plan), uses[0]["name"], uses[1]["name"], bool(number % 2))
                self.words_of_chance(chance, (chip, app, plan), uses[0]["name"], uses[1]["name"])

    def words_of_chance(self, chance, design, use, other):
        with tempfile.TemporaryDirectory() as folder:
            run = Run(Path(folder), design, use, other)
            needs = [(channel, channel.need()) for channel in run.left.channels]
            drain = max((need.most + run.left.more(channel) for channel, need in needs if need), default=0)
            at, rows = chance.randrange(1, 400), []
            for channel in run.left.channels:
                wish, ends, cycles = channel.wish, channel.name.split(" "), []
                for cycle in range(at):
                    room = wish.words - sum(one > cycle - wish.per for one in cycles)
                    cycles += [cycle] * chance.choice((0, 0, room, chance.randrange(room + 1)))
                rows += [(*ends, cycle, 1) for cycle in cycles]
            self.assertEqual(run.dropped(rows, [], at, drain), 0, (design, drain))

    def test_what_is_told(self):
        status, text, errors = self.design("drain", PAIR, TWO, self.two, "u1", "u0")
        self.assertEqual((status, errors, text.split("\n")[0]), (0, "", "drain 7"))
        self.assertIn("With 6 the last word of c1 fwd is dropped where a word comes in cycle 2,\nthe switch is in cycle 3", text)
        text = self.design("drain", PAIR, TWO, self.two, "u0", "u1")[1]
        self.assertEqual(text, "drain 0\n\nNothing is dropped: u1 keeps all connections of u0.\n")
        for use, told in (("u9", (2, "", "refused use 1 UnknownUse 0 u9\n")), ("U", (1, "", "usage\n"))):
            self.assertEqual(self.design("drain", PAIR, TWO, self.two, use, "u0"), told)
            self.assertEqual(self.design("drain", PAIR, TWO, self.two, "u0", use), told)

    def test_bursts_and_even_words(self):
        """Eight words a period of 64: a burst waits for four of its slots, even words for one."""
        app = self.made("burst.toml", VIDEO.read_text().replace("words = 1, per = 8", "words = 8, per = 64"))
        self.assertEqual(program("check", MESH, app, self.video)[1], "accepted\n")
        burst = self.design("drain", MESH, app, self.video, "record", "menu")[1]
        even = self.design("drain", MESH, app, self.video, "record", "menu", "--evenly")[1]
        self.assertGreater(int(burst.split()[1]), int(even.split()[1]))
        self.assertIn(f"Words that come evenly by their rates need {even.split()[1]} (--evenly).", burst)

    def test_words_of_a_file(self):
        words = self.made("w.csv", "connection,side,cycle,value\n" + "".join(f"c1,fwd,{cycle},1\n" for cycle in (0, 9, 9, 9, 30)))
        late = self.made("late.csv", "connection,side,cycle,pull\nc1,fwd,0,0\nc1,fwd,60,1\n")
        never = self.made("never.csv", "connection,side,cycle,pull\nc1,fwd,9,0\n")
        files = PAIR, TWO, self.two, "u1", "u0"
        status, text, errors = self.design("drain", *files, "--words", words, "--at", "10")
        self.assertEqual((status, errors, text.split("\n")[0]), (0, "", "drain 8"))
        self.assertIn("With 7 it drops 1 word.", text)
        text = self.design("drain", *files, "--words", words, "--at", "10", "--receivers", late)[1]
        self.assertRegex(text, r"(?s)drain 51\n.*c1 fwd +4 +9 +17 +20 +63 +51")
        status, text, errors = self.design("drain", *files, "--words", words, "--at", "10", "--receivers", never)
        self.assertEqual((status, text), (3, ""))
        self.assertEqual(errors, "design: no drain is enough: of c1 fwd 3 words are never taken in a run\n")
        text = self.design("drain", *files, "--words", words, "--at", "0")[1]
        self.assertEqual(text, "drain 0\n\nNothing is dropped: no channel that closes has words before the switch.\n")

    def test_wrong_words(self):
        words = EXAMPLES / "two.words.csv"
        files = PAIR, TWO, self.two, "u1", "u0"
        for rest in (
            ("--at", "5"), ("--words", words), ("--words", words, "--at", "1000001"), ("--words", words, "--at", "x"),
            ("--receivers", words), ("--evenly", "--at", "5", "--words", words), ("--even",),
        ):
            with self.subTest(rest=rest):
                status, text, errors = self.design("drain", *files, *rest)
                self.assertEqual((status, text, errors.count("\n")), (1, "", 1))
        self.assertEqual(self.design("drain", *files, "--words", PAIR, "--at", "5"), (2, "", "refused words 1 BadRow 0 -\n"))
        self.assertEqual(self.design("drain", *files, "--words", "none", "--at", "5"), (4, "", "read fault words\n"))
