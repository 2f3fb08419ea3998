"""Tests of `./design app`: the examples that are made of flows, wishes rounded to the safe side, and what can't be had."""
from argparse import ArgumentParser
from fractions import Fraction
from unittest import mock
import re
import sys
import tomllib
import unittest

from home import Home, PROGRAM, TOP

sys.path[:0] = [str(TOP / "design.d"), str(TOP / "common.d")]
from application import Ask  # noqa: E402: its folder is told above
from application_rules import application  # noqa: E402
from ending import Passed, Stop  # noqa: E402
from flow_wishes import at_least  # noqa: E402
from physical_units import units_of  # noqa: E402
import program  # noqa: E402

EXAMPLES = TOP / "examples"
MADE = sorted(path for path in EXAMPLES.glob("*.toml") if "# Made by: ./design app " in path.read_text())
APPLICATIONS = sorted(path for path in EXAMPLES.glob("*.toml") if "[[connection]]" in path.read_text())
WORDS = ArgumentParser()
for name, kind in (("--word", {}), ("--seats", {}), ("--chip", {}), ("--detour", {"type": int, "default": 1})):
    WORDS.add_argument(name, **kind)
WORDS.add_argument("--smooth", action="append", type=lambda text: text.split(","), default=[])
HEADER = "from,to,rate,latency,back_rate,back_latency,uses\n"


class Fractions(unittest.TestCase):
    def test_the_least_one_above(self):
        for most in (1, 2, 7, 12):
            known = sorted({Fraction(words, per) for per in range(1, most + 1) for words in range(3 * per + 1)})
            for place in range(200):
                rate = Fraction(place, 97)
                self.assertEqual(at_least(rate, most), next(one for one in known if one >= rate), (most, rate))


@unittest.skipUnless(PROGRAM, "there is no built program")
class Flows(unittest.TestCase):
    @classmethod
    def setUpClass(cls):
        cls.home = Home(PROGRAM)
        cls.addClassCleanup(cls.home.end)
        for name, value in (("AETH", PROGRAM), ("built", lambda: PROGRAM)):
            patch = mock.patch.object(program, name, value)
            patch.start()
            cls.addClassCleanup(patch.stop)

    def app(self, flows, *words, clock="500MHz"):
        """How `design app` ends with a table: in this process, since a process of its own takes ten times as long."""
        self.home.put("f.csv", flows)
        given = WORDS.parse_args(words)
        ask = Ask(units_of(clock, given.word), given.detour, "hops", given.smooth, ["app", "f.csv", "--clock", clock])
        seats, chip = (name and str(self.home.top / name) for name in (given.seats, given.chip))
        try:
            made = application(str(self.home.top / "f.csv"), seats, chip, ask)
            return made.status, made.text, made.errors
        except Passed as passed:
            return passed.status, "", passed.lines
        except Stop as stop:
            return stop.status, "", f"design: {stop.why}\n".replace(f"{self.home.top}/", "")

    def tree(self, flows, *words, clock="500MHz"):
        status, text, errors = self.app(flows, *words, clock=clock)
        self.assertEqual((status, errors), (0, ""))
        return tomllib.loads(text)

    def refused(self, flows, *words, status=2):
        """The line with which it refuses a table."""
        ended = self.app(flows, *words)
        self.assertEqual(ended[:2], (status, ""), ended)
        self.assertRegex(ended[2], r"\Adesign: .*\n\Z")
        return ended[2].removeprefix("design: ").rstrip("\n")


class Examples(Flows):
    def test_each_is_what_its_flows_make(self):
        self.assertEqual([path.stem for path in MADE], ["camera", "mpeg4", "vopd"])
        self.home.run("slots", "1", "1", "1", "0")  # the program is built, and says so, in the first call
        for path in MADE:
            text = path.read_text()
            words = re.search(r"# Made by: \./design (.*)", text)[1].split(" ")
            self.assertEqual(self.home.design(*words), (0, text, ""), path.name)

    def test_the_page_shows_what_is_made(self):
        flows = (EXAMPLES / "camera.flows.csv").read_text()
        line = re.search(r"(?m)^fwd = .*  # asked .*$", (TOP / "docs/TOOLS.md").read_text())[0]
        self.assertIn(line + "\n", self.app(flows, clock="533MHz")[1])

    def test_all_are_the_same_both_ways(self):
        """Each is told as a table of flows, of which the application is made again."""
        for path in APPLICATIONS:
            app = tomllib.loads(path.read_text())
            for words in (("500MHz", "4B"), ("1GHz", "8B")):
                with self.subTest(path=path.name, words=words):
                    flows = table_of(app, units_of(*words))
                    seats = "core,interface\n" + "".join(f"{core['name']},{core.get('ni', '')}\n" for core in app["core"])
                    self.home.put("s.csv", seats)
                    if path.stem == "roll":  # it wishes a latency that no path has
                        self.assertRegex(self.refused(flows, "--seats", "s.csv"), "back_latency: 2 ns can't be had")
                        break
                    smooth = [word for use in app["use"] for other in use.get("smooth", ()) for word in ("--smooth", f"{use['name']},{other}")]
                    made = self.tree(flows, "--word", words[1], "--seats", "s.csv", "--detour", str(app["detour"]), *smooth, clock=words[0])
                    self.assertEqual(exactly(made), exactly(app))


def table_of(app, units):
    """An application as a table of flows."""
    rows = ["name,from,to,rate,latency,delay,back_rate,back_latency,back_delay,uses\n"]
    for one in app["connection"]:
        uses = " ".join(use["name"] for use in app["use"] if one["name"] in use["connections"])
        wishes = [
            cell for wish in (one["fwd"], one["back"])
            for cell in (units.rate(wish["words"], wish["per"]), units.time(wish["latency"]), units.time(wish["delay"]))
        ]
        rows.append(",".join([one["name"], one["from"], one["to"], *wishes, uses]) + "\n")
    return "".join(rows)


def exactly(app):
    """What an application says: rates as fractions, use cases in no order."""
    def wish(told):
        return Fraction(told["words"], told["per"]), told["latency"], told["delay"]

    return {
        "detour": app["detour"], "cores": app["core"],
        "connections": [(one["name"], one["from"], one["to"], wish(one["fwd"]), wish(one["back"])) for one in app["connection"]],
        "uses": sorted((use["name"], sorted(use["connections"]), sorted(use.get("smooth", []))) for use in app["use"]),
    }


class Wishes(Flows):
    def test_the_safe_side(self):
        for rate, latency, clock, words, per, cycles, told in (
            ("240 MB/s", "121 ns", "500MHz", 240, 2000, 60, "asked 240 MB/s, within 121 ns; gets 240 MB/s, within 120 ns"),
            ("240MB/s", "120ns", "533MHz", 240, 2132, 63, "asked 240MB/s, within 120ns; gets 240 MB/s, within 118.2 ns"),
            ("2.5 Gb/s", "1us", "500MHz", 5, 32, 500, "asked 2.5 Gb/s, within 1us; gets the same"),
            ("4 GB/s", "4 ns", "500MHz", 4, 2, 2, "asked 4 GB/s, within 4 ns; gets the same"),
            ("0.5 MB/s", "3 s", "500MHz", 1, 4000, 4096, "asked 0.5 MB/s, within 3 s; gets 0.5 MB/s, within 8.192 us"),
            ("1 B/s", "", "500MHz", 1, 1_000_000, 4096, "asked 1 B/s; gets 2000 B/s"),
            ("333.333333333333 MB/s", "10 ns", "500MHz", 1, 6, 5, "asked 333.333333333333 MB/s, within 10 ns; gets just over 333.333333333333 MB/s, within 10 ns"),
            ("7 kb/s", "-", "1GHz", 1, 1_000_000, 4096, "asked 7 kb/s; gets 32 kb/s"),
        ):
            with self.subTest(rate=rate, clock=clock):
                text = self.app(HEADER + f"a,b,{rate},{latency},,,\n", clock=clock)[1]
                fwd = tomllib.loads(text)["connection"][0]["fwd"]
                self.assertEqual(fwd, {"words": words, "per": per, "latency": cycles, "delay": 0})
                self.assertRegex(text, r"(?m)^fwd = .*  # " + re.escape(told) + "$")
                self.assertRegex(text, "(?m)^back = {words = 0, per = 1, latency = 4096, delay = 0} *# asked nothing; carries credits$")

    def test_never_less_than_asked(self):
        for clock in ("333MHz", "1.7GHz", "66.6666MHz"):
            for rate in ("1.234567 MB/s", "999.999 kb/s", "0.123456789 Gb/s", "57 B/s", "100.000001 MB/s"):
                number, unit = rate.split(" ")
                asked = Fraction(number) * {"MB/s": 10 ** 6, "kb/s": 125, "Gb/s": 125 * 10 ** 6, "B/s": 1}[unit]
                wish = self.tree(HEADER + f"a,b,{rate},99 ns,,,\n", clock=clock)["connection"][0]["fwd"]
                units = units_of(clock, None)
                got = units.bytes_per_second(wish["words"], wish["per"])
                self.assertTrue(asked <= got <= asked * Fraction(1001, 1000) or wish == {**wish, "words": 1, "per": 10 ** 6}, (clock, rate))
                self.assertTrue(0 <= Fraction(99, 10 ** 9) - units.seconds(wish["latency"]) < units.seconds(1), clock)

    def test_receivers(self):
        wish = self.tree("from,to,rate,delay,back_delay\na,b,1MB/s,5 ns,8.192 us\n")["connection"][0]
        self.assertEqual((wish["fwd"]["delay"], wish["back"]["delay"]), (3, 4096))


class Tables(Flows):
    def test_names_and_uses(self):
        made = self.tree("to,from,rate,uses,name\nb,a,1MB/s,u v,\nb,a,2MB/s,v;w,\nb,a,3MB/s,,\na,b,4MB/s,u,a_b_2\n", "--smooth", "v,u,w")
        self.assertEqual([one["name"] for one in made["connection"]], ["a_b", "a_b_3", "a_b_4", "a_b_2"])
        uses = {use["name"]: (use["connections"], use.get("smooth")) for use in made["use"]}
        self.assertEqual(uses, {
            "u": (["a_b", "a_b_4", "a_b_2"], None), "v": (["a_b", "a_b_3", "a_b_4"], ["u", "w"]), "w": (["a_b_3", "a_b_4"], None),
        })
        self.assertEqual([use["name"] for use in self.tree("from,to,rate\na,b,1MB/s\n")["use"]], ["main"])

    def test_spelled_otherwise(self):
        plain = self.tree("from,to,rate,latency\na,b,240 MB/s,120 ns\n")
        for text in (
            "\ufefffrom,to,rate,latency\r\na,b,240 MB/s,120 ns\r\n", "# c\n\nlatency (ns) , rate (MB/s), to ,from\n# d\n120, 240,b, a\n,,,\n",
            'from,to,rate MB/s,latency [ns]\n"a","b","240","120 ns"'.replace("[ns]", "ns"), "from,to,rate,latency\na,b,0.24GB/s,0.12us,,,\n",
        ):
            made = self.tree(text)
            self.assertEqual(exactly(made), exactly(plain), text)

    def test_comments_stay(self):
        text = self.app("# One.\n# Two: \x1b[2J \u00e9\nfrom,to,rate\n# Three.\na,b,1MB/s\n")[1]
        self.assertEqual(text.split("\n")[:4], [
            "# One.", "# Two: \\x1b[2J \u00e9", "# Made by: ./design app f.csv --clock 500MHz", "# A cycle is 2 ns, and a word has 4 bytes.",
        ])

    def test_seats(self):
        self.home.put("s.csv", "core,interface\nb,n1\nc,\n")
        made = self.tree("from,to,rate\na,b,1MB/s\nb,c,1MB/s\n", "--seats", "s.csv", "--chip", "examples/pair.toml")
        self.assertEqual(made["core"], [{"name": "b", "ni": "n1"}, {"name": "c"}, {"name": "a"}])
        self.home.put("s.csv", "core,interface\nb,r1\na,n3\n")
        self.assertEqual(self.tree("from,to,rate\na,b,1MB/s\n", "--seats", "s.csv")["core"][0], {"name": "b", "ni": "r1"})


class Faults(Flows):
    def test_rows(self):
        rates = "B/s, kB/s, MB/s, GB/s, b/s, kb/s, Mb/s, Gb/s"
        columns = "from, to, rate, latency, delay, back_rate, back_latency, back_delay, uses, name"
        for flows, tells in (
            ("", f"line 1: the header has no column `from`: the columns are {columns}"),
            ("from;to;rate\n", f"line 1: `from;to;rate` is no column: these are {columns}"),
            ("from,to,rate\n\n# a,b,1MB/s\n", "line 1: no flow stands below the header"),
            ("from,to,rate,rate\n", "line 1: the header has column `rate` twice"),
            ("from,to,rate (ns)\n", f"line 1: `ns` is no unit of column `rate`: these are {rates}"),
            ("from (ns),to,rate\n", "line 1: `ns` is no unit of column `from`, which has none"),
            (HEADER + "a,b,240,,,,\n", f"line 2: rate: `240` has no unit: those of a rate are {rates}"),
            (HEADER + "a,b,240 MBs,,,,\n", f"line 2: rate: `240 MBs` has a unit that is none of a rate: these are {rates}"),
            (HEADER + "a,b,x,,,,\n", f"line 2: rate: `x` is no rate: it must be a number, as 240 or 0.5, and one of the units {rates}"),
            (HEADER + "\n# c\na,b,1MB/s,5 cycles,,,\n", "line 4: latency: `5 cycles` has a unit that is none of a time: these are ps, ns, us, ms, s"),
            (HEADER + "a,b,1MB/s,,,,\n,b,1MB/s,,,,\n", "line 3: from: it has no name, which has 1 to 32 of a-z, 0-9 and _"),
            (HEADER + "CPU,b,1MB/s,,,,\n", "line 2: from: `CPU` is no name, which has 1 to 32 of a-z, 0-9 and _"),
            (HEADER + "a,b,1MB/s,,,,U\n", "line 2: uses: `U` is no name, which has 1 to 32 of a-z, 0-9 and _"),
            (HEADER + "a,a,1MB/s,,,,\n", "line 2: the flow leads from core `a` to itself"),
            (HEADER + "a,b,1MB/s,,,,u,v\n", "line 2: it has 8 cells, and the header has 7 columns"),
            (HEADER + f"{'a' * 20},{'b' * 20},1MB/s,,,,\n", f"line 2: its name would be `{'a' * 20}_{'b' * 20}`, of more than 32 letters: give it one in a column `name`"),
            ("from,to,rate,name\na,b,1MB/s,x\nb,a,1MB/s,x\n", "line 3: name: `x` stands twice"),
            (HEADER + 'a,"b,1MB/s,,,,\n', "line 2: it is no row of cells with commas: unexpected end of data"),
            (HEADER + "".join(f"a,b{place},1MB/s,,,,\n" for place in range(9)), "line 10: core `a` is an end of 8 flows already, the most there may be"),
            (HEADER + "".join(f"a,b,1MB/s,,,,u{place}\n" for place in range(8)) + "c,d,1MB/s,,,," + " ".join(map("v{}".format, range(9))),
             "line 10: uses: these are more than 16 use cases"),
            (HEADER + "".join(f"a{place},b{place},1MB/s,,,,\n" for place in range(129)), "line 130: these are more than 256 cores"),
            (HEADER + "a,b,1MB/s,,,,\n" * 513, "line 514: these are more than 512 flows"),
        ):
            with self.subTest(flows=flows[:80]):
                self.assertEqual(self.refused(flows), f"f.csv, {tells}")

    def test_what_no_network_has(self):
        for flows, tells in (
            ("a,b,4.1 GB/s,,,,\n", "line 2: rate: 4.1 GB/s can't be had: a link has 4 GB/s, two words a cycle"),
            ("a,b,1MB/s,,33 Gb/s,,\n", "line 2: back_rate: 33 Gb/s can't be had: a link has 4 GB/s, two words a cycle"),
            ("a,b,1MB/s,3.9ns,,,\n", "line 2: latency: 3.9ns can't be had: the shortest path takes 2 cycles, 4 ns"),
            ("a,b,1MB/s,,,0 ns,\n", "line 2: back_latency: 0 ns can't be had: the shortest path takes 2 cycles, 4 ns"),
            ("a,b,1MB/s,,5GB/s,,\na,c,1MB/s,,,,\nc,b,1MB/s,1 ns,,,\n", "line 2: back_rate: 5GB/s can't be had: a link has 4 GB/s, two words a cycle; and faults in line 4"),
            ("a,b,3GB/s,,,,u\na,c,3GB/s,,,,v\na,d,2GB/s,,,,u\n",
             "line 4: with it the channels from core `a` in use case `u` ask 5 GB/s, and a link has 4 GB/s"),
            ("a,b,3GB/s,,1GB/s,,\nc,b,1GB/s,,,,\nd,b,1B/s,,,,\n",
             "line 4: with it the channels to core `b` in use case `main` ask 4.001 GB/s, and a link has 4 GB/s"),
        ):
            with self.subTest(flows=flows):
                self.assertEqual(self.refused(HEADER + flows), f"f.csv, {tells}")
        self.assertEqual(self.refused("from,to,rate,delay\na,b,1MB/s,8.193us\n"),
                         "f.csv, line 2: delay: 8.193us can't be had: a receiver takes a word at most 4,096 cycles, 8.192 us, after it landed")

    def test_what_a_chip_has_not(self):
        self.home.put("s.csv", "core,interface\na,n0\nb,n1\n")
        words = ("--seats", "s.csv", "--chip", "examples/pair.toml")
        self.assertEqual(self.refused(HEADER + "a,b,1MB/s,5ns,,,\n", *words), (
            "f.csv, line 2: channel fwd: it wishes a latency of 2 (4 ns), and the quickest path from `a` on n0 to `b` on n1 takes 3 cycles "
            "(6 ns). It needs a greater latency, or a shorter way: more slots don't help"))
        self.assertEqual(self.refused(HEADER + "a,b,2GB/s,,,,\na,b,1.6GB/s,,,,\na,b,1MB/s,,,,\n", *words), (
            "f.csv, line 4: with it the channels from interface `n0` in use case `main` need 9 slots, and a link of the chip has 8"))
        self.assertEqual(self.refused(HEADER + "".join(f"a{place},b{place},1MB/s,,,,\n" for place in range(5)), "--chip", "examples/pair.toml"),
                         "f.csv, line 6: these are more than 8 cores, for which the chip has seats")
        self.assertEqual(self.app(HEADER + "a,b,1MB/s,,,,\n", "--chip", "examples/one.toml"), (2, "", "refused chip 2 WrongKey 0 connection\n"))

    def test_seats(self):
        flows = HEADER + "".join(f"a{place},b,1MB/s,,,,\n" for place in range(5))
        for seats, tells in (
            ("core,interface\n", "line 1: no seat stands below the header"), ("core\n", "line 1: the header has no column `interface`: the columns are core, interface"),
            ("core,interface\nc,n0\n", "line 2: no flow begins or ends at core `c`"),
            ("core,interface\na1,n0\na1,n1\n", "line 3: core `a1` stands twice"),
            ("core,interface\na1,N\n", "line 2: interface: `N` is no name, which has 1 to 32 of a-z, 0-9 and _"),
            ("core,interface\n" + "".join(f"a{place},n0\n" for place in range(5)), "line 6: interface `n0` has 4 cores already, the most there may be"),
            ("core,interface\na1,n2\n", "line 2: the chip has no interface `n2`"),
        ):
            with self.subTest(seats=seats):
                self.home.put("s.csv", seats)
                self.assertEqual(self.refused(flows, "--seats", "s.csv", "--chip", "examples/pair.toml"), f"s.csv, {tells}")

    def test_words(self):
        for words, tells in (
            (("app", "f.csv"), "--clock is missing: it tells how many cycles a second has, as --clock 500MHz"),
            (("app", "--clock", "1GHz"), "the following arguments are required: FLOWS; `./design help app` tells more"),
            (("app", "f.csv", "--clock", "1GHz", "--smooth", "u"), "--smooth: it takes two use cases or more, with commas between"),
            (("app", "f.csv", "--clock", "1GHz", "--smooth", "u,main"), "--smooth: no use case has the name u: they are main"),
            (("app", "f.csv", "--clock", "1GHz", "--detour", "5"), "a detour is 0 to 4 links"),
            (("app", "f.csv", "--clock", "1GHz", "--cost", "x"), "argument --cost: invalid choice: 'x' (choose from 'hops', 'pressure')"),
        ):
            with self.subTest(words=words):
                self.home.put("f.csv", "from,to,rate\na,b,1MB/s\n")
                self.assertEqual(self.home.design(*words), (1, "", f"design: {tells}\n"))

    def test_files(self):
        self.home.put("f.csv", "from,to,rate\na,b,1MB/s\n")
        self.home.put("long.csv", "#" * 1_048_577)
        (self.home.top / "odd.csv").write_bytes(b"from,to,rate\na,b,1MB/s\n\xff")
        for flows, more, ended in (
            ("none.csv", (), (4, "none.csv: No such file or directory")), ("examples", (), (4, "examples: Is a directory")),
            ("f.csv", ("--seats", "none.csv"), (4, "none.csv: No such file or directory")),
            ("long.csv", (), (2, "long.csv has more than 1,048,576 bytes")), ("odd.csv", (), (2, "odd.csv, line 3: a byte isn't UTF-8")),
        ):
            with self.subTest(flows=flows):
                status, text, errors = self.home.design("app", flows, "--clock", "1GHz", *more)
                self.assertEqual((status, text, errors), (ended[0], "", f"design: {ended[1]}\n"))
