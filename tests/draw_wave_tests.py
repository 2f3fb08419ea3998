"""Tests of `./draw wave`: the form of its dumps, and their values against the log of the links."""
from collections import defaultdict
import re
import subprocess
import unittest

from chips import chip
from design_files import Link, read_application, read_chip
from draw_tests import EXAMPLES, VIDEO_RUN, WithProgram
from home import TOP
from plan_texts import read_plan, rows_of
from run_texts import read_flits
from waveform import draw_wave, identifier, scope_names

ONE = ("examples/pair.toml", "examples/one.toml", "examples/one.plan")
ONE_RUN = (*ONE, "examples/one.words.csv", "examples/two.receivers.csv", "examples/one.switches.csv")
WIDTHS = {"flit": 1, "route": 21, "queue": 5, "credits": 4, "count": 2, "first": 32, "second": 32}
EMPTY = {**dict.fromkeys(WIDTHS, "z"), "flit": "0", "channel": "-"}
HEAD = "cycle,link,header,first,second\n"


class Dump:
    """A dump, read to the letter of its format. `scopes` has the fields of each scope with their signals; `states` has
    pairs of a time and the values of all signals from then on."""

    def __init__(self, text):
        head, self.body = text.split("$enddefinitions $end\n")
        self.scopes, self.kinds, self.states = {}, {}, []
        self.read_head(head)
        self.read_body()

    def read_head(self, head):
        lines = head.splitlines()
        assert lines[:2] == ["$timescale 1 ns $end", "$scope module links $end"], lines[:2]
        assert lines[-1] == "$upscope $end"
        for scope in re.findall(r"\$scope module (\S+) \$end\n((?:\$[cv].*\n)+)\$upscope \$end\n", head.split("\n", 2)[2]):
            variables = re.findall(r"^\$var (wire|string) (\d+) (\S+) (\w+)(?: \[(\d+):0\])? \$end$", scope[1], re.M)
            assert scope[0] not in self.scopes
            assert len(variables) + 1 == scope[1].count("\n")
            for kind, width, sign, field, last in variables:
                assert sign not in self.kinds
                assert int(last or 0) == int(width) - 1
                self.kinds[sign] = kind, int(width)
            self.scopes[scope[0]] = {field: sign for _, _, sign, field, _ in variables}
        assert len(lines) == 3 + sum(3 + len(fields) for fields in self.scopes.values())

    def read_body(self):
        """Reads the values. At each time only what changes may stand."""
        values = {}
        first, *parts = re.split(r"^#(\d+)\n", self.body, flags=re.M)
        assert first == ""
        for time, text in zip(parts[::2], parts[1::2]):
            if not self.states:
                assert text.startswith("$dumpvars\n") and text.endswith("$end\n")
                text = text[len("$dumpvars\n") : -len("$end\n")]
            changes = [self.change(line) for line in text.splitlines()]
            assert len({sign for sign, _ in changes}) == len(changes)
            assert all(values.get(sign) != value for sign, value in changes)
            values = {**values, **dict(changes)}
            assert not self.states or self.states[-1][0] < int(time)
            self.states.append((int(time), values))
        assert self.states[0][0] == 0 and self.states[0][1].keys() == self.kinds.keys()

    def change(self, line):
        """The signal of a line, and its value."""
        letter, value, sign = re.fullmatch(r"([bs])(\S+) (\S+)|([01])(\S+)", line).group(1, 2, 3)
        if letter is None:
            value, sign = line[0], line[1:]
        kind, width = self.kinds[sign]
        assert (kind == "string") == (letter == "s")
        assert letter == "s" or (width == 1) == (letter is None)
        assert letter != "b" or value == "z" or re.fullmatch(r"0|1[01]*", value) and len(value) <= width, line
        return sign, value if letter != "b" or value == "z" else int(value, 2)

    def rows(self):
        """The rows of a log of the links, each with its channel."""
        for (time, values), (after, _) in zip(self.states, self.states[1:]):
            for link, fields in enumerate(self.scopes.values()):
                row = {field: values[sign] for field, sign in fields.items()}
                if row["flit"] == "0":
                    assert row == EMPTY
                    continue
                assert after == time + 1
                header = row["count"] << 30 | row["credits"] << 26 | row["queue"] << 21 | row["route"]
                yield time, link, header, row["first"], row["second"], row["channel"]


def rows_in(log):
    return [tuple(map(int, line.split(","))) for line in log.splitlines()[1:]]


def dump_of(the_chip, the_app, plan, log, cycles):
    """The dump of the bytes of three files, and of the text of a log."""
    files = read_chip(the_chip), read_application(the_app), read_plan(plan)
    return draw_wave(*files, read_flits(log.encode()), cycles)


class Dumps(unittest.TestCase):
    """Of logs that stand here, without the program."""

    def dump(self, log, cycles, the_app="one.toml", plan=None):
        the_chip, the_app = [(EXAMPLES / file).read_bytes() for file in ("pair.toml", the_app)]
        return Dump(dump_of(the_chip, the_app, plan or (EXAMPLES / "one.plan").read_bytes(), log, cycles))

    def test_the_worked_run(self):
        log = (EXAMPLES / "one.links.csv").read_text()
        dump = self.dump(log, 7)
        self.assertEqual(list(dump.scopes), ["n0_r0", "r0_n0", "n1_r1", "r1_n1", "r0_r1", "r1_r0"])
        for fields in dump.scopes.values():
            self.assertEqual(list(fields), [*WIDTHS, "channel"])
            self.assertEqual({field: dump.kinds[fields[field]] for field in WIDTHS}, {f: ("wire", w) for f, w in WIDTHS.items()})
            self.assertEqual(dump.kinds[fields["channel"]], ("string", 1))
        self.assertEqual(list(dump.rows()), [(*row, "c0:fwd") for row in rows_in(log)])
        self.assertEqual([time for time, _ in dump.states], [0, 4, 5, 6, 7])
        first = '1!\nb1 "\nb0 #\nb0 $\nb10 %\nb1100100 &\nb1100101 \'\nsc0:fwd (\n'
        self.assertIn(f"#4\n{first}#5\n0!\nbz \"\n", dump.body)

    def test_signals_of_the_example_for_a_viewer(self):
        files = [(EXAMPLES / name).read_bytes() for name in ("mesh.toml", "video.toml")]
        scopes = Dump(dump_of(*files, b"plan 1 64\nend\n", HEAD, 9)).scopes
        shown = re.findall(r"^links\.(\w+)\.(\w+)(?:\[31:0\])?$", (EXAMPLES / "video.gtkw").read_text(), re.M)
        self.assertEqual(len(shown), 16)
        for scope, field in shown:
            self.assertIn(field, scopes[scope])

    def test_first_and_last_cycles(self):
        for log, cycles, times in (
            ("", 3, [0, 3]),
            ("0,0,2147483649,1,2\n", 1, [0, 1]),
            ("0,0,2147483649,1,2\n", 9, [0, 1, 9]),
            ("8,0,2147483649,1,2\n", 9, [0, 8, 9]),
            ("4,0,2147483649,1,2\n5,0,2147483649,1,2\n", 9, [0, 4, 5, 6, 9]),
            ("4,0,2147483649,1,2\n6,0,2147483649,1,2\n", 9, [0, 4, 5, 6, 7, 9]),
            ("2,0,4294967295,4294967295,0\n", 9, [0, 2, 3, 9]),
        ):
            dump = self.dump(HEAD + log, cycles)
            self.assertEqual([row[:5] for row in dump.rows()], rows_in(HEAD + log))
            self.assertEqual([time for time, _ in dump.states], times, log)

    def test_tools_lay_a_dump_beside_that_of_a_design(self):
        """Each time is shifted, that of cycle 0 too: its flit enters where the design's cycle 0 begins."""
        command = re.search(r"^(awk -v start=.*?) video\.vcd > beside\.vcd$", (TOP / "docs/TOOLS.md").read_text(), re.M | re.S)[1]
        start, period = (int(re.search(rf"{name}=(\d+)", command)[1]) for name in ("start", "period"))
        files = [(EXAMPLES / name).read_bytes() for name in ("pair.toml", "one.toml", "one.plan")]
        dump = dump_of(*files, HEAD + "0,0,2147483649,1,2\n3,0,2147483649,3,4\n", 9)
        beside = subprocess.run(["sh", "-c", command], input=dump, capture_output=True, text=True, check=True).stdout
        times = [int(line[1:]) for line in beside.splitlines() if line.startswith("#")]
        self.assertEqual(times, [start + period * cycle for cycle in (0, 1, 3, 4, 9)])
        self.assertEqual(re.sub(r"^#\d+$", "#", beside, flags=re.M).replace("1 ps", "1 ns"), re.sub(r"^#\d+$", "#", dump, flags=re.M))

    def test_channels_by_queue_and_end(self):
        """Two cores of one connection each at `n0`, on seats 0 and 2, and one of both at `n1`."""
        plan = b"plan 1 8\nseat cpu n0 0\nseat mem n1 1\nseat dsp n0 2\nend\n"
        for link, route, queue, channel in (
            (0, 1, 8, "c0:fwd"), (4, 0, 8, "c0:fwd"), (3, 0, 8, "c0:fwd"), (0, 1, 9, "c1:fwd"),
            (2, 1, 0, "c0:back"), (5, 0, 0, "c0:back"), (1, 0, 0, "c0:back"), (2, 1, 16, "c1:back"),
            (0, 0, 0, "c0:back"), (0, 0, 8, "-"), (2, 1, 1, "-"), (0, 7, 8, "-"),
        ):
            header = 1 << 26 | queue << 21 | route
            dump = self.dump(f"{HEAD}3,{link},{header},0,0\n", 9, "two.toml", plan)
            self.assertEqual(list(dump.rows()), [(3, link, header, 0, 0, channel)])

    def test_names_of_links(self):
        ends = [("a", "b"), ("a", "b"), ("a", "b_c"), ("a_b", "c"), ("b", "a"), ("a", "a")]
        names = scope_names([Link(number, *end, 1) for number, end in enumerate(ends)])
        self.assertEqual(names, ["a_b_L0", "a_b_L1", "a_b_c_L2", "a_b_c_L3", "b_a", "a_a"])

    def test_identifiers(self):
        signs = [identifier(number) for number in range(8 * 1024)]
        self.assertEqual(len(set(signs)), len(signs))
        self.assertTrue(all(re.fullmatch(r"[!-~]{1,3}", sign) for sign in signs))


class Waves(WithProgram):
    def test_examples(self):
        for files, cycles in ((ONE_RUN, "7"), (ONE_RUN, "40"), (VIDEO_RUN, "2000")):
            log = self.aeth("links", *files, cycles)
            rows = list(Dump(self.wave(*files, cycles)).rows())
            self.assertEqual([row[:5] for row in rows], rows_in(log))
            self.has_slots(rows, files)

    def wave(self, *words):
        status, out, said = self.home.draw("wave", *words)
        self.assertEqual((status, said), (0, ""))
        return out

    def has_slots(self, rows, files):
        """In some group of use cases the plan grants each flit's channel the slot in which it enters its link."""
        the_chip = (self.home.top / files[0]).read_text()
        slots = int(re.search(r"^slots = (\d+)", the_chip, re.M)[1])
        granted = defaultdict(set)
        for connection, _, side, links, starts in rows_of((self.home.top / files[2]).read_text(), "grant"):
            for place, link in enumerate(links.split(",")):
                for start in starts.split(","):
                    granted[int(link), (int(start) + place) % slots].add(f"{connection}:{side}")
        for cycle, link, *_, channel in rows:
            self.assertIn(channel, granted[link, cycle % slots])

    def test_parallel_links(self):
        routers, pairs = ["r0", "r1"], [("r0", "r1"), ("r0", "r1")]
        the_chip = self.home.put("parallel.toml", chip(routers, pairs, 8))
        plan = self.home.put("parallel.plan", self.aeth("allocate", the_chip, ONE[1]))
        dump = Dump(self.wave(the_chip, ONE[1], plan, *ONE_RUN[3:], "9"))
        self.assertEqual(list(dump.scopes)[4:], ["r0_r1_L4", "r1_r0_L5", "r0_r1_L6", "r1_r0_L7"])

    def test_statuses_of_aeth(self):
        for words, status, said in (
            (("nosuch", *ONE_RUN[1:], "7"), 4, "read fault chip\n"),
            ((*ONE_RUN, "0"), 1, "draw: CYCLES is `0`, and must be 1 to 10,000, in digits alone\n"),
            ((*ONE_RUN, "10001"), 1, "draw: CYCLES is `10001`, and must be 1 to 10,000, in digits alone\n"),
            ((*ONE_RUN, "x"), 1, "draw: CYCLES is `x`, and must be 1 to 10,000, in digits alone\n"),
            ((ONE[1], *ONE_RUN[1:], "7"), 2, "refused chip 2 WrongKey 0 connection\n"),
        ):
            self.assertEqual(self.home.draw("wave", *words), (status, "", said))
        self.assertEqual(self.home.draw("wave", *ONE_RUN)[0], 1)
