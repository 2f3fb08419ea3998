"""Tests of `--clock` and `--word`: MB/s and ns stand beside words and cycles, and nowhere without these words."""
from fractions import Fraction
import re

from draw_report_tests import Page
from draw_tests import PAIR, PAIR_RUN, WithProgram, read, tag, texts
from physical_units import units_of

CLOCK = ("--clock", "500MHz", "--word", "4B")
OTHER = ("--clock=533MHz",)
TIME = re.compile(r"MB/s|GB/s|\d [nu]s\b")


class Pictures(WithProgram):
    def test_a_plan(self):
        for words in (("u1",), ("u1", "c0", "fwd")):
            plain, told = self.draw("plan", *PAIR, *words), self.draw("plan", *PAIR, *words, *CLOCK)
            self.assertNotRegex(plain, TIME)
            self.assertIn("c0 fwd, cpu to mem: 500 words in 1,000 cycles (4 in 8), 1 GB/s, latency 4 cycles (8 ns), buffer 9 words", told)
            self.assertIn("A cycle is 2 ns, and a word has 4 bytes.", " ".join(texts(read(told))))
            self.assertIn("link 0 (n0 to r0) 3 (1.5 GB/s)", told)
        line = next(group for group in read(told).iter() if group.get("class") == "c k0 chosen")
        shown = ["".join(element.itertext()) for element in line if tag(element) == "text"][-6:]
        self.assertEqual(shown, ["500", "4", "1000", "4", "8", "9"])

    def test_a_run(self):
        plain, told = self.draw("run", *PAIR_RUN, "24"), self.draw("run", *PAIR_RUN, "24", *CLOCK)
        self.assertNotRegex(plain, TIME)
        for text in ("24 cycles (48 ns) with 1 change", "guaranteed latency 4 (8 ns)", "at most 14 cycles (28 ns) from offer"):
            self.assertIn(text, told)
        shown = texts(read(told))
        axis = [text for text in shown if text.endswith(" ns") and text[0].isdigit()]
        cycles = [text for text in shown if text.isdigit()]
        self.assertGreaterEqual(len(axis), 3)
        for time in axis:
            self.assertIn(str(int(time.removesuffix(" ns")) // 2), cycles)
        self.assertEqual(shown.count("time"), 1)

    def test_a_refusal(self):
        files = "examples/pair.toml", "examples/roll.toml"
        self.assertNotRegex(self.draw("refusal", *files), TIME)
        self.assertIn("for a latency of 1 cycle (2 ns) at most", self.draw("refusal", *files, *CLOCK))

    def test_a_report(self):
        for words in ((*PAIR_RUN, "24"), PAIR):
            status, plain, _ = self.home.draw("report", *words)
            self.assertEqual(status, 0)
            status, told, errors = self.home.draw("report", *words, *OTHER)
            self.assertEqual((status, errors), (0, ""))
            self.same_in_units(plain, told)

    def same_in_units(self, plain, told):
        """The rows are the same but for the columns in physical units, which tell the same to their safe side."""
        def heads(text):
            return re.findall(r'<th [^>]*><button type="button">([^<]*)<small>([^<]*)</small>', text)

        units, columns = units_of("533MHz", None), heads(told)
        kept = [place for place, (_, unit) in enumerate(columns) if unit not in ("MB/s", "ns")]
        self.assertEqual([columns[place] for place in kept], heads(plain))
        self.assertGreaterEqual(len(columns) - len(kept), 4)
        rows = Page(told).rows
        self.assertEqual([[row[0], *(row[1 + place] for place in kept)] for row in rows], Page(plain).rows)
        for row in rows:
            for (name, unit), before, cell in zip(columns[1:], row[1:], row[2:]):
                if unit == "MB/s":
                    words, per = map(int, before[1].split(" in "))
                    exact = units.bytes_per_second(words, per) / 10 ** 6
                    self.beside(exact, cell, cell - float(exact) if name == "wished" else float(exact) - cell)
                if unit == "ns" and cell is not None:
                    exact = units.seconds(Fraction(before)) * 10 ** 9
                    self.beside(exact, cell, float(exact) - cell if name == "within" else cell - float(exact))
        self.assertIn("A cycle is 1.876 ns, and a word has 4 bytes.", told)

    def beside(self, exact, cell, safe):
        self.assertGreaterEqual(safe, -1e-9, (exact, cell))
        self.assertLessEqual(safe, float(exact) / 1000, (exact, cell))

    def test_a_report_of_refusals(self):
        self.home.put("none.plan", "")
        words = ("examples/pair.toml", "examples/roll.toml", "none.plan")
        status, told, _ = self.home.draw("report", *words, *CLOCK)
        self.assertEqual(status, 0)
        self.assertIn("for a latency of 1 cycle (2 ns) at most", told)
        self.assertIn('<small>ns</small>', told)

    def test_words_that_are_none(self):
        for words, tells in (
            (("plan", *PAIR, "u1", "--clock", "500"), "--clock: `500` has no unit: those of a clock are Hz, kHz, MHz, GHz"),
            (("plan", *PAIR, "u1", "--word", "4B"), "--word needs --clock beside it, as --clock 500MHz --word 4B"),
            (("wave", *PAIR_RUN, "24", "--clock", "1GHz"), "--clock is of plan, run, report, refusal, play; `./draw help` tells more"),
            (("plan", *PAIR, "--clock", "1GHz"), "plan takes 4 words and up to 2 of a channel, not 3; `./draw help` tells more"),
        ):
            with self.subTest(words=words):
                self.assertEqual(self.home.draw(*words), (1, "", f"draw: {tells}\n"))


class Designs(WithProgram):
    def test_fit(self):
        words = ("fit", "examples/pair.toml", "examples/one.toml", "--slots", "2,8", "--detours", "0", "--costs", "hops")
        self.assertEqual(self.home.design(*words, *CLOCK), (0, (
            "slots detour cost      granted       fullest     MB/s latency       ns\n"
            "    2      0 hops      all                 1     2000       3        6\n"
            "    8      0 hops      all                 2     1000       6       12\n\n"
            "The smallest table that grants everything has 2 slots: detour 0, cost hops.\n"), ""))
        self.assertNotRegex(self.home.design(*words)[1], "MB/s")
        self.assertEqual(self.home.design(*words, "--clock", "1")[:2], (1, ""))

    def test_where(self):
        one = (self.home.top / "examples/one.toml").read_text()
        for name, old, new in (("slow", "latency = 6, delay = 0", "latency = 6, delay = 5000"), ("fast", "words = 1, per = 2", "words = 5, per = 2")):
            self.home.put(name, one.replace(old, new))
        few = (self.home.top / "examples/one.plan").read_text()
        self.home.put("few", few.replace(" 0,4\n", " 0\n", 1))
        self.home.put("near", few.replace(" 0,4\n", " 0,1\n", 1))
        pair = "examples/pair.toml"
        for words, tells in (
            (("app", pair, "slow"), "`fwd` `delay` is 5000 (10 us)"), (("app", pair, "fast"), "`fwd` `words` is 5 (5 GB/s, and a link has 4 GB/s)"),
            (("check", pair, "examples/one.toml", "few"), "It needs 2 slots (1 GB/s), and has 1 (500 MB/s)."),
            (("check", pair, "examples/one.toml", "near"), "A latency of 6 (12 ns) on a path of 3 cycles (6 ns) allows one of 4."),
            (("allocate", pair, "examples/roll.toml"), "It carries credits alone, within 2 ns."),
            (("allocate", pair, "examples/roll.toml"), "It wishes a latency of 1 (2 ns), and the quickest path from any place of `acc` to `cpu` on n0 takes 2 cycles (4 ns)."),
        ):
            with self.subTest(words=words):
                plain, told = self.home.design("where", *words), self.home.design("where", *CLOCK, *words)
                self.assertEqual((plain[0], plain[1]), (told[0], told[1]))
                self.assertNotRegex(plain[2], TIME)
                self.assertIn(tells, told[2])
                self.assertEqual(self.home.design("where", *words, *CLOCK), told)
