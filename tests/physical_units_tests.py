"""Tests of physical units: what their texts say, how numbers are rounded, and which words of a command line give them."""
from fractions import Fraction
from random import Random
import sys
import tomllib
import unittest

from home import TOP

sys.path.append(str(TOP / "common.d"))
from ending import Stop  # noqa: E402: its folder is told above
from physical_units import UnitFault, decimal, rate_of, rate_text, time_of, units_of, without_units  # noqa: E402

EXAMPLES = sorted(path for path in (TOP / "examples").glob("*.toml") if b"[[connection]]" in path.read_bytes())
CLOCKS = (("500MHz", "4B"), ("1GHz", "8B"), ("250 MHz", "16b"), ("1.6GHz", None))


class Texts(unittest.TestCase):
    def test_what_they_say(self):
        for text, value in (("240 MB/s", 240_000_000), ("0.5kB/s", 500), ("1 Gb/s", 125_000_000), ("8b/s", 1), ("1.5 GB/s", 1_500_000_000)):
            self.assertEqual(rate_of(text), value, text)
        for text, value in (("120 ns", "0.00000012"), ("0.2us", "0.0000002"), ("0.2 µs", "0.0000002"), ("3ms", "0.003"), ("7ps", "0.000000000007")):
            self.assertEqual(time_of(text), Fraction(value), text)

    def test_what_is_none(self):
        for text in ("", "MB/s", "-1 MB/s", "1e3MB/s", "1,5 MB/s", "1. MB/s", ".5 MB/s", "0x10 MB/s", "9" * 16 + " MB/s", "nan MB/s", "\u0663 MB/s"):
            with self.subTest(text=text), self.assertRaises(UnitFault) as fault:
                rate_of(text)
            self.assertIn("B/s, kB/s, MB/s, GB/s, b/s, kb/s, Mb/s, Gb/s", str(fault.exception))
        for text, why in (("240", "has no unit"), ("240 MBps", "none of a rate"), ("240 mb/s", "none of a rate"), ("240 ns", "none of a rate")):
            with self.subTest(text=text), self.assertRaisesRegex(UnitFault, why):
                rate_of(text)
        with self.assertRaisesRegex(UnitFault, "ps, ns, us, ms, s"):
            time_of("3 cycles")

    def test_units_for_a_reader(self):
        for rate, text in ((0, "0 MB/s"), (1, "1 B/s"), (999, "999 B/s"), (62_500_000, "62.5 MB/s"), (4_000_000_000, "4 GB/s")):
            self.assertEqual(rate_text(Fraction(rate)), text)
        units = units_of("500MHz", "4B")
        self.assertEqual([units.time(cycles) for cycles in (0, 1, 60, 4_096, 1_000_000)], ["0 ns", "2 ns", "120 ns", "8.192 us", "2 ms"])
        self.assertEqual((units.rate(1, 3), units.rate(1, 3, up=True), units.megabytes(1, 3)), ("666.6 MB/s", "666.7 MB/s", "666.6"))
        self.assertEqual(units_of("533MHz", "4B").nanoseconds(100), "187.7")
        self.assertEqual(units.told, "A cycle is 2 ns, and a word has 4 bytes.")

    def test_rounding_keeps_its_side(self):
        chance = Random(1)
        for _ in range(20_000):
            value = Fraction(chance.randrange(1, 10 ** chance.randrange(1, 15)), chance.randrange(1, 10 ** chance.randrange(1, 15)))
            down, up = Fraction(decimal(value)), Fraction(decimal(value, up=True))
            self.assertTrue(down <= value <= up, value)
            self.assertTrue(up - down <= value / 1000, value)
            self.assertLessEqual(len(decimal(value).replace(".", "").lstrip("0")), max(6, len(str(int(value)))), value)


class Turned(unittest.TestCase):
    def test_wishes_of_all_examples_are_the_same_both_ways(self):
        self.assertGreater(len(EXAMPLES), 6)
        for path in EXAMPLES:
            for connection in tomllib.loads(path.read_text())["connection"]:
                for wish in (connection["fwd"], connection["back"]):
                    for words in CLOCKS:
                        units = units_of(*words)
                        with self.subTest(path=path.name, wish=wish, words=words):
                            rate, time = units.rate(wish["words"], wish["per"]), units.time(wish["latency"])
                            self.assertEqual(units.words_per_cycle(rate_of(rate)), Fraction(wish["words"], wish["per"]))
                            self.assertEqual(units.cycles(time_of(time)), wish["latency"])


class Words(unittest.TestCase):
    def test_taken_out(self):
        rest, units = without_units(["plan", "--word=8B", "a", "--clock", "1GHz", "b"])
        self.assertEqual((rest, units.clock, units.word), (["plan", "a", "b"], 10 ** 9, 8))
        self.assertEqual(without_units(["plan", "a"]), (["plan", "a"], None))
        self.assertEqual(without_units(["--clock", "1GHz"]).units.word, 4)

    def test_what_is_wrong(self):
        for words, why in (
            ("--clock", "--clock: `` is no clock: it must be a number, as 240 or 0.5, and one of the units Hz, kHz, MHz, GHz"),
            ("--clock 500", "--clock: `500` has no unit: those of a clock are Hz, kHz, MHz, GHz"),
            ("--clock 500mhz", "--clock: `500mhz` has a unit that is none of a clock: these are Hz, kHz, MHz, GHz"),
            ("--clock 0MHz", "--clock: a clock is more than 0"),
            ("--clock 1GHz --word 4", "--word: `4` has no unit: those of a word size are B, b"),
            ("--clock 1GHz --word 0B", "--word: a word size is more than 0"),
            ("--word 4B", "--word needs --clock beside it, as --clock 500MHz --word 4B"),
            ("--clock 1GHz --clock 2GHz", "--clock stands twice"),
        ):
            with self.subTest(words=words), self.assertRaises(Stop) as stop:
                without_units(words.split())
            self.assertEqual((stop.exception.status, stop.exception.why), (1, why))
