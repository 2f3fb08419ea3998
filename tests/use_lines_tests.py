"""Tests of tests/use_lines.py."""
import unittest

import use_lines


class Lines(unittest.TestCase):
    library = use_lines.Library()

    def written(self, *lines):
        return use_lines.rewritten("\n".join(lines), self.library).split("\n")

    def test_modules_below_one_path_share_a_line(self):
        self.assertEqual(
            self.written("-- Head.", "use Rattle.aeth_x.specs.A.{a}", "use Rattle.aeth_x.specs.B.{b as c}", "", "law : a ≡ c"),
            ["-- Head.", "use Rattle.aeth_x.specs.{A.a, B.b as c}", "", "law : a ≡ c"],
        )

    def test_what_would_not_be_shorter_is_left(self):
        lines = ["use Rattle.aeth_x.specs.A.{a, b, c}", ""]
        self.assertEqual(self.written(*lines), lines)

    def test_a_name_stands_once_and_lines_are_cut(self):
        names = [f"a_rather_long_name_{number}" for number in range(6)]
        lines = self.written(*(f"use Rattle.aeth_x.specs.A.{{{name}}}" for name in names + names[:2]))
        self.assertEqual(len(lines), 2)
        self.assertLessEqual(max(map(len, lines)), 100)
        self.assertEqual(sum(line.count("a_rather") for line in lines), 6)

    def test_a_name_that_is_passed_on_comes_from_there(self):
        library = use_lines.Library()
        library.rows = {use_lines.COMMON: {"map": (("Rattle", "std", "specs", "List"), "map")}}
        text = "use Rattle.std.specs.List.{map}\nuse Rattle.std.specs.List.{other}"
        self.assertEqual(use_lines.rewritten(text, library), "use Rattle.std.{proofs.Common.map, specs.List.other}")

    def test_what_it_wrote_it_leaves(self):
        once = self.written("use Rattle.aeth_x.specs.A.{a}", "use Rattle.aeth_x.proofs.B.{b}", "use Rattle.aeth_x.proofs.C.{c}")
        self.assertEqual(self.written(*once), once)


if __name__ == "__main__":
    unittest.main()
