"""Tests that `design` and `draw` run under each Python from 3.11.0 on.

Python before 3.11.5, as that of Debian 12, goes on from a wrong place where a turn of a group with `*+` or `++` fails behind a
repeat or beside an assertion.
"""
from itertools import pairwise
import json
import os
import re
import subprocess
import sys
import unittest

from home import TOP

sys.path.append(str(TOP / "common.d"))
import toml_lines  # noqa: E402: its folder is told above

TEXTS = (
    'k = ["a", "b"]\n', 'k = ["a", "b" # c\n, "d"]\n', "k = ['a', 'b', ]\n", 'k = """a"b""c"""\n', "k = '''a'b''c'''\n",
    'k = """a"""""\n', 'k = ["a", """b"""]\n', "k = 1_000\n", "k = [1_0, 0x1_f, 1_0.5_0]\n", 'k = "\\u0041"\n', 'k = """\\\n a"""\n',
)
ASK = """
import json, sys
sys.dont_write_bytecode = True
sys.path.append(sys.argv[1])
import toml_lines
print(json.dumps([toml_lines.read(text.encode())[0] for text in json.loads(sys.argv[2])]))
"""
REPEATS = ("MAX_REPEAT", "MIN_REPEAT", "POSSESSIVE_REPEAT")
ASSERTIONS = ("ASSERT", "ASSERT_NOT")


def below(argument):
    """The parsed patterns within an operation of a pattern."""
    for part in argument if isinstance(argument, (tuple, list)) else ():
        if hasattr(part, "data"):
            yield part
        else:
            yield from below(part)


def operations(pattern):
    for operation in pattern:
        yield operation
        for inner in below(operation[1]):
            yield from operations(inner)


def unsafe_turns(pattern):
    """The turns of possessive groups that fail behind a repeat or beside an assertion."""
    for name, argument in operations(re._parser.parse(pattern)):
        if str(name) != "POSSESSIVE_REPEAT":
            continue
        for inner in below(argument):
            names = [[str(one) for one, _ in part] for part in sequences(inner)]
            if any(one in REPEATS for part in names for one, _ in pairwise(part)) or any(set(part) & set(ASSERTIONS) for part in names):
                yield pattern


def sequences(pattern):
    """A pattern and those within it, each as the list of its operations."""
    yield list(pattern)
    for _, argument in pattern:
        for inner in below(argument):
            yield from sequences(inner)


class Patterns(unittest.TestCase):
    def test_each_turn_of_the_reader_is_safe(self):
        found = [value for value in vars(toml_lines).values() if isinstance(value, re.Pattern)] + list(toml_lines.LONG.values())
        self.assertGreater(len(found), 8)
        self.assertEqual([pattern for each in found for pattern in unsafe_turns(each.pattern)], [])

    def test_an_unsafe_turn_is_told(self):
        for pattern in (r'(?:"[a-z]*",)++', r'(?:a|"(?!""))*+', r"(?:(?: |#[a-z]*+\n)*+x,)++", r"(?:_?[0-9])*+"):
            self.assertTrue(list(unsafe_turns(pattern)), pattern)

    def test_no_other_file_has_such_a_group(self):
        for place in ("common.d", "design.d", "draw.d"):
            for file in (TOP / place).glob("*.py"):
                if file.name != "toml_lines.py":
                    self.assertNotRegex(file.read_text(encoding="utf-8"), r"\)[*+?]\+", file.name)


class Others(unittest.TestCase):
    def test_the_systems_own_python_reads_the_same(self):
        other = "/usr/bin/python3"
        if not os.access(other, os.X_OK) or os.path.realpath(other) == os.path.realpath(sys.executable):
            self.skipTest("the system has no other Python")
        version = subprocess.run([other, "-c", "import sys; print(sys.version_info >= (3, 11))"], capture_output=True, text=True, check=False)
        if version.stdout != "True\n":
            self.skipTest("the system's own Python is older than 3.11")
        asked = [other, "-c", ASK, str(TOP / "common.d"), json.dumps(TEXTS)]
        told = subprocess.run(asked, capture_output=True, text=True, check=False)
        self.assertEqual(told.returncode, 0, told.stderr)
        self.assertEqual(json.loads(told.stdout), [toml_lines.read(text.encode())[0] for text in TEXTS])
