"""A thousand turned cases of each command of `design` and `draw`, of a fixed seed: none fails."""
from pathlib import Path
import os
import tempfile
import unittest

from fuzz import fuzz
from fuzz_cases import COMMANDS
from home import PROGRAM


@unittest.skipUnless(PROGRAM, "there is no built program")
class Fuzz(unittest.TestCase):
    def test_a_thousand_cases_of_each_command(self):
        found = fuzz(range(1_000), 1, os.cpu_count() or 1, Path(tempfile.gettempdir()) / "fuzz-kept")
        self.assertEqual((found.failed, found.tried), ([], 1_000 * len(COMMANDS)))
