"""Each public call that may lack memory is made, by the program or by a crate of tests."""
import subprocess
import sys
import unittest

from home import TOP


class Calls(unittest.TestCase):
    def test_each_call_that_may_lack_memory_is_made(self):
        told = subprocess.run([sys.executable, TOP / "tests/calls.py"], capture_output=True, text=True, check=False)
        self.assertEqual((told.returncode, told.stdout.count("\n")), (0, 1), told.stdout + told.stderr)
