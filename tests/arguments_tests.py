"""No function takes more than six arguments, but for those that must."""
import unittest

import arguments
from home import TOP


class Arguments(unittest.TestCase):
    def test_no_function_takes_more(self):
        self.assertEqual(list(arguments.faults(TOP)), [])

    def test_what_is_counted(self):
        """A receiver counts; a comma within a type, and one behind the last argument, don't."""
        text = ("fn none() {}\nfn two<F: Fn(u32, u32) -> u32>(&self, f: F) -> bool\n"
                "pub fn three(\n    a: Map<u8, u8>,\n    b: (u8, u8), // , c: u8\n    f: impl Fn(u8, u8) -> u8,\n) {}\n")
        self.assertEqual(arguments.functions(text), [("none", 0), ("two", 2), ("three", 3)])


if __name__ == "__main__":
    unittest.main()
