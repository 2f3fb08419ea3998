"""Each edge of crates.txt is used, and each crate that sources name has an edge."""
import pathlib
import re
import tempfile
import unittest

import edges
from home import TOP


class Edges(unittest.TestCase):
    def test_each_edge_is_used(self):
        self.assertEqual(list(edges.faults(TOP)), [])

    def test_layers(self):
        """A crate stands on none of a layer below its own in the map's table, but for those that the map names."""
        page = (TOP / "docs/ARCHITECTURE.md").read_text()
        layer, layers = 0, {}
        for row in re.search(r"(?m)^\| Layer \| Crate .*\n\|[-|]+\n((?:\|.*\n)+)", page)[1].splitlines():
            name, crates = row.split("|")[1:3]
            layer += bool(name.strip())
            layers |= {crate: layer for crate in re.findall(r"\baeth\w*", crates)}
        stands_on = edges.edges((TOP / "crates.txt").read_text())
        down = [f"{crate} on {below}" for crate in stands_on for below in stands_on[crate] if layers.get(below, 0) > layers[crate]]
        self.assertEqual(sorted(down), ["aeth_running on aeth_rtable", "aeth_running on aeth_schedule", "aeth_stimuli on aeth_schedule"])

    def test_what_is_no_use(self):
        """A comment and a longer name use nothing; a path in a clause does."""
        with tempfile.TemporaryDirectory() as folder:
            top = pathlib.Path(folder)
            (top / "crates.txt").write_text("# lowest first\nlow:\nlow_laws: low\nmiddle: low low_laws itoa\ntop: middle low\n")
            for name, text in {
                "low/src/lib.rt": "pub fn one() {}\n",
                "low_laws/specs/Lib.antt": "use Rattle.low.specs.One.{one}\n",
                "middle/src/lib.rt": "// low::one is told\nghost use Rattle.low_laws.specs.Two.{two};\nuse itoa::Buffer;\n",
                "top/src/main.rt": "    ensures { Rattle.middle.specs.Three.three ≡ result }\n    -- low::one\n    other::one()\n",
                "top/proofs/f/Answers.antt": "use Rattle.low_laws.proofs.Laws.{law}\n",
            }.items():
                file = top / "crates" / name
                file.parent.mkdir(parents=True, exist_ok=True)
                file.write_text(text)
            self.assertEqual(
                list(edges.faults(top)),
                ["middle: no line names low, on which it stands", "top: no line names low, on which it stands",
                 "top: names low_laws, on which it doesn't stand"],
            )
