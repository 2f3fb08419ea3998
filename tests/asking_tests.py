"""Tests of what `draw` and `design` ask the program and read: each question once in a command, and each file in TOML once."""
import os
import re
import shutil
from unittest import mock

from changes_tests import DESIGN, DRAW, EXAMPLES, MESH, PAIR, TWO, VIDEO, Changes
import asking
import design
import design_files
import fit
import program as calls
import toml_lines
import units

# It notes its words, with a checksum for each copy of a file, and is the program itself then.
NOTING = """#!/bin/sh
line=
for word; do
    case $word in /proc/self/fd/*) word=file$(cksum <"$word" | tr -d ' ') ;; esac
    line="$line $word"
done
echo "$line" >>"$NOTES"
exec "$NOTED" "$@"
"""
RUN = [EXAMPLES / f"two.{name}.csv" for name in ("words", "receivers", "switches")]
ROLL = EXAMPLES / "roll.toml"


class Asked(Changes):
    @classmethod
    def setUpClass(cls):
        super().setUpClass()
        cls.program = cls.folder / "noting"
        cls.program.write_text(NOTING)
        cls.program.chmod(0o755)
        cls.notes = cls.folder / "notes"
        names = {"NOTES": str(cls.notes), "NOTED": str(calls.built())}
        cls.enterClassContext(mock.patch.dict(os.environ, names))
        cls.enterClassContext(mock.patch.object(calls, "built", lambda: cls.program))

    def asked(self, script, *words, status=0):
        """The commands that a script asks the program, in their order, none of them twice; and how many files in TOML it reads."""
        self.notes.write_text("")
        for read in (design_files.read_once, design_files.read_chip, design_files.read_application):
            read.cache_clear()
        document = toml_lines.Reader.document
        with (
            mock.patch.object(calls, "asking", asking.Asking()),
            mock.patch.object(toml_lines.Reader, "document", autospec=True, side_effect=document) as read,
        ):
            ended, _, errors = script(*words)
        self.assertEqual(ended, status, errors)
        lines = self.notes.read_text().splitlines()
        self.assertEqual(len(set(lines)), len(lines), words)
        return [line.split()[0] for line in lines], read.call_count

    def test_a_report_of_a_plan(self):
        uses = design.uses_for_all(design_files.read_application(VIDEO.read_bytes()))
        self.assertEqual(self.asked(DRAW, "report", MESH, VIDEO, self.video), (["check"] + ["tables"] * len(uses), 2))

    def test_a_report_of_a_run(self):
        asked, read = self.asked(DRAW, "report", PAIR, TWO, self.two, *RUN, 24)
        self.assertEqual((sorted(asked), read), (["check", "links", "simulate", "tables"], 2))

    def test_a_report_of_a_run_as_hardware(self):
        if not shutil.which("iverilog"):
            self.skipTest("there is no simulator")
        asked, read = self.asked(DRAW, "report", PAIR, TWO, self.two, *RUN, 24, "--cosim")
        self.assertEqual((sorted(asked), read), (["check", "links", "simulate", "tables", "tables"], 2))

    def test_a_report_of_refusals(self):
        asked, read = self.asked(DRAW, "report", PAIR, ROLL, self.made("empty", ""))
        self.assertEqual((asked, read), (["allocate", "app", "explain", "allocate"], 2))

    def test_the_tables_of_a_fit(self):
        """Of a plan that several detours and prices have the tables are asked for once."""
        asked, read = self.asked(DESIGN, "fit", PAIR, TWO, "--slots", "8,16")
        self.assertEqual((asked.count("app"), asked.count("allocate"), asked.count("tables"), read), (1, 12, 2, 2))

    def test_what_helps_refused_units(self):
        """Each of two units is tried with other latencies, for which it is asked once what all need; and other sizes are tried."""
        one = (EXAMPLES / "one.toml").read_text()
        connection = one[one.index("[[connection]]") : one.index("[[use]]")]
        full = connection.replace("c0", "full").replace("1, per = 2, latency = 6", "3, per = 2, latency = 99")
        more = full + connection.replace("c0", "c1") + "[[use]]"
        app = self.made("full.toml", one.replace("[[use]]", more).replace('["c0"]', '["full", "c0", "c1"]'))
        with mock.patch.object(units, "MOST_SECONDS", 600):  # on a machine that has much else to do
            asked, read = self.asked(DESIGN, "where", "allocate", PAIR, app, status=3)
        self.assertEqual((asked.count("app"), asked.count("tables"), read), (1, 0, 2))
        self.assertGreater(asked.count("allocate"), len(fit.SIZES))

    def test_all_others(self):
        files, one = (PAIR, TWO, self.two), (PAIR, TWO, self.two, TWO, self.two)
        for script, *words in (
            (DRAW, "plan", *files, "u0"), (DRAW, "run", *files, *RUN, 24), (DRAW, "play", *files), (DRAW, "play", *files, "u0"),
            (DRAW, "play", *files, *RUN, 24), (DRAW, "wave", *files, *RUN, 24), (DRAW, "diff", *one),
            (DRAW, "refusal", PAIR, ROLL), (DRAW, "report", *files, "--json"), (DESIGN, "diff", *one), (DESIGN, "load", *files),
            (DESIGN, "drain", *files, "u1", "u0"), (DESIGN, "drain", *files, "u0", "u0"), (DESIGN, "pin", *files[1:]),
            (DESIGN, "words", PAIR, TWO, "u0", 24, "--plan", self.two), (DESIGN, "where", "simulate", *files, *RUN, 24),
            (DESIGN, "rtl", *files, "--to", self.folder / "made"),
        ):
            with self.subTest(words=re.sub(r"\S*/", "", " ".join(map(str, words)))):
                read = self.asked(script, *words)[1]
                self.assertLessEqual(read, 2)
