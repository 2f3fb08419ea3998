"""Tests of `./draw report .. --csv` and `--json`: their columns and units, and their numbers against what `aeth` prints."""
import csv
import io
import json

from draw_tests import PAIR, PAIR_RUN, VIDEO, VIDEO_RUN, WithProgram, lines_of
from home import TOP
from plan_texts import read_queues, rows_of

TABLES = ("channels", "links", "switches")


class Tables(WithProgram):
    def text(self, *words):
        status, text, said = self.home.draw("report", *words)
        self.assertEqual(status, 0, said)  # (a slow machine is told of on standard error)
        return text

    def rows(self, table, *words):
        """The rows of a table in CSV, by the names of its columns without their units."""
        head, *rows = csv.reader(io.StringIO(self.text(*words, "--csv", table)))
        names = [name.split(" ")[0] for name in head]
        self.assertEqual(len(set(names)), len(names))
        return [dict(zip(names, row, strict=True)) for row in rows]

    def told(self, *words):
        return json.loads(self.text(*words, "--json"))

    def test_csv_and_json_have_the_same(self):
        for words in (PAIR, (*PAIR_RUN, "24"), (*VIDEO_RUN, "2000"), (*PAIR, "--clock", "500MHz")):
            told = self.told(*words)
            self.assertEqual(told["version"], 1)
            for table in TABLES:
                rows = self.rows(table, *words)
                self.assertEqual({row.pop("version") for row in rows}, {"1"})
                self.assertEqual(rows, [self.cells(row) for row in told[table]])

    def cells(self, row):
        """A row of JSON as it stands in CSV."""
        flat = {}
        for name, value in row.items():
            flat.update({f"{name}.{key}": inner for key, inner in value.items()} if isinstance(value, dict) else {name: value})
        as_text = lambda value: "" if value is None else " ".join(map(str, value)) if isinstance(value, list) else str(value)
        return {name: as_text(value) for name, value in flat.items()}

    def test_units_stand_in_the_head(self):
        """Each is that of the object in JSON."""
        words = (*PAIR_RUN, "24", "--clock", "500MHz", "--word", "4B")
        told = self.told(*words)
        self.assertEqual((told["clock"], told["word"]), (500e6, 4))
        for table in TABLES:
            head = next(csv.reader(io.StringIO(self.text(*words, "--csv", table))))
            units = {name.split(" ")[0].split(".")[0]: name.partition(" [")[2].rstrip("]") for name in head if " [" in name}
            self.assertEqual(units, told["units"][table])
        self.assertEqual(told["units"]["channels"]["guaranteed_bandwidth"], "MB/s")

    def test_physical_units(self):
        rows = self.rows("channels", *PAIR, "--clock", "500MHz")
        row = next(row for row in rows if (row["connection"], row["side"]) == ("c0", "fwd"))
        self.assertEqual((row["wished_bandwidth"], row["guaranteed_bandwidth"], row["guaranteed_latency_time"]), ("1000.0", "1000.0", "8.0"))
        self.assertNotIn("wished_bandwidth", self.rows("channels", *PAIR)[0])

    def test_channels_are_guaranteed_what_the_tables_say(self):
        rows = {(row["connection"], row["side"], use): row for row in self.rows("channels", *VIDEO) for use in row["use_cases"].split()}
        for use in ("decode", "menu", "record"):
            for queue in read_queues(self.aeth("tables", *VIDEO, use)):
                row = rows[queue.connection, queue.side, use]
                shown = row["guaranteed_words"], row["guaranteed_per"], row["guaranteed_latency"], row["buffer"]
                self.assertEqual(shown, (str(queue.rate), "64", str(queue.latency), str(queue.credits)))
        self.assertEqual({row["offered"] for row in rows.values()}, {""})

    def test_channels_observe_what_the_log_says(self):
        log = lines_of(self.aeth("simulate", *VIDEO_RUN, "2000"))
        found = {}
        for row in self.rows("channels", *VIDEO_RUN, "2000"):
            sums = found.setdefault(f"{row['connection']} {row['side']}", [0, 0, 0, []])
            for place, name in enumerate(("offered", "landed", "outside")):
                sums[place] += int(row[name])
            sums[3] += [int(row["worst_wait"])] if row["worst_wait"] else []
        for name, (offered, landed, outside, worst) in found.items():
            rows = log.get(name, [])
            sessions = [fields for word, fields in rows if word == "chan"]
            self.assertEqual((offered, landed), tuple(sum(int(fields[place]) for fields in sessions) for place in (4, 5)), name)
            self.assertEqual(outside, sum(int(fields[2]) for word, fields in rows if word == "outside"), name)
            waits = [int(fields[2]) - int(fields[1]) for word, fields in rows if word == "land"]
            self.assertEqual(max(worst, default=None), max(waits, default=None), name)

    def test_links_have_their_load(self):
        """Slots in use are those of interfaces and routers; flits are those of the log."""
        rows = self.rows("links", *VIDEO_RUN, "2000")
        for use in ("decode", "menu", "record"):
            entries = len(rows_of(self.aeth("tables", *VIDEO, use), "entry"))
            hops = len(rows_of(self.aeth("route-tables", *VIDEO, use), "hop"))
            self.assertEqual(sum(int(row[f"load.{use}"]) for row in rows), entries + hops)
        flits = dict(rows_of(self.aeth("simulate", *VIDEO_RUN, "2000"), "link"))
        self.assertEqual({row["link"]: row["flits"] for row in rows}, flits)
        for row in rows:
            self.assertEqual(float(row["run_load"]), round(100 * int(row["flits"]) / 2000, 3))

    def test_switches_of_a_run(self):
        """What opens goes where the switch is over."""
        rows = self.rows("switches", *VIDEO_RUN, "2000")
        self.assertEqual([(row["cycle"], row["from"], row["to"]) for row in rows], [
            ("0", "", "decode"), ("1000", "decode", "menu"), ("1500", "menu", "record")])
        begun = {}
        for fields in rows_of(self.aeth("simulate", *VIDEO_RUN, "2000"), "chan"):
            begun.setdefault(fields[2], set()).add(fields[0])
        for row in rows:
            self.assertEqual(set(row["opens"].split()), begun.pop(row["over"], set()))
            parts = sum(int(row[name]) for name in ("drain", "last_flits", "writes"))
            self.assertEqual(int(row["takes"]), parts)
            self.assertEqual(int(row["cycle"]) + parts, int(row["over"]))
        self.assertEqual(begun, {})

    def test_switches_without_a_run(self):
        rows = self.rows("switches", *PAIR)
        self.assertEqual([(row["from"], row["to"], row["closes"], row["opens"], row["keeps"], row["takes"], row["cycle"]) for row in rows], [
            ("u0", "u1", "", "c1", "c0", "4", ""), ("u1", "u0", "c1", "", "c0", "7", "")])

    def test_a_refused_design(self):
        files = "examples/pair.toml", "examples/roll.toml", self.home.put("empty.plan", "")
        told = self.told(*files)
        self.assertEqual((told["granted"], told["verdict"]), (False, "Not everything is granted: 1 unit of 2 is refused."))
        self.assertEqual({row["connection"] for row in told["channels"] if row["refused_side"]}, {"c0"})
        self.assertEqual({row["guaranteed_rate"] for row in told["channels"]}, {None})
        self.assertEqual({row["load"]["main"] for row in told["links"]}, {None})
        self.assertEqual([row["takes"] for row in self.rows("switches", *files)], [])

    def test_each_column_is_in_the_documents(self):
        page = (TOP / "docs/FORMATS.md").read_text().split("## Tables of a report")[1]
        told = self.told(*PAIR_RUN, "24", "--clock", "500MHz")
        for table in TABLES:
            for name in told[table][0]:
                self.assertIn(f"`{name}.USE`" if name == "load" else f"`{name}`", page)
        for name in told:
            self.assertIn(f"`{name}`", page)

    def test_words(self):
        names = "channels, links, switches"
        for words, said in (
            (("--csv",), f"--csv: a word is missing behind it: {names}"), (("--csv", "x"), f"--csv: `x` is none of {names}"),
            (("--csv=x\n",), f"--csv: `x\\x0a` is none of {names}"), (("--json", "--json"), "--json stands twice"),
            (("--csv", "links", "--json"), "a report is one of --csv TABLE and --json"),
            (("--csv=links", "--csv", "links"), "--csv stands twice"),
        ):
            self.assertEqual(self.home.draw("report", *PAIR, *words), (1, "", f"draw: {said}\n"), words)
        self.assertEqual(self.rows("links", *PAIR), self.rows("links", "--clock=1GHz", *PAIR))
        self.assertEqual(self.home.draw("report", "--json", *PAIR)[1], self.text(*PAIR, "--json"))

    def test_statuses_of_aeth(self):
        for form in (("--json",), ("--csv", "links")):
            self.assertEqual(self.home.draw("report", "nosuch", *PAIR[1:], *form), (4, "", "read fault chip\n"))
            self.assertEqual(self.home.draw("report", *PAIR_RUN, "0", *form)[0], 1)
