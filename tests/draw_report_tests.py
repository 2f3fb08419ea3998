"""Tests of `./draw report`: its verdict, the rows of its table, its pictures, and what it says of files that aren't right."""
from base64 import b64decode
from html.parser import HTMLParser
import json
import re
import unittest
import zlib

from chips import app, chip, grid
from draw_tests import EXAMPLES, PAIR, PAIR_RUN, VIDEO, VIDEO_RUN, WithProgram, read, texts
from report import late_of
from report_data import lines_of
from design_files import read_application

RATE = "words in 1,000\u00a0cycles"


class Page(HTMLParser):
    """Which elements of a page are open, what it asks of other places, and the texts of its scripts, by their kind."""

    EMPTY = {"meta", "input"}

    def __init__(self, text):
        super().__init__()
        self.open, self.asked, self.anchors, self.units, self.scripts = [], [], [], [], {}
        self.kind = None
        self.feed(text)
        assert (self.open, self.asked) == ([], [])

    def handle_starttag(self, tag, attrs):
        self.open += [] if tag in self.EMPTY else [tag]
        told = dict(attrs)
        self.asked += [value for key, value in attrs if key in ("src", "href", "data")]
        self.kind = told.get("id") or told.get("type", "script") if tag == "script" else None
        if "picture" in (told.get("class") or ""):
            self.anchors.append(told["id"])

    def handle_endtag(self, tag):
        assert self.open and self.open.pop() == tag, tag
        self.kind = None

    def handle_data(self, data):
        if self.kind:
            self.scripts.setdefault(self.kind, []).append(data)

    @property
    def rows(self):
        """The rows of the table, each with its mark first."""
        return json.loads(zlib.decompress(b64decode(self.scripts["rows"][0])))

    @property
    def pictures(self):
        """The pictures, by their anchors."""
        packed = self.scripts.get("text/plain", [])
        return {name: read(zlib.decompress(b64decode(text)).decode()) for name, text in zip(self.anchors, packed)}


class Reports(WithProgram):
    FILES = ("examples/torus.toml", "examples/camera.toml")

    def report(self, *words):
        status, text, errors = self.home.draw("report", *words)
        self.assertEqual((status, errors), (0, ""))
        return text

    def columns(self, text):
        """The names of the columns, each with its unit."""
        return re.findall(r'<th [^>]*><button type="button">([^<]*)<small>([^<]*)</small>', text)

    def design(self, name, *words):
        status, text, errors = self.home.design(*words)
        self.assertEqual(status, 0, errors)
        return self.home.put(name, text)

    def test_a_plan(self):
        plan = self.home.put("plan", self.aeth("allocate", *self.FILES))
        text = self.report(*self.FILES, plan)
        self.assertIn("Everything is granted: 18 channels.", text)
        page = Page(text)
        self.assertEqual(list(page.pictures), ["use-record", "use-play"])
        self.assertEqual(len(page.rows), 18)

    def test_a_run(self):
        plan = self.home.put("plan", self.aeth("allocate", *self.FILES))
        words = self.design("words", "words", *self.FILES, "record", "1000")
        receivers = self.design("receivers", "receivers", *self.FILES, "record", "1000", "--late")
        switches = self.design("switches", "switches", *self.FILES, "1000", "record")
        text = self.report(*self.FILES, plan, words, receivers, switches, "1000")
        self.assertRegex(text, r'class="verdict good">Everything is granted: 18 channels\. In 1,000 cycles \d+ words landed, 0 late\.')
        self.assertEqual(list(Page(text).pictures), ["run", "use-record", "use-play"])

    def test_words_outside_are_told_with_their_channel(self):
        text = self.report(*PAIR_RUN, "24")
        self.assertIn("6 words landed, 0 late; 1 word came outside of all sessions, of c1 fwd.", text)

    def test_late_and_overdue_words_have_columns_of_their_own(self):
        columns = self.columns(self.report(*PAIR_RUN, "24"))
        self.assertEqual([name for name, _ in columns].count("late"), 1)
        self.assertIn(("overdue", "words"), columns)

    def test_each_number_has_its_unit_in_its_column(self):
        for words in ((*PAIR_RUN, "24"), PAIR):
            columns = self.columns(self.report(*words))
            self.assertIn(("wished", RATE), columns)
            self.assertIn(("rate", RATE), columns)
            self.assertEqual([name for name, unit in columns if unit == "&nbsp;"], ["channel", "use cases"])

    def test_rates_have_one_unit_with_the_others_beside_it(self):
        text = self.report(*PAIR)
        names = [name for name, _ in self.columns(text)]
        row = next(row[1:] for row in Page(text).rows if row[1] == "c0 fwd")
        self.assertEqual(row[names.index("wished")], [500.0, "1 in 2"])
        self.assertEqual(row[names.index("rate")], [500.0, "4 in 8"])

    def test_pictures_have_no_heading_of_their_own(self):
        for words in ((*VIDEO_RUN, "900"), VIDEO):
            for name, root in Page(self.report(*words)).pictures.items():
                self.assertEqual([e for e in root.iter() if e.get("class") == "head"], [], name)

    def test_a_connection_keeps_its_colour_and_its_number(self):
        """In all use cases, also where a smooth switch keeps it."""
        pictures = Page(self.report(*VIDEO)).pictures
        self.assertEqual(len(pictures), 3)
        shown = {}
        for root in pictures.values():
            for group in root.iter():
                kind = re.fullmatch(r"c (k\d)", group.get("class", ""))
                if kind:
                    name = texts(group, "title")[0].split(" ")[0]
                    number = next("".join(e.itertext()) for e in group if e.get("class") == "less end")
                    self.assertEqual(shown.setdefault(name, (kind[1], number)), (kind[1], number), name)
        self.assertEqual(len({number for _, number in shown.values()}), len(shown))

    def test_a_page_of_many_use_cases_is_small(self):
        """Each picture is packed by itself, so that a page is as large as what is packed."""
        ends = [(k, (k + 5) % 16) for k in range(16)] + [(k, (k + 3) % 16) for k in range(16)]
        text = app(16, ends)
        names = re.search(r"connections = (\[.*\])", text)[1]
        text += "".join(f'[[use]]\nname = "more{k}"\nconnections = {names}\nsmooth = ["main"]\n' for k in range(9))
        files = self.made("uses", chip(*grid(4, 4, False), 64), text)
        page = self.report(*files)
        raw = [zlib.decompress(b64decode(text)) for text in Page(page).scripts["text/plain"]]
        self.assertEqual(len(raw), 10)
        self.assertLess(len(page) - 60_000, sum(map(len, raw)) / 4)


class Refused(WithProgram):
    """Of a design of which units are refused the page says which, why, and what was in the way."""

    @classmethod
    def setUpClass(cls):
        super().setUpClass()
        text = (EXAMPLES / "torus.toml").read_text()
        small = cls.home.put("small.toml", re.sub(r"^slots = \d+", "slots = 4", text, flags=re.M))
        cls.files = small, "examples/camera.toml"
        cls.empty = cls.home.put("empty.plan", "")
        cls.units = [line.split(" ")[2:] for line in cls.home.run("allocate", *cls.files)[2].splitlines()]
        cls.text = cls.home.draw("report", *cls.files, cls.empty)[1]
        cls.page = Page(cls.text)

    def test_verdict(self):
        self.assertGreater(len(self.units), 2)
        self.assertRegex(self.text, rf'class="verdict bad">Not everything is granted: {len(self.units)} units of \d+ are refused\.')

    def test_rows_of_refused_units_alone_are_marked(self):
        marked = {tuple(row[1].split(" ")) for row in self.page.rows if row[0]}
        self.assertEqual(marked, {(unit[0], side) for unit in self.units for side in ("fwd", "back")})
        self.assertLess(len(marked), len(self.page.rows))
        told = {row[1].split(" ")[0]: row[2] for row in self.page.rows if row[0]}
        self.assertEqual(told, {unit[0]: f"{unit[2]}, {unit[3]}" for unit in self.units})

    def test_each_refusal_has_its_why_and_a_picture(self):
        for number, (connection, group, side, turn) in enumerate(self.units, 1):
            self.assertRegex(self.text, (
                rf"Connection {connection} in group {group} \(\w+(, \w+)*\): its channel {side} had no admissible path with a suitable "
                rf"set of free slots, in turn {turn}\. What was in the way: link \d+ \(\w+ to \w+\) ends \d+ cuts?, in use are \d of 4 slots"
            ))
            self.assertIn(f"refusal-{number}", self.page.pictures)

    def test_a_row_is_searched_cell_by_cell(self):
        """The script keeps the texts of a row apart, so that no word is found across two of them."""
        script = self.page.scripts["module"][-1]
        self.assertIn("texts[at].some(text => text.includes(word))", script)
        self.assertNotIn("row.textContent", script)

    def test_one_unit(self):
        the_app = self.home.put("app", (EXAMPLES / "one.toml").read_text().replace("latency = 6", "latency = 2"))
        status, text, said = self.home.draw("report", "examples/pair.toml", the_app, self.empty)
        self.assertEqual((status, said), (0, ""))
        self.assertIn("Not everything is granted: 1 unit of 1 is refused.", text)
        self.assertIn("Connection c0 in group 0 (main): its channel fwd had no admissible path", text)


class Judged(WithProgram):
    """`aeth` judges the files first: its line and its status are what a user gets."""

    def said(self, *words):
        status, out, said = self.home.draw("report", *words)
        self.assertEqual(out, "")
        return status, said

    def test_files_that_cant_be_read(self):
        empty = self.home.put("empty", "")
        for words, said in (
            (("nosuch", "nosuch", "nosuch"), "read fault chip\n"),
            ((PAIR[0], "nosuch", PAIR[2]), "read fault app\n"),
            ((PAIR[0], ".", PAIR[2]), "read fault app\n"),
            ((PAIR[0], ".", empty), "read fault app\n"),
            ((*PAIR[:2], "nosuch"), "read fault plan\n"),
            ((*PAIR[:2], "."), "read fault plan\n"),
        ):
            self.assertEqual(self.said(*words), (4, said), words)

    def test_applications_that_are_refused(self):
        rest = "version = 1\ndetour = 0\ncore = []\nconnection = []\n"
        for text in (
            "[[uses]]\n", rest + "use = 5\n", rest + "use = [{name = 5}]\n", rest + "use = [{connections = []}]\n",
            rest + 'use = [{name = "\\u0000", connections = []}]\n', "use", "", rest,
        ):
            the_app = self.home.put("wrong.toml", text)
            for plan in (PAIR[2], self.home.put("empty", "")):
                refused = self.home.run("check", PAIR[0], the_app, PAIR[2])
                self.assertEqual(self.said(PAIR[0], the_app, plan), (2, refused[2]), text)
                self.assertTrue(refused[2].startswith("refused app "))

    def test_plans_that_are_refused(self):
        plan = self.home.put("wrong.plan", "plan 1 9\nend\n")
        self.assertEqual(self.said(*PAIR[:2], plan), (2, "refused plan 2 Unknown 1 3\n"))
        self.assertEqual(self.said(*PAIR[:2], self.home.put("empty", "")), (2, "refused plan 1 BadLine 1 -\n"))
        none = self.home.put("none.plan", "plan 1 8\nend\n")
        refused = self.home.run("check", *PAIR[:2], none)
        self.assertEqual(self.said(*PAIR[:2], none), (3, refused[2]))


class Verdicts(unittest.TestCase):
    """Of sessions that stand here."""

    def test_a_verdict_is_bad_only_where_a_promise_is_broken(self):
        class Session:
            late, overdue, failed = 2, [1], 0

        lines = list(lines_of(read_application((EXAMPLES / "one.toml").read_bytes()), 8).values())
        self.assertEqual(late_of(lines).kind, "good")
        lines[0].sessions.append(Session())
        self.assertEqual(late_of(lines).kind, "note")
        self.assertIn("2 late, 1 overdue, each after its receiver hadn't kept its delay", late_of(lines).text)
        Session.failed = 1
        self.assertEqual(late_of(lines).kind, "bad")
