"""Tests of `./draw play`: what stands on its page, and its data against what `aeth` prints. How it looks is tried by hand."""
from base64 import b64decode
from collections import Counter
from html.parser import HTMLParser
from itertools import accumulate
from unittest import mock
import json
import re
import unittest
import xml.etree.ElementTree as xml
import zlib

from design_files import read_application, read_chip
from draw_report_tests import Page
from draw_tests import EXAMPLES, PAIR, PAIR_RUN, VIDEO, VIDEO_RUN, WithProgram, lines_of, tag
from home import TOP
from plan_texts import read_plan, read_queues
from player_page import Player
from report_page import player_section
from waveform import Channels
import playing

SCRIPTS = ("player_model.js", "player_chart.js", "player_texts.js", "player.js")


def data_of(page):
    """The data of a player on a page."""
    packed = re.search(r'<script type="application/zlib" id="player-data">(.*?)</script>', page)[1]
    return json.loads(zlib.decompress(b64decode(packed)))


class Controls(HTMLParser):
    """The elements of a player, each with its attributes and whether it stands in a label."""

    def __init__(self, text):
        super().__init__()
        self.open, self.found, self.names = [], [], Counter()
        self.feed(text)

    def handle_starttag(self, name, attrs):
        attrs = dict(attrs)
        self.found.append((name, attrs, "label" in self.open))
        self.names[attrs.get("id")] += 1
        if name != "input":
            self.open.append(name)

    def handle_endtag(self, name):
        assert self.open.pop() == name, name


class Elements(unittest.TestCase):
    """What stands in the page, and what its scripts ask of it."""

    @classmethod
    def setUpClass(cls):
        cls.controls = Controls((TOP / "draw.d/player.html").read_text())
        cls.scripts = {name: (TOP / "draw.d" / name).read_text() for name in SCRIPTS}

    def test_each_control_has_a_name_that_can_be_read_out(self):
        asked = [(name, attrs, labelled) for name, attrs, labelled in self.controls.found if name in ("input", "select", "button")]
        self.assertGreater(len(asked), 10)
        for name, attrs, labelled in asked:
            has_name = labelled or attrs.get("aria-label") or attrs.get("id") in ("time", "play", "leave")
            self.assertTrue(has_name, attrs)
        self.assertIn('time.setAttribute("aria-label"', self.scripts["player.js"])

    def test_focus_goes_in_the_order_of_the_page(self):
        order = [attrs["tabindex"] for _, attrs, _ in self.controls.found if "tabindex" in attrs]
        self.assertEqual(set(order), {"0"})

    def test_ids_stand_once_and_are_those_of_the_scripts(self):
        ids = {name for name in self.controls.names if name}
        self.assertEqual(max(self.controls.names[name] for name in ids), 1)
        for script in self.scripts.values():
            for name in re.findall(r"\bparts\.(\w+)", script):
                self.assertIn(name, ids, name)
            for names in re.findall(r"const \{([\w, ]+)\} = this\.parts", script):
                self.assertLessEqual(set(names.split(", ")), ids)

    def test_its_keys_are_told(self):
        told = (TOP / "draw.d/player.html").read_text()
        for key, sign in (
            ("ArrowLeft", "&larr;"), ("PageUp", "Page Up"), ("Home", "Home"), ("Escape", "Esc"), ("n:", "<dt>n p"), ('"+"', "<dt>+"),
        ):
            self.assertIn(key, self.scripts["player.js"])
            self.assertIn(sign, told)

    def test_nothing_is_asked_of_elsewhere(self):
        style = (TOP / "draw.d/player.css").read_text()
        for text in (*self.scripts.values(), style, (TOP / "draw.d/player.html").read_text()):
            self.assertEqual(re.findall(r"https?://(?!www\.w3\.org/2000/svg)|@import|\bfetch\(|\bsrc=", text), [])

    def test_motion_light_and_paper(self):
        style, script = (TOP / "draw.d/player.css").read_text(), self.scripts["player.js"]
        self.assertIn("prefers-reduced-motion: reduce", script)
        self.assertIn("prefers-color-scheme:dark", style)
        self.assertIn("@media print", style)

    def test_a_player_without_room_is_told(self):
        self.assertEqual(player_section(Player("", 0, "It is <large>.")), "<h2>Flits</h2><p class=less>It is &lt;large&gt;.</p>")


class Played(WithProgram):
    def play(self, *words):
        status, page, said = self.home.draw("play", *words)
        self.assertEqual(status, 0, said)  # (a slow machine is told of on standard error)
        return page

    def test_the_page(self):
        text = self.play(*PAIR_RUN, "24")
        page = Page(text)
        self.assertEqual(len(page.scripts["player-data"]), 1)
        for words in ("<title>two: a run of 24 cycles</title>", 'lang="en"', "<noscript>", 'openPlayer(document.getElementById("stage"), true)'):
            self.assertIn(words, text)

    def test_flits_of_a_run(self):
        """Each flit of a session is on each link of its path when it was logged there, and no other is logged."""
        for files, cycles in ((PAIR_RUN, 24), (VIDEO_RUN, 2000)):
            data = data_of(self.play(*files, str(cycles)))
            found = set()
            for channel in data["channels"]:
                for session in channel["sessions"]:
                    grant = channel["grants"][str(session["group"])]
                    for cycle, count in zip(accumulate(session["sent"]), session["counts"], strict=True):
                        for link in grant["links"]:
                            found.add((cycle, link, int(count), channel["name"].replace(" ", ":")))
                            cycle += data["links"][link][2]
            self.assertEqual({flit for flit in found if flit[0] < cycles}, self.logged(files, cycles))

    def logged(self, files, cycles):
        """The flits that `aeth` logs, each with its words and its channel."""
        chip, app, plan = ((self.home.top / name).read_bytes() for name in files[:3])
        channels, found = Channels(read_chip(chip), read_application(app), read_plan(plan)), set()
        for line in self.aeth("links", *files, str(cycles)).splitlines()[1:]:
            cycle, link, header, *_ = map(int, line.split(","))
            found.add((cycle, link, header >> 30, channels.name(link, header % (1 << 21), header >> 21 & 31)))
        return found

    def test_words_of_a_run(self):
        """They are offered, landed and due as `aeth` says, and land when their flit does."""
        data = data_of(self.play(*VIDEO_RUN, "2000"))
        told = lines_of(self.aeth("simulate", *VIDEO_RUN, "2000"))
        landed = 0
        for channel in data["channels"]:
            rows = told.get(channel["name"], [])
            sessions = [fields for word, fields in rows if word == "chan"]
            self.assertEqual([(s["go"], s["ended"]) for s in channel["sessions"]], [(int(f[2]), f[3] == "ended") for f in sessions])
            self.assertEqual([len(s["offered"]) for s in channel["sessions"]], [int(fields[4]) for fields in sessions])
            lands = [tuple(map(int, fields[1:4])) for word, fields in rows if word == "land"]
            found = []
            for session in channel["sessions"]:
                delay = sum(data["links"][link][2] for link in channel["grants"][str(session["group"])]["links"])
                sent = [cycle for cycle, count in zip(accumulate(session["sent"]), session["counts"]) for _ in range(int(count))]
                for offer, wait, due, cycle in zip(accumulate(session["offered"]), session["waits"], session["dues"], sent):
                    found.append((offer, offer + wait, offer + due))
                    self.assertEqual(offer + wait, cycle + delay)
            self.assertEqual(found, lands, channel["name"])
            landed += len(found)
        self.assertGreater(landed, 1_000)

    def test_slots_and_promises_of_a_plan(self):
        data = data_of(self.play(*VIDEO))
        self.assertIsNone(data["run"])
        self.assertEqual([use["name"] for use in data["uses"]], ["decode", "menu", "record"])
        plan = read_plan((self.home.top / VIDEO[2]).read_bytes())
        granted = {(f"{it.connection} {it.side}", str(it.group)): (list(it.links), list(it.starts)) for it in plan.grants}
        found = {(it["name"], group): (grant["links"], grant["starts"]) for it in data["channels"] for group, grant in it["grants"].items()}
        self.assertEqual(found, granted)
        for use in data["uses"]:
            for queue in read_queues(self.aeth("tables", *VIDEO, use["name"])):
                channel = next(it for it in data["channels"] if it["name"] == f"{queue.connection} {queue.side}")
                grant = channel["grants"][str(use["group"])]
                self.assertEqual((grant["rate"], grant["latency"], grant["buffer"]), (queue.rate, queue.latency, queue.credits))
                self.assertIn(channel["number"], use["connections"])

    def test_one_use_case(self):
        data = data_of(self.play(*VIDEO, "menu"))
        self.assertEqual([use["name"] for use in data["uses"]], ["menu"])

    def test_the_ground(self):
        """It is well-formed, and has a line and a table for each link, in the order of their numbers."""
        for files in (PAIR, VIDEO):
            data = data_of(self.play(*files))
            root = xml.fromstring(data["ground"])
            lines = [e for e in root.iter() if tag(e) == "path" and e.get("class") == "line"]
            self.assertEqual((len(lines), len(data["corners"])), (len(data["links"]), len(data["links"])))
            titles = ["".join(e.itertext()) for e in root.iter() if tag(e) == "title"]
            for number, (source, target, _) in enumerate(data["links"]):
                self.assertTrue(titles[number].startswith(f"link {number}, {source} to {target}"), titles[number])
            left, top, width, height = map(float, root.get("viewBox").split())
            for x, y, _ in data["corners"]:
                self.assertTrue(left <= x <= left + width and top <= y <= top + height)

    def test_units(self):
        data = data_of(self.play(*PAIR, "--clock", "500MHz"))
        self.assertEqual(data["cycle"], 2)
        channel = next(it for it in data["channels"] if it["name"] == "c0 fwd")
        self.assertEqual((channel["physical"], channel["grants"]["0"]["physical"]), (["1 GB/s", "12 ns"], ["1 GB/s", "8 ns"]))

    def test_statuses(self):
        for words, status, said in (
            (("nosuch", *PAIR[1:]), 4, "read fault chip\n"),
            ((*PAIR, "u9"), 2, "refused use 1 UnknownUse 0 u9\n"),
            ((*PAIR_RUN, "0"), 1, "draw: CYCLES is `0`, and must be 1 to 10,000, in digits alone\n"),
            ((*PAIR_RUN, "10001"), 1, "draw: CYCLES is `10001`, and must be 1 to 10,000, in digits alone\n"),
            (PAIR[:2], 1, "draw: play takes 3 or 4 or 7 words, not 2; `./draw help` tells more\n"),
            ((*PAIR, "u0", "u1"), 1, "draw: play takes 3 or 4 or 7 words, not 5; `./draw help` tells more\n"),
            ((PAIR[1], *PAIR[1:]), 2, "refused chip 2 WrongKey 0 connection\n"),
        ):
            self.assertEqual(self.home.draw("play", *words), (status, "", said), words)
        empty = self.home.put("empty", "")
        self.assertEqual(self.home.draw("play", *PAIR[:2], empty), (2, "", "refused plan 1 BadLine 1 -\n"))


class InReports(WithProgram):
    """The player of a report."""

    def report(self, *words):
        status, text, said = self.home.draw("report", *words)
        self.assertEqual(status, 0, said)  # (a slow machine is told of on standard error)
        return text

    def test_a_run_that_fits(self):
        text = self.report(*PAIR_RUN, "24")
        self.assertEqual(data_of(text), data_of(self.home.draw("play", *PAIR_RUN, "24")[1]))
        self.assertIn('<details class="player" id="play">', text)
        self.assertNotIn("too large", text)

    def test_a_plan(self):
        self.assertIsNone(data_of(self.report(*PAIR))["run"])

    def test_a_run_that_is_too_long(self):
        text = self.report(*PAIR_RUN, "10001")
        self.assertIn("The run is too large to be played here. `./draw play`, with the words of this report, makes a page", text)
        data = data_of(text)
        self.assertIsNone(data["run"])
        self.assertEqual([use["name"] for use in data["uses"]], ["u0", "u1"])

    def test_a_chip_that_is_too_large(self):
        from design import Design
        chip, app = (read((EXAMPLES / name).read_bytes()) for read, name in ((read_chip, "pair.toml"), (read_application, "one.toml")))
        design = Design(chip, app, read_plan((EXAMPLES / "one.plan").read_bytes()))
        self.assertTrue(playing.player_of(None, None, design, None, None).packed)
        with mock.patch.object(playing, "MOST_PACKED", 10):
            player = playing.player_of(None, None, design, None, None)
        self.assertEqual((player.packed, player.told.split(".")[0]), ("", "The chip and its use cases are too large to be played here"))
