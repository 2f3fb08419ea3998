"""Tests of `./draw`: its pictures against what `aeth` prints, its inputs and its statuses."""
from collections import Counter, namedtuple
import os
import random
import re
import subprocess
import threading
import tomllib
import unittest
import xml.etree.ElementTree as xml

from chips import app, chip, grid
from design_files import Link
from home import Home, PROGRAM, TOP
from placing import place_routers
from sessions import Receiver
import toml_lines

EXAMPLES = TOP / "examples"
PAIR = ("examples/pair.toml", "examples/two.toml", "two.plan")
VIDEO = ("examples/mesh.toml", "examples/video.toml", "video.plan")
PAIR_RUN = (*PAIR, "examples/two.words.csv", "examples/two.receivers.csv", "examples/two.switches.csv")
VIDEO_RUN = (*VIDEO, "examples/video.words.csv", "examples/video.receivers.csv", "examples/video.switches.csv")
Rest = namedtuple("Rest", "offered landed late overdue dropped outside")


def read(picture):
    """The tree of a picture, each id of which stands once."""
    root = xml.fromstring(picture)
    ids = Counter(element.get("id") for element in root.iter() if element.get("id"))
    assert set(ids.values()) <= {1}, ids
    return root


def tag(element):
    return element.tag.rpartition("}")[2]


def texts(root, kind="text"):
    return ["".join(element.itertext()) for element in root.iter() if tag(element) == kind]


def rest_of(title):
    """The numbers of a lane's title."""
    found = re.search(
        r": (\d+) words? offered, (\d+) landed, (\d+) of them late, (\d+) overdue, (\d+) dropped, (\d+) outside", title
    )
    return Rest(*map(int, found.groups()))


def lines_of(log):
    """The rows of each channel of a log, as fields."""
    channels, channel = {}, None
    for line in log.splitlines():
        word, *fields = line.split(" ")
        if word in ("chan", "outside"):
            channel = channels.setdefault(" ".join(fields[:2]), [])
        if channel is not None and word != "link":
            channel.append((word, fields))
    return channels


@unittest.skipUnless(PROGRAM, "there is no program: `./aeth` or `rt ci` builds it")
class WithProgram(unittest.TestCase):
    @classmethod
    def setUpClass(cls):
        cls.home = Home(PROGRAM)
        cls.addClassCleanup(cls.home.end)
        for one, two, plan in (PAIR, VIDEO):
            cls.home.put(plan, cls.aeth("allocate", one, two))

    @classmethod
    def aeth(cls, *words):
        status, out, said = cls.home.run(*words)
        assert status == 0, said
        return out

    def draw(self, *words, **how):
        """A picture, which is well-formed."""
        status, out, said = self.home.draw(*words, **how)
        self.assertEqual((status, said), (0, ""))
        read(out)
        return out

    def made(self, name, the_chip, the_app):
        """Files of a chip, an application and a plan for them."""
        paths = self.home.put(f"{name}.chip", the_chip), self.home.put(f"{name}.app", the_app)
        return *paths, self.home.put(f"{name}.plan", self.aeth("allocate", *paths))


class Tools(WithProgram):
    @classmethod
    def setUpClass(cls):
        super().setUpClass()
        cls.home.put("small.toml", cls.home.design("chip", "torus", "3", "3", "--slots", "4")[1])

    def test_its_pictures_are_those_of_its_commands(self):
        text = (TOP / "docs/TOOLS.md").read_text().replace("\\\n", "")
        commands = re.findall(r"^\./draw (.*) > (docs/pictures/\S+)", text, re.M)
        self.assertGreaterEqual(len(commands), 3)
        for words, picture in commands:
            self.assertEqual(self.draw(*words.split()), (TOP / picture).read_text(), picture)

    def test_help(self):
        status, page, _ = self.home.draw("help")
        self.assertEqual(status, 0)
        for words in re.findall(r"^  ./draw (.*) > ", page, re.M):
            self.draw(*words.split())


class Plans(WithProgram):
    def test_routers_tell_their_entries(self):
        """Those that `route-tables` prints, by the names of nodes in place of the numbers of ports and links."""
        for design, uses in ((PAIR, ("u0", "u1")), (VIDEO, ("decode", "menu", "record"))):
            for use in uses:
                told = Counter()
                for title in texts(read(self.draw("plan", *design, use)), "title"):
                    for slots in re.findall(r" in slots? ([\d ]+)", title) if title.startswith("router ") else []:
                        told[title.split(" ")[1].rstrip(":")] += len(slots.split())
                hops = [line.split(" ")[1] for line in self.aeth("route-tables", *design, use).splitlines() if line.startswith("hop")]
                names = tomllib.loads((TOP / design[0]).read_text())["routers"]
                self.assertEqual(told, Counter(names[int(number)] for number in hops))

    def cells(self, root, channel):
        """The cells of a channel in a picture."""
        group = next(e for e in root.iter() if e.get("class", "").startswith("c k") and texts(e, "title")[0].startswith(channel))
        return next(e for e in group if tag(e) == "path").get("d").count("M")

    def test_each_example(self):
        for design, uses in ((PAIR, ("u0", "u1")), (VIDEO, ("decode", "menu", "record"))):
            grants = [line.split(" ") for line in (self.home.top / design[2]).read_text().splitlines()]
            cells = {f"{g[1]} {g[3]}": g[4].count(",") + 1 for g in grants if g[0] == "grant"}
            starts = {f"{g[1]} {g[3]}": g[5].count(",") + 1 for g in grants if g[0] == "grant"}
            for use in uses:
                root = read(self.draw("plan", *design, use))
                shown = [t for t in texts(root, "title") if re.match(r"\w+ (fwd|back), ", t)]
                rows = [row.split(" ") for row in self.aeth("tables", *design, use).splitlines() if row.startswith("queue")]
                self.assertEqual(len(shown), len(rows))
                for row in rows:
                    name = f"{row[6]} {row[7]}"
                    title = next(t for t in shown if t.startswith(f"{name}, "))
                    self.assertIn(f"({row[8]} in ", title)
                    self.assertIn(f"latency {row[9]} cycles, buffer {row[5]} words", title)
                    self.assertEqual(self.cells(root, f"{name},"), cells[name] * starts[name])

    def test_one_channel(self):
        root = read(self.draw("plan", *VIDEO, "decode", "cpu_mem", "fwd"))
        chosen = [e for e in root.iter() if "chosen" in e.get("class", "")]
        self.assertEqual([texts(e, "title")[0].split(",")[0] for e in chosen], ["cpu_mem fwd"])
        self.assertEqual(len([e for e in root.iter() if e.get("class") == "other"]), 15)
        self.assertIn("n5 \u2192 r5", texts(root))

    def test_one_connection(self):
        root = read(self.draw("plan", *VIDEO, "decode", "cpu_mem"))
        self.assertEqual(len([e for e in root.iter() if "chosen" in e.get("class", "")]), 2)

    def test_no_such_channel(self):
        for chosen in (("nosuch",), ("cam_mem",)):
            self.assertEqual(self.home.draw("plan", *VIDEO, "decode", *chosen)[0], 1)

    def test_numbers_where_colours_dont_tell(self):
        ends = [(k, (k + 5) % 16) for k in range(16)]
        files = self.made("many", chip(*grid(4, 4, False), 64), app(16, ends))
        root = read(self.draw("plan", *files, "main"))
        for title in [t for t in texts(root, "title") if re.match(r"c\d+ (fwd|back), ", t)]:
            group = next(e for e in root.iter() if e.get("role") == "img" and texts(e, "title")[0] == title)
            cells = next(e for e in group if tag(e) == "path").get("d").count("M")
            numbers = [e.text for e in group if e.get("class") == "on"]
            self.assertEqual(numbers, [re.match(r"c(\d+)", title)[1]] * cells)

    def test_links_of_a_torus_go_beside_the_tables(self):
        ends = [(0, 2), (1, 7), (3, 5), (6, 0), (8, 4), (2, 8), (4, 1)]
        root = read(self.draw("plan", *self.made("torus", chip(*grid(3, 3, True)), app(9, ends)), "main"))
        strips, lines = [], []
        for group in root.iter():
            use = next((e for e in group if tag(e) == "use"), None)
            if use is None:
                continue
            numbers = [float(n) for n in re.findall(r"-?[\d.]+", use.get("transform"))]
            upright = use.get("transform").startswith("matrix")
            x, y = numbers[-2:]
            wide, high = (10, 160) if upright else (160, 10)
            strips.append((x - 2, y - 2, x + wide + 2, y + high + 2))
            line = next(e for e in group if e.get("class") == "line").get("d")
            points = [tuple(map(float, point.split(" "))) for point in line[1:].split("L")]
            lines += list(zip(points, points[1:]))
        self.assertEqual(len(strips), 54)
        for (x0, y0), (x1, y1) in lines:
            self.assertTrue(x0 == x1 or y0 == y1)
            for left, top, right, bottom in strips:
                apart = max(x0, x1) <= left or min(x0, x1) >= right or max(y0, y1) <= top or min(y0, y1) >= bottom
                self.assertTrue(apart, (x0, y0, x1, y1))

    def test_routers_that_arent_joined(self):
        """The pair without the two links between its routers."""
        lines = (EXAMPLES / "pair.toml").read_text().splitlines(keepends=True)
        the_chip = self.home.put("apart.toml", "".join(line for line in lines if '"r0", to = "r1"' not in line))
        self.assertIn("routers 2 nis 2 links 4", self.aeth("chip", the_chip))
        the_app = self.home.put("near.toml", app(2, [(0, 1)]).replace('"n1"', '"n0"'))
        empty = self.home.put("empty.plan", "")
        plan = self.home.put("apart.plan", self.aeth("allocate", the_chip, the_app))
        root = read(self.draw("plan", the_chip, the_app, plan, "main"))
        lefts = [float(e.get("x")) for e in root.iter() if e.get("class") == "bold mid big"]
        self.assertEqual(len(set(lefts)), 2)
        self.assertEqual(self.home.draw("report", the_chip, the_app, plan)[::2], (0, ""))
        self.assertEqual(self.home.draw("report", the_chip, "examples/one.toml", empty)[::2], (0, ""))
        self.assertIn("No path was left for it at all.", texts(read(self.draw("refusal", the_chip, "examples/one.toml"))))

    def test_links_have_their_numbers_at_their_tables(self):
        """And their delays: `wide.toml` has a link on which a flit takes 2 cycles."""
        plan = self.home.put("wide.plan", self.aeth("allocate", "examples/wide.toml", PAIR[1]))
        root = read(self.draw("plan", "examples/wide.toml", PAIR[1], plan, "u1"))
        links = tomllib.loads((EXAMPLES / "wide.toml").read_text())["link"]
        signs = [e.text for e in root.iter() if e.get("class") == "less small"]
        told = [f"{number}, {link['delay']} cycles" if link.get("delay", 1) > 1 else str(number) for number, link in enumerate(links)]
        self.assertEqual(sorted(signs), sorted(told))

    def test_colours_and_numbers_are_those_of_the_application(self):
        """In `decode` and in `menu`, between which a switch is smooth, and in `record`."""
        shown = {}
        for use in ("decode", "menu", "record"):
            for group in read(self.draw("plan", *VIDEO, use)).iter():
                if re.fullmatch(r"c k\d", group.get("class", "")):
                    name = texts(group, "title")[0].split(" ")[0]
                    number = next(e.text for e in group if e.get("class") == "less end")
                    self.assertEqual(shown.setdefault(name, (group.get("class"), number)), (group.get("class"), number))
        names = [one["name"] for one in tomllib.loads((EXAMPLES / "video.toml").read_text())["connection"]]
        self.assertEqual({name: int(number) for name, (_, number) in shown.items()}, {name: at for at, name in enumerate(names)})

    def test_few_lines_stand_above_a_picture(self):
        for picture in (self.draw("plan", *VIDEO, "decode"), self.draw("run", *VIDEO_RUN, "900")):
            root = read(picture)
            above = [e for e in root if tag(e) == "text" and float(e.get("y")) > 45 and e.get("class") == "less" and float(e.get("x")) == 24]
            self.assertLessEqual(len([e for e in above if float(e.get("y")) < 140]), 3)

    def test_width(self):
        root = read(self.draw("plan", *VIDEO, "decode"))
        width, height = root.get("width"), root.get("height")
        self.assertEqual(root.get("viewBox"), f"0 0 {width} {height}")
        self.assertIn("max-width:100%", root.get("style"))
        self.assertLess(int(re.search(r"min-width:(\d+)px", root.get("style"))[1]), int(width))


class Runs(WithProgram):
    def compare(self, words, cycles):
        """A run's picture has the numbers of its log. When words are due doesn't depend on receivers, so the log of the
        same run with receivers that take all tells when those are due that haven't landed here."""
        log = lines_of(self.aeth("simulate", *words, cycles))
        free = (*words[:4], self.home.put("free.csv", "connection,side,cycle,pull\n"), words[5])
        long = lines_of(self.aeth("simulate", *free, cycles))
        root = read(self.draw("run", *words, cycles))
        shown = {t.split(":")[0]: rest_of(t) for t in texts(root, "title") if " offered, " in t and "Run" not in t}
        total = Counter()
        for channel, rows in log.items():
            sessions = [fields for word, fields in rows if word == "chan"]
            lands = [fields for word, fields in rows if word == "land"]
            offered = sum(int(fields[4]) for fields in sessions)
            outside = sum(int(fields[2]) for word, fields in rows if word == "outside")
            total["outside"] += outside
            if not offered:
                continue
            dues = [int(fields[3]) for word, fields in long[channel] if word == "land"]
            rest = Rest(
                offered, len(lands), sum(int(f[2]) > int(f[3]) for f in lands),
                self.overdue(rows, dues, int(cycles)),
                sum(int(f[0]) + int(f[1]) for word, f in rows if word == "drop"), outside,
            )
            self.assertEqual(shown[channel], rest, channel)
            total.update(rest._asdict() | {"outside": 0})
        told = " ".join(texts(root))
        self.assertIn(f"{total['landed']:,} landed, {total['late']:,} of them late; {total['overdue']:,} overdue", told)
        self.assertIn(f"{total['dropped']:,} dropped; {total['outside']:,} offered outside", told)
        return shown

    def overdue(self, rows, dues, cycles):
        """How many words of a channel with one session hadn't landed when they were due."""
        landed = sum(word == "land" for word, _ in rows)
        return sum(due < cycles for due in dues[landed:])

    def test_examples(self):
        self.compare(PAIR_RUN, "24")
        self.compare(VIDEO_RUN, "900")

    def test_a_starved_channel(self):
        words = "connection,side,cycle,value\n" + "".join(f"c0,fwd,{cycle},0\n" for cycle in range(0, 226, 2))
        pulls = "connection,side,cycle,pull\nc0,fwd,0,0\n"
        files = (*PAIR, self.home.put("starved.words", words), self.home.put("starved.pulls", pulls), PAIR_RUN[5])
        shown = self.compare(files, "240")
        self.assertEqual(shown["c0 fwd"], Rest(113, 9, 0, 104, 0, 0))
        picture = self.draw("run", *files, "240")
        self.assertEqual(texts(read(picture)).count("104"), 1)
        self.assertIn('class="overdue"', picture)

    def test_dropped_words(self):
        switches = self.home.put("cut.csv", "cycle,use,drain\n0,decode,0\n1000,menu,0\n1500,record,0\n")
        words = (*VIDEO_RUN[:5], switches)
        log = lines_of(self.aeth("simulate", *words, "2000"))
        root = read(self.draw("run", *words, "2000"))
        shown = {t.split(":")[0]: rest_of(t) for t in texts(root, "title") if " offered, " in t}
        dropped = {
            channel: sum(int(f[0]) + int(f[1]) for word, f in rows if word == "drop") for channel, rows in log.items()
        }
        self.assertEqual({c: n for c, n in dropped.items() if n}, {c: r.dropped for c, r in shown.items() if r.dropped})
        crosses = [e for e in root.iter() if e.get("class") == "drop"]
        self.assertEqual(len(crosses), sum(n > 0 for n in dropped.values()))

    def test_one_channel(self):
        root = read(self.draw("run", *VIDEO_RUN, "2000", "cpu_mem", "fwd"))
        self.assertEqual(len([e for e in root.iter() if e.get("class") == "lane"]), 1)
        self.assertEqual(self.home.draw("run", *VIDEO_RUN, "2000", "nosuch")[0], 1)

    def test_latency_beside_the_longest_wait(self):
        root = read(self.draw("run", *PAIR_RUN, "24"))
        lane = next(e for e in root.iter() if e.get("class") == "lane")
        self.assertEqual(texts(lane)[:3], ["c0 fwd", "14", "4"])


class Promises(WithProgram):
    """What a promise covers, and what it doesn't."""

    def log(self, name, words, receivers, switches, cycles):
        """The design of two connections of a core, one within its interface and one over a longer path, and a run of it."""
        conn = (
            '[[connection]]\nname = "{}"\nfrom = "cpu"\nto = "{}"\nfwd = {{words = 1, per = 4, latency = 40, delay = 3}}\n'
            "back = {{words = 0, per = 1, latency = 40, delay = 0}}\n"
        )
        the_app = self.home.put(f"{name}.app", (
            'version = 1\ndetour = 0\ncore = [{name = "cpu", ni = "n0"}, {name = "dsp", ni = "n0"}, {name = "mem", ni = "n1"}]\n'
            + conn.format("near", "dsp") + conn.format("far", "mem")
            + '[[use]]\nname = "work"\nconnections = ["near", "far"]\n[[use]]\nname = "rest"\nconnections = []\n'
        ))
        # Near goes over 2 links, in slot 0 of 8: latency 5, rate 2. Far goes over 3 links.
        plan = self.home.put(f"{name}.plan", (
            "plan 1 8\nseat cpu n0 0\nseat dsp n0 1\nseat mem n1 0\ngrant near 0 fwd 0,1 0\ngrant near 0 back 0,1 1\n"
            "grant far 0 fwd 0,4,3 2\ngrant far 0 back 2,5,1 1\nend\n"
        ))
        files = [
            self.home.put(f"{name}.words", "connection,side,cycle,value\n" + words),
            self.home.put(f"{name}.pulls", "connection,side,cycle,pull\n" + receivers),
            self.home.put(f"{name}.switches", "cycle,use,drain\n0,work,0\n" + switches),
        ]
        return (PAIR[0], the_app, plan, *files, cycles)

    def shown(self, run):
        """The title of the lane of `near` forward, and its numbers."""
        title = next(t for t in texts(read(self.draw("run", *run)), "title") if t.startswith("near fwd: "))
        return title, rest_of(title)

    def test_a_closing_session_promises_up_to_the_landing_of_its_last_flit(self):
        """A word of cycle 1 would be sent in cycle 8, and is due in cycle 10. A switch in cycle 8 stops the channel, so that its
        last flit has landed 2 cycles later, and the word isn't promised; what it closes is finished in cycle 11, since the
        other channel has 3 links."""
        run = self.log("close", "near,fwd,1,7\n", "", "8,rest,0\n", "40")
        log = self.aeth("simulate", *run)
        self.assertIn("chan near fwd 0 ended 1 0 0\ndrop 1 0\n", log)
        self.assertEqual(self.shown(run)[1], Rest(1, 0, 0, 0, 1, 0))
        page = self.home.draw("report", *run)[1]
        self.assertIn('class="verdict good">Everything is granted: 4 channels. In 40 cycles 0 words landed, 0 late;', page)

    def test_late_words_of_a_receiver_that_takes_nothing(self):
        """The buffer of `near` is full when nothing is taken from cycle 20 on. The first word after that lands in cycle 26; 3
        cycles later it isn't taken, and the promise ends."""
        words = "".join(f"near,fwd,{cycle},0\n" for cycle in range(0, 100, 4))
        run = self.log("stall", words, "near,fwd,20,0\n", "", "200")
        log = lines_of(self.aeth("simulate", *run))["near fwd"]
        after = min(int(fields[2]) for word, fields in log if word == "land" and int(fields[2]) >= 20)
        title, rest = self.shown(run)
        self.assertGreater(rest.overdue, 0)
        self.assertIn(
            f"; in cycle {after + 3} its receiver hadn't taken a word within its delay of 3 cycles, so that the promise ended there",
            title,
        )
        page = self.home.draw("report", *run)[1]
        self.assertRegex(page, r'class="verdict note">.*each after its receiver hadn.*t kept its delay.* near fwd')

    def test_no_promise_is_broken_where_receivers_keep_their_delays(self):
        """Whatever switches cut off."""
        for drain in (0, 3, 17):
            switches = self.home.put("cut.csv", f"cycle,use,drain\n0,decode,0\n{500 + drain},menu,{drain}\n1200,record,{drain}\n")
            free = self.home.put("free.csv", "connection,side,cycle,pull\n")
            page = self.home.draw("report", *VIDEO_RUN[:4], free, switches, "2000")[1]
            self.assertRegex(page, r'class="verdict good">[^<]* 0 late[;.]')


class Receivers(unittest.TestCase):
    """When a receiver takes its words, by hand."""

    def test_takes(self):
        for cycles, pulls, landings, takes in (
            ([], [], [3, 3, 3, 4], [3, 3, 4, 4]),
            ([0], [1], [3, 3, 3, 9], [3, 4, 5, 9]),
            ([0], [0], [3, 3], [None, None]),
            ([0, 6], [0, 1], [3, 3], [6, 7]),
            ([4, 4, 8], [0, 1, 0], [3, 3, 3, 4, 4, 4, 4, 7], [3, 3, 4, 5, 6, 7, None, None]),
            ([5, 9], [0, 3], [4, 5, 6, 8, 8], [4, 9, 9, 9, 10]),
        ):
            receiver = Receiver(cycles, pulls)
            self.assertEqual(list(receiver.takes(landings)), takes)

    def test_a_promise_ends_where_a_word_isnt_taken_within_the_delay(self):
        receiver = Receiver([0, 6], [0, 1])
        self.assertEqual(receiver.broken_from([3, 3, 8], 4), None)
        self.assertEqual(receiver.broken_from([3, 3, 8], 3), 6)
        self.assertEqual(receiver.broken_from([3, 8, 8], 0), 3)
        self.assertEqual(Receiver([0], [0]).broken_from([5], 9), 14)


class Inputs(WithProgram):
    @classmethod
    def setUpClass(cls):
        super().setUpClass()
        cls.plan = cls.home.draw("plan", *PAIR, "u1")[1]

    def same(self, *words, **how):
        self.assertEqual(self.draw(*words, **how), self.plan)

    def test_pipes(self):
        paths, writers = [], []
        for name in PAIR_RUN:
            path = self.home.room / f"pipe{len(paths)}"
            os.mkfifo(path)
            data = (self.home.top / name).read_bytes()
            writers.append(threading.Thread(target=path.write_bytes, args=(data,), daemon=True))
            writers[-1].start()
            paths.append(path)
        self.assertEqual(self.draw("run", *paths, "24"), self.draw("run", *PAIR_RUN, "24"))

    def test_standard_input(self):
        self.same("plan", "/dev/stdin", *PAIR[1:], "u1", given=(EXAMPLES / "pair.toml").read_bytes())

    def test_a_mark_of_the_byte_order(self):
        self.same("plan", self.home.put("mark", "\ufeff" + (EXAMPLES / "pair.toml").read_text()), *PAIR[1:], "u1")

    def test_new_forms_of_toml(self):
        text = (EXAMPLES / "pair.toml").read_text().replace('{from = "n0", to = "r0"}', '{from = "\\x6e0",\n to = "r0",}')
        self.assertIn("\\x6e", text)
        self.same("plan", self.home.put("new", text), *PAIR[1:], "u1")

    def test_statuses_of_aeth(self):
        for words, status, said in (
            (("nosuch", *PAIR[1:], "u1"), 4, "read fault chip\n"),
            ((".", *PAIR[1:], "u1"), 4, "read fault chip\n"),
            (("/dev/zero", *PAIR[1:], "u1"), 2, "refused chip 0 TooLong 0 -\n"),
            ((PAIR[1], *PAIR[1:], "u1"), 2, "refused chip 2 WrongKey 0 connection\n"),
            ((*PAIR, "nosuch"), 2, "refused use 1 UnknownUse 0 nosuch\n"),
        ):
            self.assertEqual(self.home.draw("plan", *words), (status, "", said))
        for cycles in ("0", "1000001"):
            said = f"draw: CYCLES is `{cycles}`, and must be 1 to 1,000,000, in digits alone\n"
            self.assertEqual(self.home.draw("run", *PAIR_RUN, cycles), (1, "", said))

    def test_no_picture(self):
        for words in ((), ("nosuch",), ("plan", *PAIR), ("plan", *PAIR, "u1", "c0", "up"), ("run", *PAIR_RUN)):
            status, out, said = self.home.draw(*words)
            self.assertEqual((status, out), (1, ""))
            self.assertRegex(said, r"\Adraw: .*; `\./draw help` tells more\n\Z")
        self.assertIn("draw: `nosuch` is none of plan, run,", self.home.draw("nosuch")[2])
        self.assertIn("draw: `up` is no side: fwd or back;", self.home.draw("plan", *PAIR, "u1", "c0", "up")[2])
        self.assertIn("draw: wave takes 7 words, not 1;", self.home.draw("wave", "chip.toml")[2])

    def test_a_page_for_each_kind(self):
        for kind in ("plan", "run", "report", "refusal", "wave"):
            for words in ((kind, "--help"), (kind, *PAIR, "-h")):
                status, page, said = self.home.draw(*words)
                self.assertEqual((status, said), (0, ""))
                self.assertEqual(re.findall(r"^draw (\w+) ", page, re.M), [kind])
            self.assertEqual(self.home.draw("help", kind)[1], page)

    def test_what_cant_be_written(self):
        with open("/dev/full", "wb") as full:
            for words in (("plan", *PAIR, "u1"), ("help",)):
                status, _, said = self.home.draw(*words, out=full)
                self.assertEqual((status, said), (5, "draw: what was asked for can't be written: No space left on device\n"))
        ours, theirs = os.pipe()
        os.close(ours)
        status, _, said = self.home.draw("plan", *PAIR, "u1", out=theirs)
        os.close(theirs)
        self.assertEqual((status, said), (5, "draw: what was asked for can't be written: Broken pipe\n"))

    def test_closed_streams(self):
        for streams, status in ((">&-", 5), (">/dev/full 2>&-", 5), ("<&- >/dev/null", 0)):
            command = f"./draw plan {' '.join(PAIR)} u1 {streams}"
            ran = subprocess.run(["sh", "-c", command], cwd=self.home.top, env=self.home.settings, stderr=subprocess.PIPE)
            self.assertEqual(ran.returncode, status, streams)
            self.assertLess(ran.stderr.count(b"\n"), 2)


class Places(unittest.TestCase):
    def places(self, routers, pairs):
        ends = [end for one, other in pairs for end in ((one, other), (other, one))]
        return place_routers(routers, [Link(number, *end, 1) for number, end in enumerate(ends)])

    def shuffled(self, routers, pairs):
        chance = random.Random(len(pairs))
        names = dict(zip(routers, chance.sample([f"x{k}" for k in range(len(routers))], len(routers))))
        order = chance.sample(sorted(names.values()), len(names))
        places = self.places(order, [(names[one], names[other]) for one, other in pairs])
        return {router: places[names[router]] for router in routers}

    def test_grids(self):
        """Each pair of a mesh is a step apart; of a torus so are all but those that wrap around."""
        for columns, rows in ((3, 3), (4, 3), (4, 4), (5, 4), (8, 8)):
            for wraps in (False, True):
                routers, pairs = grid(columns, rows, wraps)
                for places in (self.places(routers, pairs), self.shuffled(routers, pairs)):
                    self.assertEqual(len(set(places.values())), columns * rows)
                    far = Counter(sum(abs(a - b) for a, b in zip(places[one], places[other])) for one, other in pairs)
                    self.assertGreaterEqual(far[1], len(pairs) - (columns + rows) * wraps, (columns, rows, wraps))

    def test_ring(self):
        for many in (3, 6, 7):
            routers = [f"r{k}" for k in range(many)]
            pairs = list(zip(routers, routers[1:] + routers[:1]))
            places = self.shuffled(routers, pairs)
            far = [sum(abs(a - b) for a, b in zip(places[one], places[other])) for one, other in pairs]
            self.assertLessEqual(sum(d > 1 for d in far), many % 2)

    def test_parts_that_arent_joined_stand_beside_each_other(self):
        for routers, pairs in (
            (["r0", "r1"], []),
            ([f"r{k}" for k in range(9)], [("r0", "r1"), ("r2", "r3"), ("r3", "r4"), ("r4", "r2"), ("r5", "r6"), ("r6", "r7")]),
            ([f"{one}{k}" for k in range(9) for one in "ab"], [
                (f"{one}{k}", f"{one}{k + step}") for one in "ab" for step in (1, 3) for k in range(9) if k + step < 9 and (step == 3 or k % 3 < 2)
            ]),
        ):
            places = self.places(routers, pairs)
            self.assertEqual(set(places), set(routers))
            self.assertEqual(len(set(places.values())), len(routers))
            self.assertEqual(min(places.values()), (0, 0))
        far = [abs(places[one][0] - places[other][0]) + abs(places[one][1] - places[other][1]) for one, other in pairs]
        self.assertEqual(set(far), {1})

    def test_any_other_chip(self):
        chance = random.Random(1)
        routers = [f"r{k}" for k in range(20)]
        places = self.places(routers, [tuple(chance.sample(routers, 2)) for _ in range(40)])
        self.assertEqual(len(set(places.values())), 20)


class Toml(unittest.TestCase):
    def test_examples_are_read_as_by_python(self):
        for file in EXAMPLES.glob("*.toml"):
            self.assertEqual(toml_lines.read(file.read_bytes())[0], tomllib.loads(file.read_text()), file)

    def test_lines(self):
        tree, lines = toml_lines.read(b'a = 1\n\n[[link]]\nfrom = "x"\n[[link]]\nto = [1,\n 2]\n')
        self.assertEqual(tree, {"a": 1, "link": [{"from": "x"}, {"to": [1, 2]}]})
        self.assertEqual((lines["a",], lines["link", 1, "to"], lines["link", 1, "to", 1]), (1, 6, 7))

    def test_what_is_no_toml(self):
        for text in (b"a", b"a = ", b"a = [1", b'a = "x', b"[a]\n[a]", b"a = 1\na = 2", b"\xff = 1"):
            with self.assertRaises(toml_lines.TomlError):
                toml_lines.read(text)
