"""Tests of `./draw refusal`: its pictures against the certificates that `aeth explain` prints."""
from collections import Counter
import re
import tracemalloc
import unittest

from allocation import Allocation, State, fixed_seats, text_without
from chips import app, chip, grid
from design_files import read_application, read_chip
from draw_tests import EXAMPLES, WithProgram, read, tag, texts
from plan_texts import Need, RefusedUnit, read_needs, read_plan
from program import Input
from refusal_picture import Refusal, draw_refusal
from refusals import read_trials
from turn_order import Unit, turns_of

ROLL = ("examples/pair.toml", "examples/roll.toml")
ROLL_TEXT = "explain 1\ntry c0 0 back 1\ncut 0\nend\n"
NEEDS = {"c0": Need("c0", 2, 1), "c1": Need("c1", 1, 1)}


def ended_links(root):
    """For each link at which cuts end its ends, the number of its cuts and those that its title tells."""
    found = {}
    for group in root.iter():
        if group.get("class") == "c k0":
            number, ends, cuts, told = re.fullmatch(
                r"link (\d+), (\w+ to \w+): (\d+) cuts?: (.*)", next(t.text for t in group if tag(t) == "title")
            ).groups()
            found[int(number)] = ends, int(cuts), told.partition("; in use are ")[0].split("; ")
    assert Counter(signs(root)) == Counter(f"{number}: {cuts} cut{'s' * (cuts > 1)}" for number, (_, cuts, _) in found.items())
    return found


def signs(root):
    """The texts with the numbers of cuts, behind the numbers of links or their names."""
    told = [e.text for e in root.iter() if e.get("class", "").startswith("bold small")]
    return [re.sub(r"(\d+): \w+ \u2192 \w+", r"\1", text) for text in told]


def table_and_sign(root):
    """For each link with cuts where its table begins, whether it is upright, and where the number of its cuts stands."""
    for group in root.iter():
        sign = next((e for e in group if e.get("class", "").startswith("bold small")), None)
        table = next((e for e in group if tag(e) == "use"), None)
        if sign is not None and table is not None:
            place = [float(number) for number in re.findall(r"-?[\d.]+", table.get("transform"))][-2:]
            yield place, table.get("transform").startswith("matrix"), (float(sign.get("x")), float(sign.get("y")))


class Pictures(unittest.TestCase):
    """Of texts that stand here, without the program."""

    def draw(self, text, number=1):
        the_app = read_application((EXAMPLES / "roll.toml").read_bytes())
        found = read_trials(text.splitlines(keepends=True), range(number, number + 1))
        [trial] = found.trials
        need = NEEDS[trial.unit.connection]
        slots = need.fwd if trial.unit.side == "fwd" else need.back
        state = State([], fixed_seats(the_app))
        the_chip = read_chip((EXAMPLES / "pair.toml").read_bytes())
        return read(draw_refusal(Refusal(the_chip, the_app, trial, len(found.units), slots, state, False)).text)

    def test_one_cut(self):
        root = self.draw(ROLL_TEXT)
        told = " ".join(texts(root))
        self.assertIn("Refusal 1 of 1", told)
        self.assertIn("Channel c0 back, from acc (without a seat yet) to cpu (at n0), in main.", told)
        self.assertIn("In turn 1 it needed 1 of the 8 slots of each link on a path, for a latency of 1 cycle at most.", told)
        self.assertIn("begins with one cut:", told)
        self.assertEqual(ended_links(root), {0: ("n0 to r0", 1, ["n0 \u2192 r0"])})
        self.assertEqual(len([e for e in root.iter() if e.get("class") == "end-of line"]), 1)

    def test_cuts_by_their_last_links(self):
        text = "explain 1\ntry c1 0 fwd 1\ntry c0 0 fwd 2\ncut 0,4,3\ncut 0,4,5\ncut 2,5\nend\n"
        root = self.draw(text, 2)
        self.assertEqual(ended_links(root), {
            5: ("r1 to r0", 2, ["n0 \u2192 r0 \u2192 r1 \u2192 r0", "n1 \u2192 r1 \u2192 r0"]),
            3: ("r1 to n1", 1, ["n0 \u2192 r0 \u2192 r1 \u2192 n1"]),
        })
        self.assertIn("Refusal 2 of 2", texts(root))
        self.assertIn("it needed 2 of the 8 slots", " ".join(texts(root)))
        self.assertEqual(list(ended_links(root)), [5, 3])
        self.assertEqual(len([e for e in root.iter() if e.get("class") == "end-of line"]), 2)

    def test_many_cuts_of_one_link(self):
        root = self.draw("explain 1\ntry c0 0 fwd 1\n" + 20 * "cut 0,4\n" + "end\n")
        ends, cuts, told = ended_links(root)[4]
        self.assertEqual((ends, cuts, len(told), told[-1]), ("r0 to r1", 20, 13, "and 8 more"))

    def test_no_path_at_all(self):
        root = self.draw("explain 1\ntry c0 0 fwd 1\nend\n")
        self.assertIn("No path was left for it at all.", texts(root))
        self.assertEqual(ended_links(root), {})

    def test_no_such_refusal(self):
        for text, number in ((ROLL_TEXT, 2), ("explain 1\nend\n", 1)):
            self.assertEqual(read_trials(text.splitlines(keepends=True), range(number, number + 1)).trials, [])

    def test_a_long_certificate_is_read_as_a_stream(self):
        """What is kept of a million cuts is less than a byte of each."""
        def lines():
            yield from ("explain 1\n", "try c0 0 fwd 1\n")
            for number in range(200_000):
                yield f"cut 0,{number % 7 + 1},{number % 5 + 8}\n"
            yield "try c1 0 fwd 2\n"

        tracemalloc.start()
        found = read_trials(lines(), range(1, 2))
        most = tracemalloc.get_traced_memory()[1]
        tracemalloc.stop()
        self.assertLess(most, 200_000)
        self.assertEqual([unit.connection for unit in found.units], ["c0", "c1"])
        [trial] = found.trials
        self.assertEqual((trial.cuts, trial.by_cuts), (200_000, [8, 9, 10, 11, 12]))
        self.assertEqual(trial.ended[8].cuts, 40_000)
        self.assertEqual(trial.ended[8].links, [0, *range(1, 8), 8])


class Turns(unittest.TestCase):
    """Whose turn comes when, by hand."""

    def test_seated_cores_come_first_then_greater_needs(self):
        """`c2` has the greatest needs of the connections with a fixed core, and seats `k3`, with which `c1` is next; it seats
        `k2`. `c0` would seat `k2` too but is refused in its turn, which seats none."""
        text = (
            'version = 1\ndetour = 0\ncore = [{name = "k0", ni = "n0"}, {name = "k1"}, {name = "k2"}, {name = "k3"}]\n'
            + "".join(
                f'[[connection]]\nname = "{name}"\nfrom = "{one}"\nto = "{other}"\n'
                "fwd = {words = 1, per = 9, latency = 9, delay = 0}\nback = {words = 1, per = 9, latency = 9, delay = 0}\n"
                for name, one, other in (("c0", "k1", "k2"), ("c1", "k3", "k2"), ("c2", "k0", "k3"), ("c3", "k0", "k1"))
            ) + '[[use]]\nname = "main"\nconnections = ["c0", "c1", "c2", "c3"]\n'
        )
        the_app = read_application(text.encode())
        needs = [Need("c0", 9, 9), Need("c1", 5, 5), Need("c2", 2, 2), Need("c3", 1, 1)]
        order = lambda refused: sorted(turns := turns_of(the_app, needs, refused), key=turns.get)
        self.assertEqual([unit.connection for unit in order(set())], ["c2", "c1", "c0", "c3"])
        refused = {Unit("c2", 0)}
        self.assertEqual([unit.connection for unit in order(refused)], ["c2", "c3", "c0", "c1"])

    def test_a_file_without_the_refused_units(self):
        text = (EXAMPLES / "two.toml").read_bytes()
        the_app = read_application(text)
        self.assertEqual(read_application(text_without(the_app, set()).encode()), the_app)
        fewer = read_application(text_without(the_app, {Unit("c1", 0)}).encode())
        self.assertEqual([use.connections for use in fewer.uses.values()], [["c0"], ["c0"]])


class Refusals(WithProgram):
    def small(self):
        """The camera on a torus with tables that are too small for it."""
        text = re.sub(r"^slots = \d+", "slots = 4", (EXAMPLES / "torus.toml").read_text(), flags=re.M)
        return self.home.put("small.toml", text), "examples/camera.toml"

    def test_the_number_of_cuts_stands_at_the_table_of_its_link(self):
        """Also of links that wrap around, whose tables stand apart from their lines."""
        files = self.small()
        apart = 0
        for number in range(1, 5):
            for (left, top), upright, (x, y) in table_and_sign(read(self.draw("refusal", *files, number))):
                wide, high = (24, 90) if upright else (90, 24)
                self.assertTrue(left - 4 <= x <= left + wide and top - 4 <= y <= top + high, (left, top, x, y))
                apart += y < top
        ring = chip(["r0", "r1", "r2", "r3"], [("r0", "r1"), ("r1", "r2"), ("r2", "r3"), ("r3", "r0")], 2)
        the_app = app(4, [(0, 3), (0, 3), (0, 3), (3, 0), (0, 3)], detour=0)
        paths = self.home.put("ring.toml", ring), self.home.put("full.toml", the_app)
        for (left, top), upright, (x, y) in table_and_sign(read(self.draw("refusal", *paths))):
            self.assertTrue(upright or left - 4 <= x <= left + 90 and top - 4 <= y <= top + 24, (left, top, x, y))

    def test_cores_stand_where_they_were_seated_before(self):
        """`enc` isn't fixed, and sits beside the memory when the microphone is refused."""
        root = read(self.draw("refusal", *self.small(), "4"))
        self.assertIn("interface n4: dram, enc", texts(root, "title"))
        self.assertEqual(len([e for e in root.iter() if e.get("class") == "target line"]), 1)

    def test_which_channels_fill_a_link(self):
        """Two streams take 3 of the 8 slots on each link of their paths, and the credits of the other one more."""
        square = self.home.put("square.toml", chip(*grid(2, 2, False), 8))
        root = read(self.draw("refusal", square, "examples/crossing.toml"))
        told = [text for text in texts(root) if " slots by " in text]
        self.assertEqual(len(told), 2)
        for text in told:
            used, channels = re.fullmatch(r"(\d) of 8 slots by (.*)", text).groups()
            self.assertEqual(int(used), sum(int(part.split(" ")[2]) for part in channels.split(", ")))
            self.assertGreater(int(used), 5)

    def test_the_grants_before_a_turn_are_those_of_the_allocation(self):
        """Of an application whose last unit is refused they are the plan of the others."""
        square = self.home.put("square.toml", chip(*grid(2, 2, False), 8))
        text = (EXAMPLES / "crossing.toml").read_text()
        fewer = self.home.put("fewer.toml", text.replace(', "dsp_disp"]', "]"))
        plan = read_plan(self.aeth("allocate", square, fewer).encode())
        the_app = read_application(text.encode())
        needs = read_needs(self.aeth("app", square, "examples/crossing.toml"))
        unit = RefusedUnit("dsp_disp", 0, "fwd", 3)
        self.assertEqual(turns_of(the_app, needs, {Unit("dsp_disp", 0)})["dsp_disp", 0], 3)
        state = Allocation(Input(str(square)), the_app, needs, [unit]).before(3)
        self.assertEqual([grant[1:] for grant in state.grants], [grant[1:] for grant in plan.grants])
        self.assertIsNone(Allocation(Input(str(square)), the_app, needs, [unit._replace(turn=2)]).plan)

    def test_each_of_a_small_torus(self):
        files = self.small()
        tries = self.aeth("explain", *files).split("try ")[1:]
        self.assertGreater(len(tries), 1)
        for number, text in enumerate(tries, 1):
            first, *rows = text.splitlines()
            connection, _, side, turn = first.split(" ")
            root = read(self.draw("refusal", *files, number))
            ends = Counter(int(row.split(",")[-1].split(" ")[-1]) for row in rows if row != "end")
            self.assertEqual({link: cuts for link, (_, cuts, _) in ended_links(root).items()}, ends)
            told = " ".join(texts(root))
            self.assertIn(f"Refusal {number} of {len(tries)} ", told)
            self.assertIn(f"Channel {connection} {side}, ", told)
            self.assertIn(f"In turn {turn} ", told)
        self.assertEqual(self.draw("refusal", *files), self.draw("refusal", *files, "1"))

    def test_no_picture(self):
        said = "draw: `allocate` has no refusal {} of these\n"
        for words, message in (
            ((*ROLL, "2"), said.format(2)),
            (("examples/pair.toml", "examples/one.toml"), said.format(1)),
        ):
            self.assertEqual(self.home.draw("refusal", *words), (1, "", message))
        for words in (ROLL[:1], (*ROLL, "0"), (*ROLL, "x"), (*ROLL, "1", "2")):
            status, out, said = self.home.draw("refusal", *words)
            self.assertEqual((status, out), (1, ""))
            self.assertRegex(said, r"\Adraw: [^\n]*\n\Z")
        self.assertEqual(self.home.draw("refusal", ROLL[1], ROLL[1]), (2, "", "refused chip 2 WrongKey 0 connection\n"))
        self.assertEqual(self.home.draw("refusal", "nosuch", ROLL[1]), (4, "", "read fault chip\n"))
