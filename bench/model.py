"""Prints what `allocate`, `explain`, `route-tables`, `simulate`, `simulate-tables`, `links`, `audit`, `chain` and `demo`
must print, from the rules in docs/RULES.md alone.

    python3 bench/model.py allocate CHIP APP
    python3 bench/model.py explain CHIP APP [CERT]
    python3 bench/model.py route-tables CHIP APP PLAN USE
    python3 bench/model.py simulate CHIP APP PLAN WORDS RECEIVERS SWITCHES CYCLES
    python3 bench/model.py simulate-tables CHIP APP PLAN WORDS RECEIVERS SWITCHES CYCLES
    python3 bench/model.py links CHIP APP PLAN WORDS RECEIVERS SWITCHES CYCLES
    python3 bench/model.py audit CHIP APP PLAN SWITCHES LOG CYCLES
    python3 bench/model.py chain CHIP APP PLAN USE CHAIN WORDS RECEIVERS CYCLES
    python3 bench/model.py demo N

It is a second implementation, for new rows of crates/aeth_transcripts: it shares nothing with the
program. It knows no network: a run is one private server for each session, and a chain one for each
channel. It judges no file but a text of certificates, and is slow.
"""

import sys

from model_certificates import text_of, tries_of, verdict
from model_logs import Audit
from model_plans import SIDES, Allocation, App, Chip

NEVER = 10**12


def latency_of(starts, slots, most, rate):
    """The least latency of a set of starts, at so many words a slot and this rate."""
    latency = 0
    for begin in range(slots):
        cycles = [cycle for cycle in range(begin, begin + slots) if cycle % slots in starts]
        for sent, cycle in enumerate(cycles):
            late = rate * (cycle - begin) - (most * sent + 1) * slots
            latency = max(latency, -(-late // rate))
    return latency


class Server:
    """The private server of a channel in one of its sessions."""

    def __init__(self, run, channel, session):
        connection, side = channel
        chip, app = run.chip, run.app
        opposite = SIDES[1 - SIDES.index(side)]
        self.go, self.until, self.stop, self.finish, group = session
        self.path, self.starts = run.grants[connection, group, side]
        back_path, back_starts = run.grants[connection, group, opposite]
        queue = run.queues[connection, side]
        self.headers = [queue << 21 | route for route in chip.routes(self.path)]
        self.slots, self.rate = chip.slots, 2 * app.needs[connection, side]
        self.offsets = chip.offsets(self.path)
        self.delay = self.offsets[-1]
        back_delay = chip.offsets(back_path)[-1]
        latency = latency_of(self.starts, self.slots, 2, self.rate)
        credit_latency = latency_of(back_starts, self.slots, 15, self.rate)
        wish = app.connections[connection][side]
        trip = latency + self.delay + wish["delay"] + 1 + credit_latency + back_delay
        self.buffer = -(-self.rate * trip // self.slots) + 2
        self.latency, self.wished_delay = latency + self.delay, wish["delay"]
        self.words = [
            (cycle, value)
            for of, cycle, value in run.words
            if of == channel and self.go <= cycle < self.until
        ]
        self.pulls = [(cycle, pull) for of, cycle, pull in run.receivers if of == channel]
        self.offered = self.sent = self.taken = self.owed = self.returned = 0
        self.coming, self.credits, self.landings, self.takings = {}, {}, [], []

    def send(self, cycle, opposite, flits):
        """Credits return; words and credits are sent in a slot of its own, before the stop."""
        self.returned += self.credits.get(cycle, 0)
        while self.offered < len(self.words) and self.words[self.offered][0] <= cycle:
            self.offered += 1
        if cycle % self.slots not in self.starts or cycle >= self.stop:
            return
        room = self.buffer + self.returned - self.sent
        words, credits = min(2, self.offered - self.sent, room), min(15, opposite.owed)
        if words + credits:
            values = [value for _, value in self.words[self.sent : self.sent + words]]
            said = [words << 30 | credits << 26 | header for header in self.headers]
            flits += [
                (cycle + at, link, header, *values, *[0] * (2 - words))
                for link, at, header in zip(self.path, self.offsets, said)
            ]
        self.coming[cycle + self.delay] = words
        opposite.credits[cycle + self.delay] = credits
        self.sent += words
        opposite.owed -= credits

    def receive(self, cycle):
        """Words land, and the receiver takes what it asks for."""
        self.landings += [cycle] * self.coming.get(cycle, 0)
        pull = ([2] + [pull for since, pull in self.pulls if since <= cycle])[-1]
        taken = min(pull, len(self.landings) - self.taken)
        self.takings += [cycle] * taken
        self.taken += taken
        self.owed += taken

    def rows(self, cycles, name):
        """The lines of the session."""
        ended, landed = self.finish < cycles, len(self.landings)
        offered = sum(1 for cycle, _ in self.words if cycle < min(cycles, self.finish))
        state = "ended" if ended else "running"
        yield f"chan {name} {self.go} {state} {offered} {landed} {self.taken}"
        finish = 0
        for place, (landing, (cycle, value)) in enumerate(zip(self.landings, self.words)):
            finish = max(self.rate * (cycle + self.latency), finish) + self.slots
            yield f"land {place + 1} {cycle} {landing} {-(-finish // self.rate)} {value}"
        if ended:
            yield f"drop {offered - landed} {landed - self.taken}"


class Run:
    """A run: the sessions of its channels, each played by itself."""

    def __init__(self, chip, app, grants, seats, words, receivers, switches, cycles):
        self.chip, self.app, self.grants, self.cycles = chip, app, grants, cycles
        self.queues = app.queues(seats)
        self.words, self.receivers = words, receivers
        self.sessions = {
            connection: [[0, NEVER, NEVER, NEVER, app.group[switches[0][1]]]]
            for connection in app.has[switches[0][1]]
        }
        for (_, left, _), switch in zip(switches, switches[1:]):
            self.switch(left, *switch)
        self.flits, self.lines = [], []
        for connection, it in enumerate(app.connections):
            self.play(connection, it["name"])

    def switch(self, left, cycle, entered, drain):
        """Closes and opens the connections that a switch doesn't keep."""
        app = self.app
        old, new = app.group[left], app.group[entered]
        kept = app.has[left] & app.has[entered] if old == new else set()
        closing = [(it, old, side) for it in app.has[left] - kept for side in SIDES]
        opening = [(it, new, side) for it in app.has[entered] - kept for side in SIDES]
        delays = [self.chip.offsets(self.grants[it][0])[-1] for it in closing]
        writes = sum(len(self.grants[it][1]) + 1 for it in closing + opening)
        finish = cycle + drain + max(delays, default=0)
        for connection in app.has[left] - kept:
            self.sessions[connection][-1][1:4] = [cycle, cycle + drain, finish]
        for connection in app.has[entered] - kept:
            session = [finish + writes, NEVER, NEVER, NEVER, new]
            self.sessions.setdefault(connection, []).append(session)

    def play(self, connection, name):
        """Plays the sessions of both channels of a connection."""
        lines = {side: [] for side in SIDES}
        sessions = self.sessions.get(connection, [])
        for session in sessions:
            if session[0] >= self.cycles:
                continue
            both = [Server(self, (connection, side), session) for side in SIDES]
            for cycle in range(session[0], min(self.cycles, session[3])):
                for server, opposite in zip(both, both[::-1]):
                    server.send(cycle, opposite, self.flits)
                for server in both:
                    server.receive(cycle)
            for side, server in zip(SIDES, both):
                lines[side] += server.rows(self.cycles, f"{name} {side}")
        for side in SIDES:
            outside = sum(
                1
                for of, cycle, _ in self.words
                if of == (connection, side)
                and cycle < self.cycles
                and not any(it[0] <= cycle < it[1] for it in sessions)
            )
            if outside:
                lines[side].append(f"outside {name} {side} {outside}")
            self.lines += lines[side]

    def link_flits(self):
        """How many flits each link carries before the run ends."""
        counts = [0] * len(self.chip.links)
        for cycle, link, *_ in self.flits:
            counts[link] += cycle < self.cycles
        return counts

    def log(self):
        """The flits that enter links before the run ends."""
        rows = sorted(flit for flit in self.flits if flit[0] < self.cycles)
        return "\n".join(["cycle,link,header,first,second", *(",".join(map(str, row)) for row in rows), ""])

    def text(self):
        links = [f"link {link} {flits}" for link, flits in enumerate(self.link_flits())]
        return "\n".join([f"sim 1 {self.cycles}", *self.lines, *links, "end", ""])

    def servers(self):
        """The private server of each session of each channel, before the first cycle."""
        return [
            Server(self, (connection, side), session)
            for connection, sessions in self.sessions.items()
            for session in sessions
            for side in SIDES
        ]

    def summary(self):
        """What `demo` tells of it."""
        rows = [line.split() for line in self.lines]
        chans = [row for row in rows if row[0] == "chan"]
        landings = [row for row in rows if row[0] == "land"]
        outside = sum(int(row[3]) for row in rows if row[0] == "outside")
        late = sum(1 for row in landings if int(row[3]) > int(row[4]))
        return (
            f"granted {len(self.grants)} offered {sum(int(row[5]) for row in chans)} "
            f"outside {outside} landed {len(landings)} late {late} flits {sum(self.link_flits())}"
        )


def rows_of(text):
    return [row.split(",") for row in text.split("\n")[1:] if row]


def seats_of(plan):
    """The number of the seat of each core."""
    lines = [line.split(" ") for line in plan.split("\n") if line.startswith("seat ")]
    return {name: int(seat) for _, name, _, seat in lines}


def grants_of(app, plan):
    """The path and the starts of each side of each connection in each group."""
    connections = {it["name"]: place for place, it in enumerate(app.connections)}
    grants = {}
    for line in plan.split("\n"):
        if line.startswith("grant "):
            _, name, group, side, *lists = line.split(" ")
            path, starts = ([int(it) for it in numbers.split(",")] for numbers in lists)
            grants[connections[name], int(group), side] = path, starts
    return grants


def run_of(chip, app, plan, words, receivers, switches, cycles):
    """The run that the texts of these files tell."""
    connections = {it["name"]: place for place, it in enumerate(app.connections)}
    uses = {it["name"]: place for place, it in enumerate(app.uses)}
    on_channels = [
        [((connections[name], side), int(cycle), int(number)) for name, side, cycle, number in rows]
        for rows in (rows_of(words), rows_of(receivers))
    ]
    entered = [(int(cycle), uses[name], int(drain)) for cycle, name, drain in rows_of(switches)]
    return Run(chip, app, grants_of(app, plan), seats_of(plan), *on_channels, entered, cycles)


def routes_of(chip, app, plan, use):
    """The text of the router tables of a use case by a plan."""
    number = [it["name"] for it in app.uses].index(use)
    rows = []
    for (connection, group, _), (path, starts) in grants_of(app, plan).items():
        if group != app.group[number] or connection not in app.has[number]:
            continue
        for place, offset in list(enumerate(chip.offsets(path)))[1:-1]:
            router = chip.links[path[place]][0]
            ports = [link for link, (begin, _, _) in enumerate(chip.links) if begin == router]
            entry = chip.routers.index(router), ports.index(path[place])
            rows += [(*entry, (start + offset) % chip.slots, path[place - 1]) for start in starts]
    assert len({row[:3] for row in rows}) == len(rows)
    return "\n".join([f"routes 1 {use}", *("hop %d %d %d %d" % row for row in sorted(rows)), "end\n"])


class Chain:
    """A chain of forwarding cores in one use case, channel after channel."""

    def __init__(self, run, use, word):
        app, self.use, self.cycles = run.app, use, run.cycles
        names = [it["name"] for it in app.connections]
        group = app.group[[it["name"] for it in app.uses].index(use)]
        session = [0, NEVER, NEVER, NEVER, group]
        self.works, self.servers = [], []
        for item in word.split(","):
            name, side, *work = item.split(":")
            channel = names.index(name), side
            opposite = names.index(name), SIDES[1 - SIDES.index(side)]
            both = Server(run, channel, session), Server(run, opposite, session)
            both[1].words = []
            self.works.append(sum(int(it) for it in work))
            self.servers.append(both)
        first = self.servers[0][0]
        self.first = [it for it in first.words if it[0] < self.cycles]
        offers = self.first
        for (server, opposite), work in zip(self.servers, self.works):
            server.words = offers
            for cycle in range(self.cycles):
                server.send(cycle, opposite, [])
                opposite.send(cycle, server, [])
                server.receive(cycle)
                opposite.receive(cycle)
            values = [value for _, value in offers]
            offers = [(cycle + work, value) for cycle, value in zip(server.takings, values)]
            offers = [it for it in offers if it[0] < self.cycles]

    def text(self):
        servers = [server for server, _ in self.servers]
        slots, rate = servers[0].slots, min(server.rate for server in servers)
        latency = sum(server.latency for server in servers)
        for server, work in zip(servers[:-1], self.works):
            latency += server.wished_delay + work + 1 - (-slots // rate)
        lines, finish = [f"chain 1 {self.use} {rate} {latency}"], 0
        landings = servers[-1].landings
        for place, (landing, (cycle, value)) in enumerate(zip(landings, self.first)):
            finish = max(rate * (cycle + latency), finish) + slots
            due = -(-finish // rate)
            lines.append(f"land {place + 1} {cycle} {landing} {due} {value}")
        left = len(self.first) - len(landings)
        return "\n".join([*lines, f"left {left}", "end", ""])


def demo_run(number):
    """The large run that is made from a number."""
    state = number

    def draw(bound):
        nonlocal state
        state = (1103515245 * state + 12345) % 2147483648
        return state // 65536 % bound

    shifts = [draw(15) + 1 for _ in range(4)]
    with open(f"{__file__.rsplit('/', 2)[0]}/examples/mesh.toml", encoding="utf-8") as it:
        chip = Chip(it.read())
    text = "version = 1\ndetour = 1\ncore = [\n"
    text += "".join(f'{{name = "k{core}", ni = "n{core}"}},\n' for core in range(16)) + "]\n"
    for round_, per in enumerate((64, 64, 16, 32)):
        for core in range(16):
            to = (core + shifts[round_]) % 16
            text += f'[[connection]]\nname = "c{16 * round_ + core}"\n'
            text += f'from = "k{core}"\nto = "k{to}"\n'
            text += f"fwd = {{words = 1, per = {per}, latency = 100, delay = 0}}\n"
            text += "back = {words = 0, per = 1, latency = 100, delay = 0}\n"
    for use, (first, last) in enumerate(((0, 16), (0, 32), (32, 48), (48, 64))):
        names = ", ".join(f'"c{connection}"' for connection in range(first, last))
        text += f'[[use]]\nname = "u{use}"\nconnections = [{names}]\n'
        text += 'smooth = ["u1"]\n' if use == 0 else ""
    app = App(text, chip)
    allocation = Allocation(chip, app)
    seats = {app.cores[core][0]: seat for core, (_, seat) in allocation.seats.items()}
    words = [((draw(64), "fwd"), 2 * place, place) for place in range(10000)]
    switches = [(0, 0, 0), (5000, 1, 16), (10000, 2, 16), (15000, 3, 16)]
    return Run(chip, app, allocation.grants, seats, words, [], switches, 22000)


def main(command, *words):
    if command == "demo":
        print("demo", words[0], demo_run(int(words[0])).summary())
        return
    if command == "chain":
        chip, app, plan, use, word, offers, receivers, cycles = words
        files = chip, app, plan, offers, receivers
    else:
        files = words[: {"explain": 3, "route-tables": 3, "audit": 5}.get(command, 6)]
    texts = []
    for name in files:
        with open(name, encoding="utf-8") as it:
            texts.append(it.read())
    chip = Chip(texts[0])
    app = App(texts[1], chip)
    if command == "allocate":
        sys.stdout.write(Allocation(chip, app).text())
    elif command == "explain":
        tries = tries_of(chip, app)
        sys.stdout.write("".join(verdict(chip, app, tries, texts[2])[1:]) if texts[2:] else text_of(tries))
    elif command == "route-tables":
        sys.stdout.write(routes_of(chip, app, texts[2], words[3]))
    elif command == "chain":
        run = run_of(chip, app, *texts[2:], f"cycle,use,drain\n0,{use},0\n", int(cycles))
        sys.stdout.write(Chain(run, use, word).text())
    elif command == "audit":
        run = run_of(chip, app, texts[2], "", "", texts[3], int(words[5]))
        rows = [[int(it) for it in row] for row in rows_of(texts[4])]
        sys.stdout.write(Audit(run.servers(), run.cycles, rows).text())
    else:
        run = run_of(chip, app, *texts[2:], int(words[6]))
        sys.stdout.write(run.log() if command == "links" else run.text())


if __name__ == "__main__":
    main(*sys.argv[1:])
