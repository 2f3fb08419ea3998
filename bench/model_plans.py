"""A part of model.py: chips, applications and their allocation."""

import tomllib

SIDES = ("fwd", "back")


class Chip:
    """Slots, routers, interfaces and links; each link is where it begins, where it ends, and its delay."""

    def __init__(self, text):
        tree = tomllib.loads(text)
        self.slots = tree["slots"]
        self.routers = tree["routers"]
        self.nis = tree["nis"]
        self.links = [(it["from"], it["to"], it.get("delay", 1)) for it in tree["link"]]

    def offsets(self, path):
        """The offset of each place of a path, and its delay as the last."""
        offsets = [0]
        for link in path:
            offsets.append(offsets[-1] + self.links[link][2])
        return offsets

    def routes(self, path):
        """The route at each place of a path: the ports of the links after it, three bits each."""
        begins = [begin for begin, _, _ in self.links]
        ports = [begins[:link].count(begins[link]) for link in path]
        return [
            sum(port << 3 * place for place, port in enumerate(ports[first:]))
            for first in range(1, len(path) + 1)
        ]

    def admissible(self, start, end, detour):
        """The admissible paths between two interfaces: over 1 to 7 distinct routers."""
        found = []

        def walk(node, path, seen):
            for number, (begin, to, _) in enumerate(self.links):
                if begin != node:
                    continue
                if to in self.nis:
                    if to == end and path:
                        found.append(path + [number])
                elif to not in seen and len(seen) < 7:
                    walk(to, path + [number], seen | {to})

        walk(start, [], frozenset())
        least = min(map(len, found), default=0)
        return [path for path in found if len(path) <= least + detour]


class App:
    """Cores, connections and use cases, with needs and groups."""

    def __init__(self, text, chip):
        tree = tomllib.loads(text)
        self.detour = tree["detour"]
        self.price = tree.get("cost", "hops")
        self.cores = [(it["name"], it.get("ni")) for it in tree["core"]]
        self.connections = tree["connection"]
        self.uses = tree["use"]
        names = {it["name"]: place for place, it in enumerate(self.connections)}
        self.has = [{names[name] for name in use["connections"]} for use in self.uses]
        self.needs = {}
        for number, connection in enumerate(self.connections):
            own = {
                side: max(1, -(-wish["words"] * chip.slots // (2 * wish["per"])))
                for side, wish in ((side, connection[side]) for side in SIDES)
            }
            back = max(own["back"], -(-2 * own["fwd"] // 15))
            self.needs[number, "back"] = back
            self.needs[number, "fwd"] = max(own["fwd"], -(-2 * back // 15))
        self.group = self.groups_of_uses()

    def queues(self, seats):
        """The queue at which each channel lands, by the seats of the cores."""
        own = {name: [] for name, _ in self.cores}
        queues = {}
        for number, it in enumerate(self.connections):
            for side, core in ((SIDES[0], it["to"]), (SIDES[1], it["from"])):
                queues[number, side] = 8 * seats.get(core, 0) + len(own[core])
            for core in {it["from"], it["to"]}:
                own[core].append(number)
        return queues

    def groups_of_uses(self):
        """The group of each use case, numbered by their least use cases."""
        numbers = {use["name"]: place for place, use in enumerate(self.uses)}
        least = list(range(len(self.uses)))
        for place, use in enumerate(self.uses):
            for name in use.get("smooth", []):
                joined = {least[place], least[numbers[name]]}
                least = [min(joined) if it in joined else it for it in least]
        return [sorted(set(least)).index(it) for it in least]

    def are_together(self, group, one, other):
        """Whether one use case of the group has both connections."""
        return any(
            its_group == group and {one, other} <= had
            for its_group, had in zip(self.group, self.has)
        )

    def ends(self, connection, side):
        """The cores that send and receive."""
        names = [name for name, _ in self.cores]
        it = self.connections[connection]
        ends = [names.index(it["from"]), names.index(it["to"])]
        return ends if side == "fwd" else ends[::-1]


def is_suitable(starts, slots, need, gap):
    """Whether a set of starts has slots enough and no wider gap."""
    if not starts or len(starts) < need:
        return False
    after = starts[1:] + [starts[0] + slots]
    return all(later - start <= gap for start, later in zip(starts, after))


def chosen(free, slots, need, gap):
    """The first of the least suitable subsets of a suitable set."""
    for size in range(need, len(free) + 1):
        for first in free:
            starts = continued(free, first + slots, gap, first, size - 1, {})
            if starts is not None and is_suitable(starts, slots, need, gap):
                return starts
    return None


def continued(free, end, gap, last, left, known):
    """The first so many starts after the last one, with it, up to whose end no gap is wider."""
    if left == 0:
        return [last] if end - last <= gap else None
    if (last, left) not in known:
        rests = (
            continued(free, end, gap, start, left - 1, known)
            for start in free
            if last < start <= last + gap
        )
        known[last, left] = next((rest for rest in rests if rest is not None), None)
    rest = known[last, left]
    return None if rest is None else [last, *rest]


class Allocation:
    """The seats, the grants and the refused units, a turn after the other."""

    def __init__(self, chip, app):
        self.chip, self.app = chip, app
        self.seats, self.grants, self.refused, self.tries = {}, {}, [], []
        for core, (_, ni) in enumerate(app.cores):
            if ni:
                self.sit(core, ni)
        groups = range(max(app.group) + 1)
        waiting = [
            (connection, group)
            for connection in range(len(app.connections))
            for group in groups
            if app.are_together(group, connection, connection)
        ]
        turn = 0
        while waiting:
            turn += 1
            unit = min(waiting, key=self.turn_key)
            waiting.remove(unit)
            before = dict(self.seats), dict(self.grants)
            for side in SIDES:
                if not self.is_granted(unit, side):
                    self.tries.append((self.seats, self.grants))
                    self.seats, self.grants = before
                    self.refused.append((*unit, side, turn))
                    break

    def sit(self, core, ni):
        """Seats a core on the lowest free seat of an interface."""
        if core not in self.seats:
            seat = min(set(range(4)) - {at for its, at in self.seats.values() if its == ni})
            self.seats[core] = ni, seat

    def turn_key(self, unit):
        """What puts the units that wait in order."""
        connection, group = unit
        needs = sum(self.app.needs[connection, side] for side in SIDES)
        wishes = [self.app.connections[connection][side] for side in SIDES]
        seated = any(core in self.seats for core in self.app.ends(connection, "fwd"))
        latency = min(wish["latency"] for wish in wishes)
        return not seated, -needs, latency, connection, group

    def cells(self, path, starts):
        """The slots of links that a grant occupies."""
        offsets = self.chip.offsets(path)
        slots = self.chip.slots
        return {
            (link, (start + offset) % slots)
            for link, offset in zip(path, offsets)
            for start in starts
        }

    def free_seats(self, ni):
        return 4 - sum(1 for its, _ in self.seats.values() if its == ni)

    def interfaces(self, core):
        """The interfaces where a core sits or may come to sit."""
        if core in self.seats:
            return [self.seats[core][0]]
        return [ni for ni in self.chip.nis if self.free_seats(ni)]

    def is_granted(self, unit, side):
        """Grants a channel its first candidate, if it has one."""
        candidates = list(self.candidates(unit, side))
        if not candidates:
            return False
        _, path, start, end, starts = min(candidates)
        sender, receiver = self.app.ends(unit[0], side)
        self.sit(sender, start)
        self.sit(receiver, end)
        slots, need = self.chip.slots, self.app.needs[unit[0], side]
        latency = self.app.connections[unit[0]][side]["latency"]
        gap = latency + 1 - self.chip.offsets(path)[-1]
        self.grants[(*unit, side)] = path, chosen(starts, slots, need, gap)
        return True

    def candidates(self, unit, side):
        """The candidates of a channel: cost and length, path, ends, and free starts."""
        connection, group = unit
        sender, receiver = self.app.ends(connection, side)
        need = self.app.needs[connection, side]
        latency = self.app.connections[connection][side]["latency"]
        busy = set()
        for (other, its_group, _), (path, starts) in self.grants.items():
            if its_group == group and self.app.are_together(group, other, connection):
                busy |= self.cells(path, starts)
        used = self.used_cells(connection, group)
        both_come = sender not in self.seats and receiver not in self.seats
        for start in self.interfaces(sender):
            for end in self.interfaces(receiver):
                if start == end and both_come and self.free_seats(start) == 1:
                    continue
                for path in self.chip.admissible(start, end, self.app.detour):
                    gap = latency + 1 - self.chip.offsets(path)[-1]
                    free = [
                        first
                        for first in range(self.chip.slots)
                        if not self.cells(path, [first]) & busy
                    ]
                    if is_suitable(free, self.chip.slots, need, gap):
                        yield (self.cost(path, used), len(path)), path, start, end, free

    def used_cells(self, connection, group):
        """The slots of links that are used, by use case of the group that has the connection."""
        return [
            set().union(
                *(
                    self.cells(path, starts)
                    for (other, its_group, _), (path, starts) in self.grants.items()
                    if its_group == group and other in had
                )
            )
            for its, had in zip(self.app.group, self.app.has)
            if its == group and connection in had
        ]

    def cost(self, path, used):
        """A link costs 1, and by `pressure` one more for each slot that a use case uses most."""
        if self.app.price == "hops":
            return len(path)
        return sum(1 + max(sum(1 for at, _ in it if at == link) for it in used) for link in path)

    def text(self):
        """The plan; or the refused units."""
        names = [it["name"] for it in self.app.connections]
        if self.refused:
            rows = [f"refused unit {names[it]} {g} {s} {t}" for it, g, s, t in self.refused]
            return "".join(row + "\n" for row in rows)
        rows = [f"plan 1 {self.chip.slots}"]
        for core, (name, _) in enumerate(self.app.cores):
            if core in self.seats:
                rows.append(f"seat {name} {self.seats[core][0]} {self.seats[core][1]}")
        order = sorted(self.grants, key=lambda it: (it[0], it[1], SIDES.index(it[2])))
        for connection, group, side in order:
            path, starts = self.grants[connection, group, side]
            lists = ",".join(map(str, path)), ",".join(map(str, starts))
            rows.append(f"grant {names[connection]} {group} {side} {' '.join(lists)}")
        return "\n".join([*rows, "end", ""])
