"""A part of model.py: which row of a log of links is the first that breaks a rule, and which rule it breaks."""


class Audit:
    """The audit of a log of links by the servers of a run's sessions, of which it knows no words."""

    def __init__(self, servers, cycles, rows):
        self.servers, self.cycles = servers, cycles
        self.rows = [row for row in rows if row[0] < cycles]
        self.seen = {(cycle, link): flit for cycle, link, *flit in self.rows}

    def goes_on(self, earlier, later):
        """Whether the flit on one link goes on as that on another, a hop further."""
        if earlier not in self.seen or later not in self.seen:
            return False
        (header, *words), flit = self.seen[earlier], self.seen[later]
        route = header % 2**21
        return flit == [header - route + route // 8, *words]

    def rule(self, cycle, link, header, *words):
        """The least rule that a row breaks; 0 where it breaks none."""
        places = [
            (server, place, server.offsets)
            for server in self.servers
            for place, at in enumerate(server.path)
            if at == link
            and server.go <= cycle - server.offsets[place] < server.stop
            and (cycle - server.offsets[place]) % server.slots in server.starts
        ]
        if not places:
            return 1
        ((server, place, offsets),) = places
        count, credits = header >> 30, header >> 26 & 15
        if header % 2**26 != server.headers[place] or count == 3 or count + credits == 0:
            return 2
        if any(words[count:]):
            return 2
        here, path = (cycle, link), server.path
        if place:
            before = cycle - offsets[place] + offsets[place - 1], path[place - 1]
            if not self.goes_on(before, here):
                return 3
        if place + 1 < len(path):
            after = cycle - offsets[place] + offsets[place + 1], path[place + 1]
            if after[0] < self.cycles and not self.goes_on(here, after):
                return 3
        return 0

    def text(self):
        for number, row in enumerate(self.rows):
            if rule := self.rule(*row):
                return f"fault {rule} {number + 1}\n"
        return "clean\n"
