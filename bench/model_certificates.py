"""A part of model.py: certificates of refusals, and what is found of a text of them.

It knows no search: all admissible paths between the interfaces of a try are listed, and each list of links is
judged by itself.
"""

import re

from model_plans import Allocation, is_suitable

NUMBER = r"(?:0|[1-9]\d{0,9})"
FORMS = (
    rf"try ([a-z0-9_]{{1,32}}) ({NUMBER}) (fwd|back) ({NUMBER})",
    rf"cut ({NUMBER}(?:,{NUMBER}){{0,7}})",
)


class Broken(Exception):
    """The first rule that a text breaks: its number, its name, the line and the field."""


class Try:
    """The try of a refused channel: what stood reserved, and the interfaces of its pairs."""

    def __init__(self, allocation, place):
        self.chip, self.app = allocation.chip, allocation.app
        self.connection, self.group, self.side, self.turn = allocation.refused[place]
        self.name = self.app.connections[self.connection]["name"]
        self.need = self.app.needs[self.connection, self.side]
        self.latency = self.app.connections[self.connection][self.side]["latency"]
        own = object.__new__(Allocation)
        own.chip, own.app = self.chip, self.app
        own.seats, own.grants = allocation.tries[place]
        sender, receiver = self.app.ends(self.connection, self.side)
        self.senders = own.interfaces(sender)
        come = sender not in own.seats and receiver not in own.seats
        self.pairs = [
            (start, end)
            for start in self.senders
            for end in own.interfaces(receiver)
            if not (come and start == end and own.free_seats(start) == 1)
        ]
        self.busy = set()
        for (other, group, _), (path, starts) in own.grants.items():
            if group == self.group and self.app.are_together(group, other, self.connection):
                self.busy |= own.cells(path, starts)
        self.known = {}

    def paths(self):
        """The admissible paths of its pairs, in the order of a dictionary."""
        both = (self.chip.admissible(*pair, self.app.detour) for pair in self.pairs)
        return sorted(path for paths in both for path in paths)

    def is_dead(self, links):
        """Whether the starts that are free on links have no suitable slots."""
        links = tuple(links)
        if links not in self.known:
            *offsets, delay = self.chip.offsets(links)
            slots = self.chip.slots
            free = [
                start
                for start in range(slots)
                if all(
                    (link, (start + offset) % slots) not in self.busy
                    for link, offset in zip(links, offsets)
                )
            ]
            gap = self.latency + 1 - delay
            self.known[links] = not is_suitable(free, slots, self.need, gap)
        return self.known[links]

    def is_cut(self, links):
        """Whether links are joined from a sender on, and dead."""
        at = self.chip.links[links[0]][0]
        for link in links:
            begin, end, _ = self.chip.links[link]
            if begin != at:
                return False
            at = end
        return self.chip.links[links[0]][0] in self.senders and self.is_dead(links)

    def cuts(self):
        """The shortest dead list with which each path begins, each once."""
        fronts = (
            next(path[:many] for many in range(1, len(path) + 1) if self.is_dead(path[:many]))
            for path in self.paths()
        )
        return sorted(set(map(tuple, fronts)))

    def head(self):
        return f"try {self.name} {self.group} {self.side} {self.turn}"


def tries_of(chip, app):
    """The tries of all refusals, in the order of turns."""
    allocation = Allocation(chip, app)
    return [Try(allocation, place) for place in range(len(allocation.refused))]


def links_of(word):
    return [int(it) for it in word.split(",")]


def word_of(links):
    return ",".join(map(str, links))


def text_of(tries):
    """The text of the shortest cuts of tries."""
    lines = ["explain 1"]
    for it in tries:
        lines += [it.head(), *(f"cut {word_of(cut)}" for cut in it.cuts())]
    return "\n".join([*lines, "end", ""])


def is_line(line):
    """Whether a line has the form of a `try` or a `cut`, with numbers of 32 bits."""
    form = next((found for form in FORMS if (found := re.fullmatch(form, line, re.A))), None)
    if form is None:
        return False
    numbers = [form[2], form[4]] if line[0] == "t" else form[1].split(",")
    return all(int(number) < 1 << 32 for number in numbers)


def body_of(text):
    """The lines between the first and the last, each in its form."""
    *lines, rest = text.split("\n")
    if not lines or lines[0] != "explain 1":
        raise Broken(1, "BadLine", 1, "-")
    many = next((place for place, line in enumerate(lines[1:]) if not is_line(line)), len(lines) - 1)
    body = lines[1 : many + 1]
    if body and body[0].startswith("cut"):
        raise Broken(1, "BadLine", 2, "-")
    behind = lines[many + 1 :]
    if not behind or behind[0] != "end":
        raise Broken(1, "BadLine", many + 2, "-")
    if behind[1:] or rest:
        raise Broken(1, "BadLine", many + 3, "-")
    return body


def blocks_of(chip, app, tries, text):
    """For each try the lists of its block, each with its line."""
    body = body_of(text)
    names = [it["name"] for it in app.connections]
    for number, line in enumerate(body, 2):
        word, *fields = line.split(" ")
        if word == "try" and fields[0] not in names:
            raise Broken(2, "Unknown", number, 2)
        if word == "try" and int(fields[1]) > max(app.group):
            raise Broken(2, "Unknown", number, 3)
        if word == "cut" and max(links_of(fields[0])) >= len(chip.links):
            raise Broken(2, "Unknown", number, 2)
    blocks = []
    for number, line in enumerate([*body, "end"], 2):
        if line.startswith("cut"):
            blocks[-1].append((number, links_of(line[4:])))
        elif line != ("end" if len(blocks) == len(tries) else tries[len(blocks)].head()):
            raise Broken(3, "WrongTry", number, "-")
        else:
            blocks.append([])
    return blocks[:-1]


def verdict(chip, app, tries, text):
    """The status and both texts of `explain` with this text as CERT."""
    try:
        blocks = blocks_of(chip, app, tries, text)
    except Broken as fault:
        return 2, "", "refused cert %s %s %s %s\n" % fault.args
    for it, block in zip(tries, blocks):
        for number, links in block:
            if not it.is_cut(links):
                return 3, "", f"not dead {number}\n"
        fronts = {tuple(links) for _, links in block}
        for path in it.paths():
            if not any(tuple(path[:many]) in fronts for many in range(1, len(path) + 1)):
                return 3, "", f"open {it.head()[4:].rsplit(' ', 1)[0]} {word_of(path)}\n"
    return 0, "complete\n", ""
