#!/usr/bin/env python3
"""Makes large chips and applications, and plans for them, in a folder: always the same ones.

plans.py DIR

chip, chip128     a mesh of 8 by 8 routers with an interface each: 64 slots; 128 slots and delays 1 to 3
app               256 cores, 512 connections, 16 use cases
plan, plan128     accepted plans for `app` on these two
apart, chained    the same with use cases that have all connections: each a group of its own, or all one
apart_plan, chained_plan    accepted plans for these two on `chip`: 16,384 and 1,024 grants
meeting_plan      the first of these with another slot for its last grant, which meets an earlier one there
lines             a text of 1,000,000 lines, of which no `grant` line is later than the one before
PLAN_twice        each accepted plan with its last grant twice: it is refused once all of it is read

A plan is made simply: cores sit where they are wished, paths go along the rows first or along the columns
first, and each grant takes the first free slots.
"""
import os
import random
import sys

if len(sys.argv) != 2:
    sys.exit("plans.py DIR: makes large chips, applications and plans in DIR")
out = sys.argv[1]
os.makedirs(out, exist_ok=True)
rnd = random.Random(7)
E = 8
N = E * E


def put(name, text):
    with open(os.path.join(out, name), "w") as f:
        f.write(text)


def put_plan(name, text):
    """A plan; and the same with its last grant twice, which is refused once all of it is read."""
    lines = text.splitlines(True)
    put(name, text)
    put(name + "_twice", "".join(lines[:-1] + lines[-2:]))
    return lines


def quoted(letter):
    return ", ".join(f'"{letter}{i}"' for i in range(N))


def chip_text(version, slots, delays):
    t = f"version = {version}\nslots = {slots}\nrouters = [{quoted('r')}]\nnis = [{quoted('n')}]\nlink = [\n"
    for (a, b), d in zip(mesh, delays):
        t += f'  {{from = "{a}", to = "{b}"' + (f", delay = {d}" if version == 2 else "") + "},\n"
    return t + "]\n"


mesh = [l for k in range(N) for l in [(f"n{k}", f"r{k}"), (f"r{k}", f"n{k}")]]
for k in range(N):
    if k % E < E - 1:
        mesh += [(f"r{k}", f"r{k+1}"), (f"r{k+1}", f"r{k}")]
    if k // E < E - 1:
        mesh += [(f"r{k}", f"r{k+E}"), (f"r{k+E}", f"r{k}")]
number = {l: i for i, l in enumerate(mesh)}


def far(a, b):
    return abs(a % E - b % E) + abs(a // E - b // E)


class App:
    """Cores as (name, interface, whether it is fixed there), connections as (name, from, to, wish forward,
    wish back), use cases as (name, connections, smooth)."""

    def __init__(self, detour, cores, connections, uses):
        self.detour, self.cores, self.connections, self.uses = detour, cores, connections, uses

    def text(self):
        t = f'version = 1\ndetour = {self.detour}\ncost = "hops"\ncore = [\n'
        for name, ni, fixed in self.cores:
            t += f'  {{name = "{name}"' + (f', ni = "n{ni}"' if fixed else "") + "},\n"
        t += "]\n"
        for name, a, b, fwd, back in self.connections:
            t += f'[[connection]]\nname = "{name}"\nfrom = "{self.cores[a][0]}"\nto = "{self.cores[b][0]}"\n'
            for side, (words, per, latency, delay) in [("fwd", fwd), ("back", back)]:
                t += f"{side} = {{words = {words}, per = {per}, latency = {latency}, delay = {delay}}}\n"
        for name, connections, smooth in self.uses:
            l = ", ".join(f'"c{c}"' for c in connections)
            t += f'[[use]]\nname = "{name}"\nconnections = [{l}]\n'
            if smooth:
                t += "smooth = [" + ", ".join(f'"{s}"' for s in smooth) + "]\n"
        return t

    def groups(self):
        """The use cases of each group."""
        group = list(range(len(self.uses)))
        for u, (_, _, smooth) in enumerate(self.uses):
            for name in smooth:
                one, other = group[u], group[int(name[1:])]
                group = [min(one, other) if g in (one, other) else g for g in group]
        return [[u for u in range(len(group)) if group[u] == g] for g in sorted(set(group))]


def needs(slots, fwd, back):
    """What a connection needs of a table, forward and back."""
    own = lambda wish: max(1, -(-wish[0] * slots // (2 * wish[1])))
    back_need = max(own(back), -(-2 * own(fwd) // 15))
    return max(own(fwd), -(-2 * back_need // 15)), back_need


def paths(a, b):
    """The routers along the rows first, and along the columns first."""
    for first, last in [(1, E), (E, 1)]:
        at, path = a, [a]
        for step in (first, last):
            place = lambda k: k % E if step == 1 else k // E
            while place(at) != place(b):
                at += step if place(at) < place(b) else -step
                path.append(at)
        yield path


def plan_text(slots, delays, app):
    seats, taken = [], [0] * N
    for name, ni, _ in app.cores:
        seats.append(f"seat {name} n{ni} {taken[ni]}\n")
        taken[ni] += 1
    grants = {}
    for g, uses in enumerate(app.groups()):
        used = {}
        for c, (name, a, b, fwd, back) in enumerate(app.connections):
            has = [u for u in uses if c in app.uses[u][1]]
            if not has:
                continue
            need_fwd, need_back = needs(slots, fwd, back)
            ends = [("fwd", a, b, need_fwd), ("back", b, a, need_back)]
            for side, sender, receiver, need in ends:
                at, to = app.cores[sender][1], app.cores[receiver][1]
                grants[c, g, side] = grant(slots, delays, used, has, at, to, need)
    t = f"plan 1 {slots}\n" + "".join(seats)
    for c, g, side in sorted(grants, key=lambda k: (k[0], k[1], k[2] == "back")):
        path, starts = grants[c, g, side]
        t += f"grant c{c} {g} {side} {','.join(map(str, path))} {','.join(map(str, starts))}\n"
    return t + "end\n"


def grant(slots, delays, used, has, a, b, need):
    """The first path with free slots enough, and the first of these."""
    for routers in paths(a, b):
        nodes = [f"n{a}"] + [f"r{k}" for k in routers] + [f"n{b}"]
        path = [number[l] for l in zip(nodes, nodes[1:])]
        offsets = [sum(delays[l] for l in path[:i]) for i in range(len(path))]
        free = [x for x in range(slots) if all(
            (u, l, (x + o) % slots) not in used for u in has for l, o in zip(path, offsets))]
        if len(free) >= need:
            for x in free[:need]:
                for u in has:
                    for l, o in zip(path, offsets):
                        used[u, l, (x + o) % slots] = True
            return path, free[:need]
    sys.exit("no free slots")


cores = [(f"k{4*n+j}", n, j < 3) for n in range(N) for j in range(4)]
busy = [0] * len(cores)
connections = []
while len(connections) < 512:
    a, b = rnd.sample(range(len(cores)), 2)
    if busy[a] >= 8 or busy[b] >= 8:
        continue
    reach = 6 if cores[a][2] and cores[b][2] else 2
    if far(cores[a][1], cores[b][1]) > reach:
        continue
    busy[a] += 1
    busy[b] += 1
    words, per = rnd.choice([(1, 64), (1, 32), (1, 16), (3, 32)])
    back = rnd.choice([0, 0, 1])
    connections.append((f"c{len(connections)}", a, b, (words, per, 400, 0), (back, 64, 400, 2)))
base = rnd.sample(range(512), 200)
uses = []
for u in range(8):
    own = rnd.sample(sorted(set(range(512)) - set(base)), 16)
    uses.append((f"u{u}", sorted(base + own), ["u0"] if u else []))
for u in range(8, 16):
    uses.append((f"u{u}", sorted(rnd.sample(range(512), 220)), [f"u{u-1}"] if u % 2 else []))
app = App(2, cores, connections, uses)
ones = [1] * len(mesh)
delays = [rnd.randint(1, 3) for _ in mesh]
put("chip", chip_text(1, 64, ones))
put("chip128", chip_text(2, 128, delays))
app = App(2, cores, connections, uses)
put("app", app.text())
put_plan("plan", plan_text(64, ones, app))
put_plan("plan128", plan_text(128, delays, app))

every = list(range(512))
for name, step in [("apart", 0), ("chained", 1)]:
    uses = [(f"u{u}", every, [f"u{(u+step)%16}"]) for u in range(16)]
    app = App(2, cores, connections, uses)
    put(name, app.text())
    lines = put_plan(name + "_plan", plan_text(64, ones, app))
    if step == 0:
        last = lines[-2].rsplit(" ", 1)[0]
        put("meeting_plan", "".join(lines[:-2]) + last + " 0\n" + lines[-1])
        same = "grant c0 0 fwd 0,1 0\n"
        put("lines", "".join(lines[:257]) + same * (1_000_000 - 258) + lines[-1])
