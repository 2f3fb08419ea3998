#!/usr/bin/env python3
"""Makes input files in a folder on which a program may be slow that is fast on those of `inputs.py`: always the same ones.

slow_inputs.py DIR

chip_paths    64 routers with 7 random links each, of 1 to 3 cycles, 128 slots
app_paths     512 connections of cores that are fixed, in each of 16 use cases, all of which are granted on chip_paths
app_free      the same with cores that aren't fixed
app_all       the first one by hops, with a detour of 2
cube          a torus of 4 by 4 by 4 routers with an interface each, 64 slots, for app_pressure of `inputs.py`
words_10, words_100, words_1000    a word in so many cycles, of 1,000,000, on one of 200 channels
words_all, receivers_all, switches_all    of app_all: a word and a row of a receiver in each cycle; 238 switches that
              close all channels and open all
"""
import os
import random
import sys

CORES, CONNECTIONS, USES = 256, 512, 16
SIDE, ROUTERS = 8, 64
MOST_CHANNELS, REACH = 8, 6
CYCLES = 1_000_000


def put(name, text):
    with open(os.path.join(out, name), "w") as f:
        f.write(text)


def quoted(letter):
    return ", ".join(f'"{letter}{place}"' for place in range(ROUTERS))


def chip_text(version, slots, links, delays=None):
    head = f"version = {version}\nslots = {slots}\nrouters = [{quoted('r')}]\nnis = [{quoted('n')}]\nlink = [\n"
    delays = delays or [None] * len(links)
    rows = [
        f'  {{from = "{begin}", to = "{end}"' + (f", delay = {delay}" if delay else "") + "},\n"
        for (begin, end), delay in zip(links, delays)
    ]
    return head + "".join(rows) + "]\n"


def ends():
    """The links of the interfaces, one at each router."""
    return [link for place in range(ROUTERS) for link in ((f"n{place}", f"r{place}"), (f"r{place}", f"n{place}"))]


def random_chip():
    draw, links = random.Random(1), ends()
    for _ in range(7):
        places = list(range(ROUTERS))
        draw.shuffle(places)
        links += [(f"r{place}", f"r{places[place]}") for place in range(ROUTERS)]
    return chip_text(2, 128, links, [draw.randint(1, 3) for _ in links])


def cube():
    links, edge = ends(), range(4)
    at = lambda x, y, z: x % 4 + 4 * (y % 4) + 16 * (z % 4)
    for x, y, z in ((x, y, z) for z in edge for y in edge for x in edge):
        for other in (at(x + 1, y, z), at(x, y + 1, z), at(x, y, z + 1)):
            links += [(f"r{at(x, y, z)}", f"r{other}"), (f"r{other}", f"r{at(x, y, z)}")]
    return chip_text(1, 64, links)


def far(one, other):
    """How far two interfaces would be apart in a mesh."""
    return abs(one % SIDE - other % SIDE) + abs(one // SIDE - other // SIDE)


def pairs(draw):
    """The cores of each connection, none of which has more than 8 of them."""
    busy, found = [0] * CORES, []
    while len(found) < CONNECTIONS:
        one, other = draw.sample(range(CORES), 2)
        if busy[one] >= MOST_CHANNELS or busy[other] >= MOST_CHANNELS or far(one // 4, other // 4) > REACH:
            continue
        busy[one] += 1
        busy[other] += 1
        found.append((one, other))
    return found


def app(periods, fixed, detour=4, cost="pressure"):
    draw = random.Random(1)
    text = f'version = 1\ndetour = {detour}\ncost = "{cost}"\ncore = [\n'
    text += "".join(f'  {{name = "k{core}"' + (f', ni = "n{core // 4}"' if fixed else "") + "},\n" for core in range(CORES)) + "]\n"
    for number, (one, other) in enumerate(pairs(draw)):
        text += f'[[connection]]\nname = "c{number}"\nfrom = "k{one}"\nto = "k{other}"\n'
        text += f"fwd = {{words = 1, per = {draw.choice(periods)}, latency = 4096, delay = 0}}\n"
        text += f"back = {{words = {draw.choice([0, 1])}, per = {max(periods)}, latency = 4096, delay = 2}}\n"
    names = ", ".join(f'"c{number}"' for number in range(CONNECTIONS))
    return text + "".join(f'[[use]]\nname = "u{use}"\nconnections = [{names}]\n' for use in range(USES))


def words(number, channels):
    draw = random.Random(3)
    cycles = sorted(draw.randrange(CYCLES) for _ in range(number))
    rows = [f"c{draw.randrange(channels)},fwd,{cycle},{draw.getrandbits(24)}\n" for cycle in cycles]
    return "connection,side,cycle,value\n" + "".join(rows)


def receivers():
    draw = random.Random(5)
    rows = [f"c{draw.randrange(CONNECTIONS)},fwd,{cycle},{draw.choice([2, 3, 255])}\n" for cycle in range(CYCLES)]
    return "connection,side,cycle,pull\n" + "".join(rows)


def switches():
    return "cycle,use,drain\n" + "".join(f"{4_210 * place},u{place % USES},0\n" for place in range(238))


if len(sys.argv) != 2:
    sys.exit("slow_inputs.py DIR: makes input files in DIR")
out = sys.argv[1]
os.makedirs(out, exist_ok=True)
put("chip_paths", random_chip())
put("app_paths", app((128, 256, 512), True))
put("app_free", app((64, 128), False))
put("app_all", app((128, 256, 512), True, detour=2, cost="hops"))
put("cube", cube())
for apart in (10, 100, 1_000):
    put(f"words_{apart}", words(CYCLES // apart, 200))
put("words_all", words(CYCLES, CONNECTIONS))
put("receivers_all", receivers())
put("switches_all", switches())
