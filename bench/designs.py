#!/usr/bin/env python3
"""Makes large chips and applications for the allocation, in a folder: always the same ones.

designs.py DIR

chip, chip128     a mesh of 8 by 8 routers with an interface each: 64 slots; 128 slots and delays 1 to 3
chip_random       64 routers with 7 random links each, 128 slots: hard to search
app_hops          256 cores, of which 192 are fixed, 512 connections, 16 use cases in 9 groups
app_pressure      the same with the other price
app_stress        no core is fixed, detour 4, 16 groups, high needs: many units are refused
"""
import os
import random
import sys

if len(sys.argv) != 2:
    sys.exit("designs.py DIR: makes large chips and applications in DIR")
out = sys.argv[1]
os.makedirs(out, exist_ok=True)
rnd = random.Random(7)
E = 8
N = E * E


def put(name, text):
    with open(os.path.join(out, name), "w") as f:
        f.write(text)


def chip_text(version, slots, links, delays):
    quoted = lambda letter: ", ".join(f'"{letter}{i}"' for i in range(N))
    t = f"version = {version}\nslots = {slots}\nrouters = [{quoted('r')}]\nnis = [{quoted('n')}]\nlink = [\n"
    for (a, b), delay in zip(links, delays):
        t += f'  {{from = "{a}", to = "{b}"' + (f", delay = {delay}" if delay else "") + "},\n"
    return t + "]\n"


def app_text(detour, price, cores, connections, uses):
    """Cores as (name, interface, whether it is fixed there), connections as (name, from, to, wish forward,
    wish back), use cases as (name, connections, smooth)."""
    t = f'version = 1\ndetour = {detour}\ncost = "{price}"\ncore = [\n'
    for name, ni, fixed in cores:
        t += f'  {{name = "{name}"' + (f', ni = "n{ni}"' if fixed else "") + "},\n"
    t += "]\n"
    for name, a, b, fwd, back in connections:
        t += f'[[connection]]\nname = "{name}"\nfrom = "{cores[a][0]}"\nto = "{cores[b][0]}"\n'
        for side, (words, per, latency, delay) in [("fwd", fwd), ("back", back)]:
            t += f"{side} = {{words = {words}, per = {per}, latency = {latency}, delay = {delay}}}\n"
    for name, own, smooth in uses:
        l = ", ".join(f'"c{c}"' for c in own)
        t += f'[[use]]\nname = "{name}"\nconnections = [{l}]\n'
        if smooth:
            t += "smooth = [" + ", ".join(f'"{s}"' for s in smooth) + "]\n"
    return t


def far(a, b):
    return abs(a % E - b % E) + abs(a // E - b // E)


ends = [l for k in range(N) for l in [(f"n{k}", f"r{k}"), (f"r{k}", f"n{k}")]]
mesh = list(ends)
for k in range(N):
    if k % E < E - 1:
        mesh += [(f"r{k}", f"r{k+1}"), (f"r{k+1}", f"r{k}")]
    if k // E < E - 1:
        mesh += [(f"r{k}", f"r{k+E}"), (f"r{k+E}", f"r{k}")]
cores = [(f"k{4*n+j}", n, j < 3) for n in range(N) for j in range(4)]
busy = [0] * len(cores)
connections = []
while len(connections) < 512:
    a, b = rnd.sample(range(len(cores)), 2)
    if busy[a] >= 8 or busy[b] >= 8:
        continue
    reach = 6 if cores[a][2] and cores[b][2] else 2
    if far(cores[a][1], cores[b][1]) > reach:
        continue
    busy[a] += 1
    busy[b] += 1
    words, per = rnd.choice([(1, 64), (1, 32), (1, 16), (3, 32)])
    back = rnd.choice([0, 0, 1])
    connections.append((f"c{len(connections)}", a, b, (words, per, 400, 0), (back, 64, 400, 2)))
base = rnd.sample(range(512), 200)
uses = []
for u in range(8):
    own = rnd.sample(sorted(set(range(512)) - set(base)), 16)
    uses.append((f"u{u}", sorted(base + own), ["u0"] if u else []))
for u in range(8, 16):
    uses.append((f"u{u}", sorted(rnd.sample(range(512), 220)), [f"u{u-1}"] if u % 2 else []))
put("chip", chip_text(1, 64, mesh, [None] * len(mesh)))
put("chip128", chip_text(2, 128, mesh, [rnd.randint(1, 3) for _ in mesh]))
put("app_hops", app_text(2, "hops", cores, connections, uses))
put("app_pressure", app_text(2, "pressure", cores, connections, uses))

stressed = []
for name, a, b, _, _ in connections:
    words, per = rnd.choice([(1, 8), (1, 4), (3, 8), (1, 16)])
    stressed.append((name, a, b, (words, per, rnd.choice([12, 20, 40, 100]), 0), (1, 32, 60, 0)))
uses = [(f"u{u}", sorted(rnd.sample(range(512), 320)), []) for u in range(16)]
put("app_stress", app_text(4, "pressure", [(name, ni, False) for name, ni, _ in cores], stressed, uses))

rnd = random.Random(3)
links = list(ends)
for _ in range(7):
    p = list(range(N))
    rnd.shuffle(p)
    links += [(f"r{k}", f"r{p[k]}") for k in range(N)]
put("chip_random", chip_text(2, 128, links, [None] * len(links)))
