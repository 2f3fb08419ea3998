"""Files that are turned: by bytes, by lines, by tokens and to their limits. Each is made of a file that is right."""
from pathlib import Path
from random import Random
import re

TOKEN = re.compile(rb"[A-Za-z0-9_.+-]+|[^A-Za-z0-9_.+-]")
LIMITS = (
    "0 1 2 4 5 7 8 9 63 64 65 127 128 129 255 256 1024 1025 4095 4096 4097 999999 1000000 1000001 2000000 2000001 4294967295 "
    "4294967296 9223372036854775807 9223372036854775808 -1 -9223372036854775809 1e309 inf nan 0x10 0o7 1_0 007 +1 1.0"
).split(" ")
ODD = (
    "true", "1979-05-27", "1979-02-30", "07:32", "[]", "{}", "[[", "]]", "=", "#", ".", ",", '"""', "'''", "\x1b[2J", "\x00",
    "\x7f", "\u0663", "\u00e9", '"\\u001b[2J"', '"a\\nb"', '"\\UFFFFFFFF"', '"\\ud800"', '"\\x1b"', '"\\q"', '""', '"A"',
    "fwd", "back", "hops", "pressure", "\r", "\u2028", "\x85", "[[uses]]", "use = 5", "use = [{name = 5}]", "-", "?", "end",
)
CELLS = ("9" * 4_301, "9" * 10_000, "a" * 33, "a" * 70_000, '"' + "x" * 140_000 + '"')
HOSTILE = [word.encode() for word in (*LIMITS, *ODD)]


def span(data: bytes, chance: Random) -> tuple[int, int]:
    """A short part of a text, which may be empty."""
    start = chance.randrange(len(data) + 1)
    return start, min(len(data), start + chance.choice((0, 1, 1, 2, 4, 20, 200)))


def by_bytes(data: bytes, chance: Random, _: list[bytes]) -> bytes:
    start, end = span(data, chance)
    part = data[start:end]
    new = chance.choice((b"", part * 2, chance.randbytes(1), chance.randbytes(3), part[::-1], bytes(byte ^ 1 for byte in part)))
    if not chance.randrange(12):
        return data[:start]
    return data[:start] + new + data[end:]


def by_lines(data: bytes, chance: Random, others: list[bytes]) -> bytes:
    lines = data.splitlines(keepends=True) or [b""]
    place, other = chance.randrange(len(lines)), chance.randrange(len(lines))
    way = chance.randrange(9)
    if way == 0:
        del lines[place]
    elif way == 1:
        lines.insert(other, lines[place])
    elif way == 2:
        lines[place], lines[other] = lines[other], lines[place]
    elif way == 3:
        lines.insert(place, chance.choice(chance.choice(others).splitlines(keepends=True) or [b""]))
    elif way == 4:
        lines[place] = lines[place].rstrip(b"\n")
    elif way == 5:
        lines[place] = lines[place].rstrip(b"\n") + chance.choice((b" \n", b"\t\n", b"\r\n", b"\r", b"\n\n", b","))
    elif way == 6:
        return data.replace(b"\n", chance.choice((b"\r\n", b"\r", b"\n\n", b"")))
    elif way == 7:
        return data.rstrip(b"\n")
    else:
        chance.shuffle(lines)
    return b"".join(lines)


def by_tokens(data: bytes, chance: Random, others: list[bytes]) -> bytes:
    tokens = TOKEN.findall(data) or [b""]
    place = chance.randrange(len(tokens))
    digits = [at for at, token in enumerate(tokens) if token.isdigit()]
    way = chance.randrange(7)
    if way < 3 and digits:
        tokens[chance.choice(digits)] = chance.choice(LIMITS).encode()
    elif way < 4:
        tokens[place] = chance.choice(HOSTILE)
    elif way < 5:
        tokens[place] = chance.choice(TOKEN.findall(chance.choice(others)) or [b""])
    elif way < 6:
        other = chance.randrange(len(tokens))
        tokens[place], tokens[other] = tokens[other], tokens[place]
    else:
        del tokens[place]
    return b"".join(tokens)


def by_limits(data: bytes, chance: Random, _: list[bytes]) -> bytes:
    depth, many = chance.choice((79, 80, 81, 100, 1_000, 100_000)), chance.choice((2_000, 20_000))
    head, _, rest = data.partition(b"\n")
    last = data.splitlines(keepends=True)[-1:] or [b"\n"]
    return chance.choice((
        lambda: b"",
        lambda: b"\xef\xbb\xbf" + data,
        lambda: b"\xef\xbb\xbf",
        lambda: b"\n" * many + data,
        lambda: b"#" * many + b"\n" + data,
        lambda: b"\x00" * many,
        lambda: b"\xff" * many,
        lambda: b"x = " + b"[" * depth + b"]" * depth + b"\n" + data,
        lambda: b"x = " + b"{a = " * depth + b"1" + b"}" * depth + b"\n" + data,
        lambda: b"x" + b".x" * many + b" = 1\n" + data,
        lambda: b"[x" + b".x" * many + b"]\n" + data,
        lambda: b"x = " + b"[" * many + data,
        lambda: b"x = [" + b"[]," * many + b"]\n" + data,
        lambda: head + b"\n" + b"9" * many + rest,
        lambda: TOKEN.sub(lambda found: chance.choice(CELLS).encode(), data, count=1),
        lambda: re.sub(rb"\b[0-9]+\b", lambda found: chance.choice(LIMITS).encode(), data),
        lambda: head + b"\n" + last[0] * many,
        lambda: data + b"\n".join(data.splitlines()[1:]) * 3,
        lambda: re.sub(rb'smooth = \["', lambda found: found.group() + b'u0", "u0", "' * many, data),
    ))()


WAYS = {"bytes": by_bytes, "lines": by_lines, "tokens": by_tokens, "limits": by_limits}


def turned(data: bytes, way: str, chance: Random, others: list[bytes]) -> bytes:
    """A file's text, turned once or a few times."""
    for _ in range(1 if way == "limits" else chance.choice((1, 1, 2, 5))):
        data = WAYS[way](data, chance, others)
    return data


def odd_path(folder: Path, chance: Random) -> str:
    """A path at which there is no file that can be read, or an odd one."""
    return chance.choice((
        str(folder / "none"), str(folder), "/dev/null", "a" * 256, "a" * 5_000, "", str(folder / "chip.toml" / "under"), "-",
        str(folder / "\x1b[2J"), "./--help", str(folder / "\u2028.toml"), "/proc/self/mem", str(folder / ("\udcff" * 3)),
    ))


def random_design(chance: Random) -> tuple[bytes, bytes]:
    """A chip and an application that `aeth` accepts mostly: whose routers needn't be joined, with links of every kind."""
    routers = [f"r{place}" for place in range(chance.randrange(1, 9))]
    homes = [chance.choice(routers) for _ in range(chance.randrange(1, 9))]
    links = [pair for place, home in enumerate(homes) for pair in ((f"n{place}", home), (home, f"n{place}"))]
    links += [(chance.choice(routers), chance.choice(routers)) for _ in range(chance.randrange(3 * len(routers)))]
    chance.shuffle(links)
    delay = chance.choice(("", "", ", delay = 4"))
    spelled = "".join(f'  {{from = "{one}", to = "{other}"{delay}}},\n' for one, other in links)
    names = [", ".join(f'"{name}"' for name in list_) for list_ in (routers, [f"n{place}" for place in range(len(homes))])]
    slots = chance.choice((1, 2, 5, 8, 16, 64))
    chip = f"version = 2\nslots = {slots}\nrouters = [{names[0]}]\nnis = [{names[1]}]\nlink = [\n{spelled}]\n"
    cores = [f'k{place}"' + chance.choice(("", f', ni = "n{place % len(homes)}"')) for place in range(chance.randrange(2, 10))]
    parts = [f"version = 1\ndetour = {chance.randrange(5)}\ncost = \"{chance.choice(('hops', 'pressure'))}\"\ncore = [\n"]
    parts += [f'  {{name = "{core}}},\n' for core in cores] + ["]\n"]
    count = chance.randrange(7)
    for place in range(count):
        one, other = chance.sample(range(len(cores)), 2)
        wishes = [
            f"{{words = {chance.choice((0, 1, 1, 2, 9))}, per = {chance.choice((8, 64, 1000000))}, "
            f"latency = {chance.choice((3, 9, 40, 300, 4096))}, delay = {chance.choice((0, 0, 7, 4096))}}}" for _ in "ab"
        ]
        parts.append(f'[[connection]]\nname = "c{place}"\nfrom = "k{one}"\nto = "k{other}"\nfwd = {wishes[0]}\nback = {wishes[1]}\n')
    for place in range(chance.randrange(1, 4)):
        members = ", ".join(f'"c{it}"' for it in range(count) if chance.randrange(3))
        smooth = chance.choice(("", "", f'smooth = ["u0", "u{place}"]\n'))
        parts.append(f'[[use]]\nname = "u{place}"\nconnections = [{members}]\n{smooth}')
    return chip.encode(), "".join(parts).encode()
