"""Texts of chips and applications for the tests."""


def chip(routers, pairs, slots=16):
    """A chip with an interface at each router, and links both ways between the routers of each pair."""
    interfaces = [f"n{number}" for number in range(len(routers))]
    ends = list(zip(interfaces, routers)) + pairs
    links = [end for one, other in ends for end in ((one, other), (other, one))]
    quoted = lambda names: ", ".join(f'"{name}"' for name in names)
    lines = [f'  {{from = "{one}", to = "{other}"}},\n' for one, other in links]
    return (
        f"version = 1\nslots = {slots}\nrouters = [{quoted(routers)}]\nnis = [{quoted(interfaces)}]\n"
        f"link = [\n{''.join(lines)}]\n"
    )


def grid(columns, rows, wraps, name="r{}".format):
    """The routers of a mesh or a torus, row by row, and its pairs."""
    at = lambda x, y: name(y * columns + x)
    pairs = []
    for y in range(rows):
        for x in range(columns):
            if x + 1 < columns or wraps:
                pairs.append((at(x, y), at((x + 1) % columns, y)))
            if y + 1 < rows or wraps:
                pairs.append((at(x, y), at(x, (y + 1) % rows)))
    return [name(number) for number in range(columns * rows)], pairs


def app(cores, ends, per=64, detour=2):
    """An application with a core at each interface, and a connection for each pair of cores."""
    seats = ", ".join(f'{{name = "k{number}", ni = "n{number}"}}' for number in range(cores))
    parts = [f"version = 1\ndetour = {detour}\ncore = [ {seats} ]\n"]
    for number, (one, other) in enumerate(ends):
        wish = "latency = 400, delay = 0}"
        parts.append(
            f'[[connection]]\nname = "c{number}"\nfrom = "k{one}"\nto = "k{other}"\n'
            f"fwd = {{words = 1, per = {per}, {wish}\nback = {{words = 0, per = 1, {wish}\n"
        )
    names = ", ".join(f'"c{number}"' for number in range(len(ends)))
    return "".join(parts) + f'[[use]]\nname = "main"\nconnections = [{names}]\n'
