"""The public calls of a crate with their clauses, read off its sources."""
import dataclasses
import pathlib
import re


@dataclasses.dataclass(frozen=True)
class Clause:
    kind: str
    name: str
    says: str


@dataclasses.dataclass(frozen=True)
class Call:
    name: str
    takes: str
    clauses: tuple[Clause, ...]
    is_law: bool


def plain(text: str) -> str:
    """A text with single spaces, without comments."""
    text = re.sub(r"//.*", "", text)
    return re.sub(r"\s+", " ", text).strip()


def within_braces(text: str, at: int) -> int:
    """The place behind the brace that closes the one at a place."""
    depth = 0
    for place in range(at, len(text)):
        depth += {"{": 1, "}": -1}.get(text[place], 0)
        if depth == 0:
            return place + 1
    raise ValueError(text[at:])


def clauses_from(text: str, at: int) -> tuple[Clause, ...]:
    """The clauses that stand one after the other from a place on."""
    clauses = []
    form = re.compile(r"(?:\s|//[^\n]*\n)*(requires|ensures)(?: (\w+))? \{")
    while found := form.match(text, at):
        at = within_braces(text, found.end() - 1)
        clauses.append(Clause(found[1], found[2] or "", plain(text[found.end():at - 1])))
    return tuple(clauses)


def calls_in(text: str, is_law: bool) -> list[Call]:
    """The public functions of a source, a method behind its type."""
    calls = []
    form = re.compile(r"^( *)(pub )?fn (\w+)(?:<.*?>)?\(([^)]*)\)((?:\s*->\s*[^{;]*?)?)(?=\s*(?:requires|ensures|//|\{|;))", re.M)
    for found in form.finditer(text):
        owner = ""
        if found[1]:
            before = re.findall(r"^(?:impl(?:<[^ ]*?>)? (?:\w+ for )?(\w+)|pub trait (\w+))", text[:found.start()], re.M)
            owner = "".join(before[-1]) + "::" if before else ""
            heads = re.findall(r"^(impl.*|pub trait.*) \{", text[:found.start()], re.M)
            if not found[2] and not (heads and heads[-1].startswith("pub trait")):
                continue
        elif not found[2]:
            continue
        takes = plain(f"({found[4]}){found[5]}").replace("( ", "(").replace(", )", ")")
        calls.append(Call(owner + found[3], takes, clauses_from(text, found.end()), is_law))
    return calls


def calls_of(crate: pathlib.Path) -> list[Call]:
    """The calls that a crate gives out: methods of its public types, and functions that its root names."""
    root = (crate / "src/lib.rt").read_text()
    given = set(re.findall(r"\w+", " ".join(re.findall(r"^pub use ([^;]*);", root, re.M))))
    found = []
    for source in sorted(crate.glob("src/**/*.rt")):
        is_law = source.name == "laws.rt"
        for call in calls_in(source.read_text(), is_law):
            if call.name.split("::")[0] in given or (is_law and "pub mod laws" in root):
                found.append(call)
    return found
