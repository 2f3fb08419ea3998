"""A reader of TOML 1.1 that also tells on which line each key and each item stands.

Python's own `tomllib` reads TOML 1.0 and tells no lines. This one is for files that `aeth` reads: it reads each that `aeth`
does, and leaves the judging of tables that stand twice to `aeth`. What it reads has a bounded size beside the text: a file
that `aeth` accepts has few values but for strings.
"""
from collections.abc import Iterator
from datetime import date, time
from itertools import islice
from typing import Any, NoReturn
import math
import re

Tree = dict[str, Any]
Path = tuple[str | int, ...]

MOST_DEPTH = 80  # of arrays and inline tables, one within another; and the parts of a key
MOST_VALUES = 200_000  # keys, and values other than strings; what is accepted has less than a tenth

# Python before 3.11.5 goes on from a wrong place where a turn of a group with `*+` or `++` fails behind a repeat or beside an
# assertion. So the turns of such groups are plain letters and sets here.
BLANK = re.compile(r"[ \t]*")
COMMENT = re.compile(r"#[^\x00-\x08\x0a-\x1f\x7f]*")
GAP = re.compile(r"(?:[ \t\n]++|#[^\x00-\x08\x0a-\x1f\x7f]*+)*+")
BARE = re.compile(r"[A-Za-z0-9_-]+")
BASIC = r'"(?:[^"\\\x00-\x08\x0a-\x1f\x7f]|\\[^\n])*+"'
LITERAL = r"'[^'\x00-\x08\x0a-\x1f\x7f]*+'"
STRING = re.compile(f"{BASIC}|{LITERAL}")
EACH_STRING = re.compile(rf"{GAP.pattern}(?!\"\"\"|''')({BASIC}|{LITERAL}){GAP.pattern},")
LETTER = r'[^"\\\x00-\x08\x0b-\x1f\x7f]'
SPELLED = r"\\[^\x00]"
PLAIN = r"[^'\x00-\x08\x0b-\x1f\x7f]"
LONG = {
    '"""': re.compile(
        rf'"""\n?((?:{LETTER}|{SPELLED}|"{LETTER}|"{SPELLED}|""{LETTER}|""{SPELLED})*+"{{0,2}})"""(?!")'),
    "'''": re.compile(rf"'''\n?((?:{PLAIN}|'{PLAIN}|''{PLAIN})*+'{{0,2}})'''(?!')"),
}
ESCAPE = re.compile(r"\\(?:x([0-9A-Fa-f]{2})|u([0-9A-Fa-f]{4})|U([0-9A-Fa-f]{8})|([ \t]*\n[ \t\n]*)|(.?))", re.S)
ESCAPES = {"b": "\b", "t": "\t", "n": "\n", "f": "\f", "r": "\r", "e": "\x1b", '"': '"', "\\": "\\"}
DIGITS = "[0-9](?:_[0-9]|[0-9])*+"
DECIMAL = "(?:0|[1-9](?:_[0-9]|[0-9])*+)"
NUMBER = re.compile(
    "(?P<based>0x[0-9A-Fa-f](?:_[0-9A-Fa-f]|[0-9A-Fa-f])*+|0o[0-7](?:_[0-7]|[0-7])*+|0b[01](?:_[01]|[01])*+)"
    rf"|(?P<float>[+-]?(?:inf|nan|{DECIMAL}(?:\.{DIGITS}(?:[eE][+-]?{DIGITS})?|[eE][+-]?{DIGITS})))"
    f"|(?P<decimal>[+-]?{DECIMAL})"
)
DAY = "([0-9]{4}-[0-9]{2}-[0-9]{2})"
HOUR = r"([0-9]{2}:[0-9]{2}(?::[0-9]{2}(?:\.[0-9]+)?)?)"
MOMENT = re.compile(f"{DAY}(?:[Tt ]{HOUR}(?:[Zz]|[+-]([0-9]{{2}}:[0-9]{{2}}))?)?|{HOUR}")
LEAST, GREATEST = -(1 << 63), (1 << 63) - 1


class TomlError(ValueError):
    """A text that is no TOML, or that has more than is read here."""

    def __init__(self, why: str, line: int | None) -> None:
        super().__init__(f"{why} (at line {line})" if line else why)
        self.why, self.line = why, line


class Moment(str):
    """A date or a time, as it is spelled."""

    def __repr__(self) -> str:
        return str(self)


class Place:
    """Where a key or an item begins, and where those within it do."""

    __slots__ = ("at", "inside", "strings")

    def __init__(self, at: int) -> None:
        self.at = at
        self.inside: dict[str | int, Place] = NOTHING
        self.strings: tuple[int, int, int] | None = None  # how many strings an array begins with, and from where to where

    def put(self, key: str | int, at: int) -> "Place":
        """The place within this one, which is made where there is none."""
        if self.inside is NOTHING:
            self.inside = {}
        found = self.inside.get(key)
        if found is None:
            found = self.inside[key] = Place(at)
        return found


NOTHING: dict[str | int, Place] = {}


class Lines:
    """The line, from 1 on, of each path of keys and places."""

    def __init__(self, text: str, top: Place) -> None:
        self.text, self.top = text, top

    def get(self, path: Path) -> int | None:
        """The line of a path; none of the root, and of one that the file hasn't."""
        if not path:
            return None
        at, place = 0, self.top
        for depth, key in enumerate(path):
            if place.strings and isinstance(key, int) and key < place.strings[0]:
                if depth + 1 < len(path):
                    return None
                each = islice(EACH_STRING.finditer(self.text, *place.strings[1:]), key, None)
                at = next(each).start(1)
                break
            found = place.inside.get(key)
            if found is None:
                return None
            at, place = found.at, found
        return self.text.count("\n", 0, at) + 1

    def __contains__(self, path: Path) -> bool:
        return self.get(path) is not None

    def __getitem__(self, path: Path) -> int:
        line = self.get(path)
        if line is None:
            raise KeyError(path)
        return line


class Reader:
    """A place in a text, and what was read so far."""

    def __init__(self, text: str) -> None:
        self.text = text.replace("\r\n", "\n")
        self.at = 0
        self.root: Tree = {}
        self.top = Place(0)
        self.opened: set[int] = set()  # tables that a header has opened
        self.many: set[int] = set()  # arrays whose tables have headers
        self.closed: set[int] = set()  # tables that stand within braces
        self.values = 0
        self.kept: dict[str, str] = {}  # what strings on one line say, by their spelling

    def stop(self, why: str, at: int | None = None) -> NoReturn:
        at = self.at if at is None else at
        raise TomlError(why, self.text.count("\n", 0, at) + 1)

    def counted(self) -> None:
        self.values += 1
        if self.values > MOST_VALUES:
            raise TomlError(f"it has more than {MOST_VALUES:,} keys and values other than strings, and isn't read further", None)

    def peek(self, width: int = 1) -> str:
        return self.text[self.at : self.at + width]

    def skip(self, kind: re.Pattern[str]) -> None:
        found = kind.match(self.text, self.at)
        if found:
            self.at = found.end()

    def expect(self, word: str, tells: str = "") -> None:
        if not self.text.startswith(word, self.at):
            self.stop(f"{tells or f'`{word}`'} is missing")
        self.at += len(word)

    def end_line(self) -> None:
        self.skip(BLANK)
        self.skip(COMMENT)
        if self.at < len(self.text):
            self.expect("\n", "the end of the line")

    def document(self) -> tuple[Tree, Lines]:
        table, place = self.root, self.top
        self.skip(GAP)
        while self.at < len(self.text):
            if self.peek() == "[":
                table, place = self.header()
            else:
                self.pair(table, place, 0)
            self.end_line()
            self.skip(GAP)
        return self.root, Lines(self.text, self.top)

    def header(self) -> tuple[Tree, Place]:
        """A table's header, or that of a further table of an array."""
        start, many = self.at, self.peek(2) == "[["
        self.at += 2 if many else 1
        self.skip(BLANK)
        keys = self.dotted()
        self.expect("]]" if many else "]")
        table, place = self.root, self.top
        for key in keys[:-1]:
            table, place = self.entered(table, place, key, start)
        last = keys[-1]
        if not many:
            table, place = self.entered(table, place, last, start)
            if id(table) in self.opened:
                self.stop(f"the table `{last}` stands twice", start)
            self.opened.add(id(table))
            return table, place
        items = table.setdefault(last, [])
        if isinstance(items, list) and not items:
            self.many.add(id(items))
        if not isinstance(items, list) or id(items) not in self.many:
            self.stop(f"`{last}` is no array of tables", start)
        self.counted()
        items.append({})
        return items[-1], place.put(last, start).put(len(items) - 1, start)

    def entered(self, table: Tree, place: Place, key: str, at: int) -> tuple[Tree, Place]:
        """The table of a key within a table, which is made where there is none: of an array its last one."""
        inner = place.put(key, at)
        value = table.get(key)
        if value is None:
            value = table[key] = {}
        if isinstance(value, list) and id(value) in self.many:
            return value[-1], inner.put(len(value) - 1, at)
        if not isinstance(value, dict) or id(value) in self.closed:
            self.stop(f"`{key}` is no table that may have more keys here", at)
        return value, inner

    def dotted(self) -> list[str]:
        keys = [self.key()]
        self.skip(BLANK)
        while self.peek() == ".":
            self.at += 1
            self.skip(BLANK)
            keys.append(self.key())
            if len(keys) > MOST_DEPTH:
                self.stop(f"a key has more than {MOST_DEPTH} parts")
            self.skip(BLANK)
        return keys

    def key(self) -> str:
        self.counted()
        if self.peek() in ("'", '"'):
            return self.one_line()
        found = BARE.match(self.text, self.at)
        if not found:
            self.stop("a key is missing")
        self.at = found.end()
        return found.group()

    def pair(self, table: Tree, place: Place, depth: int) -> None:
        start, keys = self.at, self.dotted()
        self.expect("=")
        self.skip(BLANK)
        for key in keys[:-1]:
            table, place = self.entered(table, place, key, start)
        if keys[-1] in table:
            self.stop(f"the key `{keys[-1]}` stands twice", start)
        table[keys[-1]] = self.value(place.put(keys[-1], start), depth)

    def value(self, place: Place, depth: int) -> Any:
        first = self.peek()
        if first in ("'", '"'):
            return self.string()
        self.counted()
        if first in ("[", "{"):
            if depth == MOST_DEPTH:
                self.stop("arrays or inline tables stand too deep")
            return self.array(place, depth + 1) if first == "[" else self.inline_table(place, depth + 1)
        for word, value in (("true", True), ("false", False)):
            if self.text.startswith(word, self.at):
                self.at += len(word)
                return value
        return self.scalar()

    def scalar(self) -> Any:
        moment = MOMENT.match(self.text, self.at)
        if moment:
            self.judge(moment)
            self.at = moment.end()
            return Moment(moment.group())
        found = NUMBER.match(self.text, self.at)
        if not found:
            self.stop("a value is missing")
        text, value = found.group().replace("_", ""), 0
        if found["float"]:
            number = float(text)
            if math.isinf(number) and "inf" not in text:
                self.stop(f"the number {shown(text)} is past 64 bits")
            self.at = found.end()
            return number
        if found["based"]:
            value = int(text, 0)
        else:
            value = int(text) if len(text) < 30 else GREATEST + 1
        if not LEAST <= value <= GREATEST:
            self.stop(f"the number {shown(text)} is past 64 bits")
        self.at = found.end()
        return value

    def judge(self, moment: re.Match[str]) -> None:
        """Stops where a date or a time can't be: Python's own know the days of months."""
        day, hour, zone, lone = moment.groups()
        try:
            if day and day[:4] != "0000":
                date.fromisoformat(day)
            for text in filter(None, (hour, lone, zone)):
                time.fromisoformat(text[:5] + text[5:8].replace(":60", ":59"))
        except ValueError:
            self.stop(f"there is no {moment.group()}")

    def array(self, place: Place, depth: int) -> list[Any]:
        self.at += 1
        items: list[Any] = self.strings(place)
        self.skip(GAP)
        while self.peek() != "]":
            items.append(self.value(place.put(len(items), self.at), depth))
            self.skip(GAP)
            if self.peek() != ",":
                break
            self.at += 1
            self.skip(GAP)
        self.expect("]", "`,` or `]`")
        return items

    def strings(self, place: Place) -> list[str]:
        """The strings with which an array begins, up to the last comma behind one, all at once."""
        items: list[str] = []
        start, kept = self.at, self.kept
        while each := EACH_STRING.match(self.text, self.at):
            said = kept.get(each[1])
            items.append(self.unescaped(each[1], each.start(1)) if said is None else said)
            self.at = each.end()
        if items:
            place.strings = len(items), start, self.at
        return items

    def inline_table(self, place: Place, depth: int) -> Tree:
        self.at += 1
        table: Tree = {}
        self.skip(GAP)
        while self.peek() != "}":
            self.pair(table, place, depth)
            self.skip(GAP)
            if self.peek() != ",":
                break
            self.at += 1
            self.skip(GAP)
        self.expect("}", "`,` or `}`")
        self.closed.add(id(table))
        return table

    def string(self) -> str:
        quotes = self.peek(3)
        if quotes not in LONG:
            return self.one_line()
        found = LONG[quotes].match(self.text, self.at)
        if not found:
            self.stop("a string has no end, or a letter that none may have")
        start, self.at = self.at, found.end()
        return self.with_letters(found[1], start) if quotes == '"""' else found[1]

    def one_line(self) -> str:
        found = STRING.match(self.text, self.at)
        if not found:
            self.stop("a string has no end on its line, or a letter that none may have")
        start, self.at = self.at, found.end()
        return self.unescaped(found.group(), start)

    def unescaped(self, spelled: str, at: int) -> str:
        """What a string on one line says, by its spelling with its quotes."""
        said = spelled[1:-1]
        if spelled[0] == '"' and "\\" in said:
            said = self.with_letters(said, at, one_line=True)
        return self.kept.setdefault(spelled, said)

    def with_letters(self, said: str, at: int, one_line: bool = False) -> str:
        """A text with the letters that its backslashes spell."""

        def letter(found: re.Match[str]) -> str:
            digits = found[1] or found[2] or found[3]
            if digits:
                number = int(digits, 16)
                if number > 0x10FFFF or 0xD800 <= number < 0xE000:
                    self.stop(f"`{found.group()}` is no letter", at)
                return chr(number)
            if found[4] is not None and not one_line:
                return ""
            if found[5] not in ESCAPES:
                self.stop(f"`{found.group()}` is no letter", at)
            return ESCAPES[found[5]]

        return ESCAPE.sub(letter, said)


def shown(text: str) -> str:
    """A number as it is spelled, or where it is long its beginning."""
    return text if len(text) <= 30 else f"{text[:20]}.. of {len(text):,} letters"


def read(data: bytes) -> tuple[Tree, Lines]:
    """The tree of a file's bytes, and the line of each path of keys and places in it."""
    try:
        text = data.decode("utf-8")
    except UnicodeDecodeError as error:
        raise TomlError("the bytes aren't UTF-8", data.count(b"\n", 0, error.start) + 1) from error
    return Reader(text.removeprefix("\ufeff")).document()


def paths_of(value: Any) -> Iterator[tuple[Path, Any]]:
    """Each path of a tree with what stands there, the outer ones first."""
    waiting: list[tuple[Path, Any]] = [((), value)]
    while waiting:
        path, value = waiting.pop()
        yield path, value
        inner = value.items() if isinstance(value, dict) else enumerate(value) if isinstance(value, list) else ()
        waiting += [(path + (key,), item) for key, item in inner]
