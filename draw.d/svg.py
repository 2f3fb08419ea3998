"""Owns the elements of an SVG picture, texts that fit their room, and the colours."""
from collections.abc import Iterable, Sequence
from typing import NamedTuple, TypeAlias
from xml.sax.saxutils import escape, quoteattr

from design import COLOURS

Number: TypeAlias = int | float

LETTER = 0.62  # the width of a letter for a size of 1, about, in the fonts without serifs that browsers take
ELLIPSIS = "\u2026"
ARROW = "\u2192"
MARGIN = 24
MOST_WIDTH = 900  # of a line of sentences


def number(value: Number) -> str:
    """A length with one decimal at most."""
    return f"{value:.1f}".rstrip("0").rstrip(".") if isinstance(value, float) else str(value)


def tag(name: str, *children: str, **attributes: str | Number) -> str:
    """An element. In the names of attributes `_` stands for `-`, and at the end for nothing."""
    words = [name]
    for key, value in attributes.items():
        text = value if isinstance(value, str) else number(value)
        words.append(f"{key.rstrip('_').replace('_', '-')}={quoteattr(text)}")
    inner = "".join(children)
    return f"<{' '.join(words)}>{inner}</{name}>" if inner else f"<{' '.join(words)}/>"


def title(text: str) -> str:
    """What a screen reader says of the element around it, and what shows where the pointer rests on it."""
    return f"<title>{escape(text)}</title>"


def count(many: int, thing: str) -> str:
    return f"{many:,} {thing}" if many == 1 else f"{many:,} {thing}s"


def plural(word: str, items: Sequence[object]) -> str:
    return word if len(items) == 1 else f"{word}s"


def decimal(value: Number | None) -> str:
    """A number with one decimal at most."""
    return "" if value is None else f"{value:,.1f}".removesuffix(".0")


def text_width(text: str, size: Number) -> float:
    return len(text) * size * LETTER


def fit(text: str, width: Number, size: Number) -> str:
    """The text, or its beginning and its end where it is wider than the room for it: names often differ there."""
    room = max(3, int(width / (size * LETTER)))
    if len(text) <= room:
        return text
    end = (room - 1) // 2
    return text[: room - 1 - end] + ELLIPSIS + text[len(text) - end :]


def label(text: str, x: Number, y: Number, class_: str | None = None, width: Number | None = None, size: Number = 11) -> str:
    """A line of text from x on. Where a width is given, it is fitted, and the whole text is its title."""
    shown = fit(text, width, size) if width else text
    whole = title(text) if shown != text else ""
    kind = f' class="{class_}"' if class_ else ""
    return f'<text x="{number(x)}" y="{number(y)}"{kind}>{escape(shown)}{whole}</text>'


def wrapped(text: str, width: Number, size: Number) -> list[str]:
    """The lines of a text, broken between words."""
    room, lines = int(width / (size * LETTER)), [""]
    for word in text.split(" "):
        if lines[-1] and len(lines[-1]) + 1 + len(word) > room:
            lines.append(word)
        else:
            lines[-1] = f"{lines[-1]} {word}".strip()
    return lines


class Sentence(NamedTuple):
    """A sentence below the name of a picture, with the class of its text."""

    text: str
    kind: str | None = None


class Part(NamedTuple):
    """Some elements of a picture, and the lowest edge of them."""

    elements: list[str]
    bottom: float


def head(name: str, sentences: Iterable[Sentence], width: Number) -> Part:
    """The name of a picture and the sentences below it."""
    parts, y = [label(name, MARGIN, MARGIN + 14, "head", width, 18)], MARGIN + 36
    for sentence in sentences:
        for line in wrapped(sentence.text, min(width, MOST_WIDTH), 11):
            parts.append(label(line, MARGIN, y, sentence.kind))
            y += 15
        y += 3
    return Part(parts, y)


# Eight colours for a light ground and eight for a dark one, each with the colour of numbers that stand on it. Any two
# are well apart, for those too who lack the cones for red, green or blue: their distance in OKLab is 0.15 at least.
LIGHT = [
    ("#dd4400", "#fff"), ("#3300ff", "#fff"), ("#eeaa11", "#000"), ("#110022", "#fff"),
    ("#99aaff", "#000"), ("#880000", "#fff"), ("#996699", "#fff"), ("#440088", "#fff"),
]
DARK = [
    ("#ff6622", "#000"), ("#3366ff", "#fff"), ("#ffdd00", "#000"), ("#aaffee", "#000"),
    ("#77bbff", "#000"), ("#aa3311", "#fff"), ("#aa7799", "#000"), ("#774499", "#fff"),
]
assert len(LIGHT) == len(DARK) == COLOURS

PLAIN = """
svg{font-family:system-ui,sans-serif;font-size:11px}
path{fill:none}
.head{font-size:18px;font-weight:bold}.bold{font-weight:bold}.mid{text-anchor:middle}.end{text-anchor:end}
.small{font-size:9px}
"""


class Ground(NamedTuple):
    """The colours of one ground: behind all, of texts, of lesser texts, of free slots, of boxes, of lines, and of slots that
    are in use by others."""

    behind: str
    ink: str
    lesser: str
    free: str
    box: str
    line: str
    grey: str


GROUNDS = {
    "light": Ground("#fff", "#1b1f24", "#59636e", "#e3e6ea", "#f3f5f7", "#7d8794", "#b4bbc4"),
    "dark": Ground("#14171a", "#e8eaed", "#a3abb5", "#2b3036", "#1e2226", "#8b95a1", "#525a64"),
}


def colour_rules(ground: Ground, colours: list[tuple[str, str]]) -> str:
    """The rules of one ground and of the colours on it."""
    rules = f"svg:root{{background:{ground.behind}}}.ground{{fill:{ground.behind}}}text{{fill:{ground.ink}}}"
    rules += f".less{{fill:{ground.lesser}}}.free{{stroke:{ground.free}}}.other path,.other{{stroke:{ground.grey}}}"
    rules += f".box{{fill:{ground.box};stroke:{ground.line}}}.line,.core{{stroke:{ground.line}}}"
    rules += f".tip{{fill:{ground.line}}}.c .way{{stroke:{ground.ink}}}"
    for place, (colour, on_it) in enumerate(colours):
        rules += f".k{place} path{{stroke:{colour}}}.k{place} .on{{fill:{on_it}}}"
    return rules


def style(more: str) -> str:
    """The style sheet: colours for both grounds, and what a kind of picture adds. On paper the ground is light, and the whole
    picture stands on its page."""
    dark = f"@media screen and (prefers-color-scheme:dark){{{colour_rules(GROUNDS['dark'], DARK)}}}"
    exact = "@media print{@page{margin:1cm}svg:root{min-width:0!important;max-height:96vh;print-color-adjust:exact}}"
    return tag("style", escape(PLAIN + colour_rules(GROUNDS["light"], LIGHT) + more + "\n" + dark + "\n" + exact + "\n"))


READABLE = 0.55  # of its full size: a picture is never narrower than that


class Picture(NamedTuple):
    """A whole picture, as a text, with its full size."""

    text: str
    width: int
    height: int


def picture(width: Number, height: Number, name: str, tells: str, rules: str, parts: list[str]) -> Picture:
    """A whole picture with its name and what it tells, one part a line. It is as wide as there is room, up to its full
    size, and down to the least at which it can be read."""
    least = f"max-width:100%;min-width:{number(round(width * READABLE))}px;height:auto"
    inner = [tag("title", escape(name), id="name"), tag("desc", escape(tells), id="tells"), style(rules)]
    inner.append(tag("rect", class_="ground", width="100%", height="100%"))
    text = tag(
        "svg", "\n" + "\n".join(inner + parts) + "\n",
        xmlns="http://www.w3.org/2000/svg", width=width, height=height, viewBox=f"0 0 {number(width)} {number(height)}",
        style=least, role="graphics-document", aria_labelledby="name tells",
    )
    return Picture(text + "\n", round(width), round(height))
