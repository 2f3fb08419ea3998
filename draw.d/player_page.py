"""Owns the player as a part of a page, and the page that has it alone: one HTML text that needs nothing else.

The player's elements stand in a template and its data compressed, and neither costs anything until it is opened. It stands in a
tree of its own then, so that its style and its names stay within it.
"""
from base64 import b64encode
from collections.abc import Sequence
from dataclasses import dataclass
from html import escape
import pathlib
import zlib

from svg import DARK, GROUNDS, LIGHT, PLAIN, colour_rules

HERE = pathlib.Path(__file__).resolve().parent
SCRIPTS = ("player_model.js", "player_chart.js", "player_texts.js", "player.js")
READABLE = 0.7  # of its full size: the map is never narrower than that where it is to be readable

PAGE_STYLE = """
:root{color-scheme:light dark;--ink:#1b1f24;--ground:#fff}
@media screen and (prefers-color-scheme:dark){:root{--ink:#e8eaed;--ground:#14171a}}
body{font:15px/1.5 system-ui,sans-serif;color:var(--ink);background:var(--ground);margin:0;padding:.6rem 1rem}
h1{font-size:1.2rem;margin:.2rem 0;overflow-wrap:anywhere}
@media print{body{padding:0}}
"""


@dataclass(frozen=True)
class Player:
    """The player of a report: its packed data and the full width of its map, where it has room; and what is told beside it."""

    packed: str
    width: int
    told: str


def text_of(name: str) -> str:
    return (HERE / name).read_text(encoding="utf-8")


def own_colours(colours: Sequence[tuple[str, str]]) -> str:
    """The colours of connections, for what isn't drawn with a stroke."""
    return "".join(f".k{place}{{--own:{colour};--on:{on_it}}}" for place, (colour, on_it) in enumerate(colours))


def style_of(width: int) -> str:
    """The style of a player whose map has a full width."""
    light = colour_rules(GROUNDS["light"], LIGHT) + own_colours(LIGHT)
    dark = colour_rules(GROUNDS["dark"], DARK) + own_colours(DARK)
    sizes = f":host{{--full:{width}px;--least:{round(READABLE * width)}px}}"
    return f"<style>{sizes}{PLAIN}{light}\n@media screen and (prefers-color-scheme:dark){{{dark}}}\n{text_of('player.css')}</style>"


def packed(text: str) -> str:
    return b64encode(zlib.compress(text.encode(), 9)).decode("ascii")


def player_parts(packed_data: str, width: int) -> str:
    """What stands of a player in a page: its elements, its data and its script."""
    script = "".join(map(text_of, SCRIPTS))
    return (
        f'<template id="player-parts">{style_of(width)}{text_of("player.html")}</template>\n'
        f'<script type="application/zlib" id="player-data">{packed_data}</script>\n<script>{script}</script>'
    )


def player_page(title: str, data: str, width: int) -> str:
    """The page of a player alone."""
    name = escape(title)
    return (
        '<!DOCTYPE html>\n<html lang="en"><head><meta charset="utf-8">'
        f'<meta name="viewport" content="width=device-width, initial-scale=1">\n<title>{name}</title><style>{PAGE_STYLE}</style></head>'
        f'<body><h1>{name}</h1><main id="stage"></main><noscript><p>The player needs JavaScript.</p></noscript>\n'
        f"{player_parts(packed(data), width)}\n"
        '<script>openPlayer(document.getElementById("stage"), true).catch(error => {\n'
        "  document.getElementById(\"stage\").textContent = `This browser can't show the player: ${error.message}`;\n"
        "});</script></body></html>\n"
    )
