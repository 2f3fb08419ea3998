"""Which word of a command can't be right, where `aeth` answers `usage`."""
from collections.abc import Sequence
import re

from ending import printable, shortened

WORDS = {
    "slots": "SIZE NEED GAP FREE",
    "server": "SIZE NEED LINKS SLOTS",
    "chip": "CHIP",
    "app": "CHIP APP",
    "allocate": "CHIP APP",
    "check": "CHIP APP PLAN",
    "explain": "CHIP APP [CERT]",
    "tables": "CHIP APP PLAN USE",
    "route-tables": "CHIP APP PLAN USE",
    "simulate": "CHIP APP PLAN WORDS RECEIVERS SWITCHES CYCLES [TURN]",
    "simulate-tables": "CHIP APP PLAN WORDS RECEIVERS SWITCHES CYCLES [TURN]",
    "links": "CHIP APP PLAN WORDS RECEIVERS SWITCHES CYCLES",
    "audit": "CHIP APP PLAN SWITCHES LOG CYCLES",
    "chain": "CHIP APP PLAN USE CHAIN WORDS RECEIVERS CYCLES",
    "demo": "N",
}
NUMBERS = {
    "SIZE": (1, 128), "NEED": (1, 128), "GAP": (0, 4_096), "LINKS": (2, 32),
    "CYCLES": (1, 1_000_000), "TURN": (0, 1_000_000), "N": (0, 1_000_000),
}
MOST_CYCLES_OF_LINKS = 10_000
MOST_ITEMS = 16  # of a chain
MOST_WORK = 4_096
NAME = "[a-z0-9_]{1,32}"


def number(word: str) -> int | None:
    """What a word of plain decimals says, or none."""
    return int(word) if re.fullmatch("0|[1-9][0-9]{0,9}", word) else None


def wrong_number(command: str, name: str, word: str) -> str | None:
    low, high = NUMBERS[name]
    if (command, name) == ("links", "CYCLES"):
        high = MOST_CYCLES_OF_LINKS
    found = number(word)
    if found is None:
        return f"a number from {low} to {high:,}, in digits alone and without a 0 at the front"
    return None if low <= found <= high else f"{low} to {high:,}"


def wrong_slots(word: str, size: int) -> str | None:
    """What is wrong with a list of slots of a table."""
    slots = [] if word == "-" else [size if slot is None else slot for slot in map(number, word.split(","))]
    if slots == sorted(set(slots)) and all(slot < size for slot in slots):
        return None
    return f"a rising list of slots below {size} with commas, or - for none"


def wrong_chain(word: str) -> str | None:
    """What is wrong with a chain."""
    *items, last = [item.split(":") for item in word.split(",")]
    ends = all(re.fullmatch(NAME, item[0]) and item[1:2] in (["fwd"], ["back"]) for item in (*items, last))
    works = all(len(item) == 3 and 1 <= (number(item[2]) or 0) <= MOST_WORK for item in items)
    if ends and works and len(last) == 2 and len(items) < MOST_ITEMS:
        return None
    return f"1 to {MOST_ITEMS} items CONN:SIDE:WORK with commas, the last one CONN:SIDE, with WORK from 1 to {MOST_WORK:,}"


def wrong_word(command: str, name: str, word: str, words: dict[str, str]) -> str | None:
    """What a word has to be, where it isn't so."""
    if name in NUMBERS:
        return wrong_number(command, name, word)
    if name in ("FREE", "SLOTS"):
        return wrong_slots(word, int(words["SIZE"]))
    if name == "CHAIN":
        return wrong_chain(word)
    if name == "USE":
        return None if re.fullmatch(NAME, word) else "a name: 1 to 32 of a-z, 0-9 and _"
    return None if word else "the path of a file"


def shown(word: str) -> str:
    """A word as it can be shown."""
    return shortened(printable(word))


def usage(words: Sequence[str]) -> list[str]:
    """The first word that can't be right, or their number, and the page that tells more."""
    if not words or words[0] not in WORDS:
        named = f"There is no command `{shown(words[0])}`" if words and words[0] != "help" else "These words are no command"
        return [f"{named}: `./aeth help` lists them."]
    command, given = words[0], words[1:]
    names = WORDS[command].split(" ")
    page = f"`./aeth help {command}` tells more."
    if not sum(name[0] != "[" for name in names) <= len(given) <= len(names):
        verb = "is" if len(given) == 1 else "are"
        wanted = "word" if len(names) == 1 else "words"
        return [f"The {wanted} of `{command}` must be {WORDS[command]}, and {len(given) or 'none'} {verb} given: {page}"]
    by_name = dict(zip((name.strip("[]") for name in names), given))
    for name, word in by_name.items():
        wrong = wrong_word(command, name, word, by_name)
        if wrong:
            return [f"{name} is `{shown(word)}`, and must be {wrong}. {page}"]
    return [f"A word isn't as `{command}` has it: {page}"]
