"""The sentences of documents and of pages of help, and how many words each has."""
import ast
from collections.abc import Iterator
import pathlib
import re

MOST_WORDS = 30
ITEM = re.compile(r"^\s*(?:[-*]|\d+\.)\s+")


def blocks(page: str) -> Iterator[str]:
    """The paragraphs, items, headings and cells of a document, without its code."""
    block: list[str] = []
    for line in re.sub(r"^ *```.*?^ *```$", "", page, flags=re.M | re.S).splitlines():
        starts = line.startswith(("|", "#")) or ITEM.match(line)
        if block and (starts or not line.strip()):
            yield " ".join(block)
            block = []
        if line.startswith("|"):
            yield from re.split(r"(?<!\\)\||; ", line.strip("|"))  # a cell may be a list
        elif line.startswith("#"):
            yield line.strip("# ")
        elif line.strip() and (block or not line.startswith("    ")):
            block.append(ITEM.sub("", line, count=1).strip())
    if block:
        yield " ".join(block)


def help_blocks(page: str) -> Iterator[str]:
    """The paragraphs of a page of help and what it says of words, without commands and what they print."""
    block: list[str] = []
    for line in page.splitlines():
        told = re.match(r" +\S.*?(?: {2,}| \\$)(.*)", line)
        if told or not line.strip() or re.match(r" *(?:aeth|design|draw) [a-zA-Z]| *\[--|  \S+$|  \./|      \S", line):
            yield " ".join(block)
            block = [told[1]] if told else []
        if not told and not re.match(r" *(?:aeth|design|draw) [a-zA-Z]| *\[--|  \./", line):
            block.append(line.strip())
    yield " ".join(block)


def sentences(found: Iterator[str]) -> Iterator[str]:
    """The sentences of blocks. A link is its words, and a piece of code one word."""
    for block in found:
        plain = re.sub(r"`[^`]*`", "code", re.sub(r"!?\[([^]]*)\]\([^)]*\)", r"\1", block))
        yield from re.split(r"(?<=[.!?])[)*]*\s+", plain)


def too_long(found: Iterator[str]) -> list[str]:
    """Those with more words than a reader takes in at once."""
    counted = ((len(re.findall(r"\S*\w\S*", sentence)), sentence) for sentence in sentences(found))
    return [f"{count} words: {sentence}" for count, sentence in counted if count > MOST_WORDS]


def docstring(script: pathlib.Path) -> str:
    """The page of help of a script, which stands at its head."""
    return ast.get_docstring(ast.parse(script.read_text())) or ""
