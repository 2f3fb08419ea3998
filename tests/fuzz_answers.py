"""Owns the answers of the program in the fuzzer: each is had once, since it rests on the words and on the texts of the files
alone. A case runs in a process of its own, which hands its answers on."""
from collections import OrderedDict
from dataclasses import dataclass
from hashlib import sha256
from pathlib import Path
from typing import TypeAlias
import os
import pickle
import subprocess

from home import PROGRAM

MOST_KEPT = 4_000
MOST_TEXT = 100_000  # of an answer that is kept
Key: TypeAlias = tuple[bytes, ...]


@dataclass(frozen=True)
class Ran:
    """How a program or a script ended, and what it wrote."""

    status: int
    out: bytes
    errors: str


kept: OrderedDict[Key, Ran] = OrderedDict()


def key_of(words: list[str]) -> Key | None:
    """The words with the texts of the files in place of their paths; none where a path is that of something else."""
    parts = []
    for word in words:
        if not word.startswith("/"):
            parts.append(b"word " + os.fsencode(word))
        elif not os.path.isfile(word):
            return None
        else:
            parts.append(b"file " + sha256(Path(word).read_bytes()).digest())
    return tuple(parts)


def keep(key: Key, ran: Ran) -> None:
    """Keeps an answer in place of the one that was used longest ago."""
    kept[key] = ran
    kept.move_to_end(key)
    if len(kept) > MOST_KEPT:
        kept.popitem(last=False)


def program(words: list[str], folder: Path | None = None, pass_fds: tuple[int, ...] = (), notes: Path | None = None) -> Ran:
    """How the program itself answers; a new answer is noted in a file, if one is named."""
    try:
        key = key_of(words)
    except (OSError, ValueError):
        key = None
    if key in kept and key is not None:
        return kept[key]
    try:
        ran = subprocess.run(
            [str(PROGRAM), *words], capture_output=True, check=False, cwd=folder, stdin=subprocess.DEVNULL, pass_fds=pass_fds)
    except OSError as error:
        return Ran(126, b"", str(error))
    told = Ran(ran.returncode, ran.stdout, ran.stderr.decode("utf-8", "replace"))
    if key is not None and len(told.out) <= MOST_TEXT:
        keep(key, told)
        if notes:
            with open(notes, "ab", buffering=0) as file:
                file.write(pickle.dumps((key, told)))
    return told


def take(notes: Path) -> None:
    """Keeps the answers that a process has noted."""
    if notes.exists():
        with notes.open("rb") as file:
            while file.peek(1):
                keep(*pickle.load(file))


class Calls:
    """What stands in place of the module `subprocess` where the scripts call the program."""

    PIPE, DEVNULL, Popen = subprocess.PIPE, subprocess.DEVNULL, subprocess.Popen

    def __init__(self, notes: Path) -> None:
        self.notes = notes

    def run(self, words: list[str], pass_fds: tuple[int, ...] = (), **_: bool) -> "subprocess.CompletedProcess[bytes]":
        """As `subprocess.run` answers."""
        told = program(words[1:], None, tuple(pass_fds), self.notes)
        if told.status == 126:
            raise OSError(0, told.errors)
        return subprocess.CompletedProcess(words, told.status, told.out, told.errors.encode())
