"""Calls of the program `aeth`, and the files that it is given, each of which is read once.

A file may be one that gives its bytes once only, as a pipe does. So each is read once, and `aeth` gets copies in memory. What
was asked of `aeth` isn't asked again: its answer rests on its words and on the bytes of its files alone.
"""
from collections.abc import Iterator, Sequence
from functools import cache, cached_property
from hashlib import blake2b
import io
import os
import pathlib
import subprocess

from asking import Answer, Asking
from ending import NOT_RUN, UNWRITTEN, Passed, Stop, shortened
from progress import silence

HOME = pathlib.Path(__file__).resolve().parent.parent
AETH = HOME / "aeth"
PROGRAM = HOME / "out/aeth"  # which this script keeps, and runs
MOST_BYTES = 33_554_432  # of a file that `aeth` reads; of a longer one a byte more is enough for its refusal


class Input:
    """A file's bytes, and the path under which `aeth` finds a copy of them. Where the file can't be read `unread` says why,
    and the path is its own, of which `aeth` then says so."""

    def __init__(self, path: str) -> None:
        self.name, self.path = path, path
        self.data, self.unread = b"", ""
        self.copy: int | None = None
        try:
            with open(path, "rb") as file:
                self.data = file.read(MOST_BYTES + 1)
        except OSError as error:
            self.unread = error.strerror or "it can't be read"
            return
        except ValueError:  # a zero byte, which no path has
            self.unread = "no path has a zero byte"
            return
        self.keep()

    def keep(self) -> None:
        """Makes the copy."""
        try:
            self.copy = os.memfd_create("input")
            with open(self.copy, "wb", closefd=False) as file:
                file.write(self.data)
        except OSError as error:
            raise Stop(UNWRITTEN, f"a copy of {shortened(self.name)} can't be kept: {error.strerror}") from error
        self.path = f"/proc/self/fd/{self.copy}"

    @cached_property
    def mark(self) -> str:
        """What tells the file's bytes from those of others; of a file that can't be read its path."""
        return self.path if self.unread else blake2b(self.data).hexdigest()

    def __del__(self) -> None:
        copy = getattr(self, "copy", None)
        if copy is not None:
            os.close(copy)


def made(name: str, text: str) -> Input:
    """A text as a file that `aeth` can be given, though it stands nowhere."""
    given = Input.__new__(Input)
    given.name, given.unread, given.copy = name, "", None
    given.data = text.encode()
    given.keep()
    return given


Word = str | pathlib.Path | int | Input
asking = Asking()


@cache
def built() -> pathlib.Path:
    """The program, once `aeth` has seen in this command that it is that of the sources. Where it isn't, it is built first: what
    that says stands on standard error at once, since it takes long."""
    try:
        with silence():
            status = subprocess.run([str(AETH), "--prove-only"], stdout=subprocess.DEVNULL, check=False).returncode
    except OSError as error:
        raise Stop(NOT_RUN, f"{AETH} can't be run: {error.strerror}") from error
    if status:
        raise Passed(status, "")
    return PROGRAM


def spelled(words: Sequence[Word]) -> list[str]:
    return [word.path if isinstance(word, Input) else str(word) for word in words]


def copies_of(words: Sequence[Word]) -> list[int]:
    return [word.copy for word in words if isinstance(word, Input) and word.copy is not None]


def told_by(called: pathlib.Path, words: Sequence[Word]) -> Answer:
    """What a program answers to words. One that a signal ended has the status that a shell gives it, 128 and more."""
    try:
        run = subprocess.run([str(called), *spelled(words)], capture_output=True, pass_fds=copies_of(words), check=False)
    except OSError as error:
        raise Stop(NOT_RUN, f"{AETH} can't be run: {error.strerror}") from error
    except ValueError as error:
        raise Stop(NOT_RUN, f"{AETH} can't be run: a word has a zero byte") from error
    status = run.returncode if run.returncode >= 0 else 128 - run.returncode
    return Answer(status, run.stdout.decode("utf-8", "replace"), run.stderr.decode("utf-8", "replace"))


def question_of(words: Sequence[Word]) -> tuple[str, ...]:
    return tuple(word.mark if isinstance(word, Input) else str(word) for word in words)


def answer(*words: Word) -> Answer:
    """What `aeth` answers to words. A file that is named by its path may be another one when it is asked again."""
    called = built()
    if any(isinstance(word, pathlib.Path) for word in words):
        return told_by(called, words)
    return asking.answer(question_of(words), lambda: told_by(called, words))


def text_of(*words: Word) -> str:
    """What `aeth` prints of words. Where it ends with another status than 0, the script ends so, with its own lines."""
    told = answer(*words)
    if told.status:
        raise Passed(told.status, told.errors)
    return told.text


def lines_of(*words: Word) -> Iterator[str]:
    """What `aeth` prints of words, line by line as it comes, for texts that memory can't hold. Where `aeth` ends with another
    status than 0, the script ends so, with its own lines; a text that isn't read to its end is broken off."""
    called = built()
    if asking.known(question_of(words)):
        yield from io.StringIO(text_of(*words))
        return
    try:
        run = subprocess.Popen(
            [str(called), *spelled(words)], stdout=subprocess.PIPE, stderr=subprocess.PIPE, pass_fds=copies_of(words)
        )
    except OSError as error:
        raise Stop(NOT_RUN, f"{AETH} can't be run: {error.strerror}") from error
    except ValueError as error:
        raise Stop(NOT_RUN, f"{AETH} can't be run: a word has a zero byte") from error
    with run:
        assert run.stdout and run.stderr
        try:
            yield from map(bytes.decode, run.stdout)
            errors = run.stderr.read().decode("utf-8", "replace")
            if run.wait():
                raise Passed(run.returncode if run.returncode > 0 else 128 - run.returncode, errors)
        finally:
            run.kill()
