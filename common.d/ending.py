"""How a script ends: with a status and at most a line that says why, whatever fails, and never with Python's own trace."""
from collections.abc import Callable, Sequence
from dataclasses import dataclass
import contextlib
import os
import pathlib
import re
import sys

NO_WORDS = 1  # the words are none of the script's
REFUSED = 2  # a file breaks a rule
UNREAD = 4  # a file can't be read
UNWRITTEN = 5  # what was asked for can't be written
NO_MEMORY = 6
UNTOLD = 7  # a file that `aeth` accepts can't be read by the script
FAULT = 70  # a fault of the script itself
NOT_RUN = 126  # `aeth` can't be run
BROKEN_OFF = 130  # by the user
MOST_LETTERS = 1_000  # of a line that says why


at_end: list[Callable[[], None]] = []  # what is done when the work is over, before anything is written


class Stop(Exception):
    """Ends a script: with a status and a line that says why. The line is empty where `aeth` has said it."""

    def __init__(self, status: int, why: str = "") -> None:
        super().__init__(why)
        self.status, self.why = status, why


class Passed(Stop):
    """Ends a script as `aeth` ended: with its status, and with its own lines as they are."""

    def __init__(self, status: int, lines: str) -> None:
        super().__init__(status, "")
        self.lines = lines


@dataclass(frozen=True)
class Result:
    """What a script gives: a text for standard output, a status, and lines for standard error."""

    text: str = ""
    status: int = 0
    errors: str = ""


def seen(letter: str) -> str:
    """A letter as it can be shown: one that moves the cursor, has no width or is half a pair is spelled with a backslash."""
    if letter.isprintable():
        return letter
    number = ord(letter)
    return f"\\x{number:02x}" if number < 0x100 else f"\\u{number:04x}" if number < 0x10000 else f"\\U{number:08x}"


def printable(text: str) -> str:
    """A text as one line that a terminal shows and doesn't obey."""
    return text if text.isascii() and text.isprintable() else "".join(map(seen, text))


def shortened(text: str, most: int = 100) -> str:
    """A text, or where it is long its beginning and how long it is."""
    return text if len(text) <= most else f"{text[:most]}.. ({len(text):,} letters)"


def page_of(page: str, script: str, command: str) -> str:
    """The paragraphs of a page of help that are about one command: its line `SCRIPT COMMAND ..`, and what stands below it."""
    found = re.search(rf"(?ms)^{re.escape(script)} {re.escape(command)}\b.*?(?=^\S)", page + "\n.")
    return found.group().rstrip() + "\n" if found else page


def asks_for_help(words: Sequence[str]) -> bool:
    """Whether words of a command ask for its page."""
    return any(word in ("--help", "-h") for word in words)


def open_streams() -> list[int]:
    """Gives a closed standard stream something to stand on, so that no other file takes its number, and says which."""
    closed = []
    for stream in range(3):
        try:
            os.fstat(stream)
        except OSError:
            closed.append(stream)
            os.set_inheritable(os.open(os.devnull, os.O_RDWR), True)
    return closed


def write(text: str, what: str, closed: Sequence[int] = ()) -> None:
    """Writes a whole text to standard output, or stops and says why it can't."""
    data = memoryview(text.encode("ascii", "xmlcharrefreplace") if text.isascii() else text.encode("utf-8", "backslashreplace"))
    try:
        if 1 in closed and data:
            raise OSError(0, "it is closed")
        while data:
            data = data[os.write(1, data) :]
    except OSError as error:
        raise Stop(UNWRITTEN, f"{what} can't be written: {error.strerror}") from error


def tell(lines: str) -> None:
    """Writes lines to standard error, if they can be written."""
    data = memoryview(lines.encode("utf-8", "backslashreplace"))
    with contextlib.suppress(OSError):
        while data:
            data = data[os.write(2, data) :]


def fault_of(error: BaseException) -> str:
    """What a fault of the script says: its kind, and where it comes from."""
    at = error.__traceback__
    while at and at.tb_next:
        at = at.tb_next
    place = f"{pathlib.Path(at.tb_frame.f_code.co_filename).name}:{at.tb_lineno}" if at else "?"
    return (
        f"this is a fault of the script, {type(error).__name__} in {place}: please report it, with these words and files; "
        f"{shortened(printable(str(error)), 60)}"
    ).removesuffix("; ")


def line_of(script: str, why: str) -> str:
    """The line of a script that says why it stopped, if anything does."""
    return f"{script}: {printable(shortened(why, MOST_LETTERS))}\n" if why else ""


def done(work: Callable[[list[str]], Result], words: list[str]) -> Result:
    """What the work of a script gives, with what is to be done behind it."""
    try:
        return work(words)
    finally:
        for action in at_end:
            action()


def ended(script: str, work: Callable[[list[str]], Result], words: list[str]) -> int:
    """Does the work of a script with its words, writes what it gives, and tells the status with which to end."""
    closed = open_streams()
    try:
        result = done(work, words)
        write(result.text, "what was asked for", closed)
        tell(result.errors)
        return result.status
    except Passed as passed:
        tell(passed.lines)
        return passed.status
    except Stop as stop:
        tell(line_of(script, stop.why))
        return stop.status
    except KeyboardInterrupt:
        return BROKEN_OFF
    except MemoryError:
        tell(f"{script}: memory is wanting\n")
        return NO_MEMORY
    except Exception as error:  # the last catch
        tell(f"{script}: {fault_of(error)}\n")
        return FAULT


def end(script: str, work: Callable[[list[str]], Result]) -> None:
    """Runs a script with the words of its command line, and ends the process."""
    os._exit(ended(script, work, sys.argv[1:]))  # all is written: nothing is left that may fail
