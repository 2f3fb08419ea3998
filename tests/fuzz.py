#!/usr/bin/env python3
"""Turns files and words, and gives them to each command of `design` and `draw`.

tests/fuzz.py [--count N] [--first N] [--seed N] [--jobs N] [--only SCRIPT:COMMAND]... [--case N] [--keep FOLDER]

N cases of each command (1,000), from a first one on (0), of a seed (1), on all processors. A case fails where a script ends with a status that its page
hasn't, with more than a line of its own, with a trace of Python's, with a letter that a terminal obeys, after a minute of work, or
without `aeth`'s status and lines where `aeth` refused its files; and where what it makes isn't accepted. A case that fails
is told with its number, by which --only and --case do it again, and its files and texts are kept in a folder.

Each case is a process of its own, in which the script's modules are loaded already, and which calls the program directly.
"""
from collections.abc import Sequence
from dataclasses import dataclass
from multiprocessing import get_context
from pathlib import Path
from types import CodeType
import argparse
import gc
import importlib
import json
import os
import shutil
import signal
import sys
import tempfile
import traceback
import xml.etree.ElementTree as ElementTree

sys.dont_write_bytecode = True
TOP = Path(__file__).resolve().parent.parent
sys.path[:0] = [str(TOP / "tests")]

from fuzz_answers import Calls, Ran, program, take  # noqa: E402: its folder is told above
from fuzz_cases import COMMANDS, Case, Command, bases, made  # noqa: E402
from home import PROGRAM  # noqa: E402

SECONDS = 60  # of a processor, of a case
MOST_SECONDS = 600  # in which it ends, on a machine that has much else to do
MOST_MEMORY = 4 << 20  # KB, of a case
MOST_SHOWN = 400
TOO_MUCH = 1_000  # as a status: it took more memory or time
STATUSES = {0, 1, 2, 3, 4}
UNWRITTEN = 5  # where a folder may be one that can't be made
BOUNDED = "keys and values other than strings"  # a file of more is accepted by nobody, or can't be read here


@dataclass(frozen=True)
class Numbered:
    """A command, and the number of a case of it."""

    command: Command
    number: int


@dataclass(frozen=True)
class Task:
    """Some cases of a script, with what all cases stand on."""

    script: str
    cases: list[Numbered]
    seed: int
    keep: Path
    known: list[dict[str, bytes]]


def play(code: CodeType, case: Case) -> Ran:
    """How the script ends with the words of a case: in a process of its own."""
    out, errors, notes = case.folder / "out", case.folder / "errors", case.folder / "answers"
    child = os.fork()
    if child == 0:
        try:
            for stream, path in enumerate((Path(os.devnull), out, errors)):
                os.dup2(os.open(path, os.O_RDONLY if not stream else os.O_WRONLY | os.O_CREAT | os.O_TRUNC), stream)
            signal.signal(signal.SIGALRM, signal.SIG_DFL)
            signal.alarm(MOST_SECONDS)
            os.chdir(case.folder)
            setattr(sys.modules["program"], "subprocess", Calls(notes))
            sys.argv = [str(TOP / case.command.script), case.command.name, *case.words]
            exec(code, {"__name__": "__main__", "__file__": sys.argv[0], "__doc__": None})  # what a script is
            os._exit(0)
        except SystemExit as ended:
            os._exit(ended.code if isinstance(ended.code, int) else 1 if ended.code else 0)
        except BaseException:  # as Python itself does
            os.write(2, traceback.format_exc().encode())
            os._exit(1)
    _, ended, used = os.wait4(child, 0)
    take(notes)
    is_much = used.ru_maxrss > MOST_MEMORY or used.ru_utime + used.ru_stime > SECONDS
    status = TOO_MUCH if is_much else os.waitstatus_to_exitcode(ended)
    return Ran(status, out.read_bytes(), errors.read_bytes().decode("utf-8", "replace"))


def has_no_words(case: Case) -> bool:
    """Whether some call of `aeth` on the files has words that are none of `aeth`'s, as a name that isn't UTF-8."""
    return any(program(words, case.folder).status == 1 for words in case.judging())


def why_unlike(case: Case, ran: Ran) -> str:
    """What is wrong with how a script ended, beside what `aeth` says of its files; nothing where nothing is."""
    if case.command.title == "design:where":
        told = program(case.words, case.folder)
        own = "".join(line + "\n" for line in ran.errors.split("\n")[:-1] if not line.startswith("  "))
        return "" if (ran.status, own, ran.out) == (told.status, told.errors, told.out) else f"`aeth` says {told}"
    if case.is_short:
        return ""
    for words in case.judging():
        told = program(words, case.folder)
        if told.status > 1:
            if case.command.name == "report" and words[0] == "check" and not case.files["plan"] and ran.status == 0:
                return ""
            errors = ran.errors[: len(told.errors)] if case.command.says_more else ran.errors
            is_same = (ran.status, errors) == (told.status, told.errors)
            if is_same or ran.status == 1 and (case.is_odd or has_no_words(case)):
                return ""
            return f"`aeth {words[0]}` says {told}"
    return ""


def why_not_made(case: Case, ran: Ran) -> str:
    """What is wrong with what a script has made, where something is."""
    if ran.status or len(ran.out) > 2_000_000 or {"--help", "-h"} & set(case.words):
        return ""
    if case.command.makes == "picture":
        try:
            ElementTree.fromstring(ran.out)
        except ElementTree.ParseError as error:
            return f"no picture: {error}"
    if case.command.makes == "app" and "chip" in case.given:
        told = program(["app", case.given["chip"], str(case.folder / "out")], case.folder)
        # (a name that isn't UTF-8 is no word of the program, to which the script hands a copy: status 1)
        return "" if told.status in (0, 1) else f"no application: {told.errors}"
    if case.command.makes == "chip":
        told = program(["chip", str(case.folder / "out")], case.folder)
        return "" if told.status == 0 else f"no chip: {told.errors}"
    return ""


def why_wrong(case: Case, ran: Ran) -> str:
    """What is wrong with how a script ended; nothing where nothing is."""
    lines = ran.errors.split("\n")
    statuses = STATUSES | ({UNWRITTEN} if "FOLDER" in case.given else set())
    if "Traceback" in ran.errors or "fault of the script" in ran.errors:
        return "a fault of the script"
    if ran.status not in statuses and not (ran.status == 7 and BOUNDED in ran.errors):
        return f"status {ran.status}"
    if lines[-1] or not all(line.isprintable() for line in lines):
        return "a letter that can't be shown, or no end of a line"
    if "can't be told" in ran.errors and BOUNDED not in ran.errors:
        return "something isn't told"
    unlike = why_unlike(case, ran)
    if unlike:
        return unlike
    if ran.status == 1 and not case.is_odd and case.command.name != "where" and len(lines) != 2:
        return "no line, or more than one"
    return why_not_made(case, ran)


def load(script: str) -> CodeType:
    """Loads the modules of a script, with the program itself in place of what builds it, and gives its code."""
    sys.path[:0] = [str(TOP / folder) for folder in (f"{script}.d", "common.d", "draw.d", "design.d")]
    for folder in (f"{script}.d", "common.d"):
        for file in sorted((TOP / folder).glob("*.py")):
            module = importlib.import_module(file.stem)
            if hasattr(module, "AETH"):
                setattr(module, "AETH", PROGRAM)
            if file.stem == "program":
                setattr(module, "built", lambda: PROGRAM)
    return compile((TOP / script).read_bytes(), str(TOP / script), "exec")


def work(task: Task) -> list[str]:
    """Does cases of a script one after the other, and tells those that fail."""
    failed, code = [], load(task.script)
    gc.freeze()  # what stands now is never looked through again, nor copied in each process
    with tempfile.TemporaryDirectory(prefix="fuzz-") as name:
        for it in task.cases:
            folder = Path(name) / "case"
            shutil.rmtree(folder, ignore_errors=True)
            folder.mkdir()
            case = made(it.command, it.number, task.seed, folder, task.known)
            ran = play(code, case)
            why = why_wrong(case, ran)
            if why:
                kept = task.keep / f"{task.script}-{it.command.name}-{it.number}"
                shutil.rmtree(kept, ignore_errors=True)
                shutil.copytree(folder, kept)
                words = [case.command.name, *case.words]
                (kept / "case.json").write_text(json.dumps({"words": words, "status": ran.status, "why": why}))
                told = f"case {it.number} of seed {task.seed}: {why[:MOST_SHOWN]}: {ran.errors[-MOST_SHOWN:]!r}"
                failed.append(f"{it.command.title} {told}")
    return failed


@dataclass(frozen=True)
class Summary:
    """The cases that failed, as lines, and how many were tried."""

    failed: list[str]
    tried: int


def fuzz(numbers: Sequence[int], seed: int, jobs: int, keep: Path, only: Sequence[str] = ()) -> Summary:
    """Tries the cases of some numbers, of all commands or some."""
    tasks, tried, known = [], 0, bases()
    for script in dict.fromkeys(command.script for command in COMMANDS):
        chosen = [it for it in COMMANDS if it.script == script and (not only or {it.title, script} & set(only))]
        cases = [Numbered(command, number) for number in numbers for command in chosen]
        tried += len(cases)
        parts = max(1, min(len(cases), 8 * jobs))
        tasks += [Task(script, cases[part::parts], seed, keep, known) for part in range(parts) if cases]
    with get_context("fork").Pool(jobs, maxtasksperchild=1) as pool:
        failed = []
        for lines in pool.imap_unordered(work, tasks):
            failed += lines
            for line in lines:
                print(line, flush=True)
    return Summary(failed, tried)


def main() -> int:
    words = argparse.ArgumentParser(description=__doc__, formatter_class=argparse.RawDescriptionHelpFormatter)
    for name, default in (("--count", 1_000), ("--first", 0), ("--seed", 1), ("--jobs", os.cpu_count() or 1), ("--case", None)):
        words.add_argument(name, type=int, default=default)
    words.add_argument("--only", action="append", default=[])
    words.add_argument("--keep", type=Path, default=Path(tempfile.gettempdir()) / "fuzz-kept")
    given = words.parse_args()
    if PROGRAM is None:
        print("there is no built program")
        return 1
    numbers = range(given.first, given.first + given.count) if given.case is None else [given.case]
    found = fuzz(numbers, given.seed, given.jobs, given.keep, given.only)
    failed = len(found.failed)
    print(f"{found.tried:,} cases of seed {given.seed}, {failed:,} failed" + (f": kept in {given.keep}" if failed else ""))
    return 1 if failed else 0


if __name__ == "__main__":
    sys.exit(main())
