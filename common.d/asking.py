"""Questions that the program was asked, with its answers: each question is asked once, even where several ask it at once."""
from collections.abc import Callable
from concurrent.futures import Future
from dataclasses import dataclass
from threading import Lock

MOST_KEPT = 1 << 24  # letters of all answers that are kept


@dataclass(frozen=True)
class Answer:
    """What `aeth` answers: its status, and what it writes to standard output and to standard error."""

    status: int
    text: str
    errors: str

    @property
    def letters(self) -> int:
        return len(self.text) + len(self.errors)


class Asking:
    """The answers, by their questions. Where they have too many letters those that came first are forgotten."""

    def __init__(self) -> None:
        self.lock = Lock()
        self.answers: dict[tuple[str, ...], Future[Answer]] = {}
        self.letters = 0

    def answer(self, question: tuple[str, ...], ask: Callable[[], Answer]) -> Answer:
        """The answer to a question, which is asked where it wasn't yet."""
        with self.lock:
            is_new = question not in self.answers
            found = self.answers.setdefault(question, Future())
        if is_new:
            try:
                told = ask()
            except BaseException as error:
                self.forget(question)
                found.set_exception(error)
            else:
                self.keep(question, told)
                found.set_result(told)
        return found.result()

    def known(self, question: tuple[str, ...]) -> Answer | None:
        """The answer to a question, if it is kept."""
        with self.lock:
            found = self.answers.get(question)
        return found.result() if found else None

    def forget(self, question: tuple[str, ...]) -> None:
        with self.lock:
            del self.answers[question]

    def keep(self, question: tuple[str, ...], told: Answer) -> None:
        """Makes room for an answer, if there may be so much."""
        if told.letters > MOST_KEPT:
            self.forget(question)
            return
        with self.lock:
            self.letters += told.letters
            for old in [old for old, other in self.answers.items() if other.done()]:
                if self.letters <= MOST_KEPT:
                    break
                self.letters -= self.answers.pop(old).result().letters
