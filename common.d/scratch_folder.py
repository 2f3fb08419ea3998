"""A folder for a script's own files, which is removed at the end, also where a signal ends the script."""
from collections.abc import Iterator
from contextlib import contextmanager
from pathlib import Path
from types import FrameType
import os
import signal
import tempfile

SIGNALS = (signal.SIGHUP, signal.SIGINT, signal.SIGTERM)


class Signalled(BaseException):
    """A signal that ends the script."""

    def __init__(self, number: int) -> None:
        super().__init__(number)
        self.number = number


def end_by(number: int, _: FrameType | None) -> None:
    """Ends the script, by a signal that no further one breaks off."""
    for each in SIGNALS:
        signal.signal(each, signal.SIG_IGN)
    raise Signalled(number)


@contextmanager
def scratch_folder(prefix: str) -> Iterator[Path]:
    """Such a folder. A signal that would end the script at once ends it when the folder is removed, with the same status."""
    kept = [each for each in SIGNALS if signal.getsignal(each) == signal.SIG_DFL]
    for each in kept:
        signal.signal(each, end_by)
    try:
        with tempfile.TemporaryDirectory(prefix=prefix, ignore_cleanup_errors=True) as folder:
            yield Path(folder)
    except Signalled as came:
        signal.signal(came.number, signal.SIG_DFL)
        os.kill(os.getpid(), came.number)
        raise
    finally:
        for each in kept:
            signal.signal(each, signal.SIG_DFL)
