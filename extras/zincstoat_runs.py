"""What both companions share around a run: the program they start, files that are new, refusals and progress."""

from __future__ import annotations

import argparse
import os
import sys
import time
from contextlib import contextmanager
from pathlib import Path
from typing import Iterator, NoReturn, Optional

# Exit statuses that the program itself doesn't have.
USAGE, BAD_TEXT, NO_PROGRAM, NO_OUTPUT, CHANGED, STOPPED = 64, 65, 70, 73, 74, 130


class Failed(Exception):
    """An end with a status that isn't 0."""

    def __init__(self, status: int, why: str):
        super().__init__(why)
        self.status = status


def say(what: str) -> None:
    """Tells something on standard error."""
    print(f"{Path(sys.argv[0]).name}: {what}", file=sys.stderr)


class Parser(argparse.ArgumentParser):
    """A parser whose refusals have a status of their own: 2 is one of the program's."""

    def error(self, message: str) -> NoReturn:
        """Refuses the words."""
        self.print_usage(sys.stderr)
        self.exit(USAGE, f"{self.prog}: {message}\n")


def program_of(asked: Optional[str]) -> str:
    """The program that is started: the one that is asked for, else the one that stands beside this file or above its
    folder, else the one that the system finds."""
    here = Path(__file__).resolve().parent
    beside = [folder / "zincstoat" for folder in (here, here.parent)]
    return asked or next((str(path) for path in beside if path.is_file() and os.access(path, os.X_OK)), "zincstoat")


def check_new(path: str) -> None:
    """A file is never written over."""
    for there in (path, path + ".part"):
        if path != "-" and os.path.lexists(there):
            raise Failed(NO_OUTPUT, f"{there} is there already, and nothing is written over")


@contextmanager
def made(path: str) -> Iterator[Path]:
    """A new file, which has its name only once all of it is written: until then `.part` stands behind it."""
    part = Path(path + ".part")
    try:
        part.touch(exist_ok=False)
    except OSError as error:
        raise Failed(NO_OUTPUT, f"{part} can't be made: {error.strerror}") from None
    try:
        yield part
    except BaseException:
        say(f"what was written before stands in {part}")
        raise
    part.rename(path)


class Progress:
    """How far a run is, in place on a terminal, and nowhere else."""

    def __init__(self) -> None:
        self.shown = sys.stderr.isatty()
        self.begun = self.next = time.monotonic()

    def tell(self, what: str) -> None:
        """Shows where the run is, twice a second at most."""
        now = time.monotonic()
        if self.shown and now >= self.next:
            self.next = now + 0.5
            print(f"\r{what}, {now - self.begun:.0f} s \033[K", end="", file=sys.stderr, flush=True)

    def end(self) -> None:
        """Takes the line back."""
        if self.shown:
            print("\r\033[K", end="", file=sys.stderr, flush=True)
