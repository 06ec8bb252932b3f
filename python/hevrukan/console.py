"""What the commands say on standard error and write to standard output."""

from __future__ import annotations

import os
import re
import sys
import time
from typing import Iterable


class Failure(Exception):
    """A command can't go on: what to say, and the status."""

    def __init__(self, text: str, status: int = 1) -> None:
        super().__init__(text)
        self.status = status


def put(rows: Iterable[str]) -> None:
    """Writes lines to standard output."""
    try:
        for row in rows:
            sys.stdout.write(row + "\n")
        sys.stdout.flush()
    except OSError as error:
        # what is still to be written must not fail a second time when Python ends
        os.dup2(os.open(os.devnull, os.O_WRONLY), sys.stdout.fileno())
        raise Failure(f"writing to standard output: {error.strerror}")


class Progress:
    """How many lines were read so far, on standard error where that is a terminal and the output goes elsewhere."""

    # it stands on the terminal now
    stands = False

    def __init__(self) -> None:
        self.on = bool(sys.stderr and sys.stderr.isatty() and sys.stdout and not sys.stdout.isatty())
        self._shown = time.monotonic()

    def show(self, lines: int) -> None:
        """Shows it, after a second or a hundred thousand lines."""
        if not self.on or lines % 1000 or lines % 100_000 and time.monotonic() < self._shown + 1:
            return
        sys.stderr.write(f"\rhevrukan: lines so far: {lines}")
        sys.stderr.flush()
        Progress.stands, self._shown = True, time.monotonic()


def say(text: str) -> None:
    """A message: one line, whatever a file is called. Nothing can be done where standard error can't be written."""
    if sys.stderr is None:
        return
    before = "\r" + 40 * " " + "\r" if Progress.stands else ""
    Progress.stands = False
    text = re.sub(r"[\x00-\x1f\x7f]", "?", text)
    try:
        print(f"{before}hevrukan: {text}", file=sys.stderr, flush=True)
    except OSError:
        pass
