"""The commands state, explain and stats: what they take, read and write. Messages begin with "hevrukan:"."""

from __future__ import annotations

import os
import re
import sys
from typing import IO, Dict, Iterable, Iterator, List, NoReturn, Optional

from . import __version__
from .console import Failure, Progress, put, say
from .controller import Controller
from .explain import explained
from .help import HELP
from .hints import why_unread
from .names import Word
from .recording import MOST_LINES, Row, lines_of
from .stats import Stats
from .watch import Seen, Watch


class Given:
    """What a command was given: its words, the values of its options, or the wish for help."""

    def __init__(self) -> None:
        self.words: List[str] = []
        self.options: Dict[str, List[str]] = {"--only": [], "--id": [], "--buffer": []}
        self.help = False


class Checked(Exception):
    """What was given is right, and no more was asked: the library isn't built yet."""


class Reading:
    """A recording that is read: its lines, and the counts that close a replay."""

    check_only = False

    def __init__(self, words: List[str]) -> None:
        name = words[0] if words else "-"
        self.name = "standard input" if name == "-" else name or "''"
        self.read = self.unread = self.refused = self.dropped = 0
        self._progress = Progress()
        if self.check_only and name == "-":
            raise Checked
        self._lines = self._checked(lines_of(self._open(name)))
        if self.check_only:
            raise Checked

    def _open(self, name: str) -> IO[bytes]:
        try:
            if name != "-":
                file = open(name, "rb")
            elif sys.stdin is None:
                raise Failure("standard input: Bad file descriptor")
            else:
                file = sys.stdin.buffer
                if sys.stdin.isatty():
                    # progress would stand where the next line is typed
                    self._progress.on = False
                    say("reading the recording from the terminal; Ctrl-D ends it")
            # a directory opens, and is found when it is read
            file.peek(1)
            return file
        except OSError as error:
            raise Failure(f"{self.name}: {error.strerror}")

    def _checked(self, lines: Iterator[bytes]) -> Iterator[bytes]:
        try:
            yield from lines
        except OSError as error:
            raise Failure(f"{self.name}: {error.strerror}")

    def upto(self, most: int) -> Iterator[bytes]:
        """So many of the lines."""
        while self.read < most:
            line = next(self._lines, None)
            if line is None:
                return
            self.read += 1
            self._progress.show(self.read)
            yield line

    def count(self, row: Row) -> None:
        """Counts a row, and says of the first unread line why it is."""
        self.refused += row.word is Word.REFUSED
        if row.word is Word.UNREAD:
            self.unread += 1
            if self.unread == 1:
                say(f"line {row.number} unread: {why_unread(row.line)}")

    def drop(self) -> None:
        """Counts the lines past the limit."""
        self.dropped = sum(1 for _ in self._lines)

    def tell(self) -> None:
        """The closing line, as that of a replay: what was read and what of it had no effect. It says that all was written."""
        counts = f"lines read {self.read}, unread {self.unread}, refused {self.refused}, dropped {self.dropped}"
        say(f"replayed: {counts}")


def watched(reading: Reading, watch: Watch) -> Iterator[Seen]:
    """Each row of the whole recording."""
    for seen in watch.rows(reading.upto(MOST_LINES)):
        reading.count(seen.row)
        yield seen
    reading.drop()


def parse(command: str, words: List[str]) -> Given:
    """The arguments of a command."""

    def refuse(what: str) -> NoReturn:
        raise Failure(f"{command}: {what}; ./hevrukan {command} -h says more", 2)

    given = Given()
    left = iter(words)
    for word in left:
        name, equals, value = word.partition("=")
        if word in ("-h", "--help"):
            given.help = True
            return given
        if word == "--":
            given.words += left
        elif word == "-" or word[:1] != "-":
            given.words.append(word)
        elif command != "explain" or name not in given.options:
            refuse(f"there is no option '{name}'")
        elif not equals and (value := next(left, "")) == "":
            refuse(f"{name} wants a value")
        else:
            given.options[name] += value.split(",")
    most = 2 if command == "state" else 1
    if len(given.words) > most:
        refuse(f"too many words: '{given.words[most]}'")
    return given


def state(given: Given) -> None:
    """./hevrukan state"""
    line = given.words[1] if len(given.words) == 2 else None
    if line is not None and not re.fullmatch(r"[0-9]{1,6}", line):
        raise Failure(f"state: LINE is a number from 0, for reset, to {MOST_LINES}, not '{line}'", 2)
    if line is None and given.words and given.words[0].isdigit() and not os.path.exists(given.words[0]):
        raise Failure(f"{given.words[0]}: No such file or directory; LINE stands behind FILE, which is - for standard input")
    reading = Reading(given.words)
    c = Controller()
    for row in c.replay(reading.upto(MOST_LINES if line is None else int(line))):
        reading.count(row)
    if line is not None and reading.read < int(line):
        raise Failure(f"{reading.name}: there is no line {int(line)}; it has {reading.read} lines")
    if line is None:
        reading.drop()
    put(c.state().rows())
    reading.tell()


def explain(given: Given) -> None:
    """./hevrukan explain"""
    only = set(given.options["--only"])
    unknown = sorted(only - {str(word) for word in Word})
    if unknown:
        raise Failure(f"explain: --only: there is no answer '{unknown[0]}'; the answers are {', '.join(map(str, Word))}", 2)
    identifiers = set(map(_identifier, given.options["--id"]))
    buffers = set(map(_buffer, given.options["--buffer"]))
    reading, watch = Reading(given.words), Watch()

    def rows() -> Iterator[str]:
        for seen in watched(reading, watch):
            if only and seen.row.word not in only:
                continue
            row = explained(seen, watch.controller)
            if (not identifiers or row.identifier in identifiers) and (not buffers or buffers & row.buffers):
                yield row.text

    put(rows())
    reading.tell()


def _identifier(text: str) -> int:
    found = re.fullmatch(r"(?:\$|0x)?([0-9A-Fa-f]{1,2})", text)
    if not found:
        raise Failure(f"explain: --id wants an identifier in hex, such as 21, not '{text}'", 2)
    return int(found[1], 16)


def _buffer(text: str) -> int:
    if not re.fullmatch(r"[0-9]|1[0-5]", text):
        raise Failure(f"explain: --buffer wants a buffer's number, 0 to 15, not '{text}'", 2)
    return int(text)


def stats(given: Given) -> None:
    """./hevrukan stats"""
    counts, reading, watch = Stats(), Reading(given.words), Watch()
    for seen in watched(reading, watch):
        counts.add(seen)
    put(counts.rows())
    reading.tell()


COMMANDS = {"state": state, "explain": explain, "stats": stats}


def main(words: Optional[List[str]] = None) -> int:
    """Runs a command; the status."""
    words = sys.argv[1:] if words is None else words
    # for the script, which says what is wrong before it builds the library
    Reading.check_only = words[:1] == ["--check"]
    words = words[1:] if Reading.check_only else words
    command = words[0] if words else ""
    try:
        if sys.stdout is None:
            raise Failure("standard output: Bad file descriptor")
        if command in COMMANDS:
            given = parse(command, words[1:])
            if given.help:
                put([HELP[command]])
            else:
                COMMANDS[command](given)
        elif command in ("-h", "--help"):
            put([HELP[""]])
        elif command == "--version":
            put([f"hevrukan {__version__}"])
        else:
            raise Failure(f"there is no command '{command}'; -h lists them" if command else "which command? -h lists them", 2)
    except Checked:
        return 0
    except Failure as failure:
        say(str(failure))
        return failure.status
    except OSError as error:
        say(str(error))
        return 1
    return 0
