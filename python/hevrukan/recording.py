"""A recording: its lines as steps, by document 01's grammar, and their replay, a row a line.

>>> from hevrukan import Controller
>>> for row in Controller.replay(["W\\t50\\t50", "R\\t50", "W\\t0A\\t00", "w\\t50\\t40"]):
...     print(str(row).replace("\\t", " "), row.step)
1 ok - 00 0 Step(letter='W', first=80, second=80, frame=b'')
2 read 50 00 0 Step(letter='R', first=80, second=0, frame=b'')
3 refused 03 00 0 Step(letter='W', first=10, second=0, frame=b'')
4 unread - 00 0 None
"""

from __future__ import annotations

import os
import re
from typing import IO, TYPE_CHECKING, Callable, Iterable, Iterator, NamedTuple, Optional, Type, Union

from .names import Sync, Word

if TYPE_CHECKING:
    from .controller import Controller

Line = Union[str, bytes]
Lines = Union[Iterable[Line], "os.PathLike[str]"]

#: The heading of a report.
HEADING = "line\tanswer\tdetail\tirq\tlooked"
#: At most so many lines of a recording are read.
MOST_LINES = 999_999
#: A line of more bytes, its LF not counted, is unread.
MOST_BYTES = 64

_SYNCS = {b"N": 0, b"A": 1}
_FAULTS = {b"E": 0, b"L": 1, b"I": 2, b"M": 3}
# fullmatch: in a pattern, $ would let an LF pass
_STEP = re.compile(
    rb"(?P<alone>[ZMQ])"
    rb"|(?P<one>[RT])\t(?P<place>[0-9A-F]{2})"
    rb"|W\t(?P<address>[0-9A-F]{2})\t(?P<value>[0-9A-F]{2})"
    rb"|F\t(?P<verdict>[GB])\t(?P<frame>(?:[0-9A-F]{2})*)"
    rb"|S\t(?P<sync>[NA])"
    rb"|P\t(?P<fault>[ELIM])"
)


class Step(NamedTuple):
    """What a line says, by its letter.

    W: first is the address, second the value. R: the address. F: 1 for a good verdict or 0, and frame has the bytes. S: a Sync.
    P: a Fault. T: the identifier. Z, M and Q use none of them.
    """

    letter: str
    first: int = 0
    second: int = 0
    frame: bytes = b""


def parse(line: bytes) -> Optional[Step]:
    """The step that a line without its LF says; None if the line is unread.

    >>> parse(b"F\\tG\\t2102AABB")
    Step(letter='F', first=1, second=0, frame=b'!\\x02\\xaa\\xbb')
    >>> parse(b"R 06"), parse(b"r\\t06"), parse(b"R\\t06\\r")
    (None, None, None)
    """
    found = _STEP.fullmatch(line) if len(line) <= MOST_BYTES else None
    if not found:
        return None
    letter = chr(line[0])
    if letter == "W":
        return Step(letter, int(found["address"], 16), int(found["value"], 16))
    if letter in "RT":
        return Step(letter, int(found["place"], 16))
    if letter == "F":
        return Step(letter, int(found["verdict"] == b"G"), 0, bytes.fromhex(found["frame"].decode("ascii")))
    if letter == "S":
        return Step(letter, _SYNCS[found["sync"]])
    if letter == "P":
        return Step(letter, _FAULTS[found["fault"]])
    return Step(letter)


class Row(NamedTuple):
    """What came of a line: its number from 1, its bytes without LF, its step (None: unread), the answer, the five lines after it.

    word, detail and looked are those of an Answer, but the detail of a refused step is the refusal's number. str(row) is the
    row of the report, as ./hevrukan replay writes it, without its LF.
    """

    number: int
    line: bytes
    step: Optional[Step]
    word: Word
    detail: Union[int, bytes, None]
    lines: int
    looked: int

    def detail_text(self) -> str:
        """The detail as the report writes it."""
        if self.detail is None:
            return "-"
        if isinstance(self.detail, bytes):
            return self.detail.hex().upper()
        if self.word is Word.PULSE:
            return "NA"[self.detail]
        return f"{self.detail:02X}"

    def __str__(self) -> str:
        return f"{self.number}\t{self.word}\t{self.detail_text()}\t{self.lines:02X}\t{self.looked}"


def lines_of(file: IO[bytes]) -> Iterator[bytes]:
    """A file's lines. Of a line that is too long for a step only the front is held, whatever its length."""
    front = MOST_BYTES + 2
    while True:
        line = file.readline(front)
        if not line:
            return
        rest = line
        while rest and not rest.endswith(b"\n"):
            rest = file.readline(1 << 16)
        yield line


def _line_bytes(line: Line) -> bytes:
    if isinstance(line, str):
        line = line.encode("utf-8", "surrogateescape")
    if not isinstance(line, (bytes, bytearray)):
        raise TypeError(f"a line is str or bytes, not {type(line).__name__}")
    line = bytes(line[:-1] if line.endswith(b"\n") else line)
    if b"\n" in line:
        raise ValueError(f"more than one line at a time: {line!r}")
    return line


def rows(c: Controller, lines: Lines) -> Iterator[Row]:
    """The generator behind Controller.replay."""
    if isinstance(lines, os.PathLike):
        with open(lines, "rb") as file:
            yield from rows(c, lines_of(file))
        return
    number = 0
    for text in lines:
        number += 1
        line = _line_bytes(text)
        step = parse(line)
        if step is None:
            yield Row(number, line, None, Word.UNREAD, None, c.lines(), 0)
        else:
            answer = c._made(step)
            yield Row(number, line, step, answer.word, answer.detail, c.lines(), answer.looked)
        if number == MOST_LINES:
            return


class Replay:
    """The method replay: Controller.replay(lines) begins with a new controller, c.replay(lines) goes on with c.

    lines are those of a recording, each with or without its LF: a list, a file that was opened with "rb", or the file's Path.
    It is a generator: the controller makes a line's step when its row is asked for, so that its state can be looked at after
    any line. A refused step is a row as any other. At most 999,999 lines are read.
    """

    def __get__(self, c: Optional[Controller], owner: Type[Controller]) -> Callable[[Lines], Iterator[Row]]:
        def replay(lines: Lines) -> Iterator[Row]:
            if isinstance(lines, (str, bytes, bytearray)):
                raise TypeError('replay wants lines: a list, open(name, "rb") or pathlib.Path(name), not one text')
            return rows(owner() if c is None else c, lines)

        replay.__doc__ = Replay.__doc__
        return replay
