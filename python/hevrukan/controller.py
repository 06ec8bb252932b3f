"""One emulated controller: each method is one whole step of document 01, made by the proved library."""

from __future__ import annotations

import copy
import ctypes
import operator
from typing import Any, Dict, Iterable, Tuple, Union, cast

from . import recording, shown
from .answers import UNKNOWN, WITH_DETAIL, WORDS, WRONG_SIZE, Answer, Refused, Unknown, WrongSize
from .names import BFMCR, Sync, Word, address_text
from .shared import library, version
from .state import State, Waiting

# The library's numbers of the kinds of step.
RESET, READ, WRITE, SYNC, SYNC_DUE, SLOT, FRAME, FAULT, TIMEOUT = range(9)
_KINDS = {"R": READ, "W": WRITE, "S": SYNC, "M": SYNC_DUE, "T": SLOT, "F": FRAME, "P": FAULT, "Q": TIMEOUT}
_LARGEST = 0xFFFFFFFF
_ROOM = 14
_UNSET = 33  # the place of the record's one byte that is no field's
# never of no bytes, so that its address is one
_NO_ROOM = (ctypes.c_uint8 * 1)()

FrameBytes = Union[bytes, bytearray, memoryview, Iterable[int]]


def _frame_bytes(data: FrameBytes) -> bytes:
    if isinstance(data, str):
        raise TypeError(f"a frame is bytes (identifier, length byte, data), not str: bytes.fromhex({data!r})")
    if isinstance(data, int):
        raise TypeError("a frame is bytes (identifier, length byte, data), not a number: bytes([0x21, 0x00])")
    return bytes(data)


def _called(kind: int, first: int, second: int, frame: bytes, room: int) -> str:
    """A step as it was called, for the message of an exception."""
    return {
        READ: f"read({first})",
        WRITE: f"write({first}, {second})",
        SYNC: f"sync({first})",
        SYNC_DUE: "sync_due()",
        SLOT: f"slot({first}, {room})",
        FRAME: f"frame({frame!r}, {first})",
        FAULT: f"fault({first})",
        TIMEOUT: "timeout()",
    }[kind]


def _in_words(kind: int, first: int, second: int, frame: bytes, room: int) -> str:
    """A step in words, for what was refused."""
    return {
        READ: f"read of {address_text(first)}",
        WRITE: f"write of ${second:02X} to {address_text(first)}",
        SYNC: f"sync {first}",
        SYNC_DUE: "sync due",
        SLOT: f"slot ${first:02X} with a room of {room} bytes",
        FRAME: f"frame {frame.hex().upper() or 'of no bytes'}, verdict {first:d}",
        FAULT: f"fault {first}",
        TIMEOUT: "timeout",
    }[kind]


class Controller:
    """One emulated controller, as after reset.

    A read gives the register's value, any other step an Answer. A refusal is the exception Refused, with its number; what
    document 01 doesn't name is Unknown, a ValueError. Neither changes the controller.

    >>> with Controller() as c:
    ...     print(c, c.write(BFBUFCTL(0), LOCK).word, c.lines())
    <Controller: BFMCR $81, interrupt lines $00, 0 waiting> ok 0

    copy.copy, copy.deepcopy, pickle and the method copy all give an independent controller in the same state:

    >>> d = c.copy()
    >>> c == d, d.write(BFTCR1, 2).word, c == d, c.read(BFTCR1)
    (True, 'ok', False, 0)

    Two controllers are equal if the library's records of them are, field by field. The same steps from reset make equal
    controllers, and equal ones answer every step alike from then on. What two of them show is compared with c.state() == d.state().
    """

    def __init__(self) -> None:
        self._attach()
        self.reset()

    def _attach(self) -> None:
        self._library = library()
        self._size: int = self._library.hevrukan_size()
        # sixteen-bit words, for the alignment that the record needs
        self._record = (ctypes.c_uint16 * ((self._size + 1) // 2))()

    # ---- the steps

    def reset(self) -> Answer:
        """Resets the controller: ok."""
        return self._answer(self._library.hevrukan_reset(self._record, self._size), None, "reset()")

    def read(self, address: int) -> int:
        """The value of a register. Refused 1 or 2. It changes nothing.

        >>> Controller().read(BFMCR)
        129
        """
        value = self._step(READ, address).detail
        assert isinstance(value, int)
        return value

    def write(self, address: int, value: int) -> Answer:
        """Writes a register: ok. Refused 1 to 10.

        The write that releases a receive buffer stores the frames that wait for it, in order of arrival, and sets IFLG; if
        SLPRQ stood and no other frame waits, the module is then asleep.

        >>> Controller().write(BFFSIZR, 17)
        Traceback (most recent call last):
            ...
        hevrukan.Refused: refused 6: FSIZ above 16
        """
        return self._step(WRITE, address, value)

    def sync(self, pulse: int = Sync.NORMAL) -> Answer:
        """A sync pulse on the bus, Sync.NORMAL or Sync.ALARM: ok, ignored or woke."""
        return self._step(SYNC, pulse)

    def sync_due(self) -> Answer:
        """The time at which a master emits its sync pulse: pulse, or ignored."""
        return self._step(SYNC_DUE)

    def slot(self, identifier: int, room: int = 14) -> Answer:
        """The slot of an identifier: sent with the frame's bytes, notsent or ignored.

        room is how many bytes are lent for the frame. Refused 12 if they are fewer than 14.
        """
        return self._step(SLOT, identifier, room=room)

    def frame(self, data: FrameBytes, good: bool = True) -> Answer:
        """A frame on the bus, as bytes: identifier, length byte, data; good is the verdict on its checksum and form.

        stored, queued, waiting, heldoff, overrun, unmatched, badframe, ignored or woke. Refused 11. The first six were
        looked up: the answer's looked says in how many buffers. A frame whose buffer is locked waits in one of two places,
        which all receive buffers share, until the buffer is released; with both taken it is held off, and lost. Of what its
        buffer held before, a stored or queued frame leaves nothing: the data registers behind its last byte read 0.

        >>> Controller().frame("2102AABB")
        Traceback (most recent call last):
            ...
        TypeError: a frame is bytes (identifier, length byte, data), not str: bytes.fromhex('2102AABB')
        """
        return self._step(FRAME, good, frame=_frame_bytes(data))

    def fault(self, fault: int) -> Answer:
        """A fault that the bus shows, of the enum Fault: ok, ignored or woke."""
        return self._step(FAULT, fault)

    def timeout(self) -> Answer:
        """The alarm's time is over: ok or ignored."""
        return self._step(TIMEOUT)

    def _step(self, kind: int, first: int = 0, second: int = 0, frame: bytes = b"", room: int = 0) -> Answer:
        answer = self._try(kind, first, second, frame, room)
        if answer.word is Word.REFUSED:
            assert isinstance(answer.detail, int)
            call = _in_words(kind, first, second, frame, room)
            raise Refused(answer.detail, call, first if kind in (READ, WRITE) else None, second if kind == WRITE else None)
        return answer

    def _try(self, kind: int, first: int = 0, second: int = 0, frame: bytes = b"", room: int = 0) -> Answer:
        """A step and its answer, be it a refusal."""
        first, second, room = operator.index(first), operator.index(second), operator.index(room)
        if first < 0 or second < 0 or room < 0:
            raise Unknown(f"{_called(kind, first, second, frame, room)}: a number is out of range")
        # no more bytes of a room are written than a frame has
        lent = (ctypes.c_uint8 * min(room, _ROOM))() if room else _NO_ROOM
        # ctypes would cut a number to 32 bits; the largest of these is out of range wherever a larger one is
        answer = self._library.hevrukan_step(
            self._record, self._size, kind, min(first, _LARGEST), min(second, _LARGEST), frame, len(frame), lent, min(room, _ROOM)
        )
        # the words are made where they are needed
        return self._answer(answer, lent, _called(kind, first, second, frame, room) if answer >> 8 & 0xFF >= UNKNOWN else "")

    @staticmethod
    def _answer(answer: int, lent: Any, call: str) -> Answer:
        number, detail = answer >> 8 & 0xFF, answer & 0xFF
        if number == UNKNOWN:
            raise Unknown(f"{call}: a number is out of range")
        if number == WRONG_SIZE:
            raise WrongSize(f"{call}: the record isn't of the library's size")
        word = WORDS[number]
        if word is Word.SENT:
            return Answer(word, bytes(lent[:detail]))
        if word is Word.PULSE:
            return Answer(word, Sync(detail))
        return Answer(word, detail if word in WITH_DETAIL else None, answer >> 16)

    # ---- what is seen without a step

    def lines(self) -> int:
        """The five interrupt lines, 0 to 31: LINE_FIFO and so on."""
        lines: int = self._library.hevrukan_lines(self._record, self._size)
        if lines >> 8:
            self._answer(lines, None, "lines()")
        return lines

    def state(self) -> State:
        """What it shows: the 96 registers, what the sixteen buffers hold, and the frames that wait. It changes nothing.

        >>> c = Controller()
        >>> c.state().registers[BFMCR], c.state() == Controller().state()
        (129, True)
        """
        reads = (self._try(READ, address) for address in range(0x60))
        registers = tuple(None if answer.word is Word.REFUSED else cast(int, answer.detail) for answer in reads)
        buffers = (shown.buffer(self._library, self._record, self._size, n) for n in range(16))
        return State(registers, tuple(buffers), self._waiting())

    def _waiting(self) -> Tuple[Waiting, ...]:
        frames = (shown.waiting(self._library, self._record, self._size, k) for k in (0, 1))
        return tuple(frame for frame in frames if frame)

    # ---- recordings

    replay = recording.Replay()

    def _made(self, step: recording.Step) -> Answer:
        """The step of a recording's line."""
        if step.letter == "Z":
            return self.reset()
        return self._try(_KINDS[step.letter], step.first, step.second, step.frame, _ROOM if step.letter == "T" else 0)

    # ---- a controller as a Python object

    def copy(self) -> Controller:
        """Another controller in the same state."""
        return copy.copy(self)

    def __getstate__(self) -> Dict[str, Any]:
        others = {name: value for name, value in self.__dict__.items() if name not in ("_library", "_size", "_record")}
        return {"record": bytes(self._record), "version": version(), "others": others}

    def __setstate__(self, state: Dict[str, Any]) -> None:
        self._attach()
        record = state["record"]
        # the bytes of another version may mean something else, of the same size too
        if state["version"] != version() or len(record) != ctypes.sizeof(self._record):
            raise WrongSize(f"the record is of version {state['version']}, this is version {version()}")
        ctypes.memmove(self._record, record, len(record))
        self.__dict__.update(state["others"])

    def __eq__(self, other: object) -> bool:
        if not isinstance(other, Controller):
            return NotImplemented
        return self._fields() == other._fields()

    def _fields(self) -> bytes:
        """the record without the one byte that is no field's"""
        record = bytes(self._record)
        return record[:_UNSET] + record[_UNSET + 1 :]

    def __repr__(self) -> str:
        waiting = len(self._waiting())
        return f"<Controller: BFMCR ${self.read(BFMCR):02X}, interrupt lines ${self.lines():02X}, {waiting} waiting>"

    def __enter__(self) -> Controller:
        return self

    def __exit__(self, *_: object) -> None:
        """Nothing is left to close: after the block the controller can still be asked."""
