"""The rows of a replay in words: each beside its line, registers and bits by the manual's names."""

from __future__ import annotations

import functools
from typing import Dict, FrozenSet, NamedTuple, Optional

from . import names
from .controller import Controller
from .hints import why_unread
from .names import BFBUFCTL0, BFFIDENT, BFMCR, BFRIDENT, BFTIDENT, INITAK, REFUSALS, SLPAK, Register, Word
from .recording import MOST_BYTES, Row, Step
from .watch import Seen

# The registers that have bits with names of their own, from bit 7 down.
_BITS: Dict[int, str] = {
    Register.BFMCR: "INITRQ MASTER ALARM SLPAK SLPRQ WPULSE SSWAI INITAK",
    Register.BFRISR: "RCVFIF RXIF SYNAIF SYNNIF SLMMIF XSYNIF",
    Register.BFGISR: "TXIF OVRNIF ERRIF SYNEIF SYNLIF ILLPIF LOCKIF WAKEIF",
    Register.BFRIER: "RCVFIE RXIE SYNAIE SYNNIE SLMMIE XSYNIE",
    Register.BFGIER: "TXIE OVRNIE ERRIE SYNEIE SYNLIE ILLPIE LOCKIE WAKEIE",
    Register.BFPCTLBF: "BFEN",
    Register.BFBUFLOCK: "TXBUFLOCK RXBUFLOCK",
}
_CONTROL = "CFG IENA IFLG LOCK ABTRQ ABTAK"
_LINES = "FIFO receive sync XSYNC general".split()
_VECTORS = (Register.BFRIVEC, Register.BFTIVEC)
_IDENTIFIERS = (BFTIDENT, BFRIDENT, BFFIDENT)
_FAULTS = ("early sync: SYNEIF", "sync lost: SYNLIF", "illegal pulse: ILLPIF", "slot mismatch: SLMMIF")
_FRAMES = {
    Word.STORED: "stored in buffer {}",
    Word.QUEUED: "queued in buffer {} of the FIFO",
    Word.WAITING: "waiting for buffer {}, which is locked",
    Word.HELDOFF: "held off: buffer {} is locked, and both waiting places are taken",
    Word.OVERRUN: "overrun: the FIFO is full",
    Word.UNMATCHED: "unmatched: no buffer takes it",
    Word.BADFRAME: "bad frame: ERRIF",
}


class Explained(NamedTuple):
    """A row in words, with what the filters ask: the buffers that it names, and its identifier."""

    seen: Seen
    text: str
    buffers: FrozenSet[int]
    identifier: Optional[int]


def explained(seen: Seen, c: Controller) -> Explained:
    """A row in words. c is the controller after it."""
    row = seen.row
    parts = [f"{row.number}  {line_text(row)}", _happened(seen, c), f"lines: {lines_text(row.lines)}"]
    if row.step and row.step.letter == "F" and row.word in _FRAMES and row.word is not Word.BADFRAME:
        parts.append(f"looked: {row.looked}")
    return Explained(seen, "   ".join(parts), _buffers(seen), _identifier(row))


def line_text(row: Row) -> str:
    """The line, tabs as blanks, a frame's bytes as identifier, length and data; an unread line in quotes, as Python writes it."""
    step = row.step
    if step is None:
        front = repr(row.line[:MOST_BYTES])[2:-1]
        return f'"{front}"' + ("..." if len(row.line) > MOST_BYTES else "")
    if step.letter != "F":
        return row.line.decode("ascii").replace("\t", " ")
    return " ".join(["F", "BG"[step.first], *frame_text(step.frame).split()])


def frame_text(frame: bytes) -> str:
    """A frame: identifier, length byte, and the data run together."""
    return " ".join(part.hex().upper() for part in (frame[:1], frame[1:2], frame[2:]) if part)


@functools.lru_cache(maxsize=None)
def lines_text(lines: int) -> str:
    """The interrupt lines that are up."""
    return ", ".join(name for bit, name in zip((16, 8, 4, 2, 1), _LINES) if lines & bit) or "none"


@functools.lru_cache(maxsize=None)
def value_text(address: int, value: int) -> str:
    """What a register's value means: its bits by name, or the number."""
    if address == Register.BFFSIZR:
        return f"FSIZ {value & 0x1F}"
    bits = _CONTROL if address >= BFBUFCTL0 else _BITS.get(address)
    if bits is None:
        return f"${value:02X}"
    named = [name for name in bits.split() if value & getattr(names, name)]
    rest = value & ~sum(getattr(names, name) for name in bits.split())
    return ", ".join(named + ([f"${rest:02X} reserved"] if rest else [])) or "$00"


@functools.lru_cache(maxsize=None)
def register_text(address: int) -> str:
    """A register by its name, or an address that has none."""
    try:
        return Register(address).name
    except ValueError:
        return f"${address:02X}" + (", reserved" if address < 0x60 else "")


def _happened(seen: Seen, c: Controller) -> str:
    row = seen.row
    if row.step is None:
        return f"unread: {why_unread(row.line)}"
    if row.word is Word.REFUSED:
        assert isinstance(row.detail, int)
        call = f" ({_call(row.step)})" if row.step.letter in "RW" else ""
        return f"refused {row.detail}: {REFUSALS[row.detail]}{call}"
    if row.word is Word.IGNORED:
        return f"ignored: {_why_ignored(row.step, c)}"
    if row.word is Word.WOKE:
        return "woke the module: WAKEIF"
    if row.step.letter in "RW":
        return _register_call(seen, row.step)
    return _bus_step(seen, row.step)


def _call(step: Step) -> str:
    text = f"{'write' if step.letter == 'W' else 'read'} of {register_text(step.first)}"
    return f"{text}: {value_text(step.first, step.second)}" if step.letter == "W" else text


def _register_call(seen: Seen, step: Step) -> str:
    window = step.first & 0x0F < 14 and step.first & 0xF0 in _IDENTIFIERS
    shown = (", no holder" if seen.window is None else f" of buffer {seen.window}") if window else ""
    if step.letter == "R":
        value = seen.row.detail
        assert isinstance(value, int)
        if step.first in _VECTORS:
            meaning = f"buffer {value}" if value < 16 else "none"
        else:
            meaning = value_text(step.first, value)
        number = "" if meaning == f"${value:02X}" else f"${value:02X} "
        return f"read of {register_text(step.first)}{shown}: {number}{meaning}"
    text = f"write of {register_text(step.first)}{shown}: {value_text(step.first, step.second)}"
    if seen.stored:
        frames = "the frame that waited is" if seen.stored == 1 else f"{seen.stored} frames that waited are"
        text += f"; {frames} stored in buffer {step.first - BFBUFCTL0}"
    return text


def _bus_step(seen: Seen, step: Step) -> str:
    row = seen.row
    if row.word in _FRAMES:
        return _FRAMES[row.word].format(row.detail)
    if step.letter == "S":
        return f"{'alarm' if step.first else 'normal'} sync"
    if row.word is Word.PULSE:
        return f"sync due: {'alarm' if row.detail else 'normal'} pulse"
    if row.word is Word.SENT:
        assert isinstance(row.detail, bytes)
        return f"sent from buffer {seen.sender}: {frame_text(row.detail)}"
    if step.letter == "T":
        return "not sent: no armed buffer carries it, or it isn't above the last identifier"
    if step.letter == "P":
        return _FAULTS[step.first]
    return "alarm timeout" if step.letter == "Q" else "reset"


def _why_ignored(step: Step, c: Controller) -> str:
    """By what document 01 says of ignored steps; one changes nothing, so the mode is that before it."""
    mode = c.read(BFMCR)
    if mode & INITAK:
        return "in initialization"
    if mode & SLPAK:
        return "asleep"
    return "not the master" if step.letter == "M" else "not synchronized"


def _buffers(seen: Seen) -> FrozenSet[int]:
    row, step = seen.row, seen.row.step
    found = {seen.window, seen.sender}
    if row.word in (Word.STORED, Word.QUEUED, Word.WAITING, Word.HELDOFF):
        found.add(row.detail)
    if step and step.letter in "RW":
        if BFBUFCTL0 <= step.first < 0x60:
            found.add(step.first - BFBUFCTL0)
        if row.word is Word.READ and step.first in _VECTORS:
            found.add(row.detail)
    return frozenset(n for n in found if isinstance(n, int) and n < 16)


def _identifier(row: Row) -> Optional[int]:
    step = row.step
    if step is None:
        return None
    if step.letter == "F":
        return step.frame[0] if step.frame else None
    if step.letter == "T":
        return step.first
    if step.letter in "RW" and step.first in _IDENTIFIERS and row.word in (Word.READ, Word.OK):
        return step.second if step.letter == "W" else row.detail
    return None
