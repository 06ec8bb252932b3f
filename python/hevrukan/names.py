"""Document 01's words and refusals, and the manual's names of registers and bits. `from hevrukan import *` has all of them.

>>> BFRDATA(3), BFRDATA(3) == 0x35, str(Register(0x53).name)
(<Register.BFRDATA3: 53>, True, 'BFBUFCTL3')
>>> BFTDATA(14)
Traceback (most recent call last):
    ...
ValueError: BFTDATA(14): there are BFTDATA(0) to BFTDATA(11)
"""

from __future__ import annotations

import enum
import operator
from typing import Dict

__all__ = [
    "Word", "Sync", "Fault", "NORMAL_PULSE", "ALARM_PULSE", "EARLY", "LOST", "ILLEGAL", "MISMATCH", "Register", "BFMCR",
    "BFFSIZR", "BFTCR1", "BFTCR2", "BFTCR3", "BFRISR", "BFGISR", "BFRIER", "BFGIER", "BFRIVEC", "BFTIVEC", "BFFIDAC", "BFFIDMR",
    "BFMVR", "BFPCTLBF", "BFBUFLOCK", "BFFIDRJ", "BFFIDRMR", "BFTIDENT", "BFTLEN", "BFTDATA0", "BFRIDENT", "BFRLEN", "BFRDATA0",
    "BFFIDENT", "BFFLEN", "BFFDATA0", "BFBUFCTL0", "BFTDATA", "BFRDATA", "BFFDATA", "BFBUFCTL", "INITRQ", "MASTER", "ALARM",
    "SLPAK", "SLPRQ", "WPULSE", "SSWAI", "INITAK", "RCVFIF", "RXIF", "SYNAIF", "SYNNIF", "SLMMIF", "XSYNIF", "RCVFIE", "RXIE",
    "SYNAIE", "SYNNIE", "SLMMIE", "XSYNIE", "TXIF", "OVRNIF", "ERRIF", "SYNEIF", "SYNLIF", "ILLPIF", "LOCKIF", "WAKEIF", "TXIE",
    "OVRNIE", "ERRIE", "SYNEIE", "SYNLIE", "ILLPIE", "LOCKIE", "WAKEIE", "BFEN", "TXBUFLOCK", "RXBUFLOCK", "CFG", "IENA", "IFLG",
    "LOCK", "ABTRQ", "ABTAK", "LINE_FIFO", "LINE_RECEIVE", "LINE_SYNC", "LINE_XSYNC", "LINE_GENERAL", "REFUSALS",
]


class Word(str, enum.Enum):
    """An answer's word. It is a str: `answer.word == "stored"` and `answer.word is Word.STORED` say the same.

    UNREAD is the word of a recording's line that is no step; no step of a controller is answered so.
    """

    OK = "ok"
    READ = "read"
    STORED = "stored"
    QUEUED = "queued"
    HELDOFF = "heldoff"
    SENT = "sent"
    PULSE = "pulse"
    REFUSED = "refused"
    OVERRUN = "overrun"
    UNMATCHED = "unmatched"
    BADFRAME = "badframe"
    IGNORED = "ignored"
    WOKE = "woke"
    NOTSENT = "notsent"
    WAITING = "waiting"
    UNREAD = "unread"

    # as the report writes it, in every version of Python
    __str__ = str.__str__
    __repr__ = str.__repr__
    __format__ = str.__format__


class Sync(enum.IntEnum):
    """The kinds of sync pulse, for sync and in the answer of sync_due."""

    NORMAL = 0
    ALARM = 1

    # as a number, in every version of Python
    __str__ = int.__repr__
    __format__ = int.__format__


class Fault(enum.IntEnum):
    """The faults that the bus can show."""

    EARLY = 0
    LOST = 1
    ILLEGAL = 2
    MISMATCH = 3

    __str__ = int.__repr__
    __format__ = int.__format__


NORMAL_PULSE, ALARM_PULSE = Sync.NORMAL, Sync.ALARM
EARLY, LOST, ILLEGAL, MISMATCH = Fault.EARLY, Fault.LOST, Fault.ILLEGAL, Fault.MISMATCH


class Register(enum.IntEnum):
    """The registers. Each is its address, an int; the addresses $00 to $5F that aren't here are reserved."""

    BFMCR = 0x00
    BFFSIZR = 0x01
    BFTCR1 = 0x02
    BFTCR2 = 0x03
    BFTCR3 = 0x04
    BFRISR = 0x06
    BFGISR = 0x07
    BFRIER = 0x08
    BFGIER = 0x09
    BFRIVEC = 0x0A
    BFTIVEC = 0x0B
    BFFIDAC = 0x0C
    BFFIDMR = 0x0D
    BFMVR = 0x0E
    BFPCTLBF = 0x10
    BFBUFLOCK = 0x12
    BFFIDRJ = 0x14
    BFFIDRMR = 0x15
    BFTIDENT = 0x20
    BFTLEN = 0x21
    BFTDATA0, BFTDATA1, BFTDATA2, BFTDATA3, BFTDATA4, BFTDATA5 = range(0x22, 0x28)
    BFTDATA6, BFTDATA7, BFTDATA8, BFTDATA9, BFTDATA10, BFTDATA11 = range(0x28, 0x2E)
    BFRIDENT = 0x30
    BFRLEN = 0x31
    BFRDATA0, BFRDATA1, BFRDATA2, BFRDATA3, BFRDATA4, BFRDATA5 = range(0x32, 0x38)
    BFRDATA6, BFRDATA7, BFRDATA8, BFRDATA9, BFRDATA10, BFRDATA11 = range(0x38, 0x3E)
    BFFIDENT = 0x40
    BFFLEN = 0x41
    BFFDATA0, BFFDATA1, BFFDATA2, BFFDATA3, BFFDATA4, BFFDATA5 = range(0x42, 0x48)
    BFFDATA6, BFFDATA7, BFFDATA8, BFFDATA9, BFFDATA10, BFFDATA11 = range(0x48, 0x4E)
    BFBUFCTL0, BFBUFCTL1, BFBUFCTL2, BFBUFCTL3, BFBUFCTL4, BFBUFCTL5, BFBUFCTL6, BFBUFCTL7 = range(0x50, 0x58)
    BFBUFCTL8, BFBUFCTL9, BFBUFCTL10, BFBUFCTL11, BFBUFCTL12, BFBUFCTL13, BFBUFCTL14, BFBUFCTL15 = range(0x58, 0x60)

    __str__ = int.__repr__
    __format__ = int.__format__


BFMCR, BFFSIZR = Register.BFMCR, Register.BFFSIZR
BFTCR1, BFTCR2, BFTCR3 = Register.BFTCR1, Register.BFTCR2, Register.BFTCR3
BFRISR, BFGISR = Register.BFRISR, Register.BFGISR
BFRIER, BFGIER = Register.BFRIER, Register.BFGIER
BFRIVEC, BFTIVEC = Register.BFRIVEC, Register.BFTIVEC
BFFIDAC, BFFIDMR = Register.BFFIDAC, Register.BFFIDMR
BFMVR, BFPCTLBF, BFBUFLOCK = Register.BFMVR, Register.BFPCTLBF, Register.BFBUFLOCK
BFFIDRJ, BFFIDRMR = Register.BFFIDRJ, Register.BFFIDRMR
BFTIDENT, BFTLEN, BFTDATA0 = Register.BFTIDENT, Register.BFTLEN, Register.BFTDATA0
BFRIDENT, BFRLEN, BFRDATA0 = Register.BFRIDENT, Register.BFRLEN, Register.BFRDATA0
BFFIDENT, BFFLEN, BFFDATA0 = Register.BFFIDENT, Register.BFFLEN, Register.BFFDATA0
BFBUFCTL0 = Register.BFBUFCTL0


def _nth(name: str, first: Register, n: int, most: int) -> Register:
    n = operator.index(n)
    if not 0 <= n <= most:
        raise ValueError(f"{name}({n}): there are {name}(0) to {name}({most})")
    return Register(first + n)


def BFTDATA(n: int) -> Register:
    """Data register n, 0 to 11, of the transmit window. ValueError for another."""
    return _nth("BFTDATA", BFTDATA0, n, 11)


def BFRDATA(n: int) -> Register:
    """Data register n, 0 to 11, of the receive window. ValueError for another."""
    return _nth("BFRDATA", BFRDATA0, n, 11)


def BFFDATA(n: int) -> Register:
    """Data register n, 0 to 11, of the FIFO window. ValueError for another."""
    return _nth("BFFDATA", BFFDATA0, n, 11)


def BFBUFCTL(n: int) -> Register:
    """The control register of buffer n, 0 to 15. ValueError for another."""
    return _nth("BFBUFCTL", BFBUFCTL0, n, 15)


# BFMCR. SLPRQ stands without SLPAK while a frame waits: the module works as awake.
INITRQ, MASTER, ALARM, SLPAK, SLPRQ, WPULSE, SSWAI, INITAK = 0x80, 0x40, 0x20, 0x10, 0x08, 0x04, 0x02, 0x01
# BFRISR, and the enables in BFRIER
RCVFIF, RXIF, SYNAIF, SYNNIF, SLMMIF, XSYNIF = 0x80, 0x40, 0x20, 0x10, 0x08, 0x02
RCVFIE, RXIE, SYNAIE, SYNNIE, SLMMIE, XSYNIE = RCVFIF, RXIF, SYNAIF, SYNNIF, SLMMIF, XSYNIF
# BFGISR, and the enables in BFGIER
TXIF, OVRNIF, ERRIF, SYNEIF, SYNLIF, ILLPIF, LOCKIF, WAKEIF = 0x80, 0x40, 0x20, 0x10, 0x08, 0x04, 0x02, 0x01
TXIE, OVRNIE, ERRIE, SYNEIE, SYNLIE, ILLPIE, LOCKIE, WAKEIE = TXIF, OVRNIF, ERRIF, SYNEIF, SYNLIF, ILLPIF, LOCKIF, WAKEIF
# BFPCTLBF
BFEN = 0x80
# BFBUFLOCK
TXBUFLOCK, RXBUFLOCK = 0x02, 0x01
# BFBUFCTL
CFG, IENA, IFLG, LOCK, ABTRQ, ABTAK = 0x80, 0x40, 0x20, 0x10, 0x08, 0x04

# The interrupt lines.
LINE_FIFO, LINE_RECEIVE, LINE_SYNC, LINE_XSYNC, LINE_GENERAL = 0x10, 0x08, 0x04, 0x02, 0x01

#: Document 01's refusals.
REFUSALS: Dict[int, str] = {
    1: "address above $5F",
    2: "asleep, register call other than $00",
    3: "write to $0A, $0B, $0E, $12, $40-$4D",
    4: "write to $01-$04, $0C, $0D, $14, $15, $30-$3D outside initialization",
    5: "write to a window with no holder",
    6: "FSIZ above 16",
    7: "the write changes the kind of a locked buffer",
    8: "leaving initialization, unlawful layout",
    9: "new LOCK on a FIFO buffer that isn't the oldest entry",
    10: "new LOCK where the kind has holder and contender",
    11: "frame slice not 2 + min(12, length's low four bits) bytes; any mode",
    12: "room for a sent frame under 14 bytes; any mode",
}


def address_text(address: int) -> str:
    """An address with the register's name: BFRIDENT $30, and without one where it has none: $05."""
    try:
        return f"{Register(address).name} ${address:02X}"
    except ValueError:
        return f"${address:02X}"
