"""A replay that also sees what its rows don't say: which buffer a window shows, which one sent, which frames a release stored,
and which buffer's frame test code has read. All of it is read from the controller's registers and waiting places."""

from __future__ import annotations

import ctypes
from typing import Dict, Iterable, Iterator, List, NamedTuple, Optional

from .controller import Controller
from .names import BFBUFCTL, BFBUFCTL0, BFFIDENT, BFFSIZR, BFMCR, BFRIDENT, BFTIDENT, CFG, IFLG, LOCK, SLPAK, SLPRQ, Word
from .recording import Line, Row


class Seen(NamedTuple):
    """A row, and what else it did.

    window: the buffer that the register call reached through a window. sender: the buffer that sent. stored: how many frames
    that waited for the buffer its release stored. read: the buffer whose frame the write says was read.
    """

    row: Row
    window: Optional[int] = None
    sender: Optional[int] = None
    stored: int = 0
    read: Optional[int] = None


class Watch:
    """The replay of one recording from reset."""

    def __init__(self) -> None:
        self.controller = Controller()
        self._before = Controller()
        # the locked buffers of a kind by their window: the holder first, then the contender
        self._locked: Dict[int, List[int]] = {BFTIDENT: [], BFRIDENT: []}

    def rows(self, lines: Iterable[Line]) -> Iterator[Seen]:
        """Each line's row."""
        rows = self.controller.replay(lines)
        while True:
            ctypes.memmove(self._before._record, self.controller._record, self._before._size)
            row = next(rows, None)
            if row is None:
                return
            yield self._seen(row)

    def _seen(self, row: Row) -> Seen:
        step = row.step
        if step is None:
            return Seen(row)
        if step.letter == "Z":
            self._locked = {BFTIDENT: [], BFRIDENT: []}
        if row.word is Word.SENT:
            return Seen(row, sender=self._sender())
        if step.letter in "RW" and row.word in (Word.READ, Word.OK) and step.first & 0x0F < 14:
            window = step.first & 0xF0
            if window in (BFTIDENT, BFRIDENT, BFFIDENT):
                return Seen(row, window=self._holder(window))
        if step.letter == "W" and row.word is Word.OK and step.first >= BFBUFCTL0:
            return self._controlled(row, step.first - BFBUFCTL0, step.second)
        return Seen(row)

    def _sender(self) -> Optional[int]:
        """The buffer that sent: the one whose IFLG was set by the slot."""
        for n in range(16):
            if self.controller.read(BFBUFCTL(n)) & ~self._before.read(BFBUFCTL(n)) & IFLG:
                return n
        return None

    def _holder(self, window: int) -> Optional[int]:
        if window == BFFIDENT:
            size = self.controller.read(BFFSIZR)
            return next((n for n in range(min(size, 16)) if self.controller.read(BFBUFCTL(n)) & (CFG | LOCK) == LOCK), None)
        return next(iter(self._locked[window]), None)

    def _controlled(self, row: Row, n: int, value: int) -> Seen:
        """A control write that was accepted."""
        before = self._before.read(BFBUFCTL(n))
        fifo = not before & CFG and n < self._before.read(BFFSIZR)
        self._note_lock(n)
        waited, wait = (sum(frame.buffer == n for frame in c._waiting()) for c in (self._before, self.controller))
        if fifo:
            # releasing an entry removes it
            read = before & LOCK and not value & LOCK
        else:
            # IFLG written 1: "read". It stands only outside initialization, where that clears it
            read = not before & CFG and before & value & IFLG
        return Seen(row, stored=waited - wait, read=n if read else None)

    def _note_lock(self, n: int) -> None:
        now = awake(self.controller)
        control = now.read(BFBUFCTL(n))
        for locked in self._locked.values():
            if n in locked and not control & LOCK:
                locked.remove(n)
        kind = self._locked[BFTIDENT if control & CFG else BFRIDENT]
        fifo = not control & CFG and n < now.read(BFFSIZR)
        if control & LOCK and n not in kind and not fifo:
            kind.append(n)


def awake(c: Controller) -> Controller:
    """The controller, or, where it is asleep, a copy that was woken, whose registers can be read."""
    mode = c.read(BFMCR)
    if not mode & SLPAK:
        return c
    woken = c.copy()
    woken.write(BFMCR, mode & ~SLPRQ)
    return woken
