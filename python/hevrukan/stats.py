"""What came of a recording's frames, what its buffers took, and what was refused, counted."""

from __future__ import annotations

import collections
from typing import Counter, Dict, Iterator

from .names import BFBUFCTL0, REFUSALS, Word
from .watch import Seen

# The words in which a frame's row, or a slot's, counts for its identifier.
_FRAME_WORDS = (Word.STORED, Word.QUEUED, Word.WAITING, Word.HELDOFF, Word.OVERRUN, Word.UNMATCHED, Word.BADFRAME)
_OTHERS = (Word.IGNORED, Word.WOKE, Word.REFUSED)


class Stats:
    """The counts, added to row by row."""

    def __init__(self) -> None:
        self.frames: Dict[str, Counter[str]] = collections.defaultdict(collections.Counter)
        self.buffers: Dict[int, Counter[str]] = {n: collections.Counter() for n in range(16)}
        self.refusals: Counter[int] = collections.Counter()

    def add(self, seen: Seen) -> None:
        """Counts a row."""
        row, step = seen.row, seen.row.step
        if step is None:
            return
        if row.word is Word.REFUSED and isinstance(row.detail, int):
            self.refusals[row.detail] += 1
        if step.letter == "F":
            # a frame of no bytes has no identifier
            self.frames[step.frame[:1].hex().upper() or "-"].update(["came", str(row.word)])
        if row.word in (Word.STORED, Word.QUEUED) and isinstance(row.detail, int):
            self.buffers[row.detail]["stored"] += 1
        if seen.stored and step:
            self.buffers[step.first - BFBUFCTL0]["stored"] += seen.stored
        if seen.read is not None:
            self.buffers[seen.read]["read"] += 1
        if seen.sender is not None:
            self.frames[f"{step.first:02X}"]["sent"] += 1
            self.buffers[seen.sender]["sent"] += 1

    def rows(self) -> Iterator[str]:
        """The three tables, an empty line between them."""
        heading = ["came", *map(str, _FRAME_WORDS), "sent", *map(str, _OTHERS)]
        yield "\t".join(["identifier", *heading])
        for identifier in sorted(self.frames):
            yield "\t".join([identifier, *(str(self.frames[identifier][word]) for word in heading)])
        yield ""
        yield "buffer\tstored\tread\tsent"
        for n, counts in self.buffers.items():
            yield f"{n:02X}\t{counts['stored']}\t{counts['read']}\t{counts['sent']}"
        yield ""
        yield "refusal\tcount\twhen"
        for number, text in REFUSALS.items():
            yield f"{number:02X}\t{self.refusals[number]}\t{text}"
