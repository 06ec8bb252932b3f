"""What a step is answered: an Answer, or an exception where it was refused or where document 01 has no such step."""

from __future__ import annotations

from typing import NamedTuple, Optional, Tuple, Union

from .names import REFUSALS, Word


class Answer(NamedTuple):
    """What a step is answered: document 01's word, its detail, and the buffers examined.

    The detail is the buffer's number (stored, queued, waiting, heldoff), the frame's bytes (sent), Sync.NORMAL or Sync.ALARM
    (pulse), the value (read), and None of the others. looked is how many dedicated receive buffers were examined for a frame's
    buffer (stored, queued, waiting, heldoff, overrun, unmatched), 0 to 16: those from FSIZ to its buffer, that one included,
    or all of them if none carries its identifier. It is 0 for every other answer.

    >>> Answer(Word.STORED, 3, 2) == ("stored", 3, 2)
    True
    """

    word: Word
    detail: Union[int, bytes, None] = None
    looked: int = 0


class Refused(Exception):
    """The controller refused the step and did not change.

    number is document 01's, text what it stands for, call the step in words; address and value are those of a register call,
    else None, as the value of a read is. The message is number and text; repr has the rest too.

    >>> refused = Refused(6, "write of $11 to BFFSIZR $01", 0x01, 0x11)
    >>> print(refused)
    refused 6: FSIZ above 16
    >>> refused
    Refused(6, 'write of $11 to BFFSIZR $01', 1, 17)
    """

    def __init__(self, number: int, call: str = "", address: Optional[int] = None, value: Optional[int] = None) -> None:
        super().__init__(number, call, address, value)
        self.number = number
        self.text = REFUSALS[number]
        self.call = call
        self.address = address
        self.value = value

    def __str__(self) -> str:
        return f"refused {self.number}: {self.text}"


class Unknown(ValueError):
    """Document 01 has no such step: a number is out of its range. Nothing changed."""


class WrongSize(ValueError):
    """The record isn't of the library's size. Nothing changed."""


# The words by the library's numbers; 5 is unused.
WORDS: Tuple[Optional[Word], ...] = (
    Word.OK, Word.READ, Word.STORED, Word.QUEUED, Word.HELDOFF, None, Word.SENT, Word.PULSE, Word.REFUSED, Word.OVERRUN,
    Word.UNMATCHED, Word.BADFRAME, Word.IGNORED, Word.WOKE, Word.NOTSENT, Word.WAITING,
)
WITH_DETAIL = frozenset([Word.READ, Word.STORED, Word.QUEUED, Word.WAITING, Word.HELDOFF, Word.PULSE, Word.REFUSED])
# What document 01 doesn't name.
UNKNOWN, WRONG_SIZE = 64, 65
