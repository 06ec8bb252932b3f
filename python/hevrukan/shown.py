"""The bytes that a buffer holds, and the frames that wait, without a lock: by the library's functions for it."""

from __future__ import annotations

import ctypes
from typing import Any, Optional

from .answers import WORDS
from .names import Word
from .state import Waiting


def buffer(library: ctypes.PyDLL, record: Any, size: int, n: int) -> bytes:
    """The fourteen bytes of buffer n, 0 to 15."""
    room = (ctypes.c_uint8 * 14)()
    answer = library.hevrukan_buffer(record, size, n, room, 14)
    assert answer == 0, answer
    return bytes(room)


def waiting(library: ctypes.PyDLL, record: Any, size: int, k: int) -> Optional[Waiting]:
    """The k-th frame that waits, 0 the oldest; None if there are fewer."""
    room = (ctypes.c_uint8 * 14)()
    answer = library.hevrukan_waiting(record, size, k, room, 14)
    return Waiting(answer & 0xFF, bytes(room)) if answer >> 8 == WORDS.index(Word.WAITING) else None
