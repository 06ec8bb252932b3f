"""The state of a controller as a value: what its registers read, what its buffers hold, and the frames that wait.

>>> from hevrukan import Controller, BFMCR
>>> state = Controller().state()
>>> state.registers[BFMCR], state.buffers[0].hex(), state.waiting
(129, '0000000000000000000000000000', ())
>>> for row in list(state.rows())[:3]:
...     print(row.expandtabs(10))
what      place     answer    detail
register  00        read      81
register  01        read      00
"""

from __future__ import annotations

from typing import Iterator, NamedTuple, Optional, Tuple

HEADING = "what\tplace\tanswer\tdetail"


class Waiting(NamedTuple):
    """A frame that waits: the locked buffer that it waits for, and the fourteen bytes that are stored there on its release."""

    buffer: int
    holds: bytes


class State(NamedTuple):
    """What a controller shows. Two that are equal may still answer differently later: arming, for one, is in no register.

    registers are the values of the addresses 0 to 0x5F, None where the read is refused because the module is asleep; buffers
    the fourteen bytes of each of the sixteen: identifier, length, data 0 to 11; waiting the frames that wait, the oldest first.
    str(state) is what ./hevrukan state writes.
    """

    registers: Tuple[Optional[int], ...]
    buffers: Tuple[bytes, ...]
    waiting: Tuple[Waiting, ...]

    def rows(self) -> Iterator[str]:
        """The heading and the rows, fields parted by tabs, numbers as two upper-case hex digits."""
        yield HEADING
        for address, value in enumerate(self.registers):
            # asleep is the only reason for which one of the 96 addresses isn't read
            answer = "refused\t02" if value is None else f"read\t{value:02X}"
            yield f"register\t{address:02X}\t{answer}"
        for number, holds in enumerate(self.buffers):
            yield f"buffer\t{number:02X}\tholds\t{holds.hex().upper()}"
        for frame in self.waiting:
            yield f"waiting\t{frame.buffer:02X}\tholds\t{frame.holds.hex().upper()}"

    def __str__(self) -> str:
        return "\n".join(self.rows())
