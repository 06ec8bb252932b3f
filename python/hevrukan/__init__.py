"""The emulated Byteflight controller: a thin layer over libhevrukan.so, whose every answer is proved to be document 01's.

Each method of a Controller is one whole step of document 01. A read gives the register's value, any other step an Answer: a word,
a detail, and how many buffers were examined for a frame. A refusal is the exception Refused, with its number; what document 01
doesn't name is Unknown, a ValueError. Neither changes the controller.

>>> c = Controller()
>>> c.write(BFBUFCTL(0), LOCK)                  # buffer 0 in the receive window
Answer(word='ok', detail=None, looked=0)
>>> c.write(BFRIDENT, 0x21)                     # takes identifier $21
Answer(word='ok', detail=None, looked=0)
>>> [c.write(BFBUFCTL(0), IENA).word, c.write(BFRIER, RXIE).word, c.write(BFMCR, 0).word]
['ok', 'ok', 'ok']
>>> c.sync()
Answer(word='ok', detail=None, looked=0)
>>> c.frame(bytes.fromhex("2102AABB"))          # the first buffer examined carries $21
Answer(word='stored', detail=0, looked=1)
>>> c.frame(bytes.fromhex("2200"))              # none of sixteen carries $22, and there is no FIFO
Answer(word='unmatched', detail=None, looked=16)
>>> c.lines() == LINE_RECEIVE, c.read(BFRIVEC)
(True, 0)
>>> c.write(BFBUFCTL(0), IENA | LOCK).word      # locked, to be read
'ok'
>>> c.frame(bytes.fromhex("2101CC"))            # the next one waits
Answer(word='waiting', detail=0, looked=1)
>>> c                                           # what it shows in short; c.state() has all of it
<Controller: BFMCR $00, interrupt lines $08, 1 waiting>
>>> c.read(BFRDATA(0)) == 0xAA, c.write(BFBUFCTL(0), IENA | IFLG).word
(True, 'ok')
>>> c.write(BFBUFCTL(0), IENA | LOCK).word, c.read(BFRDATA(0)) == 0xCC    # stored by the release
('ok', True)
>>> c.write(BFRIDENT, 0x22)
Traceback (most recent call last):
    ...
hevrukan.Refused: refused 4: write to $01-$04, $0C, $0D, $14, $15, $30-$3D outside initialization
>>> c.write(BFMCR, 256)
Traceback (most recent call last):
    ...
hevrukan.Unknown: write(0, 256): a number is out of range

The library is the installed package's own; without installation target/lib/libhevrukan.so of the repository, which
./hevrukan library builds; or the file that the environment variable HEVRUKAN_LIBRARY names.
"""

from . import names
from .answers import WORDS, Answer, Refused, Unknown, WrongSize
from .controller import FAULT as _FAULT, FRAME as _FRAME, READ as _READ, SLOT as _SLOT, SYNC as _SYNC
from .controller import SYNC_DUE as _SYNC_DUE, TIMEOUT as _TIMEOUT, WRITE as _WRITE, Controller
from .names import *
from .recording import Row, Step
from .shared import library, library_path, version
from .state import State, Waiting

__version__ = version()

__all__ = [
    "Answer", "Controller", "Refused", "Row", "State", "Step", "Unknown", "Waiting", "WrongSize", "library", "library_path",
]
__all__ += names.__all__

# the words by the library's numbers, as _READ and so on are its kinds of step
_WORDS = {number: word for number, word in enumerate(WORDS) if word}

# by the name under which test code knows them, in messages too
for _class in (Answer, Controller, Refused, Row, State, Step, Unknown, Waiting, WrongSize):
    _class.__module__ = __name__
