"""What the commands answer to -h."""

from typing import Dict

HELP: Dict[str, str] = {
    "": """\
Usage: python3 -m hevrukan COMMAND

  state [FILE] [LINE]   the controller's state at the end of a recording, or after a line of it
  explain [FILE]        each line of a recording and what came of it, in words
  stats [FILE]          what came of a recording's frames, counted
  -h, --version

COMMAND -h says more of each.""",
    "state": """\
Usage: ./hevrukan state [FILE] [LINE]

Replays a recording, or standard input (also -), to its end, or to the state after line LINE (0: after reset), and writes the
state, fields parted by tabs, numbers in two upper-case hex digits:
  what      place     answer   detail       the heading
  register  ADDRESS   read     VALUE        each of the 96 addresses; asleep, all but $00: refused 02
  buffer    NUMBER    holds    BYTES        each of the 16 buffers: identifier, length and data 0 to 11, locked or not
  waiting   NUMBER    holds    BYTES        each frame that waits for a locked buffer, the oldest first

  ./hevrukan state examples/door.rec 49     after line 49
  ./hevrukan state - 49 <examples/door.rec  the same from standard input""",
    "explain": """\
Usage: ./hevrukan explain [--only WORDS] [--id II] [--buffer N] [FILE]

Replays a recording, or standard input (also -), and writes for each line its number, the line, what came of it, the interrupt
lines that are up after it and, for a frame that was looked up, how many receive buffers were examined:
  49  F G 12 03 55AA01   stored in buffer 2   lines: receive, general   looked: 1
Three blanks part the fields; registers and bits have the manual's names.

  --only refused,overrun   only lines with one of these answers, as ./hevrukan replay writes them
  --id 21                  only frames and slots of identifier $21, and calls of an identifier register that write or read it
  --buffer 3               only lines that name buffer 3: its frames, its control register, a window that shows it, a vector

A line must pass all filters that are given. It keeps its number. --id and --buffer take several, too: --id 21,12.""",
    "stats": """\
Usage: ./hevrukan stats [FILE]

Replays a recording, or standard input (also -), and writes three tables, an empty line between them, fields parted by tabs.
Identifiers, buffers and refusals are two hex digits as in the report of a replay, the counts decimal.

  identifier   for each identifier: frames that came, and how many of them were answered stored, queued, waiting, heldoff, overrun,
               unmatched and badframe; sent, the frames that the module sent in its slots; and, of those that came, ignored, woke
               and refused. A frame without bytes has the identifier -
  buffer       stored: frames that got into the buffer, answered stored or queued, or stored on its release after they waited;
               read: how often test code said that it had read one: for a receive buffer IFLG written 1 while it stood, outside
               initialization; for a buffer of the FIFO the release, which removes the entry; sent: frames sent from it
  refusal      each number, how often it was given, and when document 01 gives it""",
}
