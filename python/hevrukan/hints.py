"""Why a line is unread, in the words in which ./hevrukan replay says it.

>>> why_unread(b"R\\t06\\r"), why_unread(b"R 06")
('ends in CR; Windows line ends?', 'has a space and no tab; spaces instead of tabs?')
"""

from __future__ import annotations

import re

from .recording import MOST_BYTES

_WANTED = {
    "W": "W wants an address and a value, two hex digits each",
    "R": "R wants an address of two hex digits",
    "T": "T wants a slot of two hex digits",
    "S": "S wants N or A",
    "P": "P wants E, L, I or M",
    "Z": "Z, M and Q have nothing behind them",
}
_WANTED["M"] = _WANTED["Q"] = _WANTED["Z"]


def why_unread(line: bytes) -> str:
    """What is wrong with a line that is no step; of a long one its first bytes are enough."""
    if not line:
        return "empty"
    if line[0] >= 0xFE:
        return "begins with a byte that no text has; saved as UTF-16?"
    if line.startswith(b"\xef\xbb\xbf"):
        return "begins with a byte-order mark; saved as UTF-8 with BOM?"
    if b"\0" in line[:MOST_BYTES]:
        return "has a NUL byte; UTF-16, or no text at all?"
    if len(line) > MOST_BYTES:
        return "over 64 bytes" + (", with CR inside; line ends without LF?" if b"\r" in line[:MOST_BYTES] else "")
    if line.endswith(b"\r"):
        return "ends in CR; Windows line ends?"
    letter = line[:1].decode("latin-1")
    return _known(line, letter) if letter in "ZWRFSPMTQ" else _unknown(line, letter)


def _known(line: bytes, letter: str) -> str:
    """A line that begins with an event's letter."""
    if b" " in line:
        if b"\t" in line:
            return "has a space; a tab parts two fields, and nothing parts a frame's bytes"
        return "has a space and no tab; spaces instead of tabs?"
    if re.search(rb"[$x]", line):
        return "has $ or x; a number is two hex digits alone"
    if re.search(rb"[a-z]", line):
        return "has lower case; letters and digits are upper case"
    if b"\t" not in line and len(line) > 1:
        return "has no tab; a tab parts two fields"
    if letter != "F":
        return _WANTED[letter]
    if not re.match(rb"F\t[GB]\t", line):
        return "F wants G or B, a tab and the frame's bytes"
    if re.search(rb"[^0-9A-F]", line[4:]):
        return "a frame's bytes are hex digits, run together"
    return "an odd number of digits; each byte of a frame has two"


def _unknown(line: bytes, letter: str) -> str:
    """A line that begins with another byte."""
    if letter in " \t":
        return "begins with a space" if letter == " " else "begins with a tab"
    begins = f"begins with '{letter}'" if "!" <= letter <= "~" else f"begins with byte 0x{line[0]:02x}"
    if letter == "#":
        return f"{begins}; a recording has no comments"
    if letter in "zwrfspmtq":
        return f"{begins}; letters and digits are upper case"
    if letter in "0123456789":
        return f"{begins}; a report instead of a recording?"
    if line == b"unread":
        return f"{begins}; in a blanked recording 'unread' stands for a line that was unread"
    return f"{begins}, which is no event's letter"
