"""That the package's enums, numbers and words are those of the C header, and its messages and numbers print alike in every version of
Python. tests/interface runs it, after test_hevrukan.py."""

import os
import re
import sys
import unittest

TOP = os.path.dirname(os.path.dirname(os.path.realpath(__file__)))
sys.path.insert(0, os.path.join(TOP, "python"))
import hevrukan
from hevrukan import *
from hevrukan.answers import UNKNOWN, WORDS, WRONG_SIZE

NUMBERED = {"BFTDATA": (0x22, 11), "BFRDATA": (0x32, 11), "BFFDATA": (0x42, 11), "BFBUFCTL": (0x50, 15)}


class Names(unittest.TestCase):
    with open(os.path.join(TOP, "include", "hevrukan.h")) as file:
        header = file.read()
    constants = dict(re.findall(r"\bHEVRUKAN_(\w+) = (\w+)", header))

    def test_registers(self):
        registers = re.findall(r"^    (BF[A-Z0-9]+) = (0x\w\w)\b", self.header, re.M)
        self.assertEqual(len(registers), 28)
        for name, value in registers:
            self.assertIs(getattr(hevrukan, name), Register[name])
            self.assertEqual(Register[name], int(value, 16))

    def test_numbered_registers(self):
        plain = re.findall(r"^#define (BF\w+)\(n\) \((0x\w\w) \+ \(n\)\)$", self.header, re.M)
        checked = re.findall(r"^#define (BF\w+)\(n\) \((0x\w\w) \+ \(n\) \+ HEVRUKAN_IN_RANGE\(n, (\d+)\)\)$", self.header, re.M)
        self.assertEqual({name: int(value, 16) for name, value in plain}, {name: first for name, (first, _) in NUMBERED.items()})
        self.assertEqual({name: (int(value, 16), int(last)) for name, value, last in checked}, NUMBERED)
        for name, (first, last) in NUMBERED.items():
            for n in range(last + 1):
                self.assertEqual(getattr(hevrukan, name)(n), first + n)
                self.assertEqual(Register[f"{name}{n}"], first + n)

    def test_words(self):
        for number, word in enumerate(WORDS):
            self.assertEqual(self.constants[word.upper()] if word else "5", str(number))
            self.assertEqual(hevrukan._WORDS.get(number), word)
        self.assertEqual(set(WORDS) | {Word.UNREAD}, {*Word, None})
        self.assertEqual((self.constants["UNKNOWN"], self.constants["WRONG_SIZE"]), (str(UNKNOWN), str(WRONG_SIZE)))

    def test_kinds(self):
        for name in ("RESET", "READ", "WRITE", "SYNC", "SYNC_DUE", "SLOT", "FRAME", "FAULT", "TIMEOUT"):
            self.assertEqual(self.constants["KIND_" + name], str(getattr(hevrukan.controller, name)))

    def test_enums(self):
        for name in ("EARLY", "LOST", "ILLEGAL", "MISMATCH"):
            self.assertEqual(int(self.constants[name]), Fault[name])
        self.assertEqual((Sync.NORMAL, Sync.ALARM), (NORMAL_PULSE, ALARM_PULSE))
        for member in (*Register, *Fault, *Sync):
            number = int(member)
            self.assertEqual([str(member), f"{member}", f"{member:02X}"], [str(number), f"{number}", f"{number:02X}"])


class Messages(unittest.TestCase):
    """What an exception says of the call."""

    def test_unknown(self):
        c = Controller()
        for call, text in (
            (lambda: c.read(-1), "read(-1)"),
            (lambda: c.write(BFMCR, 2**40), f"write(0, {2**40})"),
            (lambda: c.sync(2), "sync(2)"),
            (lambda: c.slot(0x141, room=20), "slot(321, 20)"),
            (lambda: c.frame(b"\x21\x00", 2), r"frame(b'!\x00', 2)"),
            (lambda: c.fault(4), "fault(4)"),
        ):
            with self.assertRaises(Unknown) as caught:
                call()
            self.assertEqual(str(caught.exception), f"{text}: a number is out of range")

    def test_wrong_size(self):
        c = Controller()
        c._size -= 1
        for name, *arguments in (("reset",), ("read", BFMCR), ("sync_due",), ("timeout",), ("lines",)):
            with self.assertRaises(WrongSize) as caught:
                getattr(c, name)(*arguments)
            call = f"{name}({', '.join(map(str, arguments))})"
            self.assertEqual(str(caught.exception), f"{call}: the record isn't of the library's size")


if __name__ == "__main__":
    unittest.main()
