"""The edges of the package python/hevrukan, and that its names are those of the C header. tests/interface runs it."""

import ctypes
import glob
import os
import re
import subprocess
import sys
import unittest

TOP = os.path.dirname(os.path.dirname(os.path.realpath(__file__)))
sys.path.insert(0, os.path.join(TOP, "python"))
import hevrukan
from hevrukan import *

LARGE = [256, 256 + 0x41, 2**32, 2**32 + 1, 2**70]


def text_of(*path):
    with open(os.path.join(TOP, *path)) as file:
        return file.read()


def bytes_of(c):
    return bytes(c._record)


def registers_of(c):
    return [c.read(address) for address in range(0x60)]


def running():
    """Synchronized; buffers 0 and 1 are the FIFO, 3 receives $21, 15 is to send $41 and armed."""
    c = Controller()
    c.write(BFFSIZR, 2)
    c.write(BFBUFCTL(3), LOCK)
    c.write(BFRIDENT, 0x21)
    c.write(BFBUFCTL(3), IENA)
    c.write(BFBUFCTL(15), CFG | LOCK)
    c.write(BFTIDENT, 0x41)
    c.write(BFTLEN, 2)
    c.write(BFTDATA(0), 0x10)
    c.write(BFTDATA(1), 0x64)
    c.write(BFBUFCTL(15), CFG)
    c.write(BFPCTLBF, BFEN)
    c.write(BFMCR, 0)
    c.write(BFBUFCTL(15), CFG | IFLG)
    c.sync()
    return c


def asleep():
    c = running()
    c.write(BFMCR, SLPRQ)
    return c


def crowded():
    """In initialization, with a receive holder and contender, and a layout that isn't lawful."""
    c = Controller()
    c.write(BFBUFCTL(0), LOCK)
    c.write(BFBUFCTL(1), LOCK)
    c.write(BFBUFCTL(2), CFG)
    return c


class Edges(unittest.TestCase):
    def refused(self, number, c, step, *arguments, **named):
        before = bytes_of(c)
        with self.assertRaises(Refused) as caught:
            getattr(c, step)(*arguments, **named)
        self.assertEqual(caught.exception.number, number)
        self.assertEqual(caught.exception.text, REFUSALS[number])
        self.assertEqual(str(caught.exception), f"refused {number}: {REFUSALS[number]}")
        self.assertEqual(bytes_of(c), before)

    def unknown(self, step, *arguments, **named):
        c = running()
        before = bytes_of(c)
        with self.assertRaises(Unknown) as caught:
            getattr(c, step)(*arguments, **named)
        self.assertIsInstance(caught.exception, ValueError)
        self.assertIn(step, str(caught.exception))
        self.assertEqual(bytes_of(c), before)

    def test_refusals(self):
        self.refused(1, running(), "read", 0x60)
        self.refused(2, asleep(), "read", BFRIVEC)
        self.refused(3, running(), "write", BFRIVEC, 0)
        self.refused(4, running(), "write", BFRIDENT, 0x22)
        self.refused(5, running(), "write", BFTIDENT, 0x42)
        self.refused(6, Controller(), "write", BFFSIZR, 17)
        self.refused(7, crowded(), "write", BFBUFCTL(0), CFG | LOCK)
        self.refused(8, crowded(), "write", BFMCR, 0)
        self.refused(9, running(), "write", BFBUFCTL(1), LOCK)
        self.refused(10, crowded(), "write", BFBUFCTL(3), LOCK)
        self.refused(11, running(), "frame", b"\x21\x02\x55")
        self.refused(12, running(), "slot", 0x41, room=13)

    def test_large_address_is_refused(self):
        for address in LARGE:
            self.refused(1, running(), "read", address)
            self.refused(1, running(), "write", address, LOCK)

    def test_unknown_numbers(self):
        for number in LARGE + [-1, -256]:
            self.unknown("write", BFMCR, number)
            self.unknown("sync", number)
            self.unknown("slot", number)
            self.unknown("fault", number)
            self.unknown("frame", b"\x21\x00", number)
        self.unknown("read", -1)
        self.unknown("write", -1, 0)
        self.unknown("slot", 0x41, room=-1)
        self.unknown("sync", 2)
        self.unknown("fault", 4)
        self.unknown("frame", b"\x21\x00", 2)

    def test_types(self):
        c = Controller()
        for step, *arguments in (("read", "0"), ("write", 0, 1.0), ("frame", 14), ("frame", "2100"), ("slot", None)):
            self.assertRaises(TypeError, getattr(c, step), *arguments)

    def test_frames(self):
        for size in (0, 1, 15, 40, 270):
            for c in (Controller(), running(), asleep()):
                self.refused(11, c, "frame", (b"\x21\x0c" + bytes(300))[:size])
        for data in (b"\x21\x02\xaa\x00", bytearray(b"\x21\x02\xaa\x00"), [0x21, 2, 0xAA, 0]):
            self.assertEqual(running().frame(data), Answer("stored", 3, 2))
        self.assertEqual(running().frame(b"\x21\x0f" + bytes(12)), ("stored", 3, 2))
        self.assertEqual(running().frame(b"\x21\x00", good=False), ("badframe", None, 0))
        c = running()
        self.assertEqual(c.frame(b"\x21\x0c" + b"\xee" * 12), ("stored", 3, 2))
        self.assertEqual(c.frame(b"\x21\x01\xaa"), ("stored", 3, 2))
        c.write(BFBUFCTL(3), LOCK)
        self.assertEqual([c.read(BFRDATA(n)) for n in range(12)], [0xAA] + 11 * [0])
        # no receive buffer carries $22, and the filters are as after reset
        self.assertEqual(running().frame(b"\x22\x00"), ("queued", 0, 13))
        no_fifo = Controller()
        no_fifo.write(BFMCR, 0)
        no_fifo.sync()
        self.assertEqual(no_fifo.frame(b"\x22\x00"), ("unmatched", None, 16))

    def test_looked(self):
        c = running()
        self.assertEqual(c.frame(b"\x21\x00").looked, 2)
        c.write(BFBUFCTL(3), LOCK)
        for word in ("waiting", "waiting", "heldoff"):
            self.assertEqual(c.frame(b"\x21\x00"), (word, 3, 2))
        for answer in (("queued", 0, 13), ("queued", 1, 13), ("overrun", None, 13), ("overrun", None, 13)):
            self.assertEqual(c.frame(b"\x60\x00"), answer)
        self.assertEqual(asleep().frame(b"\x21\x00"), ("woke", None, 0))
        self.assertEqual(Controller().frame(b"\x21\x00"), ("ignored", None, 0))
        self.assertEqual(c.frame(b"\x00\x00"), ("badframe", None, 0))
        # a read's value is nothing but the value, and what has no count says 0
        self.assertEqual(c.read(BFFSIZR), 2)
        self.assertEqual(Answer("ok"), ("ok", None, 0))
        # each part of an answer, whatever the others are
        for looked in range(17):
            self.assertEqual(Controller._answer(65536 * looked + 256 * 15 + 14, None, ""), ("waiting", 14, looked))

    def test_waiting(self):
        c = running()
        c.write(BFBUFCTL(3), IENA | LOCK)
        for data, word in ((b"\xa1\xff", "waiting"), (b"\xa2", "waiting"), (b"\xa3", "heldoff")):
            self.assertEqual(c.frame(bytes([0x21, len(data)]) + data), (word, 3, 2))
        self.assertEqual(c.read(BFRDATA(0)), 0)
        d = c.copy()
        for each in (c, d):
            # the copy's frames wait too, and are stored in order: the newest is left, whole
            each.write(BFBUFCTL(3), IENA | IFLG)
            self.assertEqual(each.read(BFBUFCTL(3)), IENA | IFLG)
            each.write(BFBUFCTL(3), IENA | LOCK)
            self.assertEqual([each.read(BFRLEN + n) for n in range(3)], [1, 0xA2, 0])

    def test_slprq_alone(self):
        c = running()
        c.write(BFBUFCTL(3), LOCK)
        c.frame(b"\x21\x00")
        c.write(BFMCR, SLPRQ)
        self.assertEqual(c.read(BFMCR), SLPRQ)
        d = c.copy()
        self.assertEqual(d.fault(EARLY), Answer("ok"))
        self.assertEqual((d.read(BFMCR), d.read(BFGISR)), (0, SYNEIF))
        c.write(BFBUFCTL(3), 0)
        self.assertEqual(c.read(BFMCR), SLPRQ | SLPAK)
        self.refused(2, c, "read", BFRIVEC)

    def test_rooms(self):
        for room in (0, 1, 13):
            self.refused(12, running(), "slot", 0x41, room=room)
        for room in (14, 15, 1000):
            self.assertEqual(running().slot(0x41, room=room), Answer("sent", b"\x41\x02\x10\x64"))
        self.assertEqual(running().slot(0x42), Answer("notsent"))

    def test_events(self):
        c = Controller()
        c.write(BFMCR, MASTER | ALARM)
        c.write(BFRIER, SYNAIE)
        self.assertEqual(c.sync_due(), Answer("pulse", ALARM_PULSE))
        self.assertEqual(c.lines(), LINE_SYNC)
        self.assertEqual(c.timeout(), Answer("ok"))
        self.assertEqual(c.sync_due(), Answer("pulse", NORMAL_PULSE))
        self.assertEqual(c.fault(LOST), Answer("ok"))
        self.assertEqual(c.read(BFGISR), SYNLIF)
        self.assertEqual(c.frame(b"\x21\x00"), Answer("ignored"))
        self.assertEqual(asleep().sync(ALARM_PULSE), Answer("woke"))
        self.assertEqual(c.reset(), Answer("ok"))
        self.assertEqual(registers_of(c), registers_of(Controller()))

    def test_copy(self):
        c = running()
        d = c.copy()
        self.assertEqual(bytes_of(c), bytes_of(d))
        self.assertEqual(c.slot(0x41), d.slot(0x41))
        self.assertEqual(registers_of(c), registers_of(d))
        c.reset()
        self.assertNotEqual(registers_of(c), registers_of(d))

    def test_wrong_size(self):
        size = library().hevrukan_size()
        c = running()
        before = bytes_of(c)
        room = ctypes.create_string_buffer(14)
        # 266 and 268: the records before this one, the second of a library that gave the buffers examined
        for wrong in (0, 266, 268, size - 1, size + 1):
            self.assertEqual(library().hevrukan_reset(c._record, wrong), 65 * 256)
            self.assertEqual(library().hevrukan_lines(c._record, wrong), 65 * 256)
            self.assertEqual(library().hevrukan_step(c._record, wrong, 5, 0x41, 0, b"", 0, room, 14), 65 * 256)
            c._size = wrong
            self.assertRaises(WrongSize, c.sync)
            self.assertRaises(WrongSize, c.lines)
            c._size = size
        self.assertEqual(bytes_of(c), before)
        self.assertEqual(room.raw, bytes(14))


class Library(unittest.TestCase):
    def test_missing_library_is_named(self):
        code = "import hevrukan; hevrukan.Controller()"
        python = dict(os.environ, PYTHONPATH=os.path.join(TOP, "python"), HEVRUKAN_LIBRARY="/nowhere/libhevrukan.so")
        ran = subprocess.run([sys.executable, "-B", "-c", code], env=python, stderr=subprocess.PIPE, universal_newlines=True)
        self.assertNotEqual(ran.returncode, 0)
        last = ran.stderr.splitlines()[-1]
        self.assertIn("/nowhere/libhevrukan.so", last)
        self.assertIn("./hevrukan library builds it", last)

    def test_library_beside_the_repository(self):
        named = os.environ.pop("HEVRUKAN_LIBRARY", None)
        try:
            self.assertEqual(hevrukan.library_path(), os.path.join(TOP, "target", "lib", "libhevrukan.so"))
        finally:
            if named is not None:
                os.environ["HEVRUKAN_LIBRARY"] = named


class Names(unittest.TestCase):
    """The header has each name once, Python again, and the proved code a third time: they agree."""

    header = text_of("include", "hevrukan.h")

    def test_registers_and_bits(self):
        registers = re.findall(r"^    (BF[A-Z0-9]+) = (0x\w\w)\b", self.header, re.M)
        bits = re.findall(r"^    BF_(\w+) = (0x\w\w)\b", self.header, re.M)
        enables = re.findall(r"^    BF_(\w+) = BF_(\w+)\b", self.header, re.M)
        self.assertEqual((len(registers), len(bits), len(enables)), (28, 31, 14))
        for name, value in registers + bits:
            self.assertEqual(getattr(hevrukan, name), int(value, 16), name)
        for name, flag in enables:
            self.assertEqual(getattr(hevrukan, name), getattr(hevrukan, flag), name)
        for name, value in re.findall(r"^#define (BF\w+)\(n\) \((0x\w\w) \+ \(n\)\)", self.header, re.M):
            self.assertEqual(getattr(hevrukan, name)(3), int(value, 16) + 3, name)

    def test_proved_bits(self):
        (bits,) = glob.glob(os.path.join(TOP, "crates", "*", "src", "bits.rt"))
        proved = dict(re.findall(r"^pub const (\w+): u8 = (0x\w\w);", text_of(bits), re.M))
        found = [name for name in proved if hasattr(hevrukan, name)]
        self.assertEqual(len(found), 37)  # 32 bits of registers, and the five interrupt lines
        for name in found:
            self.assertEqual(getattr(hevrukan, name), int(proved[name], 16), name)

    def test_numbers(self):
        constants = dict(re.findall(r"\bHEVRUKAN_(\w+) = (\w+)", self.header))
        for number, word in hevrukan._WORDS.items():
            self.assertEqual(constants[word.upper()], str(number))
        for name in ("READ", "WRITE", "SYNC", "SYNC_DUE", "SLOT", "FRAME", "FAULT", "TIMEOUT"):
            self.assertEqual(constants["KIND_" + name], str(getattr(hevrukan, "_" + name)))
        for name in ("EARLY", "LOST", "ILLEGAL", "MISMATCH"):
            self.assertEqual(constants[name], str(getattr(hevrukan, name)))
        for name in ("LINE_FIFO", "LINE_RECEIVE", "LINE_SYNC", "LINE_XSYNC", "LINE_GENERAL"):
            self.assertEqual(int(constants[name], 16), getattr(hevrukan, name))
        self.assertEqual((constants["NORMAL"], constants["ALARM"]), (str(NORMAL_PULSE), str(ALARM_PULSE)))

    def test_refusal_texts(self):
        texts = re.findall(r'case (\d+): return "(.*)";', self.header)
        self.assertEqual({int(number): text for number, text in texts}, REFUSALS)

    def test_size(self):
        (size,) = re.findall(r"^#define HEVRUKAN_SIZE (\d+)", self.header, re.M)
        self.assertEqual(library().hevrukan_size(), int(size))


if __name__ == "__main__":
    unittest.main()
