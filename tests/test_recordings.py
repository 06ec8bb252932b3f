"""Recordings in Python: Controller.replay, the grammar of a line, and why a line is unread. tests/package runs it."""

import inspect
import io
import pathlib
import tempfile
import unittest

from hevrukan import *
from hevrukan.hints import why_unread
from hevrukan.recording import lines_of, parse
from hints import HINTS


class Replays(unittest.TestCase):
    LINES = ["W\t50\t10", "W\t30\t21", "W\t00\t00", "S\tN", "F\tG\t2101AA", "W\t30\t22", "R 50"]
    WORDS = ["ok", "ok", "ok", "ok", "waiting", "refused", "unread"]

    def test_forms_of_lines(self):
        data = "\n".join(self.LINES).encode()
        with tempfile.TemporaryDirectory() as folder:
            path = pathlib.Path(folder) / "made.rec"
            path.write_bytes(data)
            for lines in (
                self.LINES,
                iter(self.LINES),
                [line + "\n" for line in self.LINES],
                data.split(b"\n"),
                data.splitlines(keepends=True),
                path,
            ):
                self.assertEqual([row.word for row in Controller.replay(lines)], self.WORDS)
            with open(path, "rb") as file:
                self.assertEqual([row.word for row in Controller().replay(file)], self.WORDS)
            with open(path) as file:
                self.assertEqual([row.word for row in Controller().replay(file)], self.WORDS)

    def test_it_is_a_generator(self):
        c = Controller()
        rows = c.replay(self.LINES)
        self.assertTrue(inspect.isgenerator(rows))
        self.assertEqual(c, Controller())
        row = next(rows)
        self.assertEqual(row, Row(1, b"W\t50\t10", parse(b"W\t50\t10"), Word.OK, None, 0, 0))
        self.assertEqual(c.read(BFBUFCTL(0)), LOCK)
        self.assertEqual([row.number for row in rows], list(range(2, 8)))
        self.assertEqual(len(c.state().waiting), 1)
        # on the class, a new controller; on c, it goes on
        self.assertEqual([row.word for row in Controller.replay(["R\t50"])], ["read"])
        self.assertEqual([row.detail for row in c.replay(["R\t50"])], [LOCK])

    def test_what_is_no_list_of_lines(self):
        for text in ("W\t50\t10", b"W\t50\t10", "door.rec"):
            with self.assertRaisesRegex(TypeError, "pathlib.Path"):
                Controller.replay(text)
        with self.assertRaisesRegex(ValueError, "more than one line"):
            list(Controller.replay(["Z\nZ\n"]))
        with self.assertRaisesRegex(TypeError, "int"):
            list(Controller.replay([1]))
        self.assertRaises(FileNotFoundError, list, Controller.replay(pathlib.Path("/nowhere/door.rec")))

    def test_grammar(self):
        for line in ("Z", "M", "Q", "S\tN", "S\tA", "P\tE", "P\tL", "P\tI", "P\tM", "R\t00", "T\tFF", "W\t5F\tA0", "F\tG\t", "F\tB\t2100"):
            self.assertIsNotNone(parse(line.encode()), line)
            for wrong in (line + "\r", line + " ", " " + line, line + "\t", line + "0", line.lower(), line + "\n", line[1:]):
                self.assertIsNone(parse(wrong.encode()), wrong)
        for wrong in ("R\t0a", "T\tfF", "W\t5f\tA0", "W\t5F\ta0", "F\tB\t2a00", "R\t+1", "R\t 1", "T\t0x", "W\t50\t", "S\tn", "P\te", "F\tg\t2100"):
            self.assertIsNone(parse(wrong.encode()), wrong)
        # sixty digits behind the verdict are 64 bytes
        self.assertEqual(len(parse(b"F\tG\t" + 60 * b"0").frame), 30)
        self.assertIsNone(parse(b"F\tG\t" + 62 * b"0"))
        self.assertEqual(parse(b"F\tB\t0123"), ("F", 0, 0, b"\x01\x23"))

    def test_limit(self):
        lines = iter([""] * 1_000_002)
        rows = 0
        for row in Controller.replay(lines):
            rows += 1
        self.assertEqual((rows, row.number, sum(1 for _ in lines)), (999_999, 999_999, 3))


class Hints(unittest.TestCase):
    def test_words(self):
        """Why a line is unread, in the words that tests/command holds replay to."""
        for data, words in HINTS:
            first = next(row for row in Controller.replay(lines_of(io.BytesIO(data))) if row.word is Word.UNREAD)
            self.assertEqual(why_unread(first.line), words, first)


if __name__ == "__main__":
    unittest.main()
