"""The Python package as a user of pytest meets it: its objects, its type hints, its doctests. tests/package runs it on the installed
package, from another folder."""

import _ctypes
import contextlib
import copy
import doctest
import importlib
import inspect
import io
import multiprocessing
import os
import pathlib
import pickle
import pkgutil
import re
import sys
import textwrap
import types
import typing
import unittest
import unittest.mock

import hevrukan
from hevrukan import *

TOP = pathlib.Path(os.environ.get("HEVRUKAN_TOP") or pathlib.Path(__file__).resolve().parent.parent)
MODULES = ["hevrukan", *(f"hevrukan.{module.name}" for module in pkgutil.iter_modules(hevrukan.__path__))]


def synchronized():
    """Buffer 3 takes $21 and is locked; two frames wait for it."""
    c = Controller()
    c.write(BFBUFCTL(3), LOCK)
    c.write(BFRIDENT, 0x21)
    c.write(BFMCR, 0)
    c.sync()
    c.frame(b"\x21\x01\xaa")
    c.frame(b"\x21\x02\xbb\xcc")
    return c


def in_another_process(c):
    return c.write(BFBUFCTL(3), 0).word, c.state()


class Copies(unittest.TestCase):
    def independent(self, make):
        c = synchronized()
        d = make(c)
        self.assertIs(type(d), Controller)
        self.assertEqual((c, c.state()), (d, d.state()))
        before = c.state()
        d.write(BFBUFCTL(3), 0)
        self.assertEqual(c.state(), before)
        self.assertNotEqual((c, c.state()), (d, d.state()))
        self.assertNotEqual(c, d)
        # the copy has the waiting frames too: the newer one is stored last
        self.assertEqual(d.state().buffers[3], b"\x21\x02\xbb\xcc" + bytes(10))
        c.reset()
        self.assertEqual(d.state().buffers[3], b"\x21\x02\xbb\xcc" + bytes(10))

    def test_copies(self):
        self.independent(Controller.copy)
        self.independent(copy.copy)
        self.independent(copy.deepcopy)

    def test_pickles(self):
        for protocol in range(2, pickle.HIGHEST_PROTOCOL + 1):
            self.independent(lambda c: pickle.loads(pickle.dumps(c, protocol)))

    def test_another_process(self):
        c = synchronized()
        with multiprocessing.get_context("spawn").Pool(1) as pool:
            word, state = pool.apply_async(in_another_process, (c,)).get(timeout=60)
        self.assertEqual(len(c.state().waiting), 2)
        self.assertEqual((word, state.waiting), (Word.OK, ()))

    def test_copies_of_a_subclass(self):
        class Named(Controller):
            pass

        c = Named()
        c.seen = [1]
        shallow, deep = copy.copy(c), copy.deepcopy(c)
        self.assertIs(type(shallow), Named)
        self.assertIs(shallow.seen, c.seen)
        self.assertEqual(deep.seen, [1])
        self.assertIsNot(deep.seen, c.seen)

    def test_pickle_of_another_version(self):
        for name, value in (("version", "0.5.0"), ("record", bytes(268))):
            state = dict(Controller().__getstate__(), **{name: value})
            with self.assertRaisesRegex(WrongSize, "version"):
                Controller.__new__(Controller).__setstate__(state)

    def test_answers_and_refusals(self):
        answer = synchronized().frame(b"\x00\x00")
        self.assertEqual(pickle.loads(pickle.dumps(answer)), answer)
        with self.assertRaises(Refused) as caught:
            Controller().write(BFFSIZR, 0x1F)
        again = pickle.loads(pickle.dumps(caught.exception))
        self.assertEqual((str(again), repr(again)), (str(caught.exception), repr(caught.exception)))
        self.assertEqual((again.number, again.address, again.value), (6, BFFSIZR, 0x1F))


class Objects(unittest.TestCase):
    def test_equality(self):
        self.assertEqual(Controller(), Controller())
        self.assertEqual(synchronized(), synchronized())
        self.assertNotEqual(Controller(), synchronized())
        self.assertNotEqual(Controller(), "controller")
        self.assertRaises(TypeError, hash, Controller())
        # the same steps from reset, whatever came before it
        c = synchronized()
        c.reset()
        self.assertEqual((c, c.state()), (Controller(), Controller().state()))

    def test_repr(self):
        self.assertEqual(repr(synchronized()), "<Controller: BFMCR $00, interrupt lines $00, 2 waiting>")

    def test_context(self):
        with Controller() as c:
            c.write(BFTCR1, 7)
        self.assertEqual(c.read(BFTCR1), 7)

    def test_words(self):
        answer = Controller().sync()
        self.assertIs(answer.word, Word.IGNORED)
        self.assertEqual(answer.word, "ignored")
        self.assertEqual((f"{answer.word:>8}", str(answer.word), f"{answer.word}"), (" ignored", "ignored", "ignored"))
        self.assertEqual(repr(answer), "Answer(word='ignored', detail=None, looked=0)")
        self.assertIs(Word("stored"), Word.STORED)

    def test_enums_are_numbers(self):
        self.assertEqual((Register.BFRDATA11, Register.BFBUFCTL15, Sync.ALARM, Fault.MISMATCH), (0x3D, 0x5F, 1, 3))
        self.assertEqual(len(Register), 28 + 3 * 11 + 15)
        c = Controller()
        c.write(Register.BFMCR, MASTER | ALARM)
        self.assertIs(c.sync_due().detail, Sync.ALARM)
        self.assertEqual(c.fault(Fault.LOST), ("ok", None, 0))

    def test_ranges(self):
        for function, most in ((BFTDATA, 11), (BFRDATA, 11), (BFFDATA, 11), (BFBUFCTL, 15)):
            name = function.__name__
            self.assertEqual([function(n) for n in range(most + 1)], [function(0) + n for n in range(most + 1)])
            self.assertEqual(function(most).name, f"{name}{most}")
            for wrong in (-1, most + 1, 14 if most == 11 else 16, 255):
                with self.assertRaisesRegex(ValueError, rf"^{name}\({wrong}\): there are {name}\(0\) to {name}\({most}\)$"):
                    function(wrong)
            self.assertRaises(TypeError, function, "0")

    def test_a_frame_that_is_no_bytes(self):
        c = Controller()
        with self.assertRaisesRegex(TypeError, r"bytes\.fromhex\('2102AABB'\)"):
            c.frame("2102AABB")
        with self.assertRaisesRegex(TypeError, r"bytes"):
            c.frame(0x21)

    def test_refusals_name_the_call(self):
        c = synchronized()
        for call, text in (
            (lambda: c.write(BFRIDENT, 0x22), r"write of \$22 to BFRIDENT \$30"),
            (lambda: c.read(0x60), r"read of \$60"),
            (lambda: c.frame(b"\x21\x02\x55"), r"frame 210255, verdict 1"),
            (lambda: c.slot(0x41, room=3), r"slot \$41 with a room of 3 bytes"),
        ):
            with self.assertRaises(Refused) as caught:
                call()
            refused = caught.exception
            self.assertRegex(refused.call, f"^{text}$")
            self.assertRegex(repr(refused), text)
            self.assertEqual(str(refused), f"refused {refused.number}: {REFUSALS[refused.number]}")

    def test_large_room(self):
        self.assertEqual(synchronized().slot(0x41, room=2**40).word, "notsent")


class States(unittest.TestCase):
    def test_waiting(self):
        state = synchronized().state()
        self.assertEqual(state.waiting, ((3, b"\x21\x01\xaa" + bytes(11)), (3, b"\x21\x02\xbb\xcc" + bytes(10))))
        self.assertEqual(state.buffers[3], b"\x21" + bytes(13))
        self.assertEqual(state.registers[BFBUFCTL(3)], LOCK)
        rows = str(state).split("\n")
        self.assertEqual(rows[0], "what\tplace\tanswer\tdetail")
        self.assertEqual(rows[97:99], ["buffer\t00\tholds\t" + 28 * "0", "buffer\t01\tholds\t" + 28 * "0"])
        self.assertEqual(rows[113:], ["waiting\t03\tholds\t2101AA" + 22 * "0", "waiting\t03\tholds\t2102BBCC" + 20 * "0"])

    def test_asleep(self):
        c = Controller()
        c.write(BFPCTLBF, BFEN)
        c.write(BFMCR, 0)
        c.write(BFMCR, SLPRQ)
        state = c.state()
        self.assertEqual(state.registers, (SLPRQ | SLPAK, *95 * [None]))
        self.assertEqual(list(state.rows())[1:3], ["register\t00\tread\t18", "register\t01\trefused\t02"])
        self.assertEqual(c.state(), state)


class Raises:
    """As much of pytest.raises as docs/PYTHON.md uses."""

    def __init__(self, kind, match):
        self.kind, self.match, self.value = kind, match, None

    def __enter__(self):
        return self

    def __exit__(self, kind, value, _):
        self.value = value
        return value is not None and isinstance(value, self.kind) and bool(re.search(self.match, str(value)))


class Document(unittest.TestCase):
    """The code that docs/PYTHON.md shows runs as it says."""

    def code(self, heading):
        section = (TOP / "docs" / "PYTHON.md").read_text().split(f"\n## {heading}\n")[1].split("\n## ")[0]
        return textwrap.dedent("\n".join(line for line in section.split("\n") if line.startswith("    ") or not line))

    def test_first_test(self):
        pytest = types.ModuleType("pytest")
        pytest.fixture, pytest.raises = (lambda function: function), Raises
        with unittest.mock.patch.dict(sys.modules, pytest=pytest):
            names = {}
            exec(self.code("A first test"), names)
        tests = [name for name in names if name.startswith("test_")]
        self.assertEqual(len(tests), 3)
        for name in tests:
            names[name](names["c"]())

    def test_recordings(self):
        printed = io.StringIO()
        code = self.code("Recordings").replace("examples/door.rec", str(TOP / "examples" / "door.rec"))
        with contextlib.redirect_stdout(printed):
            exec(code, {"pathlib": pathlib, **{name: getattr(hevrukan, name) for name in hevrukan.__all__}})
        self.assertEqual([line.split()[0] for line in printed.getvalue().splitlines()], ["204", "213", "214", "215", "324"])

    def test_readme(self):
        """README's lines of Python give what their comments say."""
        section = (TOP / "README.md").read_text().split("\n## From Python\n")[1].split("\n## ")[0]
        lines = re.findall(r"^    (c\..*?) +# (.*)$", section, re.M)
        self.assertGreater(len(lines), 4)
        names = {name: getattr(hevrukan, name) for name in hevrukan.__all__}
        names["c"] = Controller()
        for code, comment in lines:
            try:
                got = repr(eval(code, names))
            except Refused as refused:
                got = f"raises Refused: {refused}"
            self.assertTrue(comment == got or comment.startswith(f"{got}: "), (code, got))

    def test_commands(self):
        shown = [line for line in self.code("The commands").splitlines() if line[:1].isdigit()]
        rows = (TOP / "tests" / "package-outputs" / "door-explain.txt").read_text().splitlines()
        self.assertEqual(len(shown), 2)
        self.assertLessEqual(set(shown), set(rows))


class Package(unittest.TestCase):
    def test_version(self):
        self.assertEqual(hevrukan.__version__, (TOP / "VERSION").read_text().strip())

    def test_library_of_another_version(self):
        with unittest.mock.patch("hevrukan.shared.version", lambda: "0.5.9"):
            with self.assertRaisesRegex(OSError, r"libhevrukan\.so is of version number \d+, the package of version 0\.5\.9"):
                library.__wrapped__()

    def test_another_library(self):
        with unittest.mock.patch.dict(os.environ, HEVRUKAN_LIBRARY=_ctypes.__file__):
            with self.assertRaisesRegex(OSError, rf"{_ctypes.__file__} is no library of Hevrukan {hevrukan.__version__}: .*hevrukan_size"):
                library.__wrapped__()

    def test_doctests(self):
        tried = 0
        for name in MODULES:
            result = doctest.testmod(importlib.import_module(name))
            self.assertEqual(result.failed, 0, name)
            tried += result.attempted
        self.assertGreater(tried, 30)

    def test_all(self):
        """import * has each public name, and no module."""
        found = {}
        exec("from hevrukan import *", found)
        del found["__builtins__"]
        self.assertEqual(set(found), set(hevrukan.__all__))
        self.assertEqual(len(hevrukan.__all__), len(set(hevrukan.__all__)))
        self.assertFalse([name for name, value in found.items() if inspect.ismodule(value)])
        names = vars(hevrukan.names)
        own = {name for name in names if name.isupper() or getattr(names[name], "__module__", "") == "hevrukan.names"}
        self.assertEqual({name for name in own if name[0] != "_"} - {"address_text"}, set(hevrukan.names.__all__))

    def test_type_hints(self):
        """Every function has them, for each argument and what it returns, and they name what is there."""
        self.assertTrue(os.path.isfile(os.path.join(hevrukan.__path__[0], "py.typed")))
        tried = 0
        for module in map(importlib.import_module, MODULES):
            classes = [value for value in vars(module).values() if inspect.isclass(value) and value.__module__.startswith("hevrukan")]
            for place in [module, *classes]:
                for name, function in vars(place).items():
                    function = getattr(function, "__func__", function)
                    if not inspect.isfunction(function) or not function.__module__.startswith("hevrukan") or "<" in function.__qualname__:
                        continue
                    if name in ("_make", "_replace", "_asdict", "__getnewargs__", "__new__", "__repr__") and hasattr(place, "_fields"):
                        continue
                    tried += 1
                    hints = typing.get_type_hints(function, localns={"Controller": Controller})
                    arguments = [argument for argument in inspect.signature(function).parameters if argument != "self"]
                    self.assertEqual(set(hints), {*arguments, "return"}, f"{place.__name__}.{name}")
        self.assertGreater(tried, 80)


if __name__ == "__main__":
    unittest.main()
