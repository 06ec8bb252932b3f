"""./hevrukan state, explain and stats: held to replay's report and to the independent model, and what they say where something is wrong.
tests/package runs it; the environment's MODEL is the built tests/model."""

import os
import pathlib
import pty
import re
import resource
import signal
import subprocess
import tempfile
import time
import unittest

from hevrukan.explain import explained
from hevrukan.names import BFMCR, REFUSALS, SLPAK, Register
from hevrukan.recording import HEADING, lines_of
from hevrukan.stats import Stats
from hevrukan.watch import Watch

TOP = pathlib.Path(__file__).resolve().parent.parent
EXPECTED = TOP / "tests" / "package-outputs"
DOOR = TOP / "examples" / "door.rec"
FIXTURES = sorted([*(TOP / "examples").glob("*.rec"), *(TOP / "crates/fixtures/data").glob("*.rec")])
LINES = {"FIFO": 16, "receive": 8, "sync": 4, "XSYNC": 2, "general": 1, "none": 0}
# how an explanation begins, and the report's word of it
BEGINS = [
    (r"stored in buffer (\d+)$", "stored"), (r"queued in buffer (\d+) of the FIFO$", "queued"),
    (r"waiting for buffer (\d+), which is locked$", "waiting"), (r"held off: buffer (\d+) is locked", "heldoff"),
    (r"overrun: ", "overrun"), (r"unmatched: ", "unmatched"), (r"bad frame: ", "badframe"), (r"ignored: ", "ignored"),
    (r"woke ", "woke"), (r"refused (\d+): ", "refused"), (r"unread: ", "unread"), (r"read of [^:]*: \$(..)", "read"),
    (r"sent from buffer \d+: ([0-9A-F ]+)$", "sent"), (r"not sent: ", "notsent"), (r"sync due: (n|a)", "pulse"), (r"", "ok"),
]


def run(program, *words, data=None, **more):
    """A finished program: its output, what it said, its status."""
    if data is not None:
        more["input"] = data
    else:
        more.setdefault("stdin", subprocess.DEVNULL)
    more.setdefault("stdout", subprocess.PIPE)
    done = subprocess.run([str(program), *map(str, words)], stderr=subprocess.PIPE, timeout=60, **more)
    return (done.stdout or b"").decode(), done.stderr.decode(), done.returncode


def output(program, *words, **more):
    """What a program writes that must not fail."""
    out, said, status = run(program, *words, **more)
    if status:
        raise AssertionError(f"{program} {words}: status {status}: {said}")
    return out


def hevrukan(*words, **more):
    return run(TOP / "hevrukan", *words, **more)


def model(*words):
    return output(os.environ["MODEL"], *words)


def report(path):
    """The rows of replay's report, their fields."""
    return [row.split("\t") for row in output(TOP / "target/bin/replay", path).splitlines()[1:]]


def watched(path):
    """The rows of a recording as the package sees them, with the controller after each."""
    watch = Watch()
    with open(path, "rb") as file:
        for seen in watch.rows(lines_of(file)):
            yield seen, watch.controller


class Recordings(unittest.TestCase):
    """On the fixtures, the examples and random recordings."""

    @classmethod
    def setUpClass(cls):
        folder = tempfile.TemporaryDirectory()
        cls.addClassCleanup(folder.cleanup)
        cls.random = []
        for kind in ("mixed", "wild", "damaged", "text", "data"):
            for seed in range(1, 5):
                cls.random.append(pathlib.Path(folder.name, f"{kind}-{seed}.rec"))
                with open(cls.random[-1], "wb") as file:
                    subprocess.run([os.environ["MODEL"], "make", kind, str(seed), "1500"], stdout=file, check=True, timeout=60)

        # a locked transmit buffer below FSIZ is no holder of the FIFO window; a contender becomes holder; asleep, a release is seen too
        directed = """W 01 04|W 51 90|R 40|R 20|W 51 80|W 51 00|W 01 00|W 55 10|W 56 10|R 30|W 55 00|R 30|W 30 21|W 10 80|W 00 00|S N|
            F G 2101AA|F G 2101BB|W 00 08|W 56 00|R 30|W 00 00|R 30|W 56 30|R 32|W 56 20|R 30|Z|R 30"""
        cls.random.append(pathlib.Path(folder.name, "directed.rec"))
        cls.random[-1].write_text("".join("\t".join(line.split()) + "\n" for line in directed.split("|")))

    def test_replay(self):
        """The package's replay is the proved program's; what it sees beside it, and the state at any line, are the model's."""
        asleep = waiting = 0
        for path in [*FIXTURES, *self.random]:
            rows, seen, states = [], [], {}
            for each, c in watched(path):
                number = each.row.number
                rows.append(f"{each.row}\n")
                shown = ["-" if value is None else str(value) for value in (each.window, each.sender, each.stored, each.read)]
                seen.append("\t".join([str(number), *shown]))
                state = c.state() if number % 100 == 0 or c.read(BFMCR) & SLPAK or c._waiting() else None
                kind = state and (state.registers[1] is None, len(state.waiting), number // 500)
                if state and kind not in states:
                    states[kind] = state
                    asleep, waiting = asleep + kind[0], waiting + kind[1]
                    self.assertEqual("\n".join([*state.rows(), ""]), model("state", path, number), (path, number))
            self.assertEqual("".join([f"{HEADING}\n", *rows]), output(TOP / "target/bin/replay", path), path)
            self.assertEqual(seen, model("seen", path).splitlines(), path)
        # or the run says nothing of them
        self.assertGreater(asleep, 5)
        self.assertGreater(waiting, 5)

    def test_explained_rows(self):
        """Each row of explain says what replay's says."""
        tried = 0
        for path in [*FIXTURES, *self.random]:
            for (seen, c), (number, word, detail, irq, looked) in zip(watched(path), report(path)):
                text = explained(seen, c).text
                found = re.fullmatch(r"(\d+)  (.*)   (\S.*?)   lines: (.*?)(?:   looked: (\d+))?", text)
                self.assertEqual(found[1], number)
                self.assertEqual(sum(LINES[name] for name in found[4].split(", ")), int(irq, 16), text)
                self.assertEqual(found[5] or "0", looked, text)
                begin, meant = next((re.match(begin, found[3]), meant) for begin, meant in BEGINS if re.match(begin, found[3]))
                self.assertEqual(meant, word, text)
                self.detail(word, detail, begin, text)
                tried += 1
        self.assertGreater(tried, 30_000)

    def detail(self, word, detail, begin, text):
        if word == "sent":
            self.assertEqual(begin[1].replace(" ", ""), detail, text)
        elif word == "read":
            self.assertEqual(begin[1], detail, text)
        elif word == "pulse":
            self.assertEqual(begin[1].upper(), detail, text)
        elif word == "refused":
            self.assertEqual(int(begin[1]), int(detail, 16), text)
            self.assertIn(REFUSALS[int(begin[1])], text)
        elif begin.groups():
            self.assertEqual(int(begin[1]), int(detail, 16), text)
        else:
            self.assertEqual(detail, "-", text)

    def test_stats(self):
        """The counts, from replay's report and the model."""
        for path in [DOOR, *self.random]:
            stats = Stats()
            for seen, _ in watched(path):
                stats.add(seen)
            tables = [table.split("\n") for table in "\n".join(stats.rows()).split("\n\n")]
            heading = tables[0][0].split("\t")[1:]
            lines = path.read_bytes().split(b"\n")
            came, stored, refused = {}, 16 * [0], {}
            for line, (_, word, detail, _, _) in zip(lines, report(path)):
                if word != "unread" and line[:1] == b"F":
                    counts = came.setdefault(line[4:6].decode() or "-", dict.fromkeys(heading, 0))
                    counts["came"] += 1
                    counts[word] += 1
                if word == "sent":
                    came.setdefault(detail[:2], dict.fromkeys(heading, 0))["sent"] += 1
                if word in ("stored", "queued"):
                    stored[int(detail, 16)] += 1
                if word == "refused":
                    refused[detail] = refused.get(detail, 0) + 1
            want = ["\t".join([name, *map(str, counts.values())]) for name, counts in sorted(came.items())]
            self.assertEqual(tables[0][1:], want, path)
            seen = [row.split("\t") for row in model("seen", path).splitlines()]
            for number, row in enumerate(seen):
                if row[3] != "0":
                    stored[int(lines[number].split(b"\t")[1], 16) - 0x50] += int(row[3])
            read, sent = ([sum(row[at] == str(n) for row in seen) for n in range(16)] for at in (4, 2))
            counts = [f"{n:02X}\t{stored[n]}\t{read[n]}\t{sent[n]}" for n in range(16)]
            self.assertEqual(tables[1:], [
                ["buffer\tstored\tread\tsent", *counts],
                ["refusal\tcount\twhen", *(f"{n:02X}\t{refused.get(f'{n:02X}', 0)}\t{text}" for n, text in REFUSALS.items())],
            ])

    def test_door(self):
        """The stored outputs, which were read against the replay line by line."""
        for command in ("explain", "stats"):
            want = (EXPECTED / f"door-{command}.txt").read_text()
            self.assertEqual(hevrukan(command, DOOR)[0], want)
        self.assertIn("49  F G 12 03 55AA01   stored in buffer 2   lines: receive, general   looked: 1\n", hevrukan("explain", DOOR)[0])


    def test_first_steps(self):
        """README's first commands write what stands below them."""
        lines = (TOP / "README.md").read_text().split("\n")
        shown = [(at, line[6:]) for at, line in enumerate(lines) if line.startswith("    $ ")]
        self.assertGreaterEqual(len(shown), 3)
        for at, command in shown:
            end = next(k for k in range(at + 1, len(lines)) if not lines[k].startswith("    ") or lines[k].startswith("    $ "))
            below = "".join(line[4:] + "\n" for line in lines[at + 1:end])
            self.assertEqual(output("sh", "-c", command, cwd=TOP), below, command)

    def test_state_of_the_example_in_c(self):
        """examples/state.c prints the same of the same lines; tests/interface holds it to this text."""
        self.assertEqual(hevrukan("state", TOP / "examples/locked.rec", 10)[0], (TOP / "examples/state.txt").read_text())


class Filters(unittest.TestCase):
    def numbers(self, *words):
        """The numbers of the lines that pass, each a row of the whole."""
        rows = output(TOP / "hevrukan", "explain", *words, DOOR).splitlines()
        self.assertTrue(rows)
        self.assertLessEqual(set(rows), set((EXPECTED / "door-explain.txt").read_text().splitlines()))
        return [int(row.split()[0]) for row in rows]

    def test_only(self):
        for words in ("refused", "refused,overrun", "stored,queued,unread"):
            want = [int(row[0]) for row in report(DOOR) if row[1] in words.split(",")]
            self.assertEqual(self.numbers("--only", words), want)
            self.assertEqual(self.numbers(f"--only={words}"), want)
        self.assertEqual(self.numbers("--only", "refused", "--only", "overrun"), [184, 204, 213, 214, 215, 324])

    def test_id(self):
        self.assertEqual(self.numbers("--id", "12"), [4, 49, 52, 213, 331, 333])
        for same in ("$12", "0x12"):
            self.assertEqual(self.numbers("--id", same), self.numbers("--id", "12"))
        self.assertEqual(self.numbers("--id", "60,6f"), self.numbers("--id", "60", "--id", "6F"))

    def test_buffer(self):
        self.assertEqual(self.numbers("--buffer", "0"), [182, *range(188, 196)])
        self.assertEqual(self.numbers("--buffer", "2", "--only", "stored,ok"), [3, 4, 5, 49, 51, 57, 331, 332, 338])
        self.assertEqual(self.numbers("--id", "12", "--buffer", "2"), [4, 49, 52, 331, 333])


class Messages(unittest.TestCase):
    def fails(self, status, message, *words, **more):
        out, said, got = hevrukan(*words, **more)
        self.assertEqual((got, out), (status, ""), said)
        self.assertRegex(said, r"\Ahevrukan: [^\n]*\n\Z")
        self.assertRegex(said, message)

    def test_files(self):
        for command in ("state", "explain", "stats"):
            self.fails(1, "nowhere.rec: No such file", command, "nowhere.rec")
            self.fails(1, f"{TOP}: Is a directory", command, TOP)
            self.fails(1, "'': No such file", command, "")
            self.fails(1, r"a\?b.rec: No such file", command, "a\nb.rec")
            with open("/dev/full", "w") as full:
                self.fails(1, "No space left on device", command, TOP / "examples/first.rec", stdout=full)
                self.fails(1, "No space left on device", command, "-h", stdout=full)

    def test_usage(self):
        for command in ("state", "explain", "stats"):
            self.fails(2, f"{command}: there is no option '-x'; ./hevrukan {command} -h says more", command, "-x")
            self.fails(2, "too many words: '[1c]'", command, "a", "1", "c")
            for asked in ("-h", "--help"):
                out, said, status = hevrukan(command, asked)
                self.assertEqual((status, said), (0, ""))
                self.assertTrue(out.startswith(f"Usage: ./hevrukan {command} "))
        for line in ("x", "-1", "1000000", "1.0", "", "٣", 5000 * "9"):
            self.fails(2, "LINE is a number", "state", "--", DOOR, line)
        self.fails(2, "there is no answer 'lost'; the answers are ok, ", "explain", "--only", "refused,lost", DOOR)
        self.fails(2, "--id wants an identifier in hex, such as 21, not 'xx'", "explain", "--id", "xx", DOOR)
        self.fails(2, "--buffer wants a buffer's number, 0 to 15, not '16'", "explain", "--buffer", "16", DOOR)
        self.fails(2, "explain: --only wants a value", "explain", DOOR, "--only")
        self.fails(2, "stats: there is no option '--only'", "stats", DOOR, "--only=refused")

    def test_standard_input_is_a_directory(self):
        folder = os.open(TOP, os.O_RDONLY)
        self.fails(1, "standard input: Is a directory", "state", stdin=folder)
        os.close(folder)

    def test_said_before_a_build(self):
        """Without a library nothing is built for words that are wrong, nor for -h."""
        with tempfile.TemporaryDirectory() as folder:
            for name in ("hevrukan", "VERSION", "crates.txt", "crates", "python", "help"):
                if (TOP / name).exists():
                    (pathlib.Path(folder) / name).symlink_to(TOP / name)
            script = pathlib.Path(folder) / "hevrukan"
            script.unlink()
            script.write_bytes((TOP / "hevrukan").read_bytes())
            script.chmod(0o755)
            for status, *words in ((1, "state", "nowhere.rec"), (1, "stats", folder), (2, "explain", "--only", "lost"), (2, "state", "a", "x")):
                out, said, got = run(script, *words)
                self.assertEqual((got, out, said.count("\n")), (status, "", 1), said)
            self.assertEqual(run(script, "state", "-h")[1:], ("", 0))
            self.assertFalse((pathlib.Path(folder) / "target").exists())

    def test_a_line_and_no_file(self):
        self.fails(1, "49: No such file or directory; LINE stands behind FILE, which is - for standard input", "state", 49)

    def test_past_the_end(self):
        first = TOP / "examples/first.rec"
        self.fails(1, "first.rec: there is no line 24; it has 23 lines", "state", first, 24)
        self.assertEqual(hevrukan("state", first, 23)[0], hevrukan("state", first)[0])

    def test_standard_input(self):
        data = DOOR.read_bytes()
        for command, *words in (["state"], ["state", "49"], ["explain"], ["stats"]):
            want = hevrukan(command, DOOR, *words)
            self.assertEqual(hevrukan(command, "-", *words, data=data), want)
            self.assertEqual(hevrukan(command, "--", "-", *words, data=data), want)
            if not words:
                self.assertEqual(hevrukan(command, data=data), want)
        self.assertEqual(want[1:], ("hevrukan: line 219 unread: begins with 'w'; letters and digits are upper case\n"
                                    "hevrukan: replayed: lines read 340, unread 4, refused 5, dropped 0\n", 0))

    def test_hints(self):
        said = hevrukan("stats", data=DOOR.read_bytes().replace(b"\n", b"\r\n"))[1].splitlines()
        self.assertEqual(said, ["hevrukan: line 1 unread: ends in CR; Windows line ends?",
                                "hevrukan: replayed: lines read 340, unread 340, refused 0, dropped 0"])

    def test_limits(self):
        """Lines past 999,999 are dropped; a line of any length is held in little memory."""
        long = b"F\tG\t" + 100_000_000 * b"0" + b"\nR\t00\n" + 999_999 * b"\n"
        out, said, status = hevrukan("state", data=long, preexec_fn=lambda: resource.setrlimit(resource.RLIMIT_AS, (1 << 28, 1 << 28)))
        self.assertEqual(said.splitlines()[1:], ["hevrukan: replayed: lines read 999999, unread 999998, refused 0, dropped 2"])
        self.assertEqual((out, status), (hevrukan("state", data=b"")[0], 0))

    def test_progress(self):
        """Lines so far on a terminal, and nothing of them elsewhere; what is said afterwards stands on a line of its own."""
        data = 100_001 * b"R\t00\n"
        closing = "hevrukan: replayed: lines read 100001, unread 0, refused 0, dropped 0"
        self.assertEqual(hevrukan("state", data=data)[1], f"{closing}\n")
        terminal, end = pty.openpty()
        with tempfile.TemporaryFile() as file:
            file.write(data)
            file.seek(0)
            subprocess.run([TOP / "hevrukan", "state"], stdin=file, stdout=subprocess.DEVNULL, stderr=end, timeout=60, check=True)
        os.close(end)
        said = os.read(terminal, 1 << 16).decode()
        os.close(terminal)
        self.assertRegex(said, "\\A(\rhevrukan: lines so far: \\d+000)+\r {40}\r" + closing + "\r\n\\Z")

    def test_closed_pipe(self):
        """It ends as replay does: by the signal, without a word of it."""
        reading, writing = os.pipe()
        os.close(reading)
        with os.fdopen(writing, "w") as closed:
            _, said, status = hevrukan("explain", TOP / "examples/first.rec", stdout=closed)
        self.assertEqual((status, said), (-signal.SIGPIPE, ""))

    def test_signals(self):
        """A signal to the command ends its program."""
        for number in (signal.SIGTERM, signal.SIGINT):
            with subprocess.Popen([TOP / "hevrukan", "stats"], stdin=subprocess.PIPE, stderr=subprocess.PIPE, stdout=subprocess.PIPE) as child:
                # it answers nothing before its input's end: its own program is up once /proc says so
                until = time.monotonic() + 60
                while b"python" not in pathlib.Path(f"/proc/{child.pid}/cmdline").read_bytes():
                    self.assertIsNone(child.poll())
                    self.assertLess(time.monotonic(), until)
                child.send_signal(number)
                said = child.communicate(timeout=60)[1]
            self.assertEqual(child.returncode, -number, said)


class Elsewhere(unittest.TestCase):
    def test_other_modules_are_not_in_the_way(self):
        """A file of the folder in which a command runs is never taken for a module of its own."""
        with tempfile.TemporaryDirectory() as folder:
            for name in ("copy.py", "enum.py", "hevrukan.py", "ctypes.py"):
                (pathlib.Path(folder) / name).write_text("raise SystemExit('the wrong module')\n")
            out, _, status = hevrukan("state", DOOR, 0, cwd=folder)
            self.assertEqual((status, out.splitlines()[1]), (0, "register\t00\tread\t81"))

    def test_reasons(self):
        """Why a step is ignored, and what a frame, a read or a release did: the words of each."""
        steps = {
            "S N": "ignored: in initialization", "W 10 80": "write of BFPCTLBF: BFEN", "W 50 10": "write of BFBUFCTL0: LOCK",
            "W 30 21": "write of BFRIDENT of buffer 0: $21", "W 00 00": "write of BFMCR: $00", "M": "ignored: not the master",
            "T 21": "ignored: not synchronized", "F G 2100": "ignored: not synchronized", "S A": "alarm sync",
            "F G 2101AA": "waiting for buffer 0, which is locked", "F G 2101BB": "waiting for buffer 0, which is locked",
            "F G 2101CC": "held off: buffer 0 is locked, and both waiting places are taken",
            "R 12": "read of BFBUFLOCK: $01 RXBUFLOCK", "R 0A": "read of BFRIVEC: $10 none", "W 06 45": "write of BFRISR: RXIF, $05 reserved",
            "W 50 00": "write of BFBUFCTL0: $00; 2 frames that waited are stored in buffer 0", "R 32": "read of BFRDATA0, no holder: $00",
            "F B 2100": "bad frame: ERRIF", "F G 2200": "unmatched: no buffer takes it", "P M": "slot mismatch: SLMMIF",
            "W 00 08": "write of BFMCR: SLPRQ", "T 22": "ignored: asleep", "Q": "ignored: asleep",
            "R 01": "refused 2: asleep, register call other than $00 (read of BFFSIZR)", "P E": "woke the module: WAKEIF",
            "W 60 00": "refused 1: address above $5F (write of $60: $00)", "R 05": "read of $05, reserved: $00", "Z": "reset",
        }
        data = "".join("\t".join(line.split()) + "\n" for line in steps)
        rows = output(TOP / "hevrukan", "explain", data=data.encode()).splitlines()
        for row, words in zip(rows, steps.values()):
            self.assertEqual(row.split("   ")[1], words, row)
        self.assertEqual(len(rows), len(steps))

    def test_registers_have_names(self):
        """Each register of docs/REGISTERS.md is called by its name."""
        lines = b"".join(b"R\t%02X\n" % address for address in range(0x60))
        rows = output(TOP / "hevrukan", "explain", data=lines).splitlines()
        for address, row in enumerate(rows):
            try:
                name = Register(address).name
            except ValueError:
                name = f"${address:02X}, reserved"
            self.assertIn(f"read of {name}", row)


if __name__ == "__main__":
    unittest.main()
