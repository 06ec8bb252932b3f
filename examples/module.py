"""Tests a door module as its test code would: module.c in Python. It prints module.txt.

./hevrukan example python  builds what is missing and runs it.
"""

import os
import signal
import sys

sys.path.insert(0, os.path.join(os.path.dirname(os.path.realpath(__file__)), "..", "python"))
from hevrukan import *  # the registers and bits by the manual's names

# What the module says, and what it is told.
LOCK_COMMAND, WINDOW_SWITCH, WINDOW_POSITION, DIAGNOSIS = 0x12, 0x21, 0x41, 0x60
# Their buffers; 0 and 1 are the FIFO.
LOCK_BUFFER, SWITCH_BUFFER, POSITION_BUFFER = 2, 3, 15

LINES = [(LINE_FIFO, "FIFO"), (LINE_RECEIVE, "receive"), (LINE_SYNC, "sync"), (LINE_XSYNC, "XSYNC"), (LINE_GENERAL, "general")]

c = Controller()


def spaced(data):
    return data.hex(" ").upper()


def row(call, answer, why):
    """One row: the call, its answer, and why."""
    print(f"  {call:<26} {answer:<12} {why}")


def put(address, value, why):
    row(f"write ${address:02X} ${value:02X}", c.write(address, value).word, why)


def get(address, why):
    row(f"read ${address:02X}", f"read ${c.read(address):02X}", why)


def pulse(why):
    row("sync normal", c.sync().word, why)


def frame(data, why):
    """A good frame of the module, and how many receive buffers were examined for its own."""
    answer = c.frame(data)
    text = answer.word if answer.detail is None else f"{answer.word} {answer.detail}"
    row(f"frame {spaced(data)}", text, why)
    print(f"    receive buffers examined: {answer.looked}")


def slot(identifier, why):
    answer = c.slot(identifier)
    row(f"slot ${identifier:02X}", answer.word, why)
    if answer.word == "sent":
        print(f"    the frame: {spaced(answer.detail)}")


def lines():
    """The interrupt lines that are up."""
    up = [name for bit, name in LINES if c.lines() & bit]
    print("    interrupt lines:", *up or ["none"])


def window(address):
    """The window that begins at this address: identifier, length and the twelve data registers."""
    identifier, length, *data = (c.read(address + k) for k in range(14))
    print(f"    identifier ${identifier:02X}, length {length}, data {spaced(bytes(data))}")


def set_up():
    print("Set-up")
    row("reset", c.reset().word, "in initialization, all buffers empty")
    put(BFFSIZR, 2, "the FIFO is buffers 0 and 1")
    put(BFBUFCTL(LOCK_BUFFER), LOCK, "buffer 2 locked: the receive window shows it")
    put(BFRIDENT, LOCK_COMMAND, "it takes the lock command, $12")
    put(BFBUFCTL(LOCK_BUFFER), IENA, "released, with its interrupt")
    put(BFBUFCTL(SWITCH_BUFFER), LOCK, "buffer 3")
    put(BFRIDENT, WINDOW_SWITCH, "takes the window switch, $21")
    put(BFBUFCTL(SWITCH_BUFFER), IENA, "released")
    put(BFBUFCTL(POSITION_BUFFER), CFG | LOCK, "buffer 15 is a transmit buffer, in the transmit window")
    put(BFTIDENT, WINDOW_POSITION, "it sends the window's position, $41,")
    put(BFTLEN, 2, "of two bytes")
    put(BFBUFCTL(POSITION_BUFFER), CFG, "released")
    put(BFFIDAC, DIAGNOSIS, "the FIFO accepts $60")
    put(BFFIDMR, 0x0F, "to $6F,")
    put(BFFIDRJ, 0x6F, "but for $6F:")
    put(BFFIDRMR, 0x00, "all its bits are compared")
    put(BFRIER, RCVFIE | RXIE, "the FIFO line and the receive line are enabled")
    put(BFMCR, 0x00, "initialization left: the layout is lawful")
    get(BFMCR, "normal operation")


def receive():
    print("\nA frame of the module")
    pressed = bytes([WINDOW_SWITCH, 3, 0x55, 0xAA, 0x01])
    frame(pressed, "no sync yet")
    pulse("synchronized")
    frame(pressed, "the window switch is pressed")
    lines()
    get(BFRIVEC, "the receive vector names its buffer")
    put(BFBUFCTL(SWITCH_BUFFER), IENA | LOCK, "locked, to read it whole")
    window(BFRIDENT)
    put(BFBUFCTL(SWITCH_BUFFER), IENA | IFLG, "released; IFLG 1 says that it was read")
    lines()
    get(BFRIVEC, "none")


def meet_lock():
    print("\nA frame that meets a lock")
    released = bytes([WINDOW_SWITCH, 3, 0x55, 0xAA, 0x00])
    put(BFBUFCTL(SWITCH_BUFFER), IENA | LOCK, "locked again")
    pulse("the next cycle")
    frame(released, "the window switch is let go: the frame waits")
    window(BFRIDENT)
    put(BFBUFCTL(SWITCH_BUFFER), IENA, "released, which stores it")
    lines()
    put(BFBUFCTL(SWITCH_BUFFER), IENA | LOCK, "locked, to read it")
    window(BFRIDENT)
    put(BFBUFCTL(SWITCH_BUFFER), IENA | IFLG, "released; it was read")


def queue():
    print("\nThe FIFO")
    frame(bytes([DIAGNOSIS, 1, 0x7E]), "a diagnosis frame")
    frame(bytes([0x6F, 1, 0x7F]), "rejected by the filter")
    lines()
    put(BFBUFCTL(0), LOCK, "the oldest entry locked")
    window(BFFIDENT)
    put(BFBUFCTL(0), 0x00, "released, which removes it")
    lines()


def transmit():
    print("\nA frame for the module")
    put(BFBUFCTL(POSITION_BUFFER), CFG | LOCK, "the transmit buffer locked")
    put(BFTDATA(0), 0x10, "data 0")
    put(BFTDATA(1), 0x64, "data 1")
    put(BFBUFCTL(POSITION_BUFFER), CFG | IFLG, 'released; IFLG 1 says "send this"')
    slot(WINDOW_POSITION, "the request came after the last sync")
    pulse("the buffer is armed")
    slot(WINDOW_POSITION, "its turn on the bus")
    get(BFBUFCTL(POSITION_BUFFER), "IFLG: the buffer is empty again")


def refusal():
    print("\nA refusal")
    try:
        put(BFRIDENT, DIAGNOSIS, "")
    except Refused as refused:
        row(f"write ${BFRIDENT:02X} ${DIAGNOSIS:02X}", f"refused {refused.number}", "too late for another identifier")
        print(f"    {refused.text}")


def main():
    set_up()
    receive()
    meet_lock()
    queue()
    transmit()
    refusal()
    sys.stdout.flush()


if __name__ == "__main__":
    signal.signal(signal.SIGPIPE, signal.SIG_DFL)  # a closed pipe ends it, as it ends module.c
    try:
        main()
    except OSError as failed:
        sys.stdout = None  # nothing more can be written there
        sys.exit(f"hevrukan: writing to standard output: {failed.strerror}")
