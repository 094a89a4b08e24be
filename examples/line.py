#!/usr/bin/env python3
"""Runs `deluge base` on a serial line: hands frames both ways, and lets the mote see time pass by the clock.

    line.py [--baud RATE] [--log FILE] DEVICE -- deluge base --id 0 --step 8 --seed 7 CHIP
    line.py [--log FILE] --new NAME -- deluge base --id 0 --step 8 --seed 7 CHIP

DEVICE is a serial device or a pseudo terminal. With --new a pseudo terminal is made in its place, and NAME leads to the end of
it that another program opens. --log writes a line for each frame to FILE, or to standard error where FILE is `-`.

A mote on a line sees time pass by what it hears (docs/COMMANDS.md, "Base"): each event is D milliseconds behind the one before
it, D being the value of --step. A frame brings two events, and a tick one. So ticks are sent such that the events keep up
with the clock. A run takes 16,777,216 bytes of input, and is then started anew. Ctrl-C or a kill ends the input of the program,
which then ends, and gives the line back as it was. The status is that of the program, 1 where the line fails, and 2 where the
words are wrong.
"""
import argparse
import contextlib
import errno
import fcntl
import os
import pty
import select
import signal
import struct
import subprocess
import sys
import termios
import time
import tty

FLAG, ESCAPE, FLIPPED = 0x7E, 0x7D, 0x20  # RFC 1662, section 4.2
TICK = bytes([ESCAPE, FLAG])  # a broken piece: no frame, so it brings a tick alone
MOST_FRAME = 64  # bytes of a frame
MOST_PIECE = 2 * MOST_FRAME  # bytes of a frame on the line, if all are escaped
MOST_WAITING = 4096  # bytes that wait for the line, or for the program; behind them frames are lost, as on a radio
MOST_BEHIND = 1.0  # seconds of the clock that are made up for by ticks; what is more was missed
LAST_WORDS = 10.0  # seconds that the program has to end in, behind its input
STEPS = range(1, 60_001)  # milliseconds
HUNG_UP = "the line hung up: its other end was closed"
TOO_LONG, MOST_INPUT = 10, 1 << 24  # the status behind so many bytes of input, which is all that one run takes


class Trouble(Exception):
    """What ends line.py before the program does, with its status."""

    def __init__(self, text, status=1):
        super().__init__(text)
        self.status = status


def failed(fault):
    """The trouble of a line that cannot be read or written."""
    return Trouble(HUNG_UP if fault.errno == errno.EIO else f"the line failed: {fault.strerror}")


def frame_of(piece):
    """The frame that stands between two flags, or None where this is none."""
    frame, escaped = bytearray(), False
    for byte in piece:
        if escaped and byte ^ FLIPPED not in (FLAG, ESCAPE):
            return None
        if escaped or byte != ESCAPE:
            frame.append(byte ^ FLIPPED if escaped else byte)
        escaped = byte == ESCAPE and not escaped
    return bytes(frame) if not escaped and 1 <= len(frame) <= MOST_FRAME else None


def told(frame):
    """What a frame says, as far as its log line tells."""
    kind, size = frame[0], len(frame)
    if (kind, size) in ((1, 38), (4, 62)):
        return "advert from %d" % struct.unpack_from(">H", frame, 1)
    if (kind, size) == (2, 19):
        fields = struct.unpack_from(">HHBIB", frame, 1)
        packets = bin(int.from_bytes(frame[11:17], "big")).count("1")
        return "request from %d to %d: image %d version %d page %d, " % fields + f"{packets} packets"
    if (kind, size) == (3, 35):
        return "packet from %d: image %d version %d page %d packet %d" % struct.unpack_from(">HBIBB", frame, 1)
    return f"{size} bytes that are no message: {frame.hex()}"


class Pieces:
    """A stream that is cut at its flags."""

    def __init__(self):
        self.rest = bytearray()

    def feed(self, data):
        """The pieces that end within these bytes, without their flags, but for empty ones."""
        *pieces, self.rest = (self.rest + data).split(bytes([FLAG]))
        del self.rest[MOST_PIECE + 1 :]  # a longer piece is no frame, however it goes on
        return [piece for piece in pieces if piece]


class Log:
    """A line for each frame, with the seconds since the beginning."""

    def __init__(self, name):
        try:
            self.file = open(name, "w", encoding="ascii", buffering=1) if name and name != "-" else None
        except OSError as fault:
            raise Trouble(f"{name}: {fault.strerror}") from fault
        if name == "-":
            self.file = sys.stderr
        self.begin = time.monotonic()

    def tell(self, text):
        if self.file:
            print(f"{time.monotonic() - self.begin:10.3f} {text}", file=self.file)


def open_device(name, baud):
    """A serial device, raw and at this rate, and its settings before."""
    try:
        line = os.open(name, os.O_RDWR | os.O_NOCTTY | os.O_NONBLOCK)
    except OSError as fault:
        raise Trouble(f"{name}: {fault.strerror}") from fault
    if not os.isatty(line):
        raise Trouble(f"{name} is no serial device and no pseudo terminal")
    try:
        fcntl.flock(line, fcntl.LOCK_EX | fcntl.LOCK_NB)
    except OSError as fault:
        raise Trouble(f"{name} is in use by another program") from fault
    before = termios.tcgetattr(line)
    try:
        tty.setraw(line)
        settings = termios.tcgetattr(line)
        settings[2] |= termios.CLOCAL | termios.CREAD
        settings[4] = settings[5] = getattr(termios, f"B{baud}")
        termios.tcsetattr(line, termios.TCSAFLUSH, settings)
    except termios.error as fault:
        raise Trouble(f"{name} cannot be set to {baud} baud: {fault.args[1]}") from fault
    return line, before


def make_terminal(name):
    """A pseudo terminal: its two ends, of which the second is named so for others."""
    line, other = pty.openpty()
    tty.setraw(other)
    try:
        os.symlink(os.ttyname(other), name)
    except OSError as fault:
        raise Trouble(f"{name}: {fault.strerror}") from fault
    os.set_blocking(line, False)
    return line, other


def start(words):
    """The program, out of reach of this terminal's Ctrl-C."""
    try:
        program = subprocess.Popen(words, stdin=subprocess.PIPE, stdout=subprocess.PIPE, bufsize=0, start_new_session=True)
    except OSError as fault:
        raise Trouble(f"{words[0]}: {fault.strerror}") from fault
    os.set_blocking(program.stdin.fileno(), False)
    return program


class Host:
    """A program and a line, and what waits to be handed from one to the other."""

    def __init__(self, program, line, step, log):
        self.program, self.line, self.step, self.log = program, line, step, log
        self.input, self.output = program.stdin.fileno(), program.stdout.fileno()
        self.heard, self.said = Pieces(), Pieces()
        self.to_program, self.to_line = bytearray(), bytearray([FLAG])  # what stood on the line before is no part of a frame
        self.begin, self.events = time.monotonic(), 0
        self.ticks = self.frames_in = self.frames_out = self.lost = self.taken = 0

    def behind(self):
        """The seconds that the events are behind the clock."""
        return time.monotonic() - self.begin - self.events * self.step

    def tick(self):
        """Sends the ticks that are due."""
        missed = self.behind() - MOST_BEHIND
        if missed > self.step:
            self.begin += missed
            self.log.tell(f"{missed:.3f} seconds were missed")
        while self.behind() >= self.step and len(self.to_program) < MOST_WAITING:
            self.to_program += TICK
            self.events += 1
            self.ticks += 1

    def hear(self, data):
        """Hands the frames of the line to the program."""
        for piece in self.heard.feed(data):
            frame = frame_of(piece)
            if frame is None or len(self.to_program) >= MOST_WAITING:
                self.lost += 1
                self.log.tell(f"in  {len(piece)} bytes that are " + ("no frame" if frame is None else "lost: the program is slow"))
                continue
            self.to_program += bytes(piece) + bytes([FLAG])
            self.events += 2
            self.frames_in += 1
            self.log.tell("in  " + told(frame))

    def say(self, data):
        """Hands the frames of the program to the line."""
        for piece in self.said.feed(data):
            if len(self.to_line) >= MOST_WAITING:
                self.lost += 1
                self.log.tell("out a frame that is lost: the line is slow")
                continue
            self.to_line += bytes(piece) + bytes([FLAG])
            self.frames_out += 1
            self.log.tell("out " + told(frame_of(piece) or bytes(piece)))

    def play(self):
        """Goes on until the program ends."""
        while True:
            self.tick()
            polled = select.poll()
            polled.register(self.output, select.POLLIN)
            polled.register(self.line, select.POLLIN | (select.POLLOUT if self.to_line else 0))
            if self.to_program:
                polled.register(self.input, select.POLLOUT)
            ready = dict(polled.poll(max(0.0, self.step - self.behind()) * 1000 + 1))
            if self.output in ready and not self.read_program():
                return
            if self.input in ready:
                self.taken += write_some(self.input, self.to_program)
            if self.line in ready:
                self.move_line()

    def read_program(self):
        """Takes what the program wrote. False where it ended."""
        data = os.read(self.output, 4096)
        self.say(data)
        return bool(data)

    def move_line(self):
        """Writes to the line and reads from it, as far as it goes."""
        write_some(self.line, self.to_line)
        try:
            data = os.read(self.line, 4096)
        except BlockingIOError:
            return
        except OSError as fault:
            raise failed(fault) from fault
        if not data:
            raise Trouble(HUNG_UP)
        self.hear(data)

    def end(self):
        """Ends the input of the program, and takes what it says last."""
        self.program.stdin.close()
        limit = time.monotonic() + LAST_WORDS
        while select.select([self.output], [], [], max(0.0, limit - time.monotonic()))[0] and self.read_program():
            pass
        try:
            return self.program.wait(max(0.1, limit - time.monotonic()))
        except subprocess.TimeoutExpired:
            self.program.kill()
            return self.program.wait()


def write_some(file, waiting):
    """Writes as much of what waits as the file takes now, and tells how many bytes that was."""
    try:
        taken = os.write(file, waiting)
    except BlockingIOError:
        return 0
    except OSError as fault:
        if fault.errno != errno.EPIPE:  # a program that ended is seen at its output
            raise failed(fault) from fault
        taken = len(waiting)
    del waiting[:taken]
    return taken


def step_of(words):
    """The seconds from one event to the next, by the words of the program."""
    for at, word in enumerate(words):
        value = word[7:] if word.startswith("--step=") else words[at + 1 : at + 2] if word == "--step" else None
        value = "".join(value) if value else ""
        if value.isdigit() and int(value) in STEPS:
            return int(value) / 1000
    raise Trouble("the program's words have no --step from 1 to 60000", 2)


def words():
    """What the words of line.py say, and the words of the program."""
    at = sys.argv.index("--") if "--" in sys.argv else len(sys.argv)
    rates = sorted(int(name[1:]) for name in dir(termios) if name[0] == "B" and name[1:].isdigit() and name != "B0")
    parser = argparse.ArgumentParser(usage=__doc__.split("\n\n")[1].strip(), description=__doc__.splitlines()[0])
    parser.add_argument("--baud", type=int, default=115200, choices=rates, metavar="RATE", help="the rate of the device; 115200")
    parser.add_argument("--log", metavar="FILE", help="where a line for each frame is written; - is standard error")
    place = parser.add_mutually_exclusive_group(required=True)
    place.add_argument("--new", metavar="NAME", help="makes a pseudo terminal, to which NAME leads")
    place.add_argument("device", nargs="?", metavar="DEVICE", help="a serial device or a pseudo terminal")
    asked = parser.parse_args(sys.argv[1:at])
    if not sys.argv[at + 1 :]:
        parser.error("the words of the program are missing: put them behind --")
    return asked, sys.argv[at + 1 :]


def say(text):
    print(f"line.py: {text}", file=sys.stderr)


def run(joined):
    """Plays until the program or the line ends. Gives the status of the program."""
    name, trouble = joined.program.args[0], None
    try:
        joined.play()
    except (KeyboardInterrupt, Trouble) as ending:
        trouble = ending
    status = joined.end()
    say(f"{joined.ticks} ticks, {joined.frames_in} frames in, {joined.frames_out} out, {joined.lost} passed over or lost")
    last = bytes(joined.said.rest).decode("ascii", "replace").strip()
    ended = f"ended with status {status}" if status >= 0 else f"was ended by signal {-status}"
    say(f"{name} {ended}" + (f": {last}" if last else ""))
    if isinstance(trouble, Trouble):
        raise trouble
    if status == TOO_LONG and joined.taken >= MOST_INPUT and not trouble:
        return None
    return status if status >= 0 else 128 - status


def host(asked, program):
    """Connects the line and the program until one of them ends. Gives the status."""
    step, log = step_of(program), Log(asked.log)
    line, before = make_terminal(asked.new) if asked.new else open_device(asked.device, asked.baud)
    try:
        while (status := run(Host(start(program), line, step, log))) is None:
            say(f"{program[0]} took all the input that one run takes, and is started anew")
        return status
    finally:
        with contextlib.suppress(OSError, termios.error):  # the name was removed, or the line hung up
            if asked.new:
                os.unlink(asked.new)
            else:
                termios.tcsetattr(line, termios.TCSANOW, before)


def main():
    for ending in (signal.SIGINT, signal.SIGTERM, signal.SIGHUP):
        signal.signal(ending, signal.default_int_handler)
    try:
        return host(*words())
    except Trouble as fault:
        say(fault)
        return fault.status
    except KeyboardInterrupt:
        return 130


if __name__ == "__main__":
    sys.exit(main())
