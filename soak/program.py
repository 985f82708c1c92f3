"""The program driven by lines, and texts that show whose they are. Used by the soaks beside it; it checks nothing itself."""

import os
import queue
import random
import select
import subprocess
import threading
import time
import zlib

PAGE = 4096
INDEX = 4096
# Of a record, beside its text: the header, the text's length and the key.
RECORD_BYTES = 36 + 8 + 8
# Of a queued put, beside its text: the text's length and the key.
QUEUED_BYTES = 8 + 8
QUEUE_BYTES = 16 << 20
HEAD_BYTES = 40

BINARY = os.path.join(
    os.path.dirname(os.path.abspath(__file__)), os.pardir, "crates", "foyerdisk", "out", "foyerdisk"
)


def filler_of(seed, size):
    """Printable bytes of one line, the same for each run."""
    letters = bytes(range(32, 127))
    drawn = random.Random(seed).randbytes(size)
    return bytes(letters[it % len(letters)] for it in drawn)


FILLER = filler_of(0, 65521)


def text_of(key, count, length):
    """The text of a key's put: empty, or its key, its count, its length and a checksum, and then a filler of its own."""
    if length == 0:
        return b""
    head = b"%d.%d.%d." % (key, count, length)
    rest = length - len(head) - 9
    place = (key * 7919 + count * 104729) % len(FILLER)
    filler = FILLER[place : place + rest]
    if len(filler) < rest:
        filler += (FILLER * (rest // len(FILLER) + 1))[: rest - len(filler)]
    return b"%s%08x.%s" % (head, zlib.crc32(filler, zlib.crc32(head)), filler)


def describe(answer):
    """What an answer is, for a report: never the whole of a long text."""
    if not answer.startswith((b"entry ", b"piece ")):
        return repr(answer[:80])
    text = answer[6:]
    if not text:
        return "the empty text"
    try:
        key, count, length, rest = text.split(b".", 3)
        head = b"%s.%s.%s." % (key, count, length)
        is_whole = len(text) == int(length) and b"%08x" % zlib.crc32(rest[9:], zlib.crc32(head)) == rest[:8]
    except ValueError:
        return f"a text of {len(text)} bytes without a head: {text[:60]!r}"
    said = "the" if is_whole else "a torn"
    return f"{said} text of put {int(count)} of key {int(key)} ({len(text)} bytes)"


def stored_bytes(length):
    """What the record of a text of this length takes in a block."""
    return (RECORD_BYTES + length + PAGE - 1) // PAGE * PAGE


def max_length(block):
    """The longest text that a block takes: behind its index."""
    return block - INDEX - RECORD_BYTES


class Program:
    """A running program. A thread writes its lines, so that neither pipe fills up."""

    def __init__(self, binary, directory, capacity, block):
        if not os.access(binary, os.X_OK):
            raise SystemExit(f"no program at {os.path.normpath(binary)}: ./foyerdisk :memory: 16384 16384 builds it")
        words = [binary, directory, str(capacity), str(block)]
        self.child = subprocess.Popen(words, stdin=subprocess.PIPE, stdout=subprocess.PIPE, bufsize=1 << 18)
        self.lines = queue.SimpleQueue()
        self.writer = threading.Thread(target=self.write_all, daemon=True)
        self.writer.start()

    def write_all(self):
        try:
            while (lines := self.lines.get()) is not None:
                self.child.stdin.write(lines)
                self.child.stdin.flush()
        except BrokenPipeError:
            pass
        try:
            self.child.stdin.close()
        except BrokenPipeError:
            pass

    def send(self, lines):
        self.lines.put(lines)

    def answer(self):
        """The next answer, without its line feed; None where the program ended, or was killed within a line."""
        line = self.child.stdout.readline()
        return line[:-1] if line.endswith(b"\n") else None

    def given_bytes(self):
        """What the program gave to write calls so far, as the system counts it."""
        with open(f"/proc/{self.child.pid}/io", encoding="ascii") as counts:
            return int(next(it for it in counts if it.startswith("wchar:")).split()[1])

    def send_and_watch(self, lines, count):
        """Sends lines, and comes back once the program gave so many bytes to write calls since, or answered."""
        until = time.monotonic() + 5
        enough = self.given_bytes() + count
        self.send(lines)
        while self.given_bytes() < enough and time.monotonic() < until:
            if select.select([self.child.stdout], [], [], 0)[0]:
                return

    def end(self):
        """Ends the input: the exit status."""
        self.lines.put(None)
        self.writer.join()
        rest = self.child.stdout.read()
        return self.child.wait() if not rest else f"{len(rest)} bytes of output that no line asked for"

    def kill(self):
        """Kills the program, and gives the answers that it had written by then."""
        self.child.kill()
        self.lines.put(None)
        self.writer.join()
        rest = self.child.stdout.read().split(b"\n")[:-1]
        self.child.wait()
        self.child.stdout.close()
        return rest
