#!/usr/bin/env python3
"""Asks foyerpipe by random frames, one in ten of which is broken, and kills it, and its callers, in between.

Half of the programs have threads that answer gets, and half have a cache of two or four cores. Checked: each request is answered once, and
all but gets in their order; a reply has a code of its request's kind; a get is a miss, or a value of its own key that is no older than what
was put before the last wait; what a delete took is gone at once, and stays away while the program runs; the program says which one it is,
before it opens a directory and later; a broken frame is answered by its code and ends the program with status 1; a killed program's directory
opens again, and gives whole values of the key that was asked for; a program whose caller was killed ends by itself; the program's memory stays
below a bound. Ends with status 0 when all held.

usage: pipe.py [--frames N] [--kills N] [--seed N] [--program FILE]
"""
import argparse
import os
import random
import shutil
import signal
import struct
import subprocess
import sys
import tempfile
import time

TOP = os.path.dirname(os.path.dirname(os.path.abspath(__file__)))
sys.path.insert(0, TOP + "/clients")
from foyer_client import DELETED, DONE, ENTRY, FRAMES, GREETING, MISS, NAME, NO, REPLY, REQUEST, YES  # noqa: E402

KEYS = 300
SIZES = ["33554432", "1048576"]
MOST_BYTES = 300 << 20
GREETED = GREETING.pack(NAME, FRAMES, 65536, 67108864)


def fail(why):
    print("WRONG:", why)
    sys.exit(1)


def value_of(key, count, rnd):
    head = b"%d %d " % (key, count)
    return head + bytes(rnd.randrange(256) for _ in range(rnd.choice([0, 10, 300]))) + b"." * rnd.choice([0, 100, 5000])


def count_in(key, value):
    """The count of a value of the key, or None."""
    words = value.split(b" ", 2)
    return int(words[1]) if len(words) == 3 and words[0] == b"%d" % key else None


class Program:
    def __init__(self, program, directory, readers=0, cores=1):
        words = [program, directory, *SIZES, "flushers=2", "engines=2", "readers=%d" % readers, "cores=%d" % cores]
        self.it = subprocess.Popen(words, stdin=subprocess.PIPE, stdout=subprocess.PIPE, stderr=subprocess.DEVNULL)
        self.number = 0

    def send(self, kind, key=b"", value=b""):
        self.number += 1
        self.it.stdin.write(REQUEST.pack(kind, self.number, len(key), len(value)) + key + value)
        return self.number

    def take(self):
        self.it.stdin.flush()
        head = self.it.stdout.read(REPLY.size)
        if len(head) < REPLY.size:
            return None
        number, code, length = REPLY.unpack(head)
        found = self.it.stdout.read(length)
        return (number, code, found) if len(found) == length else None

    def take_each(self, batch):
        """The replies to these requests, in their order: each comes once, and those of all but gets come in that order."""
        kinds, found, last = {it[0]: it[1] for it in batch}, {}, 0
        while len(found) < len(batch):
            came = self.take()
            if came is None:
                fail("the program ended with status %s" % self.it.wait())
            number = came[0]
            if number not in kinds or number in found:
                fail("a reply came for %d" % number)
            if kinds[number] != ord("g"):
                if number < last:
                    fail("a reply to %d came after one to %d" % (number, last))
                last = number
            found[number] = came
        return [found[it[0]] for it in batch]

    def memory(self):
        with open("/proc/%d/status" % self.it.pid) as it:
            return max([int(line.split()[1]) << 10 for line in it if line.startswith("VmHWM")], default=0)

    def end(self):
        self.it.stdin.close()
        while self.it.stdout.read(1 << 16):
            pass
        return self.it.wait()


BROKEN = [
    lambda rnd: (REQUEST.pack(bytes([rnd.choice([x for x in range(256) if chr(x) not in "pgdhwcxqv"])]), 9, 0, 0), 129),
    lambda rnd: (REQUEST.pack(b"g", 9, 65537 + rnd.randrange(1 << 20), 0), 130),
    lambda rnd: (REQUEST.pack(b"p", 9, 1, (1 << 26) + 1), 131),
    lambda rnd: (REQUEST.pack(b"w", 9, 1, 0), 132),
    lambda rnd: (REQUEST.pack(b"g", 9, 1, 1), 133),
    lambda rnd: (REQUEST.pack(b"p", 9, 5, 5)[: rnd.randrange(1, 13)], None),
    lambda rnd: (REQUEST.pack(b"p", 9, 5, 50) + b"k" * rnd.randrange(0, 40), None),
]


def run_frames(args, rnd, directory):
    """One program, asked until a broken frame ends it: how many frames."""
    program = Program(args.program, directory, rnd.choice([0, 0, 1, 3]), rnd.choice([1, 1, 2, 4]))
    newest, floor = {}, {}
    asked = 0
    for _ in range(args.run):
        batch = []
        for _ in range(rnd.randrange(1, 40)):
            key = rnd.randrange(KEYS)
            word = b"%d" % key
            kind = rnd.choice(b"ppppggggggdhhcv") if rnd.randrange(60) else rnd.choice(b"wwwx")
            if kind == ord("p"):
                newest[key] = newest.get(key, 0) + 1
                batch.append((program.send(b"p", word, value_of(key, newest[key], rnd)), kind, key, newest[key]))
            elif kind in b"gdh":
                batch.append((program.send(bytes([kind]), word), kind, key, newest.get(key, 0)))
            else:
                batch.append((program.send(bytes([kind])), kind, None, None))
        for (_, kind, key, count), (_, code, found) in zip(batch, program.take_each(batch)):
            asked += 1
            if kind == ord("p"):
                if code == DELETED:
                    floor[key] = count + 1
                elif code != DONE:
                    fail("a put was answered %d" % code)
            elif kind == ord("g"):
                if code == ENTRY:
                    count = count_in(key, found)
                    if count is None or count < floor.get(key, 0) or count > newest.get(key, 0):
                        fail("key %d gave %r, of %d to %d" % (key, found[:40], floor.get(key, 0), newest.get(key, 0)))
                elif code != MISS:
                    fail("a get was answered %d" % code)
            elif kind == ord("d"):
                floor[key] = count + 1
                if code != DONE:
                    fail("a delete was answered %d" % code)
            elif kind == ord("h"):
                if code not in (YES, NO):
                    fail("a question was answered %d" % code)
            elif code != DONE or (kind == ord("v") and not found.startswith(GREETED)):
                fail("%c was answered %d with %r" % (kind, code, found[:40]))
        # what was put before a wait of its own is as old as a get may be from then on
        if not rnd.randrange(5):
            number = program.send(b"w")
            if program.take() != (number, DONE, b""):
                fail("a wait wasn't done")
            asked += 1
            for key in newest:
                floor[key] = max(floor.get(key, 0), newest[key])
    if program.memory() > MOST_BYTES:
        fail("%d bytes of memory" % program.memory())
    if rnd.randrange(10) == 0:
        if program.end() != 0:
            fail("a good end had a status")
        return asked
    frame, code = rnd.choice(BROKEN)(rnd)
    program.it.stdin.write(frame)
    if code is not None and program.take() != (0, code, b""):
        fail("a broken frame wasn't answered %d" % code)
    if program.end() != 1:
        fail("a broken frame had no status")
    return asked + 1


def check_greeting(args, room):
    """A program that can't open its directory says which one it is all the same, and then why it ends."""
    with open(room + "/file", "w"):
        pass
    program = Program(args.program, room + "/file/below")
    number = program.send(b"v")
    came = program.take()
    if came is None or came[:2] != (number, DONE) or not came[2].startswith(GREETED) or len(came[2]) == len(GREETED):
        fail("a first v was answered %r" % (came,))
    if program.end() != 1:
        fail("a directory that can't be opened has no status")


def check_open(args, directory, cores):
    program = Program(args.program, directory, cores=cores)
    hits = 0
    for key in range(KEYS):
        number = program.send(b"g", b"%d" % key)
        came = program.take()
        if came is None or came[0] != number or came[1] not in (ENTRY, MISS):
            fail("after a kill key %d was answered %r" % (key, came))
        if came[1] == ENTRY:
            hits += 1
            if count_in(key, came[2]) is None:
                fail("after a kill key %d gave %r" % (key, came[2][:40]))
    if program.end() != 0:
        fail("the program that was opened after a kill ended badly")
    return hits


CALLER = """
import random, sys, time
sys.path[:0] = [%r, %r]
import pipe
rnd = random.Random(%d)
program = pipe.Program(%r, %r, cores=%d)
print(program.it.pid, flush=True)
count = 0
while True:
    count += 1
    key = rnd.randrange(pipe.KEYS)
    program.send(b"p", b"%%d" %% key, pipe.value_of(key, count, rnd))
    program.take()
"""


def run_kill(args, rnd, directory):
    """Kills the program, or its caller, while it puts."""
    cores = rnd.choice([1, 2, 4])
    directory += "-%d" % cores
    text = CALLER % (TOP + "/soak", TOP + "/clients", rnd.randrange(1 << 30), args.program, directory, cores)
    caller = subprocess.Popen([sys.executable, "-c", text], stdout=subprocess.PIPE, stderr=subprocess.DEVNULL)
    pid = int(caller.stdout.readline())
    time.sleep(rnd.random() * 0.2)
    if rnd.randrange(2):
        os.kill(pid, signal.SIGKILL)
        caller.kill()
    else:
        caller.kill()
        for _ in range(2000):
            try:
                os.kill(pid, 0)
                with open("/proc/%d/stat" % pid) as it:
                    if it.read().rsplit(")", 1)[1].split()[0] == "Z":
                        break
            except (ProcessLookupError, FileNotFoundError):
                break
            time.sleep(0.005)
        else:
            fail("the program goes on without its caller")
    caller.wait()
    return check_open(args, directory, cores)


def main():
    words = argparse.ArgumentParser(usage=__doc__.split("usage: ")[1])
    words.add_argument("--frames", type=int, default=1000000)
    words.add_argument("--kills", type=int, default=200)
    words.add_argument("--seed", type=int, default=1)
    words.add_argument("--run", type=int, default=60)
    words.add_argument("--program", default=TOP + "/crates/foyerpipe/out/foyerpipe")
    args = words.parse_args()
    rnd = random.Random(args.seed)
    room = tempfile.mkdtemp(prefix="foyerpipe")
    try:
        check_greeting(args, room)
        asked = runs = 0
        while asked < args.frames:
            asked += run_frames(args, rnd, room + "/frames" if rnd.randrange(2) else ":memory:")
            runs += 1
            shutil.rmtree(room + "/frames", ignore_errors=True)
        hits = sum(run_kill(args, rnd, room + "/kills") for _ in range(args.kills))
        print("%d frames in %d programs, %d kills, %d hits after them: all held" % (asked, runs, args.kills, hits))
    finally:
        shutil.rmtree(room, ignore_errors=True)


if __name__ == "__main__":
    main()
