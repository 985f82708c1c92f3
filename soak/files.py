#!/usr/bin/env python3
"""Files as they come: unusual names, a file system without room, and many records.

    files.py [--binary PATH]

It prints one line a check, and ends with status 0 when all held, 1 for a wrong answer, 2 for bad arguments. Checked is:
- a directory whose name has blanks, line feeds and letters of several bytes is made, written, and found again by a second
  run; one whose name isn't UTF-8 is a bad argument, status 2, and nothing is made;
- where the file system has no room (a tmpfs of 1 MiB under files of 4 MiB, where one may be mounted: as root on Linux),
  each `put` is `queued` and each `wait` is `ok`; a text is missed only if its batch met the full file system; what earlier
  batches wrote is answered, byte for byte, and by a second run too; and no answer is another text. So it is while clean blocks are
  left: a batch that fails costs the block that it was to write, and where none is left reclaims take older texts;
- a directory of 100,000 records is opened, and each of a thousand that are asked is found; the peak of its memory above that
  of an empty directory is at most 100 bytes a record, its index included.
"""

import argparse
import os
import shutil
import subprocess
import sys
import tempfile

from program import BINARY, text_of

BLOCK = 1 << 16
CAPACITY = 1 << 22
LENGTH = 4000
PUTS_A_WAIT = 20


class Wrong(Exception):
    """An answer that README doesn't allow."""


def run(binary, directory, lines):
    """The answers to these lines, and the exit status."""
    words = [os.fsencode(binary), directory, b"%d" % CAPACITY, b"%d" % BLOCK]
    said = b"".join(it + b"\n" for it in lines)
    done = subprocess.run(words, input=said, stdout=subprocess.PIPE, stderr=subprocess.DEVNULL, check=False)
    return done.stdout.split(b"\n")[:-1], done.returncode


def get_all(binary, directory, keys):
    """Which of the keys have their text; the others must be missed."""
    answers, status = run(binary, directory, [b"get %d" % it for it in keys])
    if status != 0 or len(answers) != len(keys):
        raise Wrong(f"gets end with status {status} and {len(answers)} answers")
    found = set()
    for key, answer in zip(keys, answers):
        if answer == b"entry " + text_of(key, 1, LENGTH):
            found.add(key)
        elif answer != b"miss":
            raise Wrong(f"get {key} answers {answer[:60]!r}")
    return found


def put_all(binary, directory, keys):
    """Puts the texts, with a wait behind so many."""
    lines, wanted = [], []
    for at, key in enumerate(keys):
        lines.append(b"put %d %s" % (key, text_of(key, 1, LENGTH)))
        wanted.append(b"queued")
        if at % PUTS_A_WAIT == PUTS_A_WAIT - 1:
            lines.append(b"wait")
            wanted.append(b"ok")
    answers, status = run(binary, directory, lines)
    if status != 0 or answers != wanted:
        raise Wrong(f"puts and waits end with status {status}, and not as queued and ok")


def check_names(binary, top):
    directory = os.path.join(os.fsencode(top), "a näme with\nall".encode(), b"below")
    keys = range(40)
    put_all(binary, directory, keys)
    if get_all(binary, directory, keys) != set(keys):
        raise Wrong("a text under such a name isn't found again")
    other = os.path.join(os.fsencode(top), b"\xff\xfe")
    if run(binary, other, [b"wait"]) != ([], 2) or os.path.exists(other):
        raise Wrong("a name that isn't UTF-8 is no bad argument")
    print("names: 40 of 40 texts are found again under an unusual one; one that isn't UTF-8 is a bad argument")


def check_no_room(binary, top):
    mounted = os.path.join(top, "small")
    os.mkdir(mounted)
    if subprocess.run(["mount", "-t", "tmpfs", "-o", "size=1m", "tmpfs", mounted], stderr=subprocess.DEVNULL, check=False).returncode:
        print("no room: left out, since no tmpfs may be mounted here")
        return
    try:
        directory = os.fsencode(os.path.join(mounted, "blocks"))
        first, later = range(100), range(100, 300)
        put_all(binary, directory, first)
        if get_all(binary, directory, first) != set(first):
            raise Wrong("a text isn't found though there was room")
        put_all(binary, directory, later)
        found = get_all(binary, directory, [*first, *later])
        if not set(first) <= found:
            raise Wrong(f"{100 - len(set(first) & found)} texts of batches that had room are missed")
        if len(found) == len(first) + len(later):
            raise Wrong("the file system was never full")
        print(f"no room: {len(found)} of 300 texts are answered, all of the first 100, the others missed")
    finally:
        subprocess.run(["umount", mounted], check=False)


def peak_of(binary, directory, capacity, block):
    """The greatest memory of a program up to its first answer, in bytes."""
    words = [os.fsencode(binary), directory, b"%d" % capacity, b"%d" % block]
    child = subprocess.Popen(words, stdin=subprocess.PIPE, stdout=subprocess.PIPE)
    child.stdin.write(b"get 1\n")
    child.stdin.flush()
    child.stdout.readline()
    with open(f"/proc/{child.pid}/status", encoding="ascii") as counts:
        peak = int(next(it for it in counts if it.startswith("VmHWM:")).split()[1]) << 10
    child.communicate()
    return peak


def check_memory(binary, top):
    capacity, block, count = 1 << 29, 1 << 24, 100_000
    full, empty = os.fsencode(os.path.join(top, "full")), os.fsencode(os.path.join(top, "empty"))
    words = [os.fsencode(binary), full, b"%d" % capacity, b"%d" % block]
    lines = b"".join(b"put %d %s\n%s" % (it, text_of(it, 1, 40), b"wait\n" if it % 10_000 == 9_999 else b"") for it in range(count))
    done = subprocess.run(words, input=lines, stdout=subprocess.PIPE, check=False)
    if done.returncode or done.stdout.count(b"queued\n") != count:
        raise Wrong("the puts of so many records don't go well")
    asked = range(0, count, 100)
    done = subprocess.run(words, input=b"".join(b"get %d\n" % it for it in asked), stdout=subprocess.PIPE, check=False)
    if done.stdout != b"".join(b"entry %s\n" % text_of(it, 1, 40) for it in asked):
        raise Wrong("one of so many records isn't found again")
    a_record = (peak_of(binary, full, capacity, block) - peak_of(binary, empty, capacity, block)) / count
    if a_record > 100:
        raise Wrong(f"an opening takes {a_record:.0f} bytes a record")
    print(f"memory: an opening of {count} records takes {a_record:.0f} bytes a record, its index included")


def main():
    words = argparse.ArgumentParser(description=__doc__.split("\n", maxsplit=1)[0])
    words.add_argument("--binary", default=BINARY)
    binary = words.parse_args().binary
    if not os.access(binary, os.X_OK):
        raise SystemExit(f"no program at {os.path.normpath(binary)}: ./foyerdisk :memory: 16384 16384 builds it")
    top = tempfile.mkdtemp(prefix="foyer-files-")
    try:
        check_names(binary, top)
        check_no_room(binary, top)
        check_memory(binary, top)
    except Wrong as wrong:
        print(f"wrong: {wrong}", file=sys.stderr)
        return 1
    finally:
        shutil.rmtree(top, ignore_errors=True)
    return 0


if __name__ == "__main__":
    sys.exit(main())
