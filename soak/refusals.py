#!/usr/bin/env python3
"""Refused openings: nothing in the directory changes if numbers are the cause.

Fills a directory with 100 entries and closes it. For each of many settings that don't go together, opens the directory, with its lock's file
and without it (as a library's user may who takes no lock), and compares the bytes of all block files. At the end all entries are found.

    soak/refusals.py [--program PATH]
"""
import argparse
import hashlib
import os
import shutil
import subprocess
import sys
import tempfile

TOP = os.path.dirname(os.path.dirname(os.path.abspath(__file__)))
sys.path.insert(0, os.path.join(TOP, "clients"))
from foyer_client import Cache  # noqa: E402

BLOCK = 1 << 20
SIZES = {1: 8 * BLOCK, 2: 16 * BLOCK, 4: 32 * BLOCK}

# Of each refusal the words, and what the program says.
REFUSED = [
    (["clean=8"], "Config"),
    (["clean=1000"], "Config"),
    (["flushers=9"], "Config"),
    (["flushers=1024"], "Config"),
    (["BLOCK=4096"], "Config"),
    (["BLOCK=0"], "Config"),
    (["BLOCK=4294967297"], "Config"),
    (["BLOCK=16777216", "clean=1000"], "Config"),
    (["BLOCK=524288", "clean=64"], "Config"),
    (["CAPACITY=0"], "Config"),
    (["CAPACITY=4096"], "Config"),
    (["CAPACITY=1048575"], "Config"),
    (["CAPACITY=2097152", "BLOCK=4194304"], "Config"),
]


def words_of(directory, cores, log, changes):
    capacity, block, settings = SIZES[cores], BLOCK, ["cores=%d" % cores, "log=%d" % log]
    for it in changes:
        name, value = it.split("=")
        if name == "CAPACITY":
            capacity = int(value)
        elif name == "BLOCK":
            block = int(value)
        else:
            settings.append(it)
    return [directory, str(capacity), str(block)] + settings


def digest(directory):
    """The names and bytes of all files but that of the lock."""
    found = hashlib.sha256()
    for folder, folders, files in os.walk(directory):
        folders.sort()
        for name in sorted(files):
            if name != "foyer.lock":
                path = os.path.join(folder, name)
                found.update(("%s %d\n" % (os.path.relpath(path, directory), os.path.getsize(path))).encode())
                with open(path, "rb") as file:
                    found.update(file.read())
    return found.hexdigest()


def check(held, why):
    if not held:
        print("WRONG:", why)
        sys.exit(1)


def try_refusals(program, directory, cores, log, is_locked):
    lock = os.path.join(directory, "foyer.lock")
    with open(lock, "rb") as file:
        line = file.read()
    before, count = digest(directory), 0
    for changes, kind in REFUSED:
        if not is_locked:
            os.remove(lock)
        it = subprocess.run([program] + words_of(directory, cores, log, changes), stdin=subprocess.DEVNULL, capture_output=True)
        what = "%s, %d cores, log=%d, %s lock" % (" ".join(changes), cores, log, "with" if is_locked else "without")
        check(it.returncode == 1 and kind.encode() in it.stderr, "%s: %d %r" % (what, it.returncode, it.stderr))
        check(digest(directory) == before, what + ": a file changed")
        with open(lock, "wb") as file:
            file.write(line)
        count += 1
    return count


def main():
    parser = argparse.ArgumentParser(description=__doc__.splitlines()[0])
    parser.add_argument("--program", default=os.path.join(TOP, "crates/foyerpipe/out/foyerpipe"))
    program = parser.parse_args().program
    count = 0
    for cores in (1, 2, 4):
        for log in (0, 1):
            directory = tempfile.mkdtemp()
            settings = {"cores": cores, "log": log}
            try:
                values = {b"key %d" % it: b"%d" % it * 500 for it in range(100)}
                with Cache(program, directory, SIZES[cores], BLOCK, **settings) as cache:
                    check(all(cache.put_many(values.items())), "a put wasn't taken")
                for is_locked in (True, False):
                    count += try_refusals(program, directory, cores, log, is_locked)
                with Cache(program, directory, SIZES[cores], BLOCK, **settings) as cache:
                    check(cache.get_many(values) == list(values.values()), "an entry is gone")
            finally:
                shutil.rmtree(directory)
    print("%d refused openings, none touched a block's file: all held" % count)


if __name__ == "__main__":
    main()
