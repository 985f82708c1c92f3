#!/usr/bin/env python3
"""How many puts and gets a second foyerpipe answers through its C client, beside stores that a C program has in its own process.

    peers.py [--program FILE] [--rounds N] [--scale X] [--directory DIR]

LevelDB, RocksDB and LMDB are taken if their libraries for C are installed, and nothing of them is compressed, synced or cached beyond 64 MiB.
foyerpipe is asked one by one, a hundred at once, and a hundred at once with four threads for gets; the others by one thread and by four.
Each is filled, in turn, and then asked at random; all lies in the page cache. Of several rounds (3) the best counts. It prints a table in
Markdown, in thousands a second. It ends with status 0, or 1 if a get gave another value or none.
"""
import argparse
import os
import shutil
import subprocess
import sys
import tempfile

TOP = os.path.dirname(os.path.dirname(os.path.abspath(__file__)))
# Bytes of a value, how many, and how many gets of each thread.
SIZES = ((100, 200_000, 200_000), (1000, 100_000, 200_000), (16384, 20_000, 40_000))
LIBRARIES = {"LevelDB": ["-lleveldb"], "RocksDB": ["-lrocksdb"], "LMDB": ["-llmdb"]}
# A row: its name, the store, threads, gets at once, settings of foyerpipe.
ROWS = [
    ("foyerpipe, one by one", "FOYERPIPE", 1, 1, []),
    ("foyerpipe, a hundred at once", "FOYERPIPE", 1, 100, []),
    ("foyerpipe, a hundred at once, readers=4", "FOYERPIPE", 1, 100, ["readers=4", "engines=4"]),
    *((name + ", %s" % how, name, threads, 1, []) for name in LIBRARIES for how, threads in (("one thread", 1), ("four threads", 4))),
]


def build(name, room):
    """The program over a store, or None where its library isn't there."""
    out = os.path.join(room, name)
    own = [os.path.join(TOP, "clients", "foyer_client.c")] if name == "FOYERPIPE" else []
    words = ["cc", "-std=c11", "-O2", "-D" + name.upper(), "-I" + os.path.join(TOP, "clients"), os.path.join(TOP, "soak", "peers.c"), *own,
             "-lpthread", *LIBRARIES.get(name, []), "-o", out]
    done = subprocess.run(words, stdout=subprocess.PIPE, stderr=subprocess.STDOUT, check=False)
    if done.returncode and name == "FOYERPIPE":
        sys.exit(done.stdout.decode("utf-8", "replace"))
    return None if done.returncode else out


def run(program, row, size, room, options):
    _, _, threads, at_once, settings = row
    value, records, gets = size
    records, gets = max(int(records * options.scale), 100), max(int(gets * options.scale), 100)
    directory = os.path.join(room, "data")
    words = [program, directory, str(records), str(value), str(gets), str(threads), str(at_once), options.program, *settings]
    try:
        ran = subprocess.run(words, stdout=subprocess.PIPE, stderr=subprocess.PIPE, timeout=600, check=False)
    finally:
        shutil.rmtree(directory, ignore_errors=True)
    if ran.returncode:
        print("WRONG:", " ".join(words), ran.stderr.decode("utf-8", "replace"))
        sys.exit(1)
    fill, asked = (float(it) for it in ran.stdout.split())
    return records / fill / 1000, gets * threads / asked / 1000


def main():
    words = argparse.ArgumentParser(usage=__doc__.split("\n\n")[1].strip())
    words.add_argument("--program", default=TOP + "/crates/foyerpipe/out/foyerpipe")
    words.add_argument("--rounds", type=int, default=3)
    words.add_argument("--scale", type=float, default=1.0)
    words.add_argument("--directory")
    options = words.parse_args()
    options.program = os.path.abspath(options.program)
    room = tempfile.mkdtemp(prefix="foyerpeers", dir=options.directory)
    try:
        built = {name: build(name, room) for name in ["FOYERPIPE", *LIBRARIES]}
        best = {}
        for _ in range(options.rounds):
            for size in SIZES:
                for row in ROWS:
                    if built[row[1]] is None:
                        continue
                    rates = run(built[row[1]], row, size, room, options)
                    old = best.get((row[0], size[0]), (0, 0))
                    best[row[0], size[0]] = tuple(map(max, rates, old))
        print("| Thousand a second | " + " | ".join("%d B: puts, gets" % it[0] for it in SIZES) + " |\n|-" + "|-" * len(SIZES) + "|")
        for row in ROWS:
            if built[row[1]] is not None:
                print("| %s | %s |" % (row[0], " | ".join("%.0f, %.0f" % best[row[0], it[0]] for it in SIZES)))
    finally:
        shutil.rmtree(room, ignore_errors=True)


if __name__ == "__main__":
    main()
