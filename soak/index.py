#!/usr/bin/env python3
"""What the index costs with many keys: fills, gets, puts with a wait, and openings, beside another build of the program.

    index.py [--keys N] [--block BYTES] [--rounds N] [--binary PATH] [--against PATH] [--directory DIR] [--recoverers N..] [--bench PATH]

A directory gets a record of one page for each of the keys (1,600,000 where nothing is said, which is 6.6 GB), with a wait
after each 1,900 puts. Then 200,000 random keys are asked for, 3,000 puts of random keys are each followed by a wait, and
the directory is closed and opened. Each is timed from outside, over files in the page cache: microseconds a line, a put with
its wait, and seconds of an opening; of several rounds the best. With another program the ratios to it stand beside (`--against`:
this over that). The program opens by as many workers as a store has where nothing is said. With `--recoverers` the directory is
opened by so many too, by `foyerbench` (`--bench`), which says itself how long that took, in whole milliseconds. It ends with
status 0 when each answer was right, 1 for a wrong one, 2 for bad arguments.
"""

import argparse
import os
import random
import re
import shutil
import subprocess
import sys
import tempfile
import time

from program import BINARY, PAGE, Program

PUTS_A_WAIT = 1900
GETS = 200_000
PAIRS = 3_000
BENCH = os.path.join(os.path.dirname(BINARY), os.pardir, os.pardir, "foyerbench", "out", "foyerbench")
OPENING = re.compile(r"^opening: (\d+) ms$", re.M)
# It finds key 0, and not with the value that it would have put.
FOUND = re.compile(r"^wrong=[1-9]\d* put_faults=0 get_faults=0$", re.M)


class Wrong(Exception):
    """An answer that README doesn't allow."""


def ask(program, lines, wanted):
    """Sends lines and reads as many answers; seconds that it took. `wanted` gives each answer that is right."""
    begin = time.perf_counter()
    program.send(b"".join(lines))
    answers = [program.answer() for _ in lines]
    took = time.perf_counter() - begin
    for line, answer, right in zip(lines, answers, wanted):
        if answer != right:
            raise Wrong(f"{line[:60]!r} answers {answer!r} and not {right!r}")
    return took


def text_of(key, count):
    return b"%d of %d" % (count, key)


def fill(program, keys):
    took = 0.0
    for first in range(0, keys, PUTS_A_WAIT):
        some = range(first, min(first + PUTS_A_WAIT, keys))
        lines = [b"put %d %s\n" % (it, text_of(it, 1)) for it in some] + [b"wait\n"]
        took += ask(program, lines, [b"queued"] * len(some) + [b"ok"])
    return took


def look(program, draw, keys):
    asked = [draw.randrange(keys) for _ in range(GETS)]
    lines = [b"get %d\n" % it for it in asked]
    return ask(program, lines, [b"entry " + text_of(it, 1) for it in asked])


def pairs(program, draw, keys):
    took = 0.0
    for count in range(PAIRS):
        key = draw.randrange(1, keys)
        took += ask(program, [b"put %d %s\n" % (key, text_of(key, count + 2)), b"wait\n"], [b"queued", b"ok"])
    return took


def opening(options, directory, sizes, recoverers):
    """Seconds of an opening by so many workers, as foyerbench says it, which then gets key 0 until a second is over."""
    words = [options.bench, directory, *map(str, sizes), "1", "8", "1", "keys=1", "gets=100", f"recoverers={recoverers}"]
    ran = subprocess.run(words, capture_output=True, check=False, text=True)
    took = OPENING.search(ran.stdout)
    if not took or not FOUND.search(ran.stdout):
        raise Wrong(f"foyerbench ends with {ran.returncode}: {ran.stdout[-200:]!r} {ran.stderr[-200:]!r}")
    return int(took[1]) / 1000


def measure(binary, options, room):
    """Microseconds of a filled put, a get, a put with its wait; seconds of an opening, and of those by other numbers of workers."""
    draw = random.Random(1)
    per_block = (options.block - PAGE) // PAGE - 8
    blocks = options.keys // per_block + options.keys // (per_block * 8) + 8
    directory = os.path.join(room, "cache")
    words = (binary, directory, blocks * options.block, options.block)
    program = Program(*words)
    figures = [fill(program, options.keys) / options.keys * 1e6]
    figures.append(look(program, draw, options.keys) / GETS * 1e6)
    figures.append(pairs(program, draw, options.keys) / PAIRS * 1e6)
    ask(program, [b"close\n"], [b"ok"])
    if program.end() != 0:
        raise Wrong("the first run ends with another status than 0")
    begin = time.perf_counter()
    program = Program(*words)
    if ask(program, [b"get 0\n"], [b"entry " + text_of(0, 1)]) < 0:
        raise Wrong("time runs backwards")
    figures.append(time.perf_counter() - begin)
    program.kill()
    if binary == options.binary:
        figures += [opening(options, directory, words[2:], it) for it in options.recoverers]
    shutil.rmtree(directory)
    return figures


def main(words):
    parser = argparse.ArgumentParser(usage=__doc__.split("\n\n")[1].strip())
    parser.add_argument("--keys", type=int, default=1_600_000)
    parser.add_argument("--block", type=int, default=1 << 24)
    parser.add_argument("--rounds", type=int, default=1)
    parser.add_argument("--binary", default=BINARY)
    parser.add_argument("--against")
    parser.add_argument("--directory")
    parser.add_argument("--recoverers", type=int, nargs="+", default=[])
    parser.add_argument("--bench", default=BENCH)
    options = parser.parse_args(words)
    if options.keys < 2 or options.rounds < 1 or options.block < 1 << 16 or options.block % PAGE:
        parser.error("keys from 2 and rounds from 1, a block of whole pages from 65536 on")
    if options.recoverers and not os.access(options.bench, os.X_OK):
        parser.error(f"no program at {os.path.normpath(options.bench)}: ./foyerbench builds it")
    names = ["a put of a fill, us", "a get, us", "a put with its wait, us", "an opening, s"]
    names += [f"an opening by {it}, s" for it in options.recoverers]
    room = tempfile.mkdtemp(prefix="foyer-index-", dir=options.directory)
    best = {}
    try:
        for _ in range(options.rounds):
            for binary in [options.binary] + ([options.against] if options.against else []):
                figures = measure(binary, options, room)
                best[binary] = [min(both) for both in zip(figures, best.get(binary, figures))]
    except Wrong as wrong:
        print(f"wrong: {wrong}")
        return 1
    finally:
        shutil.rmtree(room, ignore_errors=True)
    for at, name in enumerate(names):
        line = f"{name}: {best[options.binary][at]:.2f}"
        if options.against and at < len(best[options.against]):
            line += f", against {best[options.against][at]:.2f}: {best[options.binary][at] / best[options.against][at]:.2f}"
        print(line)
    return 0


if __name__ == "__main__":
    sys.exit(main(sys.argv[1:]))
