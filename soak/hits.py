#!/usr/bin/env python3
"""Hit rates of a store as a read-through cache of a trace, beside an LRU and a FIFO of the same bytes.

    hits.py [--binary PATH] [--bench PATH] [--requests N] [--keys N] [--capacity BYTES] [--block BYTES] [--skews 0.9,1.1] [--seed N]
            [--seconds N]

Keys (1,000,000) are drawn by a Zipf distribution of each skew; each has a text of a size of its own, from 100 bytes to 64 KiB, as often
between one power of two and the next as between any other two. Each request (300,000) gets its key, and puts it where it was missed. The
device (512 MiB in blocks of 16 MiB, in memory) holds a part of what is asked for. LRU and FIFO have as many bytes, an object
taking what a record of it does, whole pages; what they hold they hold without blocks, so they are what no cache of blocks
reaches. After a fifth of the requests hits are counted.

Then foyerbench draws keys of the same skew for some seconds (10), with values of 4 KiB: as it is, and with what was hit since the reclaim
before written again at a reclaim (`reinsert=1`). All of its gets are counted, those of the cache that fills too. LRU and FIFO get five
times as many requests.

It prints two lines a skew, and ends with status 0, 1 where an answer wasn't the key's text or a miss, 2 for bad arguments.
"""

import argparse
import bisect
import collections
import functools
import itertools
import os
import random
import re
import subprocess
import sys

from program import BINARY, INDEX, PAGE, RECORD_BYTES, Program, text_of

BENCH = os.path.join(os.path.dirname(BINARY), os.pardir, os.pardir, "foyerbench", "out", "foyerbench")
GETS = re.compile(r"^gets: \d+ a second, (\d+) in all, hits=(\d+)", re.M)
VALUE = 4096
LEAST, MOST = 100, 65536
# So many requests are sent before their answers are read, and what was missed is put behind them.
AT_ONCE = 64
# Where more than 16 MiB are queued a put isn't taken.
PUT_ANSWERS = (b"queued", b"deleted")


class Wrong(Exception):
    """An answer that is no miss and not the key's text."""


@functools.lru_cache(maxsize=None)
def size_of(key):
    """The bytes of a key's text."""
    draw = random.Random(key * 2654435761 + 1)
    return int(LEAST * (MOST / LEAST) ** draw.random())


def requests_of(skew, keys, count, seed):
    """The keys that are asked for. A key's rank is its number under a permutation, so that neighbours aren't alike."""
    weights = list(itertools.accumulate((rank + 1) ** -skew for rank in range(keys)))
    names = list(range(keys))
    draw = random.Random(seed)
    draw.shuffle(names)
    return [names[bisect.bisect_left(weights, draw.random() * weights[-1])] for _ in range(count)]


def pages_of(key):
    """What a record of a key's text takes, in bytes."""
    return -(-(RECORD_BYTES + size_of(key)) // PAGE) * PAGE


def pages_of_value(_key):
    """What a record of foyerbench's takes, in bytes."""
    return -(-(RECORD_BYTES + VALUE) // PAGE) * PAGE


def hits_of_list(requests, room, from_hit, pages=pages_of):
    """Hits of a list of so many bytes of which the oldest goes first; a hit makes young again where `from_hit` says so."""
    held, used, hits, first = collections.OrderedDict(), 0, 0, len(requests) // 5
    for number, key in enumerate(requests):
        if key in held:
            hits += number >= first
            if from_hit:
                held.move_to_end(key)
            continue
        held[key] = pages(key)
        used += held[key]
        while used > room:
            used -= held.popitem(last=False)[1]
    return hits / (len(requests) - first)


def hits_of_program(options, requests):
    program = Program(options.binary, ":memory:", options.capacity, options.block)
    hits, first = 0, len(requests) // 5
    for begin in range(0, len(requests), AT_ONCE):
        some = requests[begin:begin + AT_ONCE]
        program.send(b"".join(b"get %d\n" % key for key in some))
        missed = {}
        for number, key in enumerate(some, begin):
            answer = program.answer()
            if answer in (b"entry " + text_of(key, 1, size_of(key)), b"piece " + text_of(key, 1, size_of(key))):
                hits += number >= first
            elif answer == b"miss":
                # A key that is asked for again before it was put would be a hit of a cache that answers one at a time.
                hits += number >= first and key in missed
                missed[key] = True
            else:
                raise Wrong(f"get {key} answers {answer[:60]!r}")
        program.send(b"".join(b"put %d %s\n" % (key, text_of(key, 1, size_of(key))) for key in missed))
        for key in missed:
            answer = program.answer()
            if answer not in PUT_ANSWERS:
                raise Wrong(f"put {key} answers {answer!r}")
    if program.end() != 0:
        raise Wrong("the program ended with a fault")
    return hits / (len(requests) - first)


def hits_of_bench(options, skew, reinsert):
    words = [options.bench, ":memory:", options.capacity, options.block, 1, VALUE, options.seconds, f"keys={options.keys}",
             f"skew={round(100 * skew)}", "gets=100", "through=1", f"reinsert={reinsert}", f"seed={options.seed}"]
    ran = subprocess.run([str(it) for it in words], capture_output=True, timeout=600, check=False)
    text = ran.stdout.decode(errors="replace")
    found = GETS.search(text)
    if ran.returncode or not found:
        raise Wrong(f"status {ran.returncode}: {words}\n{text}{ran.stderr.decode(errors='replace')}")
    return int(found[2]) / int(found[1])


def main():
    words = argparse.ArgumentParser(description=__doc__.split("\n", maxsplit=1)[0])
    words.add_argument("--binary", default=BINARY)
    words.add_argument("--requests", type=int, default=300_000)
    words.add_argument("--keys", type=int, default=1_000_000)
    words.add_argument("--capacity", type=int, default=1 << 29)
    words.add_argument("--block", type=int, default=1 << 24)
    words.add_argument("--skews", type=lambda text: [float(it) for it in text.split(",")], default=[0.9, 1.1])
    words.add_argument("--seed", type=int, default=1)
    words.add_argument("--bench", default=BENCH)
    words.add_argument("--seconds", type=int, default=10)
    options = words.parse_args()
    # Each block has an index, and at least one block is clean.
    room = (options.capacity // options.block - 1) * (options.block - INDEX)
    for skew in options.skews:
        requests = requests_of(skew, options.keys, options.requests, options.seed)
        lru, fifo = hits_of_list(requests, room, True), hits_of_list(requests, room, False)
        try:
            own = hits_of_program(options, requests)
            print(f"skew {skew}: hits {own:.3f}, of LRU {lru:.3f}, of FIFO {fifo:.3f}", flush=True)
            plain, again = hits_of_bench(options, skew, 0), hits_of_bench(options, skew, 1)
        except Wrong as wrong:
            print(f"wrong: {wrong}", file=sys.stderr)
            return 1
        requests = requests_of(skew, options.keys, 5 * options.requests, options.seed)
        lru, fifo = (hits_of_list(requests, room, from_hit, pages_of_value) for from_hit in (True, False))
        print(f"skew {skew}, {VALUE} bytes: hits {plain:.3f}, what was hit written again {again:.3f}, of LRU {lru:.3f}, of FIFO {fifo:.3f}",
              flush=True)
    return 0


if __name__ == "__main__":
    sys.exit(main())
