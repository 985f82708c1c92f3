#!/usr/bin/env python3
"""Soak of kills: the program is killed over a directory, and what it finds when it is opened again is judged.

    kills.py [--kills N] [--seed N] [--strict] [--binary PATH]

By default 500 kills. A directory goes on over up to eight rounds: it is opened, every key is asked, puts, deletes, gets and
waits are answered, and the program is killed (SIGKILL): idle behind a `wait`, with puts queued that no `wait` wrote, or
within a flush, once a random part of its bytes was given to write calls, as /proc counts them. A seed gives the same
lines each time; at which byte a kill comes is up to the machine. It prints one line of figures; on the first wrong answer
that line ends with it, and the directory stays.
Exit status: 0 when all held, 1 for a wrong answer of the program, 2 for bad arguments.

Checked is, where the capacity takes all that a directory's rounds put, so that nothing is reclaimed (`roomy`):
- killed idle, each key is answered by the newest text that a `wait` wrote, byte for byte, and those that were never
  written are a `miss`. A delete is forgotten;
- killed with puts queued, which are written as they come, or in a flush, each key is answered by that text, or by one that
  was put since and byte for byte: by a `miss` only where no `wait` had written one. A process that is killed leaves a page
  written or not, so an index isn't torn. What was answered then stays the answer at the next openings.
Where blocks are reclaimed (`reclaimed`), a `miss` is right too; so is, but with --strict, any older text of that very key,
which is counted as `older`: where the block of the newer one was reclaimed before that of the older one, which is
another order than that of the puts once a directory was opened again or texts were deleted.
In both: an opening refuses nothing, each answer until the kill is what README says, and in a round that is under way a
`get` answers the newest text and no other, as `piece` only until a `wait` wrote it, or `miss` where blocks are reclaimed, or
behind a delete, which a text that isn't written yet may outlive.
"""

import argparse
import collections
import random
import shutil
import sys
import tempfile
import time

from program import BINARY, HEAD_BYTES, INDEX, PAGE, Program, describe, max_length, stored_bytes, text_of

IDLE, QUEUED, FLUSH = "idle", "queued", "in a flush"
BLOCKS = (16 << 10, 64 << 10, 1 << 20, 4 << 20, 4 << 20)
# No put is dropped below what may be queued.
ROUND_BYTES = 15 << 20
KEYS = 200


class Wrong(Exception):
    """An answer that README doesn't allow."""


Put = collections.namedtuple("Put", "count length")


class Directory:
    """A directory over its rounds: what was put, and what is to be found."""

    def __init__(self, words, number, figures):
        self.random = random.Random(f"{words.seed}.{number}")
        self.words = words
        self.figures = figures
        self.block = self.random.choice(BLOCKS)
        self.max_length = max_length(self.block)
        self.is_roomy = self.random.random() < 0.5
        self.rounds = self.random.randrange(2, 9)
        # In bytes of records. Two blocks filled one after the other hold more than a block less two indices and some, and
        # each opening begins another block: so no block is reclaimed where it is roomy.
        self.round_bytes = min(self.random.randrange(2, 25) * self.block, ROUND_BYTES)
        if self.is_roomy:
            self.blocks = self.rounds * (3 + 3 * self.round_bytes // (self.block - 2 * INDEX)) + 2
        else:
            self.blocks = self.random.randrange(2, 9)
        self.path = tempfile.mkdtemp(prefix="foyer-soak-")
        self.put_count = 0
        # Of each key: what was put and fits, its newest put that was written, and what is queued.
        self.puts = collections.defaultdict(list)
        self.newest = {}
        self.queued = collections.defaultdict(list)
        # The newest put of a key in this round, or what it had at the opening; whether it is deleted since, or too great; and
        # the newest put since the last wait, which may be answered as a piece.
        self.last = {}
        self.gone = set()
        self.kept = {}

    # --- lines ---

    def length(self):
        draw = self.random.random()
        if draw < 0.05:
            return 0
        if draw < 0.65:
            return self.random.randrange(HEAD_BYTES, PAGE)
        if draw < 0.92:
            return self.random.randrange(HEAD_BYTES, self.max_length // 3)
        if draw < 0.97:
            return self.max_length - self.random.randrange(3)
        return self.max_length + 1 + self.random.randrange(PAGE)

    def ask(self, program, line):
        program.send(line + b"\n")
        answer = program.answer()
        if answer is None:
            raise Wrong(f"the program ended at {line[:20]!r}")
        return answer

    def put(self, program):
        self.put_count += 1
        key, put = self.random.randrange(KEYS), Put(self.put_count, self.length())
        answer = self.ask(program, b"put %d %s" % (key, text_of(key, *put)))
        if answer != b"queued":
            raise Wrong(f"put {put.count} of key {key} was answered {describe(answer)}")
        self.kept[key] = put
        if put.length <= self.max_length:
            self.puts[key].append(put)
            self.queued[key].append(put)
            self.last[key] = put
            self.gone.discard(key)
        else:
            self.gone.add(key)
        return stored_bytes(put.length)

    def delete(self, program):
        key = self.random.randrange(KEYS)
        if (answer := self.ask(program, b"del %d" % key)) != b"ok":
            raise Wrong(f"a delete was answered {describe(answer)}")
        self.gone.add(key)

    def get(self, program):
        """While the program runs: the newest text, or a miss where blocks are reclaimed or it was deleted."""
        key = self.random.randrange(KEYS)
        answer, last, kept = self.ask(program, b"get %d" % key), self.last.get(key), self.kept.get(key)
        allowed = [b"piece " + text_of(key, *kept)] if kept else []
        if last and key not in self.gone:
            allowed.append(b"entry " + text_of(key, *last))
        if answer == b"miss" and (not last or key in self.gone or not self.is_roomy):
            self.gone.add(key)
        elif answer not in allowed:
            raise Wrong(f"key {key} was answered {describe(answer)}, where the newest is {last}, kept is {kept}")

    def wrote(self):
        for key, puts in self.queued.items():
            self.newest[key] = puts[-1]
        self.queued.clear()
        self.kept.clear()

    def wait(self, program):
        if (answer := self.ask(program, b"wait")) != b"ok":
            raise Wrong(f"a wait was answered {describe(answer)}")
        self.wrote()

    def batch(self, program, limit):
        """Puts up to so many bytes of records, with deletes and gets between them."""
        taken = 0
        while taken + stored_bytes(self.max_length) <= limit:
            taken += self.put(program)
            if self.random.random() < 0.1:
                self.delete(program)
            if self.random.random() < 0.3:
                self.get(program)
            if self.random.random() < 0.005:
                break
        return taken

    # --- rounds ---

    def round(self):
        """Opens the directory, and kills the program: how."""
        program = Program(self.words.binary, self.path, self.blocks * self.block, self.block)
        try:
            self.judge(program)
            left = self.round_bytes
            for _ in range(self.random.randrange(1, 4)):
                left -= self.batch(program, left // 3)
                self.wait(program)
            how = self.random.choice((IDLE, QUEUED, FLUSH, FLUSH))
            if how != IDLE:
                taken = self.batch(program, left)
            if how == FLUSH:
                program.send_and_watch(b"wait\n", int(self.random.random() * 0.7 * taken))
        except Wrong:
            program.kill()
            raise
        rest = program.kill()
        if rest and (how != FLUSH or rest != [b"ok"]):
            raise Wrong(f"the program had written {rest[:3]!r} when it was killed {how}")
        if rest:
            self.wrote()
            self.figures["after the flush"] += 1
        else:
            self.figures[how] += 1
        self.figures["roomy" if self.is_roomy else "reclaimed"] += 1

    def judge(self, program):
        """What a directory that is opened answers for each key."""
        program.send(b"".join(b"get %d\n" % key for key in range(KEYS)))
        has_newer = has_older = False
        for key in range(KEYS):
            answer, newest, queued = program.answer(), self.newest.get(key), self.queued[key]
            if answer is None:
                raise Wrong("the program ended when it was opened")
            allowed = ([newest] if newest else []) + queued
            put = next((it for it in reversed(allowed) if answer == b"entry " + text_of(key, *it)), None)
            if not put and not self.is_roomy and not self.words.strict:
                put = next((it for it in reversed(self.puts[key]) if answer == b"entry " + text_of(key, *it)), None)
                self.figures["older"] += bool(put)
            if not put and (answer != b"miss" or (newest and self.is_roomy)):
                raise Wrong(f"key {key} was answered {describe(answer)}, where {allowed} may be found")
            has_newer |= put in queued
            has_older |= bool(queued) and put != queued[-1]
            self.figures["found" if put else "missed"] += 1
            self.newest[key] = put
        self.figures["flushes cut in two"] += has_newer and has_older
        self.queued.clear()
        self.gone.clear()
        self.kept.clear()
        self.last = {key: put for key, put in self.newest.items() if put}


def main():
    words = argparse.ArgumentParser(description=__doc__, formatter_class=argparse.RawDescriptionHelpFormatter)
    words.add_argument("--kills", type=int, default=500)
    words.add_argument("--seed", type=int, default=1)
    words.add_argument("--strict", action="store_true", help="an older text is wrong after a reclaim too")
    words.add_argument("--binary", default=BINARY)
    words = words.parse_args()
    began, figures, kills, number, said = time.monotonic(), collections.Counter(), 0, 0, "all held"
    while kills < words.kills and said == "all held":
        number += 1
        directory = Directory(words, number, figures)
        try:
            for _ in range(min(directory.rounds, words.kills - kills)):
                directory.round()
                kills += 1
            # The last round's kill is judged too.
            program = Program(words.binary, directory.path, directory.blocks * directory.block, directory.block)
            try:
                directory.judge(program)
            finally:
                program.kill()
            shutil.rmtree(directory.path)
        except Wrong as wrong:
            kind = "roomy" if directory.is_roomy else "reclaimed"
            said = (f"WRONG in directory {number} ({kind}, {directory.blocks} blocks of {directory.block} bytes, "
                    f"kept as {directory.path}) after {kills} kills: {wrong}")
    told = ", ".join(f"{figures[it]} {it}" for it in
                     (IDLE, QUEUED, FLUSH, "after the flush", "flushes cut in two", "roomy", "reclaimed", "found", "older", "missed"))
    print(f"kills: seed {words.seed}, {kills} kills of {number} directories: {told}; {time.monotonic() - began:.0f} s: {said}")
    return 0 if said == "all held" else 1


if __name__ == "__main__":
    sys.exit(main())
