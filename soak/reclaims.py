#!/usr/bin/env python3
"""Soak of reclaims: puts far past the capacity, where every answer is checked.

    reclaims.py [--puts N] [--seed N] [--memory] [--block BYTES] [--blocks N] [--keys N] [--binary PATH]

By default a million puts over 8 blocks of 1 MiB in a temporary directory; --memory takes `:memory:`. A seed gives the
same lines each time. It prints one line of figures, and on the first wrong answer a line that tells it.
Exit status: 0 when all held, 1 for a wrong answer or exit status of the program, 2 for bad arguments.

Checked is:
- a put is `deleted` only where the puts since the last `wait` sum to more than 16 MiB (8 bytes for the key and
  8 for the length beside each text), else `queued`; `wait`, `del` and `close` are `ok`; the exit status is 0;
- a `get` answers the newest text, byte for byte, or `miss`: never one that was too great for a block as `entry`, or that a
  `del`, a put that was `deleted` or a text too great for a block came after. As `piece` it answers the newest that was queued
  since the last `wait`, also behind a `del`. What was missed once stays missed until it is put again;
- what must be there is not missed. With N blocks one is clean after a `wait` that was `ok`, and one is being written; so
  N - 2 are full. A block is left where the next record doesn't fit in it, with the index that would begin for it. So two
  blocks that were filled one after the other hold more than a block less two indices, and less one index in 171 pages for
  each further 170 records of a page. As the block that was full first is reclaimed, the last
  (N - 2) / 2 * (B - 8192) * 170 / 171 bytes of what was put are there, counted in whole pages of
  records: 3.1 MB of 8 blocks of 1 MiB. Left out is what may lie in a block that deletes make the first to be reclaimed, in
  the place of the one that was full first: deletes of eight tenths of its bytes, and those of a batch in which the block
  was reclaimed and filled again, as these count for what it holds now.
"""

import argparse
import collections
import random
import shutil
import sys
import tempfile
import time

from program import BINARY, HEAD_BYTES, INDEX, PAGE, QUEUE_BYTES, QUEUED_BYTES
from program import Program, describe, max_length, stored_bytes, text_of

PUT, GET, DEL, WAIT = range(4)


class Wrong(Exception):
    """An answer that README doesn't allow."""


class Lines:
    """Draws the lines."""

    def __init__(self, words):
        self.words = words
        self.random = random.Random(words.seed)
        self.max_length = max_length(words.block)
        self.recent = collections.deque(maxlen=256)
        self.put_count = 0

    def length(self, is_burst):
        draw = self.random.random()
        if is_burst and draw < 0.9:
            return max(HEAD_BYTES, self.max_length - self.random.randrange(8 * PAGE))
        if draw < 0.05:
            return 0
        if draw < 0.10:
            # Around the end of the first page.
            return PAGE - 52 + self.random.randrange(-2, 3)
        if draw < 0.88:
            return self.between(HEAD_BYTES, PAGE)
        if draw < 0.99:
            return self.between(PAGE, self.max_length // 8)
        if draw < 0.995:
            return self.max_length - self.random.choice((0, 1, PAGE, self.random.randrange(2 * PAGE)))
        return self.max_length + 1 + self.random.choice((0, 1, PAGE, self.random.randrange(2 * PAGE)))

    def between(self, low, high):
        """More often short than long."""
        return max(low, min(high, int(low * (high / low) ** self.random.random())))

    def batch(self, put_limit):
        """Lines up to a wait: what each is, and what is sent."""
        is_burst = self.random.random() < 0.005
        ends = self.max_length / (1.5 * QUEUE_BYTES) if is_burst else 1 / self.random.choice((2, 20, 200, 400))
        steps = []
        while put_limit > 0:
            draw = self.random.random()
            if draw < 0.5 or is_burst:
                self.put_count += 1
                put_limit -= 1
                key = self.random.randrange(self.words.keys)
                steps.append((PUT, key, self.put_count, self.length(is_burst)))
                self.recent.append(key)
            elif draw < 0.53:
                steps.append((DEL, self.key(), 0, 0))
            else:
                steps.append((GET, self.key(), 0, 0))
            if self.random.random() < ends:
                break
        steps.append((WAIT, 0, 0, 0))
        return steps

    def key(self):
        if self.recent and self.random.random() < 0.5:
            return self.random.choice(self.recent)
        return self.random.randrange(self.words.keys)


def sent(steps):
    lines = []
    for kind, key, count, length in steps:
        if kind == PUT:
            lines.append(b"put %d %s" % (key, text_of(key, count, length)))
        elif kind == GET:
            lines.append(b"get %d" % key)
        elif kind == DEL:
            lines.append(b"del %d" % key)
        else:
            lines.append(b"wait")
    lines.append(b"")
    return b"\n".join(lines)


class Answers:
    """Judges the answers by what was put and written."""

    def __init__(self, words):
        self.max_length = max_length(words.block)
        self.block = words.block
        self.must_bytes = max(0, (words.blocks - 2) // 2 * (words.block - 2 * INDEX) * 170 // 171)
        # Of each key what a get may answer: the put's number, its length, and where the record begins among all bytes
        # of records.
        self.written = {}
        # The same of what was put since the last wait, with no place for a text that is too great; and what may be a piece.
        self.queued = {}
        self.kept = {}
        # Of each key every put since the last wait that fits, and that no delete came after.
        self.unwaited = collections.defaultdict(list)
        self.queued_bytes = 0
        self.record_bytes = 0
        self.waited_bytes = 0
        # By places among all bytes of records, in steps of a block: of deleted texts, and of texts that were deleted in
        # the batch that was written there.
        self.deleted_bytes = collections.Counter()
        self.batch_deleted_bytes = collections.Counter()
        self.batch_deletes = 0
        self.figures = collections.Counter()
        self.line = 0

    def judge(self, steps, program):
        for kind, key, count, length in steps:
            self.line += 1
            answer = program.answer()
            if answer is None:
                raise Wrong("the program ended")
            if kind == PUT:
                self.put(answer, key, count, length)
            elif kind == GET:
                self.get(answer, key)
            elif answer != b"ok":
                raise Wrong(f"{'a delete' if kind == DEL else 'a wait'} was answered {describe(answer)}")
            elif kind == DEL:
                self.delete(key)
            else:
                self.wait()

    def put(self, answer, key, count, length):
        self.figures["puts"] += 1
        if answer != b"queued" and (answer != b"deleted" or self.queued_bytes <= QUEUE_BYTES):
            raise Wrong(f"put {count} of key {key} with {self.queued_bytes} bytes queued was answered {describe(answer)}")
        if answer == b"deleted":
            self.figures["dropped"] += 1
            self.queued.pop(key, None)
            self.forget(key)
            return
        self.queued_bytes += length + QUEUED_BYTES
        self.kept[key] = (count, length)
        if length > self.max_length:
            self.figures["too great"] += 1
            self.forget(key)
            self.queued[key] = (count, length, None)
            return
        self.queued[key] = (count, length, self.record_bytes)
        self.unwaited[key].append(self.queued[key])
        self.record_bytes += stored_bytes(length)

    def get(self, answer, key):
        put = self.queued.get(key) or self.written.get(key)
        may_be_read = put and put[2] is not None
        if answer == b"miss":
            self.figures["misses"] += 1
            if may_be_read and self.must_have(put):
                raise Wrong(f"key {key} was missed, whose put {put[0]} is {self.record_bytes - put[2]} bytes back")
            self.written.pop(key, None)
            if may_be_read:
                self.queued.pop(key, None)
            return
        kept = self.kept.get(key)
        if kept and answer == b"piece " + text_of(key, *kept):
            self.figures["pieces"] += 1
            return
        self.figures["entries"] += 1
        if not may_be_read or answer != b"entry " + text_of(key, put[0], put[1]):
            wanted = f"put {put[0]} of {put[1]} bytes" if put else "none"
            raise Wrong(f"key {key} was answered {describe(answer)}, where the newest is {wanted}")
        if self.must_have(put):
            self.figures["had to be there"] += 1

    def must_have(self, put):
        _, _, place = put
        if self.record_bytes - place > self.must_bytes:
            return False
        first, last = (place - self.block) // self.block, (place + self.block) // self.block
        steps = range(first, last + 1)
        deleted = sum(self.deleted_bytes[it] for it in steps) + max(self.batch_deleted_bytes[it] for it in steps)
        return 10 * deleted < 8 * self.block

    def delete(self, key):
        self.figures["deletes"] += 1
        self.queued.pop(key, None)
        self.forget(key)

    def forget(self, key):
        """A delete of a key: by a `del`, by a put that was `deleted`, or by a text that is too great for a block."""
        # It counts for the record that the key has then. This rule once took that for what the last wait wrote, and forgot what
        # was put since: a record is written as it comes, so a delete that no wait came before counts for it just as well. Nothing
        # says which of the key's puts was written last by then, so each counts here, and once.
        puts = self.unwaited.pop(key, [])
        if key in self.written:
            puts.append(self.written.pop(key))
        for _, length, place in puts:
            self.deleted_bytes[place // self.block] += stored_bytes(length)
            self.batch_deletes += stored_bytes(length)

    def wait(self):
        self.figures["waits"] += 1
        for key, put in self.queued.items():
            if put[2] is not None:
                self.written[key] = put
        self.queued.clear()
        self.unwaited.clear()
        self.kept.clear()
        self.queued_bytes = 0
        if self.batch_deletes:
            for step in range(self.waited_bytes // self.block, self.record_bytes // self.block + 1):
                self.batch_deleted_bytes[step] = max(self.batch_deleted_bytes[step], self.batch_deletes)
        self.batch_deletes = 0
        self.waited_bytes = self.record_bytes


def run(words, directory):
    began = time.monotonic()
    lines, answers = Lines(words), Answers(words)
    program = Program(words.binary, directory, words.blocks * words.block, words.block)
    try:
        # The next lines are drawn while the program answers those before.
        before = None
        while lines.put_count < words.puts:
            steps = lines.batch(words.puts - lines.put_count)
            program.send(sent(steps))
            if before:
                answers.judge(before, program)
            before = steps
        answers.judge(before, program)
        every_key = [(GET, key, 0, 0) for key in range(words.keys)]
        program.send(sent(every_key))
        answers.judge(every_key, program)
        program.send(b"close\n")
        if (answer := program.answer()) != b"ok":
            raise Wrong(f"the close was answered {answer!r}")
        status = program.end()
        if status != 0:
            raise Wrong(f"the program ended with {status}")
        said = "all held"
    except Wrong as wrong:
        program.kill()
        said = f"WRONG at line {answers.line}: {wrong}"
    figures = ", ".join(f"{answers.figures[it]} {it}" for it in
                        ("puts", "dropped", "too great", "waits", "deletes", "entries", "pieces", "misses", "had to be there"))
    full = answers.record_bytes / (words.blocks * words.block)
    place = "memory" if words.memory else "files"
    print(f"reclaims: seed {words.seed}, {words.blocks} blocks of {words.block} bytes in {place}: {figures}; "
          f"{full:.0f} times the capacity, {time.monotonic() - began:.0f} s: {said}")
    return 0 if said == "all held" else 1


def main():
    words = argparse.ArgumentParser(description=__doc__, formatter_class=argparse.RawDescriptionHelpFormatter)
    words.add_argument("--puts", type=int, default=1_000_000)
    words.add_argument("--seed", type=int, default=1)
    words.add_argument("--memory", action="store_true")
    words.add_argument("--block", type=int, default=1 << 20, help="bytes of a block, whole pages")
    words.add_argument("--blocks", type=int, default=8)
    words.add_argument("--keys", type=int, default=2000)
    words.add_argument("--binary", default=BINARY)
    words = words.parse_args()
    if words.memory:
        return run(words, ":memory:")
    directory = tempfile.mkdtemp(prefix="foyer-soak-")
    try:
        return run(words, directory)
    finally:
        shutil.rmtree(directory, ignore_errors=True)


if __name__ == "__main__":
    sys.exit(main())
