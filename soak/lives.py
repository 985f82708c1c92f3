#!/usr/bin/env python3
"""Soak of lives: nothing of an earlier life comes back. A program's life is what lies between an opening of its directory and its end.

    lives.py [--triples N] [--seed N] [--only N] [--strict] [--scrub] [--shrink SECONDS] [--binary PATH]

A block that is filled again keeps, after what was written, what was there before, and a scan of it goes on into whatever index
stands behind its last record. So texts that were destroyed, or whose block was reclaimed, a life ago could be found again.

First come known cases, over blocks of 1 MiB, texts of 3,000 bytes, a life each: 700 texts `old` are put and destroyed; 170 texts
`new` are put, which end right before the second index of the old ones; the 85 of them that have keys of old ones are asked for.
Each must be `new`, and all else that was destroyed a `miss`. So must it be without the first life, over files on which nothing old
lies; and where two blocks are all and a life of nothing but a wait has the block of 254 old ones reclaimed.

Then, by default, 200 random triples of lives. A life begins with a get of every key, and goes on by puts (of one page, of several, or
mixed), deletes, gets, waits, and perhaps a destroy. Most end their puts right before an index that stands there from earlier. It
ends with the end of its input, or by SIGKILL at a random moment behind a random number of answers. After the third life the
directory is opened once more and every key asked. Devices have 2 to 16 blocks of 64 KiB to 1 MiB, into which the puts of a life
fit or not, so that blocks are reclaimed, also for their deleted bytes. A text says its key, its life and its number. A seed gives the
same lines each time, but for what the moments of the kills change. It prints a line for each known case, and one of figures; on the
first wrong answer also the script, made as small as --shrink seconds allow (60 where nothing is said). Where a known case is
wrong no triples follow. `--only N` runs triple N alone. `--scrub` judges this soak: before each opening of a triple it zeros what
earlier fillings left, so that all must hold.
Exit status: 0 when all held, 1 for a wrong answer or exit status of the program, 2 for bad arguments.

Wrong is:
- a text that was never put under the key, or isn't whole;
- a text that was put before a `destroy` that was `ok`, in that life or a later one;
- within a life, another text than the newest that it put under the key, or any that stood at the opening behind a `del`;
- where the newest text that a `wait`, or a life's good end, wrote is on the device still: an older one, or a `miss` at the
  opening. On the device it is where no block can have been reclaimed since, as all that was put since the directory was made or
  destroyed leaves two blocks clean; or where it is seen there before the opening, as told at `Device`, for a miss only
  where three blocks are clean, so that none is reclaimed meanwhile. A delete is forgotten, so that a text is on the device behind it.
Not wrong, but with --strict, is a text of a block that was reclaimed before the opening, where the key's newest text isn't on
the device either: counted as `came back`. Never wrong is an older text that is on the device, where the newest isn't: counted as
`older`.
"""

import argparse
import collections
import itertools
import os
import random
import shutil
import struct
import sys
import tempfile
import time

from program import BINARY, HEAD_BYTES, INDEX, PAGE, RECORD_BYTES
from program import Program, describe, max_length, stored_bytes, text_of

PUT, GET, DEL, WAIT, DESTROY = "put", "get", "del", "wait", "destroy"
LIVES = 3
# A text's number is its life's times this, and how many the life had put by then.
LIFE = 1_000_000
# What an index and a record begin with.
INDEX_ENTRIES = (INDEX - 12) // 24
HEADER = struct.Struct(">IIQQQI")
MAGIC = 0x97032700
# No put is dropped below what may be queued.
BATCH_BYTES = 4 << 20
# A block has a second index only where more than 171 pages fit into it.
SIZES = (64 << 10, 256 << 10, 704 << 10, 704 << 10, 768 << 10, 768 << 10, 1 << 20, 1 << 20, 1 << 20)
BLOCKS = (2, 2, 3, 3, 4, 4, 6, 8, 16)


class Wrong(Exception):
    """An answer that the rule doesn't allow."""


Put = collections.namedtuple("Put", "count length")
Step = collections.namedtuple("Step", "kind key put", defaults=(None, None))
# How many answers come before the kill, and what passes then; None for the end of the input.
Life = collections.namedtuple("Life", "steps answers pause", defaults=(None, 0.0))
Script = collections.namedtuple("Script", "blocks block keys lives")


def line_of(step):
    if step.kind == PUT:
        return b"put %d %s\n" % (step.key, text_of(step.key, *step.put))
    if step.kind in (GET, DEL):
        return b"%s %d\n" % (step.kind.encode(), step.key)
    return step.kind.encode() + b"\n"


def pages_of(length):
    return stored_bytes(length) // PAGE


# --- what a device holds ---


class Layout:
    """Where one life's records go, in pages of their block, as docs/FORMAT.md has it. A life begins another block."""

    def __init__(self, pages):
        self.pages = pages
        self.begun = 0
        # Where the second index of a block and the later ones stood.
        self.indices = set()
        self.leave()

    def leave(self):
        self.at = None
        self.entries = INDEX_ENTRIES

    def needs_index(self):
        return self.entries == INDEX_ENTRIES

    def put(self, pages):
        if self.at is None or self.at + self.needs_index() + pages > self.pages:
            self.begun += 1
            self.at, self.entries = 0, INDEX_ENTRIES
        if self.needs_index():
            if self.at:
                self.indices.add(self.at)
            self.at += 1
            self.entries = 0
        self.at += pages
        self.entries += 1


class Device:
    """What the block files hold, read between two lives.

    A clean zeros a block's first page. A block that is written again has its first record on its second page, and its first
    index, once that is written, begins with this record's hash and sequence. Texts are numbered as they are put and written in this
    order, so what the block holds of its present filling isn't older than that first record, and what is left of
    earlier ones is. By this `texts` has each text of a present filling, whatever an opening may find of it.
    """

    def __init__(self, directory, script):
        self.directory = directory
        self.clean = 0
        self.texts = set()
        # The first text of each block's filling.
        self.firsts = {}
        # Where each block's present filling ends, in pages.
        self.ends = {}
        # Pages on which indices stand behind a clean block's first one; and how many fillings end right before one of earlier.
        self.indices = set()
        self.meets = 0
        for number in range(script.blocks):
            if os.path.exists(self.path(number)):
                with open(self.path(number), "rb") as file:
                    self.read(number, file.read())
            else:
                self.clean += 1

    def path(self, number):
        return os.path.join(self.directory, f"foyer-storage-direct-fs-{number:08}")

    def scrub(self):
        """Zeros what earlier fillings left."""
        for number, end in self.ends.items():
            size = os.path.getsize(self.path(number))
            os.truncate(self.path(number), end * PAGE)
            os.truncate(self.path(number), size)

    def read(self, number, block):
        texts, indices = {}, set()
        self.ends[number] = 0
        for page in range(1, len(block) // PAGE):
            if is_index(block, page):
                indices.add(page)
            elif found := text_at(block, page):
                texts[page] = found
        if not is_index(block, 0) or 1 not in texts or block[12:28] != block[PAGE + 8 : PAGE + 24]:
            self.clean += 1
            self.indices |= indices
            return
        first = texts[1][1].count
        present = {page: it for page, it in texts.items() if it[1].count >= first}
        self.firsts[number] = first
        self.texts.update((key, put.count) for key, put in present.values())
        page = 1
        while True:
            if page in present:
                page += pages_of(present[page][1].length)
            elif page in indices and page + 1 in present:
                page += 1
            else:
                break
        self.ends[number] = page
        self.meets += page in indices


def is_index(block, page):
    """Whether a page looks like an index with entries: how many, and where the first begins."""
    at = page * PAGE
    return 1 <= int.from_bytes(block[at + 8 : at + 12], "big") <= INDEX_ENTRIES and block[at + 28 : at + 32] == b"\0\0\x10\0"


def text_at(block, page):
    """The key and the put of the record that begins at a page; None where none does."""
    at = page * PAGE
    key_bytes, _, _, _, _, magic = HEADER.unpack_from(block, at)
    if key_bytes != 8 or magic != MAGIC:
        return None
    try:
        key, count, length = block[at + 44 : at + 44 + HEAD_BYTES].split(b".", 3)[:3]
        return int(key), Put(int(count), int(length))
    except ValueError:
        return None


# --- what may be answered ---


class Table:
    """What a directory was given over its lives, and what each key may be answered."""

    def __init__(self, script, words, figures):
        self.script = script
        self.words = words
        self.figures = figures
        # Of each key the puts that no destroy followed, by their numbers, and those that one did; and the newest written one.
        self.puts = collections.defaultdict(dict)
        self.destroyed = collections.defaultdict(dict)
        self.newest = {}
        # How many blocks can have been taken since the device was empty; more than there are where a destroy may be half done.
        self.taken = 0
        self.device = None

    def open(self, device):
        """Begins a life."""
        if self.device:
            self.figures["blocks reclaimed"] += sum(device.firsts.get(it) != first for it, first in self.device.firsts.items())
        self.figures["ends before an old index"] += device.meets
        self.device = device
        self.is_roomy = self.taken + 2 <= self.script.blocks
        self.figures["roomy openings"] += self.is_roomy
        self.layout = Layout(self.script.block // PAGE)
        # Of each key the newest put of this life, and the newest that isn't known to be written; and what was deleted.
        self.own = {}
        self.queued = {}
        self.deleted = set()

    def close(self):
        """Ends a life. A block may have been taken for nothing."""
        self.taken += self.layout.begun + 1

    def send(self, step):
        """A line of a put is on its way: the text may be found from now on."""
        if step.kind == PUT:
            self.puts[step.key][step.put.count] = step.put

    def loses(self, step):
        """No answer came before the kill."""
        if step.kind == PUT:
            self.layout.put(pages_of(step.put.length))
        elif step.kind == DESTROY:
            self.taken += self.script.blocks

    def judge(self, step, answer):
        if answer is None:
            raise Wrong(f"the program ended at {step.kind}")
        self.figures[step.kind] += 1
        if step.kind == GET:
            self.get(step.key, answer)
            return
        if answer != (b"queued" if step.kind == PUT else b"ok"):
            raise Wrong(f"a {step.kind} was answered {describe(answer)}")
        if step.kind == PUT:
            self.layout.put(pages_of(step.put.length))
            self.own[step.key] = self.queued[step.key] = step.put.count
            self.deleted.discard(step.key)
        elif step.kind == DEL:
            self.deleted.add(step.key)
        elif step.kind == WAIT:
            self.wrote()
        else:
            self.destroy()

    def wrote(self):
        self.newest.update(self.queued)
        self.queued.clear()

    def destroy(self):
        for key, puts in self.puts.items():
            # What was sent behind the destroy is newer than all that was answered before it.
            last = self.own.get(key, self.first_count() - 1)
            for count in [it for it in puts if it <= last]:
                self.destroyed[key][count] = puts.pop(count)
        self.newest.clear()
        self.own.clear()
        self.queued.clear()
        self.taken = 1
        self.layout = Layout(self.layout.pages)

    def first_count(self):
        return self.number * LIFE

    def text(self, key, answer):
        """Which put it is."""
        text = answer[6:]
        for puts in (self.puts[key], self.destroyed[key]):
            for put in puts.values():
                if put.length == len(text) and text.startswith(b"%d.%d." % (key, put.count)) and text == text_of(key, *put):
                    if puts is self.puts[key]:
                        return put
                    raise Wrong(f"key {key} was answered {describe(answer)}, which was destroyed")
        raise Wrong(f"key {key} was answered {describe(answer)}, which was never put")

    def is_there(self, key, least_clean):
        """Whether the newest written text of a key is on the device for sure."""
        newest = self.newest.get(key)
        if newest is None:
            return False
        return self.is_roomy or ((key, newest) in self.device.texts and self.device.clean >= least_clean)

    def look(self, key, answer):
        """What an opening found of a key."""
        if answer is None:
            raise Wrong("the program ended when it was opened")
        if answer != b"miss":
            self.figures["found"] += 1
            self.found(key, self.text(key, answer))
            return
        self.figures["missed"] += 1
        if self.is_there(key, 3):
            raise Wrong(f"key {key} was missed, whose put {self.newest[key]} is on the device")

    def found(self, key, put):
        newest = self.newest.get(key, -1)
        if put.count < newest and self.is_there(key, 0):
            raise Wrong(f"key {key} was answered by put {put.count}, though its newer put {newest} is on the device")
        if (key, put.count) not in self.device.texts:
            self.figures["came back"] += 1
            if self.words.strict:
                raise Wrong(f"key {key} was answered by put {put.count}, whose block was reclaimed before the opening")
        elif put.count < newest:
            self.figures["older"] += 1

    def get(self, key, answer):
        if answer == b"miss":
            return
        put = self.text(key, answer)
        if key in self.own:
            if put.count != self.own[key]:
                raise Wrong(f"key {key} was answered by put {put.count}, though this life put {self.own[key]}")
        elif key in self.deleted:
            raise Wrong(f"key {key} was answered by put {put.count} behind a delete")
        else:
            self.found(key, put)


class Run:
    """A directory over the lives of a script."""

    def __init__(self, script, words, figures):
        self.script = script
        self.words = words
        self.table = Table(script, words, figures)
        self.path = tempfile.mkdtemp(prefix="foyer-soak-")

    def remove(self):
        shutil.rmtree(self.path, ignore_errors=True)

    def read(self):
        device = Device(self.path, self.script)
        if self.words.scrub:
            device.scrub()
        return device

    def live(self, number, life, device):
        table, script = self.table, self.script
        table.number = number
        table.open(device)
        program = Program(self.words.binary, self.path, script.blocks * script.block, script.block)
        try:
            program.send(b"".join(b"get %d\n" % key for key in range(script.keys)))
            for key in range(script.keys):
                table.look(key, program.answer())
            count = len(life.steps) if life.answers is None else life.answers
            self.ask(program, life.steps[:count])
        except Wrong:
            program.kill()
            raise
        if life.answers is None:
            if (status := program.end()) != 0:
                raise Wrong(f"the program ended with {status}")
            table.wrote()
        else:
            self.kill(program, life.steps[count:], life.pause)
        table.close()

    def send(self, program, steps):
        for step in steps:
            self.table.send(step)
        program.send(b"".join(line_of(it) for it in steps))

    def ask(self, program, steps):
        self.send(program, steps)
        for step in steps:
            self.table.judge(step, program.answer())

    def kill(self, program, steps, pause):
        """Kills the program while it answers further lines, and judges what it had answered by then."""
        self.send(program, steps)
        time.sleep(pause)
        answers = program.kill()
        if len(answers) > len(steps):
            raise Wrong(f"the program had written {answers[len(steps):][:3]!r} that no line asked for")
        for step, answer in zip(steps, answers):
            self.table.judge(step, answer)
        for step in steps[len(answers) :]:
            self.table.loses(step)


# --- random lives ---


class Draw:
    """Draws a triple of lives."""

    def __init__(self, seed):
        self.random = random.Random(seed)
        block = self.random.choice(SIZES)
        self.pages = block // PAGE
        blocks = self.random.choice(BLOCKS)
        self.script = Script(blocks, block, self.random.choice((20, 200, 700)), [])

    def life(self, number, device):
        """A life's lines, and how it ends; by what stands on the device, so as to end right before it."""
        draw = self.random
        self.count = number * LIFE
        self.steps = []
        self.layout = Layout(self.pages)
        self.batch_bytes = 0
        if number > 1 and draw.random() < (0.4 if device.clean <= 1 else 0.05):
            # It may reclaim the newest block, and write nothing that is newer.
            self.wait()
            return self.ended()
        self.sizes()
        self.is_in_order = draw.random() < 0.5
        self.key = draw.randrange(self.script.keys)
        self.deletes = draw.choice((0, 0, 0.05, 0.6))
        self.gets = draw.choice((0, 0.05))
        self.waits = draw.choice((0.002, 0.02, 0.1))
        targets = set(device.indices)
        if draw.random() < 0.15:
            self.fill(self.amount(targets), targets)
            self.steps.append(Step(DESTROY))
            targets |= self.layout.indices
            self.layout = Layout(self.pages)
        self.fill(self.amount(targets), targets)
        if draw.random() < 0.9:
            self.wait()
        if draw.random() < 0.5:
            self.steps.append(Step(DESTROY))
        if draw.random() < 0.2:
            self.wait()
        return self.ended()

    def ended(self):
        draw, count = self.random, len(self.steps)
        if draw.random() < 0.5:
            return Life(self.steps)
        answers = count if draw.random() < 0.5 else draw.randrange(count + 1)
        return Life(self.steps, answers, draw.choice((0.0, draw.random() * 0.003, draw.random() * 0.03)))

    def sizes(self):
        """The pages of a record: one, some, or by and by another number."""
        draw, most = self.random, max_length(self.script.block) // PAGE
        kind = draw.random()
        if kind < 0.5:
            self.size = lambda: 1
        elif kind < 0.7:
            pages = min(most, draw.choice((2, 3, 5, 10, 17, 34, 85)))
            self.size = lambda: pages
        else:
            self.size = lambda: min(most, draw.choice((1, 1, 1, 1, 2, 3, draw.randrange(1, 9), draw.randrange(1, 41))))

    def amount(self, targets):
        """The pages that are put: mostly few where there is something to end before."""
        draw, all_pages = self.random, self.script.blocks * self.pages
        kind = draw.random()
        if kind < (0.6 if targets else 0.15):
            return draw.randrange(self.pages)
        if kind < 0.8:
            return draw.randrange(self.pages, all_pages)
        return draw.randrange(all_pages, all_pages * 3 // 2)

    def fill(self, pages, targets):
        """Puts so many pages, and mostly further ones up to where an index stands already."""
        while pages > 0:
            size = self.size()
            pages -= size
            self.put(size)
            self.between()
        if not targets or self.random.random() < 0.2:
            return
        ahead = [it for it in targets if it > (self.layout.at or 0)]
        target = self.random.choice(sorted(ahead or targets))
        while self.layout.at is not None and self.layout.at > target:
            self.put(self.size())
        while (rest := target - (self.layout.at or 0) - self.layout.needs_index()) > 0:
            self.put(min(self.size(), rest))
            self.between()

    def put(self, pages):
        length = pages * PAGE - RECORD_BYTES - self.random.choice((0, self.random.randrange(PAGE - RECORD_BYTES - HEAD_BYTES)))
        self.count += 1
        self.steps.append(Step(PUT, self.next_key(), Put(self.count, length)))
        self.layout.put(pages)
        self.batch_bytes += length
        if self.batch_bytes > BATCH_BYTES:
            self.wait()

    def next_key(self):
        if self.is_in_order:
            self.key = (self.key + 1) % self.script.keys
            return self.key
        return self.random.randrange(self.script.keys)

    def wait(self):
        self.steps.append(Step(WAIT))
        self.batch_bytes = 0

    def between(self):
        draw = self.random
        if draw.random() < self.deletes:
            self.steps.append(Step(DEL, draw.randrange(self.script.keys)))
        if draw.random() < self.gets:
            self.steps.append(Step(GET, draw.randrange(self.script.keys)))
        if draw.random() < self.waits:
            self.wait()


def run_triple(draw, words, figures):
    """Runs a triple that is drawn as it goes on: what was wrong, if anything. Its script is in the draw then."""
    run = Run(draw.script, words, figures)
    try:
        for number in range(1, LIVES + 1):
            device = run.read()
            life = draw.life(number, device)
            draw.script.lives.append(life)
            figures["lives"] += 1
            figures["killed"] += life.answers is not None
            run.live(number, life, device)
        run.live(LIVES + 1, Life([]), run.read())
    except Wrong as wrong:
        return str(wrong)
    finally:
        run.remove()
    return None


def run_script(script, words):
    """What is wrong in a script, if anything."""
    run = Run(script, words, collections.Counter())
    try:
        for life in script.lives + [Life([])]:
            # A life that is cut down keeps its number in its texts.
            number = next((it.put.count // LIFE for it in life.steps if it.kind == PUT), run.table.number if run.table.device else 0)
            run.live(number, life, run.read())
    except Wrong as wrong:
        return str(wrong)
    finally:
        run.remove()
    return None


# --- the smallest script ---


def full(step):
    """A put with a text that fills its pages, so that many are alike."""
    return step._replace(put=step.put._replace(length=stored_bytes(step.put.length) - RECORD_BYTES)) if step.kind == PUT else step


def in_a_row(life):
    """A life whose puts have the keys from 0 on."""
    keys = itertools.count()
    return life._replace(steps=[it._replace(key=next(keys)) if it.kind == PUT else it for it in life.steps])


class Shrink:
    """Leaves out of a script what isn't needed, while seconds are left."""

    def __init__(self, script, words):
        self.script = script
        self.words = words
        self.until = time.monotonic() + words.shrink
        self.wrong = None

    def takes(self, lives, keys=0):
        """Whether it goes wrong with these lives, and so many keys, too, which are kept then."""
        if time.monotonic() > self.until:
            return False
        script = self.script._replace(lives=lives, keys=keys or self.script.keys)
        if wrong := run_script(script, self.words):
            self.script, self.wrong = script, wrong
        return bool(wrong)

    def with_life(self, at, life):
        lives = self.script.lives
        return lives[:at] + ([life] if life else []) + lives[at + 1 :]

    def run(self):
        if not self.takes(self.script.lives):
            return False
        self.takes([life._replace(steps=[full(it) for it in life.steps]) for life in self.script.lives])
        for at in reversed(range(len(self.script.lives))):
            if not self.takes(self.with_life(at, None)):
                self.takes(self.with_life(at, Life(self.script.lives[at].steps)))
        self.put_in_a_row()
        for at in range(len(self.script.lives)):
            for kind in (GET, DEL, WAIT):
                self.keep(at, [it for it in self.script.lives[at].steps if it.kind != kind])
        for at in range(len(self.script.lives)):
            self.cut(at)
        self.put_in_a_row()
        return True

    def put_in_a_row(self):
        lives = self.script.lives
        self.takes([in_a_row(it) for it in lives], max(self.script.keys, *(len(it.steps) for it in lives)))

    def keep(self, at, steps):
        life = self.script.lives[at]
        answers = life.answers if life.answers is None else min(life.answers, len(steps))
        return self.takes(self.with_life(at, Life(steps, answers, life.pause)))

    def cut(self, at):
        size = len(self.script.lives[at].steps)
        while size > 0:
            begin = 0
            while begin < len(self.script.lives[at].steps):
                steps = self.script.lives[at].steps
                if not self.keep(at, steps[:begin] + steps[begin + size :]):
                    begin += size
            size //= 2


def told(script):
    """A script in words, puts of neighbouring keys and one length together."""
    lines = [f"  {script.blocks} blocks of {script.block} bytes; each life begins with a get of each key below {script.keys}, "
             "as does one after the last"]
    for number, life in enumerate(script.lives):
        said = []
        for step in life.steps:
            last = said[-1] if said else None
            if step.kind == PUT and last and last[0] == PUT and last[2] + 1 == step.key and last[3] == step.put.length:
                last[2] = step.key
            elif step.kind == PUT:
                said.append([PUT, step.key, step.key, step.put.length])
            else:
                said.append([step.kind if step.key is None else f"{step.kind} {step.key}"])
        parts = [it[0] if len(it) == 1 else f"put {it[1]}{'' if it[1] == it[2] else f' to {it[2]}'} of {it[3]} bytes" for it in said]
        ends = "the end of the input" if life.answers is None else f"killed {life.pause * 1000:.1f} ms behind answer {life.answers}"
        lines.append(f"  life {number + 1}: {', '.join(parts + [ends])}")
    return "\n".join(lines)


# --- the known cases ---


def known_text(word, key):
    return b"%s of %d " % (word.encode(), key) + b"." * (2989 - len(str(key)))


def known_puts(word, keys):
    return [b"put %d %s" % (key, known_text(word, key)) for key in keys]


# Of each: how many blocks there are, and the lives before that of `new`.
KNOWN = {
    "nothing old": (8, []),
    "what was destroyed": (8, [known_puts("old", range(700)) + [b"wait", b"destroy"]]),
    "what was reclaimed": (2, [known_puts("old", range(254)) + [b"wait"], [b"wait"]]),
}


def known_case(binary, blocks, lives):
    """What the keys of `new` are answered, and how many of those that were destroyed are."""
    directory = tempfile.mkdtemp(prefix="foyer-soak-")

    def live(lines):
        program = Program(binary, directory, blocks << 20, 1 << 20)
        program.send(b"".join(it + b"\n" for it in lines))
        answers = [program.answer() for _ in lines]
        if (status := program.end()) != 0:
            raise Wrong(f"the program ended with {status}")
        return answers

    asked, others = range(170, 255), [*range(170), *range(255, 700)]
    gets = [b"get %d" % key for key in asked]
    try:
        for lines in lives:
            live(lines)
        answers = live(known_puts("new", [*asked, *range(1000, 1085)]) + [b"wait"] + gets)
        if answers[171:] != [b"entry " + known_text("new", key) for key in asked]:
            raise Wrong("the life that put `new` didn't read it back")
        answers = live(gets + [b"get %d" % key for key in others])
    finally:
        shutil.rmtree(directory, ignore_errors=True)
    figures = collections.Counter()
    for key, answer in zip(asked, answers):
        figures[{b"miss": "miss", **{b"entry " + known_text(it, key): it for it in ("new", "old")}}.get(answer, "other")] += 1
    figures["others answered"] = sum(it != b"miss" for it in answers[len(asked) :])
    return figures


def run_known_cases(binary):
    """Whether they hold."""
    all_held = True
    for name, (blocks, lives) in KNOWN.items():
        try:
            figures = known_case(binary, blocks, lives)
            holds = figures["new"] == 85 and not figures["others answered"]
            said = ", ".join(f"{figures[it]} {it}" for it in ("new", "old", "miss", "other", "others answered"))
        except Wrong as wrong:
            holds, said = False, wrong
        print(f"lives: known case over {name}: {said}: {'held' if holds else 'WRONG, where 85 new are wanted and no others'}", flush=True)
        all_held &= holds
    return all_held


def main():
    words = argparse.ArgumentParser(description=__doc__, formatter_class=argparse.RawDescriptionHelpFormatter)
    words.add_argument("--triples", type=int, default=200)
    words.add_argument("--seed", type=int, default=1)
    words.add_argument("--only", type=int, help="this triple alone, without the known cases")
    words.add_argument("--strict", action="store_true", help="a text of a reclaimed block is always wrong")
    words.add_argument("--scrub", action="store_true", help="nothing old lies on a device when it is opened")
    words.add_argument("--shrink", type=float, default=60, help="seconds for a smaller script")
    words.add_argument("--binary", default=BINARY)
    words = words.parse_args()
    if words.only is None and not words.scrub and not run_known_cases(words.binary):
        return 1
    began, figures, wrong, count = time.monotonic(), collections.Counter(), None, 0
    for number in [words.only] if words.only is not None else range(1, words.triples + 1):
        draw = Draw(f"{words.seed}.{number}")
        wrong = run_triple(draw, words, figures)
        count += 1
        if wrong:
            break
    said = ", ".join(f"{figures[it]} {it}" for it in (
        "lives", "killed", PUT, DEL, WAIT, DESTROY, GET, "blocks reclaimed", "roomy openings", "ends before an old index", "found",
        "missed", "older", "came back"))
    print(f"lives: seed {words.seed}, {count} triples: {said}; {time.monotonic() - began:.0f} s: "
          f"{f'WRONG in triple {number} (--seed {words.seed} --only {number}): {wrong}' if wrong else 'all held'}", flush=True)
    if not wrong:
        return 0
    shrink = Shrink(draw.script, words)
    if shrink.run():
        print(f"made smaller: {shrink.wrong}\n{told(shrink.script)}")
    else:
        print(f"not wrong when it was run again:\n{told(draw.script)}")
    return 1


if __name__ == "__main__":
    sys.exit(main())
