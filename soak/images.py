#!/usr/bin/env python3
"""Fuzzer of images: directories of forged block files, each opened by the program and asked for every key.

    images.py [--images N] [--seconds S] [--seed N] [--log] [--binary PATH]

By default 100,000 images, a block file each, 8 to 64 of them a directory. Each begins as an honest block, of this file's own making or
written by the program; then its entries, records and bytes are changed, pages are copied about, and files are cut, lengthened
or left out. The checksums of changed indices and records are mostly made right again, so that what lies behind them is reached.

A slow reader here, written from docs/FORMAT.md alone, says of each directory what an opening finds and what each key is answered:
`miss`, `fault Unsupported`, `fault Parse`, or `entry` with a text that stands whole in a file; or `fault SequenceEnd` for all.
The program must answer exactly so, and end with status 0, or 1 after a fault. Every fourth directory is then written by the program,
a put and a wait at a time, and judged again by what its files hold afterwards. Where no block is clean one is
reclaimed meanwhile, so that a miss is right too. A seed gives the same images each time.
With `--log` each directory has a log of deletes too, whose pages are forged, and is opened by crates/foyerimages/out/foyerimages
(FOYER_PROGRAM=foyerimages ./foyerdisk builds and runs it). Its engine takes a key for its hash and compares none; nothing is written.
Exit status: 0 when all held, 1 for a wrong answer or a crash (the directory stays), 2 for bad arguments.
"""

import argparse
import os
import random
import resource
import shutil
import struct
import subprocess
import sys
import tempfile
import time

from program import BINARY, INDEX, PAGE

MASK = (1 << 64) - 1
P1, P2, P3 = 0x9E3779B185EBCA87, 0xC2B2AE3D27D4EB4F, 0x165667B19E3779F9
P4, P5 = 0x85EBCA77C2B2AE63, 0x27D4EB2F165667C5
HEAD, ENTRY, MAGIC = 36, 24, 0x97032700
CAPACITY_OF_INDEX = (INDEX - 12) // ENTRY
END = MASK
KEYS = 40
ANY_U64 = (0, 1, 2, 1 << 32, 1 << 63, MASK - 1)
ANY_U32 = (0, 1, 35, 36, 51, 52, 53, 4095, 4096, 4097, 8192, 12288, 1 << 16, 1 << 31, (1 << 32) - 1)


class Wrong(Exception):
    """An answer that the bytes don't give."""


def xxh64(data):
    """XXH64 with the start value 0, by the published specification."""
    size, at = len(data), 0
    if size >= 32:
        a, b, c, d = (P1 + P2) & MASK, P2, 0, (0 - P1) & MASK
        for w, x, y, z in struct.iter_unpack("<4Q", data[: size - size % 32]):
            a = (a + w * P2) & MASK
            a = ((a << 31 | a >> 33) * P1) & MASK
            b = (b + x * P2) & MASK
            b = ((b << 31 | b >> 33) * P1) & MASK
            c = (c + y * P2) & MASK
            c = ((c << 31 | c >> 33) * P1) & MASK
            d = (d + z * P2) & MASK
            d = ((d << 31 | d >> 33) * P1) & MASK
        h = ((a << 1 | a >> 63) + (b << 7 | b >> 57) + (c << 12 | c >> 52) + (d << 18 | d >> 46)) & MASK
        for lane in (a, b, c, d):
            k = (lane * P2) & MASK
            h = ((h ^ ((k << 31 | k >> 33) * P1 & MASK)) * P1 + P4) & MASK
        at = size - size % 32
    else:
        h = P5
    h = (h + size) & MASK
    while at + 8 <= size:
        k = int.from_bytes(data[at : at + 8], "little") * P2 & MASK
        h ^= (k << 31 | k >> 33) * P1 & MASK
        h = ((h << 27 | h >> 37) * P1 + P4) & MASK
        at += 8
    if at + 4 <= size:
        h ^= int.from_bytes(data[at : at + 4], "little") * P1 & MASK
        h = ((h << 23 | h >> 41) * P2 + P3) & MASK
        at += 4
    for byte in data[at:]:
        h ^= byte * P5 & MASK
        h = ((h << 11 | h >> 53) * P1) & MASK
    h = (h ^ h >> 33) * P2 & MASK
    h = (h ^ h >> 29) * P3 & MASK
    return h ^ h >> 32


def page_up(size):
    return -(-size // PAGE) * PAGE


# --- the slow reader ---


def index_at(block, place):
    """The entries of the index at a place: hash, sequence, offset in the block, length. None where none stands there."""
    page = block[place : place + INDEX]
    checksum, count = struct.unpack_from(">QI", page)
    if count > CAPACITY_OF_INDEX or checksum != xxh64(page[8:]):
        return None
    entries = []
    for number in range(count):
        key, sequence, offset, size = struct.unpack_from(">QQII", page, 12 + ENTRY * number)
        if size == 0 or offset < INDEX or offset % PAGE or place + offset + page_up(size) > len(block):
            return None
        entries.append((key, sequence, place + offset, size))
    return entries


def kept_of(block):
    """The entries that an opening keeps of a block: up to the first whose sequence falls."""
    kept, place, least = [], 0, 0
    while place + INDEX <= len(block):
        entries = index_at(block, place)
        if not entries:
            break
        for entry in entries:
            if entry[1] < least:
                return kept, place
            least = entry[1]
            kept.append(entry)
        place = entries[-1][2] + page_up(entries[-1][3])
    return kept, place


def marks_of(log):
    """The hash and the sequence of each slot of the log that has a mark."""
    return [it for it in struct.iter_unpack(">QQ", log) if it[1]]


def opened(blocks, log=b""):
    """Of each hash where its record stands, or None where the last sequence is found."""
    found, greatest = {}, 0
    for number, block in enumerate(blocks):
        for key, sequence, offset, size in kept_of(block)[0]:
            greatest = max(greatest, sequence)
            if key not in found or found[key][0] <= sequence:
                found[key] = (sequence, number, offset, size)
    for key, sequence in marks_of(log):
        greatest = max(greatest, sequence)
        if key in found and found[key][0] <= sequence:
            del found[key]
    return None if greatest == END else found


def answer_of(blocks, found, key, compares):
    """What a get of a key is answered, where a record's own key is compared or not."""
    if key not in found:
        return b"miss\n"
    sequence, number, offset, size = found[key]
    record = blocks[number][offset : offset + page_up(size)]
    key_len, value_len, own, own_sequence, checksum, magic = struct.unpack_from(">IIQQQI", record)
    if magic & 0xFFFFFF00 != MAGIC or magic & 0xFF > 2:
        return b"miss\n"
    if (own, own_sequence, HEAD + key_len + value_len) != (key, sequence, size) or checksum != xxh64(record[HEAD:size]):
        return b"miss\n"
    if magic & 0xFF:
        return b"fault Unsupported\n"
    value, own_key = record[HEAD : HEAD + value_len], record[HEAD + value_len : size]
    if len(value) < 8 or int.from_bytes(value[:8], "little") != len(value) - 8 or len(own_key) != 8:
        return b"fault Parse\n"
    try:
        value[8:].decode()
    except UnicodeDecodeError:
        return b"fault Parse\n"
    if compares and int.from_bytes(own_key, "little") != key:
        return b"miss\n"
    return b"entry " + value[8:] + b"\n"


# --- honest blocks ---


def record_of(key, sequence, text):
    value = len(text).to_bytes(8, "little") + text
    body = value + key.to_bytes(8, "little")
    return bytearray(struct.pack(">IIQQQI", 8, len(value), key, sequence, xxh64(body), MAGIC) + body)


def seal(block, place):
    """Makes the checksum of an index right."""
    struct.pack_into(">Q", block, place, xxh64(bytes(block[place + 8 : place + INDEX])))


def seal_record(block, offset, size):
    """Makes the checksum of a record right."""
    if HEAD <= size <= len(block) - offset:
        struct.pack_into(">Q", block, offset + 24, xxh64(bytes(block[offset + HEAD : offset + size])))


class Image:
    """A block with what is known of it: where its indices stand, and its records."""

    def __init__(self, block, indices, records):
        self.block, self.indices, self.records = block, indices, records


def honest(draw, size, sequence):
    """A block of blobs, each an index and records behind it, and the sequence behind the last."""
    block, indices, records, place = bytearray(size), [], [], 0
    while place + INDEX + PAGE <= size and (place == 0 or draw.random() < 0.6):
        entries, offset = [], INDEX
        for _ in range(draw.choice((1, 1, 2, 3, 5, 12))):
            key = draw.randrange(KEYS)
            text = draw.randbytes(draw.choice((0, 1, 5, 40, 3000, 4044, 4045, 9000))).translate(LETTERS)
            record = record_of(key, sequence, text)
            if place + offset + page_up(len(record)) > size:
                break
            block[place + offset : place + offset + len(record)] = record
            entries.append((key, sequence, offset, len(record)))
            records.append((place + offset, len(record)))
            offset += page_up(len(record))
            sequence += draw.choice((1, 1, 1, 2, 100))
        if not entries:
            break
        struct.pack_into(">I", block, place + 8, len(entries))
        for number, entry in enumerate(entries):
            struct.pack_into(">QQII", block, place + 12 + ENTRY * number, *entry)
        indices.append(place)
        place += offset
    return Image(block, indices, records), sequence


LETTERS = bytes(32 + it % 95 for it in range(256))


def images_of(path, count, size):
    """Those that the program wrote."""
    images = []
    for number in range(count):
        with open(file_of(path, number), "rb") as file:
            block = bytearray(file.read())
        kept, _ = kept_of(bytes(block))
        images.append(Image(block, [0] if kept else [], [(it[2], it[3]) for it in kept]))
    return images


# --- changes ---


def change_entry(draw, image):
    place = draw.choice(image.indices)
    count = struct.unpack_from(">I", image.block, place + 8)[0]
    at = place + 12 + ENTRY * draw.randrange(max(1, min(count, CAPACITY_OF_INDEX)))
    field = draw.randrange(4)
    if field == 0:
        struct.pack_into(">Q", image.block, at, draw.choice((draw.randrange(KEYS), draw.choice(ANY_U64))))
    elif field == 1:
        sequence = END if draw.random() < 0.001 else draw.choice((draw.choice(ANY_U64), draw.randrange(50)))
        struct.pack_into(">Q", image.block, at + 8, sequence)
    elif field == 2:
        struct.pack_into(">I", image.block, at + 16, draw.choice((draw.choice(ANY_U32), PAGE * draw.randrange(20))))
    else:
        size = struct.unpack_from(">I", image.block, at + 20)[0]
        struct.pack_into(">I", image.block, at + 20, draw.choice((draw.choice(ANY_U32), (size + draw.choice((-1, 1))) & 0xFFFFFFFF)))
    repair(draw, image, place)


def change_count(draw, image):
    place = draw.choice(image.indices)
    count = struct.unpack_from(">I", image.block, place + 8)[0]
    other = draw.choice((0, 1, count + 1 & 0xFFFFFFFF, max(0, count - 1), 169, 170, 171, (1 << 32) - 1, 1 << 31))
    struct.pack_into(">I", image.block, place + 8, other)
    repair(draw, image, place)


def change_head(draw, image):
    offset, size = draw.choice(image.records)
    at, form = draw.choice(((0, ">I"), (4, ">I"), (8, ">Q"), (16, ">Q"), (24, ">Q"), (32, ">I")))
    if at == 32:
        value = draw.choice((MAGIC | 1, MAGIC | 2, MAGIC | 3, MAGIC | 255, MAGIC ^ 1 << draw.randrange(32), 0))
    elif form == ">I":
        value = draw.choice(ANY_U32)
    else:
        value = draw.choice(ANY_U64)
    struct.pack_into(form, image.block, offset + at, value)
    if at != 24 and draw.random() < 0.5:
        seal_record(image.block, offset, size)


def change_body(draw, image):
    offset, size = draw.choice(image.records)
    if size <= HEAD:
        return
    if draw.random() < 0.3:
        length = draw.choice((0, size, size - HEAD - 17, 1 << 63, MASK))
        struct.pack_into("<Q", image.block, offset + HEAD, length & MASK)
    for _ in range(draw.choice((1, 1, 3))):
        at = offset + HEAD + draw.randrange(size - HEAD)
        image.block[at] = draw.choice((0, 0xFF, 0x80, 0xC3, image.block[at] ^ 1 << draw.randrange(8)))
    if draw.random() < 0.7:
        seal_record(image.block, offset, size)


def change_lengths(draw, image):
    """Moves the border between value and key."""
    offset, _ = draw.choice(image.records)
    key_len, value_len = struct.unpack_from(">II", image.block, offset)
    by = draw.choice((-8, -1, 1, 8))
    struct.pack_into(">II", image.block, offset, (key_len - by) & 0xFFFFFFFF, (value_len + by) & 0xFFFFFFFF)


def change_bytes(draw, image):
    for _ in range(draw.choice((1, 2, 10, 200))):
        image.block[draw.randrange(len(image.block))] = draw.randrange(256)


def copy_page(draw, image):
    pages = len(image.block) // PAGE
    one, other = PAGE * draw.randrange(pages), PAGE * draw.randrange(pages)
    image.block[other : other + PAGE] = image.block[one : one + PAGE]


def fill_index(draw, image):
    """An index of as many entries as it takes, mostly of one record."""
    place = draw.choice(image.indices)
    offset, size = draw.choice(image.records) if image.records else (place + INDEX, 53)
    count = draw.choice((170, 170, 169, 100))
    for number in range(count):
        entry = (draw.randrange(KEYS), number + 1, (offset - place) & 0xFFFFFFFF, size)
        struct.pack_into(">QQII", image.block, place + 12 + ENTRY * number, *entry)
    struct.pack_into(">I", image.block, place + 8, count)
    repair(draw, image, place)


def repair(draw, image, place):
    if draw.random() < 0.9:
        seal(image.block, place)


def change(draw, image):
    kinds = [change_bytes, copy_page]
    if image.indices:
        kinds += [change_entry] * 6 + [change_count] * 2 + [fill_index]
    if image.records:
        kinds += [change_head] * 3 + [change_body] * 3 + [change_lengths]
    for _ in range(draw.choice((0, 1, 1, 1, 2, 2, 4))):
        draw.choice(kinds)(draw, image)


# --- directories ---


def forged_log(draw, blocks, pages):
    """Pages of marks: of what the blocks list, of other hashes, and bytes as they come."""
    log = bytearray(pages * PAGE)
    listed = [it for block in blocks for it in kept_of(block)[0]]
    for _ in range(draw.choice((0, 1, 5, 40, 256))):
        key, sequence = draw.randrange(KEYS), draw.randrange(60)
        if listed and draw.random() < 0.7:
            entry = draw.choice(listed)
            key, sequence = entry[0], max(0, entry[1] + draw.choice((-1, 0, 1, 1000))) & MASK
        if draw.random() < 0.0005:
            sequence = END
        struct.pack_into(">QQ", log, 16 * draw.randrange(len(log) // 16), key, sequence)
    if draw.random() < 0.1:
        for _ in range(10):
            log[draw.randrange(len(log))] = draw.randrange(256)
    if draw.random() < 0.02:
        at = PAGE * draw.randrange(pages)
        log[at : at + PAGE] = draw.randbytes(PAGE)
    return bytes(log)


def file_of(path, number):
    return os.path.join(path, f"foyer-storage-direct-fs-{number:08}")


def run(words, path, capacity, block, lines):
    """The output and the status."""
    call = [words.binary, path, str(capacity), str(block)]
    try:
        done = subprocess.run(call, input=lines, stdout=subprocess.PIPE, stderr=subprocess.PIPE, timeout=120, check=False)
    except subprocess.TimeoutExpired as late:
        raise Wrong("no end within 120 s") from late
    return done.stdout, done.returncode


def logged(words, path, capacity, size, keys):
    """What a directory with a log of deletes is answered: the output, and a status as the other program would have it."""
    line = f"{path} {capacity} {size} {' '.join(str(it) for it in keys)}\n".encode()
    try:
        done = subprocess.run([words.logged], input=line, stdout=subprocess.PIPE, timeout=120, check=False)
    except subprocess.TimeoutExpired as late:
        raise Wrong("no end within 120 s") from late
    if done.returncode or not done.stdout.endswith(b"\n\n"):
        return done.stdout, done.returncode
    return done.stdout[:-1], int(b"fault" in done.stdout)


def judge(words, path, size, blocks, draw, log=b""):
    """Opens a directory of these blocks, asks for each key twice, and compares."""
    found = opened(blocks, log)
    keys = set(range(KEYS)) | set(ANY_U64) | (set(found) if found else set())
    asked = sorted(keys) + draw.sample(sorted(keys), len(keys) // 2)
    if log:
        output, status = logged(words, path, size * len(blocks) + len(log), size, asked)
    else:
        output, status = run(words, path, size * len(blocks), size, b"".join(b"get %d\n" % it for it in asked))
    if found is None:
        wanted = b"fault SequenceEnd\n"
    else:
        answers = {it: answer_of(blocks, found, it, not log) for it in keys}
        wanted = b"".join(answers[it] for it in asked)
    if found and not log and all(kept_of(it)[0] for it in blocks):
        # Where no block is clean one is reclaimed meanwhile, and what it had is missed.
        wanted = b"".join(answer if answer == b"miss\n" else right + b"\n"
                          for answer, right in zip(output.splitlines(keepends=True), wanted.split(b"\n")))
    if output != wanted or status != (1 if b"fault" in wanted else 0):
        raise Wrong(f"status {status}, {first_other(output, wanted)}")
    return wanted.count(b"entry "), wanted.count(b"miss\n"), wanted.count(b"fault ")


def first_other(output, wanted):
    for number, (one, other) in enumerate(zip(output.split(b"\n"), wanted.split(b"\n"))):
        if one != other:
            return f"answer {number} is {one[:80]!r} and not {other[:80]!r}"
    return f"{len(output)} bytes of answers and not {len(wanted)}"


def blocks_in(path, count, size, first=0):
    """What an opening makes of the files from one on: each has exactly the block's size."""
    blocks = []
    for number in range(first, first + count):
        try:
            with open(file_of(path, number), "rb") as file:
                block = file.read(size)
        except FileNotFoundError:
            block = b""
        blocks.append(block + bytes(size - len(block)))
    return blocks


def write_files(draw, path, images, first=0):
    for number, image in enumerate(images, first):
        block = bytes(image.block)
        how = draw.random()
        if how < 0.01:
            continue
        if how < 0.05:
            block = block[: draw.choice((0, 1, 4095, 4096, 4097, draw.randrange(len(block))))]
        elif how < 0.07:
            block += draw.randbytes(draw.choice((1, 4096)))
        with open(file_of(path, number), "wb") as file:
            file.write(block)


def fill_by_program(words, draw, path, count, size):
    """Blocks that the program wrote."""
    lines = []
    for number in range(count * 3):
        text = draw.randbytes(draw.choice((0, 5, 3000))).translate(LETTERS)
        lines.append(b"put %d %s\n" % (draw.randrange(KEYS), text))
        if draw.random() < 0.5:
            lines.append(b"wait\n")
    _, status = run(words, path, count * size, size, b"".join(lines))
    if status != 0:
        raise Wrong(f"an honest run ends with status {status}")
    return images_of(path, count, size)


def write_on(words, draw, path, count, size):
    """Puts and waits over what stands there, each answered by the text that was put."""
    key, lines, wanted = 0, [], []
    for number in range(draw.choice((1, 3, 10))):
        key = draw.randrange(KEYS)
        text = b"new %d" % number
        lines.append(b"put %d %s\nwait\nget %d\n" % (key, text, key))
        wanted.append(b"queued\nok\nentry %s\n" % text)
    output, status = run(words, path, count * size, size, b"".join(lines))
    if output not in (b"".join(wanted), b"fault SequenceEnd\n") and b"fault SequenceEnd" not in output:
        raise Wrong(f"writing on: {first_other(output, b''.join(wanted))}")
    if status not in (0, 1):
        raise Wrong(f"writing on ends with status {status}")


def made_images(words, draw, path, count, size):
    """Honest ones that were changed."""
    if draw.random() < 0.05 and not words.log:
        images = fill_by_program(words, draw, path, count, size)
    else:
        images, sequence = [], 1
        for _ in range(count):
            image, sequence = honest(draw, size, sequence if draw.random() < 0.9 else draw.randrange(1, 50))
            images.append(image)
    for image in images:
        change(draw, image)
    if draw.random() < 0.8:
        images[-1] = Image(bytearray(size), [], [])
    return images


def check(words, path, number):
    """One directory: how many images it has, and how many entries, misses and faults were answered."""
    draw = random.Random(f"{words.seed}.{number}")
    size, count = draw.choice((16384, 16384, 32768, 65536)), draw.randrange(8, 65)
    os.mkdir(path)
    images = made_images(words, draw, path, count, size)
    if words.log:
        write_files(draw, path, images, 1)
        blocks = blocks_in(path, count, size, 1)
        # The log's pages are a part of the capacity that says how many they are.
        pages = next(it for it in range(1, 9) if -(-(size * count // PAGE + it) // 256) == it)
        log = forged_log(draw, blocks, pages)
        with open(file_of(path, 0), "wb") as file:
            file.write(log)
        return count + pages, judge(words, path, size, blocks, draw, log)
    write_files(draw, path, images)
    said = judge(words, path, size, blocks_in(path, count, size), draw)
    if number % 4 == 0:
        write_on(words, draw, path, count, size)
        judge(words, path, size, blocks_in(path, count, size), draw)
    return count, said


def main():
    words = argparse.ArgumentParser(description=__doc__, formatter_class=argparse.RawDescriptionHelpFormatter)
    words.add_argument("--images", type=int, default=100_000)
    words.add_argument("--seconds", type=float, default=0, help="as many images as so many seconds allow")
    words.add_argument("--seed", type=int, default=1)
    words.add_argument("--log", action="store_true", help="directories with a log of deletes")
    words.add_argument("--binary", default=BINARY)
    words.add_argument("--logged", default=BINARY.replace("foyerdisk", "foyerimages"), help="the program that opens those with a log")
    words = words.parse_args()
    needed = words.logged if words.log else words.binary
    if not os.access(needed, os.X_OK):
        how = "FOYER_PROGRAM=foyerimages ./foyerdisk" if words.log else "./foyerdisk :memory: 16384 16384"
        raise SystemExit(f"no program at {os.path.normpath(needed)}: {how} builds it")
    # Each block's file is opened by each thread that reads or writes it.
    most = resource.getrlimit(resource.RLIMIT_NOFILE)[1]
    resource.setrlimit(resource.RLIMIT_NOFILE, (most, most))
    assert xxh64(b"") == 0xEF46DB3751D8E999 and xxh64(b"abc") == 0x44BC2CF5AD770999
    began, number, images, sums, said = time.monotonic(), 0, 0, [0, 0, 0], "all held"
    top = tempfile.mkdtemp(prefix="foyer-images-", dir="/dev/shm" if os.access("/dev/shm", os.W_OK) else None)
    while said == "all held" and ((time.monotonic() < began + words.seconds) if words.seconds else images < words.images):
        number += 1
        path = os.path.join(top, str(number))
        try:
            count, more = check(words, path, number)
            images += count
            sums = [one + other for one, other in zip(sums, more)]
            shutil.rmtree(path)
        except Wrong as wrong:
            said = f"WRONG in directory {number}, kept as {path}: {wrong}"
    if said == "all held":
        os.rmdir(top)
    took = time.monotonic() - began
    print(f"images: seed {words.seed}, {images} {'with logs' if words.log else 'images'} in {number} directories, {sums[0]} entries, "
          f"{sums[1]} misses, {sums[2]} faults; {took:.0f} s, {images / max(took, 1e-9) * 3600:.0f} an hour: {said}")
    return 0 if said == "all held" else 1


if __name__ == "__main__":
    sys.exit(main())
