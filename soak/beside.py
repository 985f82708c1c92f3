#!/usr/bin/env python3
"""Measures foyerdisk beside a hand-written program in C and beside other stores, and prints ratios.

    python3 soak/beside.py --binary crates/foyerdisk/out/foyerdisk
    python3 soak/beside.py --binary crates/foyerdisk/out/foyerdisk --scale 0.1 --rounds 1 --only program      half a minute

The program in C is soak/beside/floor.c. It has one thread, and the lines, files and formats of foyerdisk, so either opens the other's
directory. Before anything is timed, its answers are compared with those of foyerdisk, byte for byte. The other stores run in a process of
their own, without lines (soak/beside/stores.c). RocksDB and LevelDB write one value a call, LMDB and SQLite 100 a transaction. Nothing is
compressed or synced. Everything fits into the page cache.

Keys are 64-bit numbers in random order. There are 60,000 values of 100 bytes, 30,000 of 4 KiB, 3,500 of 64 KiB (times --scale), and four
random gets for each put. `fill` puts, with a wait after every 8 MiB. `get` is the time of puts and gets, less the time of puts. Each number
is the best of the rounds. In a round all targets run one after the other, so that a slow moment of the machine hits all of them.

Needs Python 3.9, a C compiler and libxxhash-dev. A store whose library isn't installed is left out and named at the end: librocksdb-dev,
libleveldb-dev, liblmdb-dev, libsqlite3-dev. It takes four minutes, two processors and 1.5 GB in a temporary folder.
"""

import argparse
import hashlib
import json
import os
import shutil
import subprocess
import sys
import tempfile
import time

HERE = os.path.dirname(os.path.abspath(__file__))
SECTIONS = ("program", "stores")
KIB, MIB = 1 << 10, 1 << 20
BLOCK = 16 * MIB
WAIT_BYTES = 8 * MIB  # half of the engine's queue threshold, so that no put is ignored
SIZES = (100, 4 * KIB, 64 * KIB)
COUNTS = {100: 60_000, 4 * KIB: 30_000, 64 * KIB: 3_500}
PAIRS = 10_000
LIBRARIES = {"rocksdb": "ROCKSDB", "leveldb": "LEVELDB", "lmdb": "LMDB", "sqlite3": "SQLITE"}
ENGINES = {"rocksdb": "rocksdb", "rocksdb-blob": "rocksdb", "leveldb": "leveldb", "lmdb": "lmdb", "sqlite": "sqlite3"}


class Bench:
    def __init__(self, words):
        self.words = words
        self.work = os.path.abspath(tempfile.mkdtemp(prefix="foyer-bench-", dir=words.dir))
        self.rows = []
        self.left_out = []
        self.best = {}

    # --- tools ---------------------------------------------------------------------------------

    def path(self, name):
        return os.path.join(self.work, name)

    def clear(self, name):
        shutil.rmtree(self.path(name), ignore_errors=True)
        return self.path(name)

    def compile(self, name, source, *flags):
        """The program's path, or None where it can't be built, as without its library."""
        made = self.path(name)
        words = [os.environ.get("CC", "cc"), "-O2", "-o", made, os.path.join(HERE, "beside", source), *flags]
        ran = subprocess.run(words, capture_output=True, text=True)
        if ran.returncode == 0:
            return made
        said = [it for it in ran.stderr.splitlines() if any(word in it for word in ("error", "undefined", "cannot find"))]
        self.left_out.append(f"{name} isn't built: {said[0].strip() if said else 'no reason given'}")
        return None

    def keep(self, key, value, higher=False):
        """Notes a measurement; the best one stays."""
        old = self.best.get(key)
        if old is None or (value > old if higher else value < old):
            self.best[key] = value
        return self.best[key]

    def row(self, section, what, size, unit, higher, product, reference, name):
        ratio = product / reference if product is not None and reference else None
        self.rows.append(
            dict(section=section, what=what, size=size, unit=unit, better="higher" if higher else "lower",
                 product=product, reference=reference, against=name, ratio=ratio)
        )

    # --- the program beside the floor ------------------------------------------------------------

    def count(self, size):
        return max(100, int(COUNTS[size] * self.words.scale))

    def gets(self, size):
        return 4 * self.count(size)

    def capacity(self, size, share=1.0):
        blocks = padded(size) * self.count(size) * share / (BLOCK - 2 * MIB)
        return (int(blocks) + (3 if share == 1 else 1)) * BLOCK

    def script(self, name, *words):
        with open(self.path(name), "wb") as to:
            subprocess.run([self.path("script"), *map(str, words)], stdout=to, check=True)
        return self.path(name)

    def timed(self, words, script):
        """Runs a program on a script: wall and processor seconds, peak memory, bytes given to write calls."""
        with open(script, "rb") as given:
            start = time.perf_counter()
            child = subprocess.Popen(words, stdin=given, stdout=subprocess.DEVNULL, stderr=subprocess.DEVNULL)
            os.waitid(os.P_PID, child.pid, os.WEXITED | os.WNOWAIT)
            wall = time.perf_counter() - start
            wrote = 0
            try:
                with open(f"/proc/{child.pid}/io") as file:
                    wrote = int(next(line for line in file if line.startswith("wchar")).split()[1])
            except OSError:
                pass
            _, status, used = os.wait4(child.pid, 0)
            child.returncode = os.waitstatus_to_exitcode(status)
        return dict(wall=wall, cpu=used.ru_utime + used.ru_stime, rss=used.ru_maxrss * KIB, wrote=wrote,
                    status=child.returncode)

    def answers(self, words, script):
        """What the program answers: a digest, the number of bytes, and how many lines of each kind."""
        digest, total, kinds, rest = hashlib.sha256(), 0, {}, b""
        with open(script, "rb") as given:
            child = subprocess.Popen(words, stdin=given, stdout=subprocess.PIPE, stderr=subprocess.DEVNULL)
            while piece := child.stdout.read(MIB):
                digest.update(piece)
                total += len(piece)
                lines = (rest + piece).split(b"\n")
                rest = lines.pop()
                for line in lines:
                    kind = line[:6] if line[:5] != b"fault" else line
                    kinds[kind] = kinds.get(kind, 0) + 1
            child.wait()
        return dict(digest=digest.hexdigest(), total=total, kinds=kinds)

    def program(self):
        floor, script, turns = (self.compile(it, f"{it}.c") for it in ("floor", "script", "turns"))
        handoff = self.compile("handoff", "handoff.c", "-pthread")
        if not (floor and script and turns and handoff):
            return
        targets = {"floor": floor}
        if self.words.binary:
            targets["product"] = os.path.abspath(self.words.binary)
        for size in SIZES:
            fill = self.script("fill", "fill", self.count(size), size, WAIT_BYTES)
            only_gets = self.script("gets", "gets", self.count(size), self.gets(size))
            with open(self.path("both"), "wb") as to:
                for name in (fill, only_gets):
                    with open(name, "rb") as part:
                        shutil.copyfileobj(part, to)
            for place in ("memory", "files"):
                timed = self.fills_and_gets(targets, size, place)
            self.churn(timed, size)
        pairs = self.script("pairs", "pairs", PAIRS, 100)
        empty = self.script("empty", "gets", 1, 0)
        for place in ("files", "memory"):
            timed = self.agreeing(targets, place, 4 * BLOCK, "pairs", f"put and wait, {place}")
            for _ in range(self.words.rounds):
                ran = subprocess.run([handoff, "20000"], capture_output=True, text=True, check=True)
                for kind, value in json.loads(ran.stdout).items():
                    self.keep(("handoff", kind), value)
                for name, program in timed.items():
                    words = self.command(program, place, 4 * BLOCK)
                    self.keep((name, place, "pairs"), self.timed(words, pairs)["wall"])
                    words = self.command(program, place, 4 * BLOCK)
                    self.keep((name, place, "open"), self.timed(words, empty)["wall"])
                    words = self.command(program, place, 4 * BLOCK)
                    ran = subprocess.run([turns, "1000", "100", *words], capture_output=True, text=True)
                    if ran.returncode:
                        self.left_out.append(f"turns of {name}, {place}: {ran.stderr.strip()[:60]}")
                        continue
                    for kind, value in json.loads(ran.stdout).items():
                        self.keep((name, place, kind), value)
        self.program_rows()

    def command(self, program, place, capacity):
        where = ":memory:" if place == "memory" else self.clear("device")
        return [program, where, str(capacity), str(BLOCK)]

    def agreeing(self, targets, place, capacity, script, name):
        """The targets whose answers to the script are the floor's; a product that answers otherwise isn't timed."""
        answered = {it: self.answers(self.command(program, place, capacity), self.path(script)) for it, program in targets.items()}
        if "product" in answered and answered["product"]["digest"] != answered["floor"]["digest"]:
            self.left_out.append(f"ANSWERS DIFFER, {name}: {answered['product']['kinds']}, not {answered['floor']['kinds']}")
            return {"floor": targets["floor"]}
        return targets

    def fills_and_gets(self, targets, size, place):
        targets = self.agreeing(targets, place, self.capacity(size), "both", f"{size} bytes, {place}")
        for name, program in targets.items():
            answered = self.answers(self.command(program, place, self.capacity(size)), self.path("fill"))
            self.best[(name, place, "answered", size)] = answered["total"]
        for _ in range(self.words.rounds):
            for name, program in targets.items():
                both = self.timed(self.command(program, place, self.capacity(size)), self.path("both"))
                fill = self.timed(self.command(program, place, self.capacity(size)), self.path("fill"))
                self.keep((name, place, "both", size), both["wall"])
                self.keep((name, place, "fill", size), fill["wall"])
                self.keep((name, place, "fill cpu", size), fill["cpu"])
                self.keep((name, place, "both cpu", size), both["cpu"])
                self.keep((name, place, "rss", size), fill["rss"])
                self.keep((name, place, "both rss", size), both["rss"])
                self.best[(name, place, "wrote", size)] = fill["wrote"] - self.best[(name, place, "answered", size)]
                if place == "files":
                    device = self.path("device")
                    self.best[(name, "space", size)] = on_disk(device)
                    again = [program, device, str(self.capacity(size)), str(BLOCK)]
                    self.keep((name, "restart", size), self.timed(again, self.script("close", "gets", 1, 0))["wall"])
        for name in targets:
            for what in ("", " cpu"):
                gone = self.best[(name, place, "both" + what, size)] - self.best[(name, place, "fill" + what, size)]
                self.best[(name, place, "get" + what, size)] = max(gone, 1e-6)
        return targets

    def churn(self, targets, size):
        """Four times the capacity is put: reclaims run all the time."""
        capacity = self.capacity(size, 0.25)
        for name, program in targets.items():
            answered = self.answers(self.command(program, "files", capacity), self.path("both"))
            self.best[(name, "churn hits", size)] = answered["kinds"].get(b"entry ", 0) / self.gets(size)
        for _ in range(self.words.rounds):
            for name, program in targets.items():
                ran = self.timed(self.command(program, "files", capacity), self.path("fill"))
                self.keep((name, "churn", size), ran["wall"])

    def pair(self, *key):
        return self.best.get(("product", *key)), self.best.get(("floor", *key))

    def program_rows(self):
        def rate(n, *key):
            return [n / it if it else None for it in self.pair(*key)]

        for size in SIZES:
            n, user = self.count(size), (size + 8) * self.count(size)
            for place in ("files", "memory"):
                self.row("program", f"fill, {place}", size, "1/s", True, *rate(n, place, "fill", size), "floor")
                self.row("program", f"get, {place}", size, "1/s", True, *rate(self.gets(size), place, "get", size), "floor")
                for what in ("fill", "get"):
                    per = n if what == "fill" else self.gets(size)
                    used = [it / per * 1e6 if it else None for it in self.pair(place, f"{what} cpu", size)]
                    self.row("program", f"{what}, {place}: processor", size, "us each", False, *used, "floor")
                self.row("program", f"peak memory, {place}", size, "MB", False, *[it and it / 1e6 for it in self.pair(place, "rss", size)], "floor")
            self.row("program", "fill past the capacity", size, "1/s", True, *rate(n, "churn", size), "floor")
            self.row("program", "hits after that", size, "share", True, *self.pair("churn hits", size), "floor")
            self.row("program", "restart", size, "ms", False, *[it and it * 1e3 for it in self.pair("restart", size)], "floor")
            if size == 100:  # what a get leaves behind, as a note of a history
                grown = [max(both - fill, 0) / self.gets(size) if both and fill else None
                         for both, fill in zip(self.pair("files", "both rss", size), self.pair("files", "rss", size))]
                self.row("program", "memory kept by a get", size, "bytes", False, *grown, "floor")
            self.row("program", "written / given", size, "x", False, *[it and it / user for it in self.pair("files", "wrote", size)], "floor")
            self.row("program", "on disk / given", size, "x", False, *[it and it / user for it in self.pair("space", size)], "floor")
        for place in ("files", "memory"):
            self.row("program", f"put and wait, {place}", 100, "1/s", True, *rate(PAIRS, place, "pairs"), "floor")
            mine, floor = self.pair(place, "pairs")
            handed = floor / PAIRS + self.best[("handoff", "slept_us")] * 1e-6
            self.row("program", f"put and wait, {place}", 100, "1/s", True, PAIRS / mine if mine else None, 1 / handed, "floor and a handoff")
            self.row("program", f"open and close, {place}", None, "ms", False, *[it and it * 1e3 for it in self.pair(place, "open")], "floor")
            for kind in ("put", "wait", "get"):
                for part in ("p50", "p99"):
                    self.row("program", f"one {kind}, {place}, {part}", 100, "us", False, *self.pair(place, f"{kind}_{part}_us"), "floor")

    # --- stores in their own process -------------------------------------------------------------

    def stores(self):
        made = {it: self.compile(f"stores-{it}", "stores.c", f"-D{flag}", f"-l{it}") for it, flag in LIBRARIES.items()}
        for size in SIZES:
            n, gets, user = self.count(size), self.gets(size), (size + 8) * self.count(size)
            engines = [it for it, library in ENGINES.items() if made[library]]
            for _ in range(self.words.rounds):
                for engine in engines:
                    folder = self.clear("store")
                    ran = subprocess.run([made[ENGINES[engine]], engine, folder, str(n), str(size), str(gets)],
                                         capture_output=True, text=True, check=True)
                    it = json.loads(ran.stdout)
                    for what in ("fill_s", "get_s", "fill_cpu_s", "get_cpu_s"):
                        self.keep((engine, what, size), it[what])
                    self.best[(engine, "wrote", size)] = it["bytes_written"] / user
                    self.best[(engine, "space", size)] = on_disk(folder) / user
            self.clear("store")
            product = {it: self.best.get(("product", "files", it, size)) for it in ("fill", "get", "wrote")}
            space = self.best.get(("product", "space", size))
            for engine in engines:
                for what, per in (("fill", n), ("get", gets)):
                    mine = per / product[what] if product[what] else None
                    self.row("stores", what, size, "1/s", True, mine, per / self.best[(engine, f"{what}_s", size)], engine)
            for engine in engines:
                mine = product["wrote"] / user if product["wrote"] else None
                self.row("stores", "written / given", size, "x", False, mine, self.best[(engine, "wrote", size)], engine)
                self.row("stores", "on disk / given", size, "x", False, space / user if space else None, self.best[(engine, "space", size)], engine)

    # --- the table -------------------------------------------------------------------------------

    def show(self):
        head = ("section", "what", "bytes", "reference", "product", "unit", "ratio", "against")
        table = [head]
        for it in self.rows:
            mark = "" if it["better"] == "higher" else " (lower is better)"
            table.append((it["section"], it["what"], "" if it["size"] is None else str(it["size"]), number(it["reference"]),
                          number(it["product"]), it["unit"], (number(it["ratio"]) + mark) if it["ratio"] else "-" + mark, it["against"]))
        wide = [max(len(line[k]) for line in table) for k in range(len(head))]
        for line in table:
            print("  ".join(cell.ljust(w) for cell, w in zip(line, wide)).rstrip())
        for it in dict.fromkeys(self.left_out):
            print(f"note: {it}")


def padded(size):
    """What a record of a text of `size` bytes takes on the device: header, codes, whole pages."""
    return (36 + 8 + size + 8 + 4095) // 4096 * 4096


def on_disk(folder):
    return sum(os.stat(os.path.join(at, name)).st_blocks * 512 for at, _, names in os.walk(folder) for name in names)


def number(x):
    return "-" if x is None else f"{x:,.0f}" if x >= 1000 else f"{x:.3g}"


def main():
    words = argparse.ArgumentParser(description=__doc__, formatter_class=argparse.RawDescriptionHelpFormatter)
    words.add_argument("--binary", help="the program foyerdisk; without it the references alone are measured")
    words.add_argument("--only", default=",".join(SECTIONS), help="sections, by commas")
    words.add_argument("--rounds", type=int, default=3)
    words.add_argument("--scale", type=float, default=1.0, help="multiplies the number of records")
    words.add_argument("--cpus", type=int, default=2, help="how many processors all of it may use")
    words.add_argument("--dir", help="where the devices lie; a temporary folder of it is used and removed")
    words.add_argument("--json", help="also write the rows to this file")
    words = words.parse_args()
    if words.cpus < 2:
        sys.exit("beside.py: --cpus 2 at least: the handoff between two threads hangs on one")
    os.sched_setaffinity(0, set(sorted(os.sched_getaffinity(0))[-words.cpus:]))
    bench = Bench(words)
    only = words.only.split(",")
    try:
        for section in SECTIONS:
            if section in only:
                print(f"measuring {section} ..", file=sys.stderr)
                getattr(bench, section)()
        bench.show()
        if words.json:
            with open(words.json, "w") as to:
                json.dump(bench.rows, to, indent=1)
    finally:
        shutil.rmtree(bench.work, ignore_errors=True)


if __name__ == "__main__":
    main()
