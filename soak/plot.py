#!/usr/bin/env python3
"""How fast a store answers threads: figures of foyerbench in one run, as tables and as a picture.

    plot.py [--binary PATH] [--seconds N] [--rounds N] [--threads 1,2,4] [--directory DIR] [--figures FILE] [--picture FILE]

Over memory and over the files of a directory in the page cache, with values of 100 bytes, 4 KiB and 64 KiB, so many threads only get, only
put, or get nine times for each put, for so many seconds (2). Keys are drawn by a Zipf distribution of skew 0.99, and all that is asked
for was put before. Gets read through one I/O engine, and through one for each thread. Puts have one flusher, one for each thread, a core for each
thread, and the first and the last with patience: a put that finds too much queued looks again up to 1,000 times, else it deletes its key. What counts is gets that are hits and puts
that are queued. Of several rounds (2) the best rate counts, with the latencies of its round. It prints tables in Markdown; `--figures` keeps the figures as JSON, and a file that is there is drawn
without a run; `--picture` draws docs/performance.svg's picture. It ends with status 0, 1 where a run answered wrongly, 2 for bad arguments.
"""

import argparse
import json
import os
import re
import shutil
import subprocess
import sys
import tempfile

from program import BINARY

BENCH = os.path.join(os.path.dirname(BINARY), os.pardir, os.pardir, "foyerbench", "out", "foyerbench")
# Bytes of a value, keys of it, bytes of a block, and of the device, which holds all of them more than twice.
SIZES = ((100, 20_000, 1 << 24, 1 << 28), (4096, 20_000, 1 << 24, 1 << 29), (65536, 1_500, 1 << 24, 1 << 29))
PLACES = ("memory", "files")
CALLS = (("gets", 100), ("puts", 0), ("mixed", 90))
RATE = re.compile(r"^(gets|puts): (\d+) a second", re.M)
TIMES = re.compile(r"^(gets|puts) ns: p50=(\d+) p99=(\d+) p99\.9=(\d+)", re.M)
WELL = "each put was queued or dropped, each get a hit or a miss"
COUNTS = re.compile(r"^(?:gets|puts): \d+ a second, (\d+) in all, (?:hits|queued)=(\d+)", re.M)


class Wrong(Exception):
    """A run that was answered wrongly."""


# How puts are called: with one flusher, one for each thread, a core for each thread; with patience.
PLAIN, FLUSHERS, CORES, PATIENT, CORES_PATIENT = WAYS = ("one flusher", "a flusher each", "a core each", "patience", "a core each, patience")


def ways(calls, threads):
    """The engines that gets read through and how puts are called, for each run of so many threads."""
    if calls != "puts":
        return [(engines, PLAIN) for engines in sorted({1, threads})]
    return [(1, way) for way in WAYS if threads > 1 or way in (PLAIN, PATIENT)]


def run_once(options, place, size, gets, threads, engines, way, seed):
    value, keys, block, capacity = size
    directory = ":memory:" if place == "memory" else os.path.join(options.directory, "bench")
    words = [options.binary, directory, capacity, block, threads, value, options.seconds,
             f"gets={gets}", f"keys={keys}", f"fill={keys}", f"engines={engines}", f"seed={seed}"]
    words += [f"flushers={threads}"] if way == FLUSHERS else []
    words += [f"cores={threads}"] if way in (CORES, CORES_PATIENT) else []
    words += ["patience=1000"] if way in (PATIENT, CORES_PATIENT) else []
    try:
        ran = subprocess.run([str(it) for it in words], capture_output=True, timeout=600, check=False)
    finally:
        shutil.rmtree(os.path.join(options.directory, "bench"), ignore_errors=True)
    text = ran.stdout.decode(errors="replace")
    if ran.returncode or WELL not in text:
        raise Wrong(f"status {ran.returncode}: {words}\n{text}{ran.stderr.decode(errors='replace')}")
    figures = {name: {"rate": int(rate)} for name, rate in RATE.findall(text)}
    for name, *times in TIMES.findall(text):
        figures[name]["times"] = [int(it) for it in times]
    for name, (count, good) in zip(("puts", "gets"), COUNTS.findall(text)):
        figures[name]["rate"] = figures[name]["rate"] * int(good) // max(int(count), 1)
    figures["rate"] = figures["gets"]["rate"] + figures["puts"]["rate"]
    return figures


def figures_of(options):
    """Of each place, size, kind of call, number of threads and of engines the best round."""
    figures = []
    for place in PLACES:
        for size in SIZES:
            for calls, gets in CALLS:
                for threads in options.threads:
                    for engines, way in ways(calls, threads):
                        rounds = [run_once(options, place, size, gets, threads, engines, way, n + 1) for n in range(options.rounds)]
                        best = max(rounds, key=lambda it: it["rate"])
                        figures.append(dict(best, place=place, bytes=size[0], calls=calls, threads=threads, engines=engines, way=way))
                        print(f"{place} {size[0]} {calls} {threads} {engines} {way}: {best['rate']}", file=sys.stderr)
    return figures


def named(size):
    return f"{size} bytes" if size < 1024 else f"{size >> 10} KiB"


def print_puts(figures):
    """Rates of puts, by threads and how they are called."""
    counts = sorted({(it["threads"], it["way"]) for it in figures}, key=lambda it: (it[0], WAYS.index(it[1])))
    print("Thousand queued puts a second, by threads:\n")
    print("| Where, bytes | " + " | ".join(f"{t}, {way}" for t, way in counts) + " |")
    print("|-" * (len(counts) + 1) + "|")
    for place, size in sorted({(it["place"], it["bytes"]) for it in figures}):
        row = {(it["threads"], it["way"]): it["rate"] for it in figures if (it["place"], it["bytes"]) == (place, size)}
        print(f"| {place}, {named(size)} | " + " | ".join(f"{row[it] / 1000:.0f}" for it in counts) + " |")
    print()


def print_tables(figures):
    """Rates, and latencies of one thread and of most threads."""
    print_puts([it for it in figures if it["calls"] == "puts"])
    figures = [it for it in figures if it["way"] == PLAIN]
    counts = sorted({(it["threads"], it["engines"]) for it in figures if it["calls"] != "puts"})
    print("Thousand hits a second, and of mixed calls queued puts too, by threads and the I/O engines that gets read through:\n")
    print("| Where, bytes, calls | " + " | ".join(f"{t}, {e}" for t, e in counts) + " |")
    print("|-" * (len(counts) + 1) + "|")
    rows = {}
    for it in figures:
        rows.setdefault((it["place"], it["bytes"], it["calls"]), {})[it["threads"], it["engines"]] = it
    for (place, size, calls), row in rows.items():
        if calls == "puts":
            continue
        cells = [f"{row[it]['rate'] / 1000:.0f}" if it in row else "" for it in counts]
        print(f"| {place}, {named(size)}, {calls} | " + " | ".join(cells) + " |")
    print("\nMicroseconds that half, 99 and 99.9 of a hundred calls took at most:\n")
    least, most = counts[0], counts[-1]
    print(f"| Where, bytes, calls | {least[0]} thread | {most[0]} threads, {most[1]} engines |\n|-|-|-|")
    for (place, size, calls), row in rows.items():
        cells = []
        for it in (row.get(least), row.get(most, row.get((most[0], 1)))):
            kind = "puts" if calls == "puts" else "gets"
            cells.append(", ".join(f"{time / 1000:.1f}" for time in it[kind]["times"]))
        print(f"| {place}, {named(size)}, {'gets of ' if calls == 'mixed' else ''}{calls} | " + " | ".join(cells) + " |")


STYLE = """
    .page { fill: #ffffff; stroke: #c8ccd2; }
    .axis { stroke: #7a8797; }
    .one { fill: #8fb3d9; }
    .each { fill: #35506e; }
    text { font-family: Arial, Helvetica, sans-serif; fill: #1c2733; font-size: 12px; }
    .n { font-size: 15px; font-weight: 600; }
    .s { font-size: 10px; }
    @media (prefers-color-scheme: dark) {
      .page { fill: #161b22; stroke: #3a434e; }
      .axis { stroke: #8b97a5; }
      .one { fill: #4d6f94; }
      .each { fill: #a9cdf3; }
      text { fill: #e6edf3; }
    }
"""
WIDTH, HEIGHT, LEFT, TOP = 300, 150, 24, 64


def panel(x, y, title, bars):
    """A panel of bars: each is a label, a rate, and whether each thread has an engine or a core of its own."""
    greatest = max(rate for _, rate, _ in bars)
    parts = [f'  <text x="{x}" y="{y - 10}">{title}</text>', f'  <path class="axis" d="M{x} {y + 100} h{WIDTH - 30}"/>']
    step = (WIDTH - 40) / len(bars)
    for at, (label, rate, is_each) in enumerate(bars):
        tall = 80 * rate / greatest
        left = x + 6 + at * step
        parts.append(f'  <rect class="{"each" if is_each else "one"}" x="{left:.1f}" y="{y + 100 - tall:.1f}" width="{step - 10:.1f}" height="{tall:.1f}"/>')
        parts.append(f'  <text class="s" x="{left:.1f}" y="{y + 96 - tall:.1f}">{rate / 1000:.0f}</text>')
        parts.append(f'  <text class="s" x="{left:.1f}" y="{y + 114}">{label}</text>')
    return parts


def draw(figures, path):
    width, height = LEFT + len(SIZES) * WIDTH, TOP + 2 * len(CALLS) * HEIGHT
    parts = [
        f'<svg xmlns="http://www.w3.org/2000/svg" viewBox="0 0 {width} {height}" width="{width}" height="{height}" role="img" aria-labelledby="title desc">',
        '  <title id="title">Hits and queued puts a second by threads</title>',
        '  <desc id="desc">For each size of a value, over memory and over files: thousand hits and queued puts a second, by 1, 2 and 4 threads.</desc>',
        f"  <style>{STYLE}  </style>",
        f'  <rect class="page" x="0.5" y="0.5" width="{width - 1}" height="{height - 1}" rx="10"/>',
        f'  <text class="n" x="{LEFT}" y="26">Thousand hits and queued puts a second</text>',
        f'  <rect class="one" x="{LEFT + 390}" y="16" width="12" height="12"/><text x="{LEFT + 408}" y="26">gets read through one I/O engine</text>',
        f'  <rect class="each" x="{LEFT + 640}" y="16" width="12" height="12"/><text x="{LEFT + 658}" y="26">one for each thread; puts: a core each</text>',
    ]
    for row, (place, calls) in enumerate((place, calls) for place in PLACES for calls, _ in CALLS):
        for column, size in enumerate(SIZES):
            found = [it for it in figures if (it["place"], it["calls"], it["bytes"]) == (place, calls, size[0])]
            found = sorted((it for it in found if it["way"] in (PLAIN, CORES)), key=lambda it: (it["threads"], it["engines"], it["way"] == CORES))
            bars = [(f"{it['threads']}t", it["rate"], it["engines"] > 1 or it["way"] == CORES) for it in found]
            if bars:
                parts += panel(LEFT + column * WIDTH, TOP + row * HEIGHT, f"{calls} of {named(size[0])}, {place}", bars)
    with open(path, "w", encoding="utf-8") as file:
        file.write("\n".join(parts) + "\n</svg>\n")


def main():
    words = argparse.ArgumentParser(description=__doc__.split("\n", maxsplit=1)[0])
    words.add_argument("--binary", default=BENCH)
    words.add_argument("--seconds", type=int, default=2)
    words.add_argument("--rounds", type=int, default=2)
    words.add_argument("--threads", type=lambda text: [int(it) for it in text.split(",")], default=[1, 2, 4])
    words.add_argument("--directory", default=None)
    words.add_argument("--figures")
    words.add_argument("--picture")
    options = words.parse_args()
    if options.figures and os.path.exists(options.figures):
        with open(options.figures, encoding="utf-8") as file:
            figures = json.load(file)
    else:
        if not os.access(options.binary, os.X_OK):
            raise SystemExit(f"no program at {os.path.normpath(options.binary)}: ./foyerbench :memory: 1048576 65536 1 100 1 builds it")
        top = tempfile.mkdtemp(prefix="foyer-plot-", dir=options.directory)
        options.directory = top
        try:
            figures = figures_of(options)
        except Wrong as wrong:
            print(f"wrong: {wrong}", file=sys.stderr)
            return 1
        finally:
            shutil.rmtree(top, ignore_errors=True)
        if options.figures:
            with open(options.figures, "w", encoding="utf-8") as file:
                json.dump(figures, file, indent=0)
    print_tables(figures)
    if options.picture:
        draw(figures, options.picture)
    return 0


if __name__ == "__main__":
    sys.exit(main())
