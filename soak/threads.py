"""Threads that ask one store at once, with reopening; that are killed; and short scripts of the program, also where its accesses fail.

    python3 soak/threads.py                         eight threads, a minute
    python3 soak/threads.py --seconds 600 --threads 4
    python3 soak/threads.py --cores 4               over a store of four cores
    python3 soak/threads.py --kills 2000            threads alone that are killed while they write
    python3 soak/threads.py --scripts 10000         short scripts alone
    python3 soak/threads.py --faults 10000          short scripts alone in which accesses fail
    python3 soak/threads.py --faults 10000 --cores 2   the same over a store of two cores, by frames

Runs of threads and kills need crates/foyersoak/out/foyersoak (FOYER_PROGRAM=foyersoak ./foyerdisk builds and runs it), faults over several
cores crates/foyerpipe/out/foyerpipe, the others crates/foyerdisk/out/foyerdisk. Each thread judges its own answers: what it put last, or a miss, and of a key that it hasn't put yet
a whole value of an earlier run. After each kill the directory is opened by threads that end by themselves.

With `--faults` each read and each write of a script's block files fails in turn, with nothing, a part and all of it done, and with
and without all later ones (soak/inject.py: Linux on x86-64). No answer may be wrong: a `get` answers a text of its key that was put since
it was deleted, or `miss`, or `fault Io`; a `destroy` is `ok` or `fault Io`; every other line is answered as without a fault. The
program ends, with status 0, or 1 where it answered a fault; and what it left behind is opened without a fault, where a key is a miss
or has a text that was put since the last destroy that was `ok`. Ends with status 0 when all held.
"""

import argparse
import collections
import os
import random
import re
import shutil
import struct
import subprocess
import tempfile
import time

import inject
import program

FOUND = re.compile(rb"calls=(\d+) hits=(\d+) wrong=(\d+) faults=(\d+)")
# Capacity and block in bytes: one block, a few, and many.
SIZES = ((65536, 65536), (262144, 65536), (1048576, 65536), (8388608, 1048576))


def run_threads(options):
    """Runs the soaking program again and again over the same directories, for so many seconds: what it found in all."""
    sums = [0, 0, 0, 0]
    runs, draw = 0, random.Random(options.seed)
    until = time.monotonic() + options.seconds
    with tempfile.TemporaryDirectory(prefix="foyer-threads-") as top:
        while time.monotonic() < until:
            capacity, block = draw.choice(SIZES)
            directory = ":memory:" if draw.random() < 0.3 else os.path.join(top, f"{capacity}-{block}")
            words = [options.soak, directory, capacity * options.cores, block, options.threads, options.calls, runs + 1, options.cores]
            try:
                ran = subprocess.run([str(it) for it in words], capture_output=True, timeout=300, check=False)
            except subprocess.TimeoutExpired:
                raise SystemExit(f"did not end within 300 s: {words}")
            found = FOUND.search(ran.stderr)
            if ran.returncode or not found or int(found[3]) or int(found[4]):
                raise SystemExit(f"status {ran.returncode}: {words}\n{ran.stderr.decode(errors='replace')}")
            sums = [one + int(more) for one, more in zip(sums, found.groups())]
            runs += 1
    print(f"{runs} runs of {options.threads} threads: {sums[0]} calls, {sums[1]} hits, {sums[2]} wrong, {sums[3]} refused")


def run_kills(options):
    """Kills the soaking program while its threads write, and has another one judge what it left behind."""
    sums, draw, found = [0, 0, 0, 0], random.Random(options.seed), None
    with tempfile.TemporaryDirectory(prefix="foyer-threads-") as top:
        for number in range(options.kills):
            capacity, block = draw.choice(SIZES)
            directory = os.path.join(top, f"{capacity}-{block}-{draw.randrange(4)}")
            words = [str(it) for it in (options.soak, directory, capacity * options.cores, block, options.threads)]
            last = [str(options.cores)]
            child = subprocess.Popen(words + ["100000000", str(2 * number + 1)] + last, stdout=subprocess.DEVNULL, stderr=subprocess.DEVNULL)
            time.sleep(draw.random() * 0.06)
            child.kill()
            if child.wait() != -9:
                raise SystemExit(f"ended with {child.returncode} before it was killed: {words}")
            try:
                ran = subprocess.run(words + ["500", str(2 * number + 2)] + last, capture_output=True, timeout=300, check=False)
            except subprocess.TimeoutExpired:
                raise SystemExit(f"did not end within 300 s after kill {number}: {words}")
            found = FOUND.search(ran.stderr)
            if ran.returncode or not found or int(found[3]) or int(found[4]):
                raise SystemExit(f"status {ran.returncode} after kill {number}: {words}\n{ran.stderr.decode(errors='replace')}")
            sums = [one + int(more) for one, more in zip(sums, found.groups())]
    print(f"{options.kills} kills of {options.threads} threads that write, seed {options.seed}: {sums[0]} calls after them, {sums[1]} hits, "
          f"{sums[2]} wrong, {sums[3]} refused")


class Script:
    """A short script over so many keys, and of each line the answers that it may get where an access fails."""

    def __init__(self, draw, keys=3):
        self.keys = keys
        self.lines, self.allowed = [], []
        # Of each key the texts that were put since it was deleted last, and all since the last destroy; and the newest since a wait.
        self.texts, self.ever, self.kept = collections.defaultdict(list), collections.defaultdict(list), {}
        for number in range(draw.randint(4, 14)):
            self.add(draw, number)
        self.add_line("close", {"ok"})

    def add_line(self, line, answers):
        self.lines.append(line)
        self.allowed.append(answers)

    def add(self, draw, number):
        key, kind = draw.randint(1, self.keys), draw.choice("ppppgggdwwx")
        if kind == "p":
            text = f"{key}.{number}" + "x" * draw.choice((0, 10, 3000, 9000))
            self.add_line(f"put {key} {text}", {"queued"})
            self.texts[key].append(text)
            self.ever[key].append((number, text))
            self.kept[key] = text
        elif kind == "g":
            answers = {"miss", "fault Io"} | {f"entry {it}" for it in self.texts[key]}
            self.add_line(f"get {key}", answers | ({f"piece {self.kept[key]}"} if key in self.kept else set()))
        elif kind == "d":
            self.add_line(f"del {key}", {"ok"})
            self.texts[key].clear()
        else:
            self.add_line("wait" if kind == "w" else "destroy", {"ok"} if kind == "w" else {"ok", "fault Io"})
            self.kept.clear()
            if kind == "x":
                self.texts.clear()

    def left(self, answers):
        """Of each key what may be found when the directory is opened again."""
        last = max((at for at, it in enumerate(zip(self.lines, answers)) if it == ("destroy", "ok")), default=-1)
        return [{"miss"} | {f"entry {text}" for number, text in self.ever[key] if number > last} for key in range(1, self.keys + 1)]


def check(script, answers, status, wanted, where):
    wrong = [it for it in zip(script.lines, answers, script.allowed) if it[1] not in it[2]]
    if wrong or len(answers) != len(script.lines) or status != wanted:
        told = "\n".join(f"{line[:60]}: {answer[:60]}" for line, answer in zip(script.lines, answers))
        raise SystemExit(f"{where}: status {status}, {[(it[0][:40], it[1][:60]) for it in wrong[:1]]}\n{told}")


class Lines:
    """The program that reads lines."""

    def __init__(self, options, directory, draw):
        self.words = [os.path.abspath(program.BINARY), directory, draw.choice((32768, 65536, 262144)), 16384]

    def script(self, draw):
        return Script(draw)

    def sent(self, lines):
        return "".join(it + "\n" for it in lines).encode()

    def answers(self, lines, output):
        return output.decode().splitlines()

    def status(self, answers):
        return any(it.startswith("fault") for it in answers)


class Frames:
    """The program that reads frames, over several cores. A piece is answered as an entry is."""

    KINDS = {"put": b"p", "get": b"g", "del": b"d", "wait": b"w", "destroy": b"x", "close": b"q"}
    CODES = {0: "ok", 1: "entry", 2: "miss", 65: "fault Io"}

    def __init__(self, options, directory, draw):
        capacity = options.cores * draw.choice((32768, 65536, 262144))
        self.words = [os.path.abspath(options.pipe), directory, capacity, 16384, f"cores={options.cores}"]

    def script(self, draw):
        script = Script(draw, keys=8)
        script.allowed = [{it.replace("piece ", "entry ") for it in one} for one in script.allowed]
        return script

    def sent(self, lines):
        frames = b""
        for number, line in enumerate(lines):
            kind, key, value = (line.split(" ") + ["", ""])[:3]
            frames += self.KINDS[kind] + struct.pack("<III", number, len(key), len(value)) + key.encode() + value.encode()
        return frames

    def answers(self, lines, output):
        answers = {}
        while len(output) >= 9:
            number, code, size = struct.unpack("<IBI", output[:9])
            word = self.CODES.get(code, f"code {code}")
            answers[number] = f"entry {output[9 : 9 + size].decode()}" if code == 1 else word
            output = output[9 + size :]
        return ["queued" if line.startswith("put") and answers.get(at) == "ok" else answers.get(at, "none") for at, line in enumerate(lines)]

    def status(self, answers):
        return False


def run_faults(options):
    """Runs short scripts over directories, in each of which one access fails, or all from one on."""
    draw, faults, scripts, said = random.Random(options.seed), 0, 0, collections.Counter()
    with tempfile.TemporaryDirectory(prefix="foyer-threads-", dir="/dev/shm" if os.access("/dev/shm", os.W_OK) else None) as top:
        directory = os.path.join(top, "blocks")
        while faults < options.faults:
            asked = (Lines if options.cores == 1 else Frames)(options, directory, draw)
            script, scripts = asked.script(draw), scripts + 1
            lines = asked.sent(script.lines)
            keys = range(1, script.keys + 1)
            again = [f"get {key}" for key in keys] + ["put 1 again", "wait", "get 1"]
            _, _, calls = inject.run(asked.words, lines)
            shutil.rmtree(directory)
            for n in range(1, calls + 1):
                for kept, stops in ((0, False), (draw.randrange(1, 4096), False), (None, False), (0, True), (draw.randrange(1, 4096), True)):
                    where = f"script {scripts}, access {n} of {calls}, {kept} bytes done, {'all later ones fail' if stops else 'once'}"
                    try:
                        output, status, _ = inject.run(asked.words, lines, inject.Fault("io", n, kept, inject.ALL if stops else 0))
                    except inject.Late as late:
                        raise SystemExit(f"{where}: {late}\n" + "\n".join(it[:60] for it in script.lines))
                    answers = asked.answers(script.lines, output)
                    check(script, answers, status, asked.status(answers), where)
                    ran = subprocess.run([str(it) for it in asked.words], input=asked.sent(again), capture_output=True, timeout=60, check=False)
                    found = asked.answers(again, ran.stdout)
                    may = script.left(answers) + [{"queued"}, {"ok"}, {"entry again"}]
                    if ran.returncode or len(found) != len(again) or any(one not in other for one, other in zip(found, may)):
                        raise SystemExit(f"{where}: opened again it answers {[it[:60] for it in found]}, status {ran.returncode}")
                    said.update(it.split(" ")[0] for it in answers + found[: script.keys])
                    faults += 1
                    shutil.rmtree(directory)
    told = ", ".join(f"{said[it]} {it}" for it in ("entry", "piece", "miss", "fault"))
    print(f"{faults} faults in {scripts} scripts over {options.cores} cores, seed {options.seed}: {told}; 0 wrong, all ended")


def script_of(draw):
    """A short script, and of each line the answers that it may get."""
    lines, allowed, newest = [], [], {}
    for number in range(draw.randint(1, 10)):
        key = draw.randint(1, 3)
        kind = draw.choice("ppppggggdwwx")
        if kind == "p":
            text = f"{key}.{number}" + "x" * draw.choice((0, 10, 3000, 9000))
            newest[key] = (text, False)
            lines.append(f"put {key} {text}")
            allowed.append({"queued"})
        elif kind == "g":
            text, is_deleted = newest.get(key, (None, True))
            lines.append(f"get {key}")
            # (a text that isn't written yet outlives a delete)
            answers = {"miss"} if text is None else {"miss", f"piece {text}"} if is_deleted else {"miss", f"piece {text}", f"entry {text}"}
            allowed.append(answers)
        elif kind == "d":
            if key in newest:
                newest[key] = (newest[key][0], True)
            lines.append(f"del {key}")
            allowed.append({"ok"})
        elif kind == "w":
            lines.append("wait")
            allowed.append({"ok"})
        else:
            newest = {it: (text, True) for it, (text, _) in newest.items()}
            lines.append("destroy")
            allowed.append({"ok"})
    return lines, allowed


def run_scripts(options):
    """Runs so many short scripts over memory: each must end, and each answer be one that its line may get."""
    draw, longest = random.Random(options.seed), 0.0
    for number in range(options.scripts):
        lines, allowed = script_of(draw)
        words = [program.BINARY, ":memory:", str(draw.choice((16384, 32768, 65536))), "16384"]
        begun = time.monotonic()
        try:
            text = "".join(it + "\n" for it in lines).encode()
            ran = subprocess.run(words, input=text, capture_output=True, timeout=60, check=False)
        except subprocess.TimeoutExpired:
            raise SystemExit(f"script {number} did not end within 60 s: {words}\n" + "\n".join(it[:80] for it in lines))
        longest = max(longest, time.monotonic() - begun)
        answers = ran.stdout.decode().splitlines()
        wrong = [it for it in zip(lines, answers, allowed) if it[1] not in it[2]]
        if ran.returncode or wrong or len(answers) != len(lines):
            raise SystemExit(f"script {number}: status {ran.returncode}, {wrong[:1]}\n" + "\n".join(it[:80] for it in lines))
    print(f"{options.scripts} scripts ended, the longest within {longest:.2f} s")


def main():
    parser = argparse.ArgumentParser(description=__doc__, formatter_class=argparse.RawDescriptionHelpFormatter)
    parser.add_argument("--soak", default=program.BINARY.replace("foyerdisk", "foyersoak"), help="the soaking program")
    parser.add_argument("--pipe", default=program.BINARY.replace("foyerdisk", "foyerpipe"), help="the program that reads frames")
    parser.add_argument("--seconds", type=float, default=60)
    parser.add_argument("--threads", type=int, default=8)
    parser.add_argument("--calls", type=int, default=100000, help="of each thread, in each run")
    parser.add_argument("--cores", type=int, choices=(1, 2, 4), default=1, help="of the store of each run")
    parser.add_argument("--scripts", type=int, default=0, help="run so many short scripts in place of threads")
    parser.add_argument("--kills", type=int, default=0, help="kill so many runs of threads in place of letting them end")
    parser.add_argument("--faults", type=int, default=0, help="fail so many accesses of short scripts in place of threads")
    parser.add_argument("--seed", type=int, default=1)
    options = parser.parse_args()
    if options.scripts:
        run_scripts(options)
    elif options.kills:
        run_kills(options)
    elif options.faults:
        run_faults(options)
    else:
        run_threads(options)


if __name__ == "__main__":
    main()
