#!/usr/bin/env python3
"""What surrounds the program, as hostile as it comes: memory, lines, streams, file handles, rights, and a second program.

    hostile.py [--binary PATH]

It prints one line a check, and ends with status 0 when all held, 1 for a wrong answer, 2 for bad arguments. Checked is:
- memory: each call of the program by which it asks the system for memory fails in turn, alone and with the next 30 (soak/inject.py:
  Linux on x86-64). Each line is answered rightly, by `fault Memory`, or, where memory was refused for its text, by `miss`;
  or `fault Memory` is all. The program ends, with status 0, or 1 after a fault;
- lines: one of 300 MB is a put that no block holds, another one a bad line, and where memory doesn't hold it `fault Memory`; the next
  one is read. NUL bytes are texts, and no numbers;
- streams: an output that is broken, full or closed, and an input that is closed, end the program with status 1. What was put before is
  written, and no file takes a closed stream's place;
- handles: with any number of file handles a directory is opened, or `fault Io` is all, and what it has stays;
- rights: a directory and files that may not be written are `fault Io`, and stay;
- a second program over a directory is refused, and changes nothing. If the lock's file is deleted, so that there are two programs, each
  answers for a key a text that was put under it by one of them, whole, or `miss`; so does an opening afterwards.
"""

import argparse
import hashlib
import os
import resource
import shutil
import subprocess
import sys
import tempfile

import inject
from program import BINARY, Program, text_of

BLOCK = 16384
LONG = 300_000_000


class Wrong(Exception):
    """An answer that the page on the program doesn't allow."""


def run(words, lines=b"", **how):
    """The output, the errors and the status."""
    try:
        done = subprocess.run([str(it) for it in words], input=None if "stdin" in how else lines, stdout=how.pop("stdout", subprocess.PIPE),
                              stderr=subprocess.PIPE, timeout=120, check=False, **how)
    except subprocess.TimeoutExpired as late:
        raise Wrong(f"no end within 120 s: {words[1:]}") from late
    return done.stdout, done.stderr, done.returncode


def expect(what, one, other):
    if one != other:
        raise Wrong(f"{what}: {one!r} and not {other!r}"[:400])


MEMORY = (("put 1 a", {"queued"}), ("put 2 " + "b" * 9000, {"queued"}), ("wait", {"ok"}), ("get 1", {"entry a", "miss"}),
          ("get 2", {"entry " + "b" * 9000, "miss"}), ("del 1", {"ok"}), ("get 1", {"miss", "entry a"}), ("put 3 c", {"queued"}),
          ("destroy", {"ok"}), ("get 3", {"miss", "entry c", "piece c"}), ("put 4 d", {"queued"}), ("wait", {"ok"}),
          ("get 4", {"entry d", "piece d", "miss"}), ("close", {"ok"}), ("get 4", {"entry d", "piece d", "miss"}))


def judge_memory(output, status, where):
    answers = output.decode().splitlines()
    if status not in (0, 1):
        raise Wrong(f"{where}: status {status}, {answers[-1:]}")
    if answers == ["fault Memory"] or not answers:
        expect(where, status, 1)
        return "not begun"
    expect(where, len(answers), len(MEMORY))
    refused = {line for (line, _), answer in zip(MEMORY, answers) if answer == "fault Memory"}
    for number, ((line, allowed), answer) in enumerate(zip(MEMORY, answers)):
        may = allowed | {"fault Memory"}
        if line == "get 1" and number == 6 and "del 1" not in refused:
            may -= {"entry a"}
        if line == "get 3" and "destroy" not in refused:
            may -= {"entry c", "piece c"}
        if answer not in may:
            raise Wrong(f"{where}: {line[:20]} answers {answer[:40]!r}")
    expect(f"{where}: status", status, 1 if refused else 0)
    return "refused" if refused else "unseen"


def check_memory(binary, top):
    lines = "".join(line + "\n" for line, _ in MEMORY).encode()
    counts = {"not begun": 0, "refused": 0, "unseen": 0}
    for place in (":memory:", os.path.join(top, "memory")):
        words = [os.path.abspath(binary), place, 8 * BLOCK, BLOCK]
        output, status, calls = inject.run(words, lines, inject.Fault("memory"))
        if status or b"fault" in output or b"miss" in b"".join(output.splitlines()[3:5]):
            raise Wrong(f"with ample memory: status {status}, {output[:200]!r}")
        for n in range(1, calls + 1):
            for more in (0, 30):
                if os.path.exists(place):
                    shutil.rmtree(place)
                output, status, _ = inject.run(words, lines, inject.Fault("memory", n, 0, more))
                counts[judge_memory(output, status, f"{place}, call {n} of {calls} and {more} more")] += 1
    told = ", ".join(f"{count} {word}" for word, count in counts.items())
    print(f"memory: {sum(counts.values())} runs with calls for memory that fail: {told}")


def limit(bytes_of_memory):
    return lambda: resource.setrlimit(resource.RLIMIT_AS, (bytes_of_memory, bytes_of_memory))


def check_lines(binary, top):
    words = [binary, ":memory:", 8 * BLOCK, BLOCK]
    long = os.path.join(top, "long")
    with open(long, "wb") as file:
        file.write(b"put 1 a\nwait\nput 1 ")
        for _ in range(LONG // 1_000_000):
            file.write(b"x" * 1_000_000)
        file.write(b"\nwait\nget 1\nput 2 b\nwait\nget 2\n")
        for _ in range(LONG // 1_000_000):
            file.write(b"y" * 1_000_000)
        file.write(b"\nget 2\n")
    with open(long, "rb") as file:
        output, _, status = run(words, stdin=file)
    wanted = b"queued\nok\nqueued\nok\nmiss\nqueued\nok\nentry b\nbad line\nentry b\n"
    expect("lines of 300 MB", (output, status), (wanted, 1))
    with open(long, "rb") as file:
        output, _, status = run(words, stdin=file, preexec_fn=limit(400 << 20))
    wanted = b"queued\nok\nfault Memory\nok\nentry a\nqueued\nok\nentry b\nfault Memory\nentry b\n"
    expect("lines of 300 MB where memory holds none", (output, status), (wanted, 1))
    os.remove(long)
    output, _, status = run(words, b"put 1 a\0b\nwait\nget 1\nput 2\0 a\n\0\nget 1\0\nput 3 \0\0\nwait\nget 3")
    wanted = b"queued\nok\nentry a\0b\nbad line\nbad line\nbad line\nqueued\nok\nentry \0\0\n"
    expect("NUL bytes", (output, status), (wanted, 1))
    print("lines: of 300 MB, also where memory holds none, and with NUL bytes")


def check_streams(binary, top):
    count = 0
    for name in ("broken", "full", "closed", "unread", "unsaid"):
        directory = os.path.join(top, name)
        words = [binary, directory, 8 * BLOCK, BLOCK]
        lines, how = b"put 1 a\nput 2 b\nget 1\n", {}
        if name == "broken":
            reader, writer = os.pipe()
            os.close(reader)
            how["stdout"] = writer
        elif name == "full":
            how["stdout"] = os.open("/dev/full", os.O_WRONLY)
        elif name == "closed":
            how["preexec_fn"] = lambda: os.close(1)
        elif name == "unread":
            how["preexec_fn"] = lambda: os.close(0)
        else:
            how["preexec_fn"] = lambda: [os.close(it) for it in range(3)]
        _, _, status = run(words, lines, **how)
        expect(f"a stream that is {name}: status", status, 1)
        with open(os.path.join(directory, "foyer.lock"), "rb") as file:
            expect(f"a lock beside a stream that is {name}", file.read(), b"block=%d cores=1 log=0\n" % BLOCK)
        if isinstance(how.get("stdout"), int):
            os.close(how["stdout"])
        found = b"miss\nmiss\n" if name.startswith("un") else b"entry a\nentry b\n"
        expect(f"behind a stream that is {name}", run(words, b"get 1\nget 2\n")[0], found)
        count += 1
    print(f"streams: {count} that are broken, full or closed; what was put before is written")


def sums_of(directory):
    sums = {}
    for name in sorted(os.listdir(directory)):
        with open(os.path.join(directory, name), "rb") as file:
            sums[name] = hashlib.sha256(file.read()).hexdigest()
    return sums


def check_handles(binary, top):
    directory = os.path.join(top, "handles")
    words = [binary, directory, 4 * BLOCK, BLOCK]
    expect("a first run", run(words, b"put 1 a\nput 2 b\n")[0], b"queued\nqueued\n")
    before, opened, refused = sums_of(directory), 0, 0
    for most in range(3, 64):
        output, errors, status = run(words, b"get 1\nget 2\n", preexec_fn=lambda: resource.setrlimit(resource.RLIMIT_NOFILE, (most, most)))
        if (output, status) == (b"entry a\nentry b\n", 0):
            opened += 1
        elif output == b"fault Io\n" and status == 1 and directory.encode() in errors:
            refused += 1
        elif output or status not in (1, 127):
            raise Wrong(f"{most} handles: status {status}, {output[:80]!r}, {errors[:80]!r}")
        expect(f"{most} handles: the files", sums_of(directory), before)
    if not opened or not refused:
        raise Wrong(f"handles: {opened} openings, {refused} refusals")
    print(f"handles: with 3 to 63 of them {opened} openings and {refused} refusals, and the files stay")


def as_nobody():
    os.setgid(65534)
    os.setuid(65534)


def check_rights(binary, top):
    if os.getuid():
        print("rights: left out, since only root may give them up here")
        return
    os.chmod(top, 0o755)
    own = shutil.copy(binary, os.path.join(top, "program"))
    directory = os.path.join(top, "rights")
    words = [own, directory, 2 * BLOCK, BLOCK]
    expect("a first run", run(words, b"put 1 a\n")[0], b"queued\n")
    before = sums_of(directory)
    for name in os.listdir(directory):
        os.chmod(os.path.join(directory, name), 0o444)
    for mode, path in ((0o555, directory), (0o000, directory), (0o555, os.path.join(directory, "below"))):
        os.chmod(directory, mode)
        output, errors, status = run([own, path, 2 * BLOCK, BLOCK], b"get 1\nput 2 b\n", preexec_fn=as_nobody)
        expect(f"mode {mode:o}", (output, status, path.encode() in errors), (b"fault Io\n", 1, True))
    os.chmod(directory, 0o755)
    expect("files that may not be written", sums_of(directory), before)
    expect("who may write", run(words, b"get 1\n")[0], b"entry a\n")
    print("rights: a directory and files that may not be written are refused, and stay")


def check_second(binary, top):
    directory = os.path.join(top, "second")
    words = [binary, directory, 4 * BLOCK, BLOCK]
    first = Program(binary, directory, 4 * BLOCK, BLOCK)
    first.send(b"put 1 a\nwait\n")
    expect("the first program", (first.answer(), first.answer()), (b"queued", b"ok"))
    before = sums_of(directory)
    output, errors, status = run(words, b"get 1\nput 1 b\n")
    expect("a second program", (output, status), (b"fault Io\n", 1))
    expect("why it is refused", errors, b"foyerdisk: " + directory.encode() + b": the directory is in use: Io\n")
    expect("a directory after a second program", sums_of(directory), before)
    first.send(b"get 1\n")
    expect("the first program after a second", (first.answer(), first.end()), (b"entry a", 0))
    killed = Program(binary, directory, 4 * BLOCK, BLOCK)
    killed.send(b"get 1\n")
    expect("a program that will be killed", killed.answer(), b"entry a")
    killed.kill()
    expect("after a kill", run(words, b"get 1\n")[0], b"entry a\n")
    print("a second program over a directory is refused, and one after a kill isn't")


def check_two(binary, top):
    """Two programs over one directory, of which the second doesn't see the lock: each asked by turns."""
    said = {"own": 0, "other": 0, "miss": 0}
    for number in range(40):
        directory = os.path.join(top, f"two-{number}")
        both = []
        for _ in range(2):
            both.append(Program(binary, directory, 4 * BLOCK, BLOCK))
            both[-1].send(b"get 0\n")
            expect("the first answer of two programs", both[-1].answer(), b"miss")
            os.unlink(os.path.join(directory, "foyer.lock"))
        texts, count = {}, 0
        for turn in range(60):
            program, key = both[turn % 2], turn * 7 % 5
            count += 1
            # Of one length, so that records of both may stand in each other's places.
            length = (60, 3000)[number % 2]
            text = text_of(key, count, length)
            texts.setdefault(key, {})[text] = turn % 2
            program.send(b"put %d %s\nwait\nget %d\nget %d\n" % (key, text, key, (key + turn) % 5))
            expect("a put and a wait beside another program", (program.answer(), program.answer()), (b"queued", b"ok"))
            for asked in (key, (key + turn) % 5):
                answer = program.answer()
                known = texts.get(asked, {})
                if answer == b"miss":
                    said["miss"] += 1
                elif answer.startswith(b"entry ") and answer[6:] in known:
                    said["own" if known[answer[6:]] == turn % 2 else "other"] += 1
                else:
                    raise Wrong(f"two programs: key {asked} answers {answer[:60]!r}")
        expect("two programs end", [it.end() for it in both], [0, 0])
        output, _, status = run([binary, directory, 4 * BLOCK, BLOCK], b"".join(b"get %d\n" % it for it in range(5)))
        expect("opened after two programs: status", status, 0)
        for key, answer in enumerate(output.splitlines()):
            if answer != b"miss" and not (answer.startswith(b"entry ") and answer[6:] in texts.get(key, {})):
                raise Wrong(f"after two programs key {key} answers {answer[:60]!r}")
        shutil.rmtree(directory)
    told = ", ".join(f"{count} {word}" for word, count in said.items())
    print(f"two programs over one directory: {told}; each text is whole and of its key")


def main():
    words = argparse.ArgumentParser(description=__doc__.split("\n", maxsplit=1)[0])
    words.add_argument("--binary", default=BINARY)
    binary = os.path.abspath(words.parse_args().binary)
    if not os.access(binary, os.X_OK):
        raise SystemExit(f"no program at {os.path.normpath(binary)}: ./foyerdisk :memory: 16384 16384 builds it")
    top = tempfile.mkdtemp(prefix="foyer-hostile-")
    try:
        for check in (check_lines, check_streams, check_handles, check_rights, check_second, check_two, check_memory):
            check(binary, top)
    except (Wrong, inject.Late) as wrong:
        print(f"wrong: {wrong}", file=sys.stderr)
        return 1
    finally:
        shutil.rmtree(top, ignore_errors=True)
    return 0


if __name__ == "__main__":
    sys.exit(main())
