#!/usr/bin/env python3
"""Asks foyerpipe through its clients in Python and in C, each by the same cases, without threads for gets and with two. Runs the examples of
docs/PIPE.md and of examples/, and the script foyerdisk with a stub in place of rt.

The C client is built with all warnings as errors, and its example with sanitizers, and run under valgrind if that is there. The cases:
round trips of random bytes; thousands of gets at once; a reopening, with and without a log of deletes; a device that is full; a disk that is
full; values that are given up; values that wait for room; deletes of values that are queued; limits; threads that share a cache; two caches of
one process; pipes of one page; programs that inherit no pipe, no socket and no blocked signal; a forked process; a directory that is in use,
and one that can't be opened; keys and values that are too long; bad words; children that aren't foyerpipe; a killed program; a caller that is
interrupted; a killed caller. Only for the client in Python: tasks that share a cache, before it is open and after its close; what is like
bytes; many requests of which some are refused; errors that are new ones; a thread that can't read replies; exceptions from signals' handlers;
openings and caches that are abandoned. The script: few handles, two first runs, and when it asks rt. Ends with status 0 if all held.

usage: clients.py [--program FILE] [--seed N]
"""
import argparse
import array
import asyncio
import contextlib
import ctypes
import errno
import faulthandler
import fcntl
import gc
import os
import random
import re
import resource
import shutil
import signal
import socket
import subprocess
import sys
import tempfile
import threading
import time
import traceback

TOP = os.path.dirname(os.path.dirname(os.path.abspath(__file__)))
CLIENTS = TOP + "/clients"
sys.path.insert(0, CLIENTS)
import foyer_client  # noqa: E402
from foyer_client import DONE, ENTRY, MISS, THROTTLED, YES, CacheEnded, CacheError, Throttled  # noqa: E402

ENDED = 256
WARNINGS = ["-std=c11", "-Wall", "-Wextra", "-Werror"]


class Found(ctypes.Structure):
    _fields_ = [("bytes", ctypes.c_void_p), ("len", ctypes.c_size_t)]


class CCache:
    """The C client, asked as the one in Python is."""

    def __init__(self, program, directory, capacity, block_size=1 << 24, *, start_seconds=None, **options):
        words = [b"%s=%s" % (str(k).encode(), str(v).encode()) for k, v in options.items()]
        settings = (ctypes.c_char_p * (len(words) + 1))(*words, None)
        words = [program.encode(), directory.encode()] + [b"%d" % it for it in (capacity, block_size)] + [settings]
        if start_seconds is None:
            at = LIB.foyer_open(*words)
        else:
            at = LIB.foyer_open_within(*words, int(1000 * start_seconds))
        if not at:
            why = ctypes.get_errno()
            raise (CacheEnded if why == errno.EPIPE else CacheError)(os.strerror(why))
        self._at = ctypes.c_void_p(at)

    def _code(self, name, *words):
        code = getattr(LIB, name)(self._at, *words)
        if code == ENDED:
            raise CacheEnded("it ended")
        if code in foyer_client.ERRORS:
            raise CacheError(foyer_client.ERRORS[code])
        if code == THROTTLED:
            raise Throttled("Throttled")
        return code

    @staticmethod
    def _bytes(found):
        value = ctypes.string_at(found.bytes, found.len)
        LIBC.free(ctypes.c_void_p(found.bytes))
        return value

    @staticmethod
    def _word(key):
        return key, ctypes.c_size_t(len(key))

    def put(self, key, value):
        return self._code("foyer_put", *self._word(key), *self._word(value)) == DONE

    def get(self, key):
        found = Found()
        return self._bytes(found) if self._code("foyer_get", *self._word(key), ctypes.byref(found)) == ENTRY else None

    def get_many(self, keys):
        count = len(keys)
        codes, found = (ctypes.c_int * count)(), (Found * count)()
        words, sizes = (ctypes.c_char_p * count)(*keys), (ctypes.c_size_t * count)(*map(len, keys))
        self._code("foyer_get_many", ctypes.c_size_t(count), words, sizes, codes, found)
        return [self._bytes(it) if code == ENTRY else None for code, it in zip(codes, found)]

    def contains(self, key):
        return self._code("foyer_contains", *self._word(key)) == YES

    def delete(self, key):
        self._code("foyer_delete", *self._word(key))

    def wait(self):
        self._code("foyer_wait")

    def destroy(self):
        self._code("foyer_destroy")

    def counters(self):
        found = Found()
        self._code("foyer_counters", ctypes.byref(found))
        return {name: int(count) for name, count in (it.split() for it in self._bytes(found).decode().splitlines())}

    def close(self):
        return LIB.foyer_close(self._at)

    def __enter__(self):
        return self

    def __exit__(self, *_):
        self.close()


# What the opening of a program that isn't foyerpipe says, or of one that says nothing in time.
NOT_FOYERPIPE = {"Python": ("isn't foyerpipe", "an older foyerpipe"), "C": (os.strerror(errno.EPROTO),)}
NO_REPLY = {"Python": ("didn't say in time",), "C": (os.strerror(errno.ETIMEDOUT),)}


def check(held, why):
    if not held:
        print("WRONG:", why)
        sys.exit(1)


def own_programs(are_all=False):
    """The programs that this process started and that run, or also those that have ended and that nobody has waited for."""
    mine = []
    for it in filter(str.isdigit, os.listdir("/proc")):
        try:
            with open("/proc/%s/stat" % it) as stat:
                words = stat.read().rsplit(")", 1)[1].split()
            if int(words[1]) == os.getpid() and (are_all or words[0] != "Z"):
                mine.append(int(it))
        except (FileNotFoundError, ProcessLookupError):
            pass
    return mine


def is_alive(pid):
    try:
        with open("/proc/%d/stat" % pid) as stat:
            return stat.read().rsplit(")", 1)[1].split()[0] != "Z"
    except (FileNotFoundError, ProcessLookupError):
        return False


def await_end(pid):
    while is_alive(pid):
        time.sleep(0.01)


def await_programs(count):
    while len(own_programs()) != count:
        time.sleep(0.01)


def raised(call):
    """What a call raises, or None."""
    try:
        call()
    except BaseException as why:
        return why
    return None


def gives_up(call):
    """Whether a call says that something was given up that had been taken."""
    error = raised(call)
    check(error is None or (type(error) is CacheError and error.kind == "Io"), "%r is raised" % error)
    return error is not None


def refused(kind, call):
    try:
        call()
    except kind:
        return True
    return False


def in_time(call):
    """What a call gives, if it doesn't hang."""
    given = []
    thread = threading.Thread(target=lambda: given.append(call()), daemon=True)
    thread.start()
    thread.join(60)
    check(given, "a call hangs")
    return given[0]


@contextlib.contextmanager
def standard_error(room):
    """Takes what is printed to standard error, also by programs that are started meanwhile. The file is to be read afterwards."""
    before = os.dup(2)
    with open(room + "/errors", "wb") as it:
        os.dup2(it.fileno(), 2)
    try:
        yield it.name
    finally:
        os.dup2(before, 2)
        os.close(before)


def script(room, text):
    """A program of the shell."""
    with open(room + "/script", "w") as it:
        it.write("#!/bin/sh\n%s\n" % text)
    os.chmod(it.name, 0o755)
    return it.name


@contextlib.contextmanager
def alarm(seconds, handler):
    """Calls a handler of a signal after so many seconds."""
    before = signal.signal(signal.SIGALRM, handler)
    signal.setitimer(signal.ITIMER_REAL, seconds)
    try:
        yield
    finally:
        signal.setitimer(signal.ITIMER_REAL, 0)
        signal.signal(signal.SIGALRM, before)


def raising(error):
    """A call that raises an error, whatever its words are."""

    def fail(*_):
        raise error

    return fail


def values(rnd, count, sizes):
    return {b"%d-" % i + rnd.randbytes(rnd.randrange(20)): rnd.randbytes(rnd.choice(sizes)) for i in range(count)}


def round_trips(opened, rnd, room):
    with opened(room, 1 << 28) as cache:
        pairs = values(rnd, 60, [0, 1, 15, 4095, 4096, 70000, 1 << 20, 5 << 20])
        for key, value in pairs.items():
            check(cache.put(key, value), "a put isn't taken")
            check(cache.get(key) == value and cache.contains(key), "what was just put isn't there")
            cache.wait()
        check(all(cache.get(key) == value for key, value in pairs.items()), "what was written isn't there")
        check(cache.get(b"none") is None and not cache.contains(b"none"), "a key that was never put is there")
        first = next(iter(pairs))
        cache.delete(first)
        check(cache.get(first) is None, "a deleted key is there")
        count = cache.counters()
        check(count["queued_puts"] == 60, "the counters are %r" % count)
        cache.destroy()
        check(all(cache.get(key) is None for key in pairs), "what was destroyed is there")
        cache.put(b"long", b"." * (1 << 25))
        check(gives_up(cache.wait) and cache.get(b"long") is None, "a value that no block holds is there")


def thousands_at_once(opened, rnd, room):
    with opened(":memory:", 1 << 26, 1 << 20) as cache:
        pairs = values(rnd, 3000, [10, 1000, 3000])
        for key, value in pairs.items():
            check(cache.put(key, value), "a put isn't taken")
            cache.wait() if rnd.randrange(100) == 0 else None
        cache.wait()
        asked = [rnd.choice(list(pairs)) if rnd.randrange(10) else b"none%d" % i for i in range(20000)]
        check(cache.get_many(asked) == [pairs.get(it) for it in asked], "many at once differ")


def reopenings(opened, rnd, room):
    for log in (0, 1):
        place = "%s/log%d" % (room, log)
        pairs = values(rnd, 300, [10, 1000, 9000])
        with opened(place, 1 << 25, 1 << 20, log=log) as cache:
            for key, value in pairs.items():
                check(cache.put(key, value), "a put isn't taken")
            cache.wait()
            gone = list(pairs)[:100]
            for key in gone:
                cache.delete(key)
            cache.wait()
            check(cache.close() == 0, "a close has a status") if isinstance(cache, foyer_client.Cache) else None
        with opened(place, 1 << 25, 1 << 20, log=log) as cache:
            for key, value in pairs.items():
                found = cache.get(key)
                check(found == value if key not in gone else found in ((None,) if log else (None, value)), "after a reopening %r differs" % key)


def full_device(opened, rnd, room):
    with opened(room + "/full", 1 << 22, 1 << 19) as cache:
        newest = {}
        for i in range(4000):
            key = b"%d" % rnd.randrange(800)
            newest[key] = b"%d " % i + rnd.randbytes(rnd.choice([100, 9000]))
            if not cache.put(key, newest[key]):
                newest[key] = None
            cache.wait() if i % 20 == 0 else None
        cache.wait()
        found = {key: cache.get(key) for key in newest}
        check(all(value is None or value == newest[key] for key, value in found.items()), "a value is older than the last put")
        check(sum(value is not None for value in found.values()) > 100, "nothing is found in a full cache")
        check(cache.counters()["reclaims"] > 0, "nothing was reclaimed")


@contextlib.contextmanager
def small_disk(room, program):
    """A directory whose disk has few bytes. Gives it, a program to open it with, and what is to be done once it is open."""
    os.mkdir(room + "/disk")
    mounted = os.getuid() == 0 and shutil.which("mount") and subprocess.run(["mount", "-t", "tmpfs", "-o", "size=8m", "none", room + "/disk"])
    if mounted and mounted.returncode == 0:
        try:
            yield room + "/disk/cache", program, lambda: None
        finally:
            run(["umount", room + "/disk"])
    else:
        # no file may grow beyond this; the signal that a write beyond it would be ended by is ignored
        limited = script(room, "trap '' XFSZ; exec %s \"$@\"" % program)
        limit = 1 << 19, resource.getrlimit(resource.RLIMIT_FSIZE)[1]
        yield room + "/disk/cache", limited, lambda: resource.prlimit(own_programs()[0], resource.RLIMIT_FSIZE, limit)


def full_disk(opened, rnd, room):
    with small_disk(room, opened.program) as (place, program, begin):
        cache = opened.by(program, place, 1 << 26, 1 << 20)
        begin()
        # Each failed write costs a block. Few puts are made at once, so that enough blocks stay and none is reclaimed.
        kept, last, is_full = {}, {}, False
        while not is_full:
            last = {b"%d" % k: rnd.randbytes(8000) for k in range(len(kept), len(kept) + 5)}
            check(all(cache.put(*it) for it in last.items()), "a put isn't taken")
            is_full = gives_up(cache.wait)
            kept.update({} if is_full else last)
            check(len(kept) < 8000, "no wait says that the disk is full")
        check(kept and all(cache.get(key) == value for key, value in kept.items()), "what a wait confirmed is lost on a full disk")
        check(all(cache.get(key) in (None, value) for key, value in last.items()), "a value differs on a full disk")
        count = cache.counters()
        check(count["abandoned_by_writes"] > 0 and count["last_write_error"] in (errno.ENOSPC, errno.EFBIG), "the counters are %r" % count)
        check(not gives_up(cache.wait), "a wait tells twice")
        cache.put(b"0", b"." * 8000)
        is_lost = gives_up(cache.close) if opened.kind == "Python" else cache.close() == 1
        with opened.by(program, place, 1 << 26, 1 << 20) as cache:
            found = cache.get(b"0")
            check(found == b"." * 8000 or (is_lost and found in (None, kept[b"0"])), "a close doesn't tell what is lost")
            del kept[b"0"]
            check(all(cache.get(key) == value for key, value in kept.items()), "what a wait confirmed is lost after a full disk")


def given_up(opened, rnd, room):
    lost, kept = (b"lost", b"." * (1 << 20)), (b"kept", b".")  # a block holds no value of that length

    def ask():
        return opened(":memory:", 1 << 24, 1 << 20)

    with ask() as cache:
        check(cache.put(*lost) and cache.put(*kept), "a put isn't taken")
        check(gives_up(cache.wait) and not gives_up(cache.wait), "a wait doesn't tell what is given up, or tells it twice")
        check(cache.get(b"lost") is None and cache.get(b"kept") == b"." and cache.counters()["returned_puts"] == 1, "the counters differ")
    cache = ask()
    check(cache.put(*lost), "a put isn't taken")
    if opened.kind == "C":
        check(cache.close() == 1, "a close doesn't tell what is given up")
        return
    check(gives_up(cache.close) and not gives_up(cache.close) and not own_programs(), "a close doesn't tell what is given up")

    def body(error):
        with ask() as cache:
            cache.put(*lost)
            raise error if error else SystemExit

    async def task(error):
        async with foyer_client.AsyncCache(opened.program, ":memory:", 1 << 24, 1 << 20) as cache:
            await cache.put(*lost)
            if error:
                raise error
            await cache.wait()

    for error in (ValueError(), CacheEnded("mine"), KeyboardInterrupt()):
        check(raised(lambda: body(error)) is error, "a body's exception is lost in a close")
        check(raised(lambda: asyncio.run(task(error))) is error, "a task's exception is lost in a close")
    check(gives_up(lambda: asyncio.run(task(None))) and not own_programs(), "a task's wait doesn't tell what is given up")


def rooms_awaited(opened, rnd, room):
    value = rnd.randbytes(100000)
    with opened(room + "/waits", 1 << 30, flushers=2) as cache:
        pairs = ((b"%d" % k, b"%08d" % k + value) for k in range(3000))
        taken = cache.put_many(pairs) if opened.kind == "Python" else [cache.put(*it) for it in pairs]
        cache.wait()
        check(taken == [True] * 3000, "%d of 3000 puts aren't taken" % taken.count(False))
        for k in range(0, 3000, 100):
            check(cache.get_many([b"%d" % i for i in range(k, k + 100)]) == [b"%08d" % i + value for i in range(k, k + 100)], "a value differs")
    # Without waiting, the same puts find too much queued, and their keys are deleted.
    with opened(room + "/looks", 1 << 30, flushers=2, wait_ms=0) as cache:
        taken = [cache.put(b"%d" % k, value) for k in range(3000)]
        cache.wait()
        found = [cache.get(b"%d" % k) for k in range(3000)]
        check([it is not None for it in found] == taken, "a put that isn't taken is found, or one that is taken isn't")


def deleted_at_once(opened, rnd, room):
    with opened(room + "/deleted", 1 << 26, 1 << 20) as cache:
        for k in range(2000):
            key = b"%d" % rnd.randrange(100)
            check(cache.put(key, b"%d" % k), "a put isn't taken")
            cache.delete(key)
            check(cache.get(key) is None, "a value is there that was queued when its key was deleted")
        cache.wait()
        check(all(cache.get(b"%d" % k) is None for k in range(100)), "a deleted value comes back")


def limits(opened, rnd, room):
    with opened(room + "/writes", 1 << 24, 1 << 20, write_bytes=1000) as cache:
        taken = cache.put(b"first", b"." * 20000)
        cache.wait()
        check(taken and not cache.put(b"second", b"."), "a limit of writes holds nothing back")
    with opened(room + "/reads", 1 << 24, 1 << 20, read_bytes=1000) as cache:
        while not cache.put(b"first", b"." * 20000):
            time.sleep(0.2)
        cache.wait()
        held = False
        for _ in range(60):
            held = held or refused(Throttled, lambda: cache.get(b"first"))
            time.sleep(0 if held else 0.1)
        check(held, "a limit of reads holds nothing back")


def threads_share(opened, rnd, room):
    with opened(":memory:", 1 << 26, 1 << 20, engines=4) as cache:
        wrong = []

        def ask(name):
            own = random.Random(name)
            for i in range(150):
                key, value = b"%d %d" % (name, own.randrange(50)), own.randbytes(own.choice([10, 5000]))
                if cache.put(key, value) and cache.get(key) != value:
                    wrong.append(key)
                if i % 50 == 0:
                    cache.wait()

        threads = [threading.Thread(target=ask, args=(name,)) for name in range(32)]
        for it in threads:
            it.start()
        for it in threads:
            it.join()
        check(not wrong, "threads: %r" % wrong[:3])


def two_caches(opened, rnd, room):
    one, other = opened(":memory:", 1 << 24, 1 << 20), opened(":memory:", 1 << 24, 1 << 20)
    check(one.put(b"a", b"1") and other.get(b"a") is None, "two caches share a key")
    check(one.close() == 0 and other.put(b"a", b"2") and other.close() == 0, "two caches don't close")


def pipes_of(pid):
    """The pipes that a process has an end of, by the numbers of its files."""
    found = {}
    for it in os.listdir("/proc/%d/fd" % pid):
        with contextlib.suppress(FileNotFoundError):
            found[int(it)] = os.readlink("/proc/%d/fd/%s" % (pid, it))
    return {it: name for it, name in found.items() if name.startswith("pipe:")}


def small_pipes(opened, rnd, room):
    before = pipes_of(os.getpid())
    with opened(":memory:", 1 << 26, 1 << 20) as cache:
        for it in set(pipes_of(os.getpid())) - set(before):
            fcntl.fcntl(it, 1031, 4096)  # F_SETPIPE_SZ
        pairs = values(rnd, 100, [10, 3000])
        check(all(cache.put(*it) for it in pairs.items()), "a put isn't taken")
        for asked in (list(pairs), [key + b"." * rnd.choice([0, 2000, 2030, 9000]) for key in pairs]):
            asked *= 20
            check(in_time(lambda: cache.get_many(asked)) == [pairs.get(it) for it in asked], "many through small pipes differ")


def not_inherited(opened, rnd, room):
    before = pipes_of(os.getpid())
    with opened(":memory:", 1 << 24, 1 << 20), opened(":memory:", 1 << 24, 1 << 20):
        mine = set(pipes_of(os.getpid()).values()) - set(before.values())
        other = subprocess.Popen(["sleep", "60"], close_fds=False)
        programs = [set(pipes_of(it).values()) & mine for it in own_programs()]
        other.kill()
        other.wait()
        check(len(mine) == 4 and sorted(map(len, programs)) == [0, 2, 2], "programs have ends of pipes that aren't theirs: %r" % programs)


def nothing_inherited(opened, rnd, room):
    if opened.kind != "C":
        return
    before = signal.pthread_sigmask(signal.SIG_BLOCK, [signal.SIGTERM])
    with socket.socket() as listening:
        listening.listen()
        listening.set_inheritable(True)
        cache = opened(":memory:", 1 << 24, 1 << 20)
    signal.pthread_sigmask(signal.SIG_SETMASK, before)
    program = own_programs()[0]
    files = [os.readlink("/proc/%d/fd/%s" % (program, it)) for it in os.listdir("/proc/%d/fd" % program)]
    check(not any(it.startswith("socket:") for it in files), "the program has a socket of its caller: %r" % files)
    os.kill(program, signal.SIGTERM)
    in_time(lambda: await_end(program))
    check(cache.close() == -1, "the program has its caller's blocked signals")


def forked(opened, rnd, room):
    cache = opened(":memory:", 1 << 24, 1 << 20)
    check(cache.put(b"k", b"v"), "a put isn't taken")
    said, say = os.pipe()
    child = os.fork()
    if child == 0:
        calls = lambda: cache.put(b"k", b"w"), lambda: cache.get(b"k"), lambda: cache.get_many([b"k"]), cache.wait, cache.counters
        os.write(say, b"%d" % sum(isinstance(raised(it), CacheEnded) for it in calls))
        if opened.kind == "C":
            cache.close()
        os.write(say, b".")
        time.sleep(600)
        os._exit(0)
    try:
        check(in_time(lambda: os.read(said, 1) + os.read(said, 1)) == b"5.", "a forked process may use the cache")
        check(cache.get(b"k") == b"v" and in_time(cache.close) == 0, "a forked process keeps the cache from its end")
    finally:
        os.kill(child, signal.SIGKILL)
        os.waitpid(child, 0)


def bad_words(opened, rnd, room):
    for words in ({"flushers": 0}, {"nothing": 1}, {"recover": "never"}):
        check(refused(CacheEnded, lambda: opened(":memory:", 1 << 24, 1 << 20, **words)), "%r opens" % words)
    check(refused(CacheEnded, lambda: opened(":memory:", 1, 1 << 20)), "a capacity of 1 opens")


def one_holder(opened, rnd, room):
    place, room_for = room + "/held", 1 << 28
    cache = opened(place, room_for, cores=2, log=1)
    check(cache.put(b"k", b"v"), "a put into a directory isn't taken")
    check(refused(CacheEnded, lambda: opened(place, room_for, cores=2, log=1)), "a second program has the directory, too")
    check(cache.get(b"k") == b"v" and cache.close() == 0, "the directory's program doesn't go on")
    for other in ({"log": 1}, {"cores": 4, "log": 1}, {"cores": 2, "log": 0}, {"block": 1 << 23, "cores": 2, "log": 1}):
        check(refused(CacheEnded, lambda: opened(place, room_for, **other)), "%r opens a directory that was made otherwise" % other)
    for words in ({"log": 1, "flushers": 2}, {}):  # the log is there unless another setting says so
        with opened(place, room_for, cores=2, **words) as cache:
            check(cache.get(b"k") == b"v", "what was put is gone after refused openings")


def not_opened(opened, rnd, room):
    os.makedirs(room + "/other/cache")
    with open(room + "/file", "w"):
        pass
    if os.getuid() == 0:
        path, why, number = room + "/file/cache", "Not a directory", "20)"
    else:
        path, why, number = room + "/other/cache", "Permission denied", "13)"
        os.chmod(path, 0)
    with standard_error(room) as errors:
        error = raised(lambda: opened(path, 1 << 24, 1 << 20))
    with open(errors) as it:
        said = str(error) if opened.kind == "Python" else it.read()
    os.chmod(room + "/other/cache", 0o755)
    check(isinstance(error, CacheEnded) and all(it in said for it in (path, why, number)), "an opening that fails says %r, %r" % (error, said))
    check(not own_programs(), "an opening that fails leaves its program")


def other_programs(opened, rnd, room):
    before, children = set(pipes_of(os.getpid()).values()), set(own_programs(True))
    older = "head -c 13 > /dev/null; printf '\\0\\0\\0\\0\\201\\0\\0\\0\\0'; exit 1"
    much = "printf '\\1\\0\\0\\0\\0\\377\\377\\377\\377'; exec sleep 60"
    other = "printf '\\1\\0\\0\\0\\0\\26\\0\\0\\0foyerdisk\\n'; exec sleep 60"
    rows = [(it, 60, NOT_FOYERPIPE) for it in ("echo Welcome; exec sleep 60", "exec yes", "exec cat", older, much, other)]
    rows += [(it, 0.3, NO_REPLY) for it in ("exec sleep 60", "sleep 60 & wait", "printf '\\1'; exec sleep 60")]
    for text, seconds, say in rows:
        began = time.monotonic()
        error = in_time(lambda: raised(lambda: opened.by(script(room, text), ":memory:", 1 << 24, start_seconds=seconds)))
        check(type(error) is CacheError and any(it in str(error) for it in say[opened.kind]), "%s: %r" % (text, error))
        check(time.monotonic() - began < 20 and children >= set(own_programs(True)), "%s: it goes on" % text)
    for text in ("exit 3", "exit 0", "echo Welcome >&2; exit 1"):
        error = raised(lambda: opened.by(script(room, text), ":memory:", 1 << 24))
        check(isinstance(error, CacheEnded) and children >= set(own_programs(True)), "%s: %r" % (text, error))
    error = raised(lambda: opened.by(room + "/none", ":memory:", 1 << 24))
    check(os.strerror(errno.ENOENT) in str(error), "a program that isn't there: %r" % error)
    del error
    gc.collect()
    check(before >= set(pipes_of(os.getpid()).values()), "openings that fail leave pipes")


def too_long(opened, rnd, room):
    key, long_key, value = b"k" * 10, b"k" * 11, b"v" * 1000
    with opened(":memory:", 1 << 26, 1 << 20, key=10, value=1000) as cache:
        check(cache.put(key, value) and cache.get(key) == value, "a pair at the limits isn't taken")
        check(not cache.put(long_key, value) and cache.get(long_key) is None, "a key that is too long is there")
        cache.delete(long_key)
        check(not cache.contains(long_key) and cache.get_many([long_key, key, long_key]) == [None, value, None], "a long key is found")
        cache.wait()
        check(not cache.put(key, value + b"v") and cache.get(key) is None, "an older value stays when a put is too long")
        check(not cache.put(long_key, value + b"v"), "what is too long is taken")
        check(cache.counters()["deletes"] == 1 and cache.put(key, value) and cache.get(key) == value, "the cache doesn't go on")
        if opened.kind == "Python":
            check(all(refused(TypeError, lambda: cache.get(it)) for it in ("text", None, 7)), "a key that isn't bytes is taken")
            check(cache.get_or(long_key, lambda it: value + it) == value + long_key, "get_or doesn't give what is too long")
            check(cache.put_many([(key, value + b"v"), (long_key, value), (key, value)]) == [False, False, True], "put_many differs")
    with opened(":memory:", 1 << 26, 1 << 20) as cache:
        check(not cache.put(b"k" * 65537, b"v") and not cache.put(b"k", b"v" * 67108865), "what is too long by default is taken")
        check(cache.put(b"k" * 65536, b"v") and cache.get(b"k" * 65536) == b"v", "a key at the limit isn't taken")


def like_bytes(opened, rnd, room):
    if opened.kind != "Python":
        return
    numbers = array.array("d", range(100))
    words = [numbers, memoryview(numbers)[:3], memoryview(b"12345678").cast("I"), memoryview(b"12345678").cast("H", (2, 2)),
             (ctypes.c_uint16 * 3)(1, 2, 3), bytearray(b"any"), array.array("d"), memoryview(b"bytes")]
    with opened(":memory:", 1 << 26, 1 << 20, value=800) as cache:
        for word in words:
            check(cache.put(word, word) and cache.get(word) == bytes(word) == cache.get(bytes(word)), "%r differs" % word)
        check(not cache.put(b"k", array.array("d", range(101))), "more bytes than value=N are taken")
        apart = memoryview(b"123456")[::2]
        check(all(refused(TypeError, it) for it in (lambda: cache.put(b"k", apart), lambda: cache.get(apart))), "bytes that lie apart are taken")
        check(cache.put(b"k", b"v") and cache.get(b"k") == b"v", "the cache doesn't go on")


def some_refused(opened, rnd, room):
    if opened.kind != "Python":
        return
    pairs = [(b"%d" % k, b"%d " % k * 5000) for k in range(40)]
    keys = [key for key, _ in pairs] + [b"none"]
    with opened(room + "/some", 1 << 24, 1 << 20) as cache:
        check(all(cache.put_many(pairs)), "a put isn't taken")
    with opened(room + "/some", 1 << 24, 1 << 20, read_bytes=100000) as cache:
        for _ in range(60):
            found = cache.get_many(keys, return_exceptions=True)
            held = sum(isinstance(it, Throttled) for it in found)
            check(all(isinstance(it, Throttled) or it == dict(pairs).get(key) for key, it in zip(keys, found)), "one of many differs")
            if 0 < held < 40:
                break
            time.sleep(0.1)
        check(0 < held < 40, "a limit of reads holds %d of 40 gets back" % held)
        check(refused(Throttled, lambda: cache.get_many(keys)), "a get that is held back raises nothing")
        cache._call(b"q")
        found = cache.put_many(pairs, return_exceptions=True)
        check([it.kind for it in found] == ["Closed"] * 40, "refused puts give %r" % found[:3])
        check(refused(CacheError, lambda: cache.put_many(pairs)), "a refused put raises nothing")
        os.kill(own_programs()[0], signal.SIGKILL)
        cache._reader.join()
        check(all(isinstance(it, CacheEnded) for it in cache.get_many(keys, return_exceptions=True)), "a killed program answers")


def tasks_share(opened, rnd, room):
    if opened.kind != "Python":
        return
    pairs = values(rnd, 500, [10, 5000])

    async def ask():
        async with foyer_client.AsyncCache(opened.program, ":memory:", 1 << 26, 1 << 20) as cache:
            check(all(await asyncio.gather(*(cache.put(*it) for it in pairs.items()))), "tasks: a put isn't taken")
            await cache.wait()
            asked = [rnd.choice(list(pairs)) for _ in range(5000)]
            check(await asyncio.gather(*map(cache.get, asked)) == [pairs[it] for it in asked], "tasks: a get differs")

            for _ in range(300):
                task = asyncio.ensure_future(cache.get(asked[0]))
                await asyncio.sleep(rnd.random() / 2000)
                task.cancel()
            check(await asyncio.wait_for(cache.get(asked[0]), 60) == pairs[asked[0]], "tasks: a get after cancelled ones differs")

            async def make(key):
                return key * 2

            check(await cache.get_or(b"new", make) == b"newnew" == await cache.get(b"new"), "tasks: get_or differs")
            await cache.delete(b"new")
            check(not await cache.contains(b"new") and (await cache.counters())["deletes"] > 0, "tasks: a delete does nothing")
            os.kill(own_programs()[0], signal.SIGKILL)
            try:
                while True:
                    await cache.get(asked[0])
            except CacheEnded:
                pass

    async def ask_out_of_turn():
        async def make(key):
            return key

        async def all_end():
            calls = cache.get(b"k"), cache.put(b"k", b"v"), cache.get_or(b"k", make), cache.wait(), cache.counters()
            return all(isinstance(it, CacheEnded) for it in await asyncio.gather(*calls, return_exceptions=True))

        cache = foyer_client.AsyncCache(opened.program, ":memory:", 1 << 24, 1 << 20)
        check(await all_end(), "tasks: a cache that isn't open answers")
        async with cache:
            check(await cache.put(b"k", b"v"), "tasks: a put isn't taken")
            puts = [asyncio.ensure_future(cache.put(b"%d" % k, b"v")) for k in range(500)]
            await asyncio.sleep(0.01)
            check(await asyncio.gather(cache.close(), cache.close()) == [0, 0], "tasks: two closes at once differ")
            ends = await asyncio.gather(*puts, return_exceptions=True)
            check(all(it is True or isinstance(it, CacheEnded) for it in ends), "tasks: a put before a close gives %r" % ends)
        check(await all_end() and await cache.close() == 0, "tasks: a closed cache answers")

    asyncio.run(ask())
    asyncio.run(ask_out_of_turn())


def killed_program(opened, rnd, room):
    for i in range(10):
        cache = opened(room + "/killed", 1 << 24, 1 << 20)
        pairs = {b"%d" % k: (b"%d " % k) * (1 + k % 400) for k in range(300)}
        check(all(value in (None, pairs[key]) for key, value in ((key, cache.get(key)) for key in pairs)), "after a kill a value differs")
        for key in pairs:
            cache.put(key, pairs[key])
        running = own_programs()
        check(len(running) == 1, "%d programs run" % len(running))
        timer = threading.Timer(rnd.random() / 50, os.kill, (running[0], signal.SIGKILL))
        timer.start()

        def ask_on():
            while True:
                cache.put(b"1", pairs[b"1"])
                cache.get(b"2")

        check(refused(CacheEnded, ask_on), "a killed program answers")
        check(refused(CacheEnded, lambda: cache.put(b"1", b"1")), "a killed program answers again")
        timer.join()
        check(cache.close() != 0, "a killed program ends well")


def ended_anew(opened, rnd, room):
    if opened.kind != "Python":
        return
    cache = opened(":memory:", 1 << 24, 1 << 20)
    os.kill(own_programs()[0], signal.SIGKILL)
    cache._reader.join()
    errors = [raised(lambda: cache.get(b"k")) for _ in range(100)]
    check(all(isinstance(it, CacheEnded) for it in errors), "a killed program answers")
    depth = max(len(list(traceback.walk_tb(it.__traceback__))) for it in errors)
    check(depth < 10 and len(set(map(id, errors))) == 100, "an error is raised again, and keeps the frames of all calls: %d" % depth)
    cache.close()
    del errors
    gc.collect()
    gc.disable()
    check(refused(CacheEnded, lambda: cache.get(b"k")), "a killed program answers")
    gc.enable()
    check(gc.collect() == 0, "an error keeps its own frames")


def failed_reader(opened, rnd, room):
    if opened.kind != "Python":
        return
    cache = opened(":memory:", 1 << 24, 1 << 20)
    said, before = [], threading.excepthook
    threading.excepthook, cache._give = lambda it: said.append(it.exc_type), raising(MemoryError())
    for _ in range(2):
        error = in_time(lambda: raised(lambda: cache.get(b"k")))
        check(isinstance(error, CacheEnded) and "an error in the thread" in str(error), "replies can't be read: %r" % error)
    check(cache.close() != 0 and not own_programs() and said == [MemoryError], "a program goes on whose replies can't be read")
    threading.excepthook = before


class Interrupt(BaseException):
    """What the handler of a signal raises."""


def in_client(_, frame):
    """A handler that raises only in the client."""
    if frame.f_code.co_filename == foyer_client.__file__ and frame.f_code.co_name != "__del__":
        raise Interrupt


def interrupted(opened, rnd, room):
    if opened.kind != "Python":
        return
    faulthandler.dump_traceback_later(120, exit=True)  # for calls that hang
    # A request of which a half is written, and one of which nothing is, since the program doesn't read.
    for error, is_cut in ((KeyboardInterrupt(), True), (KeyboardInterrupt(), False), (TimeoutError(), True), (TimeoutError(), False)):
        cache = opened(":memory:", 1 << 26, 1 << 20)
        check(cache.put(b"k", b"v"), "a put isn't taken")
        program = own_programs()[0]

        def ask_on():
            while True:
                cache.put(b"k", b"w" * (1 << 20)) if is_cut else cache._ask(b"g", b"k")

        os.kill(program, signal.SIGSTOP)
        with alarm(0.3, raising(error)):
            check(raised(ask_on) is error, "%r is lost in a call" % error)
        os.kill(program, signal.SIGCONT)
        if is_cut:
            check(in_time(cache._program.wait) == 1, "a cut request doesn't end the program")
            check(refused(CacheEnded, lambda: cache.get(b"k")) and cache.close() == 1, "a cut request doesn't end the cache")
        else:
            check(cache.get(b"k") == b"v" and cache.close() == 0, "an interrupted call ends the cache")
    # Exceptions at any places, also while one is handled. Before 3.11 such a one may leave a `with` without the release of its lock.
    ends, rounds = 0, 30 if sys.version_info >= (3, 11) else 0
    for _ in range(rounds):
        cache = opened(":memory:", 1 << 26, 1 << 20)
        pairs = {b"%d" % k: b"%d " % k * rnd.choice([1, 100, 100000]) for k in range(100)}
        before = signal.signal(signal.SIGALRM, in_client)
        signal.setitimer(signal.ITIMER_REAL, rnd.random() / 100, rnd.choice([0.0001, 0.001, 0.01]))
        for key in list(pairs) * 3:
            error = raised(lambda: cache.put(key, pairs[key]) and check(cache.get(key) in (None, pairs[key]), "a value differs"))
            check(error is None or isinstance(error, (Interrupt, CacheEnded)), "%r is raised" % error)
        signal.setitimer(signal.ITIMER_REAL, 0)
        signal.signal(signal.SIGALRM, before)
        error = raised(lambda: check(all(cache.get(key) in (None, pairs[key]) for key in pairs), "a value differs after exceptions"))
        check(error is None or isinstance(error, CacheEnded), "after exceptions %r is raised" % error)
        check((cache.close() == 0) == (error is None), "a close after exceptions differs")
        ends += error is not None
    check(ends > 0 or not rounds, "no exception cuts a request")
    faulthandler.cancel_dump_traceback_later()


def abandoned(opened, rnd, room):
    if opened.kind != "Python":
        return

    def ask():
        return opened(room + "/abandoned", 1 << 24, 1 << 20)

    async def ask_and_cancel():
        await asyncio.wait_for(foyer_client.AsyncCache(opened.program, room + "/abandoned", 1 << 24, 1 << 20).__aenter__(), 0.3)

    with ask() as cache:  # an opening waits while the directory is in use
        mine = own_programs()
        with alarm(0.3, raising(KeyboardInterrupt())):
            check(refused(KeyboardInterrupt, ask) and own_programs() == mine, "an interrupted opening leaves its program")
        check(refused(asyncio.TimeoutError, lambda: asyncio.run(ask_and_cancel())), "a cancelled opening goes on")
        check(cache.put(b"k", b"v"), "a put isn't taken")
    building = script(room, "sleep 600 & echo $! > %s/job\nwait" % room)
    with alarm(0.3, raising(KeyboardInterrupt())):
        check(refused(KeyboardInterrupt, lambda: opened.by(building, ":memory:", 1 << 24)), "an opening isn't interrupted")
    with open(room + "/job") as it:
        in_time(lambda: await_end(int(it.read())))  # the job of an opening that was interrupted
    for value in (b"v", b"w"):
        cache = ask()
        check(cache.get(b"k") == value and cache.put(b"k", b"w"), "what was put is gone")
        del cache  # without a close
    with ask() as cache:
        check(cache.get(b"k") == b"w", "what was put is gone")
        in_time(lambda: await_programs(1))  # no abandoned one


def start_caller(what, opened, place):
    """Starts a process, in a group of its own, that opens a cache and then does something. Gives it with the first line that it prints."""
    text = "import sys; sys.path.insert(0, %r); import clients; clients.%s(clients.opener(%r, %r, %r, 0)(%r, 1 << 24, 1 << 20))"
    words = [sys.executable, "-c", text % (TOP + "/soak", what, opened.kind, opened.program, opened.library, place)]
    caller = subprocess.Popen(words, stdout=subprocess.PIPE, start_new_session=True)
    return caller, caller.stdout.readline()


def interrupted_caller(opened, rnd, room):
    caller, taken = start_caller("put_and_close", opened, room + "/caller")
    os.killpg(caller.pid, signal.SIGINT)  # as a Ctrl-C
    check(caller.wait() == 0, "the program of a process group that was interrupted ends before its close")
    with opened(room + "/caller", 1 << 24, 1 << 20) as cache:
        found = [cache.get(b"%d" % k) for k in range(400)]
        check(int(taken) == 400 and all(it == b"%d " % k * 5000 for k, it in enumerate(found)), "an interrupted caller loses what was queued")


def put_and_close(cache):
    """What the caller does that is interrupted."""
    taken = sum(cache.put(b"%d" % k, b"%d " % k * 5000) for k in range(400))
    try:
        print(taken, flush=True)
        time.sleep(60)
    except KeyboardInterrupt:
        sys.exit(cache.close())


def killed_caller(opened, rnd, room):
    caller, line = start_caller("put_on", opened, room + "/caller")
    pid = int(line)
    time.sleep(0.2)
    caller.kill()
    caller.wait()
    in_time(lambda: await_end(pid))
    with opened(room + "/caller", 1 << 24, 1 << 20) as cache:
        found = [cache.get(b"%d" % k) for k in range(100)]
        check(all(it in (None, b"%d " % k * 100) for k, it in enumerate(found)), "after a killed caller a value differs")


def put_on(cache):
    """What the caller does that is killed."""
    print(own_programs()[0], flush=True)
    while True:
        for k in range(100):
            cache.put(b"%d" % k, b"%d " % k * 100)


CASES = [
    round_trips, thousands_at_once, reopenings, full_device, full_disk, given_up, rooms_awaited, deleted_at_once, limits, threads_share,
    tasks_share, two_caches, small_pipes, not_inherited, nothing_inherited, forked, one_holder, not_opened, too_long, like_bytes, some_refused,
    bad_words, other_programs, killed_program, ended_anew, failed_reader, interrupted, abandoned, interrupted_caller, killed_caller,
]


def opener(kind, program, library, readers):
    global LIB, LIBC
    LIB, LIBC = ctypes.CDLL(library, use_errno=True), ctypes.CDLL(None)
    LIB.foyer_open.restype = LIB.foyer_open_within.restype = ctypes.c_void_p
    cache = {"Python": foyer_client.Cache, "C": CCache}[kind]

    def opened(place, capacity, block=1 << 24, **options):
        return cache(program, place, capacity, block, readers=readers, **options)

    opened.kind, opened.program, opened.library, opened.by = kind, program, library, cache
    return opened


def run(words, **options):
    done = subprocess.run(words, stdout=subprocess.PIPE, stderr=subprocess.STDOUT, **options)
    check(done.returncode == 0, "%s: %s" % (" ".join(words), done.stdout.decode("utf-8", "replace")))
    return done.stdout.decode()


def run_examples(program, room):
    """The examples of docs/PIPE.md, word for word except for the cache's directory, and examples/read_through.py."""
    with open(TOP + "/docs/PIPE.md") as it:
        page = it.read().replace("/var/tmp/cache", room + "/cache")
    of = {language: re.search("```%s\n(.*?)```" % language, page, re.S).group(1) for language in ("python", "c")}
    os.symlink(program, room + "/foyerpipe")
    with open(room + "/example.py", "w") as it:
        it.write(of["python"])
    said = run([sys.executable, "example.py"], cwd=room, env=dict(os.environ, PYTHONPATH=CLIENTS))
    check(said.startswith("b'value'\nb'otherother'\n"), "the example in Python says %r" % said)
    with open(room + "/example.c", "w") as it:
        it.write(of["c"])
    build = ["cc", *WARNINGS, "-g", "-I" + CLIENTS, "example.c", CLIENTS + "/foyer_client.c", "-lpthread", "-o"]
    checks = [["-fsanitize=address,undefined"]] + ([[]] if shutil.which("valgrind") else [])
    for sanitize in checks:
        run([*build, "example", *sanitize], cwd=room)
        under = [] if sanitize else ["valgrind", "-q", "--leak-check=full", "--error-exitcode=9"]
        check(run([*under, "./example"], cwd=room) == "value\n", "the example in C says something else")
    if shutil.which("c++"):  # the same, as C++
        run(["cc", *WARNINGS, "-c", CLIENTS + "/foyer_client.c"], cwd=room)
        run(["c++", *WARNINGS[1:], "-I" + CLIENTS, "-xc++", "example.c", "-xnone", "foyer_client.o", "-lpthread", "-oexample"], cwd=room)
        check(run(["./example"], cwd=room) == "value\n", "the example in C says something else as C++")
    said = run([sys.executable, TOP + "/examples/read_through.py", program, room + "/through"])
    check(said.endswith("all equal\n"), "the read-through example says %r" % said)


# In place of rt: `lib` makes a crate's library, and `run` makes the program if it isn't there and all libraries are. Meanwhile a file may be
# edited.
RT = r"""#!/usr/bin/env bash
name=${PWD##*/}
echo "$1 $name $$" >> "$SAID"
case $1 in
    lib) mkdir -p out/rlib && touch out/rlib/{1..50} && exec sleep "$NAP" ;;
    run)
        [ -z "${EDITED:-}" ] || { sleep 0.1 && touch "$EDITED"; }
        [ -x out/$name ] || { ls ../{a,b,c,d}/out/rlib/50 && mkdir -p out && cp "$(type -P true)" out/$name; }
        ;;
esac
"""
# In place of nproc, and of awk for the memory: so that several crates are proved at the same time.
NPROC = "#!/bin/sh\necho 4\n"
AWK = "#!/bin/sh\ncase $* in */proc/meminfo) echo 4 ;; *) exec %s \"$@\" ;; esac\n" % shutil.which("awk")


def make_tree(tree):
    """A tree of few crates with the scripts that run the program. Gives the environment to run them in."""
    of = {"a": "", "b": "a", "c": "a", "d": "b", "foyerpipe": "c d", "other": "a"}
    texts = {"bin/rt": RT, "bin/nproc": NPROC, "bin/awk": AWK, "crates.txt": "".join("%s: %s\n" % pair for pair in of.items())}
    texts.update(("crates/%s/args" % name, ":memory:\n16384\n16384\n") for name in of)
    texts.update(("crates/%s/src/lib.rt" % name, "") for name in of)
    texts["crates/a/specs/A.antt"] = texts["crates/b/proofs/run/Answers.antt"] = ""
    for name, text in texts.items():
        path = "%s/%s" % (tree, name)
        os.makedirs(os.path.dirname(path), exist_ok=True)
        with open(path, "w") as it:
            it.write(text)
        os.chmod(path, 0o755)
    for name in ("foyerdisk", "foyerpipe"):
        shutil.copy("%s/%s" % (TOP, name), tree)
    return dict(os.environ, PATH=tree + "/bin:" + os.environ["PATH"], SAID=tree + "/said", NAP="0")


def put_program(tree, program):
    """Puts the program where rt puts it, as one that was built just now."""
    os.mkdir(tree + "/crates/foyerpipe/out")
    os.symlink(program, tree + "/crates/foyerpipe/out/foyerpipe")


def run_what_is_built(room):
    """A program that is newer than all that it is made of is run without rt. After any change rt is asked, once."""
    tree = room + "/built"
    environment = make_tree(tree)
    put_program(tree, script(room, "echo it runs"))
    without_rt = dict(environment, PATH=room + "/tools")
    os.mkdir(room + "/tools")
    for it in ("bash", "sh", "env", "dirname", "awk", "find", "nproc", "touch", "date", "mkdir", "flock"):
        if shutil.which(it):
            os.symlink(shutil.which(it), room + "/tools/" + it)

    def start(environment):
        done = subprocess.run([tree + "/foyerpipe", ":memory:", "16384", "16384"], stdout=subprocess.PIPE, stderr=subprocess.PIPE, env=environment)
        with contextlib.suppress(FileNotFoundError), open(environment["SAID"]) as it:
            asked = sum(line.split()[0] == "run" for line in it)
            os.remove(environment["SAID"])
            return done.returncode, done.stdout, asked
        return done.returncode, done.stdout, 0

    runs, asks, fails = (0, b"it runs\n", 0), (0, b"it runs\n", 1), (1, b"", 0)
    before = resource.getrusage(resource.RUSAGE_CHILDREN)
    check([start(without_rt) for _ in range(10)] == [runs] * 10, "a program that is built isn't run without rt")
    after = resource.getrusage(resource.RUSAGE_CHILDREN)
    seconds = after.ru_utime + after.ru_stime - before.ru_utime - before.ru_stime  # of the processor, which other programs may have at the time
    check(seconds < 2, "ten starts of a program that is built take %.1f s" % seconds)
    files = ["crates/a/src/lib.rt", "crates/a/specs/A.antt", "crates/b/proofs/run/Answers.antt", "crates/foyerpipe/src/lib.rt", "crates.txt"]
    for it in files:
        os.utime(tree + "/" + it)
        check(start(without_rt) == fails, "%s is newer, and nothing is asked" % it)
        check([start(environment) for _ in range(2)] == [asks, runs], "%s is newer, and rt isn't asked once" % it)
    for it, change in (("crates/d/src/new.rt", lambda it: open(it, "w").close()), ("crates/d/src/lib.rt", os.remove)):
        change(tree + "/" + it)
        check([start(environment) for _ in range(2)] == [asks, runs], "%s comes or goes, and rt isn't asked once" % it)
    os.utime(tree + "/crates/other/src/lib.rt")
    check(start(environment) == runs, "rt is asked for what the program isn't made of")
    edited = tree + "/crates/c/src/lib.rt"
    os.utime(edited)
    check(start(dict(environment, EDITED=edited)) == asks, "rt isn't asked")
    check([start(environment) for _ in range(2)] == [asks, runs], "what is edited while rt runs is taken for built")


def run_with_few_handles(program, room):
    """The script takes as many handles as it may: 60 blocks take 180."""
    tree = room + "/tree"
    environment = make_tree(tree)
    put_program(tree, program)
    before, (soft, hard) = dict(os.environ), resource.getrlimit(resource.RLIMIT_NOFILE)
    resource.setrlimit(resource.RLIMIT_NOFILE, (100, hard))
    os.environ.update(environment)
    try:
        with foyer_client.Cache(tree + "/foyerpipe", room + "/handles", 60 << 14, 1 << 14) as cache:
            check(cache.put(b"k", b"v") and cache.get(b"k") == b"v", "a put isn't taken")
        words = program, room + "/handles", 60 << 14, 1 << 14
        check(refused(CacheEnded, lambda: foyer_client.Cache(*words)), "the soft limit of handles doesn't count")
    finally:
        os.environ.update(before)
        resource.setrlimit(resource.RLIMIT_NOFILE, (soft, hard))


def run_first_builds(room):
    """Two first runs of the script in one tree: one builds, and the other waits. A first run that is ended leaves nothing."""
    tree = room + "/builds"
    environment = make_tree(tree)

    def begin(nap):
        words = [tree + "/foyerpipe", ":memory:", "16384", "16384"]
        return subprocess.Popen(words, stdout=subprocess.PIPE, stderr=subprocess.PIPE, text=True, env=dict(environment, NAP=nap))

    def lines():
        with contextlib.suppress(FileNotFoundError), open(environment["SAID"]) as it:
            return [line.split() for line in it]
        return []

    def await_a_job():
        while not lines():
            time.sleep(0.01)

    ended = begin("600")
    in_time(await_a_job)
    ended.terminate()
    check(in_time(ended.wait) == 1, "a first run isn't ended by a signal")
    check(not any(is_alive(int(pid)) for _, _, pid in lines()), "a first run leaves its jobs")
    os.remove(environment["SAID"])
    both = [begin("0.2"), begin("0.2")]
    said = [in_time(it.communicate)[1] for it in both]
    check([it.returncode for it in both] == [0, 0], "of two first runs one fails: %s" % "".join(said))
    check(sum("waiting for another run" in it for it in said) == 1 or not shutil.which("flock"), "no first run waits for the other")
    check(sorted(name for what, name, _ in lines() if what == "lib") == list("abcd"), "two first runs prove %r" % lines())
    check(not [it for it in os.listdir(tree + "/out") if it.startswith("first.") and it != "first.lock"], "first runs leave copies")


def main():
    words = argparse.ArgumentParser(usage=__doc__.split("usage: ")[1])
    words.add_argument("--program", default=TOP + "/crates/foyerpipe/out/foyerpipe")
    words.add_argument("--seed", type=int, default=1)
    args = words.parse_args()
    program = os.path.abspath(args.program)
    room = tempfile.mkdtemp(prefix="foyerclients")
    try:
        library = room + "/client.so"
        run(["cc", *WARNINGS, "-O2", "-fPIC", "-shared", CLIENTS + "/foyer_client.c", "-lpthread", "-o", library])
        for kind, readers in (("Python", 0), ("Python", 2), ("C", 0), ("C", 2)):
            opened = opener(kind, program, library, readers)
            for case in CASES:
                place = "%s/%s-%s-%d" % (room, kind, case.__name__, readers)
                os.mkdir(place)
                case(opened, random.Random(args.seed), place)
                shutil.rmtree(place)
                print("%s, readers=%d: %s" % (kind, readers, case.__name__.replace("_", " ")), flush=True)
        run_examples(program, room)
        print("the examples: all held")
        run_with_few_handles(program, room)
        run_first_builds(room)
        run_what_is_built(room)
        print("the script: few handles, first runs, runs of what is built")
    finally:
        shutil.rmtree(room, ignore_errors=True)


if __name__ == "__main__":
    main()
