"""A client of foyerpipe: a disk cache of byte strings that runs as a program beside this one.

    from foyer_client import Cache

    with Cache("./foyerpipe", "/var/tmp/cache", 1 << 30, flushers=2) as cache:
        cache.put(b"key", b"value")
        print(cache.get(b"key"))

Needs Python 3.8 or later and nothing else. Threads may share a Cache: each call waits for its own reply. docs/PIPE.md has the frames.
"""
import asyncio
import contextlib
import functools
import os
import select
import signal
import struct
import subprocess
import tempfile
import threading
import time
import weakref
from concurrent.futures import ThreadPoolExecutor
from queue import SimpleQueue

DONE, ENTRY, MISS, IGNORED, DELETED, THROTTLED, YES, NO = range(8)
IO = 65
ERRORS = dict(enumerate("Io Memory Config Parse MagicMismatch ChecksumMismatch OutOfRange BufferSizeLimit NoSpace Recover Closed "
                        "Unsupported SequenceEnd".split(), 65))
FAULTS = dict(enumerate("a short frame,an unknown kind,a key that is too long,a value that is too long,a key that isn't asked for,"
                        "a value that isn't asked for".split(","), 128))
LONG_KEY = {b"p": DELETED, b"g": MISS, b"h": NO, b"d": DONE}  # what a key is answered that is too long for any frame
REQUEST = struct.Struct("<cIII")
REPLY = struct.Struct("<IBI")
GREETING = struct.Struct("<10sIII")  # a name, the version of the frames, the most bytes of a key, and of a value; a text follows
NAME, FRAMES, MOST_GREETING = b"foyerpipe\n", 1, 1024
GREETS, OLDER = REPLY.pack(1, DONE, 0)[:5], REPLY.pack(0, 129, 0)  # replies to a first request `v`: an older program doesn't know it


class CacheError(Exception):
    """A call that was refused: `kind` is the error's name."""

    def __init__(self, kind):
        super().__init__(kind)
        self.kind = kind


class CacheEnded(CacheError):
    """The program has ended, perhaps because it couldn't open the cache. The text has its status and what it said. Or this is a forked
    process, and the cache belongs to its parent."""


class Throttled(CacheError):
    """A limit of reads holds the get back."""


# A view of what is like bytes: its len() may be another number than that of its bytes.
def _bytes_of(word):
    view = memoryview(word)
    if not view.c_contiguous:
        raise TypeError("a key or a value whose bytes don't lie side by side")
    return view


# Gives a put what a delete of its key was answered.
def _give_deleted(give, found):
    give((DELETED, b"") if found == (DONE, b"") else found)


# Gives an answer to a task, unless it was cancelled or its loop is closed.
def _give_task(answer, found):
    with contextlib.suppress(RuntimeError):
        answer.get_loop().call_soon_threadsafe(lambda: answer.done() or answer.set_result(found))


# Reads replies until the program ends, and then ends all calls. If the thread has an error, such as a MemoryError, it ends the program. It
# holds the cache only while it has a reply for it, so that a cache that nobody has any more goes away.
def _read(known, program):
    buffer, fault = bytearray(), None
    try:
        while True:
            more = program.stdout.read(1 << 20)
            if not more:
                break
            cache = known()
            if cache is not None:
                buffer += more
                cache._take(buffer)
            del cache
    except BaseException:
        fault = "an error in the thread that reads replies"
        program.kill()
        raise
    finally:
        cache = known()
        if cache is None:
            program.wait()
        else:
            cache._end(fault)


_caches = weakref.WeakSet()


# Closes a forked process's copies of the pipes: a program's input would not end before this process does.
def _close_copies():
    for cache in list(_caches):
        cache._program.stdin.close()
        cache._program.stdout.close()


os.register_at_fork(after_in_child=_close_copies)


class Cache:
    """A cache in a directory, or in memory for the directory `:memory:`. Options are those of the program: flushers=2, log=1, ..
    A key that is longer than the option key=N is never in the cache, and a value that is longer than value=N is never taken. Keys and values
    are bytes, or what has bytes side by side, such as a memoryview or an array: then all of its bytes count, whatever its len() is.

    The program first has `start_seconds` to say that it is foyerpipe, or as long as it takes for None. An opening that finds another program,
    or an older foyerpipe, raises CacheError, and ends that program. If the program ends, or can't open the cache, it raises CacheEnded."""

    _program = _fault = None

    def __init__(self, program, directory, capacity, block_size=1 << 24, *, start_seconds=60, **options):
        words = [program, directory, str(capacity), str(block_size)] + ["%s=%s" % it for it in options.items()]
        self._errors, self._owner = tempfile.TemporaryFile(), os.getpid()
        # in a session of its own: a Ctrl-C, or another signal to the process group, would end it before it is closed
        self._program = subprocess.Popen(words, stdin=subprocess.PIPE, stdout=subprocess.PIPE, stderr=self._errors, bufsize=0,
                                         start_new_session=True)
        self._sending = threading.Lock()
        self._known = threading.Lock()
        self._waiting, self._number, self._ended = {}, 0, None
        self._closings = []  # what closes were answered
        self._sent, self._frame = [], 0  # how many bytes of the last frame each write sent, and how many the frame has
        self._reader = threading.Thread(target=_read, args=(weakref.ref(self), self._program), daemon=True)
        try:
            _caches.add(self)
            self._greet(start_seconds)
            self._reader.start()
            self._call(b"h", b"")  # waits until the cache is open; raises CacheEnded if it can't be opened
        except BaseException:
            self._kill()
            raise

    # Asks which program this is, before anything that it writes is believed.
    def _greet(self, seconds):
        with contextlib.suppress(BrokenPipeError):
            self._program.stdin.write(REQUEST.pack(b"v", 1, 0, 0))
        self._number = 1
        until = None if seconds is None else time.monotonic() + seconds
        head = self._read_first(REPLY.size, (GREETS, OLDER), until)
        if head == OLDER:
            raise CacheError("the program is an older foyerpipe, which this client can't use")
        length = REPLY.unpack(head)[2]
        if not GREETING.size <= length <= MOST_GREETING:
            raise CacheError("the program isn't foyerpipe: its first reply has %d bytes" % length)
        _, frames, key, value = GREETING.unpack_from(self._read_first(length, (NAME,), until))
        if frames != FRAMES:
            raise CacheError("the program is another foyerpipe, whose frames have version %d" % frames)
        self._limits = {"key": key, "value": value}

    # Reads the program's first bytes, no more than these, as long as they begin like one of those that are known.
    def _read_first(self, count, known, until):
        output, found, poll = self._program.stdout, b"", select.poll()
        poll.register(output, select.POLLIN)
        while len(found) < count:
            left = 1000 if until is None else until - time.monotonic()
            if not poll.poll(1000 * min(max(left, 0), 1000)):
                if left > 0:
                    continue
                raise CacheError("the program didn't say in time that it is foyerpipe" + self._said())
            more = output.read(count - len(found))
            if not more:
                with contextlib.suppress(subprocess.TimeoutExpired):
                    self._program.wait(5)
                    raise CacheEnded(self._last_words(None))
                raise CacheError("the program isn't foyerpipe: it closed its output" + self._said())
            found += more
            if not any(it[:len(found)] == found[:len(it)] for it in known):
                raise CacheError("the program isn't foyerpipe: its output begins with %r%s" % (found, self._said()))
        return found

    # Ends the program, or the script that still builds it, with its jobs.
    def _kill(self):
        for how, seconds in ((signal.SIGTERM, 5), (signal.SIGKILL, None)):
            with contextlib.suppress(ProcessLookupError, subprocess.TimeoutExpired):
                if self._program.poll() is None:
                    os.killpg(self._program.pid, how)
                self._program.wait(seconds)

    # If nobody has the cache any more, its program writes what is queued, and ends.
    def __del__(self):
        if self._program is not None:
            self._program.stdin.close()

    # Gives each reply that was read whole to the call that waits for it.
    def _take(self, buffer):
        at = 0
        while len(buffer) - at >= REPLY.size:
            number, code, length = REPLY.unpack_from(buffer, at)
            end = at + REPLY.size + length
            if len(buffer) < end:
                break
            self._give(number, code, bytes(buffer[at + REPLY.size:end]))
            at = end
        del buffer[:at]

    def _give(self, number, code, found):
        with self._known:
            give = self._waiting.pop(number, None)
        if give is not None:
            give((code, found))
        elif code in FAULTS:
            self._fault = FAULTS[code]

    # Ends all calls.
    def _end(self, fault):
        text = "the program ended"
        try:
            text = self._last_words(fault or self._fault)
        finally:
            with self._known:
                self._ended = text
                left, self._waiting = self._waiting, {}
            for give in left.values():
                give(text)

    def _last_words(self, fault):
        status = self._program.wait()
        return "the program ended with status %d%s%s" % (status, self._said(), ", after " + fault if fault else "")

    # What the program printed on standard error, after a colon.
    def _said(self):
        said = os.pread(self._errors.fileno(), 1 << 20, 0).decode("utf-8", "replace").strip()
        return ": " + said if said else ""

    # Sends a request. Its answer goes to `give`: a code with bytes, or a text if the cache has ended. Behind the last one the input ends, so that
    # no other call comes between: the program would refuse it, and it is to find the cache ended.
    def _send(self, give, kind, key=b"", value=b"", is_last=False):
        self._check_owner()
        key, value = _bytes_of(key), _bytes_of(value)
        if value.nbytes > self._limits["value"]:
            # in place of the put its key is deleted, and answered so
            give, kind, value = functools.partial(_give_deleted, give), b"d", _bytes_of(b"")
        with self._sending:
            self._end_if_cut()
            with self._known:
                if self._ended:
                    return give(self._ended)
                if key.nbytes > self._limits["key"]:
                    return give((LONG_KEY[kind], b""))
                self._number = number = (self._number + 1) % (1 << 32) or 1
            frame = b"".join((REQUEST.pack(kind, number, key.nbytes, value.nbytes), key, value))
            del key, value  # a bytearray can't be resized while there is a view of it
            with self._known:
                if self._ended:
                    return give(self._ended)
                self._waiting[number] = give
            try:
                self._write(frame)
                if is_last:
                    self._program.stdin.close()
            except BrokenPipeError:
                self._program.stdin.close()  # the reader notices the end, and ends all waiting calls
            except BaseException:
                self._end_if_cut()
                with self._known:
                    self._waiting.pop(number, None)
                raise

    # A forked process has neither the thread that reads replies nor the locks as they are.
    def _check_owner(self):
        if os.getpid() != self._owner:
            raise CacheEnded("the cache belongs to the process that opened it: after a fork, open another one")

    def _write(self, frame):
        stdin, self._sent, self._frame = self._program.stdin, [], len(frame)
        while sum(self._sent) < len(frame) and not stdin.closed:
            # each write notes its count in C, so that no signal's handler comes between the two
            self._sent.extend(map(stdin.write, [memoryview(frame)[sum(self._sent):]]))

    # If an exception, such as one of a signal's handler, cut the last frame, ends the input in it: so the program takes nothing for its rest.
    # The program answers what was sent before, writes what is queued, and ends.
    def _end_if_cut(self):
        if 0 < sum(self._sent) < self._frame and not self._program.stdin.closed:
            self._fault = "an exception that cut a request"
            with self._known:
                self._ended = "the cache ended after " + self._fault
            self._program.stdin.close()

    # Sends a request, and gives a queue for its answer. The queue's get is done in C: an exception there leaves no lock behind.
    def _ask(self, kind, key=b"", value=b""):
        answer = SimpleQueue()
        self._send(answer.put, kind, key, value)
        return answer

    def _call(self, kind, key=b"", value=b""):
        return self._taken(self._ask(kind, key, value).get())

    @staticmethod
    def _taken(found):
        if isinstance(found, str):
            raise CacheEnded(found)
        code = found[0]
        if code in ERRORS:
            raise CacheError(ERRORS[code])
        if code == THROTTLED:
            raise Throttled("Throttled")
        return found

    def put(self, key, value):
        """Puts a value. False if it isn't taken, since it is too long, found no room in time or a limit holds it back: then its key is
        deleted. A value that is taken is queued, and may still be abandoned before it is written: a wait or a close tells."""
        return self._call(b"p", key, value)[0] == DONE

    def put_many(self, pairs, return_exceptions=False):
        """Puts many pairs without waiting between them. Gives for each whether it is taken. If a put is refused, raises its error. With
        return_exceptions=True gives the error in its place."""
        answers = [self._ask(b"p", key, value) for key, value in pairs]
        return self._all(answers, lambda code, _: code == DONE, return_exceptions)

    def get(self, key):
        """The value under a key, or None."""
        code, found = self._call(b"g", key)
        return found if code == ENTRY else None

    def get_many(self, keys, return_exceptions=False):
        """The values under many keys, or None for each that is missing, without waiting between them. If a get is refused or held back, raises
        its error. With return_exceptions=True gives the error in its place."""
        return self._all([self._ask(b"g", key) for key in keys], lambda code, found: found if code == ENTRY else None, return_exceptions)

    # What each answer means, or its error.
    def _all(self, answers, meaning, return_exceptions):
        results = []
        for it in answers:
            try:
                results.append(meaning(*self._taken(it.get())))
            except CacheError as why:
                if not return_exceptions:
                    raise
                results.append(why.with_traceback(None))
        return results

    def get_or(self, key, make):
        """The value under a key. If there is none, or the get is refused or held back, puts what `make(key)` gives, and returns it."""
        try:
            found = self.get(key)
        except CacheEnded:
            raise
        except CacheError:
            found = None
        if found is None:
            found = make(key)
            self.put(key, found)
        return found

    def contains(self, key):
        """Whether the cache has the key, or another one of its hash."""
        return self._call(b"h", key)[0] == YES

    def delete(self, key):
        """Deletes a key, also if its value is still queued."""
        self._call(b"d", key)

    def wait(self):
        """Waits until all that was put before is written or abandoned, and no reclaim runs. Raises CacheError("Io") if puts that were taken since
        the last wait have been abandoned, since a write failed, memory was refused or they fit nowhere."""
        self._call(b"w")

    def counters(self):
        """What the cache did, a number by name."""
        lines = self._call(b"c")[1].decode("ascii").splitlines()
        return {name: int(count) for name, count in (line.split() for line in lines)}

    def destroy(self):
        """Deletes everything."""
        self._call(b"x")

    def close(self):
        """Ends the program, which first writes what is queued. Gives its status, 0 if all went well. Raises CacheError("Io") as a wait does, once
        the program has ended. A second close does nothing. In a forked process does nothing, and gives None."""
        if os.getpid() != self._owner:
            return None
        self._send(self._closings.append, b"q", is_last=True)
        with self._sending:
            self._program.stdin.close()
        self._reader.join()
        self._program.stdout.close()
        self._errors.close()
        answers, self._closings = self._closings, []
        if (IO, b"") in answers:
            raise CacheError(ERRORS[IO])
        return self._program.returncode

    def __enter__(self):
        return self

    def __exit__(self, kind, *_):
        try:
            self.close()
        except CacheError:
            if kind is None:  # otherwise the body's own exception goes on
                raise


# Closes a cache that is open only after nobody waits for it any more.
def _close_opened(opening):
    if not opening.cancelled() and opening.exception() is None:
        opening.result().close()


class AsyncCache:
    """The calls of Cache for asyncio, except get_many and put_many: `async with AsyncCache(program, directory, capacity) as cache`. Any
    number may be under way at once. Calls that one task makes one after the other keep their order."""

    def __init__(self, *words, **options):
        self._open = functools.partial(Cache, *words, **options)
        self._cache = self._status = None
        self._thread = ThreadPoolExecutor(1)  # writing to a full pipe would block the loop

    async def _run(self, call, *words):
        if self._cache is None:
            raise CacheEnded("the cache isn't open")
        self._cache._check_owner()
        return await asyncio.get_running_loop().run_in_executor(self._thread, call, self._cache, *words)

    async def _ask(self, kind, key=b"", value=b""):
        answer = asyncio.get_running_loop().create_future()
        await self._run(Cache._send, functools.partial(_give_task, answer), kind, key, value)
        return Cache._taken(await answer)

    async def put(self, key, value):
        return (await self._ask(b"p", key, value))[0] == DONE

    async def get(self, key):
        code, found = await self._ask(b"g", key)
        return found if code == ENTRY else None

    async def get_or(self, key, make):
        """As that of Cache; `make` is a coroutine function."""
        try:
            found = await self.get(key)
        except CacheEnded:
            raise
        except CacheError:
            found = None
        if found is None:
            found = await make(key)
            await self.put(key, found)
        return found

    async def contains(self, key):
        return (await self._ask(b"h", key))[0] == YES

    async def delete(self, key):
        await self._ask(b"d", key)

    async def wait(self):
        await self._ask(b"w")

    async def destroy(self):
        await self._ask(b"x")

    async def counters(self):
        return await self._run(Cache.counters)

    async def close(self):
        cache = self._cache
        if cache is not None:
            try:
                await self._run(Cache.close)
            finally:
                if cache._program.returncode is not None:  # else the close was cancelled
                    self._cache, self._status = None, cache._program.returncode
                    self._thread.shutdown(wait=False)
        return self._status

    async def __aenter__(self):
        opening = self._thread.submit(self._open)
        try:
            self._cache = await asyncio.wrap_future(opening)
        except BaseException:
            opening.add_done_callback(_close_opened)
            raise
        return self

    async def __aexit__(self, kind, *_):
        try:
            await self.close()
        except CacheError:
            if kind is None:
                raise
