"""A program one of whose system calls fails, by ptrace: Linux on x86-64 alone. Used by the soaks beside it; it checks nothing itself.

`run(words, lines, fault)` gives the output, the exit status and how many calls there were that could have failed. Of kind "io" they are
the reads and writes of block files; of kind "memory" the calls by which memory is asked for, once the program's libraries are
loaded. Call `n` from 1 fails (with 0 none), and so many `more` behind it (`ALL`: all); a read or a write that fails is done up
to `kept` bytes before (None: wholly).
"""

import collections
import ctypes
import errno
import os
import signal
import tempfile

Fault = collections.namedtuple("Fault", "kind n kept more", defaults=("io", 0, 0, 0))
ALL = 1 << 60

TRACEME, POKEUSER, SYSCALL, SETOPTIONS, SYSCALL_INFO = 0, 6, 24, 0x4200, 0x420E
OPTIONS = 1 | 8 | 0x100000  # tell system calls apart, follow threads, and end the program with this one
WALL = 0x40000000
RAX, RDX, RDI, ORIG_RAX = 10, 12, 14, 15
ENTRY, EXIT = 1, 2
READ, WRITE, MMAP, BRK, PREAD, PWRITE, PRLIMIT = 0, 1, 9, 12, 17, 18, 302
IO_CALLS = (READ, WRITE, PREAD, PWRITE)
ANONYMOUS = 0x20
BLOCK_FILE = "foyer-storage-direct-fs-"
SECONDS = 60

libc = ctypes.CDLL(None, use_errno=True)
libc.ptrace.argtypes = [ctypes.c_long, ctypes.c_long, ctypes.c_void_p, ctypes.c_void_p]
libc.ptrace.restype = ctypes.c_long


class Late(Exception):
    """The program doesn't end."""


def ptrace(request, pid, address=0, data=0):
    ctypes.set_errno(0)
    answer = libc.ptrace(request, pid, address, data)
    if answer == -1 and ctypes.get_errno() not in (0, errno.ESRCH):
        raise OSError(ctypes.get_errno(), "ptrace is refused here")
    return answer


class Info(ctypes.Structure):
    """What the system says of a call at which a thread stands."""

    _fields_ = [("op", ctypes.c_uint8), ("arch", ctypes.c_uint32), ("ip", ctypes.c_uint64), ("sp", ctypes.c_uint64),
                ("call", ctypes.c_uint64), ("words", ctypes.c_uint64 * 6)]


def info_of(pid):
    info = Info()
    ptrace(SYSCALL_INFO, pid, ctypes.c_void_p(ctypes.sizeof(info)), ctypes.byref(info))
    return info


def poke(pid, register, value):
    ptrace(POKEUSER, pid, 8 * register, ctypes.c_void_p(value & (1 << 64) - 1))


class Traced:
    """A program under way."""

    def __init__(self, words, lines, fault, before=None):
        self.fault, self.calls, self.files, self.began = fault, 0, set(), fault.kind == "io"
        # Of each thread what is to be answered at the end of its call, or the word that its call had; and those that were met.
        self.answers, self.words, self.met = {}, {}, set()
        self.input = tempfile.TemporaryFile()
        self.input.write(lines)
        self.input.seek(0)
        self.output = tempfile.TemporaryFile()
        self.pid = os.fork()
        if self.pid == 0:
            try:
                os.dup2(self.input.fileno(), 0)
                os.dup2(self.output.fileno(), 1)
                os.dup2(os.open(os.devnull, os.O_WRONLY), 2)
                if before:
                    before()
                libc.ptrace(TRACEME, 0, 0, 0)
                os.execv(words[0], words)
            finally:
                os._exit(126)

    def is_block_file(self, number):
        """Whether it is a file of a block, or of the log. What was one stays one: the program closes none before its end."""
        if number < 3:
            return False
        if number in self.files:
            return True
        try:
            name = os.readlink(f"/proc/{self.pid}/fd/{number}")
        except OSError:
            return False
        if BLOCK_FILE in name:
            self.files.add(number)
            return True
        return False

    def may_fail(self, call, words):
        if self.fault.kind == "io":
            return call in IO_CALLS and self.is_block_file(words[0])
        if call == MMAP:
            return self.began and bool(words[3] & ANONYMOUS)
        return call == BRK and self.began and words[0] != 0

    def enter(self, pid, call, words):
        if call == PRLIMIT or call == READ and words[0] == 0:
            self.began = True
        if not self.may_fail(call, words):
            return
        self.calls += 1
        n, kept = self.fault.n, self.fault.kept
        if n == 0 or not n <= self.calls <= n + self.fault.more:
            return
        if call == BRK:
            # Asked for the end 0, the system answers as if it refused. The program expects its word back in the register.
            poke(pid, RDI, 0)
            self.words[pid] = words[0]
        elif call == MMAP:
            poke(pid, ORIG_RAX, -1)
            self.answers[pid] = -errno.ENOMEM
        else:
            if kept == 0:
                poke(pid, ORIG_RAX, -1)
            elif kept is not None:
                poke(pid, RDX, min(kept, words[2]))
            self.answers[pid] = -errno.EIO

    def leave(self, pid):
        word = self.words.pop(pid, None)
        if word is not None:
            poke(pid, RDI, word)
        answer = self.answers.pop(pid, None)
        if answer is not None:
            poke(pid, RAX, answer)

    def go_on(self):
        """Runs the program to its end: the wait status. One whose threads all wait makes no call, so that a signal ends the wait for it."""
        before = signal.signal(signal.SIGALRM, self.give_up)
        signal.setitimer(signal.ITIMER_REAL, SECONDS)
        try:
            return self.follow()
        finally:
            signal.setitimer(signal.ITIMER_REAL, 0)
            signal.signal(signal.SIGALRM, before)

    def give_up(self, *_):
        os.kill(self.pid, signal.SIGKILL)
        raise Late(f"no end within {SECONDS} s")

    def follow(self):
        os.waitpid(self.pid, WALL)
        ptrace(SETOPTIONS, self.pid, 0, OPTIONS)
        ptrace(SYSCALL, self.pid)
        while True:
            pid, status = os.waitpid(-1, WALL)
            if os.WIFEXITED(status) or os.WIFSIGNALED(status):
                if pid == self.pid:
                    return status
                continue
            number, event, passed = os.WSTOPSIG(status), status >> 16, 0
            if number == signal.SIGTRAP | 0x80:
                info = info_of(pid)
                if info.op == ENTRY:
                    self.enter(pid, info.call, info.words)
                elif info.op == EXIT:
                    self.leave(pid)
            elif event == 0 and number != signal.SIGTRAP and (number != signal.SIGSTOP or pid in self.met):
                passed = number
            self.met.add(pid)
            ptrace(SYSCALL, pid, 0, passed)


def run(words, lines, fault=Fault(), before=None):
    """The output, the exit status (less than 0 for a signal), and how many calls could have failed."""
    traced = Traced([str(it) for it in words], lines, fault, before)
    try:
        status = traced.go_on()
    finally:
        traced.input.close()
    traced.output.seek(0)
    output = traced.output.read()
    traced.output.close()
    code = os.WEXITSTATUS(status) if os.WIFEXITED(status) else -os.WTERMSIG(status)
    return output, code, traced.calls
