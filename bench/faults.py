#!/usr/bin/env python3
"""Disturbs each system call of the built program in turn, and looks at what it leaves: bench/faults.py [PROGRAM].

A script runs on a new folder, and another on the folder that it left. Each call on files that they make, one a run, is
  failed         EIO or ENOSPC: the replies are a prefix of the undisturbed ones, the status is that of a fault, and a later run
                 finds the state after the statements that were answered, or after one more. After a sync that failed, the run
                 neither changes the disk nor answers
  interrupted    EINTR, where the program has to try again: the run is as if undisturbed
  cut short      a read or a write of one byte: the run is as if undisturbed, and leaves the same files
Each undisturbed run has to sync the folder that its folder is in. The last line is `N passed, M failed`.

It traces the program by ptrace, and so needs Linux on x86-64 and nothing else.
"""
import collections
import ctypes
import errno
import os
import shutil
import signal
import sys
import tempfile

FIRST = """CREATE TABLE t (k text PRIMARY KEY, a text);
INSERT INTO t (k, a) VALUES ('k1', 'x');
FLUSH t;
INSERT INTO t (k, a) VALUES ('k2', 'y');
DELETE FROM t WHERE k = 'k1';
SELECT * FROM t;
""".splitlines(True)
LATER = """INSERT INTO t (k, a) VALUES ('k3', 'z');
CREATE TABLE u (k int PRIMARY KEY, a int);
UPDATE t SET a = 'w' WHERE k = 'k2';
FLUSH t;
SELECT * FROM t;
""".splitlines(True)

# The calls by their numbers on x86-64.
CALLS = {0: 'read', 1: 'write', 2: 'open', 5: 'fstat', 8: 'lseek', 17: 'pread64', 18: 'pwrite64', 20: 'writev', 74: 'fsync',
         75: 'fdatasync', 77: 'ftruncate', 82: 'rename', 83: 'mkdir', 87: 'unlink', 217: 'getdents64', 257: 'openat',
         258: 'mkdirat', 262: 'newfstatat', 263: 'unlinkat', 332: 'statx'}
SYNCS = {'fsync', 'fdatasync'}
SIZED = {'read', 'write', 'pread64', 'pwrite64'}
OF_A_DESCRIPTOR = SIZED | SYNCS | {'fstat', 'lseek', 'writev', 'ftruncate', 'getdents64'}
CHANGES = SYNCS | {'write', 'pwrite64', 'writev', 'ftruncate', 'rename', 'mkdir', 'mkdirat', 'unlink', 'unlinkat'}
FAULT_STATUSES = {3, 4, 5}

REGISTERS = 'r15 r14 r13 r12 rbp rbx r11 r10 r9 r8 rax rcx rdx rsi rdi orig_rax rip cs eflags rsp ss fs_base gs_base ds es fs gs'
TRACEME, GETREGS, SETREGS, SYSCALL, SETOPTIONS, SYSGOOD = 0, 12, 13, 24, 0x4200, 1

Call = collections.namedtuple('Call', 'name path')
Run = collections.namedtuple('Run', 'replies status calls')


class Registers(ctypes.Structure):
    _fields_ = [(name, ctypes.c_ulong) for name in REGISTERS.split()]


def ptrace(request, pid, address=None, data=None):
    libc = ctypes.CDLL(None, use_errno=True)
    libc.ptrace.argtypes = [ctypes.c_ulong, ctypes.c_ulong, ctypes.c_void_p, ctypes.c_void_p]
    libc.ptrace.restype = ctypes.c_long
    if libc.ptrace(request, pid, address, data) < 0:
        raise OSError(ctypes.get_errno(), 'ptrace')


def registers_of(pid):
    registers = Registers()
    ptrace(GETREGS, pid, None, ctypes.addressof(registers))
    return registers


def set_registers(pid, registers):
    ptrace(SETREGS, pid, None, ctypes.addressof(registers))


def start(words, replies):
    """A traced process, stopped before its program begins."""
    pid = os.fork()
    if pid == 0:
        os.dup2(os.open(replies, os.O_WRONLY | os.O_CREAT | os.O_TRUNC), 1)
        os.dup2(os.open(os.devnull, os.O_WRONLY), 2)
        ptrace(TRACEME, 0)
        os.execv(words[0], words)
    os.waitpid(pid, 0)
    ptrace(SETOPTIONS, pid, None, SYSGOOD)
    return pid


def stops(pid):
    """Goes on from system call to system call; it yields at the beginning and at the end of each, and gives the status."""
    passed_on = 0
    while True:
        ptrace(SYSCALL, pid, None, passed_on)
        _, status = os.waitpid(pid, 0)
        if not os.WIFSTOPPED(status):
            return os.waitstatus_to_exitcode(status)
        is_call = os.WSTOPSIG(status) == signal.SIGTRAP | 0x80
        passed_on = 0 if is_call else os.WSTOPSIG(status)
        if is_call:
            yield


def call_of(pid, registers):
    """The call that begins; None where it isn't one on files."""
    name = CALLS.get(registers.orig_rax)
    if name is None:
        return None
    return Call(name, os.readlink('/proc/%d/fd/%d' % (pid, registers.rdi)) if name in OF_A_DESCRIPTOR else '')


def disturb(pid, registers, error):
    """Cuts the beginning call short, where no error is given, or leaves it out."""
    if error is None:
        registers.rdx = min(registers.rdx, 1)
    else:
        registers.orig_rax = ctypes.c_ulong(-1).value
    set_registers(pid, registers)


def run(program, folder, lines, at=None, error=None):
    """Runs the lines on the folder, and disturbs the call at this index, counted from the first one that is for the folder."""
    with open('script', 'w') as script:
        script.writelines(lines)
    pid = start([program, folder, 'script'], 'replies')
    calls, ends, failed = [], False, False
    stepping = stops(pid)
    while True:
        try:
            next(stepping)
        except StopIteration as end:
            with open('replies', 'rb') as replies:
                return Run(replies.read(), end.value, calls)
        if not ends:
            registers = registers_of(pid)
            call = call_of(pid, registers)
            if call and (calls or call.name in ('mkdir', 'mkdirat')):
                if len(calls) == at:
                    disturb(pid, registers, error)
                    failed = error is not None
                calls.append(call)
        elif failed:
            registers = registers_of(pid)
            registers.rax = ctypes.c_ulong(-error).value
            set_registers(pid, registers)
            failed = False
        ends = not ends


def files(folder):
    return {name: open(os.path.join(folder, name), 'rb').read() for name in sorted(os.listdir(folder))}


def copied(kept):
    """A new copy of the folder; of None a folder that isn't there."""
    shutil.rmtree('folder', ignore_errors=True)
    if kept:
        shutil.copytree(kept, 'folder')
    return 'folder'


class Trial:
    """A script on a folder: what it does undisturbed, and after each of its statements."""

    def __init__(self, program, kept, lines):
        self.program, self.kept, self.lines = program, kept, lines
        self.passed = self.failed = 0
        self.whole = run(program, copied(kept), lines)
        self.files = files('folder')
        self.answered, self.states = [], []
        for count in range(len(lines) + 1):
            self.answered.append(len(run(program, copied(kept), lines[:count]).replies))
            self.states.append(self.state())
        parent = os.path.realpath('.')
        self.tell(Call('fsync', parent) in self.whole.calls, 'no sync of the folder that the folder is in', self.whole)

    def state(self):
        """What a later run finds."""
        return run(self.program, 'folder', self.lines[-1:]).replies

    def tell(self, holds, what, found):
        if holds:
            self.passed += 1
        else:
            self.failed += 1
            print('%s: status %d, replies %r' % (what, found.status, found.replies[-60:]), flush=True)

    def fail(self, at, call, error):
        found = run(self.program, copied(self.kept), self.lines, at, error)
        done = max(n for n in range(len(self.answered)) if self.answered[n] <= len(found.replies))
        holds = self.whole.replies.startswith(found.replies)
        holds = holds and found.status in FAULT_STATUSES | ({0} if found.replies == self.whole.replies else set())
        if call.name in SYNCS:
            after = found.calls[at + 1:]
            holds = holds and found.status == 4 and not any(c.name in CHANGES and c.path != os.devnull for c in after)
        holds = holds and self.state() in self.states[done:done + 2]
        self.tell(holds, '%s fails by %s at call %d' % (call.name, errno.errorcode[error], at), found)

    def same(self, at, error, what):
        found = run(self.program, copied(self.kept), self.lines, at, error)
        as_whole = (found.replies, found.status) == (self.whole.replies, self.whole.status)
        self.tell(as_whole and files('folder') == self.files, what, found)

    def disturb_all(self):
        for at, call in enumerate(self.whole.calls):
            self.fail(at, call, errno.EIO)
            self.fail(at, call, errno.ENOSPC)
            if call.name in SIZED | SYNCS:
                self.same(at, errno.EINTR, '%s is interrupted at call %d' % (call.name, at))
            if call.name in SIZED:
                self.same(at, None, '%s is cut short at call %d' % (call.name, at))


def main():
    top = os.path.dirname(os.path.dirname(os.path.abspath(__file__)))
    program = os.path.abspath(sys.argv[1]) if len(sys.argv) > 1 else os.path.join(top, 'crates/sasi_tool/out/sasi_tool')
    with tempfile.TemporaryDirectory() as work:
        os.chdir(work)
        first = Trial(program, None, FIRST)
        first.disturb_all()
        run(program, copied(None), FIRST)
        os.rename('folder', 'kept')
        later = Trial(program, 'kept', LATER)
        later.disturb_all()
    failed = first.failed + later.failed
    print('%d passed, %d failed' % (first.passed + later.passed, failed))
    return 1 if failed else 0


sys.exit(main())
