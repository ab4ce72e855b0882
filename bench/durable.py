#!/usr/bin/env python3
"""Runs the built program on INSERTs that are each on the disk before they are answered, and prints what they cost.

For 20,000 rows: the time, the time of a second run that only opens the folder, and the system calls of an INSERT as strace
counts them. Beside them the same rows go into sqlite3 (WAL, synchronous=FULL, one transaction a row), where it is
installed. A last table has the opening's time and reads by the number of rows.
"""
import os
import shutil
import subprocess
import sys
import tempfile
import time

import processes

COUNT = 20000
# They don't fill a memtable, which is flushed at 65,536 cells: a row has three.
OPENED = [10000, 20000]
CALLS = ['pwrite64', 'write', 'fdatasync', 'fsync', 'pread64', 'openat', 'close', 'lseek', 'statx', 'fstat']


def row(n):
    """Keys in no order, all distinct."""
    return "('%08x', 'value %d', %d)" % ((n * 2654435761) % (1 << 32), n, n)


def write_script(path, lines):
    with open(path, 'w') as out:
        out.writelines(lines)
    return path


def inserts(count):
    yield 'CREATE TABLE t (k text PRIMARY KEY, a text, b int);\n'
    for n in range(count):
        yield 'INSERT INTO t (k, a, b) VALUES %s;\n' % row(n)


def sqlite_inserts(count):
    yield 'PRAGMA journal_mode=WAL;\nPRAGMA synchronous=FULL;\n'
    yield 'CREATE TABLE t (k TEXT PRIMARY KEY, a TEXT, b INT);\n'
    for n in range(count):
        yield 'INSERT INTO t (k, a, b) VALUES %s;\n' % row(n)


def run(words, script=None):
    """The seconds of a run, whose output isn't looked at."""
    with open(script or os.devnull, 'rb') as read, open(os.devnull, 'wb') as nothing:
        began = time.perf_counter()
        if subprocess.call(words, stdin=read, stdout=nothing):
            sys.exit('failed: %s' % ' '.join(words))
        return time.perf_counter() - began


def counted(words):
    """How often a run makes each system call."""
    with tempfile.NamedTemporaryFile('r') as log:
        run(['strace', '-f', '-c', '-o', log.name] + words)
        rows = (line.split() for line in log)
        return {cells[-1]: int(cells[3]) for cells in rows if len(cells) > 4 and cells[3].isdigit()}


def measure(program, folder):
    script = write_script(os.path.join(folder, 'script'), inserts(COUNT))
    nothing = write_script(os.path.join(folder, 'nothing'), [])
    kept = os.path.join(folder, 'kept')
    seconds = run([program, kept, script])
    print('%d INSERTs: %.2f s, %.0f microseconds each' % (COUNT, seconds, seconds / COUNT * 1e6))
    print('opening them: %.3f s' % run([program, kept, nothing]))
    if shutil.which('sqlite3'):
        path = write_script(os.path.join(folder, 'sqlite'), sqlite_inserts(COUNT))
        seconds = run(['sqlite3', os.path.join(folder, 'db')], path)
        print('sqlite3: %.2f s, %.0f microseconds each' % (seconds, seconds / COUNT * 1e6))
    if shutil.which('strace'):
        calls = counted([program, os.path.join(folder, 'traced'), script])
        print('calls an INSERT:', ', '.join('%s %.3f' % (call, calls[call] / COUNT) for call in CALLS if call in calls))


def measure_opening(program, folder):
    print('   rows  log MiB  opening s  reads')
    for count in OPENED:
        script = write_script(os.path.join(folder, 'script'), inserts(count))
        nothing = write_script(os.path.join(folder, 'nothing'), [])
        kept = os.path.join(folder, 'kept-%d' % count)
        run([program, kept, script])
        seconds = min(run([program, kept, nothing]) for _ in range(3))
        size = os.path.getsize(os.path.join(kept, 'log-1'))
        reads = counted([program, kept, nothing]).get('pread64', 0) if shutil.which('strace') else 0
        print('%7d  %7.2f  %9.3f  %5d' % (count, size / (1 << 20), seconds, reads))


def main():
    program = processes.program()
    with tempfile.TemporaryDirectory() as folder:
        measure(program, folder)
        measure_opening(program, folder)


main()
