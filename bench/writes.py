#!/usr/bin/env python3
"""Runs the built program on scripts of writes and one SELECT, and prints the processor's time and peak memory.

A script INSERTs distinct keys, or does so once and then UPDATEs or DELETEs them over and over, or it has a FLUSH behind each
INSERT, and then no SELECT. Doubling the statements may multiply the time by 2.4: a step that is linear in the rows held, the
bytes seen, the files listed or the statements run would multiply it by 4.
"""
import os
import sys
import tempfile

import processes
from processes import MEMORY, measured

COUNTS = [5000, 10000, 20000, 40000]
FLUSHES = [2500, 5000, 10000, 20000]
MOST_GROWTH = 2.4
TRIES = 5


def key(n):
    """Keys in no order, all distinct."""
    return '%08x' % ((n * 2654435761) % (1 << 32))


def insert(n):
    return "INSERT INTO t (k, a, b) VALUES ('%s', 'value %d', %d);\n" % (key(n), n, n)


def update(n):
    return "UPDATE t SET a = 'newer %d' WHERE k = '%s';\n" % (n, key(n))


def delete(n):
    return "DELETE FROM t WHERE k = '%s';\n" % key(n)


def flush(n):
    return insert(n) + 'FLUSH t;\n'


def script(count, write):
    yield 'CREATE TABLE t (k text PRIMARY KEY, a text, b int);\n'
    if write in (update, delete):
        yield from map(insert, range(count // 4))
    for n in range(count):
        yield write(n % (count // 4) if write in (update, delete) else n)
    if write is not flush:
        yield 'SELECT * FROM t;\n'


def run(program, path):
    """The processor's seconds, the peak memory in KiB and the status of one run."""
    with tempfile.TemporaryDirectory(dir=MEMORY) as folder:
        return measured([program, folder, path])


def measure(program, write):
    """Prints a line for each count, and says whether a doubling took too long."""
    print(write.__name__)
    print('  count   seconds  growth  peak MiB')
    before, slow = None, False
    with tempfile.TemporaryDirectory() as folder:
        for count in FLUSHES if write is flush else COUNTS:
            path = os.path.join(folder, 'script')
            with open(path, 'w') as out:
                out.writelines(script(count, write))
            runs = [run(program, path) for _ in range(TRIES)]
            if any(status for _, _, status in runs):
                sys.exit('the program failed')
            seconds, memory = min(r[0] for r in runs), max(r[1] for r in runs)
            growth = seconds / before if before else None
            slow = slow or (growth is not None and growth > MOST_GROWTH)
            print('%7d  %8.3f  %6s  %8.1f' % (count, seconds, '%.2f' % growth if growth else '', memory / 1024))
            before = seconds
    return slow


def main():
    program = processes.program()
    slow = [write.__name__ for write in (insert, update, delete, flush) if measure(program, write)]
    if slow:
        sys.exit('a doubling took more than %.1f times the time: %s' % (MOST_GROWTH, ', '.join(slow)))


main()
