#!/usr/bin/env python3
"""Compacts ten data files of 100,000 rows each, without indexes and with two, and prints what it costs.

- A COMPACT: the processor's seconds and the peak memory beyond a run that does nothing on the same folder; the bytes that it reads and writes, as
  strace counts them where it is installed, beside those of the files that it takes in and that it makes: each page of a data file is read once.
- A SELECT of all rows before it and after it, which has to give the same rows, and of the rows with one number where that is indexed.
- The same in 1,000 pieces by STEP COMPACT, whose time for each key is told.

A memtable is flushed by itself at 65,536 cells, so no script makes files of 100,000 rows: this one writes them, as docs/FORMATS.md says. Beside it
sqlite3 does a VACUUM of the same rows, where it is installed. All folders stand in memory, where a sync costs nothing.

    compactions.py [PROGRAM [ROWS]]
"""
import os
import re
import shutil
import sys
import tempfile

import processes
from processes import MEMORY, measured
from tables import INT, PREFIX, TEXT, WHOLE, Table

ROWS, FILES, PIECES, TRIES = 1000000, 10, 1000, 3
COLUMNS = [('k', TEXT), ('a', TEXT), ('n', INT)]
SHAPES = [('no index', ()), ('two indexes', [(1, PREFIX, WHOLE, 0), (2, PREFIX, 0, 0)])]
SQLITE = 'PRAGMA journal_mode=OFF;\nCREATE TABLE t (k TEXT PRIMARY KEY, a TEXT, n INT) WITHOUT ROWID;\nBEGIN;\n'
SQLITE_INDEXES = 'CREATE INDEX ia ON t (a);\nCREATE INDEX i_n ON t (n);\n'


def row(n):
    """Keys in no order, all distinct; ten rows have each number."""
    return '%08x' % ((n * 2654435761) % (1 << 32)), n + 1, ('value %d' % n, n // 10)


def script(top, name, lines):
    path = os.path.join(top, name)
    with open(path, 'w') as out:
        out.writelines(lines)
    return path


def run(words, written=os.devnull):
    """The processor's seconds and the peak memory in KiB of a run that has to succeed."""
    seconds, memory, status = measured(words, written=written)
    if status:
        sys.exit('failed: %s' % ' '.join(words))
    return seconds, memory


def bytes_of(words, folder):
    """The bytes that a run reads and writes of the files of a folder, where strace is installed."""
    if not shutil.which('strace'):
        return None
    calls = 'pread64,pwrite64,read,write'
    with tempfile.NamedTemporaryFile('r') as log:
        run(['strace', '-f', '-y', '-e', 'trace=' + calls, '-o', log.name] + words)
        counts = {'read': 0, 'write': 0}
        for line in log:
            found = re.search(r'p?(read|write)(?:64)?\(\d+<([^>]*)>.* = (\d+)$', line.rstrip())
            if found and found[2].startswith(folder):
                counts[found[1]] += int(found[3])
    return counts['read'], counts['write']


def size_of(folder, names):
    return sum(os.path.getsize(os.path.join(folder, name)) for name in names)


def data_names(folder):
    return [name for name in os.listdir(folder) if name.startswith(('data-', 'index-'))]


def replies_of(program, folder, path, top):
    """What a script is answered, with the seconds and the memory of the run."""
    replies = os.path.join(top, 'replies')
    taken = run([program, folder, path], written=replies)
    with open(replies, 'rb') as lines:
        return lines.read(), taken


def rows_in_order(reply):
    return sorted(reply.splitlines())


def print_run(name, seconds, memory=None, more=''):
    print('%-46s %8.3f %9s %s' % (name, seconds, '%.1f' % (memory / 1024) if memory is not None else '', more))


def copied(folder, top, name):
    """A copy of a folder, since a COMPACT changes it."""
    return shutil.copytree(folder, os.path.join(top, name))


def measure_compact(program, top, folder, idle):
    """A COMPACT of the folder, which is changed by it."""
    compact = script(top, 'compact', ['COMPACT t;\n'])
    sources = data_names(folder)
    taken = size_of(folder, sources)
    runs = []
    for _ in range(TRIES):
        copy = copied(folder, top, 'copy')
        runs.append(run([program, copy, compact]))
        shutil.rmtree(copy)
    seconds, memory = min(runs)
    copy = copied(folder, top, 'copy')
    counted = bytes_of([program, copy, compact], copy)
    shutil.rmtree(copy)
    run([program, folder, compact])
    left = data_names(folder)
    if any(name in left for name in sources):
        sys.exit('a file that was taken in is still there')
    made = size_of(folder, left)
    print_run('COMPACT', seconds - idle[0], memory - idle[1])
    print('it takes in files of %.1f MiB and makes files of %.1f MiB' % (taken / (1 << 20), made / (1 << 20)))
    if counted:
        print('it reads %.1f MiB and writes %.1f MiB' % tuple(one / (1 << 20) for one in counted))


def measure_steps(program, top, folder, rows, idle):
    """The same in so many pieces, and the last unit."""
    units = rows // PIECES
    lines = ['BEGIN COMPACT t;\n'] + ['STEP COMPACT t %d;\n' % units] * PIECES + ['STEP COMPACT t 1;\n']
    pieces = script(top, 'pieces', lines)
    copy = copied(folder, top, 'copy')
    seconds, memory = run([program, copy, pieces])
    if len([name for name in data_names(copy) if name.startswith('data-')]) != 1:
        sys.exit('the compaction did not end with its last unit')
    shutil.rmtree(copy)
    print_run('STEP COMPACT in %d pieces' % PIECES, seconds - idle[0], memory - idle[1], '%.1f us a key' % ((seconds - idle[0]) * 1e6 / rows))


def measure_sqlite(top, rows, indexed):
    """A VACUUM of the same rows."""
    if not shutil.which('sqlite3'):
        return
    base = os.path.join(top, 'base.db')
    inserts = ("INSERT INTO t VALUES ('%s', '%s', %d);\n" % (key, a, n) for key, _, (a, n) in map(row, range(rows)))
    fill = script(top, 'fill', [SQLITE, *inserts, 'COMMIT;\n', SQLITE_INDEXES if indexed else ''])
    measured(['sqlite3', base], read=fill)
    taken = []
    for _ in range(TRIES):
        taken.append(run(['sqlite3', base, 'VACUUM']))
    print_run("sqlite3's VACUUM", *min(taken), more='%.1f MiB' % (os.path.getsize(base) / (1 << 20)))


def measure(program, name, indexes, rows, top):
    print('-- %s' % name)
    table = Table('t', COLUMNS, indexes)
    folder = table.write_folder(os.path.join(top, 'rows'), [[row(n) for n in range(file, rows, FILES)] for file in range(FILES)])
    idle = min(run([program, folder, script(top, 'nothing', [])]) for _ in range(TRIES))
    asked = [('all rows', 'SELECT * FROM t;\n')]
    if indexes:
        asked.append(('ten rows by a number', 'SELECT * FROM t WHERE n = 4321;\n'))
    before = {}
    for what, line in asked:
        before[what], (seconds, _) = replies_of(program, folder, script(top, 'ask', [line]), top)
        print_run('a SELECT of %s, before' % what, seconds - idle[0])
    measure_steps(program, top, folder, rows, idle)
    measure_compact(program, top, folder, idle)
    for what, line in asked:
        reply, (seconds, _) = replies_of(program, folder, script(top, 'ask', [line]), top)
        print_run('a SELECT of %s, afterwards' % what, seconds - idle[0])
        if rows_in_order(reply) != rows_in_order(before[what]):
            sys.exit('the SELECT gives other rows')
    measure_sqlite(top, rows, bool(indexes))


def main():
    program = processes.program()
    rows = int(sys.argv[2]) if len(sys.argv) > 2 else ROWS
    print('%-46s %8s %9s' % ('', 'seconds', 'peak MiB'))
    for name, indexes in SHAPES:
        with tempfile.TemporaryDirectory(dir=MEMORY) as top:
            measure(program, name, indexes, rows, top)


main()
