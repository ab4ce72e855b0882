#!/usr/bin/env python3
"""Runs the built program on scripts with FLUSH and on a folder of data files, and prints the processor's time and peak memory.

- 100,000 INSERTs with a FLUSH each 10,000, whose peak memory may be that of one memtable of them and 8 MiB more.
- A FLUSH of 20,000 rows, and one with two indexes on the table, which may take 2.5 times the time of the first, and 80 bytes of memory
  for each posting. Each is what a run takes beyond the same INSERTs without the FLUSH.
- A SELECT over 1,000,000 rows in ten data files, whose peak memory may be its reply and 8 MiB more.
- An opening of their folder, with its reads as strace counts them.

A memtable is flushed by itself at 65,536 cells, so no script makes files of 100,000 rows: this one writes them, as docs/FORMATS.md
says. It looks first that it writes the file that a FLUSH of some rows does.

Beside them the same rows go into sqlite3, where it is installed: WAL, synchronous=FULL, one transaction a row and a checkpoint
for each FLUSH, and rows in the order of their keys. All folders stand in memory, where a sync costs nothing.
"""
import os
import shutil
import statistics
import sys
import tempfile

import processes
from processes import MEMORY, measured, timed
from tables import INT, TEXT, Table, write

COUNT, EACH = 100000, 10000
ROWS, FILES = 1000000, 10
BESIDES = 8192
TRIES = 3
# Rows of one memtable, whose cells are fewer than make it flush itself; and how often a flush of them is run.
INDEXED, FLUSH_TRIES = 20000, 60
TIMES, POSTING = 2.5, 80


def key(n):
    """Keys in no order, all distinct."""
    return '%08x' % ((n * 2654435761) % (1 << 32))


def insert(n):
    return "INSERT INTO t (k, a, b) VALUES ('%s', 'value %d', %d);\n" % (key(n), n, n)


def inserts(count, flush='FLUSH t;\n'):
    """So many rows, with a FLUSH behind each 10,000."""
    for n in range(count):
        yield insert(n)
        if (n + 1) % EACH == 0:
            yield flush


CREATE = 'CREATE TABLE t (k text PRIMARY KEY, a text, b int);\n'
TABLE = Table('t', [('k', TEXT), ('a', TEXT), ('b', INT)])
INDEXES = ''.join("CREATE CUSTOM INDEX %s ON t (%s) USING 'org.apache.cassandra.index.sasi.SASIIndex';\n" % (name, column) for name, column in (('i', 'a'), ('j', 'b')))
SQLITE_INDEXES = 'CREATE INDEX ia ON t (a);\nCREATE INDEX ib ON t (b);\n'
SQLITE = 'PRAGMA journal_mode=WAL;\nPRAGMA synchronous=FULL;\nCREATE TABLE t (k TEXT PRIMARY KEY, a TEXT, b INT) WITHOUT ROWID;\n'


def row(n):
    return key(n), n + 1, ('value %d' % n, n)


def write_script(path, lines):
    return write(path, ''.join(lines).encode())


def write_folder(folder):
    """A folder of 1,000,000 rows in ten data files, whose keys lie between one another."""
    return TABLE.write_folder(folder, [[row(n) for n in range(file, ROWS, FILES)] for file in range(FILES)])


# ---- runs

def run(words, read=os.devnull, written=os.devnull):
    """The processor's seconds and the peak memory in KiB of a run that has to succeed."""
    seconds, memory, status = measured(words, read, written)
    if status:
        sys.exit('failed: %s' % ' '.join(words))
    return seconds, memory


def print_run(name, seconds, memory, limit=None):
    print('%-46s %8.3f %9.1f %9s' % (name, seconds, memory / 1024, '%.1f' % (limit / 1024) if limit else ''))
    return limit is not None and memory > limit


def print_opening(name, words):
    """The time alone: such a run ends before its memory is seen."""
    print('%-46s %8.3f' % (name, min(run(words)[0] for _ in range(TRIES))))


def reads_of(words):
    """How many reads at an offset a run makes, where strace is installed."""
    if not shutil.which('strace'):
        return 0
    with tempfile.NamedTemporaryFile('r') as log:
        run(['strace', '-f', '-e', 'trace=pread64', '-o', log.name] + words)
        return sum('pread64' in line for line in log)


def check_data_file(program, top):
    """Exits where it writes another file than a FLUSH of the same rows."""
    folder = os.path.join(top, 'checked')
    run([program, folder, write_script(os.path.join(top, 'script'), [CREATE] + list(inserts(EACH)))])
    made = TABLE.write_folder(os.path.join(top, 'made'), [[row(n) for n in range(EACH)]])
    with open(os.path.join(folder, 'data-1'), 'rb') as found, open(os.path.join(made, 'data-1'), 'rb') as wanted:
        if found.read() != wanted.read():
            sys.exit('a FLUSH writes another file')


def measure_flushes(program, top):
    """Whether INSERTs and FLUSHes took more memory than they may."""
    # It holds no row, and goes on long enough to be measured.
    none = write_script(os.path.join(top, 'none'), [CREATE] + ['SELECT * FROM t;\n'] * EACH)
    one = write_script(os.path.join(top, 'one'), [CREATE] + [insert(n) for n in range(EACH)])
    script = write_script(os.path.join(top, 'script'), [CREATE] + list(inserts(COUNT)))
    _, bare = run([program, os.path.join(top, 'kept-none'), none])
    _, held = run([program, os.path.join(top, 'kept-one'), one])
    runs = [run([program, os.path.join(top, 'kept-%d' % at), script]) for at in range(TRIES)]
    print('one memtable of %d rows takes %.1f MiB' % (EACH, (held - bare) / 1024))
    limit = held - bare + BESIDES
    above = print_run('%d INSERTs, a FLUSH each %d' % (COUNT, EACH), min(r[0] for r in runs), max(r[1] for r in runs), limit)
    if shutil.which('sqlite3'):
        lines = [SQLITE] + list(inserts(COUNT, 'PRAGMA wal_checkpoint(TRUNCATE);\n'))
        path = write_script(os.path.join(top, 'sqlite'), lines)
        print_run('sqlite3', *run(['sqlite3', os.path.join(top, 'db')], path))
    return above


def spent(program, top, script, run_it):
    """What a run over a new folder takes."""
    folder = os.path.join(top, 'folder')
    taken = run_it([program, folder, script])
    shutil.rmtree(folder)
    return taken


def flush_of(program, top, name, create):
    """What a FLUSH of the rows takes beyond their INSERTs: seconds, and KiB of memory. A run with it follows each without, and of these
    differences the middle one counts, so that what else the machine does meets both alike."""
    rows = create + [insert(n) for n in range(INDEXED)]
    inserts_alone = write_script(os.path.join(top, name), rows)
    flushed = write_script(os.path.join(top, name + '-flushed'), rows + ['FLUSH t;\n'])
    seconds = [-spent(program, top, inserts_alone, timed) + spent(program, top, flushed, timed) for _ in range(FLUSH_TRIES)]
    memory = [min(spent(program, top, script, run)[1] for _ in range(TRIES)) for script in (inserts_alone, flushed)]
    return statistics.median(seconds), memory[1] - memory[0]


def measure_indexes(program, top):
    """Whether a FLUSH with two indexes took more than it may."""
    plain, plain_memory = flush_of(program, top, 'plain', [CREATE])
    indexed, memory = flush_of(program, top, 'indexed', [CREATE, INDEXES])
    print_run('a FLUSH of %d rows' % INDEXED, plain, plain_memory)
    print_run('with two indexes', indexed, memory)
    print('it takes %.2f times the time, and %.1f bytes of memory for each posting' % (indexed / plain, memory * 1024 / (2 * INDEXED)))
    if shutil.which('sqlite3'):
        script = write_script(os.path.join(top, 'sqlite'), [SQLITE] + list(inserts(COUNT, 'PRAGMA wal_checkpoint(TRUNCATE);\n')))
        print_run('sqlite3, %d INSERTs' % COUNT, *run(['sqlite3', os.path.join(top, 'plain.db')], script))
        script = write_script(os.path.join(top, 'sqlite'), [SQLITE, SQLITE_INDEXES] + list(inserts(COUNT, 'PRAGMA wal_checkpoint(TRUNCATE);\n')))
        print_run('sqlite3, with two indexes', *run(['sqlite3', os.path.join(top, 'indexed.db')], script))
    script = write_script(os.path.join(top, 'all'), [CREATE, INDEXES] + list(inserts(COUNT)))
    print_run('%d INSERTs, a FLUSH each %d, two indexes' % (COUNT, EACH), *min(run([program, os.path.join(top, 'all-%d' % at), script]) for at in range(TRIES)))
    return indexed > TIMES * plain or memory * 1024 > POSTING * 2 * INDEXED


def measure_select(program, top):
    """Whether the SELECT took more memory than it may."""
    folder = write_folder(os.path.join(top, 'rows'))
    script = write_script(os.path.join(top, 'select'), ['SELECT * FROM t;\n'])
    replies = os.path.join(top, 'replies')
    seconds, memory = min(run([program, folder, script], written=replies) for _ in range(TRIES))
    size = os.path.getsize(replies)
    with open(replies, 'rb') as lines:
        if lines.read().count(b'\n') != ROWS + 1:
            sys.exit('the SELECT gives other rows')
    os.remove(replies)
    above = print_run('a SELECT of %d rows in %d files' % (ROWS, FILES), seconds, memory, size // 1024 + BESIDES)
    pages = sum(-(-os.path.getsize(os.path.join(folder, 'data-%d' % file)) // 4096) for file in range(1, FILES + 1))
    print('its reply has %.1f MiB, the files have %d pages, and it makes %d reads' % (size / (1 << 20), pages, reads_of([program, folder, script])))
    if shutil.which('sqlite3'):
        path = write_script(os.path.join(top, 'sqlite'), [SQLITE, 'BEGIN;\n'] + [insert(n) for n in range(ROWS)] + ['COMMIT;\n'])
        run(['sqlite3', os.path.join(top, 'rows.db')], path)
        words = ['sqlite3', os.path.join(top, 'rows.db'), 'SELECT * FROM t ORDER BY k']
        print_run('sqlite3', *min(run(words, written=replies) for _ in range(TRIES)))
    words = [program, folder, write_script(os.path.join(top, 'nothing'), [])]
    print_opening('opening that folder', words)
    print('it makes %d reads' % reads_of(words))
    if shutil.which('sqlite3'):
        print_opening('sqlite3, of one row', ['sqlite3', os.path.join(top, 'rows.db'), 'SELECT * FROM t LIMIT 1'])
    return above


def main():
    program = processes.program()
    print('%-46s %8s %9s %9s' % ('', 'seconds', 'peak MiB', 'limit'))
    above = False
    for measure in (check_data_file, measure_flushes, measure_indexes, measure_select):
        with tempfile.TemporaryDirectory(dir=MEMORY) as folder:
            above = measure(program, folder) or above
    if above:
        sys.exit('a run took more than its limit')


main()
