#!/usr/bin/env python3
"""Runs the built program on scripts that fill a table's memory up to a cell or a byte below the limits, and up to them.

A table is flushed by the write with which what it has in memory comes to 65,536 cells or 2^26 bytes of keys and values. The
program is given as the only word, or is that of crates/sasi_tool/out.
"""
import os
import subprocess
import sys
import tempfile

CELLS = 65536
BYTES = 1 << 26
LONGEST = 65535
MEMORY = '/dev/shm' if os.path.isdir('/dev/shm') else None


def cells(count):
    """So many cells: 63 columns and the marker a row, and one cell at a time for the rest."""
    columns = ['c%d' % n for n in range(1, 64)]
    yield 'CREATE TABLE t (k int PRIMARY KEY, %s);\n' % ', '.join(c + ' int' for c in columns)
    values = ', '.join('1' for _ in columns)
    for row in range(count // 64):
        yield 'INSERT INTO t (k, %s) VALUES (%d, %s);\n' % (', '.join(columns), row, values)
    for n in range(count % 64):
        yield 'UPDATE t SET c%d = 2 WHERE k = -1;\n' % (n + 1)


def size(count):
    """So many bytes: a row with a value of 65,531 bytes and a key of four, over and over, and a shorter one at the end."""
    yield 'CREATE TABLE t (k int PRIMARY KEY, a text);\n'
    row = 0
    while count > 0:
        length = min(count - 4, LONGEST - 4)
        # No row may leave less than a key for the next one.
        if 0 < count - 4 - length < 4:
            length -= 4
        yield "INSERT INTO t (k, a) VALUES (%d, '%s');\n" % (row, 'x' * length)
        count -= length + 4
        row += 1


def data_files(program, script):
    """The data files that a run leaves."""
    with tempfile.TemporaryDirectory(dir=MEMORY) as top:
        path, folder = os.path.join(top, 'script'), os.path.join(top, 'folder')
        with open(path, 'w') as out:
            out.writelines(script)
        with open(os.devnull, 'wb') as nothing:
            status = subprocess.run([program, folder, path], stdout=nothing).returncode
        if status:
            sys.exit('the program ended with status %d' % status)
        return sorted(name for name in os.listdir(folder) if name.startswith('data-'))


def main():
    top = os.path.dirname(os.path.dirname(os.path.abspath(__file__)))
    program = sys.argv[1] if len(sys.argv) > 1 else os.path.join(top, 'crates/sasi_tool/out/sasi_tool')
    wrong = 0
    for script, count, wanted in [
        (cells, CELLS - 1, []),
        (cells, CELLS, ['data-1']),
        (cells, 2 * CELLS - 1, ['data-1']),
        (cells, 2 * CELLS, ['data-1', 'data-2']),
        (size, BYTES - 1, []),
        (size, BYTES, ['data-1']),
    ]:
        found = data_files(program, script(count))
        print('%-5s %9d  %s' % (script.__name__, count, ' '.join(found) or 'none'))
        if found != wanted:
            print('      there should be %s' % (' '.join(wanted) or 'none'))
            wrong += 1
    sys.exit(1 if wrong else 0)


main()
