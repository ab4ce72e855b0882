#!/usr/bin/env python3
"""Runs the built program on scripts that hold rows of five shapes, and prints the memory that each row takes.

A row may take three times its bytes and 200 more. Its bytes are those of its key and of its cells with their times, as
they stand in a log: 20 for the row with a key of eight bytes besides, and 13 for each cell besides its value, the marker
of the row among them. What a row takes is the growth of the peak memory from a number of rows to twice as many, which one memtable
holds: it is flushed at 65,536 cells, so these are 60,000.
"""
import os
import sys
import tempfile

import processes
from processes import MEMORY, measured

CELLS = 30000
TIMES, MORE = 3, 200
BESIDES_ROW, BESIDES_CELL = 20, 13

# The columns of each shape, by the length of a text, or None for an int.
SHAPES = {
    'a text of 10 and an int': [10, None],
    '20 ints': [None] * 20,
    '60 ints': [None] * 60,
    '20 texts of 32': [32] * 20,
    'a text of 1,000': [1000],
}


def key(n):
    """Keys of eight bytes in no order, all distinct."""
    return '%08x' % ((n * 2654435761) % (1 << 32))


def value(column, n):
    return str(n) if column is None else "'%s'" % str(n).rjust(column, 'x')


def script(columns, rows):
    names = ['c%d' % at for at in range(len(columns))]
    kinds = ['int' if column is None else 'text' for column in columns]
    yield 'CREATE TABLE t (k text PRIMARY KEY, %s);\n' % ', '.join(map(' '.join, zip(names, kinds)))
    for n in range(rows):
        values = ', '.join(value(column, n) for column in columns)
        yield "INSERT INTO t (k, %s) VALUES ('%s', %s);\n" % (', '.join(names), key(n), values)


def memory(program, columns, rows):
    """The peak memory of a run in bytes."""
    with tempfile.TemporaryDirectory(dir=MEMORY) as folder:
        path = os.path.join(folder, 'script')
        with open(path, 'w') as out:
            out.writelines(script(columns, rows))
        _, most, status = measured([program, os.path.join(folder, 'data'), path])
        if status:
            sys.exit('the program failed')
        return most * 1024


def main():
    program = processes.program()
    above = []
    print('%-24s %10s %10s' % ('shape', 'bytes/row', 'limit'))
    for name, columns in SHAPES.items():
        size = BESIDES_ROW + BESIDES_CELL + sum(BESIDES_CELL + (column or 4) for column in columns)
        limit = TIMES * size + MORE
        rows = CELLS // (1 + len(columns))
        row = (memory(program, columns, 2 * rows) - memory(program, columns, rows)) / rows
        print('%-24s %10.0f %10d' % (name, row, limit))
        if row > limit:
            above.append(name)
    if above:
        sys.exit('above the limit: %s' % ', '.join(above))


main()
