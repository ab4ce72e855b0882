#!/usr/bin/env python3
"""Runs the built sasi_language on many lines, and prints time and peak memory: language.py PROGRAM

The lines are statements (INSERTs of prose, and statements of all forms), texts to cut into words, and pieces of one length, 8 MiB
in all. A byte of the longest pieces may take twice the time of one of the shortest, which are 32 times shorter: a step that is
linear in the bytes seen would multiply it by 32. What pieces say isn't printed, so they take the parser's time and memory alone.

Then it parses a piece of 2^20 bytes for each list of the grammar, with the shortest items that it can have, and prints how many
times its bytes the piece takes in memory beyond a text of the same length that fails at its first byte. It may take ten times.
"""
import os
import subprocess
import sys
import tempfile
import time

MOST_GROWTH = 2.0
MOST_MEMORY = 10.0
TOTAL = 1 << 23
TRIES = 5
WORDS = 'the quick brown fox jumps over a lazy dog and runs back home where it sleeps until the sun comes up again'.split()

FORMS = [
    "CREATE TABLE t{0} (k text PRIMARY KEY, a text, n int, b bigint, u uuid);",
    "CREATE CUSTOM INDEX i{0} ON t (a) USING 'org.apache.cassandra.index.sasi.SASIIndex' WITH OPTIONS = {{'mode': 'CONTAINS'}};",
    "DROP INDEX i{0};",
    "UPDATE t USING TIMESTAMP {0} SET a = 'x', n = {0} WHERE k = 'k{0}';",
    "DELETE a, n FROM t WHERE k = 'k{0}';",
    "SELECT k, a FROM t WHERE a LIKE 'x%' AND n >= {0} LIMIT 10 ALLOW FILTERING;",
    "OPEN c{0} AS SELECT * FROM t WHERE a = 'x';",
    "FETCH {0} FROM c;",
    "CLOSE c{0};",
    "FLUSH t;",
    "BEGIN COMPACT t;",
    "STEP COMPACT t {0};",
    "TRACE ON;",
]


# The lists of statements: what stands in front, a short item, what stands between two, and what stands behind.
LISTS = [
    ('names', 'SELECT ', 'a', ',', ' FROM t;'),
    ('names and numbers', 'INSERT INTO t(%s)VALUES(', '1', ',', ');'),
    ('numbers', 'INSERT INTO t(a)VALUES(', '1', ',', ');'),
    ('empty texts', 'INSERT INTO t(a)VALUES(', "''", ',', ');'),
    ('texts of a byte', 'INSERT INTO t(a)VALUES(', "'a'", ',', ');'),
    ('texts of 15 bytes', 'INSERT INTO t(a)VALUES(', "'abcdefghijklmno'", ',', ');'),
    ('numbers of 13 digits', 'INSERT INTO t(a)VALUES(', '1099511627776', ',', ');'),
    ('nulls', 'INSERT INTO t(a)VALUES(', 'null', ',', ');'),
    ('equations', 'UPDATE t SET ', 'a=1', ',', ' WHERE k=1;'),
    ('relations', 'SELECT*FROM t WHERE ', "a='x'", 'AND ', ';'),
    ('options', "CREATE CUSTOM INDEX ON t(a)USING''WITH OPTIONS={", "'a':'b'", ',', '};'),
    ('columns', 'CREATE TABLE t(k int PRIMARY KEY,', 'a int', ',', ');'),
    ('one text', "INSERT INTO t(a)VALUES('", 'x', '', "');"),
]


def prose(n, size):
    """Words in no order, of this many bytes together."""
    text = ''
    while len(text) < size:
        n = (n * 1103515245 + 12345) % (1 << 31)
        text += WORDS[n % len(WORDS)] + ' '
    return text[:size]


def insert(n):
    return "INSERT INTO t (k, a) VALUES ('k%d', '%s');" % (n, prose(n, 200))


def peak(pid):
    """The peak memory of a process so far in KiB, or 0 where it has ended."""
    try:
        with open('/proc/%d/status' % pid) as status:
            return max(int(line.split()[1]) for line in status if line.startswith('VmHWM'))
    except (OSError, ValueError):
        return 0


def run(program, path):
    """The seconds and the peak memory in KiB of one run over the lines of a file."""
    with open(path, 'rb') as lines, open(os.devnull, 'wb') as nothing:
        began = time.perf_counter()
        process = subprocess.Popen([program], stdin=lines, stdout=nothing)
        most = 0
        while process.poll() is None:
            most = max(most, peak(process.pid))
            time.sleep(0.001)
        if process.returncode != 0:
            sys.exit('the program ended with status %d' % process.returncode)
        return time.perf_counter() - began, most


def measure(program, lines):
    with tempfile.NamedTemporaryFile('w', suffix='.txt') as file:
        file.write(''.join(line + '\n' for line in lines))
        file.flush()
        runs = [run(program, file.name) for _ in range(TRIES)]
        return min(seconds for seconds, _ in runs), max(memory for _, memory in runs)


def piece_of(front, item, between, back, size):
    """A piece of at most this size. `%s` in front stands for as many names as there are items."""
    each = len(item) + len(between)
    if '%s' in front:
        count = (size - len(front) - len(back)) // (each + 2)
        front = front % ','.join(['a'] * count)
    else:
        count = (size - len(front) - len(back) + len(between)) // each
    return front + between.join([item] * count) + back


def print_memory(program):
    """Prints what a piece of each list takes. Returns how many take too much."""
    size = 1 << 20
    _, least = measure(program, ['parse ' + '?' * size])
    print('%-21s %5s' % ('lists of', 'times'))
    over = 0
    for name, front, item, between, back in LISTS:
        piece = piece_of(front, item, between, back, size)
        _, memory = measure(program, ['parse ' + piece])
        times = (memory - least) * 1024 / len(piece)
        print('%-21s %5.1f' % (name, times))
        over += times > MOST_MEMORY
    return over


def main():
    program = os.path.abspath(sys.argv[1])
    cases = [
        ('INSERTs', [insert(n) for n in range(20000)]),
        ('all forms', [FORMS[n % len(FORMS)].format(n) for n in range(5000)]),
        ('words', ['words ' + prose(n, 200) for n in range(20000)]),
    ]
    print('lines      count   bytes  seconds  peak MiB')
    for name, lines in cases:
        seconds, memory = measure(program, lines)
        size = sum(map(len, lines))
        print('%-9s %6d %7d  %7.3f  %8.1f' % (name, len(lines), size, seconds, memory / 1024))
    print('pieces of   count  ns a byte  peak MiB')
    first = None
    for power in range(15, 21):
        size = 1 << power
        piece = 'INSERT INTO t (k, a) VALUES (%s, 1);' % ', '.join(['1'] * ((size - 40) // 3))
        count = TOTAL // size
        seconds, memory = measure(program, ['parse ' + piece] * count)
        cost = seconds / (count * len(piece)) * 1e9
        print('%9d  %6d  %9.1f  %8.1f' % (len(piece), count, cost, memory / 1024))
        first = first or cost
        if cost > MOST_GROWTH * first:
            sys.exit('a byte of a longer piece took %.1f times the time' % (cost / first))
    over = print_memory(program)
    if over:
        sys.exit('%d lists take more than %.0f times their bytes' % (over, MOST_MEMORY))


if __name__ == '__main__':
    main()
