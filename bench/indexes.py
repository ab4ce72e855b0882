#!/usr/bin/env python3
"""Runs the built program on INSERTs into a table with none, one and three indexes, and then asks by each operator over the three.

- 100,000 INSERTs: the processor's seconds and the peak memory. With three indexes they may take three times as long as with none.
- SELECTs by the key, by each operator of the indexes, and by a column without one: the milliseconds of the processor for each, beside
  those of an opening of the folder, and the rows that they give. These are the rows that hold what is asked, or the run fails.

Beside them sqlite3 does the same, where it is installed: WAL, synchronous=FULL, one transaction a row, an index for each of ours, and rows in
the order of their keys. It has no index of words, so there it looks at each row. All folders stand in memory, where a sync costs nothing.

    indexes.py [PROGRAM [COUNT [ASKED]]]      for a program elsewhere, other numbers of rows, and of SELECTs by each operator
"""
import os
import shutil
import sys
import tempfile

import processes
from processes import MEMORY, measured

COUNT, ASKED = 100000, 10
MOST_TIMES = 3.0
TRIES = 3

CREATE = 'CREATE TABLE t (k text PRIMARY KEY, a text, w text, n int, b int);\n'
INDEX = "CREATE CUSTOM INDEX ON t (%s) USING 'org.apache.cassandra.index.sasi.SASIIndex'%s;\n"
WORDS = (" WITH OPTIONS = {'analyzer_class': 'org.apache.cassandra.index.sasi.analyzer.StandardAnalyzer', "
         "'tokenization_normalize_lowercase': 'true'}")
INDEXES = [INDEX % ('a', " WITH OPTIONS = {'mode': 'CONTAINS'}"), INDEX % ('w', WORDS), INDEX % ('n', '')]
# Each run of sqlite3 is told that case counts in a LIKE.
LIKE = 'PRAGMA case_sensitive_like=1;\n'
SQLITE = ('PRAGMA journal_mode=WAL;\nPRAGMA synchronous=FULL;\n'
          'CREATE TABLE t (k TEXT PRIMARY KEY, a TEXT, w TEXT, n INT, b INT) WITHOUT ROWID;\n')
SQLITE_INDEXES = ['CREATE INDEX by_%s ON t (%s);\n' % (column, column) for column in 'awn']


# ---- rows, and what is asked of them

def key(n):
    """Keys in no order, all distinct."""
    return '%08x' % ((n * 2654435761) % (1 << 32))


def row(n):
    return {'k': key(n), 'a': 'value %08d' % n, 'w': 'Some words of row %d, and W%d' % (n, n % 1000), 'n': n, 'b': n % 1000}


def insert(n):
    return "INSERT INTO t (k, a, w, n, b) VALUES ('{k}', '{a}', '{w}', {n}, {b});\n".format(**row(n))


class Operator:
    """What is asked of a number: a relation here, one in sqlite3, and whether a row holds it. Where sqlite3 has none, it is the same."""

    def __init__(self, name, asked, holds, there=None):
        self.name, self.asked, self.holds, self.there = name, asked, holds, there or asked

    def select(self, n):
        return 'SELECT k FROM t WHERE %s;\n' % self.asked.format(n)

    def select_there(self, n):
        return 'SELECT k FROM t WHERE %s ORDER BY k;\n' % self.there.replace(' ALLOW FILTERING', '').format(n)

    def rows(self, count, asked):
        """How many rows hold it of each number that is asked."""
        rows = [row(n) for n in range(count)]
        return sum(self.holds(r, n) for n in asked for r in rows)


def has_word(r, begins):
    """Whether the last word of the text begins so, or is so where a space ends it."""
    return (r['w'].split()[-1].lower() + ' ').startswith(begins)


def operators(count):
    last = count - 1
    return [
        # A text's numbers are those of its row, so what is asked of a number can be said of the row.
        Operator('the key', "k = '{0.key}'", lambda r, n: r['k'] == n.key),
        Operator('a text =', "a = 'value {0:08d}'", lambda r, n: r['n'] == n),
        Operator('LIKE as it is', "a LIKE 'value {0:08d}'", lambda r, n: r['n'] == n),
        Operator('LIKE its beginning', "a LIKE 'value {0.tens:07d}%'", lambda r, n: r['n'] // 10 == n.tens),
        Operator('LIKE its end', "a LIKE '%{0.end:04d}'", lambda r, n: r['n'] % 10000 == n.end),
        Operator('LIKE a part', "a LIKE '%{0.end:04d}%'", lambda r, n: '%04d' % n.end in r['a']),
        Operator('LIKE a word', "w LIKE 'w{0.word}'", lambda r, n: has_word(r, 'w%d ' % n.word), "w LIKE '% W{0.word}'"),
        Operator('LIKE words that begin so', "w LIKE 'W{0.word}%'", lambda r, n: has_word(r, 'w%d' % n.word), "w LIKE '% W{0.word}%'"),
        Operator('a number =', 'n = {0}', lambda r, n: r['n'] == n),
        Operator('<', 'n < 10', lambda r, n: r['n'] < 10),
        Operator('<=', 'n <= 10', lambda r, n: r['n'] <= 10),
        Operator('>', 'n > %d' % (last - 10), lambda r, n: r['n'] > last - 10),
        Operator('>=', 'n >= %d' % (last - 10), lambda r, n: r['n'] >= last - 10),
        Operator('from one to another', 'n >= {0} AND n < {0.next} ALLOW FILTERING', lambda r, n: n <= r['n'] < n.next),
        Operator('a column without an index', 'b = {0.word} ALLOW FILTERING', lambda r, n: r['b'] == n.word),
    ]


class Number(int):
    """A row's number, and what is asked by it."""
    key = property(key)
    tens = property(lambda n: int(n) // 10)
    end = property(lambda n: int(n) % 10000)
    word = property(lambda n: int(n) % 1000)
    next = property(lambda n: int(n) + 10)


def numbers(count, asked):
    return [Number(turn * 7919 % count) for turn in range(asked)]


# ---- runs

def run(words, read=os.devnull, written=os.devnull):
    """The processor's seconds and the peak memory in KiB of a run that has to succeed."""
    seconds, memory, status = measured(words, read, written)
    if status:
        sys.exit('failed: %s' % ' '.join(words))
    return seconds, memory


def write_script(path, lines):
    with open(path, 'w') as out:
        out.writelines(lines)
    return path


def print_run(name, seconds, memory):
    print('%-30s %9.3f %9.1f' % (name, seconds, memory / 1024))


def fill(program, top, indexes, count):
    """A folder of rows under the first so many indexes, with the least time of some that are made alike, and the most memory."""
    script = write_script(os.path.join(top, 'script'), [CREATE] + INDEXES[:indexes] + [insert(n) for n in range(count)])
    runs = [run([program, os.path.join(top, 'kept-%d-%d' % (indexes, turn)), script]) for turn in range(TRIES)]
    for turn in range(1, TRIES):
        shutil.rmtree(os.path.join(top, 'kept-%d-%d' % (indexes, turn)))
    seconds, memory = min(r[0] for r in runs), max(r[1] for r in runs)
    print_run('%d INSERTs, %d indexes' % (count, indexes), seconds, memory)
    return os.path.join(top, 'kept-%d-0' % indexes), seconds


def fill_sqlite(top, indexes, count):
    lines = [SQLITE] + SQLITE_INDEXES[:indexes] + [insert(n) for n in range(count)]
    path = os.path.join(top, 'db-%d' % indexes)
    print_run('sqlite3', *run(['sqlite3', path], write_script(os.path.join(top, 'sqlite'), lines)))
    return path


def rows_in(replies):
    """How many rows the replies of SELECTs have, which is in the last line of each."""
    with open(replies) as lines:
        return sum(int(line[1:].split()[0]) for line in lines if line.startswith('('))


def lines_in(replies):
    with open(replies, 'rb') as lines:
        return lines.read().count(b'\n')


def least(words, read=os.devnull, written=os.devnull):
    """The least of the processor's seconds of some runs."""
    return min(run(words, read, written)[0] for _ in range(TRIES))


def ask(program, folder, lines, top, opening):
    """The milliseconds of each of these SELECTs, and how many rows they give."""
    script, replies = write_script(os.path.join(top, 'asked'), lines), os.path.join(top, 'replies')
    seconds = least([program, folder, script], written=replies)
    return max(seconds - opening, 0) * 1000 / len(lines), rows_in(replies)


def ask_sqlite(db, lines, top):
    """The same of sqlite3."""
    script, replies = write_script(os.path.join(top, 'asked'), [LIKE] + lines), os.path.join(top, 'replies')
    opening = least(['sqlite3', db], write_script(os.path.join(top, 'one'), ['SELECT k FROM t LIMIT 1;\n']))
    seconds = least(['sqlite3', db], script, replies)
    return max(seconds - opening, 0) * 1000 / len(lines), lines_in(replies)


def measure_selects(program, top, folder, db, count, asked):
    """Whether an operator gave other rows than those that hold what it asks."""
    nothing = write_script(os.path.join(top, 'nothing'), [])
    opening = least([program, folder, nothing])
    print('opening that folder: %.3f s' % opening)
    print('%-30s %9s %9s %9s' % ('a SELECT by', 'ms', 'rows', 'sqlite3'))
    differ = []
    for operator in operators(count):
        turns = numbers(count, asked)
        taken, given = ask(program, folder, [operator.select(n) for n in turns], top, opening)
        wanted = operator.rows(count, turns)
        beside = ''
        if db:
            taken_there, given_there = ask_sqlite(db, [operator.select_there(n) for n in turns], top)
            beside = '%.3f' % taken_there
            differ += [operator.name] if given_there != wanted else []
        print('%-30s %9.3f %9d %9s' % (operator.name, taken, given, beside))
        differ += [operator.name] if given != wanted else []
    return differ


def main():
    program = processes.program()
    count = int(sys.argv[2]) if len(sys.argv) > 2 else COUNT
    asked = int(sys.argv[3]) if len(sys.argv) > 3 else ASKED
    print('%-30s %9s %9s' % ('', 'seconds', 'peak MiB'))
    with tempfile.TemporaryDirectory(dir=MEMORY) as made:
        taken, db = {}, None
        for indexes in (0, 1, 3):
            folder, taken[indexes] = fill(program, made, indexes, count)
            db = fill_sqlite(made, indexes, count) if shutil.which('sqlite3') else None
        print('three indexes take %.2f times as long as none' % (taken[3] / taken[0]))
        differ = measure_selects(program, made, folder, db, count, asked)
    if differ:
        sys.exit('other rows: ' + ', '.join(differ))
    if taken[3] > MOST_TIMES * taken[0]:
        sys.exit('three indexes took more than %.1f times as long as none' % MOST_TIMES)


main()
