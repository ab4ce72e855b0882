#!/usr/bin/env python3
"""Asks the built program questions over a folder of 1,000,000 rows, and prints what each costs beside sqlite3.

- By the beginning of a text, an equal text, an equal number, a range of numbers and a word, each of which 10 rows have; by what stands within a
  text and at its end, of 100,000 texts; by two relations of 10 and 100,000 rows; and the first 10 of all rows under a LIMIT.
- The rows stand in one data file and in ten, each with five index files. A memtable is flushed by itself long before 100,000 rows, so this
  writes the files, as docs/FORMATS.md says. It looks first that it writes the files that a FLUSH of some rows does.
- Of each: the milliseconds of the processor, and the bytes that are read, as strace counts them where it is installed. What a run takes that
  asks nothing is taken off both. Each row that is given is looked at.

Beside them the same rows stand in sqlite3, where it is installed: rows in the order of their keys, an index for each of ours, and FTS5 for
words. What stands within a text is looked for there in all rows, and once more by the trigrams of FTS5. Each question is asked in a run of its own first, of which the bytes are told, and then again and again in one run, of which the time is.

    queries.py [PROGRAM [ROWS]]
"""
import os
import shutil
import sys
import tempfile

import processes
from processes import MEMORY, measured
from tables import CONTAINS, INT, PREFIX, TEXT, WHOLE, WORDS, Table

ROWS, FILES, ASKED, TRIES = 1000000, 10, 10, 3
CREATE = 'CREATE TABLE t (k text PRIMARY KEY, a text, w text, n int, c int, d text);\n'
INDEX = "CREATE CUSTOM INDEX ON t (%s) USING 'org.apache.cassandra.index.sasi.SASIIndex'%s;\n"
STANDARD = " WITH OPTIONS = {'analyzer_class': 'org.apache.cassandra.index.sasi.analyzer.StandardAnalyzer', 'tokenization_normalize_lowercase': 'true'}"
WITHIN = " WITH OPTIONS = {'mode': 'CONTAINS'}"
INDEXES = [INDEX % ('a', ''), INDEX % ('w', STANDARD), INDEX % ('n', ''), INDEX % ('c', ''), INDEX % ('d', WITHIN)]
TABLE = Table('t', [('k', TEXT), ('a', TEXT), ('w', TEXT), ('n', INT), ('c', INT), ('d', TEXT)],
              [(1, PREFIX, WHOLE, 0), (2, PREFIX, WORDS, 1), (3, PREFIX, 0, 0), (4, PREFIX, 0, 0), (5, CONTAINS, WHOLE, 0)])
SQLITE = ['PRAGMA journal_mode=OFF;\n', 'CREATE TABLE t (k TEXT PRIMARY KEY, a TEXT, w TEXT, n INT, c INT, d TEXT) WITHOUT ROWID;\n', 'BEGIN;\n']
SQLITE_END = ['CREATE INDEX ia ON t (a);\n', 'CREATE INDEX i_n ON t (n);\n', 'CREATE INDEX ic ON t (c);\n',
              'CREATE VIRTUAL TABLE f USING fts5(k UNINDEXED, w);\n', 'INSERT INTO f SELECT k, w FROM t;\n',
              "CREATE VIRTUAL TABLE g USING fts5(k UNINDEXED, d, tokenize='trigram case_sensitive 1');\n", 'INSERT INTO g SELECT k, d FROM t;\n', 'COMMIT;\n', 'ANALYZE;\n']
LIKE = 'PRAGMA case_sensitive_like=1;\n'


# ---- rows

def key(n):
    """Keys in no order, all distinct."""
    return '%08x' % ((n * 2654435761) % (1 << 32))


def row(n):
    """Ten rows have the first digits of a text, a word, a number and the last text together, and a tenth of all the last number."""
    return key(n), n + 1, ('name %07d' % n, 'w%d and v%d' % (n // 10, n % 7), n // 10, n % 10, 'item %06d of them' % (n // 10))


def insert(n):
    k, _, (a, w, number, c, d) = row(n)
    return "INSERT INTO t (k, a, w, n, c, d) VALUES ('%s', '%s', '%s', %d, %d, '%s');\n" % (k, a, w, number, c, d)


class Question:
    """What is asked of ten: the WHERE here and the SELECT there, and which rows are given."""

    def __init__(self, name, where, there, rows):
        self.name, self.where, self.there, self.rows = name, where, there, rows

    def here(self, ten):
        return 'SELECT k FROM t WHERE %s;\n' % (self.where % {'ten': ten, 'next': ten + 1})

    def beside(self, ten):
        return 'SELECT k FROM ' + self.there % {'ten': ten, 'next': ten + 1} + ';\n'


def tens(ten):
    return range(10 * ten, 10 * ten + 10)


QUESTIONS = [
    Question('LIKE the beginning of a text', "a LIKE 'name %(ten)06d%%'", "t WHERE a LIKE 'name %(ten)06d%%' ORDER BY k", tens),
    Question('an equal text', "a = 'name %(ten)06d0'", "t WHERE a = 'name %(ten)06d0' ORDER BY k", lambda ten: [10 * ten]),
    Question('an equal number', 'n = %(ten)d', 't WHERE n = %(ten)d ORDER BY k', tens),
    Question('a range of numbers', 'n >= %(ten)d AND n < %(next)d ALLOW FILTERING', 't WHERE n >= %(ten)d AND n < %(next)d ORDER BY k', tens),
    Question('LIKE a word', "w LIKE 'w%(ten)d'", "f WHERE f MATCH 'w%(ten)d' ORDER BY k", tens),
    Question('LIKE within a text', "d LIKE '%%m %(ten)06d o%%'", "t WHERE d LIKE '%%m %(ten)06d o%%' ORDER BY k", tens),
    Question('the same by trigrams', "d LIKE '%%m %(ten)06d o%%'", "g WHERE g MATCH '\"m %(ten)06d o\"' ORDER BY k", tens),
    Question('LIKE the end of a text', "d LIKE '%%%(ten)06d of them'", "t WHERE d LIKE '%%%(ten)06d of them' ORDER BY k", tens),
    Question('10 rows AND a tenth of all', "n = %(ten)d AND c = 3 ALLOW FILTERING", 't WHERE n = %(ten)d AND c = 3 ORDER BY k', lambda ten: [10 * ten + 3]),
    Question('a tenth of all AND 10 rows', "c = 3 AND n = %(ten)d ALLOW FILTERING", 't WHERE c = 3 AND n = %(ten)d ORDER BY k', lambda ten: [10 * ten + 3]),
    Question('all rows, LIMIT 10', "a LIKE 'name %%' LIMIT 10", "t WHERE a LIKE 'name %%' ORDER BY k LIMIT 10", None),
]


# ---- runs

def run(words, read=os.devnull, written=os.devnull):
    seconds, memory, status = measured(words, read, written)
    if status:
        sys.exit('failed: %s' % ' '.join(words))
    return seconds, memory


def write_script(path, lines):
    with open(path, 'w') as out:
        out.writelines(lines)
    return path


def bytes_read(words, read=os.devnull):
    """How many bytes a run reads at an offset, where strace is installed."""
    if not shutil.which('strace'):
        return 0
    with tempfile.NamedTemporaryFile('r') as log:
        run(['strace', '-f', '-e', 'trace=pread64', '-o', log.name] + words, read)
        return sum(int(line.rsplit('=', 1)[1]) for line in log if 'pread64' in line and line.rsplit('=', 1)[1].strip().isdigit())


def check_files(program, top):
    """Exits where it writes other files than a FLUSH of the same rows."""
    count = 5000
    folder = os.path.join(top, 'checked')
    run([program, folder, write_script(os.path.join(top, 'script'), [CREATE] + INDEXES + [insert(n) for n in range(count)] + ['FLUSH t;\n'])])
    made = TABLE.write_folder(os.path.join(top, 'made'), [[row(n) for n in range(count)]])
    for name in sorted(os.listdir(made)):
        if name.startswith(('data', 'index')):
            with open(os.path.join(folder, name), 'rb') as one, open(os.path.join(made, name), 'rb') as other:
                if one.read() != other.read():
                    sys.exit('a FLUSH writes another ' + name)


class Ours:
    def __init__(self, program, folder, top):
        self.program, self.folder, self.top = program, folder, top
        self.nothing = write_script(os.path.join(top, 'nothing'), [])

    def words(self, script):
        return [self.program, self.folder, script], os.devnull

    def lines(self, question, asked):
        return [question.here(ten) for ten in asked]

    def keys(self, replies):
        return [line[1:-2] for line in replies if line.startswith("'")]


class Sqlite(Ours):
    def __init__(self, db, top):
        self.db, self.top = db, top
        self.nothing = write_script(os.path.join(top, 'one'), [LIKE, 'SELECT k FROM t LIMIT 1;\n'])

    def words(self, script):
        return ['sqlite3', self.db], script

    def lines(self, question, asked):
        return [LIKE] + [question.beside(ten) for ten in asked]

    def keys(self, replies):
        return [line.rstrip('\n') for line in replies]


def least(side, script, written=os.devnull):
    words, read = side.words(script)
    return min(run(words, read, written) for _ in range(TRIES))


def ask(side, question, rows):
    """The milliseconds and the bytes of a question, and the most memory of a run; exits where other rows are given."""
    asked = [turn * 7919 % (rows // 10) for turn in range(ASKED)]
    script, replies = write_script(os.path.join(side.top, 'asked'), side.lines(question, asked)), os.path.join(side.top, 'replies')
    seconds, memory = least(side, script, replies)
    with open(replies) as lines:
        keys = side.keys(lines)
    wanted = [sorted(key(n) for n in question.rows(ten)) for ten in asked] if question.rows else [sorted(map(key, range(rows)))[:10]] * ASKED
    if keys != [one for answer in wanted for one in answer]:
        sys.exit('other rows: %s' % question.name)
    opening, _ = least(side, side.nothing)
    one, nothing = write_script(os.path.join(side.top, 'first'), side.lines(question, asked[:1])), side.nothing
    read = bytes_read(*side.words(one)) - bytes_read(*side.words(nothing))
    return max(seconds - opening, 0) * 1000 / ASKED, read, memory


def make_sqlite(top, rows):
    path = os.path.join(top, 'db')
    run(['sqlite3', path], write_script(os.path.join(top, 'sqlite'), SQLITE + [insert(n) for n in range(rows)] + SQLITE_END))
    return path


def main():
    program = processes.program()
    rows = int(sys.argv[2]) if len(sys.argv) > 2 else ROWS
    with tempfile.TemporaryDirectory(dir=MEMORY) as made:
        check_files(program, made)
        sides = []
        for files in (1, FILES):
            folder = TABLE.write_folder(os.path.join(made, 'rows-%d' % files), [[row(n) for n in range(at, rows, files)] for at in range(files)])
            sides.append(('%d files' % files, Ours(program, folder, made)))
        if shutil.which('sqlite3'):
            sides.append(('sqlite3', Sqlite(make_sqlite(made, rows), made)))
        print('%-30s' % '' + ''.join('%28s' % name for name, _ in sides))
        print('%-30s' % 'a SELECT by' + '%10s %11s %5s' % ('ms', 'bytes', 'MiB') * len(sides))
        for question in QUESTIONS:
            taken = [ask(side, question, rows) for _, side in sides]
            print('%-30s' % question.name + ''.join('%10.3f %11d %5.1f' % (ms, read, memory / 1024) for ms, read, memory in taken), flush=True)


main()
