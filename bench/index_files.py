#!/usr/bin/env python3
"""Writes an index file of 1,000,000 postings over 100,000 terms, and searches it for 10,000 terms, 1,000 prefixes, 1,000 ranges and 10 infixes.

The program is crates/sasi_indexbench, which `rt run` in its folder builds. Each step is a process of its own: the table has its
seconds of processor time and by the clock, the pairs that it gives, the pages of 4,096 bytes that it reads, and the most memory
that it takes. Beside it Python's sqlite3 searches a table with an index on the same terms. The program keeps no page between two searches,
and sqlite3 keeps 2 MB of them.
"""
import os
import sqlite3
import sys
import tempfile
import time

TERMS, PAIRS = 100000, 10
ROUNDS = [('terms', 10000), ('prefixes', 1000), ('ranges', 1000), ('infixes', 10)]


def child(work):
    """What a process of its own prints, its processor seconds, its seconds by the clock, and its most memory in MB."""
    out, into = os.pipe()
    began = time.perf_counter()
    pid = os.fork()
    if pid == 0:
        os.dup2(into, 1)
        os.close(out)
        work()
        os._exit(0)
    os.close(into)
    with os.fdopen(out) as told:
        text = told.read()
    _, status, used = os.wait4(pid, 0)
    if status != 0:
        sys.exit('a step failed: %r' % text)
    return text, used.ru_utime + used.ru_stime, time.perf_counter() - began, used.ru_maxrss / 1024


def term(number):
    return '%08d' % number


def asked(what, turn):
    number = turn * 7919 % TERMS
    return {'terms': term(number), 'prefixes': term(number)[:7], 'ranges': term(number)[:7], 'infixes': term(number)[4:]}[what]


def fill(path):
    db = sqlite3.connect(path)
    db.execute('CREATE TABLE t (k INTEGER PRIMARY KEY, a TEXT)')
    rows = ((number * PAIRS + turn, term(number)) for number in range(TERMS) for turn in range(PAIRS))
    db.executemany('INSERT INTO t VALUES (?, ?)', rows)
    db.execute('CREATE INDEX i ON t (a)')
    db.commit()


def ask(path, what, count):
    db = sqlite3.connect(path)
    db.execute('PRAGMA case_sensitive_like = 1')
    given = 0
    for turn in range(count):
        text = asked(what, turn)
        # The pattern is part of the statement: only so does sqlite3 look up a prefix in the index.
        test = {'terms': "= '{0}'", 'prefixes': "LIKE '{0}%'", 'ranges': "BETWEEN '{0}0' AND '{0}9'", 'infixes': "LIKE '%{0}%'"}[what].format(text)
        given += len(db.execute('SELECT k FROM t INDEXED BY i WHERE a ' + test).fetchall())
    os.write(1, b'%d' % given)


def show(name, made):
    text, used, clock, memory = made
    words = text.split()
    given, pages = words[0], words[2] if len(words) > 2 else ''
    print('%-20s  %9s  %7s  %8.3f  %8.3f  %7.1f' % (name, given, pages, used, clock, memory))
    return given


def main():
    top = os.path.dirname(os.path.dirname(os.path.abspath(__file__)))
    program = sys.argv[1] if len(sys.argv) > 1 else os.path.join(top, 'crates/sasi_indexbench/out/sasi_indexbench')
    print('step                     pairs    pages  processor     clock   MB')
    with tempfile.TemporaryDirectory() as folder:
        def step(what):
            return child(lambda: os.execv(program, [program, folder, str(TERMS), str(PAIRS), what]))
        show('write', step('write'))
        own = [show(what, step(what)) for what, _ in ROUNDS]
        sizes = [os.path.getsize(os.path.join(folder, name)) for name in os.listdir(folder)]
        path = os.path.join(folder, 'sqlite')
        show('sqlite3: write', child(lambda: (fill(path), os.write(1, b'0'))))
        theirs = [show('sqlite3: ' + what, child(lambda: ask(path, what, count))) for what, count in ROUNDS]
        print('%d bytes, and %d of sqlite3 with the table' % (sum(sizes), os.path.getsize(path)))
    if own != theirs:
        sys.exit('the pairs differ')


main()
