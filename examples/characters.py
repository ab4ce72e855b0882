#!/usr/bin/env python3
"""Prints a script that makes a table of 10,000 characters of Unicode 3.2: each with its code, its name, its category and, where it means
one, its number. The names, the categories and the numbers have indexes. Python carries this version whatever its own is, so the script is always the same.

    examples/characters.py >script && ./sasi FOLDER script
"""
from unicodedata import ucd_3_2_0 as unicode

COUNT = 10000
SASI = "USING 'org.apache.cassandra.index.sasi.SASIIndex'"
WORDS = ("WITH OPTIONS = {'analyzer_class': 'org.apache.cassandra.index.sasi.analyzer.StandardAnalyzer', "
         "'tokenization_normalize_lowercase': 'true'}")


def characters():
    """Those with a name of their own; ideographs and syllables are named by their codes."""
    for code in range(0x10000):
        name = unicode.name(chr(code), '')
        if name and not name.startswith(('CJK UNIFIED', 'HANGUL SYLLABLE')):
            yield chr(code), code, name


def main():
    print('CREATE TABLE characters (letter text PRIMARY KEY, code int, name text, category text, number int);')
    print('CREATE CUSTOM INDEX ON characters (name) %s %s;' % (SASI, WORDS))
    print('CREATE CUSTOM INDEX ON characters (category) %s;' % SASI)
    print('CREATE CUSTOM INDEX ON characters (code) %s;' % SASI)
    print('CREATE CUSTOM INDEX ON characters (number) %s;' % SASI)
    for turn, (letter, code, name) in enumerate(characters()):
        if turn == COUNT:
            break
        number = unicode.numeric(letter, None)
        whole = number is not None and number == int(number)
        columns, values = ('letter, code, name, category', "'%s', %d, '%s', '%s'" % (letter.replace("'", "''"), code, name, unicode.category(letter)))
        print('INSERT INTO characters (%s%s) VALUES (%s%s);' % (columns, ', number' if whole else '', values, ', %d' % number if whole else ''))
        if turn % 2500 == 2499:
            print('FLUSH characters;')


main()
