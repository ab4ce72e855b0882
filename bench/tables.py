"""The bytes of a folder with one table: manifest, data files and index files, as docs/FORMATS.md says. Benchmarks that need more rows in a
file than a memtable takes write them by it.

The partitioner is lead8, and each key has at most eight bytes, so its token is the key.
"""
import os
from itertools import groupby

TEXT, INT = 0, 1
WHOLE, WORDS = 1, 2
PREFIX, CONTAINS = 0, 1
LEAF = 255
BLOCK = 4096


def number(size, value):
    return value.to_bytes(size, 'big')


def write(path, content):
    with open(path, 'wb') as out:
        out.write(content)
    return path


def stored(kind, value):
    """The bytes of a value, as cells have them."""
    return value.encode() if kind == TEXT else number(4, value & 0xffffffff)


def token(key):
    return int.from_bytes(key.encode().ljust(8, b'\0'), 'big')


# ---- data files

def cell(column, time, value):
    return number(2, column) + number(8, time) + b'\1' + number(2, len(value)) + value


def partition(key, time, values):
    """What the INSERT of a row merges: the marker, and a cell for each value."""
    cells = [cell(0, time, b'')] + [cell(at, time, value) for at, value in enumerate(values, 1)]
    body = number(2, len(key)) + key.encode() + number(8, 0) + number(2, len(cells)) + b''.join(cells)
    return number(4, len(body)) + body


def tree(at, pairs):
    """The bytes of a token tree that stands at an offset, and the offset of its root."""
    out, level, entries = bytearray(), 0, pairs
    while True:
        above = []
        for first in range(0, len(entries), LEAF):
            node = entries[first:first + LEAF]
            above.append((node[0][0], at + len(out)))
            out += number(2, level << 8) + number(2, len(node)) + number(4, 0)
            out += b''.join(number(8, one) + number(8, offset) for one, offset in node)
        if len(above) == 1:
            return out, above[0][1]
        level, entries = level + 1, above


def data_file(rows):
    """A data file of rows, each a key, a timestamp and the bytes of its values, in the order of the keys. Beside it the pair of each row."""
    out, pairs, last = bytearray(b'SASIDAT1' + number(4, 1) + number(4, 0)), [], 0
    for key, time, values in rows:
        pairs.append((token(key), len(out)))
        out += partition(key, time, values)
        last = max(last, time)
    end = len(out)
    nodes, root = tree(end, pairs)
    footer = number(8, root) + number(8, len(pairs)) + number(8, last) + number(8, end) + b'SASIDEND'
    return out + nodes + footer, pairs


# ---- index files

def term_of(kind, value):
    """The term of a number has its top bit flipped, so that terms are in the order of numbers."""
    return value.encode() if kind == TEXT else number(4, (value & 0xffffffff) ^ 0x80000000)


def blocks_of(entries):
    """Blocks of entries, each as many as fit, with the first term of each block."""
    blocks, taken, size = [], [], 2
    for term, entry in entries + [(None, None)]:
        if term is None or size + 2 + len(entry) > BLOCK:
            offsets, at = [], 2 + 2 * len(taken)
            for _, one in taken:
                offsets.append(number(2, at))
                at += len(one)
            block = number(2, len(taken)) + b''.join(offsets) + b''.join(one for _, one in taken)
            blocks.append((taken[0][0], block.ljust(BLOCK, b'\0')))
            taken, size = [], 2
        if term is not None:
            taken.append((term, entry))
            size += 2 + len(entry)
    return blocks


def index_file(mode, kind, postings):
    """An index file of the mode PREFIX or CONTAINS, of postings, each a term and a pair, with no term of more than 1,024 bytes."""
    out = bytearray(b'SASIIDX1' + number(4, 1) + number(1, mode) + number(1, kind) + number(2, 0))
    entries = []
    for term, group in groupby(sorted(postings), key=lambda posting: posting[0]):
        pairs = [pair for _, pair in group]
        nodes, root = tree(len(out), pairs)
        out += nodes
        entries.append((term, number(2, len(term)) + term + b'\1' + number(8, root) + number(8, len(pairs))))
    out += bytes(-len(out) % BLOCK)
    first = len(out)
    blocks = blocks_of(entries) if entries else []
    count, levels, top = len(blocks), 0, 0
    level = blocks
    while level:
        above, at = [], len(out)
        for turn, (term, block) in enumerate(level):
            above.append((term, number(2, len(term)) + term + number(8, at + turn * BLOCK)))
            out += block
        if len(level) == 1:
            top = at if levels else 0
            break
        level, levels = blocks_of(above), levels + 1
    numbers = (first, count, levels, top, 0, 0, 0, len(entries))
    return out + b''.join(number(8, one) for one in numbers) + b'SASIIEND'


# ---- manifests

def gated(magic, records):
    payloads = b''.join(b'\1' + number(4, len(record)) + record for record in records)
    return magic + number(4, 1) + number(4, 1) + payloads + b'\0'


def name_bytes(name):
    return number(1, len(name)) + name.encode()


class Table:
    """The table 1 of a folder: its columns, of which the first is the key, and the indexes of some of them: mode, rule, and whether it folds."""

    def __init__(self, name, columns, indexes=()):
        self.name, self.columns, self.indexes = name, columns, list(indexes)

    def edits(self):
        """What lists it, and its indexes in their order."""
        columns = b''.join(name_bytes(name) + number(1, kind) for name, kind in self.columns)
        yield b'\2' + number(4, 1) + name_bytes(self.name) + number(2, len(self.columns)) + columns + number(2, 0) + number(4, 1)
        for at, (column, mode, rule, fold) in enumerate(self.indexes, 1):
            name = self.name + '_' + self.columns[column][0] + '_idx'
            yield b'\3' + number(4, at) + number(4, 1) + name_bytes(name) + number(2, column) + bytes((mode, rule, fold))

    def manifest(self, files):
        """It lists the table, and data files of these numbers with an index file of each index."""
        parts = lambda file: b''.join(number(4, at) + number(4, (file - 1) * len(self.indexes) + at) for at in range(1, len(self.indexes) + 1))
        added = b''.join(number(4, file) + number(2, len(self.indexes)) + parts(file) for file in files)
        replace = b'\5' + number(4, 1) + number(4, 0) + number(4, len(files)) + added + number(4, 1) * 3
        start = b'\1\0' + number(4, 1) + number(4, 1)
        return gated(b'SASIMAN1', [number(4, 1) + edit for edit in (start, *self.edits(), replace)])

    def write_file(self, folder, file, rows):
        """A data file of rows, each a key, a timestamp and its values, and its index files. An index of words has each word once."""
        rows = sorted(rows)
        kinds = [kind for _, kind in self.columns[1:]]
        content, pairs = data_file((key, time, [stored(kind, value) for kind, value in zip(kinds, values)]) for key, time, values in rows)
        write(os.path.join(folder, 'data-%d' % file), content)
        for at, (column, mode, rule, _) in enumerate(self.indexes, 1):
            kind, postings = self.columns[column][1], []
            for (_, _, values), pair in zip(rows, pairs):
                value = values[column - 1]
                texts = sorted(set(value.split())) if rule == WORDS else [value]
                postings += [(term_of(kind, text), pair) for text in texts]
            write(os.path.join(folder, 'index-%d-%d-%d' % (file, at, (file - 1) * len(self.indexes) + at)), index_file(mode, kind, postings))

    def write_folder(self, folder, files):
        """A folder of these data files, each a list of rows."""
        os.mkdir(folder)
        for file, rows in enumerate(files, 1):
            self.write_file(folder, file, rows)
        write(os.path.join(folder, 'manifest-1'), self.manifest(range(1, len(files) + 1)))
        write(os.path.join(folder, 'log-1'), gated(b'SASILOG1', []))
        write(os.path.join(folder, 'seal-1'), b'')
        return folder
