#!/usr/bin/env python3
"""Writes data files of many partitions, scans them and finds each of their keys, and prints time and pages read.

The program is crates/sasi_databench, which `rt run` in its folder builds. The times of a scan and of the look-ups are those
behind the writing. Doubling the partitions may multiply each time of at least 20 ms by 2.6.
"""
import os
import subprocess
import sys
import tempfile
import time

COUNTS = [12500, 25000, 50000, 100000]
MOST_GROWTH = 2.6
LEAST_SECONDS = 0.02
TRIES = 3


def run(program, count, what):
    """The seconds of the fastest of some runs, and the pages read."""
    best = None
    for _ in range(TRIES):
        with tempfile.TemporaryDirectory() as folder:
            began = time.perf_counter()
            out = subprocess.run([program, folder, str(count), what], stdout=subprocess.PIPE, check=True).stdout
            seconds = time.perf_counter() - began
            best = min(best or seconds, seconds)
    given, _, pages, _ = out.split()
    if what != 'write' and int(given) != count:
        sys.exit('%d partitions of %d' % (int(given), count))
    return best, int(pages)


def main():
    top = os.path.dirname(os.path.dirname(os.path.abspath(__file__)))
    program = sys.argv[1] if len(sys.argv) > 1 else os.path.join(top, 'crates/sasi_databench/out/sasi_databench')
    print('  count  write s  scan s  pages  find s  pages')
    before, slow = None, False
    for count in COUNTS:
        write, _ = run(program, count, 'write')
        scan, scanned = run(program, count, 'scan')
        find, found = run(program, count, 'find')
        now = (write, scan - write, find - write)
        slow = slow or (before is not None and any(b > MOST_GROWTH * max(a, LEAST_SECONDS) for a, b in zip(before, now)))
        print('%7d  %7.3f  %6.3f  %6d  %6.3f  %6d' % (count, now[0], now[1], scanned, now[2], found))
        before = now
    if slow:
        sys.exit('a doubling took more than %.1f times the time' % MOST_GROWTH)


main()
