"""Runs a program and measures it: what the benchmarks share."""
import os
import subprocess
import sys
import time

# Folders that stand in memory, where a sync costs nothing; durable.py measures a disk.
MEMORY = '/dev/shm' if os.path.isdir('/dev/shm') else None


def program():
    """The program that is measured: the first word, or else that of this checkout, which is built before."""
    if len(sys.argv) > 1:
        return sys.argv[1]
    top = os.path.dirname(os.path.dirname(os.path.abspath(__file__)))
    subprocess.run([os.path.join(top, 'build')], check=True)
    return os.path.join(top, 'crates/sasi_tool/out/sasi_tool')


def peak(pid):
    """The peak memory of a process so far in KiB, or 0 where it has ended."""
    try:
        with open('/proc/%d/status' % pid) as status:
            return max(int(line.split()[1]) for line in status if line.startswith('VmHWM'))
    except (OSError, ValueError):
        return 0


def measured(words, read=os.devnull, written=os.devnull):
    """The processor's seconds, the peak memory in KiB and the status of a run, which reads one file and writes another."""
    with open(read, 'rb') as script, open(written, 'wb') as replies:
        process = subprocess.Popen(words, stdin=script, stdout=replies)
        memory, ended = 0, 0
        while not ended:
            memory = max(memory, peak(process.pid))
            time.sleep(0.0005)
            ended, status, usage = os.wait4(process.pid, os.WNOHANG)
        process.returncode = os.waitstatus_to_exitcode(status)
        return usage.ru_utime + usage.ru_stime, memory, process.returncode


def timed(words):
    """The processor's seconds of a run that has to succeed. Nothing looks at it meanwhile, which would itself take time."""
    process = subprocess.Popen(words, stdin=subprocess.DEVNULL, stdout=subprocess.DEVNULL)
    _, status, usage = os.wait4(process.pid, 0)
    process.returncode = os.waitstatus_to_exitcode(status)
    if process.returncode:
        raise SystemExit('failed: %s' % ' '.join(words))
    return usage.ru_utime + usage.ru_stime
