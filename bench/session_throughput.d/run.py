"""Runs a session on long inputs.

    run.py time PROGRAM       prints a line for each input, as bench/turns.sh reads them: its name in two words, the processor time
                              of a command in nanoseconds, and a checksum of the answers
    run.py memory PROGRAM..   prints the greatest resident set in MiB (VmHWM) of each program on each input
"""
import hashlib
import os
import subprocess
import sys
import tempfile
import time

MODEL = b'Minimize\n x\nSubject To\n c: x >= 1\nEnd\n'
TIMED = (1, 16)
WATCHED = (1, 16, 64)


def commands(mebibytes):
    """Short commands, every answer among them, and how many they are; batches are few, since each is kept."""
    opening = b'READ %d\n%sSETVTAG x x\nBATCH\n' % (len(MODEL), MODEL)
    turn = [b'BSTATUS ada.1\n'] * 5 + [b'BSTATUS bob.1\n', b'FOO\n', b'SETVTAG x t\n', b'BSTATUS ada.7\n', b'\n']
    turn.append(b'READ %d\n%s' % (len(MODEL), MODEL))
    turn = b''.join(turn)
    times = ((mebibytes << 20) - len(opening)) // len(turn)
    return opening + turn * times + b'BYE\n', 4 + 11 * times


def started(program, source, sink, folder):
    """In a folder of its own, where a session's journal stands."""
    return subprocess.Popen([os.path.abspath(program), 'session', 'ada'], stdin=source, stdout=sink, cwd=folder)


def timed(program, mebibytes):
    text, count = commands(mebibytes)
    with tempfile.TemporaryFile() as source, tempfile.TemporaryFile() as sink, tempfile.TemporaryDirectory() as folder:
        source.write(text)
        source.seek(0)
        child = started(program, source, sink, folder)
        _, status, usage = os.wait4(child.pid, 0)
        child.returncode = os.waitstatus_to_exitcode(status)
        if child.returncode != 0:
            sys.exit('%s ended with status %d' % (program, child.returncode))
        sink.seek(0)
        answers = hashlib.sha256(sink.read()).hexdigest()[:16]
        print('commands %dMiB %.3f %s' % (mebibytes, (usage.ru_utime + usage.ru_stime) * 1e9 / count, answers))


def greatest_set(program, mebibytes):
    with tempfile.TemporaryFile() as source, tempfile.TemporaryDirectory() as folder:
        source.write(commands(mebibytes)[0])
        source.seek(0)
        child, greatest = started(program, source, subprocess.DEVNULL, folder), 0
        while child.poll() is None:
            try:
                with open('/proc/%d/status' % child.pid) as file:
                    greatest = max([greatest] + [int(line.split()[1]) for line in file if line.startswith('VmHWM')])
            except OSError:
                pass
            time.sleep(0.002)
        return greatest / 1024


def main():
    if sys.argv[1] == 'time':
        for mebibytes in TIMED:
            timed(sys.argv[2], mebibytes)
    else:
        for mebibytes in WATCHED:
            sets = ('%s %.1f MiB' % (os.path.basename(program), greatest_set(program, mebibytes)) for program in sys.argv[2:])
            print('memory on %d MiB: %s' % (mebibytes, ', '.join(sets)), flush=True)


main()
