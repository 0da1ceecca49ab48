"""For benches that hold a proved program against a plain one: how both are built, and what a run of one takes."""
import os
import subprocess
import sys
import time
from typing import NamedTuple

TOP = os.path.dirname(os.path.dirname(os.path.abspath(__file__)))
BUILD = os.path.join(TOP, 'build')


class Run(NamedTuple):
    """What a program printed, its seconds by the clock on the wall and by the processor, and its peak memory in bytes."""
    text: bytes
    wall: float
    processor: float
    peak: int


def plain_program(bench):
    """The plain program of a bench, bench/BENCH.d/plain.rs, built in build/."""
    os.makedirs(BUILD, exist_ok=True)
    program = os.path.join(BUILD, bench + '_plain')
    try:
        subprocess.run(['rustc', '--edition', '2024', '-O', '-o', program, os.path.join(TOP, 'bench', bench + '.d', 'plain.rs')], check=True)
    except (OSError, subprocess.CalledProcessError):
        sys.exit('bench/%s: needs rustc with edition 2024 (1.85 or later)' % bench)
    return program


def proved_program(bench, crate):
    """The program of a crate, which is proved and built first."""
    folder = os.path.join(TOP, 'crates', crate)
    try:
        subprocess.run(['rt', 'run'], cwd=folder, stdout=subprocess.DEVNULL, check=True)
    except OSError:
        sys.exit('bench/%s: needs the Rattle kit; there is no rt' % bench)
    except subprocess.CalledProcessError:
        sys.exit('bench/%s: %s was not built' % (bench, crate))
    return os.path.join(folder, 'out', crate)


def fresh(name):
    """A path in build/ where nothing is."""
    path = os.path.join(BUILD, name)
    if os.path.exists(path):
        os.remove(path)
    return path


def ran(words, source=subprocess.DEVNULL):
    """One run of a program."""
    begun = time.monotonic()
    process = subprocess.Popen(words, stdin=source, stdout=subprocess.PIPE)
    text = process.stdout.read()
    _, status, usage = os.wait4(process.pid, 0)
    wall = time.monotonic() - begun
    process.returncode = os.waitstatus_to_exitcode(status)
    if process.returncode:
        sys.exit('%s: %s ended with %d' % (sys.argv[0], ' '.join(words), process.returncode))
    return Run(text, wall, usage.ru_utime + usage.ru_stime, usage.ru_maxrss * 1024)


def in_turns(rounds, ours, theirs):
    """Runs of both, one after the other: ours and theirs. It ends where they differ in what they print."""
    pairs = [(ours(), theirs()) for _ in range(rounds)]
    if any(our.text != their.text for our, their in pairs):
        sys.exit('%s: the results differ' % sys.argv[0])
    return [our for our, _ in pairs], [their for _, their in pairs]
