"""Processor times of whole programs over a text, in turns."""
import os
import subprocess
import sys

TOP = os.path.dirname(os.path.dirname(os.path.dirname(os.path.abspath(__file__))))
RUNS, ENOUGH = 3, 0.2


def compiled(name):
    """One of the programs of bench/solve.d."""
    os.makedirs(os.path.join(TOP, 'build'), exist_ok=True)
    out = os.path.join(TOP, 'build', 'solve_' + name)
    try:
        subprocess.run(['rustc', '--edition', '2024', '-O', '-o', out, os.path.join(TOP, 'bench', 'solve.d', name + '.rs')], check=True)
    except (OSError, subprocess.CalledProcessError):
        sys.exit('%s: needs rustc with edition 2024 (1.85 or later)' % sys.argv[0])
    return out


def proved():
    """The program, built where it is missing. The launcher looks for what is new each time, so what it has built is timed."""
    subprocess.run([os.path.join(TOP, 'cs_main'), 'solve'], input=b'Minimize\nSubject To\nEnd\n', stdout=subprocess.DEVNULL, check=True)
    return os.path.join(TOP, 'crates', 'cs_main', 'out', 'cs_main')


def processor_time(words, text, times):
    """The processor time of so many processes, for one of them."""
    before = os.times()
    for _ in range(times):
        subprocess.run(words, input=text, stdout=subprocess.DEVNULL, stderr=subprocess.DEVNULL, check=True)
    after = os.times()
    return (after.children_user + after.children_system - before.children_user - before.children_system) / times


def least_times(runs):
    """The least time of each program over its text, which run in turns, each as many processes as take a while."""
    counts = [max(1, int(ENOUGH / max(processor_time(words, text, 1), 0.001))) for words, text in runs]
    rounds = [[processor_time(words, text, count) for (words, text), count in zip(runs, counts)] for _ in range(RUNS)]
    return [min(column) for column in zip(*rounds)]
