"""Measures commands beside each other: elapsed time, processor time and peak memory."""
import multiprocessing
import os
import shutil
import statistics
import subprocess
import tempfile
import time
from typing import Dict, List, NamedTuple

from slot import STATE

ROUNDS = 7
MB = 1 << 20


class Run(NamedTuple):
    """Seconds, seconds of the processor, and bytes."""
    elapsed: float
    processor: float
    peak: int


def apart(work, *args):
    """Does work in a process of its own, since a measured child starts with the peak memory of its parent."""
    process = multiprocessing.get_context('fork').Process(target=work, args=args)
    process.start()
    process.join()
    if process.exitcode:
        raise RuntimeError(f'{work.__name__} failed')


def run_once(words, path, output=os.devnull, state=None, environment=None):
    """Runs a command over a file as its input, in a folder of its own with a copy of a saved state, where one is given; it must end with status 0."""
    with tempfile.TemporaryDirectory() as folder, open(path, 'rb') as source, open(output, 'wb') as sink:
        if state:
            shutil.copy(state, os.path.join(folder, STATE))
        start = time.perf_counter()
        child = subprocess.Popen(words, stdin=source, stdout=sink, cwd=folder, env=environment)
        _, status, usage = os.wait4(child.pid, 0)
        elapsed = time.perf_counter() - start
    child.returncode = os.waitstatus_to_exitcode(status)
    if child.returncode:
        raise RuntimeError(f'{words} ended with {child.returncode}')
    return Run(elapsed, usage.ru_utime + usage.ru_stime, usage.ru_maxrss * 1024)


def saved_dumps(program, folder, bundle):
    """Pulls a bundle in a folder; gives the paths of the saved state there, and of a file with both of its dumps."""
    dumps = os.path.join(folder, 'dumps')
    with open(bundle, 'rb') as source:
        subprocess.run([program, 'pull-hg'], stdin=source, stdout=subprocess.DEVNULL, cwd=folder, check=True)
    with open(dumps, 'wb') as sink:
        for word in ('dump-hg', 'dump-git'):
            subprocess.run([program, word], stdin=subprocess.DEVNULL, stdout=sink, cwd=folder, check=True)
    return os.path.join(folder, STATE), dumps


def middle_runs(commands: Dict[str, List], rounds=ROUNDS, state=None, environment=None) -> Dict[str, Run]:
    """For each named pair of words and input file the middle times of some runs, over a saved state where one is given. The commands take turns, since
    the speed of a machine that others use too changes from one moment to the next, and the best of few runs is then a matter of luck."""
    runs = {name: [] for name in commands}
    for _ in range(rounds):
        for name, (words, path) in commands.items():
            runs[name].append(run_once(words, path, state=state, environment=environment))
    return {name: middle_of(some) for name, some in runs.items()}


def middle_of(runs):
    return Run(statistics.median(r.elapsed for r in runs), statistics.median(r.processor for r in runs), max(r.peak for r in runs))


def print_table(title, size, runs):
    """The runs over inputs of this many bytes; speed is by processor time, as the machine may be busy."""
    print(title)
    print(f'  {"":24}{"elapsed":>10}{"processor":>12}{"speed":>12}{"peak":>10}')
    for name, run in runs.items():
        speed = size / MB / max(run.processor, 0.001)
        print(f'  {name:24}{run.elapsed:8.2f} s{run.processor:10.2f} s{speed:7.0f} MB/s{run.peak / MB:7.0f} MB')


class Verdicts:
    def __init__(self):
        self.status = 0

    def check(self, text, holds):
        print(('ok       ' if holds else 'FAILED   ') + text, flush=True)
        if not holds:
            self.status = 1

    def check_growth(self, what, where, small, large, most):
        """Of the times that something takes in one history and in another."""
        self.check(f'{what} takes {large / small:.2f} times as long {where}; at most {most}', large <= most * small)
