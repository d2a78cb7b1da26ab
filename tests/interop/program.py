"""Runs of the program, each in an empty folder of its own."""
import contextlib
import os
import subprocess
import tempfile
import threading
from typing import List, NamedTuple

SECONDS = 300
STATE = 'hggit.state'


class Answer(NamedTuple):
    """What a run answers, and the files that it left beside those that it must leave: a pull that is done saves the state."""
    status: int
    output: bytes
    errors: bytes
    left: List[str]


def done(output=b''):
    """The work was done."""
    return Answer(0, output, b'', [])


def refused(name, place, hex_id=b'0' * 40):
    return Answer(1, b'', b'refused %s %s %d\n' % (name.encode(), hex_id, place), [])


USAGE = Answer(2, b'', b'usage\n', [])
READ_FAULT = Answer(3, b'', b'read fault\n', [])
WRITE_FAULT = Answer(4, b'', b'write fault\n', [])


class Program:
    def __init__(self, path):
        self.path = os.path.abspath(path)

    def run(self, words, data=b''):
        """The answer to words and the bytes of an input."""
        with tempfile.TemporaryDirectory() as folder:
            run = subprocess.run([self.path, *words], input=data, capture_output=True, cwd=folder, timeout=SECONDS)
            return Answer(run.returncode, run.stdout, run.stderr, left_in(folder, words, run.returncode))

    def run_on(self, words, input=None, output=None, errors=None):
        """The same over open files; without one the input is empty, and output and errors are taken."""
        with tempfile.TemporaryDirectory() as folder:
            run = subprocess.run(
                [self.path, *words],
                stdin=subprocess.DEVNULL if input is None else input,
                stdout=subprocess.PIPE if output is None else output,
                stderr=subprocess.PIPE if errors is None else errors,
                cwd=folder, timeout=SECONDS)
            return Answer(run.returncode, run.stdout or b'', run.stderr or b'', left_in(folder, words, run.returncode))

    def run_without(self, words, closed, data):
        """The same where the shell has closed one of the three standard streams first, as `1>&-`."""
        with tempfile.TemporaryDirectory() as folder:
            run = subprocess.run(
                ['/bin/sh', '-c', f'exec "$0" "$@" {closed}', self.path, *words],
                input=data, capture_output=True, cwd=folder, timeout=SECONDS)
            return Answer(run.returncode, run.stdout, run.stderr, left_in(folder, words, run.returncode))

    def run_stream(self, words, blocks):
        """The same over blocks of bytes that come through a pipe and never stand in memory together."""
        pipes = dict(stdin=subprocess.PIPE, stdout=subprocess.PIPE, stderr=subprocess.PIPE)
        with tempfile.TemporaryDirectory() as folder:
            with subprocess.Popen([self.path, *words], cwd=folder, **pipes) as run:
                feeder = threading.Thread(target=_feed, args=(run.stdin, blocks))
                run.stdin = None
                feeder.start()
                try:
                    output, errors = run.communicate(timeout=SECONDS)
                finally:
                    run.kill()
                    feeder.join()
            return Answer(run.returncode, output, errors, left_in(folder, words, run.returncode))


def left_in(folder, words, status):
    """The files of the folder, without the state of a pull that is done; where that isn't there, `no` stands before its name."""
    left = os.listdir(folder)
    if status == 0 and words and words[0] in ('pull-hg', 'pull-git'):
        return [name for name in left if name != STATE] if STATE in left else [*left, f'no {STATE}']
    return left


def _feed(pipe, blocks):
    """Writes the blocks into the pipe and closes it, also where the program ends before it has read them."""
    with contextlib.suppress(BrokenPipeError), pipe:
        for block in blocks:
            pipe.write(block)
