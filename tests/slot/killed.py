"""Runs that are killed: the slot holds the old state or the new one, and the same pull again ends as it should."""
import contextlib
import os
import random
import statistics
import tempfile
import time

import made_bundle
from saved import NEW_STATE, Saved

CHANGESETS = 2000
KILLS = 200
TIMED = 3
PAUSE = 0.001


def check(report, program):
    with tempfile.TemporaryDirectory() as folder:
        paths = [os.path.join(folder, name) for name in ('first.hg', 'more.hg')]
        made_bundle.write_parts([CHANGESETS, 1], paths, os.path.join(folder, 'texts'))
        saved = Saved(program, os.path.join(folder, 'place'))
        os.mkdir(saved.folder)
        saved.output_of('pull-hg', read(paths[0]))
        old = saved.text
        seconds = statistics.median(seconds_of(saved, old, paths[1]) for _ in range(TIMED))
        check_kills(report, saved, paths[1], old, saved.text, seconds)


def seconds_of(saved, old, more):
    """How long the second pull takes, which must be done."""
    saved.text = old
    data = read(more)
    start = time.monotonic()
    saved.output_of('pull-hg', data)
    return time.monotonic() - start


def check_kills(report, saved, more, old, new, seconds):
    """The slot behind kills, and behind some of them the same pull again."""
    numbers = random.Random(1)
    torn, replaced, left, wrong = [], 0, 0, []
    for number in range(KILLS):
        saved.text = old
        before = time_of_new(saved)
        moment = kill_one(saved, more, number, numbers, seconds)
        text = saved.text
        replaced += text == new
        left += time_of_new(saved) not in (None, before)
        if text not in (old, new):
            torn.append(moment)
        if number % 20 == 0 and (saved.run('pull-hg', read(more)).status, saved.text) != (0, new):
            wrong.append(moment)
    report.check(f'{KILLS} pulls are killed: the slot holds the old state or the new one', torn, [])
    report.verdict('some were killed before the new state was there, and some behind it', 0 < replaced < KILLS,
                   f'{replaced} of {KILLS} were too late')
    report.verdict('some were killed while it was written beside the old one', left > 0, 'none left its file behind')
    report.check('the same pull behind it ends with the new state', wrong, [])


def kill_one(saved, more, number, numbers, seconds):
    """The moment of a kill: they are spread over the run and a little beyond, more of them over its end, where the file is replaced. Each
    fourth is counted from when the new file is there."""
    at_file = number % 4 == 0
    least, most = (0, 0.1) if at_file else (0.8, 1.1) if number % 2 == 0 else (0, 1.1)
    moment = numbers.uniform(least * seconds, most * seconds)
    before = time_of_new(saved)
    run = saved.start('pull-hg', more)
    while at_file and time_of_new(saved) in (None, before) and run.poll() is None:
        time.sleep(PAUSE)
    time.sleep(moment)
    run.kill()
    run.wait()
    return moment


def time_of_new(saved):
    """When the file beside the state was written last; none where there is no such file."""
    with contextlib.suppress(FileNotFoundError):
        return os.stat(os.path.join(saved.folder, NEW_STATE)).st_mtime_ns
    return None


def read(path):
    with open(path, 'rb') as file:
        return file.read()
