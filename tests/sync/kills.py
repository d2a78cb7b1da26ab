"""Syncs that are killed at random moments: the next run ends with what an unkilled one gives.

SYNC_KILLS in the environment says how many, and SYNC_KILLS_FROM at which part of a run they begin: 0.67 kills in its last third, where refs are set.
"""
import os
import random
import shutil
import signal
import subprocess
import tempfile
import time

from both import disagreements, git_refs, hg_names, hg_nodes, hg_phases, pairs, run, said, sync, tool
from makers import GitMaker, HgMaker

KILLS = int(os.environ.get('SYNC_KILLS', '100'))
FROM = float(os.environ.get('SYNC_KILLS_FROM', '0'))
STEPS = 12
MASTER, RUN = 'master', 'run'  # each run is at one path, which the last sync knows


def check(report):
    with tempfile.TemporaryDirectory() as folder:
        for name, first in (('with nothing saved', False), ('over a saved state', True)):
            place = os.path.join(folder, name)
            make_both(place, first)
            check_kills(report, name, place)


def make_both(place, first):
    """Both repositories with changes on both sides; some of them synced before, where so asked."""
    run_place = os.path.join(place, RUN)
    os.makedirs(run_place)
    hg, git = os.path.join(run_place, 'hg'), os.path.join(run_place, 'git')
    said(['hg', 'init', hg])
    said(['git', 'init', '-q', '--bare', '-b', 'main', git])
    for seed in (5, 6) if first else (5,):
        makers = HgMaker(hg, seed), GitMaker(git, seed)
        for maker in makers:
            maker.count = 1000 * seed
            for _ in range(STEPS):
                maker.step()
        makers[0].close()
        if first and seed == 5:
            sync(hg, git)
    os.rename(run_place, os.path.join(place, MASTER))


def check_kills(report, name, place):
    copy = os.path.join(place, RUN)
    seconds = min(seconds_of(place) for _ in range(2))
    copy_master(place)
    wanted = said_of(copy)
    shutil.rmtree(copy)
    numbers = random.Random(name)
    wrong, lost, early = [], [], 0
    for number in range(KILLS // 2):
        moment = numbers.uniform(FROM * seconds, seconds)
        copy_master(place)
        early += kill_at(copy, moment)
        lost += [(moment, words) for words in damage(copy)] if number % 10 == 0 else []
        got = said_of(copy)
        if got != wanted:
            wrong.append((moment, {key: (got[key], wanted[key]) for key in got if got[key] != wanted[key]}))
        shutil.rmtree(copy)
    report.check(f'{KILLS // 2} syncs {name} are killed: the next one ends as an unkilled one', wrong, [])
    report.check('hg verify and git fsck find nothing wrong', lost, [])
    report.verdict('some were killed before their end', early > KILLS // 8, f'{early} were')


def seconds_of(place):
    """How long a sync takes."""
    copy = os.path.join(place, RUN)
    copy_master(place)
    start = time.monotonic()
    sync(os.path.join(copy, 'hg'), os.path.join(copy, 'git'))
    seconds = time.monotonic() - start
    shutil.rmtree(copy)
    return seconds


def copy_master(place):
    shutil.copytree(os.path.join(place, MASTER), os.path.join(place, RUN), symlinks=True)


def said_of(place):
    """What both sides and the state say behind a sync that isn't killed."""
    hg, git = os.path.join(place, 'hg'), os.path.join(place, 'git')
    answer = sync(hg, git)
    return {'status': (answer.status, answer.errors), 'refs': git_refs(git), 'names': hg_names(hg), 'nodes': hg_nodes(hg), 'phases': hg_phases(hg),
            'pairs': pairs(git), 'disagreements': disagreements(hg, git), 'left over': left_over(git)}


def left_over(git):
    return sorted(name for name in os.listdir(os.path.join(git, 'hggit')) if name not in ('hggit.state', 'lock', 'names', 'work'))


def kill_at(place, moment):
    """Kills a sync and all that it started; tells whether it was at work."""
    words = [*tool('hggit-sync'), '-q', os.path.join(place, 'hg'), os.path.join(place, 'git')]
    process = subprocess.Popen(words, stdin=subprocess.DEVNULL, stdout=subprocess.DEVNULL, stderr=subprocess.DEVNULL, start_new_session=True)
    time.sleep(moment)
    was_at_work = process.poll() is None
    if was_at_work:
        os.killpg(process.pid, signal.SIGKILL)
    process.wait()
    return was_at_work


def damage(place):
    """Behind the kill, before the next sync: what the tools find wrong. A journal of Mercurial is recovered first, as Mercurial asks for it."""
    hg, git = os.path.join(place, 'hg'), os.path.join(place, 'git')
    if os.path.exists(os.path.join(hg, '.hg', 'store', 'journal')):
        run(['hg', '-R', hg, 'recover', '-q'])
    answers = [run(['hg', '-R', hg, 'verify', '-q']), run(['git', '-C', git, 'fsck', '--strict', '--no-dangling'])]
    return [answer.errors + answer.output for answer in answers if answer.status]
