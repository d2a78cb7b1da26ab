"""Rounds of random changes on both sides with a sync after each: both sides agree, and no id of old history changes."""
import os
import tempfile

from both import disagreements, pairs, run, said, sync
from makers import GitMaker, HgMaker

ROUNDS = int(os.environ.get('SYNC_ROUNDS', '50'))
SEED = int(os.environ.get('SYNC_SEED', '1'))


def check(report):
    with tempfile.TemporaryDirectory() as folder:
        hg, git = os.path.join(folder, 'a repository é'), os.path.join(folder, 'git é.git')
        said(['hg', 'init', hg])
        said(['git', 'init', '-q', '--bare', '-b', 'main', git])
        makers = HgMaker(hg, SEED), GitMaker(git, SEED + 1)
        statuses, differences, changed, again = play(makers, hg, git)
        report.check(f'{ROUNDS} rounds of changes on both sides, each with a sync', statuses, [])
        report.check('both sides say the same after each', differences, [])
        report.check('no pair of old history changes', changed, [])
        report.check('a sync behind a sync does nothing', again, [])
        report.check('hg verify', run(['hg', '-R', hg, 'verify', '-q']).status, 0)
        report.check('git fsck --strict', run(['git', '-C', git, 'fsck', '--strict', '--no-dangling']).status, 0)
        makers[0].close()


def play(makers, hg, git):
    """The rounds that ended otherwise than they should, of each kind."""
    statuses, differences, changed, again, before = [], [], [], [], {}
    for number in range(ROUNDS):
        for maker in makers:
            for _ in range(maker.numbers.randrange(1, 4)):
                maker.step()
        answer = sync(hg, git)
        if answer.status or not allowed(answer.errors):
            statuses.append((number, answer))
        differences += [(number, words) for words in disagreements(hg, git)]
        now = pairs(git)
        if not before.items() <= now.items():
            changed.append(number)
        before = now
        if number % 10 == 9:
            answer = sync(hg, git)
            if answer.output != 'nothing new\n':
                again.append((number, answer))
    return statuses, differences, changed, again


def allowed(errors):
    """The named branches with a space stay in Mercurial."""
    return all('stays in Mercurial: Git has no such names' in line for line in errors.splitlines())
