"""Git's own commands over a Mercurial repository that `hg serve` gives out, `hggit::http://..`."""
import contextlib
import os
import subprocess
import tempfile

from both import TOOLS, hg_names, run, said
from cloning import git, git_commit, hg_commit, make_hub

SERVE = ['serve', '--address', '127.0.0.1', '--port', '0', '--config', 'web.push_ssl=no']
ALLOWED = ['--config', 'web.allow-push=*']


def check(report):
    path = TOOLS + os.pathsep + os.environ['PATH']
    with tempfile.TemporaryDirectory() as folder:
        hub, bob = os.path.join(folder, 'the hub'), os.path.join(folder, 'bob')
        make_hub(hub)
        with served(hub, ALLOWED) as url:
            answer = run(['git', 'clone', '-q', f'hggit::{url}', 'bob'], folder, PATH=path)
            report.check('a clone of a URL', (answer.status, answer.errors), (0, ''))
            if answer.status:
                return
            report.check('its branch', git(bob, 'symbolic-ref', 'HEAD'), 'refs/heads/main')
            check_pushes(report, hub, bob, path)
            check_two(report, hub, bob, folder, path)
        with served(hub, []) as other:
            check_refused(report, hub, bob, other, path)
        answer = run(['git', 'fetch', '-q'], bob, PATH=path)
        report.check('a URL that gives no answer', (answer.status, 'git-remote-hggit: hg pull: ' in answer.errors), (128, True))
        report.check('hg verify', run(['hg', '-R', hub, 'verify', '-q']).status, 0)


@contextlib.contextmanager
def served(hub, words):
    """The URL at which a repository is given out."""
    with subprocess.Popen(['hg', '-R', hub, *SERVE, *words], stdout=subprocess.PIPE, stderr=subprocess.DEVNULL, text=True) as server:
        try:
            yield server.stdout.readline().split('listening at ')[1].split(' ')[0].strip()
        finally:
            server.terminate()


def check_pushes(report, hub, bob, path):
    git_commit(bob, 'b', 'of bob')
    answer = run(['git', 'push', '-q'], bob, PATH=path)
    report.check('git push to a URL', (answer.status, answer.errors), (0, ''))
    report.check('its changeset is there', said(['hg', '-R', hub, 'log', '-r', 'main', '-T', '{desc} {bookmarks}']), 'of bob main')
    git(bob, 'checkout', '-q', '-b', 'topic')
    git_commit(bob, 'c', 'a topic')
    answer = run(['git', 'push', '-q', 'origin', 'topic'], bob, PATH=path)
    report.check('a new branch is pushed', (answer.status, 'bookmark topic' in hg_names(hub)), (0, True))
    answer = run(['git', 'push', '-q', 'origin', ':topic'], bob, PATH=path)
    report.check('and taken away', (answer.status, 'bookmark topic' in hg_names(hub)), (0, False))
    git(bob, 'tag', 'v1')
    answer = run(['git', 'push', '-q', 'origin', 'v1'], bob, PATH=path)
    report.check('a tag is refused', (answer.status, 'hg sends no local tags' in answer.errors), (1, True))
    git(bob, 'tag', '-d', 'v1')
    git(bob, 'checkout', '-q', 'main')


def check_two(report, hub, bob, folder, path):
    alice = os.path.join(folder, 'alice')
    said(['hg', 'clone', '-q', hub, alice])
    said(['hg', 'update', '-q', 'main'], alice)
    hg_commit(alice, 'a', 'of alice')
    said(['hg', 'push', '-q', '-B', 'main'], alice)
    git_commit(bob, 'b', 'of bob again')
    answer = run(['git', 'push', '-q'], bob, PATH=path)
    report.check('a push that lacks what the URL has is rejected', (answer.status, 'rejected' in answer.errors), (1, True))
    git(bob, 'pull', '-q', '--no-rebase', '--no-edit', PATH=path)
    answer = run(['git', 'push', '-q'], bob, PATH=path)
    report.check('after git pull it is taken', (answer.status, answer.errors), (0, ''))
    said(['hg', 'pull', '-q', '-u'], alice)
    report.check('hg pull brings both', sorted(os.listdir(alice)), ['.hg', 'a', 'b'])


def check_refused(report, hub, bob, url, path):
    """A URL that takes no pushes: nothing of one stays in what is fetched later."""
    before = hg_names(hub)
    git(bob, 'remote', 'add', 'closed', f'hggit::{url}')
    git(bob, 'fetch', '-q', 'closed', PATH=path)
    git_commit(bob, 'b', 'refused')
    answer = run(['git', 'push', '-q', 'closed', 'main'], bob, PATH=path)
    report.check('a push that the URL refuses', (answer.status, 'hg push' in answer.errors), (1, True))
    report.check('changes nothing there', hg_names(hub), before)
    git(bob, 'fetch', '-q', 'closed', PATH=path)
    report.check('nor what is fetched from there', git(bob, 'rev-parse', 'closed/main'), git(bob, 'rev-parse', 'main~1'))
