"""Git's own commands over a Mercurial repository, `hggit::PATH`; two people with clones on both sides."""
import os
import tempfile

from both import TOOLS, hg_names, run, said


def check(report):
    path = TOOLS + os.pathsep + os.environ['PATH']
    with tempfile.TemporaryDirectory() as folder:
        hub, bob, alice, carol = (os.path.join(folder, name) for name in ('the hub', 'bob', 'alice', 'carol'))
        make_hub(hub)
        answer = run(['git', 'clone', '-q', 'hggit::the hub', 'bob'], folder, PATH=path)
        report.check('git clone hggit::', (answer.status, answer.errors), (0, ''))
        if answer.status:
            return
        check_push(report, hub, bob, path)
        check_two_people(report, hub, bob, alice, path)
        check_refusals(report, hub, bob, path)
        said(['hg', '-R', hub, 'bookmark', '-i', '-r', 'main', 'main/below'])
        answer = run(['git', 'clone', '-q', f'hggit::{hub}', carol], folder, PATH=path)
        report.check('a bookmark below another is left out', (answer.status, 'refs/heads/main/below is left out' in answer.errors), (0, True))
        report.check('another clone has the same ids', git(carol, 'rev-parse', 'origin/main'), git(bob, 'rev-parse', 'origin/main'))
        report.check('hg verify', run(['hg', '-R', hub, 'verify', '-q']).status, 0)
        report.check('git fsck --strict', run(['git', '-C', bob, 'fsck', '--strict', '--no-dangling']).status, 0)


def git(folder, *words, **env):
    return said(['git', *words], folder, **env).strip()


def hg_commit(folder, name, text, *words):
    with open(os.path.join(folder, name), 'w') as file:
        file.write(text)
    said(['hg', 'commit', '--addremove', '-q', '-u', 'Ann <ann@x>', '-m', text, *words], folder)


def git_commit(folder, name, text):
    with open(os.path.join(folder, name), 'w') as file:
        file.write(text)
    git(folder, 'add', '-A')
    git(folder, 'commit', '-q', '-m', text)


def make_hub(hub):
    said(['hg', 'init', hub])
    hg_commit(hub, 'a', 'one')
    said(['hg', 'bookmark', 'main'], hub)
    hg_commit(hub, 'a', 'two')
    said(['hg', 'tag', '--local', '-r', '0', 'first'], hub)
    said(['hg', 'bookmark', '--inactive'], hub)
    said(['hg', 'update', '-q', 'null'], hub)


def check_push(report, hub, bob, path):
    report.check('the branch and the tag are there', (git(bob, 'symbolic-ref', 'HEAD'), git(bob, 'tag')), ('refs/heads/main', 'first'))
    git_commit(bob, 'b', 'of bob')
    answer = run(['git', 'push', '-q'], bob, PATH=path)
    report.check('git push', (answer.status, answer.errors), (0, ''))
    report.check('its changeset is in Mercurial', said(['hg', '-R', hub, 'log', '-r', 'main', '-T', '{desc} {bookmarks}']), 'of bob main')
    git(bob, 'checkout', '-q', '-b', 'topic/é')
    git_commit(bob, 'c', 'a topic')
    git(bob, 'tag', '-a', '-m', 'a tag', 'v1')
    answer = run(['git', 'push', '-q', 'origin', 'topic/é', 'v1'], bob, PATH=path)
    report.check('a new branch and an annotated tag are pushed', answer.status, 0)
    names = hg_names(hub)
    report.check('as a bookmark and a tag', names.get('bookmark topic/é', 'none'), names.get('tag v1'))
    answer = run(['git', 'push', '-q', 'origin', ':topic/é'], bob, PATH=path)
    report.check('a branch is taken away', (answer.status, 'bookmark topic/é' in hg_names(hub)), (0, False))
    git(bob, 'checkout', '-q', 'main')


def check_two_people(report, hub, bob, alice, path):
    said(['hg', 'clone', '-q', hub, alice])
    said(['hg', 'update', '-q', 'main'], alice)
    hg_commit(alice, 'a', 'of alice')
    said(['hg', 'push', '-q', '-B', 'main'], alice)
    git_commit(bob, 'b', 'of bob again')
    answer = run(['git', 'push', '-q'], bob, PATH=path)
    report.check('a push that lacks what Mercurial has is rejected', (answer.status, 'rejected' in answer.errors), (1, True))
    git(bob, 'pull', '-q', '--no-rebase', '--no-edit', PATH=path)
    answer = run(['git', 'push', '-q'], bob, PATH=path)
    report.check('after git pull it is taken', (answer.status, answer.errors), (0, ''))
    said(['hg', 'pull', '-q', '-u'], alice)
    report.check('hg pull brings both', sorted(os.listdir(alice)), ['.hg', 'a', 'b'])
    with open(os.path.join(alice, 'b')) as file:
        report.check('with the right content', file.read(), 'of bob again')


def check_refusals(report, hub, bob, path):
    before = hg_names(hub)
    git(bob, 'checkout', '-q', '-b', 'old', 'HEAD~2')
    git_commit(bob, 'd', 'aside')
    pushes = ['origin HEAD:main', '-f origin HEAD:main', 'origin HEAD:refs/notes/x', 'origin HEAD:refs/heads/12', 'origin HEAD:refs/heads/tip']
    for push in pushes:
        answer = run(['git', 'push', '-q', *push.split(' ')], bob, PATH=path)
        report.check(f'git push {push} is refused', (answer.status, 'rejected' in answer.errors), (1, True))
    report.check('and changes no name', hg_names(hub), before)
    answer = run(['git', 'clone', '-q', 'hggit::nowhere', 'x'], os.path.dirname(bob), PATH=path)
    report.check('a clone of nothing', (answer.status, 'nowhere is no Mercurial repository' in answer.errors), (128, True))
