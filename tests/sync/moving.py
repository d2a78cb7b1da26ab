"""Whole repositories moved to the other side, cloned there, and moved back: every id and every name is the same."""
import os
import shutil
import tempfile

from both import disagreements, git_commits, git_refs, hg_names, hg_nodes, hg_phases, peeled_refs, run, said, sync
from makers import GitMaker, HgMaker

STEPS = 40


def check(report):
    with tempfile.TemporaryDirectory() as folder:
        from_mercurial(report, os.path.join(folder, 'from hg'))
        from_git(report, os.path.join(folder, 'from git'))


def from_mercurial(report, folder):
    os.mkdir(folder)
    hg, git, clone, back = (os.path.join(folder, name) for name in ('hg é', 'git é', 'clone.git', 'back'))
    make_hg(hg)
    answer = sync(hg, git)
    report.check('a Mercurial repository is moved to Git', (answer.status, disagreements(hg, git)), (0, []))
    said(['git', 'clone', '-q', '--mirror', git, clone])
    answer = sync(back, clone)
    report.check('and its mirror moved back', (answer.status, answer.errors), (0, ''))
    secret = hg_nodes(hg, 'secret()')
    report.check('every changeset is there but those that are secret', (hg_nodes(back), len(secret)), (hg_nodes(hg) - secret, 1))
    names, moved = hg_names(hg), hg_names(back)
    hidden = [name for name, node in names.items() if node in secret]
    report.check('every bookmark, tag and named branch', moved, {name: moved.get(name) if name in hidden else node for name, node in names.items()})
    report.check('every phase', hg_phases(back), {node: phase for node, phase in hg_phases(hg).items() if node not in secret})
    report.check('hg verify and git fsck', [run(['hg', '-R', back, 'verify', '-q']).status, run(['git', '-C', git, 'fsck', '--strict']).status], [0, 0])
    report.check('the mirror has the same refs', git_refs(clone), git_refs(git))


def make_hg(path):
    said(['hg', 'init', path])
    maker = HgMaker(path, 3)
    for _ in range(STEPS):
        maker.step()
    maker.go_to(maker.heads()[0])
    maker.ask('branch', '-q', 'to-be-closed')
    maker.write()
    maker.record('a branch')
    maker.ask('commit', '-q', '--close-branch', '-u', 'Ann', '-m', 'closed')
    maker.go_to(maker.heads()[0])
    maker.write()
    maker.ask('commit', '--addremove', '--secret', '-q', '-u', 'Ann', '-m', 'a secret')
    maker.go_to(maker.heads()[-1])
    maker.close()


def from_git(report, folder):
    os.mkdir(folder)
    git, hg, clone, back, plain = (os.path.join(folder, name) for name in ('git', 'hg', 'clone', 'back.git', 'plain.git'))
    make_git(git)
    answer = sync(hg, git)
    report.check('a Git repository is moved to Mercurial', (answer.status, disagreements(hg, git)), (0, []))
    said(['hg', 'clone', '-q', '-U', hg, clone])
    shutil.copy(os.path.join(hg, '.hg', 'localtags'), os.path.join(clone, '.hg'))
    report.check('Mercurial\'s clone has the bookmarks', hg_names(clone), hg_names(hg))
    said(['git', 'init', '-q', '--bare', back])
    shutil.copytree(os.path.join(git, 'hggit'), os.path.join(back, 'hggit'))
    answer = sync(clone, back)
    report.check('and is moved back with the saved state', (answer.status, answer.errors), (0, ''))
    report.check('every branch and tag, annotated ones too', names_alone(git_refs(back)), names_alone(git_refs(git)))
    report.check('and every commit', git_commits(back), git_commits(git))
    answer = sync(clone, plain)
    report.check('without the saved state every commit', (answer.status, git_commits(plain)), (0, git_commits(git)))
    report.check('and each branch and tag names the same commit', peeled_refs(plain), peeled_refs(git))
    report.check('hg verify and git fsck', [run(['hg', '-R', hg, 'verify', '-q']).status, run(['git', '-C', back, 'fsck', '--strict']).status], [0, 0])


def names_alone(refs):
    return {ref: id for ref, id in refs.items() if ref.startswith(('refs/heads/', 'refs/tags/'))}


def make_git(path):
    said(['git', 'init', '-q', '--bare', '-b', 'main', path])
    maker = GitMaker(path, 4)
    maker.commit()
    while maker.count < STEPS or not maker.git('rev-list', '--all', '--min-parents=3'):
        maker.step()
    submodule = maker.git('rev-parse', 'refs/heads/main')
    tree = maker.git('mktree', '--missing', data=f'160000 commit {submodule}\tsub\n'.encode())
    maker.set('main', maker.git('commit-tree', tree, '-p', submodule, '-m', 'a submodule'))
    maker.git('tag', '-a', '-m', 'a tag', 'v1', 'refs/heads/main')
    maker.git('tag', '-a', '-m', 'a tag of a tag', 'v1-again', 'v1')
    maker.git('tag', 'light', 'refs/heads/main~1')
