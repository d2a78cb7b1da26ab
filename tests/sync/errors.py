"""What is refused, what is left, and what is said: nothing is overwritten or lost in any of it."""
import fcntl
import os
import tempfile
import threading

from both import disagreements, git_refs, hg_names, hg_nodes, peeled_refs, run, said, sync, tool
from cloning import git_commit, hg_commit


def check(report):
    with tempfile.TemporaryDirectory() as folder:
        for number, part in enumerate((tools_missing, wrong_places, partial, empty, conflict, unfit, secrets, checked_out, dry_and_locked, refused)):
            place = os.path.join(folder, f'{number} {part.__name__}')
            os.mkdir(place)
            part(report, place)


def pair(folder, text='one'):
    """A Mercurial repository with one change and a bookmark, and its mirror."""
    hg, git = os.path.join(folder, 'hg'), os.path.join(folder, 'git.git')
    said(['hg', 'init', 'hg'], folder)
    hg_commit(hg, 'a', text)
    said(['hg', 'bookmark', '-i', 'main'], hg)
    return hg, git


def ends(report, name, answer, status, words=''):
    report.verdict(name, answer.status == status and words in answer.errors + answer.output, repr(answer))


def tools_missing(report, folder):
    hg, git = pair(folder)
    programs = os.path.join(folder, 'programs')
    os.mkdir(programs)
    env = {'PATH': programs}
    ends(report, 'no hg', run([*tool('hggit-sync'), hg, git], **env), 1, 'hg is not in the path')
    for name, version in (('hg', 'Mercurial Distributed SCM (version 3.1)'), ('git', 'git version 1.8.3')):
        with open(os.path.join(programs, name), 'w') as file:
            file.write(f'#!/bin/sh\necho "{version}"\n')
        os.chmod(file.name, 0o755)
    ends(report, 'an old git', run([*tool('hggit-sync'), hg, git], **env), 1, 'git is Git 1.8; 2.28 or newer is needed')
    os.remove(os.path.join(programs, 'git'))
    env['PATH'] += os.pathsep + os.environ['PATH']
    ends(report, 'an old hg', run([*tool('hggit-sync'), hg, git], **env), 1, 'hg is Mercurial 3.1; 5.0 or newer is needed')
    ends(report, 'no program', run([*tool('hggit-sync'), hg, git], HGGIT=os.path.join(folder, 'nothing')), 1, 'nothing: No such file')
    ends(report, 'wrong words', run([*tool('hggit-sync'), hg]), 2, 'usage')


def wrong_places(report, folder):
    hg, git = os.path.join(folder, 'hg'), os.path.join(folder, 'git')
    ends(report, 'neither is there', sync(hg, git), 1, 'neither is')
    said(['hg', 'init', hg])
    os.mkdir(git)
    with open(os.path.join(git, 'file'), 'w'):
        pass
    ends(report, 'a folder that is no repository', sync(hg, git), 1, 'is there and is no Git repository')
    report.check('which is left as it is', os.listdir(git), ['file'])


def partial(report, folder):
    full, hg = os.path.join(folder, 'full'), os.path.join(folder, 'hg')
    said(['git', 'init', '-q', full])
    git_commit(full, 'a', 'one')
    git_commit(full, 'a', 'two')
    said(['git', 'clone', '-q', '--depth', '1', f'file://{full}', 'shallow'], folder)
    ends(report, 'a shallow repository', sync(hg, os.path.join(folder, 'shallow')), 1, 'is a shallow repository of Git')
    said(['git', 'clone', '-q', '--filter=blob:none', f'file://{full}', 'partial'], folder)
    ends(report, 'a partial clone', sync(hg, os.path.join(folder, 'partial')), 1, 'is a partial clone of Git')
    said(['git', 'init', '-q', '--object-format=sha256', 'sha256'], folder)
    ends(report, 'ids of sha256', sync(hg, os.path.join(folder, 'sha256')), 1, 'ids of sha256')
    report.check('nothing was made', os.path.exists(hg), False)


def empty(report, folder):
    hg, git = os.path.join(folder, 'hg'), os.path.join(folder, 'git')
    said(['hg', 'init', hg])
    ends(report, 'a Mercurial repository without a changeset', sync(hg, git), 0, 'nothing new')
    ends(report, 'and again', sync(hg, git), 0, 'nothing new')
    said(['git', 'init', '-q', '--bare', os.path.join(folder, 'git2')])
    ends(report, 'a Git repository without a commit', sync(os.path.join(folder, 'hg2'), os.path.join(folder, 'git2')), 0, 'nothing new')


def conflict(report, folder):
    hg, git = pair(folder)
    sync(hg, git)
    work = os.path.join(folder, 'work')
    said(['git', 'clone', '-q', git, work])
    git_commit(work, 'b', 'of git')
    said(['git', 'push', '-q'], work)
    said(['hg', 'update', '-q', 'main'], hg)
    hg_commit(hg, 'c', 'of hg')
    before = hg_names(hg)['bookmark main'], peeled_refs(git)['refs/heads/main']
    ends(report, 'both sides moved a name', sync(hg, git), 3, 'refs/heads/main was moved on both sides')
    report.check('neither is set', (hg_names(hg)['bookmark main'], peeled_refs(git)['refs/heads/main']), before)
    report.check('both sides have both changes', (len(hg_nodes(hg)), len(said(['git', '-C', git, 'rev-list', '--all']).split())), (3, 3))
    ends(report, 'and again', sync(hg, git), 3, 'refs/heads/main was moved on both sides')
    said(['git', 'fetch', '-q', 'origin', '+refs/hg/heads/*:refs/remotes/hg/*'], work)
    said(['git', 'merge', '-q', '-m', 'both', said(['git', 'for-each-ref', '--format', '%(refname)', 'refs/remotes/hg'], work).split()[0]], work)
    said(['git', 'push', '-q'], work)
    ends(report, 'a merge of both goes on', sync(hg, git), 0, 'names set: 1 in Mercurial')
    report.check('and both sides agree', disagreements(hg, git), [])
    git_commit(work, 'b', 'later')
    said(['git', 'push', '-q'], work)
    said(['hg', 'bookmark', '-d', 'main'], hg)
    ends(report, 'one side took away what the other moved', sync(hg, git), 3, 'refs/heads/main was moved on both sides')


def unfit(report, folder):
    hg, git = pair(folder)
    said(['hg', 'bookmark', '-i', 'my mark'], hg)
    said(['hg', 'bookmark', '-i', 'main/below'], hg)
    said(['hg', 'tag', '--local', 'a tag'], hg)
    answer = sync(hg, git)
    ends(report, 'a bookmark with a space', answer, 0, 'the bookmark my mark stays in Mercurial')
    ends(report, 'a bookmark below another', answer, 0, 'refs/heads/main/below stays in Mercurial')
    ends(report, 'a tag with a space', answer, 0, 'the tag a tag stays in Mercurial')
    for words in (['tag', 'tip'], ['tag', '12'], ['tag', 'tree', 'main^{tree}']):
        said(['git', '-C', git, *words, *(['main'] if len(words) == 2 else [])])
    answer = sync(hg, git)
    ends(report, 'a tag tip', answer, 0, 'refs/tags/tip stays in Git')
    ends(report, 'a tag of digits', answer, 0, 'refs/tags/12 stays in Git')
    ends(report, 'a tag of a tree', answer, 0, 'refs/tags/tree stays in Git: it names no commit')
    report.check('nothing is taken away in Git', len(git_refs(git)), 4)
    wanted = ['bookmark main', 'bookmark main/below', 'bookmark my mark', 'branch default', 'tag a tag']
    report.check('nor in Mercurial', sorted(hg_names(hg)), wanted)


def secrets(report, folder):
    hg, git = pair(folder)
    sync(hg, git)
    said(['hg', 'update', '-q', 'main'], hg)
    hg_commit(hg, 'b', 'hidden', '--secret')
    ends(report, 'a secret changeset and its bookmark stay', sync(hg, git), 0, 'nothing new')
    report.check('Git has nothing of it', len(said(['git', '-C', git, 'rev-list', '--all']).split()), 1)
    said(['hg', 'phase', '--draft', '-r', 'tip'], hg)
    ends(report, 'until it is no secret', sync(hg, git), 0, '1 changeset')
    report.check('and then both agree', disagreements(hg, git), [])


def checked_out(report, folder):
    hg, _ = pair(folder)
    work = os.path.join(folder, 'work')
    said(['git', 'init', '-q', '-b', 'main', work])
    ends(report, 'into a repository with a work tree', sync(hg, work), 0)
    report.check('its files are there', sorted(os.listdir(work)), ['.git', 'a'])
    said(['hg', 'update', '-q', 'main'], hg)
    hg_commit(hg, 'a', 'changed')
    ends(report, 'the branch that is checked out goes on', sync(hg, work), 0)
    report.check('with its files', (said(['git', 'status', '--porcelain'], work), said(['cat', 'a'], work)), ('', 'changed'))
    hg_commit(hg, 'a', 'again')
    with open(os.path.join(work, 'a'), 'w') as file:
        file.write('mine')
    ends(report, 'but not where files were changed', sync(hg, work), 3, 'where files were changed')
    report.check('which stay', said(['cat', 'a'], work), 'mine')
    said(['git', 'checkout', '-q', '--', 'a'], work)
    ends(report, 'until they aren\'t', sync(hg, work), 0)
    report.check('then both agree', (disagreements(hg, work), said(['cat', 'a'], work)), ([], 'again'))


def dry_and_locked(report, folder):
    hg, git = pair(folder)
    ends(report, '--dry-run of a move', run([*tool('hggit-sync'), '--dry-run', hg, git]), 0, 'would make the Git repository')
    report.check('makes nothing', sorted(os.listdir(folder)), ['hg'])
    answer = run([*tool('hggit-sync'), '-q', hg, git])
    report.check('-q says nothing', tuple(answer), (0, '', ''))
    said(['hg', 'bookmark', '-i', 'other'], hg)
    before = git_refs(git)
    ends(report, '--dry-run', run([*tool('hggit-sync'), '-n', hg, git]), 0, 'refs/heads/other would be set in Git')
    report.check('sets nothing', git_refs(git), before)
    ends(report, '--to-hg', run([*tool('hggit-sync'), '--to-hg', hg, git]), 0, 'nothing new')
    report.check('leaves Git', git_refs(git), before)
    with open(os.path.join(git, 'hggit', 'lock'), 'wb') as lock:
        fcntl.flock(lock, fcntl.LOCK_EX)
        ends(report, 'another run', sync(hg, git, '--wait', '0'), 4, 'another run holds')
        threading.Timer(1, lock.close).start()
        ends(report, 'a run that waits', sync(hg, git), 0, 'names set: 1 in Git')
        report.check('until the other one has ended', lock.closed, True)
    ends(report, 'after it', sync(hg, git, '--wait', '0'), 0, 'nothing new')


def refused(report, folder):
    hg, git = pair(folder)
    sync(hg, git)
    work = os.path.join(folder, 'work')
    said(['git', 'clone', '-q', git, work])
    os.mkdir(os.path.join(work, '.hg'))
    git_commit(work, '.hg/x', 'a path that Mercurial can\'t have')
    said(['git', 'push', '-q'], work)
    before = hg_names(hg), git_refs(git)
    ends(report, 'a path that Mercurial can\'t have', sync(hg, git), 1, 'hggit refused')
    report.check('no name is changed', (hg_names(hg), git_refs(git)), before)
    with open(os.path.join(git, 'hggit', 'hggit.state'), 'wb') as file:
        file.write(b'no state')
    ends(report, 'a file that is no state', sync(hg, git), 1, 'hggit')
