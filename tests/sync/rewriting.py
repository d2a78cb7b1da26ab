"""Histories that are rewritten or replaced on one side between syncs, and names that only just fit the other side."""
import os
import shutil
import tempfile

from both import disagreements, git_refs, hg_names, hg_nodes, peeled_refs, said, sync
from cloning import git_commit, hg_commit
from errors import ends, pair


def check(report):
    with tempfile.TemporaryDirectory() as folder:
        for number, part in enumerate((amended, stripped, amended_in_git, made_anew, odd_names, renamed_below, over_a_link, aside)):
            place = os.path.join(folder, f'{number} #{part.__name__} %41')
            os.mkdir(place)
            part(report, place)


def synced(folder):
    hg, git = pair(folder)
    said(['hg', 'update', '-q', 'main'], hg)
    hg_commit(hg, 'b', 'two')
    sync(hg, git)
    return hg, git


def amended(report, folder):
    hg, git = synced(folder)
    old, commit = hg_names(hg)['bookmark main'], peeled_refs(git)['refs/heads/main']
    said(['hg', 'commit', '--amend', '-q', '-m', 'another message'], hg)
    ends(report, 'a changeset is amended', sync(hg, git), 0, '1 changeset')
    report.check('the old one doesn\'t come back', (old in hg_nodes(hg), len(hg_nodes(hg))), (False, 2))
    refs = git_refs(git)
    report.check('its commit is kept in Git', refs.get(f'refs/hg/heads/{old}'), commit)
    report.check('and the branch went on', said(['git', '-C', git, 'log', '--format=%s', '-1', 'main']), 'another message\n')
    ends(report, 'there is nothing more to do', sync(hg, git), 0, 'nothing new')
    report.check('and nothing changed', git_refs(git), refs)


def stripped(report, folder):
    hg, git = synced(folder)
    said(['hg', 'bookmark', '-d', 'main'], hg)
    said(['hg', '--config', 'extensions.strip=', 'strip', '-q', '-r', 'tip'], hg)
    ends(report, 'a changeset is stripped', sync(hg, git), 0)
    report.check('and doesn\'t come back', len(hg_nodes(hg)), 1)
    report.check('both commits are kept in Git', len(said(['git', '-C', git, 'rev-list', '--all']).split()), 2)
    ends(report, 'then nothing is new', sync(hg, git), 0, 'nothing new')


def amended_in_git(report, folder):
    hg, git = synced(folder)
    work = os.path.join(folder, 'work')
    said(['git', 'clone', '-q', git, work])
    said(['git', 'commit', '-q', '--amend', '-m', 'of git'], work)
    said(['git', 'push', '-q', '-f'], work)
    ends(report, 'a commit is amended', sync(hg, git), 0, '1 commit')
    report.check('the bookmark goes with it', said(['hg', '-R', hg, 'log', '-r', 'main', '-T', '{desc}']), 'of git')
    report.check('Mercurial has both, and both sides agree', (len(hg_nodes(hg)), disagreements(hg, git)), (3, []))
    ends(report, 'then nothing is new', sync(hg, git), 0, 'nothing new')


def made_anew(report, folder):
    hg, git = synced(folder)
    names, refs = hg_names(hg), git_refs(git)
    shutil.rmtree(hg)
    ends(report, 'the Mercurial repository is gone', sync(hg, git), 0, 'made the Mercurial repository')
    report.check('every name is there again', (hg_names(hg), git_refs(git)), (names, refs))
    shutil.rmtree(hg)
    said(['hg', 'init', 'hg'], folder)
    ends(report, 'or empty', sync(hg, git), 0, 'from the saved state')
    report.check('and again every name', (hg_names(hg), git_refs(git)), (names, refs))


def odd_names(report, folder):
    hg, git = synced(folder)
    for words in (['branch', 'robot/@x/y', 'main'], ['tag', '2021_01_02', 'main'], ['tag', '+1', 'main']):
        said(['git', '-C', git, *words])
    answer = sync(hg, git)
    ends(report, 'a branch with @ and a tag like a date', answer, 0, 'refs/tags/+1 stays in Git')
    report.check('are carried', {'bookmark robot/@x/y', 'tag 2021_01_02'} - set(hg_names(hg)), set())
    said(['git', '-C', git, 'branch', '-f', 'robot/@x/y', 'main~1'])
    ends(report, 'the branch goes back', sync(hg, git), 0, 'names set: 1 in Mercurial')
    report.check('the bookmark too', disagreements(hg, git), ['refs/tags/+1 is ' + hg_names(hg)['bookmark main'] + ' in Git and None in Mercurial'])
    said(['git', '-C', git, 'branch', '-D', 'robot/@x/y'])
    ends(report, 'and is taken away', sync(hg, git), 0, 'names set: 1 in Mercurial')
    report.check('the bookmark with it', 'bookmark robot/@x/y' in hg_names(hg), False)


def renamed_below(report, folder):
    hg, git = synced(folder)
    for old, new in (('main', 'main/below'), ('main/below', 'main')):
        said(['hg', 'bookmark', '-m', old, new], hg)
        ends(report, f'a bookmark {old} is renamed to {new}', sync(hg, git), 0)
        report.check('and so is the branch', [ref for ref in git_refs(git) if ref.startswith('refs/heads/')], [f'refs/heads/{new}'])


def over_a_link(report, folder):
    git, hg = os.path.join(folder, 'git'), os.path.join(folder, 'hg')
    said(['git', 'init', '-q', '-b', 'main', git])
    git_commit(git, 'a', 'one')
    for name in ('b', 'c', 'd'):
        said(['git', 'checkout', '-q', '-b', name, 'main'], git)
        git_commit(git, name, name)
    said(['git', 'checkout', '-q', 'b'], git)
    said(['git', 'merge', '-q', '-m', 'octopus', 'c', 'd'], git)
    sync(hg, git)
    said(['hg', 'update', '-q', 'extra("hg-git-link")'], hg)
    hg_commit(hg, 'e', 'over a link')
    node = said(['hg', '-R', hg, 'log', '-r', 'tip', '-T', '{node}'])
    before = hg_names(hg), git_refs(git)
    answer = sync(hg, git)
    ends(report, 'a changeset over a link is refused', answer, 1, 'hggit refused ParentIsLink: a parent is a link of a merge of many parents')
    report.check('it is named, and no name is changed', (node in answer.errors, hg_names(hg), git_refs(git)), (True, *before))


def aside(report, folder):
    """A repository of Git whose folder lies elsewhere; a submodule's has a setting that says where its files are."""
    hg, git = synced(folder)
    work = os.path.join(folder, 'work')
    said(['git', 'clone', '-q', '--separate-git-dir', os.path.join(folder, 'elsewhere'), git, work])
    sync(os.path.join(folder, 'hg'), work)
    said(['hg', 'update', '-q', 'main'], hg)
    hg_commit(hg, 'b', 'three')
    ends(report, 'a work tree of which the folder of Git knows nothing is left', sync(hg, work), 3, 'checked out in a folder that Git does not name')
    said(['git', 'config', 'core.worktree', work], work)
    answer = sync(hg, work)
    with open(os.path.join(work, 'b')) as file:
        text = file.read()
    status = said(['git', 'status', '--porcelain'], work)
    report.check('one that it knows goes on with its branch', (answer.status, text, status), (0, 'three', ''))
