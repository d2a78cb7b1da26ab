"""A Mercurial repository and a Git one, syncs of them, and what both say."""
import os
import subprocess
import sys
from typing import NamedTuple

TOP = os.path.dirname(os.path.dirname(os.path.dirname(os.path.abspath(__file__))))
TOOLS = os.path.join(TOP, 'tools')
SECONDS = 300


class Answer(NamedTuple):
    status: int
    output: str
    errors: str


def run(words, folder='.', data=None, **env):
    """The answer of a command."""
    done = subprocess.run(words, cwd=folder, input=data, stdin=None if data is not None else subprocess.DEVNULL, stdout=subprocess.PIPE,
                          stderr=subprocess.PIPE, env=dict(os.environ, **env), timeout=SECONDS)
    return Answer(done.returncode, done.stdout.decode(errors='surrogateescape'), done.stderr.decode(errors='surrogateescape'))


def said(words, folder='.', data=None, **env):
    """What a command prints; it must end with status 0."""
    answer = run(words, folder, data, **env)
    if answer.status:
        raise RuntimeError(f'{words} ended with {answer.status}: {answer.errors}')
    return answer.output


def tool(name):
    return [sys.executable, '-B', os.path.join(TOOLS, name)]


def sync(hg, git, *words):
    return run([*tool('hggit-sync'), *words, hg, git])


def git_folder(path):
    below = os.path.join(path, '.git')
    return below if os.path.exists(below) else path


# ---- what a side says

def git_refs(path):
    """The refs of Git and their ids."""
    lines = said(['git', '--git-dir', git_folder(path), 'for-each-ref', '--format', '%(refname) %(objectname)']).splitlines()
    return dict(line.split(' ') for line in lines)


def peeled_refs(path):
    """Branches and tags, and the commits to which they lead."""
    folder = git_folder(path)
    refs = [ref for ref in git_refs(path) if ref.startswith(('refs/heads/', 'refs/tags/'))]
    if not refs:
        return {}
    lines = said(['git', '--git-dir', folder, 'rev-parse', *[ref + '^{commit}' for ref in refs]]).split()
    return dict(zip(refs, lines))


def hg_names(path):
    """Bookmarks, tags and named branches of Mercurial, with their nodes."""
    names = {}
    for line in said(['hg', '-R', path, 'bookmarks', '-T', '{node} {bookmark}\n']).splitlines():
        names['bookmark ' + line[41:]] = line[:40]
    for line in said(['hg', '-R', path, 'tags', '-T', '{node} {tag}\n']).splitlines():
        names['tag ' + line[41:]] = line[:40]
    names.pop('tag tip', None)
    for line in said(['hg', '-R', path, 'branches', '-c', '-T', '{node} {branch}\n']).splitlines():
        names['branch ' + line[41:]] = line[:40]
    return names


def hg_nodes(path, revset='all()'):
    return set(said(['hg', '-R', path, 'log', '-r', revset, '-T', '{node}\n']).split())


def hg_phases(path):
    return dict(line.split(' ') for line in said(['hg', '-R', path, 'log', '-T', '{node} {phase}\n']).splitlines())


def git_commits(path):
    return set(said(['git', '--git-dir', git_folder(path), 'rev-list', '--all']).split())


def pairs(path):
    """The changeset of each commit, as the saved state has it."""
    lines = said([os.environ['HGGIT'], 'map'], os.path.join(git_folder(path), 'hggit')).splitlines()
    return dict(line.split(' ') for line in lines)


def disagreements(hg, git):
    """In words, where the two sides don't say the same."""
    changeset_of = pairs(git)
    found = []
    refs, names = peeled_refs(git), hg_names(hg)
    for ref, commit in refs.items():
        kind, name = ('bookmark', ref[11:]) if ref.startswith('refs/heads/') else ('tag', ref[10:])
        node = changeset_of.get(commit)
        if names.get(f'{kind} {name}') != node and not (kind == 'bookmark' and f'bookmark {name}' not in names and f'branch {name}' in names):
            found.append(f'{ref} is {node} in Git and {names.get(f"{kind} {name}")} in Mercurial')
    for name, node in names.items():
        kind, rest = name.split(' ', 1)
        if kind != 'branch' and {'bookmark': 'refs/heads/', 'tag': 'refs/tags/'}[kind] + rest not in refs:
            found.append(f'the {name} is not in Git')
    open_nodes = hg_nodes(hg, 'not secret()')
    commits = git_commits(git)
    found += [f'commit {commit} has no changeset' for commit in commits if changeset_of.get(commit) not in open_nodes]
    paired = {changeset_of[commit] for commit in commits if commit in changeset_of}
    links = hg_nodes(hg, 'extra("hg-git-link")')
    found += [f'changeset {node} has no commit' for node in open_nodes - paired - links]
    return found
