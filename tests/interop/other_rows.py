"""Repositories of the real Git whose trees have more than a changeset can have: submodules, files that their group may write, empty folders.

All are listed and checked, and carried: a commit that has such a row by itself has it in a mark, and a child that keeps it needs none.
"""
import collections
import os
import tempfile

from formats import git as streams
from program import done
from real_git import object_ids
from tools import git, write


def check(report, program):
    for make in (with_submodule, with_group_file, with_empty_subtree):
        with tempfile.TemporaryDirectory() as folder:
            repository = os.path.join(folder, 'main')
            os.mkdir(repository)
            git(repository, 'init', '-q', '-b', 'main', '.')
            name, entry, item = make(folder, repository)
            check_shape(report, repository, name, entry)
            check_objects(report, program, repository, name)
            check_carried(report, program, repository, name, item)


# ---- repositories of three commits, of which the second brings the row and the third keeps it

def with_submodule(folder, repository):
    library = os.path.join(folder, 'library')
    os.mkdir(library)
    git(library, 'init', '-q', '-b', 'main', '.')
    commit_file(library, 'code', b'one\n')
    commit_file(repository, 'a', b'one\n')
    git(repository, '-c', 'protocol.file.allow=always', 'submodule', '--quiet', 'add', library, 'lib')
    git(repository, 'commit', '-q', '-m', 'a submodule')
    commit_file(repository, 'a', b'two\n')
    return 'a submodule', b'160000 lib\0', b' hg-git-tree:link:'


def with_group_file(_, repository):
    commit_tree(repository, [(b'100644', b'blob', blob(repository, b'one\n'), b'a')], 'one')
    for body in (b'one\n', b'two\n'):
        commit_tree(repository, [(b'100664', b'blob', blob(repository, body), b'a')], 'a file of mode 100664')
    return 'a file of mode 100664', b'100664 a\0', b' hg-git-tree:group:a\n'


def with_empty_subtree(_, repository):
    empty = git(repository, 'mktree').strip()
    commit_tree(repository, [(b'100644', b'blob', blob(repository, b'one\n'), b'a')], 'one')
    for body in (b'one\n', b'two\n'):
        entries = [(b'100644', b'blob', blob(repository, body), b'a'), (b'040000', b'tree', empty, b'd')]
        commit_tree(repository, entries, 'an empty subtree')
    return 'an empty subtree', b'40000 d\0' + bytes.fromhex(empty.decode()), b' hg-git-tree:empty:d\n'


def commit_file(repository, name, body):
    write(repository, name, body)
    git(repository, 'add', name)
    git(repository, 'commit', '-q', '-m', 'a file')


def blob(repository, body):
    return git(repository, 'hash-object', '-w', '--stdin', data=body).strip()


def commit_tree(repository, entries, message):
    """A commit of these entries over the one of the branch, if there is one."""
    lines = b''.join(b'%s %s %s\t%s\n' % entry for entry in entries)
    tree = git(repository, 'mktree', data=lines).strip().decode()
    old = git(repository, 'for-each-ref', '--format=%(objectname)', 'refs/heads/main').strip().decode()
    parents = ['-p', old] if old else []
    made = git(repository, 'commit-tree', tree, *parents, '-m', message).strip().decode()
    git(repository, 'update-ref', 'refs/heads/main', made)


# ---- what the program says of them

def stream_of(repository, tip='--all'):
    """The stream of all objects that a commit leads to, as the documents tell users to make it."""
    ids = object_ids(repository, tip)
    return ids, git(repository, 'cat-file', '--batch', data=ids)


def check_shape(report, repository, name, entry):
    """The entry stands in the trees of the second and the third commit, and not of the first; `git ls-tree` prints 100664 as 100644."""
    trees = [git(repository, 'cat-file', 'tree', commit + '^{tree}') for commit in ('main~2', 'main~1', 'main')]
    report.check(f'{name}: the commits that have it', [entry in tree for tree in trees], [False, True, True])


def check_objects(report, program, repository, name):
    ids, data = stream_of(repository)
    report.check(f'{name}: list-git says what git says', program.run(['list-git'], data), done(git(repository, 'cat-file', '--batch-check', data=ids)))
    kinds = collections.Counter(git(repository, 'cat-file', '--batch-check=%(objecttype)', data=ids).split())
    counts = b''.join(b'%ss %d\n' % (kind, kinds[kind]) for kind in (b'commit', b'tree', b'blob', b'tag'))
    report.check(f'{name}: check-git counts the objects', program.run(['check-git'], data), done(counts))


def check_carried(report, program, repository, name, item):
    """The commit that brings the row has it in its changeset's extras, the one that keeps it doesn't, and all come back."""
    _, data = stream_of(repository)
    answer = program.run(['pull-git'], data)
    bundle = answer.output
    report.check(f'{name}: the history is carried', answer, done(bundle))
    report.check(f'{name}: one changeset has it in its extras', bundle.count(item), 1)
    back = program.run(['pull-hg'], bundle)
    ids = sorted(o.id for o in streams.objects_of(data))
    report.check(f'{name}: all ids come back', (back.status, sorted(o.id for o in streams.objects_of(back.output))), (0, ids))
