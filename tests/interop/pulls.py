"""Pulls of plain histories of the real Mercurial and Git: what comes over is taken by the other tool, says the same, and comes back."""
import os
import tempfile

import git_load
import real_git
from formats import git as streams
from formats import hg as bundles
from program import done
from tools import git, hg, read, write

CHANGESETS = 2000
COMMITS = 2000
SEPARATOR = b'\x1e'
FLAGS = {b'100644': b'-', b'100755': b'x', b'120000': b'l'}


def check(report, program):
    check_from_hg(report, program)
    check_from_git(report, program)


# ---- from the real hg, and back

def check_from_hg(report, program):
    with tempfile.TemporaryDirectory() as folder:
        hg(folder, 'init', '.')
        hg(folder, 'commit-plain-history', str(CHANGESETS), '11')
        hg(folder, 'bundle', '--all', '--type', 'none-v1', 'plain.hg')
        data = read(folder, 'plain.hg')
        check_shape(report, data)
        answer = program.run(['pull-hg'], data)
        stream = answer.output
        report.check(f'a plain history of {CHANGESETS} changesets of the real hg is pulled', answer, done(stream))
        pairs = pairs_of(data, stream)
        with tempfile.TemporaryDirectory() as other:
            repository = loaded(report, other, stream, pairs.values())
            check_commits(report, folder, repository, pairs)
            check_files(report, folder, repository, pairs)
        back = program.run(['pull-git'], stream)
        report.check('its stream is pulled', back, done(back.output))
        report.check('all nodes come back, with their parents', bundles.revisions_of(back.output), bundles.revisions_of(data))
        check_unbundled(report, folder, back.output)
        again = program.run(['pull-hg'], back.output)
        report.check('the bundle that came back gives the same stream', again, done(stream))


def check_shape(report, data):
    entries = bundles.entries_of(data)
    merges = sum(e.group == b'changeset' and e.q != bundles.NULL for e in entries)
    merged = sum(e.group.startswith(b'file ') and e.q != bundles.NULL for e in entries)
    report.verdict('the plain history has merges, and files with two parents', merges > 50 and merged > 5, f'{merges} {merged}')


def pairs_of(data, stream):
    """The commit of each changeset: both come in the same order."""
    nodes = [e.node.hex().encode() for e in bundles.entries_of(data) if e.group == b'changeset']
    commits = [o.id for o in streams.objects_of(stream) if o.kind == b'commit']
    return dict(zip(nodes, commits))


def loaded(report, folder, stream, commits):
    """A bare repository with the objects of a stream, and a ref for each commit."""
    refs = b''.join(b'%s refs/commits/%d\n' % (commit, n) for n, commit in enumerate(commits))
    report.check('git-load takes the stream', git_load.load(folder, stream, refs), 0)
    repository = os.path.join(folder, 'loaded.git')
    report.check('git fsck finds nothing in it', git(repository, 'fsck', '--strict', '--no-dangling'), b'')
    return repository


def check_commits(report, folder, repository, pairs):
    """Parents, users, dates and messages are those that hg says."""
    log = hg(folder, 'log', '-r', 'all()', '-T', '{node}\\0{p1.node} {p2.node}\\0{user}\\0{date|hgdate}\\0{desc}\\x1e').split(SEPARATOR)[:-1]
    wanted = {pairs[node]: wanted_commit(pairs, *rest) for node, *rest in (line.split(b'\0') for line in log)}
    format = '%H%x00%P%x00%an <%ae> %ad%x00%cn <%ce> %cd%x00%B%x1e'
    lines = git(repository, 'log', '--all', '--date=raw', f'--format={format}').split(SEPARATOR)[:-1]
    got = {}
    for line in lines:
        commit, *rest = line.lstrip(b'\n').split(b'\0')
        got[commit] = tuple(rest)
    report.check('its commits have the parents, users, dates and messages of the changesets', got, wanted)


def wanted_commit(pairs, parents, user, date, description):
    parents = b' '.join(pairs[p] for p in parents.split() if p.strip(b'0'))
    time, zone = date.split()
    line = b'%s %s %s' % (git_user(user), time, git_zone(int(zone)))
    return parents, line, line, description + b'\n'


def git_user(user):
    if b'<' in user:
        return user
    return user + b' <' + (user if b'@' in user else b'none@none') + b'>'


def git_zone(west):
    minutes = -west // 60
    return b'%s%02d%02d' % (b'-' if minutes < 0 else b'+', abs(minutes) // 60, abs(minutes) % 60)


def check_files(report, folder, repository, pairs):
    """The files, modes and contents of each commit are those of its changeset."""
    wanted = {}
    for line in hg(folder, 'list-files').splitlines():
        node, *row = line.split(b' ')
        wanted.setdefault(pairs[node], []).append(tuple(row))
    trees = {}
    got = {commit: rows for commit, rows in ((c, rows_of(repository, c, trees)) for c in pairs.values()) if rows}
    report.check('the trees and blobs of its commits are the files of the changesets', got, wanted)


def rows_of(repository, commit, trees):
    """The rows of a commit as `hg list-files` says them; each tree is listed once."""
    tree = git(repository, 'rev-parse', commit.decode() + '^{tree}')
    if tree not in trees:
        listed = git(repository, 'ls-tree', '-r', '-z', commit.decode()).split(b'\0')[:-1]
        rows = [(path.hex().encode(), FLAGS[mode], blob) for mode, _, blob, path in (l.replace(b'\t', b' ', 1).split(b' ', 3) for l in listed)]
        trees[tree] = sorted(rows, key=lambda row: bytes.fromhex(row[0].decode()))
    return trees[tree]


def check_unbundled(report, folder, data):
    with tempfile.TemporaryDirectory() as other:
        hg(other, 'init', '.')
        write(other, 'back.hg', data)
        hg(other, 'unbundle', 'back.hg')
        words = ['log', '-r', 'all()', '-T', '{node} {p1.node} {p2.node} {files}\\n']
        report.verdict('the real hg verifies what came back', b'checked ' in hg(other, 'verify'))
        report.check('hg log says the same of it', sorted(hg(other, *words).splitlines()), sorted(hg(folder, *words).splitlines()))


# ---- from the real git, and back

def check_from_git(report, program):
    with tempfile.TemporaryDirectory() as folder:
        git(folder, 'init', '-q', '-b', 'main', '.')
        git(folder, 'fast-import', '--quiet', data=b''.join(plain_history()))
        data = git(folder, 'cat-file', '--batch', data=real_git.object_ids(folder))
        answer = program.run(['pull-git'], data)
        bundle = answer.output
        report.check(f'a plain history of {COMMITS} commits of the real git is pulled', answer, done(bundle))
        back = program.run(['pull-hg'], bundle)
        report.check('its bundle is pulled', back, done(back.output))
        report.check('all objects come back', objects(back.output), objects(data))
        check_as_hg(report, folder, bundle, back.output)
        report.check('the stream that came back gives the same bundle', program.run(['pull-git'], back.output), done(bundle))


def objects(stream):
    return sorted((o.id, o.kind) for o in streams.objects_of(stream))


def check_as_hg(report, folder, bundle, stream):
    """The real hg takes the bundle, and says of its changesets what git says of the commits."""
    pairs = pairs_of(bundle, stream)
    with tempfile.TemporaryDirectory() as other:
        hg(other, 'init', '.')
        write(other, 'pulled.hg', bundle)
        hg(other, 'unbundle', 'pulled.hg')
        report.verdict('the real hg verifies the bundle', b'checked ' in hg(other, 'verify'))
        check_commits(report, other, folder, pairs)
        check_files(report, other, folder, pairs)


def plain_history():
    """A history for `git fast-import` of which Mercurial keeps all: one line for author and committer, at most two parents, no header."""
    numbers = real_git.random.Random(9)
    tips = []
    for number in range(1, COMMITS + 1):
        parents = [] if not tips else numbers.sample(tips, 2) if len(tips) > 1 and number % 7 == 0 else [numbers.choice(tips)]
        yield from plain_commit(number, parents, numbers)
        keeps = number % 13 == 0
        tips = ([t for t in tips if t not in parents or (keeps and t == parents[0])] + [number])[-8:]
        yield b'\n'
    for tip in tips[:-1]:
        yield b'reset refs/heads/tip%d\nfrom :%d\n\n' % (tip, tip)
    yield b'reset refs/heads/main\nfrom :%d\n\n' % COMMITS


def plain_commit(number, parents, numbers):
    message = numbers.choice([b'commit %d\n', b'%d\n\nwith a body\n', b'%d \xc3\xa9\n']) % number
    line = b'Ann <ann@x> %d %s' % (1000 * number, numbers.choice([b'+0000', b'-0730', b'+0530']))
    yield b'commit refs/heads/work\nmark :%d\nauthor %s\ncommitter %s\ndata %d\n%s\n' % (number, line, line, len(message), message)
    for word, parent in zip([b'from', b'merge'], parents):
        yield b'%s :%d\n' % (word, parent)
    for mode, path in [(b'100644', b'file%d' % (number % 30)), (b'100755', b'bin/run%d' % (number % 5)),
                       (b'120000', b'dir/sub/link%d' % (number % 3)), (b'100644', b'dir/sub.x'), (b'100644', b'name with blank')]:
        if numbers.randrange(3) == 0 or not parents:
            content = numbers.randbytes(numbers.randrange(1, 400)) if numbers.randrange(9) else b'\x01\nlike metadata\n'
            yield b'M %s inline %s\ndata %d\n%s\n' % (mode, path, len(content), content)
    if number % 11 == 0:
        yield b'D file%d\n' % ((number + 3) % 30)
