"""tools/git-load: what it loads is what the stream holds, and nothing is loaded where something is wrong."""
import os
import subprocess
import tempfile
from typing import NamedTuple

import real_git
from formats import git as streams
from tools import ENVIRONMENT, git

TOOL = os.path.join(os.path.dirname(os.path.dirname(os.path.dirname(os.path.abspath(__file__)))), 'tools', 'git-load')
NO_ID = b'12' * 20
DELTAS = 120


class Source(NamedTuple):
    """A repository, its objects as a stream, and its refs as a refs text."""
    folder: str
    data: bytes
    refs: bytes


def check(report):
    with tempfile.TemporaryDirectory() as folder:
        source = source_in(folder)
        check_whole(report, source)
        check_parts(report, source)
        check_many(report)
        check_deltas(report)
        check_other(report, source)
        check_places(report, source)
        check_faults_of_new(report, source)
        check_faults_of_old(report, source)


def source_in(folder):
    real_git.make_repository(folder)
    data = git(folder, 'cat-file', '--batch', data=real_git.object_ids(folder))
    return Source(folder, data, git(folder, 'for-each-ref', '--format=%(objectname) %(refname)'))


def load(folder, data, refs=None, name='loaded.git', **env):
    """The status of the tool, run in a folder, with more in its environment where it is given."""
    words = [TOOL, name]
    if refs is not None:
        with open(os.path.join(folder, 'refs'), 'wb') as file:
            file.write(refs)
        words += ['--refs', 'refs']
    run = subprocess.run(words, cwd=folder, env=dict(ENVIRONMENT, **env), input=data, capture_output=True)
    if folder_has(folder, 'refs'):
        os.remove(os.path.join(folder, 'refs'))
    return run.returncode


def folder_has(folder, name):
    return os.path.exists(os.path.join(folder, name))


def shown(repository):
    """What a repository holds: its refs, and all that they lead to."""
    return git(repository, 'for-each-ref'), sorted(real_git.object_ids(repository).split())


def files_of(folder):
    """Every file below a folder with its bytes."""
    found = {}
    for path, _, names in os.walk(folder):
        for name in names:
            with open(os.path.join(path, name), 'rb') as file:
                found[os.path.join(path, name)] = file.read()
    return found


def check_whole(report, source):
    with tempfile.TemporaryDirectory() as folder:
        status = load(folder, source.data, source.refs)
        made = os.path.join(folder, 'loaded.git')
        report.check('git-load: a whole repository is loaded with its refs', (status, shown(made)), (0, shown(source.folder)))
        report.check('git-load: git fsck finds nothing in it', git(made, 'fsck', '--strict', '--no-dangling'), b'')
        report.check('git-load: HEAD names a branch that is there', git(made, 'symbolic-ref', 'HEAD'), b'refs/heads/main\n')
        before = files_of(made)
        report.check('git-load: the same again changes nothing', (load(folder, source.data, source.refs), files_of(made)), (0, before))
        report.check('git-load: nothing else is left beside it', os.listdir(folder), ['loaded.git'])


def check_parts(report, source):
    """A commit with what it leads to, and then all that is left, in the opposite order."""
    early = git(source.folder, 'rev-list', '--objects', 'main~15').splitlines()
    first = {line.split(b' ')[0] for line in early}
    objects = [o for o in streams.objects_of(source.data)]
    texts = [b''.join(source.data[o.at:o.content_at + len(o.content) + 1] for o in objects if (o.id in first) == is_first) for is_first in (True, False)]
    with tempfile.TemporaryDirectory() as folder:
        answers = [load(folder, texts[0]), load(folder, texts[1], source.refs)]
        report.check('git-load: a repository is loaded in two parts', (answers, shown(os.path.join(folder, 'loaded.git'))), ([0, 0], shown(source.folder)))


def check_many(report):
    """Blobs of all sizes, so many that they are compressed in several pieces; some come twice."""
    blobs = [streams.stream_object(b'blob', b'%d' % number * (number % 40 * 10000)) for number in range(400)]
    with tempfile.TemporaryDirectory() as folder:
        status = load(folder, b''.join(blobs + blobs[::7]))
        made = os.path.join(folder, 'loaded.git')
        ids = b''.join(blob[:41].rstrip() + b'\n' for blob in dict.fromkeys(blobs))
        report.check('git-load: many objects are loaded', (status, git(made, 'cat-file', '--batch', data=ids)), (0, b''.join(dict.fromkeys(blobs))))


def check_deltas(report):
    """Texts and trees of which each changes a little of the one before, more of them than deltas may lie over each other."""
    lines = [b'%0*d\n' % (number % 300, number) for number in range(1000)]
    links = [link(number, number) for number in range(100)]
    objects = []
    for number in range(DELTAS):
        lines[number * 7:number * 7 + 1] = [b'%0200d\n' % number] * (number % 3)
        links[number % 100] = link(number % 100, 100 + number)
        objects += streams.stream_object(b'blob', b''.join(lines)), streams.stream_object(b'tree', b''.join(links))
    with tempfile.TemporaryDirectory() as folder:
        status = load(folder, b''.join(objects))
        made = os.path.join(folder, 'loaded.git')
        ids = b''.join(object[:40] + b'\n' for object in objects)
        report.check('git-load: objects that change a little are loaded', (status, git(made, 'cat-file', '--batch', data=ids)), (0, b''.join(objects)))
        packed = sum(len(content) for path, content in files_of(made).items() if path.endswith('.pack'))
        report.verdict('git-load: and take little room', packed * 20 < sum(map(len, objects)), f'{packed} bytes')


def link(place, number):
    """A line of a tree that needs no other object."""
    return streams.tree_entry(b'160000', b'link%03d' % place, b'%040d' % number)


def check_other(report, source):
    """Git sets GIT_DIR and its like for a hook, to the repository of which that is."""
    for name, first in (('a new repository', None), ('one that is there', b'')):
        with tempfile.TemporaryDirectory() as folder:
            made, other = (os.path.join(folder, place) for place in ('loaded.git', 'other.git'))
            git(folder, 'init', '--quiet', '--bare', other)
            before = files_of(other)
            if first is not None:
                load(folder, first)
            status = load(folder, source.data, source.refs, GIT_DIR=other, GIT_OBJECT_DIRECTORY=os.path.join(other, 'objects'))
            report.check(f'git-load: {name} is loaded where GIT_DIR names another', (status, status == 0 and shown(made)), (0, shown(source.folder)))
            report.check('git-load: the repository that GIT_DIR names is left alone', files_of(other) == before, True)


def check_places(report, source):
    """A work tree beside others has its objects in the first one's repository; a folder below a work tree is no repository."""
    with tempfile.TemporaryDirectory() as folder:
        load(folder, source.data, source.refs)
        made = os.path.join(folder, 'loaded.git')
        git(made, 'worktree', 'add', '--quiet', '--detach', os.path.join(folder, 'tree'), 'main')
        blobs = [streams.stream_object(b'blob', text) for text in (b'of a work tree\n', b'below it\n')]
        status = load(folder, blobs[0], name='tree')
        report.check('git-load: a linked work tree is loaded', (status, git(made, 'cat-file', '--batch', data=blobs[0][:40])), (0, blobs[0]))
        os.mkdir(os.path.join(folder, 'tree', 'below'))
        before = files_of(made)
        status = load(folder, blobs[1], name='tree/below')
        report.check('git-load: a folder below a work tree is not', (status, files_of(made) == before), (1, True))


def faults_of(source):
    """Streams and refs texts of which nothing may be loaded."""
    commit = next(o for o in streams.objects_of(source.data) if o.kind == b'commit')
    blob = next(o for o in streams.objects_of(source.data) if o.kind == b'blob' and o.content)
    flipped = source.data[:blob.content_at] + bytes([source.data[blob.content_at] ^ 1]) + source.data[blob.content_at + 1:]
    alone = source.data[commit.at:commit.content_at + len(commit.content) + 1]
    yield 'a cut stream', source.data[:-10], None
    yield 'a missing object', source.data + NO_ID + b' missing\n', None
    yield 'a flipped byte', flipped, None
    yield 'a line with another size', source.data.replace(b' blob %d\n' % len(blob.content), b' blob 0%d\n' % len(blob.content), 1), None
    yield 'a commit without its tree', alone, None
    yield 'a ref to no object', source.data, source.refs + NO_ID + b' refs/heads/none\n'
    yield 'a line of another form among the refs', source.data, source.refs + b'main\n'
    yield 'a ref that stands twice', source.data, source.refs + source.refs
    yield 'a branch of a tag', source.data, source.refs + git(source.folder, 'rev-parse', 'v1').strip() + b' refs/heads/of-a-tag\n'


def check_faults_of_new(report, source):
    for name, data, refs in faults_of(source):
        with tempfile.TemporaryDirectory() as folder:
            report.check(f'git-load: {name}: no repository is made', (load(folder, data, refs), os.listdir(folder)), (1, []))


def check_faults_of_old(report, source):
    with tempfile.TemporaryDirectory() as folder:
        load(folder, b'')
        before = files_of(folder)
        for name, data, refs in faults_of(source):
            report.check(f'git-load: {name}: the repository is as it was', (load(folder, data, refs), files_of(folder)), (1, before))
