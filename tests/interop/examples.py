"""The inputs of examples/: they are what the formats say, and the real tools write and take them."""
import os
import tempfile

from formats import git as streams
from formats import hg as bundles
from program import done, refused
from tools import git, hg, read, write

EXAMPLES = os.path.join(os.path.dirname(os.path.abspath(__file__)), '..', '..', 'examples')
BODY = b'hello\n'


def example(name):
    return read(EXAMPLES, name)


def check(report, program):
    bundle, listing = example('one-changeset.hg'), example('one-changeset.hg.list')
    report.check('examples: the bundle is that of the formats', bundle, example_bundle())
    report.check('examples: the stream is that of the formats', example('one-changeset.git'), example_stream())
    report.check('examples: the bundle is listed', program.run(['list-hg'], bundle), done(listing))
    report.check('examples: the bundle is checked', program.run(['check-hg'], bundle), done(b'changesets 1\nmanifests 1\nfiles 1\n'))
    report.check('examples: the stream is checked', program.run(['check-git'], example_stream()),
                 done(b'commits 1\ntrees 1\nblobs 1\ntags 0\n'))
    report.check('examples: the bundle is pulled as the stream', program.run(['pull-hg'], bundle), done(example_stream()))
    report.check('examples: the stream is pulled as the bundle', program.run(['pull-git'], example_stream()), done(bundle))
    node = bundles.node_id(bundles.NULL, bundles.NULL, BODY).hex().encode()
    report.check('examples: a changed body is another node', program.run(['check-hg'], bundle.replace(b'hello', b'hallo')),
                 refused('NodeWrong', 317, node))


def check_hg(report):
    with tempfile.TemporaryDirectory() as folder:
        hg(folder, 'init', 'made')
        write(folder, 'made/a', BODY)
        hg(folder, '-R', 'made', 'commit', '--addremove', '-u', 'Ann <ann@x>', '-d', '0 0', '-m', 'one')
        hg(folder, '-R', 'made', 'bundle', '--all', '--type', 'none-v1', 'one.hg')
        report.check('examples: the real hg writes the bundle', read(folder, 'one.hg'), example_bundle())
        hg(folder, 'init', 'taken')
        hg(folder, '-R', 'taken', 'unbundle', os.path.join(EXAMPLES, 'one-changeset.hg'))
        hg(folder, '-R', 'taken', 'verify')
        report.check('examples: the real hg takes the bundle', hg(folder, '-R', 'taken', 'cat', '-r', 'tip', 'taken/a'), BODY)


def check_git(report):
    with tempfile.TemporaryDirectory() as folder:
        git(folder, 'init', '-q', '.')
        write(folder, 'a', BODY)
        git(folder, 'add', 'a')
        git(folder, 'commit', '-q', '-m', 'one')
        ids = git(folder, 'rev-parse', 'HEAD:a', 'HEAD^{tree}', 'HEAD')
        report.check('examples: the real git writes the stream', git(folder, 'cat-file', '--batch', data=ids), example_stream())
        for o in streams.objects_of(example_stream()):
            made = git(folder, 'hash-object', '-t', o.kind.decode(), '--stdin', data=o.content).strip()
            report.check(f'examples: the id of the {o.kind.decode()} is git\'s', made, o.id)


def example_bundle():
    """One changeset with a file `a` of one line."""
    null = bundles.NULL
    file = bundles.node_id(null, null, BODY)
    manifest_text = bundles.manifest_line(b'a', file)
    manifest = bundles.node_id(null, null, manifest_text)
    text = manifest.hex().encode() + b'\nAnn <ann@x>\n0 0\na\n\none'
    changeset = bundles.node_id(null, null, text)

    def first(node, text):
        return bundles.entry(node, null, null, changeset, bundles.whole_delta(0, text))

    return bundles.bundle([first(changeset, text)], [first(manifest, manifest_text)], [(b'a', [first(file, BODY)])])


def example_stream():
    """The same history as Git has it."""
    tree = streams.tree_entry(b'100644', b'a', streams.object_id(b'blob', BODY))
    commit = streams.commit_content(streams.object_id(b'tree', tree), [], b'Ann <ann@x> 0 +0000', b'one\n')
    return (streams.stream_object(b'blob', BODY) + streams.stream_object(b'tree', tree)
            + streams.stream_object(b'commit', commit))
