"""Changesets and commits with all that they stand for, and what is written for a list of them."""
from antt.values import NONE, Con
from checks import NULL, integer, record
from formats import git, hg

AUTHOR = b'Ann <ann@x> 0 +0000'
NO_MANIFEST = Con('NoManifest')
PLAIN, LATER = ((Con('Plain', (integer(n), integer(0), ()))) for n in (0, 1))


def over(p, q=NULL):
    return Con('Over', (p, q))


class Shapes:
    """Views as the definitions have them, whose manifest's id the definitions give."""

    def __init__(self, checks):
        self.checks = checks

    def row(self, path, body, p=NULL, q=NULL, meta=None, flag='Regular'):
        meta = NONE if meta is None else Con('Some', (meta,))
        return record(path=path, flag=Con(flag), revision=record(p=p, q=q, meta=meta, body=body))

    def changeset(self, rows, p=NULL, q=NULL, manifest=over(NULL), date=PLAIN, files=(b'a',), description=b'one', user=b'Ann <ann@x>'):
        node = self.checks.value('view_model.View.manifest_node', manifest, rows)
        fields = record(manifest=node, user=user, date=date, files=list(files), description=description)
        return record(p=p, q=q, fields=fields, manifest=manifest, rows=rows)

    def tree_row(self, path, mode, body):
        """A row of a tree: a file, or without a body an empty folder or a gitlink."""
        if body is None:
            id, body = (git.object_id(b'tree', b'').decode() if mode == 'Directory' else '22' * 20), b''
        else:
            id = git.object_id(b'blob', body).decode()
        return record(path=path, mode=Con(mode), id=bytes.fromhex(id), content=body)

    def commit(self, rows, parents=(), message=b'one\n', author=AUTHOR, headers=b'', committer=None):
        rows = [self.tree_row(*row) for row in rows]
        root = self.checks.value('view_model.View.root_of_rows', rows)
        value = record(tree_id=root, parents=list(parents), author=author, committer=committer or author, headers=headers, message=message)
        return record(value=value, rows=rows)


def check(checks):
    check_changesets(checks)
    check_bundles(checks)
    check_commits(checks)
    check_streams(checks)


def changeset_text(manifest, time, files, description):
    return manifest.hex().encode() + b'\nAnn <ann@x>\n%d 0\n' % time + b''.join(f + b'\n' for f in files) + b'\n' + description


class One:
    """A changeset with one file `a`, by hand."""
    file = hg.node_id(NULL, NULL, b'hello\n')
    manifest_text = hg.manifest_line(b'a', file)
    manifest = hg.node_id(NULL, NULL, manifest_text)
    text = changeset_text(manifest, 0, [b'a'], b'one')
    node = hg.node_id(NULL, NULL, text)


class Two:
    """Its child, in which `a` holds another line."""
    file = hg.node_id(One.file, NULL, b'hello2\n')
    manifest_text = hg.manifest_line(b'a', file)
    manifest = hg.node_id(One.manifest, NULL, manifest_text)
    text = changeset_text(manifest, 1, [b'a'], b'two')
    node = hg.node_id(One.node, NULL, text)


def two_changesets(checks):
    shapes = Shapes(checks)
    first = shapes.changeset([shapes.row(b'a', b'hello\n')])
    second = shapes.changeset([shapes.row(b'a', b'hello2\n', p=One.file)], p=One.node, manifest=over(One.manifest), date=LATER, description=b'two')
    return first, second


def check_changesets(checks):
    shapes = Shapes(checks)
    first, second = two_changesets(checks)
    checks.table('view_model.View.changeset_node', [
        ('the node of a changeset', (first,), One.node),
        ('the node of its child', (second,), Two.node),
    ])
    rows = [shapes.row(b'a', b'hello\n'), shapes.row(b'b', b'x', meta=b'copy: a\n', flag='Executable')]
    copied = hg.node_id(NULL, NULL, b'\x01\ncopy: a\n\x01\nx')
    text = hg.manifest_line(b'a', One.file) + hg.manifest_line(b'b', copied, b'x')
    checks.table('view_model.View.manifest_node', [
        ('the null manifest', (NO_MANIFEST, []), NULL),
        ('a manifest of no lines', (over(NULL), []), hg.node_id(NULL, NULL, b'')),
        ('a manifest over another', (over(One.manifest), rows), hg.node_id(One.manifest, NULL, text)),
    ])
    checks.table('view_model.View.has_clash', [
        ('no paths', ([],), False),
        ('paths with one beginning', ([b'a', b'a.b', b'ab'],), False),
        ('a path below another', ([b'a', b'a.b', b'a/b'],), True),
    ])


def entry(values, base, text, p=NULL, link=None):
    return hg.entry(values, p, NULL, link, hg.whole_delta(base, text))


def check_bundles(checks):
    first, second = two_changesets(checks)
    one = hg.bundle(
        [entry(One.node, 0, One.text, link=One.node)],
        [entry(One.manifest, 0, One.manifest_text, link=One.node)],
        [(b'a', [entry(One.file, 0, b'hello\n', link=One.node)])])
    two = hg.bundle(
        [entry(Two.node, len(One.text), Two.text, One.node, Two.node)],
        [entry(Two.manifest, len(One.manifest_text), Two.manifest_text, One.manifest, Two.node)],
        [(b'a', [entry(Two.file, 6, b'hello2\n', One.file, Two.node)])])
    both = hg.bundle(
        [entry(One.node, 0, One.text, link=One.node), entry(Two.node, len(One.text), Two.text, One.node, Two.node)],
        [entry(One.manifest, 0, One.manifest_text, link=One.node),
         entry(Two.manifest, len(One.manifest_text), Two.manifest_text, One.manifest, Two.node)],
        [(b'a', [entry(One.file, 0, b'hello\n', link=One.node), entry(Two.file, 6, b'hello2\n', One.file, Two.node)])])
    known = checks.value('view_model.Dump.revisions_in', [first, second])
    checks.table('view_model.Dump.hg_increment', [
        ('no changesets are the least bundle', ([], [], []), hg.bundle()),
        ('the bundle of one changeset', (known, [], [first]), one),
        ('the bundle of two', (known, [], [first, second]), both),
        ('the bundle of the second alone', (known, [first], [second]), two),
        ('a changeset that comes again is not written', (known, [first], [first]), hg.bundle()),
    ])
    checks.compare('the bundle of one changeset has 427 bytes', 427, lambda: len(checks.value('view_model.Dump.hg_increment', known, [], [first])))
    check_orders(checks)


def check_orders(checks):
    """Paths rise, manifests and revisions come in the order of their first references, and the link is the first."""
    shapes = Shapes(checks)
    b, a = shapes.row(b'b', b'1'), shapes.row(b'a', b'2')
    first = shapes.changeset([b], files=(b'b',))
    node = checks.value('view_model.View.changeset_node', first)
    second = shapes.changeset([a, b], p=node, manifest=over(checks.value('view_model.View.manifest_node', over(NULL), [b])))
    third = shapes.changeset([b], p=node, files=(), description=b'three')
    known = checks.value('view_model.Dump.revisions_in', [first, second, third])
    listed = hg.entries_of(bytes(checks.value('view_model.Dump.hg_increment', known, [], [first, second, third])))
    nodes = [bytes(checks.value('view_model.View.changeset_node', h)) for h in (first, second, third)]
    checks.compare('the groups of a bundle, and the links of their entries', [(e.group, e.link) for e in listed], lambda: [
        *((b'changeset', node) for node in nodes), (b'manifest', nodes[0]), (b'manifest', nodes[1]), (b'file a', nodes[1]), (b'file b', nodes[0])])


def check_commits(checks):
    shapes = Shapes(checks)
    commit = shapes.commit([(b'a', 'File', b'hello\n')])
    tree = git.tree_entry(b'100644', b'a', git.object_id(b'blob', b'hello\n'))
    content = git.commit_content(git.object_id(b'tree', tree), [], AUTHOR, b'one\n')
    checks.equal('the id of a commit', bytes.fromhex(git.object_id(b'commit', content).decode()), 'view_model.View.commit_id', commit)
    rows = [(b'a.b', 'File', b'1'), (b'a/c', 'Exec', b'2'), (b'a0', 'Link', b'3')]
    below = git.tree_entry(b'100755', b'c', git.object_id(b'blob', b'2'))
    root = (git.tree_entry(b'100644', b'a.b', git.object_id(b'blob', b'1')) + git.tree_entry(b'40000', b'a', git.object_id(b'tree', below))
            + git.tree_entry(b'120000', b'a0', git.object_id(b'blob', b'3')))
    content = git.commit_content(git.object_id(b'tree', root), [], AUTHOR, b'one\n')
    stream = b''.join(git.stream_object(*o) for o in [
        (b'blob', b'1'), (b'blob', b'2'), (b'tree', below), (b'blob', b'3'), (b'tree', root), (b'commit', content)])
    checks.equal('the objects of a commit in the order of its trees', stream, 'view_model.Dump.git_increment', [], [shapes.commit(rows)])


def check_streams(checks):
    shapes = Shapes(checks)
    first = shapes.commit([(b'a', 'File', b'hello\n')])
    parent = checks.value('view_model.View.commit_id', first)
    second = shapes.commit([(b'a', 'File', b'hello\n'), (b'b', 'File', b'')], [bytes(parent)])
    objects = checks.value('view_model.Dump.objects_in', [second])
    checks.table('view_model.Dump.git_increment', [
        ('no commits are an empty stream', ([], []), b''),
        ('a commit that comes again is not written', ([first], [first]), b''),
        ('what an earlier commit has is not written', ([first], [second]),
         checks.value('git_model.Stream.stream_text', [o for o in objects if bytes(o['content']) != b'hello\n'])),
    ])
    checks.compare('the stream of one commit has 295 bytes', 295, lambda: len(checks.value('view_model.Dump.git_increment', [], [first])))
