"""Mercurial's revisions and Git's objects of small histories, made from the formats."""
from formats import git as streams
from formats import hg as bundles
from formats.hg import NULL

LINE = b'Ann <ann@x> 0 +0000'
LATER = b'Ann <ann@x> 1 +0000'
MARK = b'\x01\n'
HELLO = b'hello\n'


def over(text, p=NULL, q=NULL):
    """A revision: its node, its parents and its text."""
    return bundles.node_id(p, q, text), p, q, text


def file_text(body):
    """The text of a file without metadata: a body that begins with a mark is wrapped."""
    return MARK + MARK + body if body.startswith(MARK) else body


def changeset_text(manifest, files, description, date=b'0 0', user=b'Ann <ann@x>'):
    return manifest.hex().encode() + b'\n' + user + b'\n' + date + b'\n' + b''.join(path + b'\n' for path in files) + b'\n' + description


def group(link_of, revisions, base=b''):
    """The chunks of revisions, each of which replaces the whole text before it."""
    chunks = []
    for node, p, q, text in revisions:
        chunks.append(bundles.entry(node, p, q, link_of(node), bundles.whole_delta(len(base), text)))
        base = text
    return chunks


def one_changeset(files, description=b'one', date=b'0 0', user=b'Ann <ann@x>'):
    """The bundle of a changeset without parents, and its node: files are pairs of a path and a text, in rising order."""
    revisions = [(path, over(text)) for path, text in files]
    manifest = over(b''.join(bundles.manifest_line(path, revision[0]) for path, revision in revisions))
    changeset = over(changeset_text(manifest[0], [path for path, _ in files], description, date, user))
    node = changeset[0]
    groups = [(path, group(lambda _: node, [revision])) for path, revision in revisions]
    return bundles.bundle(group(lambda own: own, [changeset]), group(lambda _: node, [manifest]), groups), node


def tree(*entries):
    """The object of a tree, whose id begins its line."""
    return streams.stream_object(b'tree', b''.join(streams.tree_entry(*entry) for entry in entries))


def id_of(text):
    return text[:40]


def blob(body):
    return streams.stream_object(b'blob', body)


def commit(root, parents=(), line=LINE, message=b'one\n', headers=b'', committer=None):
    content = streams.commit_content(id_of(root), [id_of(p) for p in parents], line, message, headers)
    if committer is not None:
        content = content.replace(b'committer ' + line, b'committer ' + committer)
    return streams.stream_object(b'commit', content)


def of_one_file(body):
    """A blob, a tree with it as the file `a`, and a commit of that tree."""
    content = blob(body)
    root = tree((b'100644', b'a', id_of(content)))
    return content, root, commit(root)


def two_revisions():
    """The revisions of a changeset with a file, and of one over it with another line in it: files, manifests and changesets."""
    files = [over(HELLO)]
    files.append(over(b'hello2\n', files[0][0]))
    manifests = [over(bundles.manifest_line(b'a', files[0][0]))]
    manifests.append(over(bundles.manifest_line(b'a', files[1][0]), manifests[0][0]))
    changesets = [over(changeset_text(manifests[0][0], [b'a'], b'one'))]
    changesets.append(over(changeset_text(manifests[1][0], [b'a'], b'two', b'1 0'), changesets[0][0]))
    return files, manifests, changesets


def two_changesets():
    """A changeset with a file, and one over it with another line in it: the bundle, and the objects of both commits."""
    files, manifests, changesets = two_revisions()
    links = {row[place][0]: changesets[place][0] for row in (files, manifests, changesets) for place in (0, 1)}
    bundle = bundles.bundle(group(links.get, changesets), group(links.get, manifests), [(b'a', group(links.get, files))])
    first = of_one_file(HELLO)
    content = blob(b'hello2\n')
    root = tree((b'100644', b'a', id_of(content)))
    return bundle, first, (content, root, commit(root, [first[2]], LATER, b'two\n'))


def second_changeset():
    """The bundle of the second of the two alone."""
    files, manifests, changesets = two_revisions()
    node = changesets[1][0]
    changeset, manifest, file = (group(lambda _: node, revisions[1:], revisions[0][3]) for revisions in (changesets, manifests, files))
    return bundles.bundle(changeset, manifest, [(b'a', file)])
