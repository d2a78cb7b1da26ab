"""What is written of blocks: a bundle of their changesets, or a stream of their commits."""
from formats import git as streams
from formats import hg as bundles
from members import tree_objects


def stream_of(blocks):
    """Of each commit the blobs and trees that weren't written yet, and then the commit."""
    written = {}
    for block in blocks:
        for object in tree_objects(block.commit.rows):
            written.setdefault(object.id, streams.stream_object(object.kind, object.content))
        written[block.commit.id()] = streams.stream_object(b'commit', block.commit.content())
    return b''.join(written.values())


def bundle_of(blocks):
    """The changesets in their order, links before their own; then manifests and each file's revisions in the order in which they are named first."""
    changesets, manifests, files = {}, {}, {}
    for block in blocks:
        for changeset in (*block.links, block.changeset):
            link = changeset.node()
            changesets[link] = (*changeset.parents, link, changeset.text())
            if changeset.manifest is not None:
                manifests.setdefault(changeset.manifest_node(), (*changeset.manifest, link, changeset.manifest_text()))
            for row in changeset.rows:
                revision = row.revision
                files.setdefault(row.path, {}).setdefault(revision.node(), (revision.p, revision.q, link, revision.text()))
    return bundles.bundle(entries(changesets), entries(manifests), [(path, entries(files[path])) for path in sorted(files)])


def entries(revisions):
    """The chunks of a group's revisions, each of which replaces the whole text before it, and the first one that of its first parent."""
    chunks, base = [], b''
    for node, (p, q, link, text) in revisions.items():
        chunks.append(bundles.entry(node, p, q, link, bundles.whole_delta(len(base), text)))
        base = text
    return chunks
