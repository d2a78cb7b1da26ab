"""What the two pulls answer where nothing was known before: the blocks of the members that came, or the refusal."""
from typing import List, NamedTuple

from formats.hg import NULL
from inputs import (CHANGESETS, MANIFESTS, Refused, changeset_of, group_of_path, manifest_lines, read_bundle, read_commit,
                    read_stream, tree_entries)
from members import EMPTY_TREE, GITLINK, TREE, Commit, TreeRow, has_clash, tree_objects
from partners import (Block, History, Link, depth_of_changeset, depth_of_commit, is_link, partner_of_changeset, partner_of_commit,
                      unmark_changeset)
from rules import links_of
from texts import is_fit, read_changeset

DEPTH_LIMIT = 16
FILE_LIMIT = 1 << 26
MEMBER_LIMIT = 1 << 24
ROWS_LIMIT = 1 << 26
BYTES_OF_A_ROW = 42


# ---- a bundle

def pull_bundle(data):
    """The blocks of a bundle."""
    arrivals = read_bundle(data)
    history = History()
    came = [arrival for (group, _), arrival in arrivals.items() if group == CHANGESETS]
    for arrival in came:
        if is_link((arrival.p, arrival.q), arrival.text):
            history.links[arrival.node] = Link((arrival.p, arrival.q), arrival.text)
        else:
            add_changeset(history, arrivals, arrival)
    refuse_orphans(arrivals, came)
    in_blocks = {link.node() for block in history.blocks for link in block.links}
    for arrival in came:
        if arrival.node in history.links and arrival.node not in in_blocks:
            raise arrival.refused('DanglingLink')
    return history.blocks


def add_changeset(history, arrivals, arrival):
    node = read_changeset(arrival.text).manifest
    if node != NULL and (MANIFESTS, node) not in arrivals:
        raise arrival.refused('ManifestUnknown')
    if any((group_of_path(path), file) not in arrivals for path, file, _ in manifest_lines(arrivals, node)):
        raise arrival.refused('FileUnknown')
    add_block(history, block_of_changeset(history, changeset_of(arrivals, arrival), arrival), arrival)


def block_of_changeset(history, changeset, arrival):
    if has_clash(set(changeset.paths())):
        raise arrival.refused('PathClash')
    has_link = any(p in history.links for p in changeset.parents)
    if has_link and unmark_changeset(history, changeset) is None:
        raise arrival.refused('ParentIsLink')
    if depth_of_changeset(history, changeset) >= DEPTH_LIMIT:
        raise arrival.refused('NestLimit')
    commit = partner_of_changeset(history, changeset)
    refuse_large_commit(commit, arrival)
    return Block(tuple(links_of(history, commit)), changeset, commit)


def refuse_large_commit(commit, arrival):
    objects = tree_objects(commit.rows)
    if (len(commit.content()) > MEMBER_LIMIT or any(len(object.content) > FILE_LIMIT for object in objects)
            or sum(size_of_row(row.path) for row in commit.rows) > ROWS_LIMIT):
        raise arrival.refused('PairLimit')


def size_of_row(path):
    return len(path) + BYTES_OF_A_ROW


def refuse_orphans(arrivals, came):
    """Each manifest and each file revision is named by a changeset, be it a link."""
    named = set()
    for arrival in came:
        node = read_changeset(arrival.text).manifest
        if node == NULL or (MANIFESTS, node) in arrivals:
            named.add((MANIFESTS, node))
            named |= {(group_of_path(path), file) for path, file, _ in manifest_lines(arrivals, node)}
    for key, arrival in arrivals.items():
        if arrival.group != CHANGESETS and key not in named:
            raise arrival.refused('Orphan')


# ---- a stream

class Came(NamedTuple):
    """A commit of a stream, before its tree was walked."""
    id: bytes
    fields: object
    at: int

    def refused(self, name):
        return Refused(name, self.id, self.at)


def pull_stream(data):
    """The blocks of a stream."""
    objects = read_stream(data)
    history = History()
    came = [Came(object.id, read_commit(object.content), object.at) for object in objects.values() if object.kind == b'commit']
    for commit in in_order_of_parents(came):
        rows = tuple(sorted(walk(objects, commit), key=lambda row: row.path))
        add_block(history, block_of_commit(history, Commit(*commit.fields[1:], rows), commit), commit)
    return history.blocks


def in_order_of_parents(came) -> List[Came]:
    """Next is the first commit that isn't placed and whose parents are."""
    placed = {}
    while len(placed) < len(came):
        waiting = [commit for commit in came if commit.id not in placed]
        ready = next((commit for commit in waiting if all(parent in placed for parent in commit.fields.parents)), None)
        if ready is None:
            raise waiting[0].refused('ParentUnknown')
        placed[ready.id] = ready
    return list(placed.values())


def walk(objects, commit):
    """The rows of a commit's tree in the order of the walk, which ends at the first refusal."""
    rows, size = [], 0
    for row in rows_below(objects, commit, b'', commit.fields.tree):
        rows.append(row)
        size += size_of_row(row.path)
        if size > ROWS_LIMIT:
            raise commit.refused('PairLimit')
    return rows


def rows_below(objects, commit, prefix, id):
    if id not in objects or objects[id].kind != b'tree':
        raise commit.refused('ObjectUnknown')
    for mode, name, below in tree_entries(objects[id].content):
        path = prefix + name
        if not is_fit(path):
            raise commit.refused('PathUnfit')
        kind = b'tree' if mode == TREE else b'blob'
        if mode != GITLINK and (below not in objects or objects[below].kind != kind):
            raise commit.refused('ObjectUnknown')
        if mode == TREE and below != EMPTY_TREE:
            yield from rows_below(objects, commit, path + b'/', below)
        else:
            yield TreeRow(path, mode, below, objects[below].content if kind == b'blob' and mode != GITLINK else None)


def block_of_commit(history, commit, came):
    if depth_of_commit(history, commit) >= DEPTH_LIMIT:
        raise came.refused('NestLimit')
    changeset = partner_of_commit(history, commit)
    refuse_large_changeset(changeset, came)
    return Block(tuple(links_of(history, commit)), changeset, commit)


def refuse_large_changeset(changeset, came):
    if (len(changeset.text()) > MEMBER_LIMIT or len(changeset.manifest_text()) > FILE_LIMIT
            or any(len(row.revision.text()) > FILE_LIMIT for row in changeset.rows)):
        raise came.refused('PairLimit')


# ---- both

def add_block(history, block, came):
    """The last refusals of a block: parents of files and manifests that stand in no earlier block, and ids that are taken."""
    earlier = [changeset for other in history.blocks for changeset in (*other.links, other.changeset)]
    files = {(row.path, row.revision.node()) for changeset in earlier for row in changeset.rows}
    if any(parent != NULL and (row.path, parent) not in files for row in block.changeset.rows for parent in row.revision[:2]):
        raise came.refused('FileParentLate')
    manifests = {changeset.manifest_node() for changeset in earlier}
    if any(parent != NULL and parent not in manifests for parent in block.changeset.manifest or ()):
        raise came.refused('ManifestParentLate')
    nodes = {changeset.node() for changeset in earlier}
    if block.commit.id() in history.commits or any(changeset.node() in nodes for changeset in (*block.links, block.changeset)):
        raise came.refused('Collision')
    history.add(block)
