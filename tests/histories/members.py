"""Changesets and commits with all that they stand for."""
from typing import NamedTuple, Optional, Tuple

from formats import git as streams
from formats import hg as bundles
from formats.hg import NULL
from texts import Fields, Plain, changeset_text, file_text, in_order, is_below, is_fit, read_changeset, read_file

FILE, GROUP, EXECUTABLE, SYMLINK, TREE, GITLINK = b'100644', b'100664', b'100755', b'120000', b'40000', b'160000'
FLAG_OF_MODE = {FILE: b'', GROUP: b'', EXECUTABLE: b'x', SYMLINK: b'l'}
MODE_OF_FLAG = {b'': FILE, b'x': EXECUTABLE, b'l': SYMLINK}
EMPTY_TREE = streams.object_id(b'tree', b'')


# ---- Mercurial's side

class Revision(NamedTuple):
    """A revision of a file: its parents in canonical order, its metadata or None, and its body."""
    p: bytes
    q: bytes
    metadata: Optional[bytes]
    body: bytes

    def text(self):
        return file_text(self.metadata, self.body)

    def node(self):
        return bundles.node_id(self.p, self.q, self.text())


class FileRow(NamedTuple):
    path: bytes
    flag: bytes
    revision: Revision


class Changeset(NamedTuple):
    """A changeset: its two parents, its fields, the two parents of its manifest, or None for the null manifest, and its files."""
    parents: Tuple[bytes, bytes]
    user: bytes
    date: object
    files: Tuple[bytes, ...]
    description: bytes
    manifest: Optional[Tuple[bytes, bytes]]
    rows: Tuple[FileRow, ...]

    def manifest_text(self):
        return b''.join(bundles.manifest_line(row.path, row.revision.node(), row.flag) for row in self.rows)

    def manifest_node(self):
        return NULL if self.manifest is None else bundles.node_id(*self.manifest, self.manifest_text())

    def fields(self):
        return Fields(self.manifest_node(), self.user, self.date, self.files, self.description)

    def text(self):
        return changeset_text(self.fields())

    def node(self):
        return bundles.node_id(*self.parents, self.text())

    def paths(self):
        return [row.path for row in self.rows]

    def extras(self):
        return self.date.extras if isinstance(self.date, Plain) else ()


def is_changeset(changeset):
    """These parts are those of a changeset: its texts say them and nothing else."""
    manifest = changeset.manifest
    return (read_changeset(changeset.text()) == changeset.fields()
            and (manifest is not None or not changeset.rows)
            and (manifest is None or in_order(*manifest) == manifest)
            and all(is_revision(row.revision) for row in changeset.rows))


def is_revision(revision):
    parents = revision.p, revision.q
    return read_file(revision.text()) == (revision.metadata, revision.body) and in_order(*parents, revision.metadata) == parents


# ---- Git's side

class TreeRow(NamedTuple):
    """A file, a gitlink or an empty subtree of a commit; only a file has a content."""
    path: bytes
    mode: bytes
    id: bytes
    content: Optional[bytes] = None


def file_of_tree(path, mode, content):
    return TreeRow(path, mode, streams.object_id(b'blob', content), content)


class Commit(NamedTuple):
    """A commit and the rows of its tree, in rising order of their paths."""
    parents: Tuple[bytes, ...]
    author: bytes
    committer: bytes
    headers: bytes
    message: bytes
    rows: Tuple[TreeRow, ...]

    def content(self):
        root = tree_objects(self.rows)[-1]
        lines = [b'tree ' + root.id] + [b'parent ' + parent for parent in self.parents]
        lines += [b'author ' + self.author, b'committer ' + self.committer]
        return b'\n'.join(lines) + b'\n' + self.headers + b'\n' + self.message

    def id(self):
        return streams.object_id(b'commit', self.content())

    def files(self):
        return [row for row in self.rows if row.mode in FLAG_OF_MODE]


class Object(NamedTuple):
    id: bytes
    kind: bytes
    content: bytes


def object_of(kind, content):
    return Object(streams.object_id(kind, content), kind, content)


def tree_objects(rows):
    """The blobs and trees of rows in the order in which they are written: what is in a tree before it, and so the root last."""
    return objects_below([(row.path, row) for row in rows])


def objects_below(rows):
    """The same of rows with their paths from some tree on."""
    leaves, subtrees = {}, {}
    for path, row in rows:
        name, slash, rest = path.partition(b'/')
        if slash:
            subtrees.setdefault(name, []).append((rest, row))
        else:
            leaves[name] = row
    objects, entries = [], b''
    for name in sorted([*leaves, *subtrees], key=lambda name: name + b'/' if is_directory(name, leaves) else name):
        below = objects_of_leaf(leaves[name]) if name in leaves else objects_below(subtrees[name])
        objects += below
        mode, id = (leaves[name].mode, leaves[name].id) if name in leaves else (TREE, below[-1].id)
        entries += streams.tree_entry(mode, name, id)
    return objects + [object_of(b'tree', entries)]


def is_directory(name, leaves):
    return name not in leaves or leaves[name].mode == TREE


def objects_of_leaf(row):
    if row.mode == GITLINK:
        return []
    return [object_of(b'tree', b'')] if row.mode == TREE else [object_of(b'blob', row.content)]


def has_clash(paths):
    """A path lies below another."""
    components = [path.split(b'/') for path in paths]
    return any(b'/'.join(names[:count]) in paths for names in components for count in range(1, len(names)))


# ---- what a tree has beside the files that a changeset can have

class Item(NamedTuple):
    """Of the residue: a file that its group may write (`group`), a gitlink (`link`) with its id, or an empty subtree (`empty`)."""
    path: bytes
    kind: bytes
    id: bytes = b''


def residue_of(commit):
    kinds = {GROUP: b'group', GITLINK: b'link', TREE: b'empty'}
    return tuple(Item(row.path, kinds[row.mode], row.id if row.mode == GITLINK else b'') for row in commit.rows if row.mode in kinds)


def item_fits(item, rows):
    """An item of the residue has its place beside these files of a changeset."""
    if item.kind == b'group':
        return any(row.path == item.path and row.flag == b'' for row in rows)
    return not any(row.path == item.path or is_below(row.path, item.path) or is_below(item.path, row.path) for row in rows)


def handed_on(commit, rows):
    """What a commit, or None, hands on of its residue to a child with these files."""
    return tuple(item for item in residue_of(commit) if item_fits(item, rows)) if commit else ()


def rows_of_tree(rows, residue):
    """The rows of a commit's tree: the files of a changeset, and a residue that fits them."""
    group = {item.path for item in residue if item.kind == b'group'}
    tree = [file_of_tree(row.path, GROUP if row.path in group else MODE_OF_FLAG[row.flag], row.revision.body) for row in rows]
    tree += [TreeRow(item.path, GITLINK, item.id) for item in residue if item.kind == b'link']
    tree += [TreeRow(item.path, TREE, EMPTY_TREE) for item in residue if item.kind == b'empty']
    return tuple(sorted(tree, key=lambda row: row.path))


def is_commit(commit):
    """These parts are those of a commit: its content says them and nothing else, and its rows have trees."""
    paths = {row.path for row in commit.rows}
    headers = commit.headers.split(b'\n')
    return (len(set(commit.parents)) == len(commit.parents) and b'\n' not in commit.author + commit.committer
            and headers[-1] == b'' and b'' not in headers[:-1]
            and len(paths) == len(commit.rows) and all(map(is_fit, paths)) and not has_clash(paths))
