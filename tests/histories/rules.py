"""The commit of a changeset and the changeset of a commit: what the plain rules give, and the marks for all that they would lose."""
from typing import NamedTuple, Optional, Tuple

from formats.hg import NULL
from marks import NULL_MANIFEST, ChangesetMarks, CommitMarks, File, Rename, extras_of, headers_of
from members import FLAG_OF_MODE, Changeset, Commit, FileRow, Revision, handed_on, has_clash, residue_of, rows_of_tree
from texts import MARKER, Author, Plain, author_of_line, copy_of, description_of, in_order, line_of_author, message_of

LINK_KEY = b'hg-git-link'
LINK_USER = b'hg-git'
LINK_DESCRIPTION = b'octopus link'


class Parent(NamedTuple):
    """What a rule looks at of a parent on Mercurial's side."""
    node: bytes
    manifest: Optional[Tuple[bytes, bytes]]
    rows: Tuple[FileRow, ...]
    manifest_node: bytes

    def revision_at(self, path):
        return next((row.revision for row in self.rows if row.path == path), None)

    def lines(self):
        return lines_of(self.rows)


def lines_of(rows):
    """Node and flag of each path, as a manifest has them."""
    return {row.path: (row.revision.node(), row.flag) for row in rows}


# ---- the plain rules

def rule_commit(history, changeset):
    """The commit of a changeset whose parents are paired and whose paths don't clash."""
    parents = tuple(history.commit_of[p] for p in changeset.parents if p != NULL)
    time, tz = changeset.date[:2] if isinstance(changeset.date, Plain) else (0, 0)
    line = line_of_author(Author(changeset.user, time, tz))
    residue = handed_on(first_parent(history, parents), changeset.rows)
    return Commit(parents, line, line, b'', message_of(changeset.description), rows_of_tree(changeset.rows, residue))


def first_parent(history, parents):
    """The commit that hands on its residue, or None."""
    return history.commits[parents[0]] if parents else None


def rule_changeset(history, commit):
    """The changeset of a commit whose parents are paired."""
    parents = parents_of_commit(history, commit)
    nodes = [parent.node for parent in parents]
    rows = tuple(FileRow(row.path, FLAG_OF_MODE[row.mode], revision_given(row.path, row.content, parents)) for row in commit.files())
    author = author_of_line(commit.author)
    return Changeset(tuple((nodes + [NULL, NULL])[:2]), author.user, Plain(author.time, author.tz), files_given(rows, parents),
                     description_of(commit.message), manifest_given(rows, parents), rows)


def parents_of_changeset(history, changeset):
    return [parent_at(history, p) for p in changeset.parents if p != NULL]


def parent_at(history, node):
    changeset = history.changesets[node]
    return Parent(node, changeset.manifest, changeset.rows, changeset.manifest_node())


def parents_of_commit(history, commit):
    """One or two, or none. For an octopus commit they are the last of its links and the partner of its last parent."""
    if len(commit.parents) <= 2:
        return [parent_at(history, history.changeset_of[parent]) for parent in commit.parents]
    last = links_of(history, commit)[-1]
    first = Parent(last.node(), last.manifest, last.rows, last.manifest_node())
    return [first, parent_at(history, history.changeset_of[commit.parents[-1]])]


def revision_given(path, body, parents):
    """The revision of a file that has no mark: the first parent's where that has this body, else the second's, else a new one over both."""
    of_parents = [parent.revision_at(path) for parent in parents]
    for revision in of_parents:
        if revision is not None and revision.body == body:
            return revision
    metadata = b'' if body.startswith(MARKER) else None
    return Revision(*over([revision.node() if revision else NULL for revision in of_parents], metadata), metadata, body)


def over(nodes, metadata=None):
    """At most two parents in canonical order; where both are the same, it stands once."""
    p, q = (nodes + [NULL, NULL])[:2]
    return in_order(p, NULL if p == q else q, metadata)


def manifest_given(rows, parents):
    """The manifest that has no mark: the first parent's where its lines are these, else a new one over those of the parents."""
    first = parents[0].lines() if parents else {}
    if first == lines_of(rows):
        return parents[0].manifest if parents else None
    return over([parent.manifest_node for parent in parents])


def files_given(rows, parents):
    """The list of files that has no mark: the paths at which the entry differs from that of every parent; without a parent, all."""
    own, others = lines_of(rows), [parent.lines() for parent in parents]
    paths = sorted(set(own).union(*others))
    return tuple(path for path in paths if all(own.get(path) != other.get(path) for other in others))


# ---- marked commits

def mark_commit(history, changeset):
    """The rule's commit, with a header for each part of the changeset that can't be read back; None where there is no such commit."""
    if has_clash(set(changeset.paths())) or any(p not in history.commit_of for p in changeset.parents if p != NULL):
        return None
    commit = rule_commit(history, changeset)
    return commit._replace(headers=headers_of(marks_of_changeset(history, changeset, commit)))


def marks_of_changeset(history, changeset, commit):
    """What must be marked of a changeset with this commit of the rule."""
    parents = parents_of_changeset(history, changeset)
    rows = changeset.rows
    author = author_of_line(commit.author)
    manifest = NULL_MANIFEST if changeset.manifest is None else changeset.manifest
    is_plain = isinstance(changeset.date, Plain)
    return CommitMarks(
        revisions=tuple((row.path, mark_of_revision(row.revision, parents)) for row in rows
                        if row.revision != revision_given(row.path, row.revision.body, parents)),
        manifest=manifest if changeset.manifest != manifest_given(rows, parents) else None,
        files=changeset.files if changeset.files != files_given(rows, parents) else None,
        user=changeset.user if changeset.user != author.user else None,
        date=changeset.date[:2] if is_plain and changeset.date[:2] != author[1:] else None,
        raw=None if is_plain else changeset.date.line,
        extras=changeset.extras())


def mark_of_revision(revision, parents):
    copy = copy_of(revision.metadata)
    if copy and (revision.p, revision.q) == (NULL, NULL) and copy[1] == node_of_source(copy[0], parents):
        return Rename(copy[0])
    return File(revision.p, revision.q, revision.metadata)


def node_of_source(path, parents):
    """The node that a path has in the first parent that has it, or None."""
    revisions = [parent.revision_at(path) for parent in parents]
    return next((revision.node() for revision in revisions if revision), None)


# ---- marked changesets

def mark_changeset(history, commit):
    """The rule's changeset, with an extra for each part of the commit that can't be read back."""
    changeset = rule_changeset(history, commit)
    author = line_of_author(Author(changeset.user, *changeset.date[:2]))
    residue = residue_of(commit)
    marks = ChangesetMarks(
        author=commit.author if commit.author != author else None,
        committer=commit.committer if commit.committer != commit.author else None,
        headers=commit.headers or None,
        message=commit.message if commit.message != message_of(changeset.description) else None,
        parents=len(commit.parents) if len(commit.parents) > 2 else None,
        residue=residue if residue != handed_on(first_parent(history, commit.parents), changeset.rows) else None)
    return changeset._replace(date=changeset.date._replace(extras=extras_of(marks)))


# ---- links

def links_of(history, commit):
    """The changesets between the parents of an octopus commit and its own: each joins the one before it with the partner of one more parent."""
    if len(commit.parents) <= 2:
        return []
    partners = [history.changeset_of[parent] for parent in commit.parents]
    first = history.changesets[partners[0]]
    links, before = [], partners[0]
    for number in range(1, len(partners) - 1):
        name = b'%s:%d:%d' % (commit.id(), number, len(partners))
        date = Plain(0, 0, ((LINK_KEY, name),))
        links.append(Changeset((before, partners[number]), LINK_USER, date, (), LINK_DESCRIPTION, first.manifest, first.rows))
        before = links[-1].node()
    return links
