"""Which changeset and which commit are partners: links, unmarking, depth, and the block of a member."""
import re
from typing import NamedTuple, Tuple

from formats.hg import NULL
from marks import LEAST_OCTOPUS, MOST_PARENTS, NULL_MANIFEST, Rename, read_extras, read_headers
from members import Changeset, Commit, FileRow, Revision, handed_on, is_changeset, is_commit, item_fits, rows_of_tree
from rules import (LINK_DESCRIPTION, LINK_KEY, LINK_USER, files_given, first_parent, links_of, manifest_given, mark_changeset, mark_commit,
                   node_of_source, parents_of_commit, rule_changeset)
from texts import Author, Plain, Raw, copy_metadata, line_of_author, message_of, read_changeset


class Block(NamedTuple):
    """A pair, and the links before its changeset."""
    links: Tuple[Changeset, ...]
    changeset: Changeset
    commit: Commit


class Link(NamedTuple):
    """A changeset of the form of a link, as it came."""
    parents: Tuple[bytes, bytes]
    text: bytes


class History:
    """The blocks so far, and the links that came."""

    def __init__(self):
        self.blocks = []
        self.changesets, self.commits = {}, {}
        self.commit_of, self.changeset_of = {}, {}
        self.links = {}

    def add(self, block):
        node, id = block.changeset.node(), block.commit.id()
        self.blocks.append(block)
        self.changesets[node], self.commits[id] = block.changeset, block.commit
        self.commit_of[node], self.changeset_of[id] = id, node
        for link in block.links:
            self.links[link.node()] = Link(link.parents, link.text())


# ---- links

def place_of_link(parents, text):
    """The number of a link and the count of parents that it names; None for a changeset of another form."""
    fields = read_changeset(text)
    if NULL in parents or (fields.user, fields.files, fields.description) != (LINK_USER, (), LINK_DESCRIPTION):
        return None
    if not isinstance(fields.date, Plain) or fields.date[:2] != (0, 0) or [key for key, _ in fields.date.extras] != [LINK_KEY]:
        return None
    match = re.fullmatch(rb'[0-9a-f]{40}:([1-9][0-9]?):([1-9][0-9]?)', fields.date.extras[0][1])
    number, count = map(int, match.groups()) if match else (0, 0)
    return (number, count) if LEAST_OCTOPUS <= count <= MOST_PARENTS and number <= count - 2 else None


def is_link(parents, text):
    return place_of_link(parents, text) is not None


def walk_links(history, node, count):
    """The links that lead to a node, the first first, where it is the last one of an octopus commit with that many parents; else None."""
    links = []
    for number in range(count - 2, 0, -1):
        link = history.links.get(node)
        if link is None or place_of_link(*link) != (number, count):
            return None
        links.insert(0, link)
        node = link.parents[0]
    return links


# ---- unmarking

def unmark_commit(history, commit):
    """The changeset of which this is the marked commit, or None."""
    marks = read_headers(commit.headers)
    if marks is None or len(commit.parents) > 2:
        return None
    changeset = changeset_read(history, commit, marks)
    if changeset is None or not is_changeset(changeset) or is_link(changeset.parents, changeset.text()):
        return None
    return changeset if mark_commit(history, changeset) == commit else None


def changeset_read(history, commit, marks):
    """What marks say of a changeset, and the rule where they say nothing; None where a copy has no source."""
    parents = parents_of_commit(history, commit)
    ruled = rule_changeset(history, commit)
    named = dict(marks.revisions)
    revisions = [revision_read(row, named.get(row.path), parents) for row in ruled.rows]
    if None in revisions:
        return None
    rows = tuple(FileRow(row.path, row.flag, revision) for row, revision in zip(ruled.rows, revisions))
    manifest = manifest_given(rows, parents) if marks.manifest is None else marks.manifest
    return ruled._replace(
        rows=rows,
        manifest=None if manifest == NULL_MANIFEST else manifest,
        files=files_given(rows, parents) if marks.files is None else marks.files,
        user=ruled.user if marks.user is None else marks.user,
        date=Plain(*(marks.date or ruled.date[:2]), marks.extras) if marks.raw is None else Raw(marks.raw))


def revision_read(row, mark, parents):
    """A row's revision by its mark, or the rule's; the body stays."""
    if mark is None:
        return row.revision
    if not isinstance(mark, Rename):
        return Revision(*mark, row.revision.body)
    node = node_of_source(mark.source, parents)
    return None if node is None else Revision(NULL, NULL, copy_metadata(mark.source, node), row.revision.body)


def unmark_changeset(history, changeset):
    """The commit of which this is the marked changeset, or None."""
    marks = read_extras(changeset.extras()) if isinstance(changeset.date, Plain) else None
    if marks is None:
        return None
    nodes, links = parents_read(history, changeset, marks)
    if nodes is None or any(node not in history.commit_of for node in nodes):
        return None
    commit = commit_read(history, changeset, marks, tuple(history.commit_of[node] for node in nodes))
    if commit is None or not is_commit(commit) or mark_changeset(history, commit) != changeset:
        return None
    return commit if [Link(link.parents, link.text()) for link in links_of(history, commit)] == links else None


def parents_read(history, changeset, marks):
    """The partners of the commit's parents, and the links that were walked to find them."""
    if marks.parents is None:
        return [node for node in changeset.parents if node != NULL], []
    links = walk_links(history, changeset.parents[0], marks.parents)
    if links is None:
        return None, None
    return [links[0].parents[0], *[link.parents[1] for link in links], changeset.parents[1]], links


def commit_read(history, changeset, marks, parents):
    """What marks say of a commit, and the rule where they say nothing; None where the residue doesn't fit the files."""
    rows, residue = changeset.rows, marks.residue
    if residue is None:
        residue = handed_on(first_parent(history, parents), rows)
    if not all(item_fits(item, rows) for item in residue):
        return None
    line = line_of_author(Author(changeset.user, *changeset.date[:2]))
    author = line if marks.author is None else marks.author
    return Commit(parents, author, author if marks.committer is None else marks.committer, marks.headers or b'',
                  message_of(changeset.description) if marks.message is None else marks.message, rows_of_tree(rows, residue))


# ---- partners

def is_plain_changeset(history, changeset):
    commit = mark_commit(history, changeset)
    return commit is not None and mark_changeset(history, commit) == changeset


def is_plain_commit(history, commit):
    changeset = mark_changeset(history, commit)
    return mark_commit(history, changeset) == commit


def depth_of_changeset(history, changeset):
    commit = unmark_changeset(history, changeset)
    if commit is None or is_plain_changeset(history, changeset):
        return 0
    return 1 + depth_of_commit(history, commit)


def depth_of_commit(history, commit):
    changeset = unmark_commit(history, commit)
    if changeset is None or is_plain_commit(history, commit):
        return 0
    return 1 + depth_of_changeset(history, changeset)


def partner_of_changeset(history, changeset):
    """Its unmarking where its depth is odd, else its marked commit; None where a parent is a link and it has no unmarking."""
    if depth_of_changeset(history, changeset) % 2:
        return unmark_changeset(history, changeset)
    return mark_commit(history, changeset)


def partner_of_commit(history, commit):
    if depth_of_commit(history, commit) % 2:
        return unmark_commit(history, commit)
    return mark_changeset(history, commit)
