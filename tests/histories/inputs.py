"""Bundles and streams, read into what they bring. They are known to be well-formed, but for what `Refused` is raised for here."""
from typing import NamedTuple

from formats import git as streams
from formats import hg as bundles
from formats.hg import NULL
from members import Changeset, FileRow, Revision
from texts import in_order, read_changeset, read_file

NO_ID = b'0' * 40


class Refused(Exception):
    """The input is refused, by this name, with this id as hex digits, and at this place."""


# ---- bundles

class Arrival(NamedTuple):
    """A revision of a bundle with its text, and where its chunk begins."""
    group: bytes
    node: bytes
    p: bytes
    q: bytes
    text: bytes
    at: int

    def refused(self, name):
        return Refused(name, self.node.hex().encode(), self.at)


CHANGESETS, MANIFESTS = b'changeset', b'manifest'


def group_of_path(path):
    return b'file ' + bundles.escape(path)


def read_bundle(data):
    """The revisions that come, each once."""
    if not data:
        raise Refused('Truncated', NO_ID, 0)
    arrivals, base, end = {}, b'', 0
    for entry in bundles.entries_of(data):
        if entry.group == CHANGESETS and entry.q != NULL and entry.p in (NULL, entry.q):
            raise Refused('ParentOrder', entry.node.hex().encode(), entry.at)
        if any(parent != NULL and (entry.group, parent) not in arrivals for parent in (entry.p, entry.q)):
            raise Refused('ParentUnknown', entry.node.hex().encode(), entry.at)
        if entry.at != end:
            base = arrivals[entry.group, entry.p].text if entry.p != NULL else b''
        base = patched(base, entry.delta)
        arrival = Arrival(entry.group, entry.node, entry.p, entry.q, base, entry.at)
        known = arrivals.setdefault((entry.group, entry.node), arrival)
        if entry.group == CHANGESETS and (known.p, known.q) != (entry.p, entry.q):
            raise arrival.refused('Collision')
        end = entry.delta_at() + len(entry.delta)
    return arrivals


def patched(base, delta):
    """The base with each hunk's bytes in the place of those from its start to its end."""
    pieces, done = [], 0
    for start, end, data in bundles.hunks_of(delta):
        pieces += [base[done:start], data]
        done = end
    return b''.join(pieces) + base[done:]


def manifest_lines(arrivals, node):
    """Path, node and flag of each line of a manifest that came; the null manifest has none."""
    text = arrivals[MANIFESTS, node].text if node != NULL else b''
    lines = [line.split(b'\0') for line in text.split(b'\n')[:-1]]
    return [(path, bytes.fromhex(rest[:40].decode()), rest[40:]) for path, rest in lines]


def changeset_of(arrivals, arrival):
    """A changeset with its manifest and its files; all of them came."""
    fields = read_changeset(arrival.text)
    rows = [FileRow(path, flag, revision_of(arrivals[group_of_path(path), node])) for path, node, flag in manifest_lines(arrivals, fields.manifest)]
    over = arrivals[MANIFESTS, fields.manifest] if fields.manifest != NULL else None
    return Changeset((arrival.p, arrival.q), *fields[1:], over and in_order(over.p, over.q), tuple(rows))


def revision_of(arrival):
    metadata, body = read_file(arrival.text)
    return Revision(*in_order(arrival.p, arrival.q, metadata), metadata, body)


# ---- streams

def read_stream(data):
    """The objects that come, each once."""
    objects, end = {}, 0
    try:
        for object in streams.objects_of(data):
            objects.setdefault(object.id, object)
            end = object.content_at + len(object.content) + 1
    except ValueError:  # The line of an object that Git doesn't have is the only one of another form.
        raise Refused('Missing', NO_ID, end)
    return objects


class CommitFields(NamedTuple):
    tree: bytes
    parents: tuple
    author: bytes
    committer: bytes
    headers: bytes
    message: bytes


def read_commit(content):
    head, _, message = content.partition(b'\n\n')
    lines = (head + b'\n').split(b'\n')[:-1]
    count = next(number for number, line in enumerate(lines[1:]) if not line.startswith(b'parent '))
    parents = tuple(line[7:] for line in lines[1:1 + count])
    author, committer, *headers = lines[1 + count:]
    return CommitFields(lines[0][5:], parents, author[7:], committer[10:], b''.join(line + b'\n' for line in headers), message)


def tree_entries(content):
    """Mode, name and id of each entry of a tree."""
    entries, at = [], 0
    while at < len(content):
        mode, name = content[at:content.index(b'\0', at)].split(b' ', 1)
        at += len(mode) + len(name) + 2
        entries.append((mode, name, content[at:at + 20].hex().encode()))
        at += 20
    return entries
