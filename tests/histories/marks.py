"""Lists of marks, read and written: in a commit's headers and in a changeset's extras."""
from typing import NamedTuple, Optional, Tuple

from formats.hg import escape, hex_of
from members import Item
from texts import TIME_LIMIT, ZONE_LIMIT, decimal, is_rising, node_of_hex, signed, unescape

LEAST_OCTOPUS, MOST_PARENTS = 3, 64
NULL_MANIFEST = b'null'


# ---- a commit's headers

class Rename(NamedTuple):
    """A revision without parents that is a copy of what a parent has at a path."""
    source: bytes


class File(NamedTuple):
    """The parents of a revision, and its metadata or None."""
    p: bytes
    q: bytes
    metadata: Optional[bytes]


class CommitMarks(NamedTuple):
    """What headers say of a changeset; None, or no items, where they say nothing. A manifest is `null` or two parents."""
    revisions: Tuple[Tuple[bytes, object], ...] = ()
    manifest: object = None
    files: Optional[Tuple[bytes, ...]] = None
    user: Optional[bytes] = None
    date: Optional[Tuple[int, int]] = None
    raw: Optional[bytes] = None
    extras: Tuple[Tuple[bytes, bytes], ...] = ()


def headers_of(marks):
    lines = [revision_line(path, mark) for path, mark in marks.revisions]
    if marks.manifest is not None:
        lines.append(line_of(b'manifest', *([NULL_MANIFEST] if marks.manifest == NULL_MANIFEST else map(hex_of, marks.manifest))))
    if marks.files is not None:
        lines.append(line_of(b'files', b'%d' % len(marks.files), *map(escape, marks.files)))
    if marks.user is not None:
        lines.append(line_of(b'user', escape(marks.user)))
    if marks.date is not None:
        lines.append(line_of(b'date', *[b'%d' % number for number in marks.date]))
    if marks.raw is not None:
        lines.append(line_of(b'raw', escape(marks.raw)))
    lines += [line_of(b'extra', escape(key), escape(value)) for key, value in marks.extras]
    return b''.join(lines)


def line_of(word, *tokens):
    return b' '.join([b'HG:' + word, *tokens]) + b'\n'


def revision_line(path, mark):
    if isinstance(mark, Rename):
        return line_of(b'rename', escape(path), escape(mark.source))
    metadata = b'-' if mark.metadata is None else b'=' + escape(mark.metadata)
    return line_of(b'file', escape(path), hex_of(mark.p), hex_of(mark.q), metadata)


KINDS = [b'HG:rename', b'HG:file', b'HG:manifest', b'HG:files', b'HG:user', b'HG:date', b'HG:raw', b'HG:extra']


def read_headers(headers):
    """The marks that headers say, or None where they are no list of marks. A list is the text that its marks are written as."""
    values = {kind: [] for kind in KINDS}
    for line in headers.split(b'\n')[:-1]:
        kind, *tokens = line.split(b' ')
        value = read_mark(kind, tokens) if kind in values else None
        if value is None:
            return None
        values[kind].append(value)
    if any(len(values[kind]) > 1 for kind in KINDS[2:7]) or values[b'HG:raw'] and (values[b'HG:date'] or values[b'HG:extra']):
        return None
    single = [values[kind][0] if values[kind] else None for kind in KINDS[2:7]]
    revisions = tuple(sorted(values[b'HG:rename'] + values[b'HG:file'], key=lambda mark: mark[0]))
    extras = tuple(values[b'HG:extra'])
    marks = CommitMarks(revisions, *single, extras)
    rises = is_rising([path for path, _ in revisions]) and is_rising([key for key, _ in extras])
    return marks if rises and headers_of(marks) == headers else None


def read_mark(kind, tokens):
    """What one line says, or None where it is of no form."""
    if kind == b'HG:rename' and len(tokens) == 2:
        path, source = map(unescape, tokens)
        return None if None in (path, source) else (path, Rename(source))
    if kind == b'HG:file' and len(tokens) == 4:
        return read_file_mark(tokens)
    if kind == b'HG:manifest':
        return NULL_MANIFEST if tokens == [NULL_MANIFEST] else all_or_none(map(node_of_hex, tokens), 2)
    if kind == b'HG:files' and tokens and decimal(tokens[0]) == len(tokens) - 1:
        return all_or_none(map(unescape, tokens[1:]), len(tokens) - 1)
    if kind in (b'HG:user', b'HG:raw') and len(tokens) == 1:
        return unescape(tokens[0])
    if kind == b'HG:date' and len(tokens) == 2:
        return all_or_none([signed(tokens[0], TIME_LIMIT), signed(tokens[1], ZONE_LIMIT)], 2)
    if kind == b'HG:extra':
        return all_or_none(map(unescape, tokens), 2)
    return None


def read_file_mark(tokens):
    path, p, q = unescape(tokens[0]), node_of_hex(tokens[1]), node_of_hex(tokens[2])
    metadata = unescape(tokens[3][1:]) if tokens[3][:1] == b'=' else None
    if None in (path, p, q) or metadata is None and tokens[3] != b'-':
        return None
    return path, File(p, q, metadata)


def all_or_none(values, count):
    values = tuple(values)
    return values if len(values) == count and None not in values else None


# ---- a changeset's extras

class ChangesetMarks(NamedTuple):
    """What extras say of a commit; None where they say nothing."""
    author: Optional[bytes] = None
    committer: Optional[bytes] = None
    headers: Optional[bytes] = None
    message: Optional[bytes] = None
    parents: Optional[int] = None
    residue: Optional[Tuple[Item, ...]] = None


KEYS = [b'hg-git-author', b'hg-git-committer', b'hg-git-headers', b'hg-git-message', b'hg-git-parents', b'hg-git-tree']


def extras_of(marks):
    """The keys rise in this order."""
    texts = [None if text is None else escape(text) for text in marks[:4]]
    texts.append(None if marks.parents is None else b'%d' % marks.parents)
    texts.append(None if marks.residue is None else b' '.join(map(item_text, marks.residue)))
    return tuple((key, text) for key, text in zip(KEYS, texts) if text is not None)


def item_text(item):
    return b':'.join([item.kind, *([item.id] if item.kind == b'link' else []), escape(item.path)])


def read_extras(extras):
    """The marks that extras say, or None where they are no list of marks."""
    texts = dict(extras)
    if not set(texts) <= set(KEYS):
        return None
    lines = [unescape(texts[key]) if key in texts else None for key in KEYS[:4]]
    number = decimal(texts[b'hg-git-parents']) if b'hg-git-parents' in texts else None
    residue = read_residue(texts[b'hg-git-tree']) if b'hg-git-tree' in texts else None
    marks = ChangesetMarks(*lines, number, residue)
    if number is not None and not LEAST_OCTOPUS <= number <= MOST_PARENTS:
        return None
    return marks if extras_of(marks) == tuple(extras) else None


def read_residue(text):
    """The items that a text says, with rising paths; or None."""
    items = [read_item(item) for item in text.split(b' ')] if text else []
    if None in items or not is_rising([item.path for item in items]):
        return None
    return tuple(items)


def read_item(text):
    kind, *rest = text.split(b':', 2 if text.startswith(b'link:') else 1)
    path = unescape(rest[-1]) if rest else None
    if path is None or kind not in (b'group', b'link', b'empty'):
        return None
    if kind != b'link':
        return Item(path, kind)
    return Item(path, kind, rest[0]) if len(rest) == 2 and node_of_hex(rest[0]) is not None else None
