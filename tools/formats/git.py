"""Git's side: objects, their ids, and streams as `git cat-file --batch` writes them."""
import hashlib
from typing import Iterator, NamedTuple


def object_id(kind, content):
    """The hex id of an object."""
    return hashlib.sha1(kind + b' %d\0' % len(content) + content).hexdigest().encode()


def stream_object(kind, content):
    """One object of a stream."""
    return b'%s %s %d\n%s\n' % (object_id(kind, content), kind, len(content), content)


def tree_entry(mode, name, hex_id):
    return mode + b' ' + name + b'\0' + bytes.fromhex(hex_id.decode())


def commit_content(tree, parents, line, message, headers=b''):
    """A commit with one line for author and committer."""
    parent_lines = b''.join(b'parent ' + p + b'\n' for p in parents)
    return (b'tree ' + tree + b'\n' + parent_lines + b'author ' + line + b'\ncommitter ' + line + b'\n'
            + headers + b'\n' + message)


class StreamObject(NamedTuple):
    """An object of a stream: `at` is where its line begins and `content_at` where its content does."""
    id: bytes
    kind: bytes
    content: bytes
    at: int
    content_at: int


def objects_of(data) -> Iterator[StreamObject]:
    """The objects of a stream that is known to be well-formed."""
    at = 0
    while at < len(data):
        start = data.index(b'\n', at) + 1
        id, kind, size = data[at:start - 1].split(b' ')
        end = start + int(size)
        yield StreamObject(id, kind, data[start:end], at, start)
        at = end + 1
