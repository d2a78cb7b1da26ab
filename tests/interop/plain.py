"""What `list-hg` has to answer, by a plain reader of the framing that keeps nothing back for speed."""
from formats.hg import MAGIC, escape
from program import done, refused

DELTA_LIMIT = 1 << 27
PATH_LIMIT = 4100
HEADER_SIZE = 80


class Bad(Exception):
    """The input is refused, by this name and at this place."""


def listing(data):
    """The answer to an input that is below the limit of an input."""
    try:
        return done(b''.join(_lines(data)))
    except Bad as bad:
        return refused(*bad.args)


def _lines(data):
    _read_magic(data)
    at, lines = _read_group(data, len(MAGIC), b'changeset')
    at, more = _read_group(data, at, b'manifest')
    lines += more
    while True:
        path, at = _read_chunk(data, at, PATH_LIMIT)
        if not path:
            break
        at, more = _read_group(data, at, b'file ' + escape(path))
        lines += more
    if at < len(data):
        raise Bad('Trailing', at)
    return lines


def _read_magic(data):
    if len(data) < len(MAGIC):
        raise Bad('Truncated', len(data))
    if data[:6] in (b'HG10GZ', b'HG10BZ') or data[:4] == b'HG20':
        raise Bad('OtherBundle', 0)
    if data[:6] != MAGIC:
        raise Bad('Magic', 0)


def _read_group(data, at, words):
    lines = []
    while True:
        payload, end = _read_chunk(data, at, DELTA_LIMIT)
        if not payload:
            return end, lines
        if len(payload) < HEADER_SIZE:
            raise Bad('HeaderShort', at)
        ids = [payload[i:i + 20].hex().encode() for i in range(0, HEADER_SIZE, 20)]
        lines.append(b' '.join([words, *ids, b'%d\n' % (len(payload) - HEADER_SIZE)]))
        at = end


def _read_chunk(data, at, limit):
    """The payload of the chunk at a place, and where the next one stands."""
    if at + 4 > len(data):
        raise Bad('Truncated', len(data))
    size = int.from_bytes(data[at:at + 4], 'big')
    if size == 0:
        return b'', at + 4
    if size <= 4 or size >= 1 << 31:
        raise Bad('Length', at)
    if at + size > len(data):
        raise Bad('Truncated', len(data))
    if size > limit:
        raise Bad('Limit', at)
    return data[at + 4:at + size], at + size
