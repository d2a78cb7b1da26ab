"""The texts of revisions, as values: fields of a changeset, metadata and body of a file; and users, dates and messages as each side writes them."""
import re
from typing import NamedTuple, Tuple

from formats.hg import NULL, escape

MARKER = b'\x01\n'
TIME_LIMIT = 1 << 62
ZONE_LIMIT = 1 << 31
PATH_LIMIT = 4096
COMPONENT_LIMIT = 256
BAD_COMPONENTS = (b'', b'.', b'..', b'.git', b'.hg')


# ---- words

def unescape(text):
    """The bytes of which this is the escape, or None."""
    raw = re.sub(rb'%([0-9A-F]{2})', lambda digits: bytes([int(digits[1], 16)]), text)
    return raw if escape(raw) == text else None


def decimal(text):
    """The number that is written so, without sign and leading zeros, or None."""
    return int(text) if re.fullmatch(rb'0|[1-9][0-9]{0,18}', text) else None


def signed(text, limit):
    """The number that is written so, with `-` where it is negative, and is at most the limit in size; or None."""
    if not re.fullmatch(rb'0|-?[1-9][0-9]{0,18}', text) or abs(int(text)) > limit:
        return None
    return int(text)


def node_of_hex(text):
    """The 20 bytes of 40 lower case hex digits, or None."""
    return bytes.fromhex(text.decode()) if re.fullmatch(rb'[0-9a-f]{40}', text) else None


def is_fit(path):
    """A path that both sides can have."""
    components = path.split(b'/')
    return (len(path) <= PATH_LIMIT and len(components) <= COMPONENT_LIMIT and not re.search(rb'[\0\n\r]', path)
            and not any(component in BAD_COMPONENTS for component in components))


def is_below(path, other):
    return path.startswith(other + b'/')


# ---- changesets

class Plain(NamedTuple):
    """A date line of two numbers, and extras as pairs of key and value."""
    time: int
    tz: int
    extras: Tuple[Tuple[bytes, bytes], ...] = ()


class Raw(NamedTuple):
    """Any other date line."""
    line: bytes


class Fields(NamedTuple):
    """What a changeset's text says."""
    manifest: bytes
    user: bytes
    date: object
    files: Tuple[bytes, ...]
    description: bytes


EXTRA_ESCAPES = {b'\\': b'\\\\', b'\n': b'\\n', b'\r': b'\\r', b'\0': b'\\0'}
EXTRA_UNESCAPES = {escaped: raw for raw, escaped in EXTRA_ESCAPES.items()}


def escape_extra(item):
    return re.sub(rb'[\\\n\r\0]', lambda byte: EXTRA_ESCAPES[byte[0]], item)


def unescape_extra(text):
    """The item of which this is the escape, or None."""
    item = re.sub(rb'\\[\\nr0]', lambda pair: EXTRA_UNESCAPES[pair[0]], text)
    return item if escape_extra(item) == text else None


def date_line(date):
    if isinstance(date, Raw):
        return date.line
    extras = b'\0'.join(escape_extra(key + b':' + value) for key, value in date.extras)
    return b'%d %d' % (date.time, date.tz) + (b' ' + extras if date.extras else b'')


def read_date(line):
    words = line.split(b' ', 2)
    if len(words) < 2:
        return Raw(line)
    time, tz = signed(words[0], TIME_LIMIT), signed(words[1], ZONE_LIMIT)
    extras = read_extras(words[2]) if len(words) == 3 else ()
    return Raw(line) if None in (time, tz, extras) else Plain(time, tz, extras)


def read_extras(text):
    """The items of a text that has at least one, with rising keys; or None."""
    items = [unescape_extra(item) for item in text.split(b'\0')]
    if None in items or any(item.find(b':') < 1 for item in items):
        return None
    extras = tuple(tuple(item.split(b':', 1)) for item in items)
    return extras if is_rising([key for key, _ in extras]) else None


def is_rising(keys):
    return all(one < next_one for one, next_one in zip(keys, keys[1:]))


def changeset_text(fields):
    lines = [fields.manifest.hex().encode(), fields.user, date_line(fields.date), *fields.files, b'', fields.description]
    return b'\n'.join(lines)


def read_changeset(text):
    """The fields that a text says, or None."""
    lines = text.split(b'\n', 3)
    if len(lines) < 4 or not lines[1] or node_of_hex(lines[0]) is None:
        return None
    files, end, description = (b'\n' + lines[3]).partition(b'\n\n')
    if not end:
        return None
    return Fields(node_of_hex(lines[0]), lines[1], read_date(lines[2]), tuple(files.split(b'\n')[1:]), description)


# ---- files

def file_text(metadata, body):
    """Metadata, where there are any, stand between two markers before the body."""
    return body if metadata is None else MARKER + metadata + MARKER + body


def read_file(text):
    """The metadata, or None for none, and the body; None for a text that begins with a marker and has no second one."""
    if not text.startswith(MARKER):
        return None, text
    end = text.find(MARKER, len(MARKER))
    return None if end < 0 else (text[len(MARKER):end], text[end + len(MARKER):])


def copy_of(metadata):
    """The path and the node of which a revision is a copy, where its metadata say exactly that; or None."""
    match = re.fullmatch(rb'copy: ([^\n]+)\ncopyrev: ([0-9a-f]{40})\n', metadata or b'')
    return match and (match[1], bytes.fromhex(match[2].decode()))


def copy_metadata(path, node):
    return b'copy: ' + path + b'\ncopyrev: ' + node.hex().encode() + b'\n'


def in_order(p, q, metadata=None):
    """The canonical order of the parents of a manifest or a file: rising; a null one last, or first where the metadata have a copy."""
    if NULL not in (p, q):
        return min(p, q), max(p, q)
    other = q if p == NULL else p
    has_copy = any(line.startswith(b'copy: ') for line in (metadata or b'').split(b'\n'))
    return (NULL, other) if has_copy else (other, NULL)


# ---- users, dates and messages

class Author(NamedTuple):
    """What a changeset says of its author: user, time and zone in seconds west of UTC."""
    user: bytes
    time: int
    tz: int


def line_of_author(author):
    """An author as a line of a commit."""
    name, email = name_and_email(author.user)
    return b'%s <%s> %d %s' % (name, email, max(author.time, 0), zone_of_tz(author.tz))


def name_and_email(user):
    match = re.fullmatch(rb'([^<>]+) <([^<>]*)>', user)
    if match:
        return match.groups()
    name = re.sub(rb'[<>]', b'', user) or b'unknown'
    return name, name if b'@' in name else b'none@none'


def zone_of_tz(tz):
    """Sign, hours and minutes; `+0000` where they can't say the zone."""
    if tz % 60 or abs(tz) >= 360000:
        return b'+0000'
    return (b'-' if tz > 0 else b'+') + b'%02d%02d' % divmod(abs(tz) // 60, 60)


def author_of_line(line):
    """The author that a line of a commit says; a line of another form is itself the user."""
    match = re.fullmatch(rb'([^<>]*) <([^<>]*)> (0|[1-9][0-9]{0,18}) ([+-])([0-9]{2})([0-9]{2})', line)
    if not match or int(match[3]) > TIME_LIMIT:
        return Author(line or b'unknown', 0, 0)
    name, email, seconds, sign, hours, minutes = match.groups()
    west = int(hours) * 3600 + int(minutes) * 60
    return Author(user_of_name(name, email), int(seconds), west if sign == b'-' else -west)


def user_of_name(name, email):
    if email == b'none@none' and name and b'@' not in name:
        return name
    if email == name and b'@' in name:
        return name
    return name + b' <' + email + b'>' if name else b'<' + email + b'>'


def message_of(description):
    return description + b'\n'


def description_of(message):
    return message[:-1] if message.endswith(b'\n') else message
