"""Bundles HG20 of one part `stream2`: the files of a store, as `hg clone --stream` gets them, which hg writes down as they are. They are made of an HG10UN
bundle with a whole history, in shares, so that several processes can make them at once. The forms are those of `hg help internals.bundle2` and
`hg help internals.revlogs`; that of the part's payload stands in Mercurial's streamclone.py (generatev2).
"""
import shutil
import struct
import zlib
from urllib.parse import quote

from formats.hg import NULL as NULL_NODE
from repositories import PIECE, Fault
from small_deltas import difference, read_chunk, read_magic, seven_bits, texts_of

ENTRY = struct.Struct('>20s20s20s20s')  # a node, its parents and its link node
INDEX = struct.Struct('>Qiiiiii20s12x')  # where data begins, over flags; sizes, numbers of the base, the link and the parents; a node
NUMBER = struct.Struct('>I')
KIND = b'STREAM2'
VERSION, INLINE, GENERAL_DELTA = 1, 1 << 16, 1 << 17
LONGEST_CHAIN, LARGEST_CHAIN = 1000, 2  # in revisions, and in lengths of the text
LEAST_COMPRESSED, LEVEL = 100, 1
METADATA = b'\1\n'  # what a file's text with metadata begins with
DRAFT = b'1 %s\n'
BRANCH = struct.Struct('>4sI')  # how a node begins, and the number of a branch's name
CLOSED = 1 << 31
STORE, CACHE = b's', b'c'


class Unfit(Fault):
    """The bundle has no whole history, or another form than the program writes."""


def write_share(source, target, share=0, shares=1):
    """Reads a bundle from a file, and writes to another those files that are in a share: the first one has changesets and manifests, and paths take turns in
    the others. Gives how many files they are and their bytes."""
    files = Files(target)
    read_magic(source)
    try:
        links = write_changesets(source, files) if share == 0 else read_links(source)
        write_group(source, files, b'00manifest', links, share == 0)
        number = 0
        while path := read_chunk(source):
            write_group(source, files, b'data/' + path, links, shares == 1 or share == 1 + number % (shares - 1), METADATA)
            number += 1
    except KeyError:
        raise Unfit('a revision or a changeset that another names isn\'t in the bundle') from None
    return files.count, files.size


def write_changesets(source, files):
    """The changesets, their branches, and that they are drafts, as hg has what it gets from a bundle. Gives the number of each node."""
    branches = Branches()
    changesets = read_changesets(source, branches)
    files.add_revisions(b'00changelog', changesets)
    files.add(STORE, b'phaseroots', [DRAFT % node.hex().encode() for node in sorted(changesets.roots)])
    for name, pieces in branches.files():
        files.add(CACHE, name, pieces)
    return changesets.numbers


def write_group(source, files, name, links, is_wanted, metadata=None):
    """The revisions of manifests or of a path, or past them."""
    if is_wanted:
        files.add_revisions(name, read_group(source, links, metadata))
    else:
        read_links(source)


def read_links(source):
    """Passes over a group, and gives the number of each node."""
    links = {}
    while entry := read_chunk(source):
        links[entry[:len(NULL_NODE)]] = len(links)
    return links


def read_changesets(source, branches):
    """The changesets, with whole texts alone; each goes to its branch too."""
    changesets = Revisions(form=VERSION)
    for number, (entry, _, text) in enumerate(texts_of(source, b'')):
        node, first, second, link = ENTRY.unpack_from(entry)
        if link != node:
            raise Unfit('a changeset has another link')
        changesets.add(node, first, second, number, text)
        branches.add(node, text)
    return changesets


def read_group(source, links, metadata=None):
    """The revisions of manifests, or of a path, where a text can begin with metadata. Of such a one hg keeps a single parent as the second."""
    revisions = Revisions()
    for entry, before, text in texts_of(source, b''):
        node, first, second, link = ENTRY.unpack_from(entry)
        if metadata and second == NULL_NODE and text and text.startswith(metadata):
            first, second = second, first
        revisions.add(node, first, second, links[link], text, before)
    return revisions


class Revisions:
    """A revlog: its index, and its data, which are whole texts and deltas over the revision before."""

    def __init__(self, form=VERSION | GENERAL_DELTA):
        self.form, self.index, self.data, self.size = form, [], [], 0
        self.numbers = {NULL_NODE: -1}
        self.roots = []
        self.chain, self.chain_size = 0, 0

    def add(self, node, first, second, link, text, before=None):
        """A revision with its parents, the number of its changeset, and its text, as a delta where the text before is given."""
        if text is None:
            raise Unfit('a text of the bundle isn\'t known')
        number = len(self.index)
        piece = self.delta_over(before, text) if before is not None and number else None
        base = number - 1
        if piece is None:
            piece, base = stored(text), number
            self.chain, self.chain_size = 0, len(piece)
        self.index.append(INDEX.pack(self.size << 16, len(piece), len(text), base, link, self.numbers[first], self.numbers[second], node))
        self.data.append(piece)
        self.size += len(piece)
        self.numbers[node] = number
        if first == second == NULL_NODE:
            self.roots.append(node)

    def delta_over(self, before, text):
        """As it is stored, where the chain of deltas stays within hg's own limits; else none."""
        delta = difference(before, text)
        piece = stored(delta)
        size = self.chain_size + len(piece)
        if len(delta) > len(text) or self.chain == LONGEST_CHAIN or size > LARGEST_CHAIN * len(text):
            return None
        self.chain, self.chain_size = self.chain + 1, size
        return piece

    def files(self):
        """The index, whose first entry has the form in place of where its data begins, and the data, where there are any."""
        form = self.form if self.size else self.form | INLINE
        self.index[0] = NUMBER.pack(form) + self.index[0][NUMBER.size:]
        return (b'.d', self.data), (b'.i', self.index)


class Branches:
    """The branch of each changeset, and whether that closes it, as hg keeps them in a cache (branchmap.py), which else it would make from all changesets."""

    def __init__(self):
        self.numbers, self.rows = {}, []

    def add(self, node, text):
        """Extras are behind the date in the third line of a changeset, with NUL between them."""
        date = text.split(b'\n', 3)[2]
        extras = dict(extra.partition(b':')[::2] for extras in date.split(b' ', 2)[2:] for extra in extras.split(b'\0'))
        number = self.numbers.setdefault(extras.get(b'branch', b'default'), len(self.numbers))
        self.rows.append(BRANCH.pack(node[:4], number | CLOSED if b'close' in extras else number))

    def files(self):
        """None where a name stands otherwise in its changeset than in the cache."""
        if any(b'\\' in name for name in self.numbers):
            return ()
        return (b'rbc-names-v1', [b'\0'.join(self.numbers)]), (b'rbc-revs-v1', self.rows)


def stored(text):
    """Compressed where that is shorter, as it is where it begins with NUL, and else behind a `u`."""
    if len(text) >= LEAST_COMPRESSED:
        piece = zlib.compress(text, LEVEL)
        if len(piece) < len(text):
            return piece
    return text if text[:1] in (b'', b'\0') else b'u' + text


class Files:
    """Files of a stream, in chunks of its part."""

    def __init__(self, target):
        self.target = target
        self.count = self.size = 0

    def add_revisions(self, name, revisions):
        """The files of a revlog; one without a revision, or without data, has none."""
        for suffix, pieces in revisions.files() if revisions.index else ():
            self.add(STORE, name + suffix, pieces)

    def add(self, place, name, pieces):
        """A file of the store, or a cache, by its plain name; hg encodes it."""
        data = b''.join(pieces)
        if data:
            self.write(place + seven_bits(len(name)) + seven_bits(len(data)) + name)
            for start in range(0, len(data), PIECE):
                self.write(data[start:start + PIECE])
            self.count += 1
            self.size += len(data)

    def write(self, piece):
        """A chunk of the part."""
        self.target.write(NUMBER.pack(len(piece)) + piece)


def write_stream(target, requirements, sizes, paths):
    """A bundle of one part, whose chunks are those of shares, each of so many files and bytes, at these paths. It has no parameters, the part has mandatory
    ones alone, and both have an end."""
    count, size = map(sum, zip(*sizes))
    texts = [('bytecount', str(size)), ('filecount', str(count)), ('requirements', quote(','.join(requirements)))]
    words = [word.encode() for pair in texts for word in pair]
    head = struct.pack(f'>B{len(KIND)}sIBB', len(KIND), KIND, 0, len(texts), 0) + bytes(map(len, words)) + b''.join(words)
    target.write(b'HG20' + NUMBER.pack(0) + NUMBER.pack(len(head)) + head)
    for path in paths:
        with open(path, 'rb') as share:
            shutil.copyfileobj(share, target, PIECE)
    target.write(NUMBER.pack(0) * 2)
