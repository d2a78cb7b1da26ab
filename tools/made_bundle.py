"""A bundle of many changesets over many files, for benchmarks, and the texts that it stands for."""
import random

from formats import hg
from formats.hg import NULL

FILES = 200
FILES_OF_A_FOLDER = 20
LINES = 100
LINE = 80


class Store:
    """The revisions of one kind and path: the chunks so far, and the last node and text."""

    def __init__(self, texts):
        self.chunks = []
        self.node, self.text = NULL, b''
        self.texts = texts

    def add(self, text, hunks):
        """A node over the last one; its link, which isn't known yet, is put in by `linked`."""
        node = hg.node_id(self.node, NULL, text)
        self.chunks.append((node, self.node, b''.join(hunks)))
        self.node, self.text = node, text
        self.texts.write(text)
        return node

    def linked(self, links):
        """Pairs of a link node and the entry that has it."""
        return [(link, hg.entry(node, p, NULL, link, delta)) for (node, p, delta), link in zip(self.chunks, links)]


class File(Store):
    """A text of lines of one length, of which each revision changes a few."""

    def __init__(self, path, texts):
        super().__init__(texts)
        self.path = path
        self.links = []

    def revise(self, numbers):
        if not self.text:
            text = b''.join(new_line(numbers) for _ in range(LINES))
            return self.add(text, [hg.hunk(0, 0, text)])
        text, hunks = bytearray(self.text), []
        for place in sorted(numbers.sample(range(LINES), 3)):
            start, line = place * LINE, new_line(numbers)
            text[start:start + LINE] = line
            hunks.append(hg.hunk(start, start + LINE, line))
        return self.add(bytes(text), hunks)


def new_line(numbers):
    return b'%0*d\n' % (LINE - 1, numbers.randrange(10**60))


def write_bundle(count, path, texts_path, file_count=FILES, extras=b''):
    """A bundle in which each changeset changes one file, and the texts of all its revisions; the first changesets add the files, one each. The extras
    stand in each changeset behind its date."""
    write_parts([count], [path], texts_path, file_count, extras)


def write_parts(counts, paths, texts_path, file_count=FILES, extras=b''):
    """The same in parts of so many changesets, each a bundle over those before it."""
    count = sum(counts)
    numbers = random.Random(count)
    with open(texts_path, 'wb') as texts:
        files = [File(path_of(place, file_count), texts) for place in range(file_count)]
        changesets, manifests = Store(texts), Store(texts)
        lines = [b''] * file_count
        for number in range(count):
            place = number if number < file_count else numbers.randrange(file_count)
            commit(number, place, files, lines, manifests, changesets, numbers, extras)
    nodes = [node for node, _, _ in changesets.chunks]
    first = 0
    for size, path in zip(counts, paths):
        write_part(path, set(nodes[first:first + size]), changesets.linked(nodes), manifests.linked(nodes), [(f.path, f.linked(f.links)) for f in files])
        first += size


def write_part(path, links, changesets, manifests, files):
    """The bundle of the entries of these changesets."""
    def part(entries):
        return [chunk for link, chunk in entries if link in links]

    groups = [(name, part(entries)) for name, entries in files]
    with open(path, 'wb') as file:
        file.write(hg.bundle(part(changesets), part(manifests), [(name, entries) for name, entries in groups if entries]))


def path_of(place, file_count):
    """Paths of one length, which rise."""
    digits = len(str(file_count - 1))
    return b'folder%02d/file%0*d' % (place // FILES_OF_A_FOLDER, digits, place)


def row_count(count, file_count=FILES):
    """The rows of all manifests of such a bundle."""
    return sum(min(number, file_count) for number in range(1, count + 1))


def commit(number, place, files, lines, manifests, changesets, numbers, extras):
    file = files[place]
    line = hg.manifest_line(file.path, file.revise(numbers))
    start = place * len(line)
    hunk = hg.hunk(start, start + len(lines[place]), line)
    lines[place] = line
    manifest = manifests.add(b''.join(lines), [hunk])
    date = b'%d 0' % number + (b' ' + extras if extras else b'')
    text = b'%s\nAnn <ann@x>\n%s\n%s\n\nchangeset %d' % (manifest.hex().encode(), date, file.path, number)
    file.links.append(changesets.add(text, [hg.hunk(0, len(changesets.text), text)]))
