"""Streams of many commits of one kind, for benchmarks."""
from formats import git

FILES = 20
SIDES = 2


class Made:
    """The objects so far, and the ids of the blobs of the files."""

    def __init__(self, file):
        self.file = file
        self.blobs = [self.put(b'blob', b'%080d\n' % place) for place in range(FILES)]

    def put(self, kind, content):
        self.file.write(git.stream_object(kind, content))
        return git.object_id(kind, content)

    def change(self, number):
        self.blobs[number % FILES] = self.put(b'blob', b'%080d\n' % (FILES + number))

    def commit(self, number, parents):
        """A commit; each but the first changes one file."""
        if parents:
            self.change(number)
        tree = self.put(b'tree', b''.join(git.tree_entry(b'100644', b'file%02d' % place, id) for place, id in enumerate(self.blobs)))
        return self.commit_of(tree, number, parents)

    def commit_of(self, tree, number, parents):
        return self.put(b'commit', git.commit_content(tree, parents, b'Ann <ann@x> %d +0000' % number, b'commit %d\n' % number))

    def folder(self, file_count, blob):
        """A tree of so many files with one body."""
        return self.put(b'tree', b''.join(git.tree_entry(b'100644', b'file%06d' % place, blob) for place in range(file_count)))


def write_octopuses(count, path):
    """A stream of octopus commits one over another, each over two commits of its own beside: so many, and twice as many others."""
    with open(path, 'wb') as file:
        made = Made(file)
        last, number = made.commit(0, []), 1
        for _ in range(count):
            sides = [made.commit(number + side, [last]) for side in range(SIDES)]
            last = made.commit(number + SIDES, [last] + sides)
            number += SIDES + 1


def write_branches(count, file_count, path):
    """A stream of two branches that change no file, whose commits come in turn: so many in all. Each file of one has another body than that of the other."""
    with open(path, 'wb') as file:
        made = Made(file)
        trees = [made.folder(file_count, id) for id in made.blobs[:2]]
        last = [[], []]
        for number in range(count):
            side = number % 2
            last[side] = [made.commit_of(trees[side], number, last[side])]
