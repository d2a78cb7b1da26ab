"""The history that is made from a number: N changesets, each drawn from a generator of numbers that starts at a seed."""
from formats.hg import NULL
from members import Changeset, FileRow, Revision
from outputs import bundle_of
from rules import Parent, files_given, manifest_given, revision_given
from texts import Plain, copy_metadata

FACTOR, TERM, MODULUS, SHIFT = 6364136223846793005, 1442695040888963407, 1 << 64, 1 << 33
ZONES = (0, 3600, -19800, 90)
BRANCH = ((b'branch', b'stable'),)


class Draws:
    """Numbers below a bound, one after the other."""

    def __init__(self, seed):
        self.state = seed

    def below(self, bound):
        self.state = (self.state * FACTOR + TERM) % MODULUS
        return self.state // SHIFT % bound


class Alone:
    """A changeset without links."""
    links = ()

    def __init__(self, changeset):
        self.changeset = changeset


def made_bundle(count, seed):
    """The bundle of the whole history."""
    return bundle_of([Alone(changeset) for changeset in made_changesets(count, seed)])


def made_changesets(count, seed):
    """The changesets, each with all that it stands for."""
    draws, parents = Draws(seed), []
    for number in range(count):
        changeset = made_changeset(draws, parents, number)
        parents.append(Parent(changeset.node(), changeset.manifest, changeset.rows, changeset.manifest_node()))
        yield changeset


def made_changeset(draws, before, number):
    a, directory, file, executable, copied, user, zone, branch = [draws.below(bound) for bound in (8, 4, 8, 8, 4, 4, 4, 8)]
    parents = parents_made(before, number, a)
    path = b'd%d/f%d' % (directory, file)
    revision = revision_made(parents, path, b'%d\n' % number, copied == 0)
    kept = [row for row in (parents[0].rows if parents else ()) if row.path != path]
    rows = tuple(sorted([*kept, FileRow(path, b'' if executable else b'x', revision)]))
    users = (b'Ann <ann@x>', b'bob', b'carl@x', b'd<e>f')
    return Changeset(tuple(([parent.node for parent in parents] + [NULL, NULL])[:2]), users[user],
                     Plain(1000 * number, ZONES[zone], BRANCH if branch == 0 else ()),
                     files_given(rows, parents), b'c%d' % number, manifest_given(rows, parents), rows)


def parents_made(before, number, a):
    """The one before, mostly; else the one before that; or the one before and the third one back."""
    if number == 0:
        return []
    if a == 1 and number >= 2:
        return [before[number - 2]]
    if a == 0 and number >= 3:
        return [before[number - 1], before[number - 3]]
    return [before[number - 1]]


def revision_made(parents, path, body, is_copied):
    """The rule's revision of the body; or a copy of the first path of the first parent, where that is another one."""
    rows = parents[0].rows if parents else ()
    if is_copied and rows and rows[0].path != path:
        return Revision(NULL, NULL, copy_metadata(rows[0].path, rows[0].revision.node()), body)
    return revision_given(path, body, parents)
