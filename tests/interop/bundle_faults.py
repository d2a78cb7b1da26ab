"""What `check-hg` refuses: for each kind of refusal a bundle that has it, its id and its place."""
from formats import hg
from formats.hg import NULL
from program import done, refused

ONE, TWO = b'\x11' * 20, b'\x22' * 20
TEXT = b'0' * 40 + b'\nAnn\n0 0\n\nx'
NODE = hg.node_id(NULL, NULL, TEXT)
TEXT_LIMIT = 1 << 24
FILE_LIMIT = 1 << 26
SUM_LIMIT = 1 << 30


def check(report, program):
    for name, data, answer in accepted() + bad_ancestry() + bad_hunks() + bad_texts() + collisions() + over_limits():
        report.check(f'check-hg: {name}', program.run(['check-hg'], data), answer)


def counted(changesets, manifests, files):
    return done(b'changesets %d\nmanifests %d\nfiles %d\n' % (changesets, manifests, files))


def fault(name, node, place):
    return refused(name, place, node.hex().encode())


def changeset(node, text, p=NULL, q=NULL, base=b''):
    return hg.entry(node, p, q, node, hg.whole_delta(len(base), text))


def over(text, p=NULL, q=NULL):
    """A text with the node that it has over its parents."""
    return hg.node_id(p, q, text), text


def below(node, text, link=NODE):
    """The first entry of a manifest or a file that a changeset brings."""
    return hg.entry(node, NULL, NULL, link, hg.whole_delta(0, text))


FIRST = changeset(NODE, TEXT)
BEHIND_FIRST = 6 + len(FIRST) + 4


def accepted():
    return [
        ('the least bundle', hg.bundle(), counted(0, 0, 0)),
        ('a changeset', hg.bundle([FIRST]), counted(1, 0, 0)),
        ('a changeset twice', hg.bundle([FIRST, hg.entry(NODE, NULL, NULL, NODE, b'')]), counted(2, 0, 0)),
    ]


def bad_ancestry():
    return [
        ('a null parent before another', hg.bundle([changeset(ONE, TEXT, NULL, TWO)]), fault('ParentOrder', ONE, 6)),
        ('a parent twice', hg.bundle([changeset(ONE, TEXT, TWO, TWO)]), fault('ParentOrder', ONE, 6)),
        ('an unknown parent', hg.bundle([changeset(ONE, TEXT, TWO)]), fault('ParentUnknown', ONE, 6)),
        ('a changeset that links another', hg.bundle([hg.entry(NODE, NULL, NULL, ONE, hg.whole_delta(0, TEXT))]),
         fault('LinkUnknown', NODE, 6)),
        ('a manifest that links an unknown changeset', hg.bundle([FIRST], [below(ONE, b'', TWO)]),
         fault('LinkUnknown', ONE, BEHIND_FIRST)),
    ]


def bad_hunks():
    def with_delta(delta):
        return hg.bundle([hg.entry(ONE, NULL, NULL, ONE, delta)])

    delta_at = 6 + 4 + hg.HEADER_SIZE
    two = hg.hunk(0, 0, b'ab') + hg.hunk(1, 1, b'')
    return [
        ('a hunk of 11 bytes', with_delta(bytes(11)), fault('HunkShape', ONE, delta_at)),
        ('a hunk whose bytes are cut', with_delta(hg.hunk(0, 0, b'ab')[:-1]), fault('HunkShape', ONE, delta_at)),
        ('a hunk behind the base', with_delta(hg.hunk(0, 7, b'')), fault('HunkRange', ONE, delta_at)),
        ('a second hunk behind the base', with_delta(two), fault('HunkRange', ONE, delta_at + 14)),
        ('a cut hunk behind one out of range', with_delta(hg.hunk(0, 7, b'') + bytes(5)), fault('HunkShape', ONE, delta_at + 12)),
        ('a hunk of negative numbers', with_delta(b'\xff' * 8 + bytes(4)), fault('HunkRange', ONE, delta_at)),
    ]


def bad_texts():
    shapeless = over(b'no changeset')
    manifest = over(b'no manifest\n')
    unfit = over(hg.manifest_line(b'a//b', ONE))
    file = over(b'\x01\nno second mark')
    path_at = BEHIND_FIRST + 4
    return [
        ('another node', hg.bundle([changeset(ONE, b'')]), fault('NodeWrong', ONE, 6)),
        ('a text that is no changeset', hg.bundle([changeset(*shapeless)]), fault('ChangesetShape', shapeless[0], 6)),
        ('a text that is no manifest', hg.bundle([FIRST], [below(*manifest)]), fault('ManifestShape', manifest[0], BEHIND_FIRST)),
        ('a manifest with an unfit path', hg.bundle([FIRST], [below(*unfit)]), fault('PathUnfit', unfit[0], BEHIND_FIRST)),
        ('an unfit path', hg.bundle([FIRST], [], [(b'.hg/a', [])]), refused('PathUnfit', path_at)),
        ('a text that is no file', hg.bundle([FIRST], [], [(b'a', [below(*file)])]), fault('FileShape', file[0], path_at + 5)),
    ]


def collisions():
    """A merge that comes again with its parents the other way round has the same node."""
    other_text = TEXT + b'y'
    other = hg.node_id(NULL, NULL, other_text)
    node = hg.node_id(NODE, other, TEXT)
    entries = [FIRST, changeset(other, other_text, base=TEXT), changeset(node, TEXT, NODE, other, other_text)]
    swapped = changeset(node, TEXT, other, NODE, TEXT)
    return [
        ('a merge', hg.bundle(entries), counted(3, 0, 0)),
        ('a merge and its parents swapped', hg.bundle(entries + [swapped]),
         fault('Collision', node, 6 + sum(map(len, entries)))),
    ]


def over_limits():
    largest = TEXT + b'x' * (TEXT_LIMIT - len(TEXT))
    too_large = over(largest + b'x')
    file = over(b'x' * FILE_LIMIT)
    times = SUM_LIMIT // FILE_LIMIT
    again = hg.entry(file[0], NULL, NULL, NODE, b'')
    files = [below(*file)] + [again] * (times - 1)
    first_file = BEHIND_FIRST + 4 + 5
    return [
        ('a changeset of the largest size', hg.bundle([changeset(*over(largest))]), counted(1, 0, 0)),
        ('a changeset of one byte more', hg.bundle([changeset(*too_large)]), fault('Limit', too_large[0], 6)),
        ('texts whose sum passes its limit by that of a changeset', hg.bundle([FIRST], [], [(b'a', files)]),
         refused('InputLimit', first_file + sum(map(len, files[:times - 1])))),
    ]
