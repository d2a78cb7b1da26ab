"""Bundles: chunks, framing, listings, additions to the known revisions, and whole readings."""
import struct

from antt.values import Con
from checks import NULL, ONE, THREE, TWO, just, record, refusal
from formats import hg

INPUT_LIMIT = 536870912
PATH_LIMIT = 4100
DELTA_LIMIT = 134217728
LEAST = hg.MAGIC + bytes(12)
TEXT = b'0' * 40 + b'\nAnn\n0 0\n\nx'
FIRST = hg.node_id(NULL, NULL, TEXT)
OTHER_TEXT = TEXT + b'y'
OTHER = hg.node_id(NULL, NULL, OTHER_TEXT)


def check(checks):
    check_chunks(checks)
    check_magics(checks)
    check_ends(checks)
    check_listings(checks)
    check_limits(checks)
    check_additions(checks)
    check_readings(checks)
    check_bases(checks)


def field(n):
    return struct.pack('>I', n)


def fault(name, place):
    return just(refusal(name, place))


def check_chunks(checks):
    whole = hg.chunk(bytes(80))
    end = INPUT_LIMIT
    checks.table('hg_model.Chunk.chunk_fault', [
        ('an empty chunk', (PATH_LIMIT, 6, field(0)), None),
        ('a chunk with bytes behind it', (PATH_LIMIT, 6, field(5) + b'abc'), None),
        ('no chunk', (PATH_LIMIT, 6, b''), fault('Truncated', 6)),
        ('three bytes of a length', (PATH_LIMIT, 6, bytes(3)), fault('Truncated', 9)),
        ('a length of 1', (PATH_LIMIT, 6, field(1)), fault('Length', 6)),
        ('a length of 4', (PATH_LIMIT, 6, field(4)), fault('Length', 6)),
        ('a length of 5 without its payload', (PATH_LIMIT, 6, field(5)), fault('Truncated', 10)),
        ('the least negative length', (PATH_LIMIT, 6, field(2**31)), fault('Length', 6)),
        ('a length of -1', (PATH_LIMIT, 6, field(2**32 - 1)), fault('Length', 6)),
        ('the largest length', (PATH_LIMIT, 6, field(2**31 - 1)), fault('Truncated', 10)),
        ('a path chunk of the largest size', (PATH_LIMIT, 14, hg.chunk(bytes(4096))), None),
        ('a path chunk of one byte more', (PATH_LIMIT, 14, hg.chunk(bytes(4097))), fault('Limit', 14)),
        ('a path chunk of one byte more that is cut', (PATH_LIMIT, 14, hg.chunk(bytes(4097))[:-1]), fault('Truncated', 4114)),
        ('a chunk that ends with the largest input', (DELTA_LIMIT, end - 84, whole), None),
        ('a chunk that ends one byte later', (DELTA_LIMIT, end - 83, whole), fault('InputLimit', end)),
        ('a chunk that is cut at the largest input', (DELTA_LIMIT, end - 83, whole[:-1]), fault('Truncated', end)),
        ('a chunk that is cut past the largest input', (DELTA_LIMIT, end - 10, whole[:11]), fault('InputLimit', end)),
        ('a length across the end of the largest input', (DELTA_LIMIT, end - 3, field(0)), fault('InputLimit', end)),
        ('a length that is cut there', (DELTA_LIMIT, end - 3, bytes(3)), fault('Truncated', end)),
        ('a bad length at the end of the largest input', (DELTA_LIMIT, end - 4, field(1)), fault('Length', end - 4)),
        ('a chunk over its limit and past the largest input', (PATH_LIMIT, end - 9, hg.chunk(bytes(4097))), fault('InputLimit', end)),
    ])
    checks.equal('the limit of a delta chunk', DELTA_LIMIT, 'hg_model.Bundle.length_limit', Con('InGroup', (Con('Manifests'),)))
    checks.equal('the limit of a path chunk', PATH_LIMIT, 'hg_model.Bundle.length_limit', Con('AtPath'))
    checks.equal('the text of the empty chunk', bytes(4), 'hg_model.Chunk.chunk_text', b'')
    checks.equal('the text of a chunk', b'\0\0\0\x06ab', 'hg_model.Chunk.chunk_text', b'ab')
    checks.equal('the payload of a chunk', b'ab', 'hg_model.Chunk.first_payload', b'\0\0\0\x06abcd')


def check_magics(checks):
    checks.table('hg_model.Chunk.magic_fault', [
        ('the magic', (b'HG10UN..',), None),
        ('no magic', (b'',), fault('Truncated', 0)),
        ('five bytes of a magic', (b'HG10U',), fault('Truncated', 5)),
        ('a cut magic of another bundle', (b'HG20',), fault('Truncated', 4)),
        ('a gzip bundle', (b'HG10GZ',), fault('OtherBundle', 0)),
        ('a bzip2 bundle', (b'HG10BZ',), fault('OtherBundle', 0)),
        ('any bundle of the second format', (b'HG20xx',), fault('OtherBundle', 0)),
        ('a magic in small letters', (b'hg10un',), fault('Magic', 0)),
        ('another magic', (b'abcdef',), fault('Magic', 0)),
    ])


def check_ends(checks):
    for size in range(len(LEAST)):
        checks.equal(f'the least bundle cut to {size} bytes', just(refusal('Truncated', size)),
                     'hg_model.Bundle.listing_fault', LEAST[:size])
    data = example()
    for size in range(0, len(data), 7):
        checks.equal(f'a bundle cut to {size} bytes', just(refusal('Truncated', size)),
                     'hg_model.Bundle.listing_fault', data[:size])
    checks.equal('a byte behind a bundle', just(refusal('Trailing', 427)), 'hg_model.Bundle.listing_fault', data + b'x')
    empty = record(items=[], bad=None)
    checks.equal('the least bundle', empty, 'hg_model.Bundle.bundle_framing', LEAST)
    checks.equal('the text of the least bundle', LEAST, 'hg_model.Bundle.bundle_text',
                 record(changesets=[], manifests=[], files=[]))


def example():
    """One changeset with a file `a` of the line `hello`."""
    file = hg.node_id(NULL, NULL, b'hello\n')
    lines = hg.manifest_line(b'a', file)
    manifest = hg.node_id(NULL, NULL, lines)
    text = manifest.hex().encode() + b'\nAnn <ann@x>\n0 0\na\n\none'
    node = hg.node_id(NULL, NULL, text)
    return hg.bundle([added(node, text)], [added(manifest, lines, node)], [(b'a', [added(file, b'hello\n', node)])])


def added(node, text, link=None, p=NULL, q=NULL, base=b''):
    """An entry whose delta replaces its whole base."""
    return hg.entry(node, p, q, link or node, hg.whole_delta(len(base), text))


def check_listings(checks):
    short, entry = hg.chunk(bytes(79)), hg.entry(ONE, NULL, NULL, ONE, b'')
    groups = hg.MAGIC + bytes(8)
    checks.table('hg_model.Bundle.listing_fault', [
        ('the least bundle is listed', (LEAST,), None),
        ('an entry without a delta is listed', (hg.bundle([entry]),), None),
        ('a payload of 79 bytes', (hg.MAGIC + short + bytes(12),), just(refusal('HeaderShort', 6))),
        ('a payload of one byte', (hg.MAGIC + hg.chunk(b'x') + bytes(12),), just(refusal('HeaderShort', 6))),
        ('a short payload behind an entry', (hg.bundle([entry, short]),), just(refusal('HeaderShort', 90))),
        ('a short payload before a bad length', (hg.MAGIC + short + field(1),), just(refusal('HeaderShort', 6))),
        ('a bad length before a short payload', (hg.MAGIC + field(1) + short,), just(refusal('Length', 6))),
        ('a short payload of a file', (hg.bundle(files=[(b'a', [short])]),), just(refusal('HeaderShort', 19))),
        ('a path twice, with empty groups', (hg.bundle(files=[(b'a', []), (b'a', [])]),), None),
        ('a path that is not fit is listed', (hg.bundle(files=[(b'../a', [entry])]),), None),
        ('a path that is too long', (groups + hg.chunk(b'a' * 4097) + bytes(8),), just(refusal('Limit', 14))),
        ('a bad length where a path is due', (groups + field(3),), just(refusal('Length', 14))),
        ('a bundle behind a bundle', (LEAST + LEAST,), just(refusal('Trailing', 18))),
    ])
    zeros, ones, twos = b' ' + b'0' * 40, b' ' + b'1' * 40, b' ' + b'2' * 40
    checks.compare('the line of a changeset', b'changeset' + ones + zeros + zeros + ones + b' 0\n',
                   lambda: listed(checks, hg.bundle([entry])))
    entry = hg.entry(ONE, TWO, NULL, TWO, b'12345')
    checks.compare('the line of a manifest', b'manifest' + ones + twos + zeros + twos + b' 5\n',
                   lambda: listed(checks, hg.bundle([], [entry])))
    checks.compare('the line of a file', b'file a%20b/%C3%A9' + ones + twos + zeros + twos + b' 5\n',
                   lambda: listed(checks, hg.bundle(files=[('a b/é'.encode(), [entry])])))
    checks.compare('the sizes of an example', [b'75', b'55', b'18'],
                   lambda: [line.split(b' ')[-1] for line in bytes(listed(checks, example())).splitlines()])
    check_bundle_value(checks)


def listed(checks, data):
    return checks.value('hg_model.Bundle.listing', checks.value('hg_model.Bundle.bundle_framing', data)['items'])


def check_bundle_value(checks):
    """The relational reading of a bundle and the one of any bytes agree on a bundle."""
    def entry(node, delta):
        return record(node=node, p=NULL, q=TWO, link=THREE, delta=delta)

    value = record(changesets=[entry(ONE, b'ab')], manifests=[entry(TWO, b''), entry(ONE, b'c')],
                   files=[record(path=b'a', entries=[entry(ONE, b'')]), record(path=b'b c', entries=[])])
    data = hg.bundle([hg.entry(ONE, NULL, TWO, THREE, b'ab')],
                     [hg.entry(TWO, NULL, TWO, THREE, b''), hg.entry(ONE, NULL, TWO, THREE, b'c')],
                     [(b'a', [hg.entry(ONE, NULL, TWO, THREE, b'')]), (b'b c', [])])
    checks.equal('the text of a bundle', data, 'hg_model.Bundle.bundle_text', value)
    ids = b'0' * 40 + b' ' + b'2' * 40 + b' ' + b'3' * 40
    lines = (b'changeset ' + b'1' * 40 + b' ' + ids + b' 2\nmanifest ' + b'2' * 40 + b' ' + ids + b' 0\n'
             b'manifest ' + b'1' * 40 + b' ' + ids + b' 1\nfile a ' + b'1' * 40 + b' ' + ids + b' 0\n')
    checks.equal('the lines of a bundle', lines, 'hg_model.Bundle.bundle_lines', value)
    checks.compare('the lines of its text', lines, lambda: listed(checks, data))


def check_limits(checks):
    changesets = Con('Changesets')
    checks.equal('the limit of a changeset', 16777216, 'hg_model.Reading.text_limit', changesets)
    checks.equal('the limit of a manifest', 67108864, 'hg_model.Reading.text_limit', Con('Manifests'))
    checks.equal('the limit of a file', 67108864, 'hg_model.Reading.text_limit', Con('FilesAt', (b'a',)))
    checks.equal('the limit of the texts of a bundle', 1073741824, 'hg_model.Reading.sum_limit')
    entry = record(node=ONE, p=NULL, q=NULL, link=ONE, delta=b'')
    text = Con('Is', (b'abc',))
    checks.table('hg_model.Reading.entry_fault', [
        ('texts that reach their limit', ([], 2**30 - 3, changesets, 6, entry, text), just(refusal('NodeWrong', 6, ONE))),
        ('texts that pass their limit', ([], 2**30 - 2, changesets, 6, entry, text), just(refusal('InputLimit', 6))),
    ])


def revision(group, node, text, p=NULL, q=NULL, link=None):
    return record(group=group, node=node, p=p, q=q, link=link or node, text=text)


def with_node(group, text, p=NULL, q=NULL, link=None):
    """A revision that has the node of its parents and its text."""
    return revision(group, hg.node_id(bytes(p), bytes(q), text), text, p, q, link)


def check_additions(checks):
    changesets, manifests, file = Con('Changesets'), Con('Manifests'), Con('FilesAt', (b'a',))
    first, other = revision(changesets, FIRST, TEXT), revision(changesets, OTHER, OTHER_TEXT)
    merge = with_node(changesets, TEXT, FIRST, OTHER)
    one, two = with_node(file, b'1', link=FIRST), with_node(file, b'2', link=FIRST)
    merged = with_node(file, b'3', one['node'], two['node'], FIRST)
    empty = with_node(manifests, b'', link=FIRST)
    known = [first, other, merge, one, two, merged, empty]

    def named(name):
        return just(Con(name))

    checks.table('hg_model.Revision.addition_fault', [
        ('a first changeset', ([], first), None),
        ('a changeset that is known', (known, first), None),
        ('a merge', ([first, other], merge), None),
        ('a null first parent', (known, with_node(changesets, TEXT, NULL, FIRST)), named('ParentOrder')),
        ('a parent twice', (known, with_node(changesets, TEXT, FIRST, FIRST)), named('ParentOrder')),
        ('an unknown parent twice', (known, with_node(changesets, TEXT, ONE, ONE)), named('ParentOrder')),
        ('an unknown first parent', (known, with_node(changesets, TEXT, ONE)), named('ParentUnknown')),
        ('an unknown second parent', (known, with_node(changesets, TEXT, FIRST, ONE)), named('ParentUnknown')),
        ('a changeset whose parent is a manifest', (known, with_node(changesets, TEXT, empty['node'])), named('ParentUnknown')),
        ('a changeset that links another', (known, with_node(changesets, TEXT, FIRST, link=FIRST)), named('LinkUnknown')),
        ('an unknown parent before another link', (known, with_node(changesets, TEXT, ONE, link=TWO)), named('ParentUnknown')),
        ('another node', ([], revision(changesets, ONE, TEXT)), named('NodeWrong')),
        ('another node before another shape', ([], revision(changesets, ONE, b'x')), named('NodeWrong')),
        ('a changeset of no shape', ([], with_node(changesets, b'x')), named('ChangesetShape')),
        ('a merge with its parents swapped', (known, revision(changesets, merge['node'], TEXT, OTHER, FIRST)), named('Collision')),
        ('a manifest of no changeset', (known, with_node(manifests, b'', link=ONE)), named('LinkUnknown')),
        ('a manifest that links a manifest', (known, with_node(manifests, b'', link=empty['node'])), named('LinkUnknown')),
        ('a manifest of no shape', (known, with_node(manifests, b'x\n', link=FIRST)), named('ManifestShape')),
        ('a manifest with an unfit path', (known, with_node(manifests, hg.manifest_line(b'/', ONE), link=FIRST)), named('PathUnfit')),
        ('a manifest over one parent, null first', (known, with_node(manifests, b'', NULL, empty['node'], FIRST)), None),
        ('a file of no shape', (known, with_node(file, b'\x01\n', link=FIRST)), named('FileShape')),
        ('a file with its parents swapped', (known, revision(file, merged['node'], b'3', two['node'], one['node'], FIRST)), None),
        ('a file over one parent twice', (known, with_node(file, b'4', one['node'], one['node'], FIRST)), None),
        ('a file whose parent is at another path', (known, with_node(Con('FilesAt', (b'b',)), b'4', one['node'], NULL, FIRST)),
         named('ParentUnknown')),
        ('the same node at another path', (known, with_node(Con('FilesAt', (b'b',)), b'1', link=FIRST)), None),
    ])


def check_readings(checks):
    changeset = added(FIRST, TEXT)
    behind = 6 + len(changeset) + 4
    again = hg.entry(FIRST, NULL, NULL, FIRST, b'')
    shapeless, garbage = hg.node_id(NULL, NULL, b'x'), hg.node_id(NULL, NULL, b'\x01\nx')
    rows = [
        ('an example', example(), [(6, True), (169, True), (317, True)]),
        ('a changeset twice', hg.bundle([changeset, again]), [(6, True), (6 + len(changeset), False)]),
        ('an entry without a text', hg.bundle([hg.entry(ONE, NULL, NULL, ONE, b'')]), refusal('NodeWrong', 6, ONE)),
        ('a changeset of no shape', hg.bundle([added(shapeless, b'x')]), refusal('ChangesetShape', 6, shapeless)),
        ('an unknown parent', hg.bundle([added(ONE, TEXT, p=TWO)]), refusal('ParentUnknown', 6, ONE)),
        ('an unknown parent and a cut hunk', hg.bundle([hg.entry(ONE, TWO, NULL, ONE, b'x')]), refusal('ParentUnknown', 6, ONE)),
        ('a null parent before another and a cut hunk', hg.bundle([hg.entry(ONE, NULL, TWO, ONE, b'x')]), refusal('ParentOrder', 6, ONE)),
        ('a cut hunk', hg.bundle([hg.entry(ONE, NULL, NULL, ONE, bytes(11))]), refusal('HunkShape', 90, ONE)),
        ('a hunk out of range', hg.bundle([hg.entry(ONE, NULL, NULL, ONE, hg.hunk(0, 0, b'ab') + hg.hunk(0, 1, b''))]),
         refusal('HunkRange', 104, ONE)),
        ('a bad link and a hunk out of range', hg.bundle([hg.entry(ONE, NULL, NULL, TWO, hg.hunk(0, 1, b''))]), refusal('LinkUnknown', 6, ONE)),
        ('an unfit path', hg.bundle([changeset], files=[(b'.git', [])]), refusal('PathUnfit', behind + 4)),
        ('an unfit path before a later cut', hg.bundle([changeset], files=[(b'.git', [])])[:-8], refusal('PathUnfit', behind + 4)),
        ('a file of no shape', hg.bundle([changeset], files=[(b'a', [added(garbage, b'\x01\nx', FIRST)])]),
         refusal('FileShape', behind + 9, garbage)),
        ('a wrong node before a cut', hg.bundle([changeset, added(ONE, TEXT)])[:-3], refusal('NodeWrong', 6 + len(changeset), ONE)),
        ('a good entry before a cut', hg.bundle([changeset])[:-3], refusal('Truncated', 6 + len(changeset) + 9)),
        ('a good entry and a byte more', hg.bundle([changeset]) + b'x', refusal('Trailing', 6 + len(changeset) + 12)),
    ]
    for name, data, wanted in rows:
        checks.compare(f'reading: {name}', wanted, lambda data=data: read(checks, [], data))


def read(checks, known, data):
    """Place and freshness of each arrival, or the refusal."""
    answer = checks.value('hg_model.Reading.bundle_reading', known, data)
    if answer.name == 'Err':
        return answer.args[0]
    return [(a['at'], a['fresh']) for a in answer.args[0]]


def check_bases(checks):
    """The first delta of a group is against its first parent, a later one against the entry before it."""
    known = [revision(Con('Changesets'), FIRST, TEXT)]
    node = hg.node_id(FIRST, NULL, OTHER_TEXT)
    append = hg.hunk(len(TEXT), len(TEXT), b'y')
    child = hg.bundle([hg.entry(node, FIRST, NULL, node, append)])
    checks.compare('reading: a first delta against a known parent', [(6, True)], lambda: read(checks, known, child))
    checks.compare('reading: the same without the parent', refusal('ParentUnknown', 6, node), lambda: read(checks, [], child))
    sibling = hg.bundle([added(FIRST, TEXT), hg.entry(OTHER, NULL, NULL, OTHER, append)])
    checks.compare('reading: a later delta against the entry before', [(6, True), (6 + 84 + 12 + len(TEXT), True)],
                   lambda: read(checks, [], sibling))
    text, more = b'1', b'12'
    file, second = hg.node_id(NULL, NULL, text), hg.node_id(NULL, NULL, more)
    append = hg.hunk(1, 1, b'2')
    groups = hg.bundle([added(FIRST, TEXT)], files=[
        (b'a', [added(file, text, FIRST)]), (b'b', [hg.entry(second, NULL, NULL, FIRST, append)])])
    place = 6 + 84 + 12 + len(TEXT) + 8 + 5 + 84 + 13 + 4 + 5
    checks.compare('reading: each group begins anew', refusal('HunkRange', place + 84, second), lambda: read(checks, [], groups))
