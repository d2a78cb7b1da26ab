"""Mercurial's texts: deltas, changesets, manifests and files."""
import struct

from antt.values import Con, Tup
from checks import DIGITS, NULL, ONE, TWO, integer, just, record
from formats import hg

BASE = b'abcdef'


def check(checks):
    check_deltas(checks)
    check_hunks(checks)
    check_changesets(checks)
    check_dates(checks)
    check_date_lines(checks)
    check_extras(checks)
    check_manifests(checks)
    check_files(checks)


def check_deltas(checks):
    def hunks(*parts):
        return b''.join(hg.hunk(*part) for part in parts)

    good = [
        ('an empty delta leaves the base', b'', BASE),
        ('two hunks', hunks((1, 3, b'XY'), (4, 4, b'Z')), b'aXYdZef'),
        ('hunks that touch', hunks((0, 2, b'x'), (2, 4, b'y')), b'xyef'),
        ('two insertions at one place', hunks((2, 2, b'x'), (2, 2, b'y')), b'abxycdef'),
        ('an insertion at the end', hunks((6, 6, b'g')), b'abcdefg'),
        ('the whole base is dropped', hunks((0, 6, b'')), b''),
        ('a hunk that changes nothing', hunks((3, 3, b'')), BASE),
    ]
    for name, delta, text in good:
        checks.compare(name, text, lambda delta=delta: patched(checks, delta))
    bad = [
        ('hunks that overlap', hunks((1, 3, b'XY'), (2, 4, b'')), 'Outside', 14),
        ('a hunk whose end is before its start', hunks((3, 2, b'')), 'Outside', 0),
        ('an end behind the base', hunks((0, 7, b'')), 'Outside', 0),
        ('a start behind the base', hunks((7, 7, b'')), 'Outside', 0),
        ('a second hunk before the first', hunks((4, 5, b''), (1, 2, b'')), 'Outside', 12),
        ('a second hunk behind the base', hunks((0, 1, b'x'), (2, 9, b'')), 'Outside', 13),
        ('numbers have no sign', struct.pack('>III', 2**32 - 1, 2**32 - 1, 0), 'Outside', 0),
        ('eleven bytes', bytes(11), 'Cut', 0),
        ('one byte', b'\0', 'Cut', 0),
        ('a hunk whose bytes are cut', hunks((0, 0, b'ab'))[:-1], 'Cut', 0),
        ('a size of all ones', hunks((0, 0, b''))[:8] + b'\xff' * 4, 'Cut', 0),
        ('a cut second hunk', hunks((0, 1, b'x')) + bytes(11), 'Cut', 13),
        ('a cut hunk behind one out of range', hunks((0, 7, b'')) + bytes(5), 'Cut', 12),
        ('a cut hunk behind two that overlap', hunks((1, 3, b'XY'), (2, 4, b'')) + bytes(3), 'Cut', 26),
    ]
    for name, delta, kind, place in bad:
        checks.equal(name, Con(kind, (place,)), 'hg_model.Delta.delta_reading', len(BASE), delta)


def check_hunks(checks):
    both = [record(start=1, finish=3, bytes=b'XYZ'), record(start=4, finish=4, bytes=b'Z')]
    checks.equal('the text of a delta', hg.hunk(1, 3, b'XYZ') + hg.hunk(4, 4, b'Z'), 'hg_model.Delta.delta_text', both)
    checks.table('hg_model.Delta.patched_size', [
        ('the size of a base that nothing changes', (6, []), 6),
        ('the size behind two hunks', (6, both), 8),
        ('the size where the whole base is dropped', (6, [record(start=0, finish=6, bytes=b'')]), 0),
    ])
    checks.table('hg_model.Delta.whole_delta', [
        ('no delta between empty texts', (0, b''), b''),
        ('a delta over nothing', (0, b'ab'), struct.pack('>III', 0, 0, 2) + b'ab'),
        ('a delta to nothing', (3, b''), struct.pack('>III', 0, 3, 0)),
    ])


def patched(checks, delta):
    reading = checks.value('hg_model.Delta.delta_reading', len(BASE), delta)
    if reading.name != 'Hunks':
        raise ValueError(reading)
    return checks.value('hg_model.Delta.patched_text', BASE, reading.args[0])


def check_changesets(checks):
    start = DIGITS + b'\nAnn\n0 0\n'
    checks.table('hg_model.Changeset.changeset_fault', [
        ('a changeset', (start + b'a\n\none',), None),
        ('a changeset without files and description', (start + b'\n',), None),
        ('a description of blank lines', (start + b'\n\n\n',), None),
        ('an empty date line', (DIGITS + b'\nAnn\n\n\n',), None),
        ('a date line of any form', (DIGITS + b'\nAnn\n00 x\n\n',), None),
        ('an empty changeset', (b'',), just(0)),
        ('a manifest of 39 digits', (start[1:] + b'\n',), just(0)),
        ('a manifest of 41 digits', (b'1' + start + b'\n',), just(0)),
        ('a manifest in capitals', (b'A' * 40 + start[40:] + b'\n',), just(0)),
        ('a manifest without LF', (DIGITS,), just(0)),
        ('no user line', (DIGITS + b'\n',), just(41)),
        ('an empty user', (DIGITS + b'\n\n0 0\n\n',), just(41)),
        ('a user without LF', (DIGITS + b'\nAnn',), just(41)),
        ('no date line', (DIGITS + b'\nAnn\n',), just(45)),
        ('a date line without LF', (DIGITS + b'\nAnn\n0 0',), just(45)),
        ('no blank line', (start + b'a\n',), just(51)),
        ('no line behind the date', (start,), just(49)),
        ('a file line without LF', (start + b'ab',), just(51)),
        ('an empty date line and no more', (DIGITS + b'\nAnn\n\n',), just(46)),
    ])
    fields = record(manifest=ONE, user=b'Ann', date=plain(0, 0), files=[b'a', b'b/c'], description=b'one\n')
    checks.equal('the text of a changeset', start + b'a\nb/c\n\none\n', 'hg_model.Changeset.changeset_text', fields)
    fields = record(manifest=ONE, user=b'Ann', date=Con('Raw', (b'some day',)), files=[], description=b'')
    checks.equal('the text of a raw date', DIGITS + b'\nAnn\nsome day\n\n', 'hg_model.Changeset.changeset_text', fields)


def plain(time, zone, *extras):
    return Con('Plain', (integer(time), integer(zone), [record(key=k, value=v) for k, v in extras]))


def check_dates(checks):
    checks.table('hg_model.Changeset.date_text', [
        ('a date', (plain(1000, 3600),), b'1000 3600'),
        ('a negative date and zone', (plain(-1, -19800),), b'-1 -19800'),
        ('an extra', (plain(0, 0, (b'branch', b'stable')),), b'0 0 branch:stable'),
        ('an extra with all that is escaped', (plain(0, 0, (b'k', b'\\\n\r\0:%')),), b'0 0 k:\\\\\\n\\r\\0:%'),
        ('two extras', (plain(0, 0, (b'a', b'1'), (b'b', b'')),), b'0 0 a:1\0b:'),
        ('an escaped key', (plain(0, 0, (b'a\n', b'1')),), b'0 0 a\\n:1'),
    ])
    extras = [record(key=b'a', value=b'1'), record(key=b'b', value=b'2')]
    checks.equal('the value of a key', just(b'2'), 'hg_model.Changeset.extra_at', b'b', extras)
    checks.equal('a key that is missing', None, 'hg_model.Changeset.extra_at', b'c', extras)


def raw(line):
    return Con('Raw', (line,))


def check_date_lines(checks):
    """A line is that of a date, or else it is raw."""
    rows = [
        ('a date', b'1000 3600', plain(1000, 3600)),
        ('a negative date and zone', b'-1 -19800', plain(-1, -19800)),
        ('the greatest time and zone', b'%d %d' % (2**62, 2**31), plain(2**62, 2**31)),
        ('the least time and zone', b'%d %d' % (-2**62, -2**31), plain(-2**62, -2**31)),
        ('a date with an extra', b'0 0 branch:stable', plain(0, 0, (b'branch', b'stable'))),
    ]
    raws = [
        ('no line', b''), ('a time alone', b'0'), ('a time and a blank', b'0 '), ('two blanks', b'0  0'), ('no time', b' 0'),
        ('a leading zero', b'00 0'), ('zero below zero', b'-0 0'), ('a plus', b'+1 0'), ('a sign alone', b'- 0'), ('a letter', b'1a 0'),
        ('a time that is too late', b'%d 0' % (2**62 + 1)), ('a time that is too early', b'-%d 0' % (2**62 + 1)),
        ('a zone too far west', b'0 %d' % (2**31 + 1)), ('a zone too far east', b'0 -%d' % (2**31 + 1)),
        ('a blank without extras', b'0 0 '), ('an extra without a colon', b'0 0 a'), ('keys that fall', b'0 0 b:\0a:'),
    ]
    checks.table('hg_model.Changeset.date_of', [(f'the line of {name}', (line,), wanted) for name, line, wanted in rows])
    checks.table('hg_model.Changeset.date_of', [(f'{name} is no date', (line,), raw(line)) for name, line in raws])


def check_extras(checks):
    """Items that a text spells, and texts that spell none."""
    def items(*pairs):
        return just([record(key=key, value=value) for key, value in pairs])

    checks.table('hg_model.Changeset.extras_of', [
        ('one item', (b'a:1',), items((b'a', b'1'))),
        ('two items', (b'a:1\0b:',), items((b'a', b'1'), (b'b', b''))),
        ('colons in a value', (b'a:b:c',), items((b'a', b'b:c'))),
        ('all escapes', (b'k:\\\\\\n\\r\\0:%',), items((b'k', b'\\\n\r\0:%'))),
        ('an escaped key', (b'a\\n:1',), items((b'a\n', b'1'))),
        ('keys rise unescaped', (b'\\n:\0!:',), items((b'\n', b''), (b'!', b''))),
        ('keys that rise escaped alone', (b'!:\0\\n:',), None),
        ('a key twice', (b'a:1\0a:2',), None),
        ('no text', (b'',), None),
        ('an empty key', (b':x',), None),
        ('a NUL at the end', (b'a:\0',), None),
        ('another escape', (b'k:\\x',), None),
        ('half an escape', (b'k:\\',), None),
        ('a bare CR', (b'k:\r',), None),
        ('a bare LF', (b'k:\n',), None),
    ])


def check_manifests(checks):
    def bad(place):
        return just(Con('BadLine', (place,)))

    def unfit(place):
        return just(Con('UnfitPath', (place,)))

    line, size = hg.manifest_line, 43
    checks.table('hg_model.Manifest.manifest_fault', [
        ('an empty manifest', (b'',), None),
        ('a manifest of all flags', (line(b'a', ONE) + line(b'b', ONE, b'x') + line(b'c', ONE, b'l'),), None),
        ('bytes of paths have no sign', (line(b'a', ONE) + line(b'\xff', ONE),), None),
        ('paths that fall', (line(b'b', ONE) + line(b'a', ONE),), bad(size)),
        ('a path twice', (line(b'a', ONE) + line(b'a', TWO),), bad(size)),
        ('a line without LF', (line(b'a', ONE)[:-1],), bad(0)),
        ('a second line without LF', (line(b'a', ONE) + line(b'b', ONE)[:-1],), bad(size)),
        ('an empty line', (b'\n',), bad(0)),
        ('a line without NUL', (b'a' + DIGITS + b'\n',), bad(0)),
        ('a node in capitals', (b'a\0' + b'A' * 40 + b'\n',), bad(0)),
        ('a node of 39 digits', (b'a\0' + b'1' * 39 + b'\n',), bad(0)),
        ('another flag', (line(b'a', ONE, b't'),), bad(0)),
        ('two flags', (line(b'a', ONE, b'xl'),), bad(0)),
        ('a path with LF', (line(b'a\nb', ONE),), bad(0)),
        ('an empty path', (line(b'', ONE),), unfit(0)),
        ('a path with an empty component', (line(b'a//b', ONE),), unfit(0)),
        ('a path with CR', (line(b'a\rb', ONE),), unfit(0)),
        ('a path below .hg', (line(b'.hg/a', ONE),), unfit(0)),
        ('a path of 4,096 bytes', (line(b'a' * 4096, ONE),), None),
        ('a path of 4,097 bytes', (line(b'a' * 4097, ONE),), unfit(0)),
        ('an unfit path on the second line', (line(b'a', ONE) + line(b'b/', ONE),), unfit(size)),
        ('an unfit path that falls', (line(b'b', ONE) + line(b'a//b', ONE),), bad(size)),
        ('an unfit path with another flag', (line(b'a//b', ONE, b't'),), bad(0)),
        ('an unfit path before a bad line', (line(b'a/', ONE) + b'x',), unfit(0)),
    ])
    entries = [record(path=b'a', node=ONE, flag=Con('Executable')), record(path=b'b', node=TWO, flag=Con('Regular'))]
    checks.equal('the last path of a manifest', just(b'b'), 'hg_model.Manifest.last_path', entries)
    checks.equal('no path of an empty manifest', None, 'hg_model.Manifest.last_path', [])
    checks.equal('the text of a manifest', b'a\0' + DIGITS + b'x\nb\0' + b'2' * 40 + b'\n', 'hg_model.Manifest.manifest_text', entries)


def check_files(checks):
    checks.table('hg_model.FileText.lacks_second_mark', [
        ('an empty file', (b'',), False),
        ('a file without metadata', (b'x',), False),
        ('a mark that is not in front', (b'x\x01\n',), False),
        ('one mark alone', (b'\x01\n',), True),
        ('one mark and a body', (b'\x01\nx',), True),
        ('half a second mark', (b'\x01\n\x01',), True),
        ('marks that would overlap', (b'\x01\n\n',), True),
        ('empty metadata', (b'\x01\n\x01\n',), False),
        ('metadata and a body', (b'\x01\nkey: x\n\x01\nbody',), False),
        ('half a mark in front', (b'\x01x',), False),
    ])
    checks.table('hg_model.FileText.file_text', [
        ('a body alone', (None, b'x'), b'x'),
        ('a body that begins with a mark', (just(b''), b'\x01\nx'), b'\x01\n\x01\n\x01\nx'),
        ('metadata before a body', (just(b'm'), b'x'), b'\x01\nm\x01\nx'),
    ])
    checks.table('hg_model.FileText.plain_meta', [
        ('a plain body has no metadata', (b'x',), None),
        ('a body with a mark has empty ones', (b'\x01\nx',), just(b'')),
    ])
    check_copies(checks)
    check_parents(checks)


def check_copies(checks):
    copy = b'copy: a\ncopyrev: ' + DIGITS + b'\n'
    checks.equal('the metadata of a copy', copy, 'hg_model.FileText.copy_meta', b'a', ONE)
    checks.table('hg_model.FileText.copy_of', [
        ('a copy', (copy,), just(Tup(tuple(b'a'), tuple(ONE)))),
        ('a copy of a path with blanks', (copy.replace(b'a\n', b'a b \n', 1),), just(Tup(tuple(b'a b '), tuple(ONE)))),
        ('a copy of an empty path', (copy.replace(b'copy: a', b'copy: '),), None),
        ('a copy and another line', (copy + b'x\n',), None),
        ('a copy in another order', (b'copyrev: ' + DIGITS + b'\ncopy: a\n',), None),
        ('a copy without its last LF', (copy[:-1],), None),
        ('a copy of a node in capitals', (copy.replace(DIGITS, b'A' * 40),), None),
        ('a copy of 41 digits', (copy.replace(DIGITS, DIGITS + b'1'),), None),
        ('a copy without its node', (b'copy: a\n',), None),
        ('no metadata', (b'',), None),
    ])
    checks.table('hg_model.FileText.has_copy', [
        ('a line of a copy', (b'copy: a\n',), True),
        ('a line of a copy behind another', (b'x\ncopy: ',), True),
        ('copy in the middle of a line', (b'xcopy: a\n',), False),
        ('copy without a blank', (b'copy:a\n',), False),
        ('no line', (b'',), False),
    ])


def check_parents(checks):
    def pair(p, q):
        return Tup(tuple(p), tuple(q))

    checks.table('hg_model.FileText.manifest_order', [
        ('a null parent comes last', (NULL, ONE), pair(ONE, NULL)),
        ('a null parent stays last', (ONE, NULL), pair(ONE, NULL)),
        ('parents that rise', (ONE, TWO), pair(ONE, TWO)),
        ('parents that fall', (TWO, ONE), pair(ONE, TWO)),
        ('no parents', (NULL, NULL), pair(NULL, NULL)),
    ])
    copy, other = just(b'copy: a\n'), just(b'x\n')
    checks.table('hg_model.FileText.file_order', [
        ('a null parent of a copy comes first', (copy, ONE, NULL), pair(NULL, ONE)),
        ('a null parent of a copy stays first', (copy, NULL, ONE), pair(NULL, ONE)),
        ('the parents of a copy rise', (copy, TWO, ONE), pair(ONE, TWO)),
        ('a copy without parents', (copy, NULL, NULL), pair(NULL, NULL)),
        ('a null parent behind other metadata comes last', (other, NULL, ONE), pair(ONE, NULL)),
        ('a null parent without metadata comes last', (None, NULL, ONE), pair(ONE, NULL)),
    ])
