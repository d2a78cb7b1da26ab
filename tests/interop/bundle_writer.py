"""What `bundle_copy` writes of a bundle of the real Mercurial: the same revisions, which the real Mercurial takes."""
import os
import tempfile

import real_hg
from formats import hg as bundles
from program import done
from tools import hg, read, write

HALF = real_hg.CHANGESETS // 2


def check(report, program, copy):
    with tempfile.TemporaryDirectory() as folder:
        real_hg.make_repository(folder)
        data = read(folder, 'none-v1.hg')
        check_copy(report, program, copy, folder, data)
        check_rest(report, copy, folder, data)
        check_least(report, copy)


def written(copy, data, *words):
    return copy.run(list(words), data).output


def changesets(data):
    return [(e.node, e.p, e.q) for e in bundles.entries_of(data) if e.group == b'changeset']


def count_text(data):
    groups = [e.group.split()[0] for e in bundles.entries_of(data)]
    return b''.join(b'%s %d\n' % (plural, groups.count(kind)) for kind, plural in
                    ((b'changeset', b'changesets'), (b'manifest', b'manifests'), (b'file', b'files')))


def check_copy(report, program, copy, folder, data):
    answer = copy.run([], data)
    again = answer.output
    report.check('a bundle of the real hg is copied', answer, done(again))
    report.check('the copy has the same revisions', bundles.revisions_of(again), bundles.revisions_of(data))
    report.check('its changesets stand in the same order', changesets(again), changesets(data))
    report.check('check-hg accepts the copy', program.run(['check-hg'], again), done(count_text(data)))
    report.check('the copy of the copy is the copy', written(copy, again), again)
    report.verdict('its paths rise, and none has an empty group', has_rising_paths(again))
    with tempfile.TemporaryDirectory() as other:
        unbundle(other, again)
        check_same(report, 'the copy', folder, other)


def has_rising_paths(data):
    """The paths rise, and the bundle has no byte but those of entries, of a path before each group of a file, and of the ends."""
    entries = bundles.entries_of(data)
    groups = list(dict.fromkeys(e.group for e in entries if e.group.startswith(b'file ')))
    names = [real_hg.unescaped(group.split(b' ', 1)[1]) for group in groups]
    size = len(bundles.bundle()) + sum(84 + len(e.delta) for e in entries) + sum(8 + len(name) for name in names)
    return names == sorted(set(names)) and size == len(data)


def check_rest(report, copy, folder, data):
    """The first half by the real hg, and the rest as a bundle of its own."""
    rest = written(copy, data, str(HALF))
    report.check('the rest has the changesets from there on', changesets(rest), changesets(data)[HALF:])
    hg(folder, 'bundle', '--base', 'null', *[w for n in range(HALF) for w in ('-r', str(n))], '--type', 'none-v1', 'half.hg')
    half = read(folder, 'half.hg')
    report.check('it has what the first half lacks', bundles.revisions_of(rest), bundles.revisions_of(data) - bundles.revisions_of(half))
    with tempfile.TemporaryDirectory() as other:
        unbundle(other, half)
        unbundle(other, rest)
        check_same(report, 'the first half and the rest', folder, other)
    report.check('from the end on it is the least bundle', written(copy, data, str(real_hg.CHANGESETS)), bundles.bundle())


def unbundle(folder, data):
    if not os.path.exists(os.path.join(folder, '.hg')):
        hg(folder, 'init', '.')
    write(folder, 'written.hg', data)
    hg(folder, 'unbundle', 'written.hg')


def check_same(report, what, folder, other):
    report.verdict(f'hg verify finds nothing wrong in {what}', b'checked %d changesets' % real_hg.CHANGESETS in hg(other, 'verify'))
    report.check(f'the same nodes and parents in {what}', sorted(real_hg.logged(other)), sorted(real_hg.logged(folder)))
    shown = [sorted(hg(f, 'log', '-r', 'all()', '-T', '{node} {manifest} {author|escape} {date|hgdate} {files} {extras} {desc|escape}\n').splitlines())
             for f in (folder, other)]
    report.check(f'the same in hg log of {what}', shown[1], shown[0])


def check_least(report, copy):
    report.check('the least bundle is copied', copy.run([], bundles.bundle()), done(bundles.bundle()))
