"""Bundles that the real Mercurial wrote."""
import random
import re
import tempfile

from formats import hg as bundles
from program import done, refused
from tools import hg, read

CHANGESETS = 2000
CUTS = 25
LEAST_COUNTS = {
    'changesets': CHANGESETS, 'merges': 50, 'merged files': 10, 'copies': 200, 'empty files': 10, 'binary files': 10,
    'runnable files': 10, 'symbolic links': 10, 'deltas of several hunks': 500,
}
TYPES = ['gzip-v1', 'bzip2-v1', 'none-v2', 'bzip2-v2']


def check(report, program):
    with tempfile.TemporaryDirectory() as folder:
        make_repository(folder)
        data = read(folder, 'none-v1.hg')
        check_shape(report, data)
        check_listing(report, program, folder, data)
        check_cuts(report, program, data)
        check_types(report, program, folder)
        check_contents(report, program, data)


def make_repository(folder):
    hg(folder, 'init', '.')
    hg(folder, 'commit-history', str(CHANGESETS), '7')
    for kind in ['none-v1', *TYPES]:
        hg(folder, 'bundle', '--all', '--type', kind, kind + '.hg')


def check_shape(report, data):
    """The history has all that it is there for."""
    entries = bundles.entries_of(data)
    changesets = [e for e in entries if e.group == b'changeset']
    files = [e for e in entries if e.group.startswith(b'file ')]
    manifests = b''.join(e.delta for e in entries if e.group == b'manifest')
    counts = {
        'changesets': len(changesets),
        'merges': sum(e.q != bundles.NULL for e in changesets),
        'merged files': sum(e.q != bundles.NULL for e in files),
        'copies': sum(b'copy: ' in e.delta for e in files),
        'empty files': sum(e.delta == b'' for e in files),
        'binary files': sum(b'\0\0' in e.delta[12:] for e in files),
        'runnable files': len(re.findall(rb'[0-9a-f]{40}x\n', manifests)),
        'symbolic links': len(re.findall(rb'[0-9a-f]{40}l\n', manifests)),
        'deltas of several hunks': sum(len(list(bundles.hunks_of(e.delta))) > 1 for e in entries),
    }
    missing = {name: counts[name] for name in LEAST_COUNTS if counts[name] < LEAST_COUNTS[name]}
    report.check('the history has merges, copies, links, binary files and deltas of several hunks', missing, {})


def check_listing(report, program, folder, data):
    answer = program.run(['list-hg'], data)
    report.check('a bundle of the real hg is accepted', answer[:1] + answer[2:], (0, b'', []))
    lines = [line.rsplit(b' ', 1) for line in answer.output.splitlines()]
    listed = [(words, int(size)) for words, size in lines]
    words = [w for w, _ in listed]
    report.check('its lines are the revisions of the repository with parents and link nodes',
                 sorted(words), sorted(revisions(folder)))
    report.check('its changesets are those of hg log',
                 [w.split()[1:4] for w in words if w.startswith(b'changeset ')], logged(folder))
    report.check('its lines are those of hg debugbundle, in order, with the sizes of the deltas',
                 listed, debugged(folder))
    report.check('its size is that of the lines', bundle_size(listed), len(data))


def revisions(folder):
    """What the repository's own indexes say of every revision, as a listing says it."""
    for line in hg(folder, 'list-revisions').splitlines():
        kind, path, ids = line.split(b' ', 2)
        yield kind + (b'' if path == b'-' else b' ' + bundles.escape(bytes.fromhex(path.decode()))) + b' ' + ids


def logged(folder):
    lines = hg(folder, 'log', '-r', 'all()', '-T', '{node} {p1.node} {p2.node}\n').splitlines()
    return [line.split() for line in lines]


def debugged(folder):
    """What `hg debugbundle` says of each entry."""
    group, listed = b'', []
    for line in hg(folder, 'debugbundle', '--all', 'none-v1.hg').splitlines():
        match = re.fullmatch(rb'([0-9a-f]{40}(?: [0-9a-f]{40}){3}) [0-9a-f]{40} (\d+)', line)
        if match:
            listed.append((group + b' ' + match[1], int(match[2])))
        elif line == b'changelog' and group == b'':
            group = b'changeset'
        elif line == b'manifest' and group == b'changeset':
            group = b'manifest'
        elif line and group:
            group = b'file ' + bundles.escape(line)
    return listed


def bundle_size(listed):
    """How many bytes a bundle of these entries has."""
    paths = {words.split()[1] for words, _ in listed if words.startswith(b'file ')}
    names = sum(8 + len(unescaped(path)) for path in paths)
    return 6 + sum(84 + size for _, size in listed) + 8 + names + 4


def unescaped(text):
    return re.sub(rb'%(..)', lambda m: bytes.fromhex(m[1].decode()), text)


def check_cuts(report, program, data):
    numbers = random.Random(3)
    places = sorted(numbers.randrange(len(data)) for _ in range(CUTS))
    answers = [program.run(['list-hg'], data[:n]) for n in places]
    report.check(f'{CUTS} cuts are Truncated where they are', answers, [refused('Truncated', n) for n in places])
    report.check('one byte more is Trailing', program.run(['list-hg'], data + b'x'), refused('Trailing', len(data)))


def check_types(report, program, folder):
    for kind in TYPES:
        report.check(f'a bundle of type {kind} is another bundle',
                     program.run(['list-hg'], read(folder, kind + '.hg')), refused('OtherBundle', 0))


def check_contents(report, program, data):
    entries = bundles.entries_of(data)
    counts = b''.join(b'%s %d\n' % (plural, sum(e.group.split()[0] == kind for e in entries)) for kind, plural in
                      ((b'changeset', b'changesets'), (b'manifest', b'manifests'), (b'file', b'files')))
    report.check('a bundle of the real hg is checked and counted', program.run(['check-hg'], data), done(counts))
    for kind in (b'changeset', b'manifest', b'file'):
        check_flipped(report, program, data, [e for e in entries if e.group.split()[0] == kind], kind.decode())


def check_flipped(report, program, data, entries, kind):
    """The last byte of the last delta that ends with one of a text is changed."""
    entry = next(e for e in reversed(entries) if ends_with_text(e.delta))
    at = entry.delta_at() + len(entry.delta) - 1
    flipped = data[:at] + bytes([data[at] ^ 1]) + data[at + 1:]
    report.check(f'one flipped byte in the text of a {kind} is its wrong node',
                 program.run(['check-hg'], flipped), refused('NodeWrong', entry.at, entry.node.hex().encode()))


def ends_with_text(delta):
    """The last hunk of the delta brings bytes."""
    hunks = list(bundles.hunks_of(delta))
    return bool(hunks and hunks[-1][2])
