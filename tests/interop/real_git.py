"""Streams that the real Git wrote."""
import collections
import random
import tempfile

from formats import git as streams
from program import done, refused
from tools import git

COMMITS = 400
CUTS = 25
WORDS = ('list-git', 'check-git')


def check(report, program):
    with tempfile.TemporaryDirectory() as folder:
        make_repository(folder)
        check_shape(report, folder)
        ids = object_ids(folder)
        data = git(folder, 'cat-file', '--batch', data=ids)
        check_listing(report, program, folder, ids, data)
        check_contents(report, program, folder, ids, data)
        for word in WORDS:
            check_missing(report, program, folder, word, data)
            check_cuts(report, program, word, data)


def make_repository(folder):
    git(folder, 'init', '-q', '-b', 'main', '.')
    git(folder, 'fast-import', '--quiet', data=b''.join(history()))
    add_raw_commits(folder)
    git(folder, 'tag', '-a', '-m', 'a release', 'v1', 'main~3')
    git(folder, 'tag', '-a', '-m', 'a tag of a tag', 'v1-signed', 'v1')
    git(folder, 'tag', '-a', '-m', 'a tag of a tree', 'a-tree', 'main^{tree}')


def history():
    """A history for `git fast-import`: files of all modes, merges, octopus commits, odd messages."""
    numbers = random.Random(5)
    tips = []
    for number in range(1, COMMITS + 1):
        parents = chosen_parents(number, tips, numbers)
        yield from commit_lines(number, parents, numbers)
        tips = ([t for t in tips if t not in parents[1:]] + [number])[-8:]
        yield b'\n'
    for tip in tips[:-1]:
        yield b'reset refs/heads/tip%d\nfrom :%d\n\n' % (tip, tip)
    yield b'reset refs/heads/main\nfrom :%d\n\n' % COMMITS


def chosen_parents(number, tips, numbers):
    if number == 1 or number == 50:
        return []
    if len(tips) > 4 and number % 20 == 0:
        return numbers.sample(tips, numbers.randint(3, 5))
    if len(tips) > 1 and number % 7 == 0:
        return numbers.sample(tips, 2)
    return [numbers.choice(tips)]


def commit_lines(number, parents, numbers):
    message = numbers.choice([b'commit %d\n', b'no LF at the end of %d', b'%d\n\nwith a body\n\n', b'%d \xe9\n']) % number
    zone = numbers.choice([b'+0000', b'-0730', b'+0530'])
    yield b'commit refs/heads/work\nmark :%d\n' % number
    yield b'author Ann <ann@x> %d %s\ncommitter Bob <> %d +0100\n' % (number, zone, number + 5)
    yield b'data %d\n%s\n' % (len(message), message)
    for word, parent in zip([b'from'] + [b'merge'] * 8, parents):
        yield b'%s :%d\n' % (word, parent)
    for mode, path in [(b'100644', b'file%d' % (number % 30)), (b'100755', b'bin/run%d' % (number % 5)),
                       (b'120000', b'dir/sub/link'), (b'100644', b'dir/sub.x'), (b'100644', b'name with blank')]:
        content = numbers.randbytes(numbers.randrange(400))
        yield b'M %s inline %s\ndata %d\n%s\n' % (mode, path, len(content), content)
    if number % 11 == 0:
        yield b'D file%d\n' % ((number + 3) % 30)


def add_raw_commits(folder):
    """Commits with headers as signatures and encodings have them, and a message without LF."""
    tree = git(folder, 'rev-parse', 'main^{tree}').strip()
    parent = git(folder, 'rev-parse', 'main').strip()
    signature = b'gpgsig -----BEGIN PGP SIGNATURE-----\n \n iQEz\n -----END PGP SIGNATURE-----\n'
    content = streams.commit_content(tree, [parent], b'A U Thor <a@u> 1 -0000', b'no LF', b'encoding latin1\n' + signature)
    head = git(folder, 'hash-object', '-t', 'commit', '-w', '--stdin', data=content).strip()
    content = streams.commit_content(tree, [head], b'X <x> 2 +0000', b'', signature)
    head = git(folder, 'hash-object', '-t', 'commit', '-w', '--stdin', data=content).strip().decode()
    git(folder, 'update-ref', 'refs/heads/signed', head)


def object_ids(folder, tip='--all'):
    """The ids of all objects, or of those that a commit leads to, a line each: `git rev-list --objects --all | cut -d' ' -f1`."""
    lines = git(folder, 'rev-list', '--objects', tip).splitlines()
    return b''.join(line.split(b' ')[0] + b'\n' for line in lines)


def check_shape(report, folder):
    """The history has merges, octopus commits and tags."""
    counts = [int(git(folder, 'rev-list', '--all', '--count', words)) for words in ('--min-parents=2', '--min-parents=3')]
    tags = git(folder, 'for-each-ref', '--format=%(*objecttype)', 'refs/tags').split()
    report.verdict('the git history has merges, octopus commits and tags of all kinds',
                   min(counts) > 5 and sorted(tags) == [b'commit', b'tag', b'tree'], f'{counts} {tags}')


def check_listing(report, program, folder, ids, data):
    wanted = git(folder, 'cat-file', '--batch-check', data=ids)
    report.check('the objects of the real git are listed as git lists them', program.run(['list-git'], data), done(wanted))


def check_contents(report, program, folder, ids, data):
    words = git(folder, 'cat-file', '--batch-check=%(objecttype)', data=ids).split()
    kinds = collections.Counter(words)
    counts = b''.join(b'%ss %d\n' % (kind, kinds[kind]) for kind in (b'commit', b'tree', b'blob', b'tag'))
    report.check('the objects of the real git are checked and counted', program.run(['check-git'], data), done(counts))
    objects = [o for o in streams.objects_of(data) if o.content]
    for kind in (b'commit', b'tree', b'blob', b'tag'):
        o = [o for o in objects if o.kind == kind][-1]
        at = o.content_at + len(o.content) // 2
        flipped = data[:at] + bytes([data[at] ^ 1]) + data[at + 1:]
        report.check(f'one flipped byte in a {kind.decode()} is its wrong id',
                     program.run(['check-git'], flipped), refused('IdWrong', o.at, o.id))


def check_missing(report, program, folder, word, data):
    line = git(folder, 'cat-file', '--batch', data=b'12' * 20 + b'\n')
    report.check(f'{word}: a missing object at the end', program.run([word], data + line), refused('Missing', len(data)))
    report.check(f'{word}: a missing object at the beginning', program.run([word], line + data), refused('Missing', 0))


def check_cuts(report, program, word, data):
    numbers = random.Random(6)
    ends = {o.at for o in streams.objects_of(data)}
    places = [n for n in (numbers.randrange(len(data)) for _ in range(CUTS)) if n not in ends]
    answers = [program.run([word], data[:n]) for n in places]
    report.check(f'{word}: {len(places)} cuts are Truncated where they are', answers, [refused('Truncated', n) for n in places])
