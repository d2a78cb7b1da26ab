"""A history of the real git in three streams, with a bundle between two of them: both dumps give the same state again, and so does what each pull writes
where the other side pulls it into a second state."""
import os
import random
import tempfile

from examples import example
from saved import Answer, Saved, sections
from tools import git, write

COMMITS = 300
FILES = 200
PARTS = 3
TAGS = {b'v1': 90, b'v2': 280}
BACK = {'pull-git': 'pull-hg', 'pull-hg': 'pull-git'}
SIDES = [b'hg', b'git', b'map']


def check(report, program):
    with tempfile.TemporaryDirectory() as repository, tempfile.TemporaryDirectory() as folder, tempfile.TemporaryDirectory() as second:
        commits = make_history(repository)
        saved, mirror = Saved(program, folder), Saved(program, second)
        statuses, back = pull_parts(saved, mirror, repository, commits)
        report.check('three streams and a bundle are pulled', statuses, [0] * (PARTS + 1))
        report.check('what each writes is pulled into a second state', back, [0] * (PARTS + 1))
        parts, others = sections(saved.text), sections(mirror.text)
        report.check('which has the same sections', [word for word in SIDES if others[word] != parts[word]], [])
        report.check('each commit and the changeset has its pair', parts[b'map'].count(b'\n'), COMMITS + 1)
        report.check('each pair is right', saved.run('verify'), Answer(0, b'verified %d\n' % (COMMITS + 1), b''))
        report.check('both tags are kept', [name for name in TAGS if b'\ntag %s\n' % name in parts[b'tags']], list(TAGS))
        check_dumped(report, program, saved, parts)


def check_dumped(report, program, saved, parts):
    for dump, pull, same in [('dump-hg', 'pull-hg', SIDES), ('dump-git', 'pull-git', [*SIDES, b'tags'])]:
        with tempfile.TemporaryDirectory() as folder:
            other = Saved(program, folder)
            report.check(f'{dump} is pulled', other.run(pull, saved.output_of(dump)).status, 0)
            again = sections(other.text)
            report.check('and saves the same sections', [word for word in same if again[word] != parts[word]], [])


def make_history(folder):
    """Commits over many files with merges and two annotated tags, oldest first."""
    numbers = random.Random(7)
    git(folder, 'init', '-q', '-b', 'main', '.')
    for place in range(FILES):
        os.makedirs(os.path.join(folder, 'folder%d' % (place % 10)), exist_ok=True)
        change(folder, place, numbers)
    commits = [commit(folder, 0)]
    while len(commits) < COMMITS:
        if len(commits) % 10 == 0:
            commits += merge(folder, numbers, commits)
        else:
            change(folder, numbers.randrange(FILES), numbers)
            commits.append(commit(folder, len(commits)))
    for name, place in TAGS.items():
        git(folder, 'tag', '-a', '-m', 'a tag', name.decode(), commits[place])
    return commits[:COMMITS]


def change(folder, place, numbers):
    write(folder, 'folder%d/file%d' % (place % 10, place), b'%d\n' % numbers.randrange(10**9))


def commit(folder, number):
    git(folder, 'add', '-A')
    git(folder, 'commit', '-q', '-m', f'commit {number}', '--date', f'@{number} +0000')
    return git(folder, 'rev-parse', 'HEAD').decode().strip()


def merge(folder, numbers, commits):
    """A commit aside over an earlier one, and its merge."""
    git(folder, 'checkout', '-q', '-b', 'aside', commits[-3])
    write(folder, 'folder0/aside', b'%d\n' % numbers.randrange(10**9))
    aside = commit(folder, len(commits))
    git(folder, 'checkout', '-q', 'main')
    git(folder, 'merge', '-q', '-X', 'theirs', '-m', f'merge {len(commits)}', 'aside')
    git(folder, 'branch', '-q', '-D', 'aside')
    return [aside, git(folder, 'rev-parse', 'HEAD').decode().strip()]


def pull_parts(saved, mirror, repository, commits):
    """The streams one after another, each with what the earlier ones don't reach, and a bundle behind the first; and the other pull of what each writes, into
    a second state."""
    answers, back, done = [], [], []
    size = COMMITS // PARTS

    def pull(word, data):
        answers.append(saved.run(word, data))
        back.append(mirror.run(BACK[word], answers[-1].output))

    for part in range(PARTS):
        heads = commits[part * size:(part + 1) * size]
        names = [name.decode() for name, place in TAGS.items() if place // size == part]
        pull('pull-git', stream_of(repository, heads + names, done))
        done += heads
        if part == 0:
            pull('pull-hg', example('one-changeset.hg'))
    return [answer.status for answer in answers], [answer.status for answer in back]


def stream_of(repository, heads, done):
    """The objects that these reach and the earlier ones don't, as `git cat-file --batch` writes them, in the order of `git rev-list`."""
    asked = '\n'.join(heads + ['^' + name for name in done]).encode() + b'\n'
    listed = git(repository, 'rev-list', '--objects', '--stdin', data=asked)
    ids = b''.join(line.split(b' ')[0] + b'\n' for line in listed.splitlines())
    return git(repository, 'cat-file', '--batch', data=ids)
