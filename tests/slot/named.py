"""Names over a saved state: those of a history of the real git are set on one side, printed on both, and set again; a pull between leaves them."""
import os
import re
import resource
import tempfile

from examples import example
from real import commit, stream_of
from saved import Answer, Saved, sections
from tools import git, write

NO_ID = b'0' * 40
MOST = 100000
GROWTH = 30
PHASES = 'public draft secret'.split()


def check(report, program):
    with tempfile.TemporaryDirectory() as repository, tempfile.TemporaryDirectory() as folder:
        make_repository(repository)
        saved = Saved(program, folder)
        refs = git(repository, 'for-each-ref', '--format', '%(objectname) %(refname)')
        stream = stream_of(repository, [line.split()[0].decode() for line in refs.splitlines()], [])
        report.check('a repository with names is pulled', saved.run('pull-git', stream).status, 0)
        check_names(report, saved, refs)
        check_pull(report, saved)
        check_replaced(report, saved)


def check_rows(report, program):
    """The faults of lines, and names without a history."""
    with tempfile.TemporaryDirectory() as folder:
        saved = Saved(program, folder)
        report.check('no names are printed of nothing', [saved.run(word) for word in ('names-hg', 'names-git')], [Answer(0, b'', b'')] * 2)
        saved.output_of('pull-hg', example('one-changeset.hg'))
        commit_id, node = saved.output_of('map').split()
        for word, text, fault, line in fault_rows(commit_id, node):
            before = saved.text
            report.check(f'{fault} on line {line}', saved.run(word, text), Answer(1, b'', b'refused %s %s %d\n' % (fault.encode(), NO_ID, line)))
            report.check('and nothing is changed', saved.text, before)
        for phase in range(len(PHASES)):
            check_phase(report, saved, commit_id, node, phase)
        check_many(report, saved, commit_id)


def fault_rows(commit_id, node):
    ref, bookmark = b'%s refs/heads/a\n' % commit_id, b'bookmark %s a\n' % node
    return [
        ('set-names-git', ref + ref, 'NameTwice', 2),
        ('set-names-git', b'%s refs/heads/a..b\n' % commit_id, 'RefUnfit', 1),
        ('set-names-git', b'%s HEAD\n' % commit_id, 'RefUnfit', 1),
        ('set-names-git', ref[:-1], 'NameShape', 1),
        ('set-names-git', b'%s refs/heads/a\n' % NO_ID, 'TargetUnknown', 1),
        ('set-names-hg', bookmark + bookmark, 'NameTwice', 2),
        ('set-names-hg', b'ref %s refs/heads/main\n' % commit_id, 'NameShape', 1),
        ('set-names-hg', b'annotated %s v1\n' % commit_id, 'TagUnknown', 1),
        ('set-names-hg', b'bookmark %s a\n' % commit_id, 'TargetUnknown', 1),
        ('set-names-hg', bookmark + b'tag %s \n' % node, 'RefUnfit', 2),
    ]


def check_phase(report, saved, commit_id, node, phase):
    line = b'phase %d %s\n' % (phase, node)
    report.check(f'the phase {PHASES[phase]} is set', saved.run('set-names-hg', line), Answer(0, b'', b''))
    report.check('it is printed for Mercurial', saved.output_of('names-hg'), line)
    report.check('and is a ref for Git', saved.output_of('names-git'), b'%s refs/hg/phase/%d/%s\n' % (commit_id, phase, node))


def check_many(report, saved, commit_id):
    lines = [b'%s refs/heads/branch-%06d\n' % (commit_id, number) for number in range(MOST + 1)]
    few = seconds_for(report, saved, lines[:MOST // 10])
    most = seconds_for(report, saved, lines[:MOST])
    report.verdict(f'ten times as many take less than {GROWTH} times as long', most < GROWTH * few, f'{few:.3f} and {most:.3f} seconds')
    answer = saved.run('set-names-git', b''.join(lines))
    report.check('one more than may be is refused', answer, Answer(1, b'', b'refused NameLimit %s %d\n' % (NO_ID, MOST + 1)))
    report.check('and the names stay', saved.output_of('names-git') == b''.join(lines[:MOST]), True)


def seconds_for(report, saved, lines):
    """How long it takes the processor to set and print names, which are checked."""
    start = processor_seconds()
    report.check(f'{len(lines)} names are set', saved.run('set-names-git', b''.join(reversed(lines))), Answer(0, b'', b''))
    report.check('and printed in their order', saved.output_of('names-git') == b''.join(lines), True)
    return processor_seconds() - start


def processor_seconds():
    used = resource.getrusage(resource.RUSAGE_CHILDREN)
    return used.ru_utime + used.ru_stime


def make_repository(folder):
    """Branches, plain and annotated tags, one of them of a tag, and a ref of another kind."""
    git(folder, 'init', '-q', '-b', 'main', '.')
    os.makedirs(os.path.join(folder, 'folder0'))
    commits = []
    for number in range(5):
        write(folder, 'folder0/file0', b'%d\n' % number)
        commits.append(commit(folder, number))
    git(folder, 'branch', 'side/line', commits[1])
    git(folder, 'tag', 'plain', commits[2])
    git(folder, 'tag', '-a', '-m', 'a tag', 'v1', commits[3])
    git(folder, 'tag', '-a', '-m', 'a tag of a tag', 'v1.signed', 'v1')
    git(folder, 'update-ref', 'refs/notes/x', commits[0])


def check_names(report, saved, refs):
    report.check('the refs of the repository are set', saved.run('set-names-git', b''.join(reversed(refs.splitlines(True)))), Answer(0, b'', b''))
    report.check('they come back, sorted', saved.output_of('names-git'), refs)
    names = saved.output_of('names-hg')
    words = sorted({line.split(b' ')[0] for line in names.splitlines()})
    report.check('Mercurial has bookmarks, tags and the rest', words, [b'annotated', b'bookmark', b'ref', b'tag'])
    report.check('with their names', re.findall(rb'^bookmark [0-9a-f]{40} (.*)$', names, re.M), [b'main', b'side/line'])
    saved.output_of('set-names-git')
    report.check('no names replace all', saved.output_of('names-git'), b'')
    report.check("Mercurial's names are set", saved.run('set-names-hg', names), Answer(0, b'', b''))
    report.check('Git has the same refs', saved.output_of('names-git'), refs)


def check_pull(report, saved):
    names, parts = saved.output_of('names-hg'), sections(saved.text)
    report.check('a bundle is pulled', saved.run('pull-hg', example('one-changeset.hg')).status, 0)
    report.check('the names stay', saved.output_of('names-hg'), names)
    report.check('and so do the tags', sections(saved.text)[b'tags'], parts[b'tags'])


def check_replaced(report, saved):
    """A set leaves all but the names."""
    parts = sections(saved.text)
    report.check('other names are set', saved.run('set-names-git', saved.output_of('names-git').splitlines(True)[0]).status, 0)
    report.check('all else stays', [word for word, part in sections(saved.text).items() if part != parts[word]], [b'names'])
