"""Pulls of histories of the real Mercurial and Git that need marks: what comes over is taken by the other tool, and all comes back."""
import tempfile

import real_git
from formats import git as streams
from formats.hg import revisions_of
from program import done
from pulls import check_unbundled, loaded, pairs_of
from tools import git, hg, read, write

CHANGESETS = 600


def check(report, program):
    check_from_hg(report, program)
    check_from_git(report, program)


def check_from_hg(report, program):
    with tempfile.TemporaryDirectory() as folder:
        hg(folder, 'init', '.')
        hg(folder, 'commit-history', str(CHANGESETS), '12')
        hg(folder, 'bundle', '--all', '--type', 'none-v1', 'rich.hg')
        data = read(folder, 'rich.hg')
        answer = program.run(['pull-hg'], data)
        stream = answer.output
        report.check(f'a rich history of {CHANGESETS} changesets of the real hg is pulled', answer, done(stream))
        lines = [b'\n' + word for word in (b'HG:rename ', b'HG:files ', b'HG:user ', b'HG:extra branch stable', b'HG:extra note ')]
        report.check('its commits have marks of many kinds', [line in stream for line in lines], [True] * len(lines))
        with tempfile.TemporaryDirectory() as other:
            loaded(report, other, stream, pairs_of(data, stream).values())
        back = program.run(['pull-git'], stream)
        report.check('its stream is pulled', back, done(back.output))
        report.check('all nodes of the rich history come back, with their parents', revisions_of(back.output), revisions_of(data))
        check_unbundled(report, folder, back.output)
        report.check('the bundle that came back gives the same stream', program.run(['pull-hg'], back.output), done(stream))


def check_from_git(report, program):
    with tempfile.TemporaryDirectory() as folder:
        real_git.make_repository(folder)
        data = git(folder, 'cat-file', '--batch', data=real_git.object_ids(folder))
        answer = program.run(['pull-git'], data)
        bundle = answer.output
        report.check('a rich history of the real git, with octopus merges and signatures, is pulled', answer, done(bundle))
        items = [b'hg-git-author:', b'hg-git-committer:', b'hg-git-headers:', b'hg-git-message:', b'hg-git-parents:', b'hg-git-link:']
        report.check('its changesets have marks of many kinds, and links', [item in bundle for item in items], [True] * len(items))
        with tempfile.TemporaryDirectory() as other:
            hg(other, 'init', '.')
            write(other, 'rich.hg', bundle)
            hg(other, 'unbundle', 'rich.hg')
            report.verdict('the real hg verifies its bundle', b'checked ' in hg(other, 'verify'))
            check_again(report, program, other, data)
        back = program.run(['pull-hg'], bundle)
        report.check('its bundle is pulled', back, done(back.output))
        report.check('all objects of the rich history come back, but for tags', objects(back.output), objects(data))
        report.check('the stream that came back gives the same bundle', program.run(['pull-git'], back.output), done(bundle))


def check_again(report, program, folder, data):
    """What the real hg bundles again may come in another order, and gives the same commits."""
    hg(folder, 'bundle', '--all', '--type', 'none-v1', 'again.hg')
    answer = program.run(['pull-hg'], read(folder, 'again.hg'))
    report.check('the bundle that the real hg makes of it is pulled', answer, done(answer.output))
    report.check('and gives all objects', objects(answer.output), objects(data))


def objects(stream):
    return sorted((o.id, o.kind) for o in streams.objects_of(stream) if o.kind != b'tag')
