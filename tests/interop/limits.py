"""Inputs, members and histories at their limits and past them."""
import functools
import itertools
import os
import struct
import tempfile

from formats import git, hg
from program import done, refused
from small_histories import LINE, changeset_text, commit, group, id_of, over, tree
from wide_trees import changed_texts, wide_texts

DELTA_LIMIT = 1 << 27
INPUT_LIMIT = 1 << 29
BLOB_LIMIT = 1 << 26
MEMBER_LIMIT = 1 << 24
BLOCK = bytes(1 << 20)
OF_ZEROS = b'changeset' + b' ' + b' '.join([b'0' * 40] * 4) + b' %d\n'
LEVELS = 12
# So many commits over a tree of 4,096 files, of which each changes one, have a bundle of 2^29 bytes where the last message has so many letters more.
COMMITS = 51
LETTERS = 1573093


def check(report, program):
    check_bundles(report, program)
    check_streams(report, program)
    check_names(report, program)
    check_commit(report, program)
    check_state(report, program)


# ---- inputs, through a pipe

def check_bundles(report, program):
    report.check('a chunk of the largest length is listed',
                 listed(program, [DELTA_LIMIT]), done(OF_ZEROS % (DELTA_LIMIT - 84)))
    report.check('a chunk of one byte more is refused', listed(program, [DELTA_LIMIT + 1]), refused('Limit', 6))
    report.check('a chunk of one byte more that is cut',
                 program.run_stream(['list-hg'], cut(blocks([DELTA_LIMIT + 1]), DELTA_LIMIT)), refused('Truncated', DELTA_LIMIT))
    whole = [DELTA_LIMIT] * 3 + [DELTA_LIMIT - 18]
    report.check('an input of 2^29 bytes is listed',
                 listed(program, whole), done(b''.join(OF_ZEROS % (n - 84) for n in whole)))
    report.check('a byte behind an input of 2^29 bytes is Trailing',
                 program.run_stream(['list-hg'], itertools.chain(blocks(whole), [b'x'])), refused('Trailing', INPUT_LIMIT))
    report.check('a bundle of one byte more is refused',
                 listed(program, whole[:3] + [DELTA_LIMIT - 17]), refused('InputLimit', INPUT_LIMIT))
    report.check('a chunk that ends past 2^29 bytes is refused',
                 listed(program, whole[:3] + [DELTA_LIMIT]), refused('InputLimit', INPUT_LIMIT))


def listed(program, lengths):
    return program.run_stream(['list-hg'], blocks(lengths))


def blocks(lengths):
    """A bundle of changesets that are all zeros and whose chunks have these lengths."""
    yield hg.MAGIC
    for length in lengths:
        yield struct.pack('>I', length)
        yield from zeros(length - 4)
    yield bytes(12)


def check_streams(report, program):
    """Blobs of zeros that end at the limit, and one byte behind it."""
    whole = [BLOB_LIMIT] * 7
    left = INPUT_LIMIT - sum(len(head_of(size)) + size + 1 for size in whole)
    sizes = whole + [left - len(head_of(left)) - 1]
    past = whole + [sizes[-1] + 1]
    listed = b''.join(map(head_of, sizes))
    for word, output in [('list-git', listed), ('check-git', b'commits 0\ntrees 0\nblobs 8\ntags 0\n')]:
        report.check(f'{word}: a stream of 2^29 bytes', program.run_stream([word], blobs(sizes)), done(output))
        report.check(f'{word}: a stream of one byte more', program.run_stream([word], blobs(past)), refused('InputLimit', INPUT_LIMIT))


@functools.lru_cache
def head_of(size):
    """The line before a blob of zeros."""
    return b'%s blob %d\n' % (git.object_id(b'blob', bytes(size)), size)


def blobs(sizes):
    """A stream of blobs of zeros."""
    for size in sizes:
        yield head_of(size)
        yield from zeros(size)
        yield b'\n'


def check_names(report, program):
    """Lines of names are read to the end first."""
    for word in ('set-names-git', 'set-names-hg'):
        report.check(f'{word}: a text of 2^29 bytes', program.run_stream([word], zeros(INPUT_LIMIT)), refused('NameShape', 1))
        report.check(f'{word}: a text of one byte more', program.run_stream([word], zeros(INPUT_LIMIT + 1)), refused('InputLimit', INPUT_LIMIT))


def zeros(size):
    for _ in range(size // len(BLOCK)):
        yield BLOCK
    yield bytes(size % len(BLOCK))


def cut(pieces, size):
    """The first bytes of the pieces."""
    for piece in pieces:
        yield piece[:size]
        size -= len(piece[:size])
        if size == 0:
            return


# ---- members and histories

def check_commit(report, program):
    """A changeset whose commit has the most bytes that it may, and one more."""
    root = tree()
    others = len(git.commit_content(id_of(root), [], LINE, b'\n'))
    for size, name in [(MEMBER_LIMIT, 'a commit of 2^24 bytes is pulled'), (MEMBER_LIMIT + 1, 'a commit of one byte more is refused')]:
        description = b'm' * (size - others)
        changeset = over(changeset_text(hg.NULL, [], description))
        pulled = done(root + commit(root, message=description + b'\n'))
        wanted = refused('PairLimit', 6, hg.hex_of(changeset[0])) if size > MEMBER_LIMIT else pulled
        report.check(name, program.run(['pull-hg'], hg.bundle(group(lambda own: own, [changeset]))), wanted)


def check_state(report, program):
    """A history whose bundle has as many bytes as may be saved, and one of a byte more: its last commit is refused."""
    stream, _ = long_history(LETTERS)
    report.check('a history whose bundle has 2^29 bytes is pulled', written(program, stream), (done(), INPUT_LIMIT))
    stream, last = long_history(LETTERS + 1)
    report.check('one whose bundle has a byte more is not', written(program, stream), (refused('StateLimit', stream.index(last), id_of(last)), 0))


def long_history(letters):
    """A stream, and the text of its last commit."""
    whole = wide_texts(LEVELS)
    texts, parents = list(whole), []
    for number in range(COMMITS):
        texts += changed_texts(whole, b'%02d\n' % number)
        message = b'%02d%s\n' % (number, b'm' * letters if number == COMMITS - 1 else b'')
        texts.append(commit(texts[-1], parents, message=message))
        parents = texts[-1:]
    return b''.join(texts), texts[-1]


def written(program, stream):
    """The answer to a stream without what it writes, and how many bytes this has."""
    with tempfile.TemporaryFile() as input, tempfile.TemporaryFile() as output:
        input.write(stream)
        input.seek(0)
        answer = program.run_on(['pull-git'], input, output)
        return answer, os.fstat(output.fileno()).st_size
