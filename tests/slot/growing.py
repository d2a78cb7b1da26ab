"""Pulls one after another over the inputs of `examples/`, and what a state is refused for."""
import os
import tempfile

from examples import example
from formats import hg
from saved import STATE, Answer, Saved, sections
from small_histories import second_changeset

LEAST = hg.bundle()
EMPTY = b'hg-git-bridge 2\nhg 18\n' + LEAST + b'\ngit 0\n\nmap 0\ntags 0\n\nnames 0\n\n'


def check(report, program):
    bundle, stream = example('one-changeset.hg'), example('one-changeset.git')
    with tempfile.TemporaryDirectory() as folder:
        saved = Saved(program, folder)
        check_empty(report, saved)
    with tempfile.TemporaryDirectory() as folder, tempfile.TemporaryDirectory() as other:
        saved, from_git = Saved(program, folder), Saved(program, other)
        report.check('the example is pulled', saved.run('pull-hg', bundle), Answer(0, stream, b''))
        report.check('its stream is pulled', from_git.run('pull-git', stream), Answer(0, bundle, b''))
        report.check('both leave the same state', from_git.text, saved.text)
        check_dumps(report, saved, bundle, stream)
        check_second(report, saved, second_changeset())
    check_bad_states(report, program, bundle)
    check_too_long(report, program, bundle)


def check_empty(report, saved):
    report.check('an empty state has an empty map', saved.run('map'), Answer(0, b'', b''))
    report.check('and the least bundle', saved.run('dump-hg'), Answer(0, LEAST, b''))
    report.check('and an empty stream', saved.run('dump-git'), Answer(0, b'', b''))
    report.check('and each of its pairs is right', saved.run('verify'), Answer(0, b'verified 0\n', b''))
    report.check('none of these makes the file', saved.text, None)
    report.check('an empty bundle is pulled', saved.run('pull-hg', LEAST), Answer(0, b'', b''))
    report.check('the empty state is saved', saved.text, EMPTY)
    report.check('a refused bundle', saved.run('pull-hg', b''), Answer(1, b'', b'refused Truncated %s 0\n' % (b'0' * 40)))
    report.check('leaves it as it was', saved.text, EMPTY)


def check_dumps(report, saved, bundle, stream):
    before = saved.text
    report.check('its bundle is dumped', saved.run('dump-hg'), Answer(0, bundle, b''))
    report.check('its stream is dumped', saved.run('dump-git'), Answer(0, stream, b''))
    node = hg.entries_of(bundle)[0].node.hex().encode()
    line = b'fb8491d27293299d600326567e91d35289f99b8d %s\n' % node
    report.check('its map has both ids', saved.run('map'), Answer(0, line, b''))
    report.check('the state stays as it is', saved.text, before)
    report.check('pulled again, nothing is written', saved.run('pull-hg', bundle), Answer(0, b'', b''))
    report.check('and the same is saved', saved.text, before)
    report.check('the stream after it: nothing is written', saved.run('pull-git', stream), Answer(0, LEAST, b''))
    report.check('and the same is saved again', saved.text, before)


def check_second(report, saved, more):
    output = saved.output_of('pull-hg', more)
    report.check('one more changeset brings a blob, a tree and a commit', [line.split(b' ')[1] for line in output.split(b'\n') if line.count(b' ') == 2 and len(line.split(b' ')[0]) == 40], [b'blob', b'tree', b'commit'])
    parts = sections(saved.text)
    report.check('the section of Git goes on where it ended', parts[b'git'].endswith(output), True)
    report.check('two pairs are mapped', parts[b'map'].count(b'\n'), 2)
    text = saved.text
    report.check('the same again: nothing is written', saved.run('pull-hg', more), Answer(0, b'', b''))
    report.check('and the same is saved', saved.text, text)
    with tempfile.TemporaryDirectory() as folder:
        other = Saved(saved.program, folder)
        answer = other.run('pull-hg', more)
        report.check('without what it stands on it is refused', (answer.status, answer.errors.split(b' ')[1], other.text), (1, b'ParentUnknown', None))
        report.check('the dump of both is pulled', other.run('pull-hg', saved.output_of('dump-hg')).status, 0)
        report.check('and saves the same', other.text, text)
    with tempfile.TemporaryDirectory() as folder:
        other = Saved(saved.program, folder)
        report.check('so is the dump of the other side', other.run('pull-git', saved.output_of('dump-git')), Answer(0, saved.output_of('dump-hg'), b''))
        report.check('and saves the same too', other.text, text)


# the words that begin with what is saved
SLOT_WORDS = 'pull-hg pull-git dump-hg dump-git map verify set-names-hg set-names-git names-hg names-git'.split()
TOO_LONG = 1 << 31

# texts of no state: a name, what is done to a text, and the line on the errors
BAD_STATES = [
    ('another version', lambda text: text.replace(b'bridge 2', b'bridge 9', 1), b'state StateVersion 0\n'),
    ('the first version', lambda text: text.replace(b'bridge 2', b'bridge 1', 1), b'state StateVersion 0\n'),
    ('no state at all', lambda text: b'abc', b'state StateShape 0\n'),
    ('an empty file', lambda text: b'', b'state StateShape 0\n'),
    ('another size of the bundle', lambda text: text.replace(b'hg 427', b'hg 428', 1), b'state StateShape 1\n'),
    ('a flipped byte of a file', lambda text: text.replace(b'hello', b'hellp', 1), b'state StateShape 1\n'),
    ('a flipped byte of a message', lambda text: text[:500] + text[500:].replace(b'\none\n', b'\nuno\n', 1), b'state StateShape 2\n'),
    ('another count of pairs', lambda text: text.replace(b'map 1', b'map 2', 1), b'state StateShape 3\n'),
    ('a size of tags', lambda text: text.replace(b'tags 0', b'tags 1', 1), b'state StateShape 4\n'),
    ('a byte behind it', lambda text: text + b'\n', b'state StateShape 5\n'),
    ('cut off', lambda text: text[:-1], b'state StateShape 5\n'),
]


def check_bad_states(report, program, bundle):
    for name, change, line in BAD_STATES:
        with tempfile.TemporaryDirectory() as folder:
            saved = Saved(program, folder)
            saved.output_of('pull-hg', bundle)
            bad = change(saved.text)
            saved.text = bad
            for word in SLOT_WORDS:
                report.check(f'{word} over a state with {name}', (saved.run(word, bundle), saved.text), (Answer(6, b'', line), bad))


def check_too_long(report, program, bundle):
    """A file of one byte more than a state may have; it takes no room on the disk."""
    with tempfile.TemporaryDirectory() as folder:
        saved = Saved(program, folder)
        saved.text = b''
        path = os.path.join(folder, STATE)
        os.truncate(path, TOO_LONG)
        wanted = Answer(6, b'', b'state TooLong 0\n'), TOO_LONG
        for word in SLOT_WORDS:
            report.check(f'{word} over a state that is too long', (saved.run(word, bundle), os.path.getsize(path)), wanted)
