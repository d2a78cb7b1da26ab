"""Words, inputs and outputs that are bad: each has one answer, and never a crash."""
import os
import random
import struct

import plain
from formats import hg
from program import READ_FAULT, USAGE, WRITE_FAULT, done, refused

ONE = b'\x11' * 20
LEAST = hg.bundle()
ENTRY = hg.entry(ONE, hg.NULL, hg.NULL, ONE, b'')
LISTED = hg.bundle([ENTRY])
LINE = b'changeset %s %s %s %s 0\n' % (b'11' * 20, b'00' * 20, b'00' * 20, b'11' * 20)
DAMAGED = 300


def check(report, program):
    check_words(report, program)
    check_framing(report, program)
    check_listed(report, program)
    check_random(report, program)
    check_damaged(report, program)
    check_outside(report, program)


def check_words(report, program):
    cases = [
        ('an unknown word', ['frob']),
        ('an option', ['--help']),
        ('another option', ['-v']),
        ('a word in capitals', ['LIST-HG']),
        ('an empty word', ['']),
        ('a word with a blank behind it', ['list-hg ']),
        ('a word too many', ['list-hg', 'list-hg']),
        ('a word that is no UTF-8', [b'list-\xff']),
    ]
    for name, words in cases:
        report.check(f'{name} is no command', program.run(words, LEAST), USAGE)
    report.check('no words at all list the bundle', program.run([], LISTED), done(LINE))
    with open(__file__, 'rb') as file:
        program.run_on(['frob'], input=file)
        report.check('an unknown word reads nothing of the input', os.lseek(file.fileno(), 0, os.SEEK_CUR), 0)


def field(n):
    return struct.pack('>I', n)


def check_framing(report, program):
    short = hg.chunk(bytes(79))
    path = hg.chunk(b'p' * 4096)
    long_path = hg.chunk(b'p' * 4097)
    to_files = hg.MAGIC + bytes(8)
    cases = [
        ('an empty input', b'', refused('Truncated', 0)),
        ('a cut magic', b'HG10U', refused('Truncated', 5)),
        ('another magic', b'abcdef', refused('Magic', 0)),
        ('another magic and more', b'abcdef' + LEAST, refused('Magic', 0)),
        ('a gzip bundle', b'HG10GZ' + LEAST, refused('OtherBundle', 0)),
        ('a bzip2 bundle', b'HG10BZ', refused('OtherBundle', 0)),
        ('a bundle of the second format', b'HG20\0\0\0\0', refused('OtherBundle', 0)),
        ('a magic alone', b'HG10UN', refused('Truncated', 6)),
        ('the least bundle', LEAST, done()),
        ('the least bundle cut in a length', LEAST[:9], refused('Truncated', 9)),
        ('the least bundle cut before its end', LEAST[:14], refused('Truncated', 14)),
        ('the least bundle and a byte', LEAST + b'\0', refused('Trailing', 18)),
        ('the least bundle twice', LEAST + LEAST, refused('Trailing', 18)),
        ('a length of 1', hg.MAGIC + field(1), refused('Length', 6)),
        ('a length of 4', hg.MAGIC + field(4), refused('Length', 6)),
        ('a length of -1', hg.MAGIC + field(2**32 - 1), refused('Length', 6)),
        ('the least length', hg.MAGIC + field(2**31), refused('Length', 6)),
        ('the largest length', hg.MAGIC + field(2**31 - 1), refused('Truncated', 10)),
        ('a length of 4 where a path is due', to_files + field(4), refused('Length', 14)),
        ('a payload of 16 bytes', hg.MAGIC + hg.chunk(bytes(16)) + bytes(12), refused('HeaderShort', 6)),
        ('a payload of 79 bytes', hg.MAGIC + short + bytes(12), refused('HeaderShort', 6)),
        ('a short payload before a cut', hg.MAGIC + short, refused('HeaderShort', 6)),
        ('a short payload that is cut itself', hg.MAGIC + short[:-1], refused('Truncated', 88)),
        ('a short payload in the second group', hg.MAGIC + ENTRY + bytes(4) + short + bytes(8), refused('HeaderShort', 94)),
        ('a path of 4,096 bytes', to_files + path + bytes(8), done()),
        ('a path of 4,097 bytes', to_files + long_path + bytes(8), refused('Limit', 14)),
        ('a path of 4,097 bytes that is cut', to_files + long_path[:-1], refused('Truncated', 14 + 4100)),
        ('a path twice and empty groups', hg.bundle(files=[(b'a', []), (b'a', [])]), done()),
    ]
    for name, data, answer in cases:
        report.check(f'{name}: {_words(answer)}', program.run(['list-hg'], data), answer)


def check_listed(report, program):
    report.check('an entry without a delta is listed', program.run(['list-hg'], LISTED), done(LINE))
    entry = hg.entry(ONE, hg.NULL, ONE, ONE, b'12345')
    line = b'file a%%20b%%25%%5C%%C3%%A9 %s %s %s %s 5\n' % (b'11' * 20, b'00' * 20, b'11' * 20, b'11' * 20)
    report.check('a path is listed escaped',
                 program.run(['list-hg'], hg.bundle(files=[('a b%\\é'.encode(), [entry])])), done(line))


def _words(answer):
    return answer.errors.decode().split()[1] if answer.errors else 'accepted'


def check_random(report, program):
    numbers = random.Random(1)
    for size in (1, 6, 100, 100000):
        data = bytes(numbers.randrange(256) for _ in range(size))
        report.check(f'{size} random bytes', program.run(['list-hg'], data), plain.listing(data))
        data = hg.MAGIC + data
        report.check(f'{size} random bytes behind the magic', program.run(['list-hg'], data), plain.listing(data))


def check_damaged(report, program):
    numbers = random.Random(2)
    entries = [hg.entry(numbers.randbytes(20), hg.NULL, ONE, ONE, numbers.randbytes(numbers.randrange(300))) for _ in range(12)]
    whole = hg.bundle(entries[:4], entries[4:7], [(b'a', entries[7:9]), (b'b/c', entries[9:])])
    for number in range(DAMAGED):
        data = damaged(whole, numbers)
        got, wanted = program.run(['list-hg'], data), plain.listing(data)
        if got != wanted:
            report.check(f'damaged bundle {number}', got, wanted)
            return
    report.verdict(f'{DAMAGED} damaged bundles are answered as a plain reader answers them', True)


def damaged(data, numbers):
    """The data with one to three changes of a kind that framing notices."""
    for _ in range(numbers.randint(1, 3)):
        at = numbers.randrange(len(data))
        length = at + numbers.randrange(200)
        data = numbers.choice([
            data[:at] + bytes([numbers.randrange(256)]) + data[at + 1:],
            data[:at] + data[length:],
            data[:at] + data[at:length] + data[at:],
            data[:at] + field(numbers.choice([0, 1, 4, 5, 84, 100, 2**31, 2**27 + 1])) + data[at + 4:],
            data[:at] or data,
        ])
    return data


def check_outside(report, program):
    folder = os.open('/', os.O_RDONLY)
    report.check('a folder as input', program.run_on(['list-hg'], input=folder), READ_FAULT)
    os.close(folder)
    with open('/dev/full', 'wb') as full:
        report.check('errors that are full change no status', program.run_on(['list-hg'], errors=full),
                     refused('Truncated', 0)._replace(errors=b''))
        report.check('errors that are full change no usage', program.run_on(['frob'], errors=full),
                     USAGE._replace(errors=b''))
        report.check('a full output', run_listed(program, full), WRITE_FAULT)
    report.check('a closed output', program.run_without(['list-hg'], '1>&-', LISTED), WRITE_FAULT)
    report.check('an output that nobody reads', run_unread(program), WRITE_FAULT)
    report.check('closed errors change no status', program.run_without(['list-hg'], '2>&-', b''),
                 refused('Truncated', 0)._replace(errors=b''))
    report.check('a closed input', program.run_without(['list-hg'], '0<&-', b''), READ_FAULT)


def run_listed(program, output):
    """A run over the bundle of one entry from a pipe."""
    reader, writer = os.pipe()
    os.write(writer, LISTED)
    os.close(writer)
    try:
        return program.run_on(['list-hg'], input=reader, output=output)
    finally:
        os.close(reader)


def run_unread(program):
    reader, writer = os.pipe()
    os.close(reader)
    try:
        return run_listed(program, writer)
    finally:
        os.close(writer)
