"""Bytes, numbers, ids, escapes, paths and the reach of an input."""
import hashlib

from antt.library import WORDS
from antt.values import Con, Tup
from checks import DIGITS, NULL, ONE, integer, just, refusal

INPUT_LIMIT = 536870912
FAULTS = '''
    Truncated Length Limit Trailing Magic OtherBundle InputLimit HeaderShort ParentOrder ParentUnknown LinkUnknown
    HunkShape HunkRange NodeWrong ChangesetShape ManifestShape PathUnfit FileShape Collision Line Missing KindUnknown
    IdWrong ObjectShape ModeOut NameUnfit ParentTwice ParentLimit ManifestUnknown FileUnknown ObjectUnknown
    PathClash ParentIsLink FileParentLate ManifestParentLate NestLimit PairLimit Orphan DanglingLink
    StateLimit NameShape RefUnfit NameTwice TargetUnknown TagUnknown NameLimit CountLimit
'''.split()


def check(checks):
    check_texts(checks)
    check_cuts(checks)
    check_numbers(checks)
    check_lists(checks)
    check_ids(checks)
    check_escapes(checks)
    check_paths(checks)
    check_limits(checks)
    check_reach(checks)
    for name in FAULTS:
        checks.equal(f'the word of {name}', name.encode(), 'text_model.Fault.fault_word', Con(name))


def check_texts(checks):
    checks.table('text_model.Text.is_below', [
        ('a prefix is below', (b'a', b'ab'), True),
        ('the first other byte decides', (b'ab', b'b'), True),
        ('bytes have no sign', (b'a', b'\xff'), True),
        ('nothing is below a byte', (b'', b'\0'), True),
        ('no text is below itself', (b'a', b'a'), False),
        ('a longer text is not below its prefix', (b'ab', b'a'), False),
    ])
    checks.table('text_model.Text.first_line', [
        ('the first line of nothing', (b'',), None),
        ('the first line without LF', (b'ab',), None),
        ('the first line and the rest', (b'ab\ncd\n',), just_pair(b'ab', b'cd\n')),
        ('an empty first line', (b'\n',), just_pair(b'', b'')),
    ])
    checks.table('text_model.Text.whole_lines', [
        ('the lines of nothing', (b'',), []),
        ('lines keep their LF', (b'a\n\nb\n',), [b'a\n', b'\n', b'b\n']),
        ('a last line may lack its LF', (b'a\nb',), [b'a\n', b'b']),
    ])
    checks.table('text_model.Text.has_piece', [
        ('a piece in the middle', (b'bc', b'abcd'), True),
        ('a piece at the end', (b'cd', b'abcd'), True),
        ('a cut piece', (b'de', b'abcd'), False),
        ('the bytes of a piece apart', (b'ac', b'abc'), False),
    ])
    checks.table('text_model.Text.spaced', [
        ('words with blanks between', ([b'a', b'', b'b'],), b'a  b'),
        ('one word', ([b'a'],), b'a'),
        ('no words', ([],), b''),
    ])


def check_cuts(checks):
    checks.table('text_model.Cuts.cut_of', [
        ('cut at the first slash', (47, b'a/b/c'), just_pair(b'a', b'b/c')),
        ('cut at a slash in front', (47, b'/a'), just_pair(b'', b'a')),
        ('nothing to cut at', (47, b'abc'), None),
    ])
    checks.table('text_model.Cuts.place_from', [
        ('the first place', (10, b'ab\ncd\n', 0), just(2)),
        ('the place where the search begins', (10, b'ab\ncd\n', 2), just(2)),
        ('a later place', (10, b'ab\ncd\n', 3), just(5)),
        ('no later place', (10, b'ab\ncd\n', 6), None),
    ])


def just_pair(first, second):
    return just(Tup(tuple(first), tuple(second)))


def check_numbers(checks):
    checks.table('text_model.Text.is_decimal', [
        ('zero is a decimal', (b'0',), True),
        ('a decimal of two digits', (b'10',), True),
        ('no digits', (b'',), False),
        ('a leading zero', (b'01',), False),
        ('two zeros', (b'00',), False),
        ('a sign', (b'-1',), False),
        ('a letter', (b'1a',), False),
        ('the byte behind the digits', (b'1:',), False),
        ('the byte before the digits', (b'1/',), False),
    ])
    checks.table('text_model.Text.decimal_below', [
        ('the largest number of 64 bits', (2**64, b'18446744073709551615'), just(2**64 - 1)),
        ('one more', (2**64, b'18446744073709551616'), None),
        ('no decimal', (2**64, b'007'), None),
    ])
    checks.table('text_model.Text.signed_decimal', [
        ('zero has no sign', (integer(0),), b'0'),
        ('a negative number', (integer(-62),), b'-62'),
        ('minus one', (integer(-1),), b'-1'),
    ])


def check_lists(checks):
    below, same = checks.value('text_model.Text.is_below'), WORDS['bytes_eq']
    checks.table('text_model.Lists.rises', [
        ('nothing rises', (below, []), True),
        ('rising texts', (below, [b'a', b'b', b'c']), True),
        ('equal texts do not rise', (below, [b'a', b'a']), False),
        ('a fall at the end', (below, [b'a', b'c', b'b']), False),
    ])
    checks.equal('each text once', [b'b', b'a'], 'text_model.Lists.first_of_each', same, [b'b', b'a', b'b', b'a'])
    checks.equal('only new texts, each once', [b'c', b'd'], 'text_model.Lists.only_new', same,
                 [b'a', b'b'], [b'c', b'a', b'd', b'c'])
    checks.equal('texts in order', [b'a', b'b', b'c'], 'text_model.Lists.in_order', below, [b'b', b'c', b'a'])
    checks.equal('all but the last', [b'a', b'b'], 'text_model.Lists.all_but_last', [b'a', b'b', b'c'])


def check_ids(checks):
    node, low, high = 'text_model.Id.node_id', b'\x01' * 20, b'\xfe' * 20
    checks.equal('the node of an empty text', bytes.fromhex('b80de5d138758541c5f05265ad144ab9fa86d1db'), node, NULL, NULL, b'')
    whole = hashlib.sha1(low + high + b'text').digest()
    checks.equal('the smaller parent is hashed first', whole, node, low, high, b'text')
    checks.equal('in whatever order the parents stand', whole, node, high, low, b'text')
    checks.equal('the null parent is hashed first', hashlib.sha1(NULL + high).digest(), node, high, NULL, b'')
    checks.equal('the blob of nothing', bytes.fromhex('e69de29bb2d1d6434b8b29ae775ad8c2e48c5391'), 'text_model.Id.blob_id', b'')
    checks.equal('the blob of hello', bytes.fromhex('ce013625030ba8dba906f756967f9e9ca394464a'), 'text_model.Id.blob_id', b'hello\n')
    checks.equal('the tree of nothing', bytes.fromhex('4b825dc642cb6eb9a060e54bf8d69288fbee4904'),
                 'text_model.Id.object_id', Con('tree'), b'')
    checks.equal('an id in digits', b'0af1' + b'0' * 36, 'text_model.Id.hex', b'\x0a\xf1' + bytes(18))
    checks.table('text_model.Id.id_of_hex', [
        ('the id of 40 digits', (b'0aF1'.lower() + b'0' * 36,), just(b'\x0a\xf1' + bytes(18))),
        ('40 ones', (DIGITS,), just(ONE)),
        ('a capital digit', (b'A' * 40,), None),
        ('39 digits', (b'1' * 39,), None),
        ('41 digits', (b'1' * 41,), None),
        ('a letter that is no digit', (b'g' * 40,), None),
        ('a byte between the digits and the letters', (b':' * 40,), None),
    ])


def check_escapes(checks):
    checks.table('text_model.Escape.escape', [
        ('a blank, a percent and a backslash', (b'a b%\\',), b'a%20b%25%5C'),
        ('the first and the last plain byte', (b'!~',), b'!~'),
        ('the bytes around the plain ones', (b' \x7f',), b'%20%7F'),
        ('the least and the largest byte', (b'\0\xff',), b'%00%FF'),
        ('a line end', (b'\n',), b'%0A'),
        ('nothing', (b'',), b''),
    ])
    checks.table('text_model.Unescape.first_byte', [
        ('a plain byte', (b'ab',), just(Tup(97, (98,)))),
        ('an escaped blank', (b'%20b',), just(Tup(32, (98,)))),
        ('an escaped percent', (b'%25',), just(Tup(37, ()))),
        ('an escaped backslash', (b'%5C',), just(Tup(92, ()))),
        ('an escaped byte that is plain', (b'%41',), None),
        ('an escaped star', (b'%2A',), None),
        ('small digits', (b'%0a',), None),
        ('one digit', (b'%2',), None),
        ('no digit', (b'%',), None),
        ('a backslash', (b'\\',), None),
        ('a blank', (b' ',), None),
        ('a byte of eight bits', (b'\x80',), None),
        ('an empty escape', (b'',), None),
    ])


def check_paths(checks):
    def components(count, size):
        """A path of so many components and bytes."""
        return b'/'.join([b'a'] * (count - 1) + [b'a' * (size - 2 * (count - 1))])

    fit = [b'a', b'a/b', b'a b', b'\xff', b'\\', b'...', b'.gitignore', b'.GIT', b'.hgtags', b'.git2/x', b'a.git', b'~',
           components(256, 511), components(1, 4096), components(256, 4096)]
    unfit = [b'', b'/', b'/a', b'a/', b'a//b', b'.', b'..', b'./a', b'a/.', b'a/../b', b'.git', b'a/.git/b', b'.hg',
             b'.hg/a', b'a/.hg', b'a\0b', b'a\nb', b'a\rb', b'\n', components(257, 513), components(1, 4097),
             components(256, 4097)]
    for path in fit:
        checks.equal(f'the path {named(path)} is fit', True, 'text_model.Path.is_fit_path', path)
    for path in unfit:
        checks.equal(f'the path {named(path)} is not fit', False, 'text_model.Path.is_fit_path', path)
    checks.table('text_model.Path.is_fit_name', [
        ('a fit name', (b'a.b',), True),
        ('a name with a slash', (b'a/b',), False),
        ('the name .git', (b'.git',), False),
        ('an empty name', (b'',), False),
        ('a name of 4,096 bytes', (b'a' * 4096,), True),
        ('a name of 4,097 bytes', (b'a' * 4097,), False),
    ])
    checks.table('text_model.Path.lies_below', [
        ('a path below a folder', (b'a/b', b'a'), True),
        ('a path far below a folder', (b'a/b/c', b'a'), True),
        ('a longer name', (b'ab', b'a'), False),
        ('a path is not below itself', (b'a', b'a'), False),
        ('a folder is not below its file', (b'a', b'a/b'), False),
    ])


def named(path):
    return repr(path) if len(path) < 40 else f'of {len(path)} bytes and {path.count(b"/") + 1} components'


def check_limits(checks):
    """Each limit by its number."""
    for path, limit in [
        ('text_model.Limits.input_limit', 2**29), ('text_model.Limits.sum_limit', 2**30), ('text_model.Limits.text_limit', 2**26),
        ('text_model.Limits.commit_limit', 2**24), ('text_model.Limits.rows_limit', 2**26), ('text_model.Limits.parent_limit', 64),
        ('text_model.Limits.path_limit', 4096), ('text_model.Limits.component_limit', 256), ('text_model.Limits.line_limit', 4096),
        ('state_model.Limits.dump_limit', 2**29), ('state_model.Limits.changeset_limit', 10**6), ('state_model.Limits.link_limit', 62),
        ('state_model.Limits.slot_limit', 2**31 - 1), ('state_model.Limits.name_limit', 10**5), ('state_model.Limits.ref_limit', 4096),
        ('partner_model.Given.depth_limit', 16), ('make_model.Dump.most_changesets', 20000),
    ]:
        checks.equal(f'the number of {path}', limit, path)


def check_reach(checks):
    checks.table('text_model.Fault.reach', [
        ('no bytes are asked of an empty input', (0, 0), None),
        ('a byte is asked of an empty input', (0, 1), just(refusal('Truncated', 0))),
        ('the last byte is there', (6, 6), None),
        ('the last byte is missing', (5, 6), just(refusal('Truncated', 5))),
        ('the largest input, to its end', (INPUT_LIMIT, INPUT_LIMIT), None),
        ('the largest input ends', (INPUT_LIMIT, INPUT_LIMIT + 1), just(refusal('Truncated', INPUT_LIMIT))),
        ('the first byte past the limit', (INPUT_LIMIT + 1, INPUT_LIMIT + 1), just(refusal('InputLimit', INPUT_LIMIT))),
        ('past the limit and past the end', (INPUT_LIMIT + 1, INPUT_LIMIT + 9), just(refusal('InputLimit', INPUT_LIMIT))),
        ('early bytes of a too long input', (INPUT_LIMIT + 1, 100), None),
    ])
