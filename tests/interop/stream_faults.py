"""What `list-git` and `check-git` refuse: for each kind of refusal a stream that has it, its id and its place."""
from formats import git
from formats.git import stream_object, tree_entry
from program import done, refused

ID = b'1' * 40
EMPTY_TREE = b'4b825dc642cb6eb9a060e54bf8d69288fbee4904'
LINE = b'Ann <ann@x> 0 +0000'
BLOB = stream_object(b'blob', b'hello\n')
NOTHING = {'list-git': b'', 'check-git': b'commits 0\ntrees 0\nblobs 0\ntags 0\n'}


def check(report, program):
    for word, nothing in NOTHING.items():
        report.check(f'{word}: an empty stream', program.run([word]), done(nothing))
        for name, data, answer in bad_framing():
            report.check(f'{word}: {name}', program.run([word], data), answer)
    for name, data, answer in good_contents() + bad_contents():
        report.check(f'check-git: {name}', program.run(['check-git'], data), answer)


def bad_framing():
    at = len(BLOB)
    return [
        ('a missing object', b'x missing\n', refused('Missing', 0)),
        ('a missing object behind another', BLOB + b'x missing\n', refused('Missing', at)),
        ('a line of 4,096 bytes that ends with missing', b'a' * 4088 + b' missingx', refused('Missing', 0)),
        ('a line of 4,096 bytes without LF', b'a' * 4097, refused('Line', 0)),
        ('4,096 bytes and no more', b'a' * 4096, refused('Truncated', 4096)),
        ('another line', b'no object\n', refused('Line', 0)),
        ('an empty line', b'\n', refused('Line', 0)),
        ('a leading zero in a size', ID + b' blob 06\nabcdef\n', refused('Line', 0)),
        ('an id in capitals', b'A' * 40 + b' blob 0\n\n', refused('Line', 0)),
        ('a kind in capitals', ID + b' BLOB 0\n\n', refused('Line', 0)),
        ('an unknown kind', ID + b' blub 0\n\n', refused('KindUnknown', 0, ID)),
        ('an unknown kind behind another', BLOB + ID + b' blub 0\n\n', refused('KindUnknown', at, ID)),
        ('a blob over its limit', ID + b' blob 67108865\n', refused('Limit', 0)),
        ('a commit over its limit', ID + b' commit 16777217\n', refused('Limit', 0)),
        ('a cut line', ID[:20], refused('Truncated', 20)),
        ('a cut content', BLOB[:-3], refused('Truncated', at - 3)),
        ('a content without its LF', BLOB[:-1], refused('Truncated', at - 1)),
        ('another byte for the LF of a content', BLOB[:-1] + b'x', refused('Line', at - 1)),
    ]


def commit(parents, tree=EMPTY_TREE):
    return git.commit_content(tree, parents, LINE, b'm')


def parents(count):
    return [b'%040x' % n for n in range(1, count + 1)]


def one_of(kind):
    return done(b''.join(b'%ss %d\n' % (k, k == kind) for k in (b'commit', b'tree', b'blob', b'tag')))


def good_contents():
    modes = [(b'100644', b'a'), (b'40000', b'b'), (b'120000', b'c'), (b'100755', b'd'), (b'100664', b'e'), (b'160000', b'f')]
    order = [(b'100644', b'a.b'), (b'40000', b'a'), (b'100644', b'a0')]
    return [
        ('an empty tree', stream_object(b'tree', b''), one_of(b'tree')),
        ('a tree of all modes', stream_object(b'tree', tree(modes)), one_of(b'tree')),
        ('a folder between two files', stream_object(b'tree', tree(order)), one_of(b'tree')),
        ('a commit of 64 parents', stream_object(b'commit', commit(parents(64))), one_of(b'commit')),
        ('a tag', stream_object(b'tag', b'object ' + ID + b'\ntype tree\ntag v1\n'), one_of(b'tag')),
    ]


def tree(entries):
    return b''.join(tree_entry(mode, name, ID) for mode, name in entries)


def bad_contents():
    cases = [('another id', BLOB.replace(b'hello', b'hallo'), refused('IdWrong', 0, git.object_id(b'blob', b'hello\n')))]
    contents = [
        ('a cut entry of a tree', b'tree', tree([(b'100644', b'a')])[:-1], 'ObjectShape'),
        ('entries of a tree that fall', b'tree', tree([(b'100644', b'b'), (b'100644', b'a')]), 'ObjectShape'),
        ('a name twice', b'tree', tree([(b'100644', b'a'), (b'40000', b'a')]), 'ObjectShape'),
        ('a mode that is no number', b'tree', tree([(b'10064x', b'a')]), 'ObjectShape'),
        ('a mode with a leading zero', b'tree', tree([(b'040000', b'a')]), 'ModeOut'),
        ('a file that its group may write and run', b'tree', tree([(b'100775', b'a')]), 'ModeOut'),
        ('a name .git', b'tree', tree([(b'40000', b'.git')]), 'NameUnfit'),
        ('a name with a slash', b'tree', tree([(b'100644', b'a/b')]), 'NameUnfit'),
        ('a commit without a committer', b'commit', b'tree ' + ID + b'\nauthor a\n\n', 'ObjectShape'),
        ('a commit without a blank line', b'commit', b'tree ' + ID + b'\nauthor a\ncommitter b\n', 'ObjectShape'),
        ('a parent twice', b'commit', commit([ID, ID]), 'ParentTwice'),
        ('65 parents', b'commit', commit(parents(65)), 'ParentLimit'),
        ('a tag of another type', b'tag', b'object ' + ID + b'\ntype x\ntag v1\n', 'ObjectShape'),
    ]
    for name, kind, content, fault in contents:
        data = BLOB + stream_object(kind, content)
        cases.append((name, data, refused(fault, len(BLOB), git.object_id(kind, content))))
    return cases
