"""Git's objects and streams, the trees of files, the walk through a tree, and the order of commits."""
from antt.values import Con
from checks import DIGITS, NULL, ONE, TWO, just, record, refusal
from formats import git

FILE, EXEC, LINK, FOLDER = b'100644', b'100755', b'120000', b'40000'
HELLO = bytes.fromhex('ce013625030ba8dba906f756967f9e9ca394464a')
EMPTY_TREE = bytes.fromhex('4b825dc642cb6eb9a060e54bf8d69288fbee4904')
ROWS_LIMIT = 67108864
INPUT_LIMIT = 536870912


def check(checks):
    check_trees(checks)
    check_commits(checks)
    check_tags(checks)
    check_idents(checks)
    check_lines(checks)
    check_streams(checks)
    check_ids(checks)
    check_shapes(checks)
    check_walks(checks)
    check_rows(checks)
    check_kept(checks)
    check_residues(checks)
    check_order(checks)


def tree(*entries):
    """A tree whose entries all have the id of ones."""
    return b''.join(mode + b' ' + name + b'\0' + ONE for mode, name in entries)


def tree_fault(name):
    """A fault of this name, by its place."""
    return lambda place: just(record(name=Con(name), place=place))


SHAPE, MODE, NAME = map(tree_fault, ('ObjectShape', 'ModeOut', 'NameUnfit'))


def check_trees(checks):
    check_tree_shapes(checks)
    check_tree_modes(checks)
    check_tree_names(checks)
    entries = [record(mode=Con('Exec'), name=b'a', id=ONE), record(mode=Con('Directory'), name=b'b', id=TWO)]
    content = b'100755 a\0' + ONE + b'40000 b\0' + TWO
    checks.equal('the text of a tree', content, 'git_model.Tree.tree_text', entries)
    checks.equal('the entries of a tree', entries, 'git_model.Tree.tree_entries', content)
    checks.table('git_model.Tree.is_file_named', [
        ('a file of the name', (b'a', entries[0]), True),
        ('a file of another name', (b'b', entries[0]), False),
        ('a folder of the name', (b'b', entries[1]), False),
    ])


def check_tree_shapes(checks):
    one = tree((FILE, b'a'))
    checks.table('git_model.Tree.tree_fault', [
        ('an empty tree', (b'',), None),
        ('a tree of all modes', (tree((FILE, b'a'), (FOLDER, b'b'), (LINK, b'c'), (EXEC, b'd'), (b'100664', b'e'), (b'160000', b'f')),), None),
        ('a folder sorts with a slash', (tree((FILE, b'a.b'), (FOLDER, b'a'), (FILE, b'a0')),), None),
        ('a name of 4,096 bytes', (tree((FILE, b'a' * 4096)),), None),
        ('a cut id', (one[:-1],), SHAPE(0)),
        ('a cut second entry', (one + one[:5],), SHAPE(29)),
        ('no blank', (b'100644',), SHAPE(0)),
        ('no NUL', (b'100644 a' + ONE,), SHAPE(0)),
        ('an empty mode', (tree((b'', b'a')),), SHAPE(0)),
        ('a mode with an 8', (tree((b'100648', b'a')),), SHAPE(0)),
        ('a mode with a letter', (tree((b'10064x', b'a')),), SHAPE(0)),
        ('entries that fall', (tree((FILE, b'b'), (FILE, b'a')),), SHAPE(29)),
        ('an entry twice', (one + one,), SHAPE(29)),
        ('a folder before a file with a dot', (tree((FOLDER, b'a'), (FILE, b'a.b')),), SHAPE(28)),
        ('a file and a folder of one name', (tree((FILE, b'a'), (FOLDER, b'a')),), SHAPE(29)),
        ('the same with an entry between', (tree((FILE, b'a'), (FILE, b'a.b'), (FOLDER, b'a')),), SHAPE(60)),
    ])


def check_tree_modes(checks):
    checks.table('git_model.Tree.tree_fault', [
        ('a gitlink', (tree((b'160000', b'a')),), None),
        ('a mode that is none', (tree((b'100775', b'a')),), MODE(0)),
        ('a mode with a leading zero', (tree((b'040000', b'a')),), MODE(0)),
        ('a file that the group may write', (tree((b'100664', b'a')),), None),
        ('a mode of one digit', (tree((b'7', b'a')),), MODE(0)),
        ('a gitlink that falls', (tree((FILE, b'b'), (b'160000', b'a')),), SHAPE(29)),
        ('a gitlink with an unfit name', (tree((b'160000', b'.git')),), NAME(0)),
        ('a gitlink before a cut entry', (tree((b'160000', b'a')) + b'x',), SHAPE(29)),
        ('a gitlink before a file with a dot', (tree((b'160000', b'a'), (FILE, b'a.b')),), None),
        ('another mode with an unfit name', (tree((b'100775', b'.git')),), MODE(0)),
    ])


def check_tree_names(checks):
    checks.table('git_model.Tree.tree_fault', [
        ('a name .git', (tree((FOLDER, b'.git')),), NAME(0)),
        ('a name .hg', (tree((FILE, b'.hg')),), NAME(0)),
        ('a name of one dot', (tree((FILE, b'.')),), NAME(0)),
        ('a name of two dots', (tree((FILE, b'..')),), NAME(0)),
        ('an empty name', (tree((FILE, b'')),), NAME(0)),
        ('a name with a slash', (tree((FILE, b'a/b')),), NAME(0)),
        ('a name with LF', (tree((FILE, b'a\nb')),), NAME(0)),
        ('a name of 4,097 bytes', (tree((FILE, b'a' * 4097)),), NAME(0)),
        ('an unfit name behind another entry', (tree((FILE, b'a'), (FILE, b'b\r')),), NAME(29)),
        ('an unfit name before a bad mode', (tree((FILE, b'.git'), (b'160000', b'a')),), NAME(0)),
    ])


def check_commits(checks):
    root, parent = b'tree ' + DIGITS + b'\n', b'parent ' + DIGITS + b'\n'
    author, committer = b'author a\n', b'committer b\n'
    checks.table('git_model.Commit.commit_fault', [
        ('a commit', (root + author + committer + b'\nm',), None),
        ('a commit without a message', (root + author + committer + b'\n',), None),
        ('a commit with parents and headers', (root + parent + parent + author + committer + b'gpgsig a\n b\n \n\nm',), None),
        ('a commit without idents', (root + b'author \ncommitter \n\n',), None),
        ('an empty commit', (b'',), just(0)),
        ('a tree in capitals', (b'tree ' + b'A' * 40 + b'\n',), just(0)),
        ('a tree of 41 digits', (b'tree ' + b'1' * 41 + b'\n' + author + committer + b'\n',), just(0)),
        ('a tree line without LF', (root[:-1],), just(0)),
        ('a parent of 39 digits', (root + b'parent ' + b'1' * 39 + b'\n' + author + committer + b'\n',), just(46)),
        ('no author', (root + committer + b'\n',), just(46)),
        ('an author without a blank', (root + b'author\n' + committer + b'\n',), just(46)),
        ('a committer before the author', (root + committer + author + b'\n',), just(46)),
        ('a parent behind the author', (root + author + parent + committer + b'\n',), just(55)),
        ('no committer', (root + author + b'\n',), just(55)),
        ('no blank line', (root + author + committer,), just(67)),
        ('a header without LF', (root + author + committer + b'x',), just(67)),
        ('a second header without LF', (root + author + committer + b'x\ny',), just(69)),
    ])
    value = record(tree_id=ONE, parents=[TWO], author=b'a', committer=b'b', headers=b'x\n', message=b'm')
    text = root + b'parent ' + b'2' * 40 + b'\n' + author + committer + b'x\n\nm'
    checks.equal('the text of a commit', text, 'git_model.Commit.commit_text', value)
    checks.equal('the parents of a commit', [TWO], 'git_model.Commit.parent_ids', text)
    checks.equal('a parent in a message', [], 'git_model.Commit.parent_ids', root + author + committer + b'\n' + parent)
    check_parent_counts(checks)


def check_parent_counts(checks):
    def commit(parents):
        return git.commit_content(DIGITS, [b'%040x' % n for n in parents], b'a', b'm')

    checks.table('git_model.Object.commit_name', [
        ('64 parents', (commit(range(64)),), None),
        ('65 parents', (commit(range(65)),), just(Con('ParentLimit'))),
        ('a parent twice', (commit([1, 2, 1]),), just(Con('ParentTwice'))),
        ('65 parents, one of them twice', (commit([*range(64), 0]),), just(Con('ParentTwice'))),
        ('a parent twice in no commit', (commit([1, 1]).replace(b'author', b'auther'),), just(Con('ObjectShape'))),
    ])


def check_tags(checks):
    target, kind = b'object ' + DIGITS + b'\n', b'type commit\n'
    checks.table('git_model.Commit.tag_fault', [
        ('a tag', (target + kind + b'tag v1\ntagger x\n\nm',), None),
        ('a tag of nothing more', (target + kind + b'tag \n',), None),
        ('a tag of a tag', (target + b'type tag\ntag v1\n',), None),
        ('an empty tag', (b'',), just(0)),
        ('a target in capitals', (b'object ' + b'A' * 40 + b'\n' + kind + b'tag v1\n',), just(0)),
        ('another type', (target + b'type x\ntag v1\n',), just(48)),
        ('a type with a blank behind it', (target + b'type commit \ntag v1\n',), just(48)),
        ('no name', (target + kind,), just(60)),
        ('a name without LF', (target + kind + b'tag v1',), just(60)),
        ('another line for the name', (target + kind + b'tagger x\n',), just(60)),
    ])
    value = record(target=ONE, target_kind=Con('commit'), name=b'v1', rest=b'rest')
    checks.equal('the text of a tag', target + kind + b'tag v1\nrest', 'git_model.Commit.tag_text', value)


def check_idents(checks):
    def ident(name, email, seconds, zone):
        return just(record(name=name, email=email, seconds=seconds, zone=zone))

    checks.table('git_model.Commit.ident_of', [
        ('an ident', (b'Ann <ann@x> 0 +0000',), ident(b'Ann', b'ann@x', 0, b'+0000')),
        ('a negative zone of nothing', (b'Ann <ann@x> 5 -0000',), ident(b'Ann', b'ann@x', 5, b'-0000')),
        ('an empty name and an empty email', (b' <> 1 +0530',), ident(b'', b'', 1, b'+0530')),
        ('a name of blanks', (b'  <a> 1 +0530',), ident(b' ', b'a', 1, b'+0530')),
        ('the largest seconds', (b'A <a> 4611686018427387904 +9999',), ident(b'A', b'a', 2**62, b'+9999')),
        ('one second more', (b'A <a> 4611686018427387905 +9999',), None),
        ('no blank before the email', (b'Ann<ann@x> 0 +0000',), None),
        ('no name and no blank', (b'<a> 0 +0000',), None),
        ('no blank behind the email', (b'A <a>0 +0000',), None),
        ('two blanks behind the email', (b'A <a>  0 +0000',), None),
        ('a leading zero', (b'A <a> 00 +0000',), None),
        ('negative seconds', (b'A <a> -1 +0000',), None),
        ('a zone of three digits', (b'A <a> 0 +000',), None),
        ('a zone without a sign', (b'A <a> 0 00000',), None),
        ('a zone with a letter', (b'A <a> 0 +00x0',), None),
        ('a blank behind the zone', (b'A <a> 0 +0000 ',), None),
        ('a bracket in the name', (b'A>b <a> 0 +0000',), None),
        ('two brackets before the email', (b'A <<a> 0 +0000',), None),
        ('two brackets behind the email', (b'A <a>> 0 +0000',), None),
        ('an empty line', (b'',), None),
    ])


def check_lines(checks):
    def bad(name, place, id=NULL):
        return Con('BadLine', (refusal(name, place, id),))

    end = INPUT_LIMIT
    line = DIGITS + b' blob 6\n'
    checks.table('git_model.Stream.line_reading', [
        ('the line of an object', (0, line), Con('Header', (ONE, Con('blob'), 6))),
        ('the largest blob', (0, DIGITS + b' blob 67108864\n'), Con('Header', (ONE, Con('blob'), 67108864))),
        ('a larger blob', (7, DIGITS + b' blob 67108865\n'), bad('Limit', 7)),
        ('the largest commit', (0, DIGITS + b' commit 16777216\n'), Con('Header', (ONE, Con('commit'), 16777216))),
        ('a larger commit', (7, DIGITS + b' commit 16777217\n'), bad('Limit', 7)),
        ('an unknown kind', (7, DIGITS + b' blub 0\n'), bad('KindUnknown', 7, ONE)),
        ('an unknown kind over any limit', (7, DIGITS + b' blub 67108865\n'), bad('KindUnknown', 7, ONE)),
        ('an unknown kind with a leading zero', (7, DIGITS + b' blub 00\n'), bad('Line', 7)),
        ('a kind in capitals', (7, DIGITS + b' Blob 0\n'), bad('Line', 7)),
        ('no kind', (7, DIGITS + b'  0\n'), bad('Line', 7)),
        ('a fourth word', (7, DIGITS + b' blob 0 x\n'), bad('Line', 7)),
        ('two words', (7, DIGITS + b' blob\n'), bad('Line', 7)),
        ('an empty line', (7, b'\n'), bad('Line', 7)),
        ('a missing object', (7, b'x missing\n'), bad('Missing', 7)),
        ('a missing object without a name', (7, b' missing\n'), bad('Missing', 7)),
        ('the word missing alone', (7, b'missing\n'), bad('Line', 7)),
        ('a missing object that is cut', (7, b'x missing'), bad('Truncated', 16)),
        ('a cut line', (7, line[:-1]), bad('Truncated', 7 + len(line) - 1)),
        ('4,096 bytes and no more', (7, b'a' * 4096), bad('Truncated', 7 + 4096)),
        ('4,096 bytes without LF', (7, b'a' * 4097), bad('Line', 7)),
        ('LF as the last of 4,096 bytes', (7, b'a' * 4087 + b' missing\n'), bad('Missing', 7)),
        ('LF behind 4,096 bytes', (7, b'a' * 4096 + b'\n'), bad('Line', 7)),
        ('4,096 bytes that end with missing', (7, b'a' * 4088 + b' missing\n'), bad('Missing', 7)),
        ('a line that ends with the largest input', (end - len(line), line), Con('Header', (ONE, Con('blob'), 6))),
        ('a line across the end of the largest input', (end - 10, line), bad('InputLimit', end)),
        ('a line that is cut at the largest input', (end - 10, line[:10]), bad('Truncated', end)),
    ])


def check_streams(checks):
    blob = git.stream_object(b'blob', b'hello\n')
    at = len(blob)
    empty_tree = git.stream_object(b'tree', b'')
    commit = git.commit_content(DIGITS, [], b'a', b'm')
    other = b'100775 a\0' + ONE
    rows = [
        ('an empty stream', b'', []),
        ('a blob and a tree', blob + empty_tree, [0, at]),
        ('a blob twice', blob + blob, [0, at]),
        ('a commit whose tree is not there', git.stream_object(b'commit', commit), [0]),
        ('a cut content', blob[:-2], refusal('Truncated', at - 2)),
        ('a content without LF', blob[:-1], refusal('Truncated', at - 1)),
        ('another byte for the LF', blob[:-1] + b'x', refusal('Line', at - 1)),
        ('another byte for the LF of a second object', blob + blob[:-1] + b'x', refusal('Line', 2 * at - 1)),
        ('another content', blob.replace(b'hello', b'hallo'), refusal('IdWrong', 0, HELLO)),
        ('another content before a cut', blob.replace(b'hello', b'hallo') + b'x', refusal('IdWrong', 0, HELLO)),
        ('a missing object behind a blob', blob + b'x missing\n', refusal('Missing', at)),
        ('a gitlink', blob + git.stream_object(b'tree', b'160000 a\0' + ONE), [0, at]),
        ('a mode that is none', blob + git.stream_object(b'tree', other), refusal('ModeOut', at, object_id(b'tree', other))),
        ('a commit of no shape', git.stream_object(b'commit', b'x'), refusal('ObjectShape', 0, object_id(b'commit', b'x'))),
        ('a tag of no shape', git.stream_object(b'tag', b'x'), refusal('ObjectShape', 0, object_id(b'tag', b'x'))),
        ('a tree of another kind', blob.replace(b' blob ', b' tree '), refusal('IdWrong', 0, HELLO)),
    ]
    for name, data, wanted in rows:
        checks.compare(f'stream: {name}', wanted, lambda data=data: read(checks, data))
    objects = checks.value('git_model.Stream.stream_framing', blob + empty_tree)['objects']
    lines = HELLO.hex().encode() + b' blob 6\n' + EMPTY_TREE.hex().encode() + b' tree 0\n'
    checks.equal('the lines of a stream', lines, 'git_model.Stream.stream_listing', objects)
    checks.equal('the blobs of a stream', 1, 'git_model.Stream.count_of_kind', Con('blob'), objects)
    checks.equal('the tags of a stream', 0, 'git_model.Stream.count_of_kind', Con('tag'), objects)


def check_ids(checks):
    """An object is found where its id is that of its content."""
    right, wrong = (record(id=HELLO, kind=Con('blob'), content=content) for content in (b'hello\n', b'hallo\n'))
    bad = Con('BadObject', (refusal('Limit', 3),))
    checks.table('git_model.Stream.checked_at', [
        ('no object', (7, Con('NoObject')), Con('NoObject')),
        ('an object with its id', (7, Con('Found', (right,))), Con('Found', (right,))),
        ('an object with the id of another', (7, Con('Found', (wrong,))), Con('BadObject', (refusal('IdWrong', 7, HELLO),))),
        ('an object that is refused already', (7, bad), bad),
    ])


def object_id(kind, content):
    return bytes.fromhex(git.object_id(kind, content).decode())


def read(checks, data):
    """The place of each object, or the refusal."""
    answer = checks.value('git_model.Stream.stream_reading', [], data)
    return answer.args[0] if answer.name == 'Err' else [o['at'] for o in answer.args[0]]


def row(path, mode='File', id=ONE):
    return record(path=path, mode=Con(mode), id=id)


def check_shapes(checks):
    hello = b'100644 a\0' + HELLO
    checks.equal('the tree of one file', object_id(b'tree', hello), 'git_model.Shape.root_of', [row(b'a', id=HELLO)])
    checks.equal('the tree of no files', EMPTY_TREE, 'git_model.Shape.root_of', [])
    inner = b'120000 c\0' + TWO
    root = b'100644 a.b\0' + ONE + b'40000 a\0' + object_id(b'tree', inner) + b'100755 a0\0' + ONE
    rows = [row(b'a.b'), row(b'a/c', 'Link', TWO), row(b'a0', 'Exec')]
    checks.equal('the tree of files around a folder', object_id(b'tree', root), 'git_model.Shape.root_of', rows)
    checks.compare('subtrees come before trees', [inner, root],
                   lambda: [o['content'] for o in checks.value('git_model.Shape.trees_of', rows)])
    checks.table('git_model.Shape.first_clash', [
        ('a path below a path', ([row(b'a'), row(b'a/b')],), just(1)),
        ('a path below an earlier path', ([row(b'a'), row(b'a.b'), row(b'a/b'), row(b'a/c')],), just(2)),
        ('paths beside each other', ([row(b'a.b'), row(b'a/c'), row(b'a0')],), None),
        ('no paths', ([],), None),
    ])


def check_rows(checks):
    """An empty folder stands before `d.x` by its path, and behind it in the tree."""
    dot, folder, link = row(b'd.x'), row(b'd', 'Directory', EMPTY_TREE), row(b'lib', 'Gitlink', TWO)
    content = b'100644 d.x\0' + ONE + b'40000 d\0' + EMPTY_TREE + b'160000 lib\0' + TWO
    objects = [stored(b'blob', b'hello\n'), stored(b'tree', b''), stored(b'tree', content.replace(ONE, HELLO))]
    rows = [folder, row(b'd.x', id=HELLO), link]
    checks.equal('the rows of a walk', [rows[1], rows[0], rows[2]], 'git_model.Unfold.met_rows', objects, objects[2]['id'])
    checks.equal('the rows of a tree', rows, 'git_model.Unfold.tree_rows', objects, objects[2]['id'])
    checks.equal('the root of the rows', objects[2]['id'], 'git_model.Shape.root_of', rows)
    checks.compare('their trees', [b'', objects[2]['content']], lambda: [o['content'] for o in checks.value('git_model.Shape.trees_of', rows)])
    checks.equal('rows in the order of a walk', [dot, folder, link], 'git_model.Unfold.by_walk', [folder, dot, link])


def check_kept(checks):
    """The trees that old files don't have: `a` and the root, the root alone, none."""
    def made(old, new):
        return [o['content'] for o in checks.value('git_model.Shape.new_trees', old, new)]

    old = [row(b'a.b'), row(b'a/c'), row(b'a0')]
    inner, other = b'100644 c\0' + TWO, b'100644 c\0' + ONE
    def root(below, last):
        return b'100644 a.b\0' + ONE + b'40000 a\0' + object_id(b'tree', below) + b'100644 a0\0' + last
    folder = row(b'd', 'Directory', EMPTY_TREE)
    checks.compare('another blob in a folder', [inner, root(inner, ONE)], lambda: made(old, [row(b'a.b'), row(b'a/c', id=TWO), row(b'a0')]))
    checks.compare('another blob beside it', [root(other, TWO)], lambda: made(old, [row(b'a.b'), row(b'a/c'), row(b'a0', id=TWO)]))
    checks.compare('the same files', [], lambda: made(old, old))
    checks.compare('no files', [], lambda: made([], []))
    checks.compare('another mode', [b'100664 a\0' + ONE], lambda: made([row(b'a')], [row(b'a', 'GroupFile')]))
    checks.compare('a new empty folder', [b'', b'40000 d\0' + EMPTY_TREE], lambda: made([], [folder]))
    checks.compare('an empty folder that was a file', [b'', b'40000 d\0' + EMPTY_TREE], lambda: made([row(b'd')], [folder]))
    checks.compare('an empty folder that was there', [b'40000 d\0' + EMPTY_TREE + b'100644 e\0' + ONE], lambda: made([folder], [folder, row(b'e')]))
    checks.compare('an empty folder that had a file', [b'', b'40000 d\0' + EMPTY_TREE], lambda: made([row(b'd/e')], [folder]))


def check_residues(checks):
    """What a tree has beside files, and what of it fits the files of a child."""
    def item(path, kind):
        return record(path=path, kind=kind)

    group, link, empty = item(b'a', Con('Group')), item(b'lib', Con('Link', (TWO,))), item(b'e/d', Con('Empty'))
    rows = [row(b'a', 'GroupFile'), row(b'b', 'Exec'), row(b'e/d', 'Directory', EMPTY_TREE), row(b'lib', 'Gitlink', TWO)]
    items = [group, empty, link]
    checks.equal('the residue of rows', items, 'git_model.Residue.residue_of', rows)
    checks.equal('the files of rows', [row(b'a'), row(b'b', 'Exec')], 'git_model.Residue.plain_files', rows)
    checks.equal('files with their residue', rows, 'git_model.Residue.rows_with', items, [row(b'a'), row(b'b', 'Exec')])
    checks.table('git_model.Residue.carried', [
        ('all fit', (items, [row(b'a'), row(b'b')]), items),
        ('the file can be run', (items, [row(b'a', 'Exec')]), [empty, link]),
        ('the file is a link', (items, [row(b'a', 'Link')]), [empty, link]),
        ('the file is gone', (items, [row(b'b')]), [empty, link]),
        ('a file at the gitlink', (items, [row(b'a'), row(b'lib')]), [group, empty]),
        ('a file below the gitlink', (items, [row(b'a'), row(b'lib/x')]), [group, empty]),
        ('a file beside the gitlink', (items, [row(b'a'), row(b'lib.x')]), items),
        ('a file above the empty folder', (items, [row(b'a'), row(b'e')]), [group, link]),
        ('a file in the empty folder', (items, [row(b'a'), row(b'e/d/f')]), [group, link]),
        ('a file beside the empty folder', (items, [row(b'a'), row(b'e/c')]), items),
    ])


def stored(kind, content):
    return record(id=object_id(kind, content), kind=Con(kind.decode()), content=content)


def nested(depth):
    """A blob below so many trees, from the blob to the root."""
    objects = [stored(b'blob', b'hello\n')]
    for level in range(depth):
        mode = FOLDER if level else FILE
        objects.append(stored(b'tree', mode + b' a\0' + bytes(objects[-1]['id'])))
    return objects


def check_walks(checks):
    def fault(name, id):
        return just(record(name=Con(name), id=id))

    blob, empty = stored(b'blob', b'hello\n'), stored(b'tree', b'')
    good = stored(b'tree', b'100644 a\0' + HELLO)
    hollow = stored(b'tree', b'40000 a\0' + EMPTY_TREE)
    folder = stored(b'tree', b'40000 a\0' + HELLO)
    file = stored(b'tree', b'100644 a\0' + EMPTY_TREE)
    two = stored(b'tree', b'100644 a\0' + ONE + b'40000 b\0' + EMPTY_TREE)
    link = stored(b'tree', b'160000 a\0' + ONE)
    deep, deeper = nested(256), nested(257)
    checks.table('git_model.Unfold.walk_fault', [
        ('an empty root', ([empty], EMPTY_TREE), None),
        ('a file', ([blob, good], good['id']), None),
        ('an unknown root', ([], EMPTY_TREE), fault('ObjectUnknown', EMPTY_TREE)),
        ('a root that is no tree', ([blob], HELLO), fault('ObjectUnknown', HELLO)),
        ('an unknown file', ([good], good['id']), fault('ObjectUnknown', HELLO)),
        ('a folder that is a file', ([blob, folder], folder['id']), fault('ObjectUnknown', HELLO)),
        ('a file that is a folder', ([empty, file], file['id']), fault('ObjectUnknown', EMPTY_TREE)),
        ('an empty folder', ([empty, hollow], hollow['id']), None),
        ('an unknown empty folder', ([hollow], hollow['id']), fault('ObjectUnknown', EMPTY_TREE)),
        ('a commit that is nowhere', ([link], link['id']), None),
        ('the first of two faults', ([empty, two], two['id']), fault('ObjectUnknown', ONE)),
        ('a path of 256 components', (deep, deep[-1]['id']), None),
        ('a path of 257 components', (deeper, deeper[-1]['id']), fault('PathUnfit', HELLO)),
    ])
    checks.table('git_model.Unfold.visit_fault', [
        ('an unfit path of an unknown file', ([], 0, row(b'a/' * 256 + b'a')), just(Con('PathUnfit'))),
        ('rows that reach their limit', ([blob], ROWS_LIMIT - 43, row(b'a', id=HELLO)), None),
        ('rows that pass their limit', ([blob], ROWS_LIMIT - 42, row(b'a', id=HELLO)), just(Con('PairLimit'))),
        ('a folder is no row', ([good], ROWS_LIMIT, row(b'a', 'Directory', good['id'])), None),
        ('an empty folder is a row', ([empty], ROWS_LIMIT, row(b'a', 'Directory', EMPTY_TREE)), just(Con('PairLimit'))),
        ('a gitlink is a row', ([], ROWS_LIMIT, row(b'a', 'Gitlink')), just(Con('PairLimit'))),
    ])
    checks.compare('the walk goes depth first', [b'a.b', b'a', b'a/c', b'a0'], lambda: walked(checks))


def walked(checks):
    inner = stored(b'tree', b'120000 c\0' + TWO)
    root = stored(b'tree', b'100644 a.b\0' + ONE + b'40000 a\0' + bytes(inner['id']) + b'100755 a0\0' + ONE)
    return [visit['path'] for visit in checks.value('git_model.Unfold.walk', [inner, root], root['id'])]


def check_order(checks):
    def commit(id, *parents):
        return record(id=[id], parents=[[p] for p in parents])

    child, parent, other = commit(2, 1), commit(1), commit(3)
    checks.table('git_model.Order.next_ready', [
        ('a parent before its child', ([child, parent], [], []), just(parent)),
        ('a child behind its parent', ([child, parent], [], [[1]]), just(child)),
        ('a child of a saved parent', ([child, parent], [[1]], []), just(child)),
        ('the first of two that are ready', ([child, other, parent], [], []), just(other)),
        ('a merge waits for both', ([commit(4, 1, 2), child, parent], [], [[1]]), just(child)),
        ('a child without its parent', ([child], [], []), None),
        ('nothing is left', ([parent], [], [[1]]), None),
        ('what is saved is left out', ([parent, other], [[1]], []), just(other)),
    ])
