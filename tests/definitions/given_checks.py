"""The block of a member: what comes too late, what collides, how long its marks are, and the commit that a changeset's marks name."""
from antt.values import Con
from checks import NULL, ONE, TWO, just, record
from formats import git, hg
from partner_checks import EMPTY, FILE, GITLINK, GROUP, extra, id_of, item, partner_block
from state_checks import two_blocks
from view_checks import NO_MANIFEST, PLAIN, One, Shapes, Two, over


def check(checks):
    blocks = two_blocks(checks)
    check_late_files(checks, blocks[:1])
    check_late_manifests(checks, blocks[:1])
    check_links(checks, blocks[:1])
    check_commit_clashes(checks, *blocks)
    check_changeset_clashes(checks, *blocks)
    check_bodies(checks)
    check_sizes(checks)
    check_filled(checks)
    check_residues(checks)
    check_shapes(checks)


def check_late_files(checks, blocks):
    """A parent of a file that no changeset before has at its path."""
    shapes = Shapes(checks)
    checks.table('partner_model.Given.is_late_file', [
        ('no parent is late', (blocks, b'a', NULL), False),
        ('a parent that is there', (blocks, b'a', One.file), False),
        ('a parent at another path', (blocks, b'b', One.file), True),
        ('a parent that is not there', (blocks, b'a', Two.file), True),
        ('a parent before any block', ([], b'a', One.file), True),
    ])
    checks.table('partner_model.Given.has_late_file', [
        ('no files', (blocks, []), False),
        ('a file over one that is there', (blocks, [shapes.row(b'a', b'x', p=One.file)]), False),
        ('a first parent that is late', (blocks, [shapes.row(b'b', b'x'), shapes.row(b'a', b'x', p=TWO)]), True),
        ('a second parent that is late', (blocks, [shapes.row(b'a', b'x', p=One.file, q=TWO)]), True),
    ])


def check_late_manifests(checks, blocks):
    checks.table('partner_model.Given.is_late_manifest', [
        ('no manifest is late', (blocks, NULL), False),
        ('a manifest that is there', (blocks, One.manifest), False),
        ('a manifest that is not there', (blocks, Two.manifest), True),
    ])
    checks.table('partner_model.Given.has_late_manifest', [
        ('the null manifest has no parents', (blocks, NO_MANIFEST), False),
        ('a manifest over one that is there', (blocks, over(One.manifest)), False),
        ('a first manifest that is late', (blocks, over(TWO)), True),
        ('a second manifest that is late', (blocks, over(One.manifest, TWO)), True),
    ])


def check_links(checks, blocks):
    checks.equal('a block without links', blocks[0], 'partner_model.Given.block_with', [], blocks[0]['changeset'], blocks[0]['commit'])
    checks.table('partner_model.Given.is_link_parent', [
        ('no parent is no link', (blocks, NULL), False),
        ('a parent with a block is none', (blocks, One.node), False),
        ('a parent without a block is one', (blocks, Two.node), True),
    ])
    checks.table('partner_model.Filled.is_numbered', [
        ('the first link of two', (1, 2, numbered(b'1' * 40 + b':1:2')), True),
        ('another place', (2, 2, numbered(b'1' * 40 + b':1:2')), False),
        ('another count', (1, 3, numbered(b'1' * 40 + b':1:2')), False),
        ('a leading zero', (1, 2, numbered(b'1' * 40 + b':01:2')), False),
        ('no count', (1, 2, numbered(b'1' * 40 + b':1')), False),
        ('a part more', (1, 2, numbered(b'1' * 40 + b':1:2:3')), False),
        ('two extras', (1, 2, with_extras(extra(b'a', b'1:1:2'), extra(b'b', b''))), False),
        ('no extras', (1, 2, PLAIN), False),
        ('a raw line', (1, 2, Con('Raw', (b'1:1:2',))), False),
    ])


def with_extras(*extras):
    time, zone, _ = PLAIN.args
    return Con('Plain', (time, zone, list(extras)))


def numbered(value):
    return with_extras(extra(b'hg-git-link', value))


def check_commit_clashes(checks, first, second):
    """An object of the second commit that is known otherwise, and parts that stand in the first block."""
    id = bytes.fromhex(git.object_id(b'blob', b'hello2\n').decode())
    blob = record(id=id, kind=Con('blob'), content=b'hello2\n')
    checks.table('partner_model.Clash.is_any_saved', [
        ('no changeset is saved', ([first], []), False),
        ('a changeset that is new', ([first], [second['changeset']]), False),
        ('one of two is saved', ([first], [second['changeset'], first['changeset']]), True),
    ])
    checks.table('partner_model.Clash.commit_side_collides', [
        ('a block over another', ([], [first], second), False),
        ('a blob that is known so', ([blob], [first], second), False),
        ('a blob that is known otherwise', ([dict(blob, content=b'x')], [first], second), True),
        ('a commit that has a block', ([], [second], second), True),
        ('a link that has a block', ([], [first], dict(second, links=[first['changeset']])), True),
    ])


def check_changeset_clashes(checks, first, second):
    manifest = record(group=Con('Manifests'), node=Two.manifest, p=One.manifest, q=NULL, link=Two.node, text=Two.manifest_text)
    checks.table('partner_model.Clash.changeset_side_collides', [
        ('a block over another one', ([], [first], second), False),
        ('a manifest that is known so', ([manifest], [first], second), False),
        ('a manifest that is known with another text', ([dict(manifest, text=b'')], [first], second), True),
        ('a manifest that is known with other parents', ([dict(manifest, p=NULL)], [first], second), True),
        ('a changeset that has a block', ([], [second], second), True),
        ('a link of it that has a block', ([], [first], dict(second, links=[first['changeset']])), True),
    ])


def check_bodies(checks):
    shapes = Shapes(checks)
    rows = [shapes.row(b'a', b'hello\n'), shapes.row(b'b', b'hello\n')]
    blob = record(id=bytes.fromhex(git.object_id(b'blob', b'hello\n').decode()), kind=Con('blob'), content=b'hello\n')
    checks.table('partner_model.Clash.do_bodies_collide', [
        ('one body twice', ([], rows), False),
        ('a body that is known so', ([blob], rows), False),
        ('a body that is known otherwise', ([dict(blob, content=b'x')], rows), True),
        ('another kind with its id', ([dict(blob, kind=Con('tree'))], rows), True),
        ('another id', ([dict(blob, id=ONE, content=b'x')], rows), False),
    ])


def check_sizes(checks):
    """The bytes of marks: of keys and values, and of headers."""
    shapes = Shapes(checks)
    row = shapes.row(b'a', b'hello\n')

    def dated(date):
        return Con('OfHg', (shapes.changeset([row], date=date),))
    checks.table('partner_model.Measure.size_of', [
        ('a date without extras', (dated(PLAIN),), 0),
        ('a raw line has none', (dated(Con('Raw', (b'0 0 x',))),), 0),
        ('two extras', (dated(with_extras(extra(b'branch', b'stable'), extra(b'k', b''))),), 13),
        ('no headers', (Con('OfGit', (shapes.commit([FILE]),)),), 0),
        ('a header', (Con('OfGit', (shapes.commit([FILE], headers=b'HG:user u\n'),)),), 10),
    ])


def marks(**parts):
    return record(**{**dict.fromkeys(('author', 'committer', 'headers', 'message', 'parents', 'tree')), **parts})


def check_filled(checks):
    """The marks of a commit's changeset name the commit again."""
    shapes = Shapes(checks)
    signed = b'gpgsig one\n two\n'
    author, committer = b'Ann <ann@x> 0 -0000', b'Bob <bob@x> 5 +0000'
    rich = shapes.commit([FILE], message=b'one', author=author, committer=committer, headers=signed)
    full = shapes.commit([GROUP, EMPTY, GITLINK])
    items = [item(b'a', 'Group'), item(b'd', 'Empty'), item(b'lib', 'Link', b'\x22' * 20)]
    for name, commit, given in [
        ('a plain commit', shapes.commit([FILE]), marks()),
        ('a commit that differs in all', rich, marks(author=just(author), committer=just(committer), headers=just(signed), message=just(b'one'))),
        ('a commit with a residue', full, marks(tree=just(items))),
    ]:
        changeset = checks.value('partner_model.Mark.mark_changeset', [], commit)
        checks.equal(f'the marks name {name}', just(commit), 'partner_model.Filled.filled_commit', [], [], changeset, given)


def check_residues(checks):
    """A residue is a mark's, where it is right, or else what the first parent hands on."""
    shapes = Shapes(checks)
    rows = [shapes.row(b'a', b'hello\n')]
    parent = shapes.commit([FILE, GITLINK])
    blocks, own = [partner_block(checks, parent)], id_of(checks, parent)
    link = item(b'lib', 'Link', b'\x22' * 20)
    checks.table('partner_model.Filled.residue_of_marks', [
        ('no mark and no parent', (blocks, [], rows, None), just([])),
        ('no mark over a parent', (blocks, [own], rows, None), just([link])),
        ('no mark, and a file in the way', (blocks, [own], [*rows, shapes.row(b'lib', b'x')], None), just([])),
        ('an empty mark over a parent', (blocks, [own], rows, just([])), just([])),
        ('a mark', (blocks, [], rows, just([link])), just([link])),
        ('a mark in the way of a file', (blocks, [], rows, just([item(b'a', 'Empty')])), None),
        ('a mark at no file', (blocks, [], rows, just([item(b'b', 'Group')])), None),
        ('a mark at a path that is not fit', (blocks, [], rows, just([item(b'b//c', 'Empty')])), None),
        ('a mark below another', (blocks, [], rows, just([item(b'd', 'Empty'), item(b'd/e', 'Empty')])), None),
    ])
    checks.equal('the paths of a residue', [b'a', b'lib'], 'pair_model.MarkList.item_paths', [item(b'a', 'Group'), link])


def check_shapes(checks):
    """Sizes and comparisons of what a member stands for."""
    shapes = Shapes(checks)
    first, revision = shapes.commit([FILE]), shapes.row(b'a', b'hello\n', p=TWO, meta=b'm')['revision']
    row = shapes.row(b'a', b'hello\n')
    checks.equal('the changeset of a commit by the rule', shapes.changeset([row]), 'pair_model.Plain.changeset_by_rule', [], first)
    checks.table('view_model.View.rows_size', [
        ('the size of no rows', (shapes.commit([]),), 0),
        ('the size of two rows', (shapes.commit([FILE, (b'd/bc', 'File', b'')]),), 43 + 46),
    ])
    node, blob = hg.node_id(NULL, TWO, b'\x01\nm\x01\nhello\n'), bytes.fromhex(git.object_id(b'blob', b'hello\n').decode())
    compared = record(node=node, p=TWO, q=NULL, meta=just(b'm'), body=blob)
    checks.equal('what is compared of a revision', compared, 'view_model.View.compared_revision', revision)
