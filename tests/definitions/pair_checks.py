"""The plain rules, the links of octopus commits, and the forms of marks."""
from antt.values import NONE, Con
from checks import NULL, ONE, TWO, integer, just, record
from view_checks import NO_MANIFEST, One, PLAIN, Shapes, over, two_changesets

ZEROS = b'0' * 40
ONES, TWOS = b'1' * 40, b'22' * 20


def check(checks):
    check_plain(checks)
    check_carried(checks)
    check_collisions(checks)
    check_revisions(checks)
    check_links(checks)
    check_marks(checks)
    check_mark_order(checks)
    check_extras(checks)
    check_residue_text(checks)


def parents(p=NULL, first=None, q=NULL, second=None, checks=None):
    none = checks.value('pair_model.Block.no_changeset')
    return record(p=p, q=q, first=first or none, second=second or none)


def check_plain(checks):
    """A plain changeset and its commit are each other's."""
    shapes = Shapes(checks)
    first, second = two_changesets(checks)
    commit = shapes.commit([(b'a', 'File', b'hello\n')])
    block = record(links=[], changeset=first, commit=commit)
    child = shapes.commit([(b'a', 'File', b'hello2\n')], [bytes(checks.value('view_model.View.commit_id', commit))], b'two\n', b'Ann <ann@x> 1 +0000')
    checks.table('pair_model.Rule.rule_commit', [
        ('the commit of a changeset', ([], first), commit),
        ('the commit of its child', ([block], second), child),
    ])
    checks.table('pair_model.Rule.rule_changeset', [
        ('the changeset of a commit', (parents(checks=checks), commit), first),
        ('the changeset of its child', (parents(One.node, first, checks=checks), child), second),
    ])
    empty = shapes.commit([])
    nothing = shapes.changeset([], manifest=NO_MANIFEST, files=())
    checks.equal('a commit without files', nothing, 'pair_model.Rule.rule_changeset', parents(checks=checks), empty)


def check_carried(checks):
    """A commit hands on what its changeset can't hold, as far as it fits."""
    shapes = Shapes(checks)
    first, second = two_changesets(checks)
    beside = [(b'a', 'GroupFile', b'hello\n'), (b'd', 'Directory', None), (b'lib', 'Gitlink', None)]
    commit = shapes.commit(beside)
    block = record(links=[], changeset=first, commit=commit)
    own = bytes(checks.value('view_model.View.commit_id', commit))
    kept = [(b'a', 'GroupFile', b'hello2\n'), (b'd', 'Directory', None), (b'lib', 'Gitlink', None)]
    checks.equal('a child keeps them', shapes.commit(kept, [own], b'two\n', b'Ann <ann@x> 1 +0000'), 'pair_model.Rule.rule_commit', [block], second)
    checks.equal('a commit without a parent has none', shapes.commit([(b'a', 'File', b'hello\n')]), 'pair_model.Rule.rule_commit', [block], first)
    checks.equal('a changeset has the files alone', first, 'pair_model.Rule.rule_changeset', parents(checks=checks), commit)
    for name, path, rows in [
        ('a file in the way of a gitlink', b'lib', [beside[0], beside[1], (b'lib', 'File', b'x')]),
        ('a file below a gitlink', b'lib/x', [beside[0], beside[1], (b'lib/x', 'File', b'x')]),
        ('a file in an empty subtree', b'd/x', [beside[0], (b'd/x', 'File', b'x'), beside[2]]),
    ]:
        grown = [shapes.row(b'a', b'hello\n'), shapes.row(path, b'x')]
        grown = shapes.changeset(grown, p=One.node, manifest=Con('Over', (One.manifest, NULL)), files=(path,), description=b'two')
        checks.equal(f'{name} takes its place', shapes.commit(rows, [own], b'two\n'), 'pair_model.Rule.rule_commit', [block], grown)
    run = shapes.changeset([shapes.row(b'a', b'hello\n', flag='Executable')], p=One.node, manifest=Con('Over', (One.manifest, NULL)), files=(b'a',), description=b'two')
    checks.equal('a file that can be run has no mode of its group', shapes.commit([(b'a', 'Exec', b'hello\n'), beside[1], beside[2]], [own], b'two\n'), 'pair_model.Rule.rule_commit', [block], run)


def check_collisions(checks):
    """When a commit or a changeset can't be added beside what is known."""
    shapes = Shapes(checks)
    first, second = two_changesets(checks)
    commit = shapes.commit([(b'a', 'File', b'hello\n')])
    block = record(links=[], changeset=first, commit=commit)
    blob = commit['rows'][0]['id']
    known, other = (record(id=blob, kind=Con('blob'), content=content) for content in (b'hello\n', b'x'))
    twice = record(value=commit['value'], rows=[*commit['rows'], record(path=b'b', mode=Con('File'), id=blob, content=b'x')])
    checks.table('pair_model.Collision.commit_collides', [
        ('a commit beside nothing', ([], [], commit), False),
        ('beside its own blob', ([known], [], commit), False),
        ('beside another content of that id', ([other], [], commit), True),
        ('two contents of one id', ([], [], twice), True),
        ('a commit that stands in a block', ([], [block], commit), True),
    ])
    own = record(group=Con('Changesets'), node=One.node, p=NULL, q=NULL, link=One.node, text=One.text)
    checks.table('pair_model.Collision.changeset_collides', [
        ('a changeset beside nothing', ([], [], first), False),
        ('beside itself', ([own], [], first), False),
        ('beside another text of that node', ([record(**{**own, 'text': b'x'})], [], first), True),
        ('beside other parents of that node', ([record(**{**own, 'p': ONE})], [], first), True),
        ('a changeset that stands in a block', ([], [block], first), True),
        ('its child', ([own], [block], second), False),
    ])


def check_revisions(checks):
    """Which revision a file of a commit has: that of a parent with its body, or a new one."""
    shapes = Shapes(checks)
    mine, other = shapes.row(b'a', b'1')['revision'], shapes.row(b'a', b'2')['revision']
    node = lambda revision: checks.value('view_model.View.file_node', revision)
    low, high = sorted([node(mine), node(other)])

    def of(body):
        return shapes.commit([(b'a', 'File', body)])['rows'][0]

    def new(body, p=NULL, q=NULL, meta=NONE):
        return record(p=p, q=q, meta=meta, body=body)

    checks.table('pair_model.Rule.ruled_revision', [
        ('the first parent has the body', (just(mine), just(other), of(b'1')), mine),
        ('the second parent has it', (just(mine), just(other), of(b'2')), other),
        ('neither has it', (just(mine), just(other), of(b'3')), new(b'3', low, high)),
        ('both are one revision', (just(mine), just(mine), of(b'3')), new(b'3', node(mine))),
        ('the path is new', (NONE, NONE, of(b'3')), new(b'3')),
        ('only the second parent has the path', (NONE, just(other), of(b'3')), new(b'3', node(other))),
        ('a body that begins with a mark', (NONE, NONE, of(b'\x01\nx')), new(b'\x01\nx', meta=Con('Some', (b'',)))),
    ])


def check_links(checks):
    user, date = b'hg-git', lambda value: Con('Plain', (integer(0), integer(0), (record(key=b'hg-git-link', value=value),)))

    def fields(value, files=(), description=b'octopus link', user=user):
        return record(manifest=ONE, user=user, date=date(value), files=list(files), description=description)

    yes, no = True, False
    good = ONES + b':1:3'
    checks.table('pair_model.Octopus.is_link', [
        ('a link', (fields(good), ONE, TWO), yes),
        ('the last link of 64 parents', (fields(ONES + b':62:64'), ONE, TWO), yes),
        ('a number of 0', (fields(ONES + b':0:3'), ONE, TWO), no),
        ('a number over the last', (fields(ONES + b':2:3'), ONE, TWO), no),
        ('two parents', (fields(ONES + b':1:2'), ONE, TWO), no),
        ('65 parents', (fields(ONES + b':1:65'), ONE, TWO), no),
        ('a leading zero', (fields(ONES + b':01:3'), ONE, TWO), no),
        ('an id that is cut', (fields(ONES[1:] + b':1:3'), ONE, TWO), no),
        ('one parent', (fields(good), ONE, NULL), no),
        ('another user', (fields(good, user=b'hg'), ONE, TWO), no),
        ('files', (fields(good, [b'a']), ONE, TWO), no),
        ('another description', (fields(good, description=b'octopus'), ONE, TWO), no),
        ('a plain date', (record(manifest=ONE, user=user, date=PLAIN, files=[], description=b'octopus link'), ONE, TWO), no),
    ])
    checks.compare('the text of a link has 122 bytes', 122, lambda: len(checks.value('hg_model.Changeset.changeset_text', fields(ONES + b':1:4'))))


def extra(key, value):
    return Con('OneExtra', (record(key=key, value=value),))


def file_mark(path, meta=NONE):
    return Con('File', (path, ONE, TWO, meta))


def check_marks(checks):
    checks.table('pair_model.MarkList.marks_text', [
        ('no marks', ([],), b''),
        ('a rename', ([Con('Rename', (b'b', b'a'))],), b'HG:rename b a\n'),
        ('a file', ([file_mark(b'a b')],), b'HG:file a%20b ' + ONES + b' ' + TWOS + b' -\n'),
        ('a file with empty metadata', ([file_mark(b'a', Con('Some', (b'',)))],), b'HG:file a ' + ONES + b' ' + TWOS + b' =\n'),
        ('a file with metadata', ([file_mark(b'a', Con('Some', (b'copy: a\n',)))],), b'HG:file a ' + ONES + b' ' + TWOS + b' =copy:%20a%0A\n'),
        ('the null manifest', ([Con('Manifest', (NO_MANIFEST,))],), b'HG:manifest null\n'),
        ('a manifest', ([Con('Manifest', (over(ONE),))],), b'HG:manifest ' + ONES + b' ' + ZEROS + b'\n'),
        ('no files', ([Con('Files', ([],))],), b'HG:files 0\n'),
        ('files', ([Con('Files', ([b'b', b'a\n'],))],), b'HG:files 2 b a%0A\n'),
        ('a file of no name', ([Con('Files', ([b''],))],), b'HG:files 1 \n'),
        ('a user', ([Con('User', (b'a<b>c',))],), b'HG:user a<b>c\n'),
        ('a date', ([Con('Date', (integer(-1), integer(90)))],), b'HG:date -1 90\n'),
        ('a raw line', ([Con('RawDate', (b'',))],), b'HG:raw \n'),
        ('extras', ([extra(b'branch', b'stable'), extra(b'k', b'')],), b'HG:extra branch stable\nHG:extra k \n'),
    ])


def check_mark_order(checks):
    rename, user, date, raw = Con('Rename', (b'b', b'a')), Con('User', (b'u',)), Con('Date', (integer(0), integer(0))), Con('RawDate', (b'x',))
    manifest, files = Con('Manifest', (NO_MANIFEST,)), Con('Files', ([],))
    yes, no = True, False
    checks.table('pair_model.MarkList.may_follow', [
        ('paths rise over both kinds', (file_mark(b'a'), rename), yes),
        ('a path twice', (file_mark(b'b'), rename), no),
        ('paths that fall', (rename, file_mark(b'a')), no),
        ('the order is that of bytes, not of escapes', (file_mark(b'!'), file_mark(b'\x01')), no),
        ('a manifest behind a file', (rename, manifest), yes),
        ('a file behind a manifest', (manifest, rename), no),
        ('a manifest twice', (manifest, manifest), no),
        ('files behind a manifest', (manifest, files), yes),
        ('a user behind files', (files, user), yes),
        ('a date behind a user', (user, date), yes),
        ('a date twice', (date, date), no),
        ('a raw line behind a date', (date, raw), no),
        ('a raw line behind a user', (user, raw), yes),
        ('an extra behind a date', (date, extra(b'k', b'')), yes),
        ('an extra beside a raw line', (raw, extra(b'k', b'')), no),
        ('a raw line beside an extra', (extra(b'k', b''), raw), no),
        ('keys that rise', (extra(b'a', b''), extra(b'b', b'')), yes),
        ('a key twice', (extra(b'a', b''), extra(b'a', b'x')), no),
    ])


def check_extras(checks):
    def marks(**parts):
        given = dict(author=NONE, committer=NONE, headers=NONE, message=NONE, parents=NONE, tree=NONE)
        return record(**{**given, **parts})

    checks.table('pair_model.MarkList.extras_of', [
        ('no marks', (marks(),), []),
        ('a message', (marks(message=Con('Some', (b'one',))),), [record(key=b'hg-git-message', value=b'one')]),
        ('all marks', (marks(author=Con('Some', (b'Ann <ann@x> 0 -0000',)), committer=Con('Some', (b'',)), headers=Con('Some', (b'a b\n',)),
                             message=Con('Some', (b'%',)), parents=Con('Some', (4,)), tree=Con('Some', ([record(path=b'a b', kind=Con('Group', ()))],))),),
         [record(key=b'hg-git-author', value=b'Ann%20<ann@x>%200%20-0000'), record(key=b'hg-git-committer', value=b''),
          record(key=b'hg-git-headers', value=b'a%20b%0A'), record(key=b'hg-git-message', value=b'%25'), record(key=b'hg-git-parents', value=b'4'),
          record(key=b'hg-git-tree', value=b'group:a%20b')]),
    ])


def check_residue_text(checks):
    def item(path, kind, *args):
        return record(path=path, kind=Con(kind, args))

    link = b'link:' + b'22' * 20 + b':lib'
    checks.table('pair_model.MarkList.residue_text', [
        ('no items', ([],), b''),
        ('a file that its group may write', ([item(b'a', 'Group')],), b'group:a'),
        ('a link', ([item(b'lib', 'Link', b'\x22' * 20)],), link),
        ('an empty subtree', ([item(b'd', 'Empty')],), b'empty:d'),
        ('three items', ([item(b'a b', 'Group'), item(b'c:d', 'Empty'), item(b'e%', 'Link', b'\x0f' * 20)],), b'group:a%20b empty:c:d link:' + b'0f' * 20 + b':e%25'),
    ])
