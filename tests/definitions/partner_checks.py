"""The marks of changesets and commits, the residue of a tree among them, and what marks name."""
from antt.values import Con
from checks import ONE, TWO, integer, just, record
from view_checks import LATER, NO_MANIFEST, One, Shapes, over

ZEROS = b'0' * 40
GITLINK = (b'lib', 'Gitlink', None)
EMPTY = (b'd', 'Directory', None)
FILE = (b'a', 'File', b'hello\n')
GROUP = (b'a', 'GroupFile', b'hello\n')
LINK_VALUE = b'link:' + b'22' * 20 + b':lib'


def check(checks):
    check_renames(checks)
    check_users_and_dates(checks)
    check_all_headers(checks)
    check_merges(checks)
    check_native_commits(checks)
    check_depth_two(checks)
    check_first_commits(checks)
    check_children(checks)
    check_octopus(checks)


class Over:
    """Over the block of a first changeset: what another one is marked with, and what its marks name."""

    def __init__(self, checks, *others):
        self.checks = checks
        self.shapes = Shapes(checks)
        self.blocks = []
        for changeset in (self.shapes.changeset([self.shapes.row(b'a', b'hello\n')]), *others):
            self.blocks.append(record(links=[], changeset=changeset, commit=self.commit(changeset)))

    def commit(self, changeset):
        return self.checks.value('partner_model.Mark.mark_commit', list(self.blocks), changeset)

    def marks(self, changeset):
        parents = self.checks.value('partner_model.Mark.parents_of_changeset', list(self.blocks), changeset)
        return self.checks.value('partner_model.Mark.commit_marks', parents, changeset)

    def has_headers(self, name, headers, changeset):
        """The headers of a changeset's commit are these, and its marks name the changeset again."""
        commit = self.commit(changeset)
        self.checks.compare(f'the headers of {name}', headers, lambda: commit['value']['headers'])
        self.checks.equal(f'the marks of {name} name it again', just(changeset), 'partner_model.Filled.filled_changeset', list(self.blocks), commit, self.marks(changeset))
        return commit


def check_renames(checks):
    over_one = Over(checks)
    shapes = over_one.shapes

    def renamed(source, node, **parts):
        meta = b'copy: %s\ncopyrev: %s\n' % (source, node.hex().encode())
        row = shapes.row(b'b', b'hello\n', meta=meta, **parts)
        return shapes.changeset([row], p=One.node, manifest=over(One.manifest), date=LATER, files=(b'a', b'b'), description=b'two')

    commit = over_one.has_headers('a rename', b'HG:rename b a\n', renamed(b'a', One.file))
    checks.compare('the size of the commit of a rename', 170, lambda: len(checks.value('git_model.Commit.commit_text', commit['value'])))
    other = b'copy:%20a%0Acopyrev:%20' + b'11' * 20 + b'%0A'
    over_one.has_headers('a copy of a node that no parent has', b'HG:file b ' + ZEROS + b' ' + ZEROS + b' =' + other + b'\n', renamed(b'a', ONE))
    other = b'copy:%20a%0Acopyrev:%20' + One.file.hex().encode() + b'%0A'
    over_one.has_headers('a copy that has a parent', b'HG:file b ' + b'22' * 20 + b' ' + ZEROS + b' =' + other + b'\n', renamed(b'a', One.file, p=TWO))


def check_users_and_dates(checks):
    bare = Over(checks)
    shapes = bare.shapes
    for user, headers in [(b'Ann', b''), (b'ann@x', b''), (b'Ann <ann@x>', b''), (b'a<b>c', b'HG:user a<b>c\n'), (b'<', b'HG:user <\n')]:
        bare.has_headers(f'the user {user}', headers, shapes.changeset([shapes.row(b'a', b'x')], user=user))
    for time, zone, headers in [(0, -19800, b''), (7, 3600, b''), (0, 90, b'HG:date 0 90\n'), (-1, 0, b'HG:date -1 0\n')]:
        date = Con('Plain', (integer(time), integer(zone), ()))
        bare.has_headers(f'the date {time} {zone}', headers, shapes.changeset([shapes.row(b'a', b'x')], date=date))
    bare.has_headers('a line that is no date', b'HG:raw 0%20x\n', shapes.changeset([shapes.row(b'a', b'x')], date=Con('Raw', (b'0 x',))))


def check_all_headers(checks):
    """Each kind in its order; extras come last, and an item of them needs no other mark."""
    over_one = Over(checks)
    shapes = over_one.shapes
    plain = Con('Plain', (integer(0), integer(0), [extra(b'branch', b'stable')]))
    over_one.has_headers('an item of extras', b'HG:extra branch stable\n', shapes.changeset([shapes.row(b'a', b'x')], date=plain))
    date = Con('Plain', (integer(0), integer(1), [extra(b'a', b''), extra(b'b', b' ')]))
    rows = [shapes.row(b'a', b'hello\n', p=TWO), shapes.row(b'b', b'x', meta=b'')]
    everything = shapes.changeset(rows, p=One.node, manifest=over(ONE, TWO), date=date, files=(b'c', b'a'), user=b'A>')
    over_one.has_headers('a changeset that differs in all', b''.join([
        b'HG:file a ', b'22' * 20, b' ', ZEROS, b' -\n', b'HG:file b ', ZEROS, b' ', ZEROS, b' =\n', b'HG:manifest ', b'11' * 20, b' ', b'22' * 20, b'\n',
        b'HG:files 2 c a\n', b'HG:user A>\n', b'HG:date 0 1\n', b'HG:extra a \n', b'HG:extra b %20\n']), everything)
    none = shapes.changeset([], p=One.node, manifest=NO_MANIFEST, files=())
    over_one.has_headers('no manifest where there was one', b'HG:manifest null\nHG:files 0\n', none)


def check_merges(checks):
    """A merge keeps the body of the first parent in a new revision over those of both."""
    shapes = Shapes(checks)
    other = shapes.changeset([shapes.row(b'a', b'other\n')], description=b'other')
    both = Over(checks, other)
    first, second = (bytes(checks.value('view_model.View.changeset_node', b['changeset'])) for b in both.blocks)
    nodes = sorted(bytes(checks.value('view_model.View.file_node', b['changeset']['rows'][0]['revision'])) for b in both.blocks)
    manifests = sorted(bytes(b['changeset']['fields']['manifest']) for b in both.blocks)
    merge = shapes.changeset([shapes.row(b'a', b'hello\n', p=nodes[0], q=nodes[1])], p=first, q=second, manifest=over(*manifests), files=(b'a',), description=b'merge')
    header = b'HG:file a ' + nodes[0].hex().encode() + b' ' + nodes[1].hex().encode() + b' -\n'
    both.has_headers('a new revision over both parents', header, merge)


def check_native_commits(checks):
    shapes = Shapes(checks)
    signed = b'gpgsig one\n two\n three\n'
    rich = shapes.commit([FILE], message=b'one', author=b'Ann <ann@x> 0 -0000', committer=b'Bob <bob@x> 5 +0000', headers=signed)
    checks.compare('the extras of a commit that differs in all', [
        extra(b'hg-git-author', b'Ann%20<ann@x>%200%20-0000'), extra(b'hg-git-committer', b'Bob%20<bob@x>%205%20+0000'),
        extra(b'hg-git-headers', b'gpgsig%20one%0A%20two%0A%20three%0A'), extra(b'hg-git-message', b'one')], lambda: extras(checks, [], rich))
    forged = shapes.commit([FILE], headers=b'HG:user Ann%20<ann@x>\n')
    checks.compare('the extras of a commit with a header that no marking writes', [extra(b'hg-git-headers', b'HG:user%20Ann%2520<ann@x>%0A')], lambda: extras(checks, [], forged))


def check_depth_two(checks):
    """The commit of a changeset, marked again and again."""
    shapes = Shapes(checks)
    date = Con('Plain', (integer(0), integer(0), [extra(b'branch', b'stable')]))
    first = checks.value('partner_model.Mark.mark_commit', [], shapes.changeset([shapes.row(b'a', b'hello\n')], date=date))
    again = checks.value('partner_model.Mark.mark_changeset', [], first)
    checks.compare('the extras of a marked commit', [extra(b'hg-git-headers', b'HG:extra%20branch%20stable%0A')], lambda: again['fields']['date'].args[2])
    third = checks.value('partner_model.Mark.mark_commit', [], again)
    checks.compare('the headers of its changeset', b'HG:extra hg-git-headers HG:extra%2520branch%2520stable%250A\n', lambda: third['value']['headers'])


def item(path, kind, *args):
    return record(path=path, kind=Con(kind, args))


def extra(key, value):
    return record(key=key, value=value)


def extras(checks, blocks, commit):
    marked = checks.value('partner_model.Mark.mark_changeset', blocks, commit)
    return marked['fields']['date'].args[2]


def text_size(checks, blocks, commit):
    marked = checks.value('partner_model.Mark.mark_changeset', blocks, commit)
    return len(checks.value('hg_model.Changeset.changeset_text', marked['fields']))


def check_first_commits(checks):
    """A commit without parents: its residue is marked wherever it has one."""
    shapes = Shapes(checks)
    for name, rows, wanted, size in [
        ('files alone', [FILE], [], 63),
        ('a gitlink', [FILE, GITLINK], [extra(b'hg-git-tree', LINK_VALUE)], 125),
        ('a file that its group may write', [GROUP], [extra(b'hg-git-tree', b'group:a')], 83),
        ('an empty subtree', [FILE, EMPTY], [extra(b'hg-git-tree', b'empty:d')], 83),
        ('all three', [GROUP, EMPTY, GITLINK], [extra(b'hg-git-tree', b'group:a empty:d ' + LINK_VALUE)], None),
    ]:
        commit = shapes.commit(rows)
        checks.compare(f'the extras of {name}', wanted, lambda: extras(checks, [], commit))
        if size:
            checks.compare(f'the size of the text of {name}', size, lambda: text_size(checks, [], commit))


def partner_block(checks, commit, blocks=()):
    return record(links=checks.value('pair_model.Octopus.links_of', list(blocks), commit), changeset=checks.value('partner_model.Mark.mark_changeset', list(blocks), commit), commit=commit)


def id_of(checks, commit):
    return bytes(checks.value('view_model.View.commit_id', commit))


def check_children(checks):
    """A child takes over what its first parent has, and says where it doesn't."""
    shapes = Shapes(checks)
    parent = shapes.commit([FILE, GITLINK])
    blocks = [partner_block(checks, parent)]
    own = id_of(checks, parent)
    later = b'Ann <ann@x> 1 +0000'
    for name, rows, wanted in [
        ('keeps the gitlink', [FILE, GITLINK], []),
        ('drops the gitlink', [FILE], [extra(b'hg-git-tree', b'')]),
        ('adds an empty subtree', [FILE, EMPTY, GITLINK], [extra(b'hg-git-tree', b'empty:d ' + LINK_VALUE)]),
        ('puts a file in its way', [FILE, (b'lib', 'File', b'x')], []),
        ('puts a file below it', [FILE, (b'lib/x', 'File', b'x')], []),
    ]:
        child = shapes.commit(rows, [own], b'two\n', later)
        checks.compare(f'a child that {name}', wanted, lambda: extras(checks, blocks, child))
        checks.compare(f'the first residue of a child that {name}', [item(b'lib', 'Link', b'\x22' * 20)], lambda: checks.value('partner_model.Mark.first_residue', blocks, child['value']['parents']))
    # a changeset on it keeps the gitlink, and its commit has no header
    node = bytes(checks.value('view_model.View.changeset_node', blocks[0]['changeset']))
    child = shapes.changeset([shapes.row(b'a', b'hello2\n', p=One.file)], p=node, manifest=over(One.manifest), description=b'two')
    marked = checks.value('partner_model.Mark.mark_commit', blocks, child)
    checks.equal('a changeset keeps the gitlink of its parent', shapes.commit([(b'a', 'File', b'hello2\n'), GITLINK], [own], b'two\n'), 'partner_model.Mark.mark_commit', blocks, child)
    checks.compare('and its commit has no header', b'', lambda: marked['value']['headers'])
    # one that adds a file in its way drops it
    grown = shapes.changeset([shapes.row(b'a', b'hello\n'), shapes.row(b'lib', b'x')], p=node, manifest=over(One.manifest), files=(b'lib',), description=b'two')
    checks.equal('a changeset with a file in its way drops it', shapes.commit([FILE, (b'lib', 'File', b'x')], [own], b'two\n'), 'partner_model.Mark.mark_commit', blocks, grown)


def check_octopus(checks):
    """Over links, it is the commit's first parent that hands on, though the changeset's first parent is a link."""
    shapes = Shapes(checks)
    blocks = []
    ids = []
    for k in range(4):
        commit = shapes.commit([FILE, GITLINK] if k == 0 else [FILE], [], b'%d\n' % k)
        blocks.append(partner_block(checks, commit, blocks))
        ids.append(id_of(checks, commit))
    for name, rows, wanted in [
        ('keeps the gitlink', [FILE, GITLINK], [extra(b'hg-git-parents', b'4')]),
        ('drops the gitlink', [FILE], [extra(b'hg-git-parents', b'4'), extra(b'hg-git-tree', b'')]),
        ('has another one', [FILE, (b'lib2', 'Gitlink', None)], [extra(b'hg-git-parents', b'4'), extra(b'hg-git-tree', LINK_VALUE + b'2')]),
    ]:
        merge = shapes.commit(rows, ids, b'merge\n')
        checks.compare(f'an octopus commit that {name}', wanted, lambda: extras(checks, blocks, merge))
