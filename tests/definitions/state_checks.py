"""A saved state: its text, its links and tags, and its limits."""
from antt.values import Con
from checks import ONE, TWO, just, record
from examples import example
from formats import git, hg
from view_checks import One, Shapes, two_changesets

BUNDLE_SIZE = 427  # of a first block
STREAM_SIZE = 295 + 151  # of its commit and a tag


def check(checks):
    check_texts(checks)
    check_known(checks)
    check_links(checks)
    check_tags(checks)
    check_limits(checks)


def block_of(checks):
    """The block of a first changeset."""
    shapes = Shapes(checks)
    return record(links=[], changeset=shapes.changeset([shapes.row(b'a', b'hello\n')]), commit=shapes.commit([(b'a', 'File', b'hello\n')]))


def two_blocks(checks):
    """The same and that of its child."""
    shapes, first = Shapes(checks), block_of(checks)
    _, child = two_changesets(checks)
    commit = shapes.commit([(b'a', 'File', b'hello2\n')], [bytes(checks.value('pair_model.Block.id_of', first))], b'two\n')
    return [first, record(links=[], changeset=child, commit=commit)]


def two_tags(checks):
    """Two tags of the first block's commit."""
    commit = bytes(checks.value('pair_model.Block.id_of', block_of(checks))).hex().encode()
    return [tag_object(commit, b'commit', name)[0] for name in (b'v1', b'v2')]


def kept(blocks, tags=()):
    return record(blocks=list(blocks), tags=list(tags))


def section(word, text):
    return b'%s %d\n%s\n' % (word, len(text), text)


def tag_object(target, kind, name=b'v1'):
    content = b'object %s\ntype %s\ntag %s\ntagger Ann <ann@x> 0 +0000\n\nfirst\n' % (target, kind, name)
    return record(id=bytes.fromhex(git.object_id(b'tag', content).decode()), kind=Con('tag'), content=content), content


def check_texts(checks):
    """The text of nothing, and that of a block with a tag: the bundle and the stream of the example, and the pair."""
    bundle, stream = example('one-changeset.hg'), example('one-changeset.git')
    node, commit = One.node.hex().encode(), [o.id for o in git.objects_of(stream) if o.kind == b'commit'][-1]
    tag, content = tag_object(commit, b'commit')
    pair = b'map 1\n%s %s\n' % (commit, node)
    sides = b'hg-git-bridge 2\n' + section(b'hg', bundle) + section(b'git', stream) + pair
    one = [block_of(checks)]
    nothing = b'hg-git-bridge 2\n' + section(b'hg', hg.bundle()) + section(b'git', b'') + b'map 0\n'
    checks.table('state_model.Text.state_text', [
        ('the text of nothing', (record(blocks=[], tags=[], names=[]),), nothing + section(b'tags', b'') + section(b'names', b'')),
        ('the text of a block', (record(blocks=one, tags=[], names=[]),), sides + section(b'tags', b'') + section(b'names', b'')),
        ('the text of a block and a tag', (record(blocks=one, tags=[tag], names=[]),), sides + section(b'tags', git.stream_object(b'tag', content)) + section(b'names', b'')),
    ])
    checks.compare('the size of the text of nothing', 71, lambda: len(checks.value('state_model.Text.state_text', record(blocks=[], tags=[], names=[]))))
    checks.compare('the size of the text of a block', 860, lambda: len(checks.value('state_model.Text.state_text', record(blocks=one, tags=[], names=[]))))


def check_known(checks):
    """What is known where a block is saved stands in the order of its dumps."""
    known = checks.value('saved_model.Step.known_of', kept([block_of(checks)]))
    checks.compare('the known revisions of a block', [Con('Changesets'), Con('Manifests'), Con('FilesAt', (b'a',))], lambda: [r['group'] for r in known['revisions']])
    checks.compare('the known objects of a block', [Con('blob'), Con('tree'), Con('commit')], lambda: [o['kind'] for o in known['objects']])


def check_links(checks):
    """A changeset stands behind each row of links, and none but links stands in the row."""
    shapes = Shapes(checks)
    plain = shapes.changeset([shapes.row(b'a', b'hello\n')])
    checks.table('state_model.Saved.links_lead', [
        ('no changesets', (0, []), True),
        ('changesets that are no links', (0, [plain, plain]), True),
        ('no changeset behind a link', (1, []), False),
        ('a changeset behind links', (62, [plain]), True),
    ])


def check_tags(checks):
    first, _ = tag_object(b'11' * 20, b'commit')
    second, _ = tag_object(bytes(first['id']).hex().encode(), b'tag', b'v2')
    third, _ = tag_object(bytes(second['id']).hex().encode(), b'tag', b'v3')
    stray, _ = tag_object(b'22' * 20, b'tag', b'v4')
    tree, _ = tag_object(b'11' * 20, b'tree', b'v5')
    checks.table('state_model.Tags.leads', [
        ('a tag of a commit', ([], [first], first), True),
        ('a tag of a tag that came', ([], [second, first], second), True),
        ('a tag of a tag of a tag', ([], [third, second, first], third), True),
        ('a tag of a kept tag', ([bytes(first['id'])], [second], second), True),
        ('a tag of a tag that is nowhere', ([], [first, stray], stray), False),
        ('a tag whose tag leads nowhere', ([], [third, second], third), False),
        ('a tag of a tree', ([], [tree], tree), False),
    ])
    checks.table('state_model.Tags.has_target', [
        ('a tag of a saved commit', ([ONE], [], [first], first), True),
        ('a tag of a commit that is not saved', ([TWO], [], [first], first), False),
        ('a tag of a tag that came', ([], [], [second, first], second), True),
        ('a tag of a kept tag', ([], [bytes(first['id'])], [second], second), True),
        ('a tag of a tag that is nowhere', ([ONE], [], [stray], stray), False),
        ('a tag of a tree', ([], [], [tree], tree), True),
    ])
    placed = [record(object=o, at=10 * n) for n, o in enumerate((tree, second, first, second, stray))]
    checks.table('saved_model.Step.new_tags', [
        ('tags in the order of the stream, each once', ([], placed), [second, first]),
        ('a kept tag is not new', ([first], placed), [second]),
    ])


def check_limits(checks):
    """Two blocks and two tags within the limits; and each limit, reached and passed by one byte or one changeset."""
    blocks, tags = two_blocks(checks), two_tags(checks)
    first_block, first_tag = 'saved_model.Step.first_large_block', 'saved_model.Step.first_large_tag'
    checks.equal('blocks and tags are within the limits', False, 'state_model.Saved.passes_limit', kept(blocks, tags))
    checks.equal('no block is too large', None, first_block, kept([]), blocks)
    checks.equal('no tag is too large', None, first_tag, kept(blocks), tags)
    for limit, passes, first in [(BUNDLE_SIZE, False, blocks[1]), (BUNDLE_SIZE - 1, True, blocks[0])]:
        check_limited(checks, 'dump_limit', limit, passes, kept(blocks[:1]), (first_block, kept([]), blocks, just(first)))
    for limit, passes, first in [(STREAM_SIZE, False, tags[1]), (STREAM_SIZE - 1, True, tags[0])]:
        check_limited(checks, 'dump_limit', limit, passes, kept(blocks[:1], tags[:1]), (first_tag, kept(blocks[:1]), tags, just(first)))
    for limit, passes, first in [(1, False, blocks[1]), (0, True, blocks[0])]:
        check_limited(checks, 'changeset_limit', limit, passes, kept(blocks[:1]), (first_block, kept([]), blocks, just(first)))


def check_limited(checks, limit_name, limit, passes, state, first):
    """Where a limit is so small: whether the state passes it, and what new one does first."""
    path, before, new, wanted = first
    with checks.where(f'state_model.Limits.{limit_name}', limit):
        checks.equal(f'passed where {limit_name} is {limit}', passes, 'state_model.Saved.passes_limit', state)
        checks.equal(f'the first that is too large where {limit_name} is {limit}', wanted, path, before, new)
