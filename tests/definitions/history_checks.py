"""What a pull brings into a saved history, what it writes, and how the dumps of a whole one arrive."""
from antt.values import Con, Tup
from checks import NULL, ONE, TWO, just, record
from examples import example
from formats import git, hg
from state_checks import kept, tag_object, two_blocks, two_tags
from view_checks import AUTHOR, One, Two

FIRST_ID = b'fb8491d27293299d600326567e91d35289f99b8d'


def second_id():
    """The id of the second block's commit, by hand."""
    tree = git.object_id(b'tree', git.tree_entry(b'100644', b'a', git.object_id(b'blob', b'hello2\n')))
    return git.object_id(b'commit', git.commit_content(tree, [FIRST_ID], AUTHOR, b'two\n'))


def raw(hex_id):
    return bytes.fromhex(hex_id.decode())


def check(checks):
    blocks = two_blocks(checks)
    check_bundle(checks, blocks)
    check_stream(checks, blocks)
    check_tags(checks, blocks)
    check_saved(checks, blocks)
    check_written(checks, blocks)
    check_brought(checks, blocks)
    check_dumps(checks, blocks)


def state_of(revisions=(), objects=(), blocks=()):
    return record(revisions=list(revisions), objects=list(objects), blocks=list(blocks))


def check_bundle(checks, blocks):
    """The revisions of the example, which come in their order."""
    bundle = example('one-changeset.hg')
    entries = hg.entries_of(bundle)
    arrivals = checks.value('hg_model.Reading.bundle_reading', [], bundle).args[0]
    revisions = [arrival['revision'] for arrival in arrivals]
    checks.compare('the nodes of those that come', [entry.node for entry in entries], lambda: [revision['node'] for revision in revisions])
    checks.equal('nothing is known first', state_of(), 'history_model.Pull.empty_state')
    checks.equal('the revisions that come', revisions, 'history_model.Pull.revisions_among', arrivals)
    checks.equal('the changesets among them', arrivals[:1], 'history_model.Pull.changesets_among', arrivals)
    checks.table('history_model.Pull.known_with', [
        ('they are known then', (state_of(), arrivals), revisions),
        ('what was known stands first, and comes once', (state_of(revisions[2:]), arrivals), [*revisions[2:], *revisions[:2]]),
    ])
    checks.table('saved_model.Step.place_of_node', [
        ('the place of a changeset', (arrivals, One.node), just(entries[0].at)),
        ('a manifest has no place among changesets', (arrivals, One.manifest), None),
        ('a changeset that did not come', (arrivals, Two.node), None),
    ])
    checks.table('history_model.Pull.is_saved', [
        ('a changeset with a block', (blocks, Two.node), True),
        ('a changeset without a block', (blocks[:1], Two.node), False),
        ('a manifest has no block', (blocks, One.manifest), False),
    ])


def check_stream(checks, blocks):
    """The objects of the example and a child, and where they stand."""
    stream = example('one-changeset.git')
    came = checks.value('git_model.Stream.stream_reading', [], stream).args[0]
    objects = [placed['object'] for placed in came]
    text = checks.value('git_model.Commit.commit_text', blocks[1]['commit']['value'])
    second = record(object=record(id=raw(second_id()), kind=Con('commit'), content=text), at=9)
    checks.equal('the objects that come are known', objects, 'history_model.Pull.objects_with', state_of(), came)
    checks.equal('what was known stands first', [objects[2], *objects[:2]], 'history_model.Pull.objects_with', state_of(objects=objects[2:]), came)
    checks.table('history_model.Pull.ancestries', [
        ('a first commit has no parents', (came,), [record(id=raw(FIRST_ID), parents=[])]),
        ('a child has one', ([*came, second],), [record(id=raw(FIRST_ID), parents=[]), record(id=raw(second_id()), parents=[raw(FIRST_ID)])]),
    ])
    checks.table('history_model.Pull.place_of', [
        ('the place of the first object', (came, objects[0]['id']), just(0)),
        ('the place of the commit', (came, raw(FIRST_ID)), just(stream.index(FIRST_ID))),
        ('an object that did not come', (came, raw(second_id())), None),
    ])
    checks.equal('the commits that are saved', [raw(FIRST_ID), raw(second_id())], 'history_model.Pull.saved_ids', state_of(blocks=blocks))


def check_tags(checks, blocks):
    """Tags that come with a stream, and of which the target is there or not."""
    first, _ = tag_object(FIRST_ID, b'commit')
    second, _ = tag_object(bytes(first['id']).hex().encode(), b'tag', b'v2')
    commit = record(id=ONE, kind=Con('commit'), content=b'')

    def placed(object):
        return record(object=object, at=0)
    checks.table('saved_model.Step.lacks_target', [
        ('a tag of a saved commit', (blocks, [], [], placed(first)), False),
        ('a tag of a commit that is not saved', ([], [], [], placed(first)), True),
        ('a tag of a kept tag', ([], [first], [], placed(second)), False),
        ('a tag of a tag that came', ([], [], [placed(first)], placed(second)), False),
        ('a tag of a tag that is nowhere', (blocks, [], [placed(commit)], placed(second)), True),
        ('a commit is no tag', ([], [], [], placed(commit)), False),
    ])


def check_saved(checks, blocks):
    """The next history, and what the pull that leads to it writes."""
    tags = two_tags(checks)
    checks.equal('the next history', kept(blocks, tags), 'saved_model.Step.next_of', kept(blocks[:1], tags[:1]), blocks[1:], tags[1:])
    names = [record(id=raw(FIRST_ID), name=b'refs/heads/main')]
    state = record(blocks=[], tags=[], names=names)
    checks.equal('no history and no names', record(blocks=[], tags=[], names=[]), 'state_model.Kept.empty_state')
    checks.equal('the names stay', record(blocks=blocks, tags=tags, names=names), 'state_model.Kept.with_kept', state, kept(blocks, tags))
    sections = record(changesets=[block['changeset'] for block in blocks], commits=[block['commit'] for block in blocks], tags=tags, names=names)
    pairs = [Tup(tuple(node), tuple(raw(hex_id))) for node, hex_id in [(One.node, FIRST_ID), (Two.node, second_id())]]
    targets = record(pairs=pairs, tags=[tag['id'] for tag in tags])
    checks.equal('what names may name', targets, 'state_model.Names.targets_of', sections)
    revision = record(group=Con('Changesets'), node=ONE, p=NULL, q=NULL, link=ONE, text=b'a')
    checks.table('state_model.Saved.has_otherwise', [
        ('revisions that agree', ([revision, revision, dict(revision, node=TWO, text=b'b')],), False),
        ('another text', ([revision, dict(revision, text=b'b')],), True),
        ('other parents', ([revision, dict(revision, p=TWO)],), True),
        ('a manifest of the same node', ([revision, dict(revision, group=Con('Manifests'), text=b'b')],), False),
    ])
    blob = record(id=ONE, kind=Con('blob'), content=b'a')
    checks.table('state_model.Saved.has_other_content', [
        ('objects that agree', ([blob, blob, dict(blob, id=TWO, content=b'b')],), False),
        ('another content', ([blob, dict(blob, content=b'b')],), True),
        ('another kind', ([blob, dict(blob, kind=Con('tree'))],), True),
    ])


def check_written(checks, blocks):
    bundle, stream = example('one-changeset.hg'), example('one-changeset.git')
    lines = sorted([(One.node, FIRST_ID), (Two.node, second_id())])
    text = b''.join(b'%s %s\n' % (commit, node.hex().encode()) for node, commit in lines)
    checks.table('saved_model.Written.map_text', [
        ('the map of no blocks', ([],), b''),
        ('the map of a block', (blocks[:1],), b'%s %s\n' % (FIRST_ID, One.node.hex().encode())),
        ('the map of two', (blocks,), text),
        ('nodes rise in any order of the blocks', (blocks[::-1],), text),
    ])
    checks.table('saved_model.Step.made_of', [
        ('a bundle is pulled into a stream', (kept([]), Con('OfBundle', (b'',)), blocks[:1]), stream),
        ('a stream is pulled into a bundle', (kept([]), Con('OfStream', (b'',)), blocks[:1]), bundle),
        ('no new block writes no object', (kept(blocks), Con('OfBundle', (b'',)), []), b''),
        ('no new block writes the least bundle', (kept(blocks), Con('OfStream', (b'',)), []), hg.bundle()),
    ])


def check_brought(checks, blocks):
    """What pulls brought, one behind another."""
    tags = two_tags(checks)
    members = [Con('Changeset', ([], blocks[0]['changeset'])), Con('Commit', (blocks[1]['commit'],))]

    def brought(members, tags):
        return record(members=list(members), tags=list(tags))
    checks.equal('nothing was brought first', brought([], []), 'saved_model.History.nothing')
    first, second = brought(members[:1], tags[:1]), brought(members[1:], tags[1:])
    checks.equal('one behind another', brought(members, tags), 'saved_model.History.and_then', first, second)
    checks.equal('a history with its tags', kept(blocks, tags), 'saved_model.History.kept', blocks, tags)
    checks.table('saved_model.History.is_in', [
        ('a changeset stands in a block', (blocks[:1], members[0]), True),
        ('a changeset stands in none', (blocks[1:], members[0]), False),
        ('a commit stands in a block', (blocks[1:], members[1]), True),
        ('a commit stands in none', (blocks[:1], members[1]), False),
    ])


def check_dumps(checks, blocks):
    """How the dumps of a history arrive where nothing is saved."""
    tags = two_tags(checks)
    stream = example('one-changeset.git') + b''.join(git.stream_object(b'tag', bytes(tag['content'])) for tag in tags)
    nodes = [One.node, Two.node, One.manifest, Two.manifest, One.file, Two.file]
    in_blocks = [One.node, One.manifest, One.file, Two.node, Two.manifest, Two.file]
    for name, wanted in [('known_dumped', nodes), ('known_brought', in_blocks)]:
        checks.compare(f'the nodes of {name}', wanted, lambda name=name: [r['node'] for r in checks.value(f'closure_model.Shaped.{name}', blocks)])
    blob = record(id=blocks[0]['commit']['rows'][0]['id'], kind=Con('blob'), content=b'hello\n')
    checks.equal('the blob of a file', blob, 'closure_model.Shaped.blob_of', blocks[0]['commit']['rows'][0])
    ancestry = record(id=raw(second_id()), parents=[raw(FIRST_ID)])
    checks.equal('a commit and its parents', ancestry, 'closure_model.Arrives.ancestry_of_block', blocks[1])
    checks.equal('where nothing is saved', kept([]), 'closure_model.Closure.nothing')
    checks.equal('the dump of the bundle', Con('OfBundle', (example('one-changeset.hg'),)), 'closure_model.Closure.bundle_of', kept(blocks[:1], tags))
    checks.equal('the dump of the stream', Con('OfStream', (stream,)), 'closure_model.Closure.stream_of', kept(blocks[:1], tags))
