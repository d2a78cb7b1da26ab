"""The commands by their words, what they come to, and what is printed of a run."""
from antt.values import Con
from checks import NULL, ONE, just, record, refusal
from examples import example
from formats import git, hg
from state_checks import block_of, kept, tag_object, two_blocks, two_tags
from view_checks import One, Two

ZEROS = b'0' * 40


def written(output):
    """An output, and no state that is saved."""
    return Con('Written', (output, None))


def check(checks):
    check_words(checks)
    check_other_words(checks)
    check_reads(checks)
    check_listings(checks)
    check_counts(checks)
    check_names(checks)
    check_made(checks)
    check_lines(checks)


def check_words(checks):
    listing = just(Con('ListHg'))
    checks.table('command_model.Command.command_of', [
        ('no words list a bundle', ([],), listing),
        ('the word of the listing', ([b'list-hg'],), listing),
        ('the check of a bundle', ([b'check-hg'],), just(Con('CheckHg'))),
        ('the listing of a stream', ([b'list-git'],), just(Con('ListGit'))),
        ('the check of a stream', ([b'check-git'],), just(Con('CheckGit'))),
        ('the pull of a bundle', ([b'pull-hg'],), just(Con('PullHg'))),
        ('the pull of a stream', ([b'pull-git'],), just(Con('PullGit'))),
        ('the dump of the bundle', ([b'dump-hg'],), just(Con('DumpHg'))),
        ('the dump of the stream', ([b'dump-git'],), just(Con('DumpGit'))),
        ('the map', ([b'map'],), just(Con('Map'))),
        ('names that Mercurial sets', ([b'set-names-hg'],), just(Con('SetNamesHg'))),
        ('names that Git sets', ([b'set-names-git'],), just(Con('SetNamesGit'))),
        ('the names for Mercurial', ([b'names-hg'],), just(Con('NamesHg'))),
        ('the names for Git', ([b'names-git'],), just(Con('NamesGit'))),
        ('the audit', ([b'verify'],), just(Con('Verify'))),
        ('a history that is made', ([b'make', b'300', b'7'],), just(Con('Make', (300, 7)))),
        ('the greatest numbers', ([b'make', b'0', b'%d' % (2 ** 64 - 1)],), just(Con('Make', (0, 2 ** 64 - 1)))),
    ])


def check_other_words(checks):
    checks.table('command_model.Command.command_of', [
        ('a number that is too large', ([b'make', b'1', b'%d' % 2 ** 64],), None),
        ('a leading zero', ([b'make', b'01', b'7'],), None),
        ('a number is missing', ([b'make', b'1'],), None),
        ('another word with two numbers', ([b'verify', b'1', b'7'],), None),
        ('a third number', ([b'make', b'1', b'1', b'1'],), None),
        ('an unknown word', ([b'frob'],), None),
        ('an option', ([b'--help'],), None),
        ('a word in capitals', ([b'LIST-HG'],), None),
        ('an empty word', ([b''],), None),
        ('a word too many', ([b'list-hg', b'list-hg'],), None),
    ])


def check_reads(checks):
    """What a command reads."""
    checks.table('command_model.Command.reads_input', [
        ('names that are set are read', (Con('SetNamesHg'),), True),
        ('names that are written are not', (Con('NamesGit'),), False),
        ('an audit reads none', (Con('Verify'),), False),
        ('nor does a history that is made', (Con('Make', (1, 7)),), False),
    ])
    checks.table('command_model.Command.reads_slot', [
        ('names are set in what is saved', (Con('SetNamesGit'),), True),
        ('names are written of what is saved', (Con('NamesHg'),), True),
        ('what is saved is audited', (Con('Verify'),), True),
        ('a history is made of nothing', (Con('Make', (1, 7)),), False),
    ])


def check_listings(checks):
    entry = hg.entry(ONE, bytes(20), bytes(20), ONE, b'')
    line = b'changeset ' + b'1' * 40 + b' ' + ZEROS + b' ' + ZEROS + b' ' + b'1' * 40 + b' 0\n'
    check_outcomes(checks, [
        ('the least bundle lists nothing', (Con('ListHg'), hg.bundle()), written(b'')),
        ('an entry is listed', (Con('ListHg'), hg.bundle([entry])), written(line)),
        ('an empty input is refused', (Con('ListHg'), b''), Con('Refused', (refusal('Truncated', 0),))),
    ])


def check_lines(checks):
    """What is said on the errors of a run."""
    checks.table('command_model.Run.report_line', [
        ('nothing is said where the work was done', (Con('Done'),), b''),
        ('a refusal', (Con('IsRefused', (refusal('Trailing', 18),)),), b'refused Trailing ' + ZEROS + b' 18\n'),
        ('a refusal with an id', (Con('IsRefused', (refusal('NodeWrong', 6, ONE),)),), b'refused NodeWrong ' + b'1' * 40 + b' 6\n'),
        ('no command', (Con('Usage'),), b'usage\n'),
        ('a failed read', (Con('ReadFault'),), b'read fault\n'),
        ('a failed write', (Con('WriteFault'),), b'write fault\n'),
        ('a failed slot', (Con('SlotFault'),), b'slot fault\n'),
        ('a state that is too long', (Con('StateBad', (Con('TooLong'),)),), b'state TooLong 0\n'),
        ('another version of the state', (Con('StateBad', (Con('OtherVersion'),)),), b'state StateVersion 0\n'),
        ('a section that does not fit', (Con('StateBad', (Con('BadShape', (3,)),)),), b'state StateShape 3\n'),
        ('want of memory', (Con('Memory'),), b'no memory\n'),
        ('a commit that is not right', (Con('Mismatch', (ONE, NULL)),), b'mismatch ' + b'1' * 40 + b' ' + ZEROS + b'\n'),
    ])


def check_outcomes(checks, rows):
    """What a command comes to, by the definitions of its parts."""
    for name, (command, data), wanted in rows:
        checks.compare(name, wanted, lambda: outcome(checks.value, command.name, data))


def outcome(value, command, data):
    if command == 'ListHg':
        lines = value('hg_model.Bundle.listing', value('hg_model.Bundle.bundle_framing', data)['items'])
        return value('command_model.Command.written_unless', value('hg_model.Bundle.listing_fault', data), lines)
    reading, counts = {
        'CheckHg': ('hg_model.Reading.bundle_reading', 'saved_model.Written.revision_counts'),
        'CheckGit': ('git_model.Stream.stream_reading', 'saved_model.Written.object_counts'),
    }[command]
    return value('command_model.Command.written_of', value(counts), value(reading, [], data))


def check_counts(checks):
    text = b'0' * 40 + b'\nann\n0 0\n\none'
    node, file = hg.node_id(NULL, NULL, text), hg.node_id(NULL, NULL, b'')
    changeset = hg.entry(node, NULL, NULL, node, hg.whole_delta(0, text))
    files = [(path, [hg.entry(file, NULL, NULL, node, b'')]) for path in (b'a', b'b')]
    blob = git.stream_object(b'blob', b'hello\n')
    wrong = hg.bundle([hg.entry(ONE, NULL, NULL, ONE, b'')])
    check_outcomes(checks, [
        ('the least bundle has no revisions', (Con('CheckHg'), hg.bundle()), written(b'changesets 0\nmanifests 0\nfiles 0\n')),
        ('revisions are counted by their kinds', (Con('CheckHg'), hg.bundle([changeset], [], files)),
         written(b'changesets 1\nmanifests 0\nfiles 2\n')),
        ('a revision with another node is refused', (Con('CheckHg'), wrong), Con('Refused', (refusal('NodeWrong', 6, ONE),))),
        ('an empty stream has no objects', (Con('CheckGit'), b''), written(b'commits 0\ntrees 0\nblobs 0\ntags 0\n')),
        ('an object that comes twice is counted twice', (Con('CheckGit'), blob + blob + git.stream_object(b'tree', b'')),
         written(b'commits 0\ntrees 1\nblobs 2\ntags 0\n')),
        ('a missing object is refused', (Con('CheckGit'), blob + b'x missing\n'), Con('Refused', (refusal('Missing', len(blob)),))),
    ])


def check_made(checks):
    """What is printed of a history that was made, and the stream that its pull goes back from."""
    first, second = two_blocks(checks)
    marked = dict(second, commit=dict(second['commit'], value=dict(second['commit']['value'], headers=b'HG:user u\n')))
    lines = b'changesets %d\ncommits %d\nmarked %d\nlast %s %s\n'
    node, commit, marked_commit = (bytes(checks.value(path, block)).hex().encode() for path, block in [
        ('pair_model.Block.node_of', first), ('pair_model.Block.id_of', first), ('pair_model.Block.id_of', marked)])
    checks.table('command_model.Made.made_lines', [
        ('no history is made', ([],), lines % (0, 0, 0, ZEROS, ZEROS)),
        ('a changeset is made', ([first],), lines % (1, 1, 0, node, commit)),
        ('two are made, of which one is marked', ([first, marked],), lines % (2, 2, 1, Two.node.hex().encode(), marked_commit)),
        ('a link counts among the changesets', ([dict(first, links=[second['changeset']])],), lines % (2, 1, 0, node, commit)),
    ])
    tags = two_tags(checks)
    stream = example('one-changeset.git') + b''.join(git.stream_object(b'tag', bytes(tag['content'])) for tag in tags)
    checks.equal('the stream of a history and its tags', stream, 'command_model.Made.stream_of', kept([first], tags))


def check_names(checks):
    """Names that are set in a state of a block and a tag, and the texts of those that are saved."""
    block = block_of(checks)
    commit, node = bytes(checks.value('pair_model.Block.id_of', block)), One.node
    tag, _ = tag_object(commit.hex().encode(), b'commit')
    main, v1 = record(id=commit, name=b'refs/heads/main'), record(id=tag['id'], name=b'refs/tags/v1')
    refs = commit.hex().encode() + b' refs/heads/main\n' + bytes(tag['id']).hex().encode() + b' refs/tags/v1\n'
    names = b'bookmark ' + node.hex().encode() + b' main\nannotated ' + bytes(tag['id']).hex().encode() + b' v1\n'

    def state(*rows):
        return record(blocks=[block], tags=[tag], names=list(rows))

    old = state(record(id=commit, name=b'refs/notes/old'))
    check_readings(checks, old, [
        ('names are set in place of all others', 'hg', names, saved(state(main, v1))),
        ('refs are set in place of all others', 'git', refs, saved(state(main, v1))),
        ('refs in another order', 'git', b''.join(sorted(refs.splitlines(True), reverse=True)), saved(state(main, v1))),
        ('no names leave none', 'hg', b'', saved(state())),
        ('no refs leave none', 'git', b'', saved(state())),
        ('a ref twice', 'git', refs + refs[:57], Con('Refused', (refusal('NameTwice', 3),))),
        ('a ref that is not fit', 'git', commit.hex().encode() + b' refs/heads/a..b\n', Con('Refused', (refusal('RefUnfit', 1),))),
        ('a branch as any other ref', 'hg', b'ref ' + commit.hex().encode() + b' refs/heads/main\n', Con('Refused', (refusal('NameShape', 1),))),
        ('a changeset as a kept tag', 'hg', b'annotated ' + node.hex().encode() + b' v1\n', Con('Refused', (refusal('TagUnknown', 1),))),
        ('a last line without its end', 'hg', names[:-1], Con('Refused', (refusal('NameShape', 2),))),
    ])
    checks.table('command_model.Names.hg_names_text', [
        ('the saved names for Mercurial', (state(main, v1),), names),
        ('a note for Mercurial', (old,), b'ref ' + commit.hex().encode() + b' refs/notes/old\n'),
        ('no names for Mercurial', (state(),), b''),
    ])
    checks.table('command_model.Names.git_names_text', [
        ('the saved names for Git', (state(main, v1),), refs),
        ('no names for Git', (state(),), b''),
    ])


def saved(state):
    """No output, and a state that is saved."""
    return Con('Written', (b'', just(state)))


def check_readings(checks, state, rows):
    for name, side, text, wanted in rows:
        checks.compare(name, wanted, lambda: checks.value('command_model.Command.named_by', state, checks.value(f'command_model.Names.{side}_names', state, text)))
