"""Small histories under both pulls, with the outputs and refusals that the formats give, worked out by hand."""
from formats import hg as bundles
from formats.hg import NULL, hex_of
from program import done, refused
from small_histories import (HELLO, LATER, MARK, blob, changeset_text, commit, file_text, group, id_of, of_one_file, one_changeset, over,
                             tree, two_changesets)

EMPTY_TREE = b'4b825dc642cb6eb9a060e54bf8d69288fbee4904'
OTHER = b'1' * 40
HUNK_SIZE = 12  # Three numbers before a hunk's bytes.


def check(report, program):
    check_nothing(report, program)
    check_bodies(report, program)
    check_tree_order(report, program)
    check_two(report, program)
    check_arrival(report, program)
    for name, data, mark in marked_bundles():
        check_marked(report, program, ['pull-hg', 'pull-git'], name, data, mark)
    for name, data, mark in marked_streams():
        check_marked(report, program, ['pull-git', 'pull-hg'], name, data, mark)
    check_links(report, program)
    for name, data, answer in refused_bundles():
        report.check(f'pull-hg: {name}', program.run(['pull-hg'], data), answer)
    for name, data, answer in refused_streams():
        report.check(f'pull-git: {name}', program.run(['pull-git'], data), answer)


# ---- what is carried over

def check_nothing(report, program):
    report.check('pull-hg: an empty input', program.run(['pull-hg']), refused('Truncated', 0))
    report.check('pull-git: an empty input is no commit', program.run(['pull-git']), done(bundles.bundle()))
    report.check('pull-hg: the least bundle', program.run(['pull-hg'], bundles.bundle()), done())


def check_bodies(report, program):
    for name, body, sizes in [
        ('a line', HELLO, (427, 295)),
        ('an empty file', b'', (409, 289)),
        ('a body that begins with the mark', MARK + b'x', (428, 292)),
    ]:
        bundle, _ = one_changeset([(b'a', file_text(body))])
        stream = b''.join(of_one_file(body))
        report.check(f'{name}: the sizes of both', (len(bundle), len(stream)), sizes)
        check_both(report, program, name, bundle, stream)
    root = tree()
    report.check('no files: the tree is the empty one', id_of(root), EMPTY_TREE)
    no_manifest = changeset_text(NULL, [], b'one')
    changeset = over(no_manifest)
    bundle = bundles.bundle(group(lambda own: own, [changeset]))
    check_both(report, program, 'no files', bundle, root + commit(root))


def check_both(report, program, name, bundle, stream):
    report.check(f'pull-hg: {name}', program.run(['pull-hg'], bundle), done(stream))
    report.check(f'pull-git: {name}', program.run(['pull-git'], stream), done(bundle))


def check_tree_order(report, program):
    """Git's order counts a slash behind a directory's name: `a.b`, `a/`, `a0`, as the paths of a manifest rise here too."""
    first, second, third = blob(b'1\n'), blob(b'2\n'), blob(b'3\n')
    below = tree((b'100644', b'c', id_of(second)))
    root = tree((b'100644', b'a.b', id_of(first)), (b'40000', b'a', id_of(below)), (b'100644', b'a0', id_of(third)))
    bundle, _ = one_changeset([(b'a.b', b'1\n'), (b'a/c', b'2\n'), (b'a0', b'3\n')])
    check_both(report, program, 'the order of a tree', bundle, first + second + below + third + root + commit(root))


def check_two(report, program):
    bundle, first, second = two_changesets()
    check_both(report, program, 'a changeset over another', bundle, b''.join(first + second))


def check_arrival(report, program):
    """A stream may have a child before its parent, trees and blobs behind the commits that name them, and blobs that nothing names."""
    bundle, first, second = two_changesets()
    stray = blob(b'nothing names this\n')
    mixed = second[2] + first[2] + second[1] + first[1] + stray + second[0] + first[0]
    report.check('pull-git: a child before its parent', program.run(['pull-git'], mixed), done(bundle))
    report.check('pull-git: objects that come twice', program.run(['pull-git'], mixed + mixed), done(bundle))
    report.check('pull-git: a missing object behind all', program.run(['pull-git'], mixed + b'x missing\n'), refused('Missing', len(mixed)))
    alone = stray + second[2] + second[1] + second[0]
    report.check('pull-git: a commit without its parent', program.run(['pull-git'], alone), refused('ParentUnknown', len(stray), id_of(second[2])))


# ---- what is carried in marks

def check_marked(report, program, words, name, data, mark):
    """The partner has the mark, and gives back what there was."""
    answer = program.run([words[0]], data)
    report.check(f'{words[0]}: {name}', answer, done(answer.output))
    report.verdict(f'{name}: the partner has the mark', mark in answer.output, mark.decode())
    report.check(f'{words[1]}: {name} comes back', program.run([words[1]], answer.output), done(data))


def marked_bundles():
    cases = []
    for name, mark, words in [
        ('a named branch', b'HG:extra branch stable', dict(date=b'0 0 branch:stable')),
        ('a closed branch', b'HG:extra close 1', dict(date=b'0 0 close:1')),
        ('a graft', b'HG:extra source ' + b'0' * 40, dict(date=b'0 0 source:' + b'0' * 40)),
        ('a time before 1970', b'HG:date -1 0', dict(date=b'-1 0')),
        ('a time zone of odd seconds', b'HG:date 0 90', dict(date=b'0 90')),
        ('a date line of another form', b'HG:raw yesterday', dict(date=b'yesterday')),
        ('a user without blank and angle', b'HG:user Ann<ann@x>', dict(user=b'Ann<ann@x>')),
    ]:
        bundle, _ = one_changeset([(b'a', HELLO)], **words)
        cases.append((name, bundle, b'\n' + mark + b'\n'))
    cases += [('a rename', copied(False), b'\nHG:rename b a\n'), ('a copy', copied(True), b'\nHG:rename b a\n')]
    wrapped, _ = one_changeset([(b'a', MARK + MARK + HELLO)])
    cases.append(('empty metadata before a body that needs none', wrapped, b'\nHG:file a %s %s =\n' % (b'0' * 40, b'0' * 40)))
    return cases


def copied(keeps):
    """A changeset that renames the file `a` of the one before to `b`, or copies it."""
    file = over(HELLO)
    copy = over(MARK + b'copy: a\ncopyrev: ' + hex_of(file[0]) + b'\n' + MARK + HELLO)
    first = over(bundles.manifest_line(b'a', file[0]))
    rest = bundles.manifest_line(b'a', file[0]) if keeps else b''
    second = over(rest + bundles.manifest_line(b'b', copy[0]), first[0])
    changesets = [over(changeset_text(first[0], [b'a'], b'one'))]
    listed = [b'b'] if keeps else [b'a', b'b']
    changesets.append(over(changeset_text(second[0], listed, b'two', b'1 0'), changesets[0][0]))
    links = dict(zip([file[0], first[0], copy[0], second[0]], [changesets[0][0]] * 2 + [changesets[1][0]] * 2))
    links.update({own[0]: own[0] for own in changesets})
    groups = [(b'a', group(links.get, [file])), (b'b', group(links.get, [copy]))]
    return bundles.bundle(group(links.get, changesets), group(links.get, [first, second]), groups)


def marked_streams():
    content, root, first = of_one_file(HELLO)
    cases = []
    for name, mark, words in [
        ('a signature', b'hg-git-headers:gpgsig', dict(headers=b'gpgsig -----BEGIN PGP SIGNATURE-----\n \n iQEz\n -----END PGP SIGNATURE-----\n')),
        ('an encoding', b'hg-git-headers:encoding', dict(headers=b'encoding latin1\n')),
        ('another committer', b'hg-git-committer:Bob', dict(committer=b'Bob <bob@x> 0 +0000')),
        ('a committer at another time', b'hg-git-committer:Ann', dict(committer=LATER)),
        ('a message without LF', b'hg-git-message:one', dict(message=b'one')),
        ('a time zone -0000', b'hg-git-author:Ann', dict(line=b'Ann <ann@x> 0 -0000')),
        ('an author without a name', b'hg-git-author:', dict(line=b' <ann@x> 0 +0000')),
    ]:
        cases.append((name, content + root + commit(root, **words), mark))
    return cases + other_rows(content, root, first)


def other_rows(content, root, first):
    """Rows of a tree that a changeset can't have: they are marked where they come, and a child is handed them."""
    file = (b'100644', b'a', id_of(content))
    empty = tree()
    cases = []
    for name, item, below, *entries in [
        ('a gitlink', b'link:%s:lib' % OTHER, b'', file, (b'160000', b'lib', OTHER)),
        ('a gitlink alone', b'link:%s:lib' % OTHER, b'', (b'160000', b'lib', OTHER)),
        ('a file that its group may write', b'group:a', b'', (b'100664', b'a', id_of(content))),
        ('an empty subtree', b'empty:d', empty, file, (b'40000', b'd', EMPTY_TREE)),
    ]:
        other = tree(*entries)
        blobs = content if any(entry[2] == id_of(content) for entry in entries) else b''
        mark = b'hg-git-tree:%s\n' % item
        own = blobs + below + other + commit(other)
        cases.append((f'{name} in a commit without parents', own, mark))
        if blobs:
            child = commit(other, [first], LATER, b'two\n')
            grandchild = commit(other, [child], LATER, b'three\n')
            cases.append((f'{name} in a child, and kept after it', content + root + first + below + other + child + grandchild, mark))
    return cases


def check_links(report, program):
    """A commit of four parents has two links before its changeset. They come with it, or dangle; and no other changeset stands over them."""
    content, root, _ = of_one_file(HELLO)
    parents = [commit(root, line=b'Ann <ann@x> %d +0000' % n) for n in range(4)]
    stream = content + root + b''.join(parents) + commit(root, parents)
    answer = program.run(['pull-git'], stream)
    report.check('pull-git: four parents', answer, done(answer.output))
    entries = [e for e in bundles.entries_of(answer.output) if e.group == b'changeset']
    report.check('four parents: four changesets, two links and one over them', [e.p == NULL for e in entries], [True] * 4 + [False] * 3)
    report.check('pull-hg: four parents come back', program.run(['pull-hg'], answer.output), done(stream))
    first, second, last = entries[4:]
    report.check('the second link stands over the first, and the changeset over the second', [second.p, last.p], [first.node, second.node])
    apart = without(answer.output, last.node)
    report.check('pull-hg: links without their changeset', program.run(['pull-hg'], apart), refused('DanglingLink', place_of(apart, first.node), hex_of(first.node)))
    stranger = over(changeset_text(NULL, [], b'over a link'), second.node)
    child = with_changeset(apart, stranger)
    report.check('pull-hg: a changeset over a link', program.run(['pull-hg'], child), refused('ParentIsLink', place_of(child, stranger[0]), hex_of(stranger[0])))


def without(bundle, node):
    """The bundle without its last changeset."""
    at = place_of(bundle, node)
    return bundle[:at] + bundle[at + int.from_bytes(bundle[at:at + 4], 'big'):]


def with_changeset(bundle, revision):
    """The bundle with one changeset more behind the others. Its text replaces that of the changeset before it, which came as one hunk."""
    last = [e for e in bundles.entries_of(bundle) if e.group == b'changeset'][-1]
    at = last.at + int.from_bytes(bundle[last.at:last.at + 4], 'big')
    node, p, q, text = revision
    return bundle[:at] + bundles.entry(node, p, q, node, bundles.whole_delta(len(last.delta) - HUNK_SIZE, text)) + bundle[at:]


# ---- what is refused

def place_of(bundle, node):
    """Where the chunk of a revision begins."""
    return next(e.at for e in bundles.entries_of(bundle) if e.node == node)


def refused_bundles():
    clash, node = one_changeset([(b'a', HELLO), (b'a/b', HELLO)])
    return [('a path below another', clash, refused('PathClash', 6, hex_of(node))), orphan(), late_file(), late_manifest()]


def orphan():
    """A file revision that no changeset names."""
    file, stray = over(HELLO), over(b'stray\n')
    manifest = over(bundles.manifest_line(b'a', file[0]))
    changeset = over(changeset_text(manifest[0], [b'a'], b'one'))
    node = changeset[0]
    bundle = bundles.bundle(group(lambda own: own, [changeset]), group(lambda _: node, [manifest]), [(b'a', group(lambda _: node, [file, stray]))])
    return 'a file revision that no changeset names', bundle, refused('Orphan', place_of(bundle, stray[0]), hex_of(stray[0]))


def late_file():
    """A file revision over one that only a later changeset has."""
    older = over(HELLO)
    newer = over(b'hello2\n', older[0])
    return 'a file revision before its parent', *two_roots([newer, older], [NULL, NULL], 'FileParentLate')


def late_manifest():
    """A manifest over one that only a later changeset has."""
    first, second = over(HELLO), over(b'hello2\n')
    return 'a manifest before its parent', *two_roots([second, first], [None, NULL], 'ManifestParentLate')


def two_roots(files, over_manifest, name):
    """Two changesets without parents, the first of which is refused: its file or its manifest stands over that of the second."""
    later = over(bundles.manifest_line(b'a', files[1][0]))
    sooner = over(bundles.manifest_line(b'a', files[0][0]), later[0] if over_manifest[0] is None else NULL)
    changesets = [over(changeset_text(sooner[0], [b'a'], b'sooner')), over(changeset_text(later[0], [b'a'], b'later', b'1 0'))]
    links = {own[0]: own[0] for own in changesets}
    links.update({files[0][0]: changesets[0][0], sooner[0]: changesets[0][0], files[1][0]: changesets[1][0], later[0]: changesets[1][0]})
    groups = [(b'a', group(links.get, [files[1], files[0]]))]
    bundle = bundles.bundle(group(links.get, changesets), group(links.get, [later, sooner]), groups)
    return bundle, refused(name, 6, hex_of(changesets[0][0]))


def refused_streams():
    content, root, first = of_one_file(HELLO)
    out = tree((b'100775', b'a', id_of(content)))
    return [
        ('a tree that is missing', *refused_commit(content, first, 'ObjectUnknown')),
        ('a blob that is missing', *refused_commit(root, first, 'ObjectUnknown')),
        ('a mode that no row has', content + out + commit(out), refused('ModeOut', len(content), id_of(out))),
    ]


def refused_commit(before, text, name):
    return before + text, refused(name, len(before), id_of(text))
