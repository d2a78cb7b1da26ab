"""Names of commits and tags: fit refs, the lines of both sides, and what their texts set."""
from antt.values import Con, Tup
from checks import NULL, ONE, THREE, TWO, just, record, refusal

COMMIT, NODE, TAG, OTHER = ONE, TWO, THREE, b'\x44' * 20


def saved():
    """One pair of a changeset and a commit, and a kept tag."""
    return record(pairs=[Tup(tuple(NODE), tuple(COMMIT)), Tup(tuple(OTHER), tuple(NODE))], tags=[TAG])


def digits(id):
    return id.hex().encode()


def row(id, name):
    return record(id=id, name=name)


def taken(*rows):
    return Con('Ok', (list(rows),))


def refused(name, number):
    return Con('Err', (refusal(name, number),))


def check(checks):
    check_refs(checks)
    check_lines(checks)
    check_forms(checks)
    check_refs_texts(checks)
    check_names_texts(checks)
    check_printed(checks)


def check_refs(checks):
    longest = b'refs/heads/' + b'x' * 4085
    checks.table('state_model.Ref.is_fit_ref', [
        (f'the ref {name[:40]!r}', (name,), True) for name in (
            b'refs/heads/main', b'refs/x', b'refs/heads', b'refs/heads/a/b', b'refs/heads/a.b', b'refs/heads/x.locked', b'refs/heads/@', b'refs/heads/x@y',
            b'refs/heads/a{b', b'refs/heads/\xc3\xa9', b'refs/heads/!', b'refs/heads/-x', b'refs/heads/a.lock.b', longest)
    ])
    checks.table('state_model.Ref.is_fit_ref', [
        (f'no fit ref {name[:40]!r}', (name,), False) for name in (
            b'', b'refs', b'refs/', b'HEAD', b'heads/main', b'Refs/heads/x', b'refs/heads/', b'refs/heads//x', b'refs//x', b'refs/heads/.x', b'refs/.x/y',
            b'refs/heads/x.lock', b'refs/x.lock/y', b'refs/heads/.lock', b'refs/heads/x.', b'refs/heads/a..b', b'refs/heads/x@{y', b'refs/heads/x y',
            b'refs/heads/x\x7f', b'refs/heads/x\x1f', b'refs/heads/x\n', b'refs/heads/x~', b'refs/heads/x^', b'refs/heads/x:', b'refs/heads/x?',
            b'refs/heads/x*', b'refs/heads/x[', b'refs/heads/x\\y', b'refs/heads/x/', longest + b'x')
    ])


def check_lines(checks):
    node = digits(NODE)
    lines = [
        (b'bookmark ' + node + b' main\n', Con('Bookmark', (NODE, b'main'))),
        (b'bookmark ' + node + b' a b\n', Con('Bookmark', (NODE, b'a b'))),
        (b'bookmark ' + node + b' \n', Con('Bookmark', (NODE, b''))),
        (b'tag ' + node + b' v1\n', Con('PlainTag', (NODE, b'v1'))),
        (b'annotated ' + node + b' v1\n', Con('Annotated', (NODE, b'v1'))),
        (b'phase 0 ' + node + b'\n', Con('InPhase', (Con('Public'), NODE))),
        (b'phase 1 ' + node + b'\n', Con('InPhase', (Con('Draft'), NODE))),
        (b'phase 2 ' + node + b'\n', Con('InPhase', (Con('Secret'), NODE))),
        (b'ref ' + node + b' refs/x\n', Con('OtherRef', (NODE, b'refs/x'))),
    ]
    for text, value in lines:
        checks.equal(f'the line {text!r}', just(value), 'name_model.Line.name_line_of', text)
        checks.equal(f'the text of {text!r}', text, 'name_model.Line.line_text', value)
    checks.table('name_model.Line.name_line_of', [
        (f'no line {text!r}', (text,), None) for text in (
            b'', b'\n', b'tag\n', b'blub\n', b'bookmark ' + node + b'\n', b'bookmark ' + node + b' main', b'bookmark ' + node[1:] + b' main\n',
            b'bookmark  ' + node + b' main\n', b'bookmark ' + b'AA' * 20 + b' main\n', b' bookmark ' + node + b' main\n', b'Bookmark ' + node + b' main\n',
            b'phase 3 ' + node + b'\n', b'phase 01 ' + node + b'\n', b'phase 1 ' + node + b' \n', b'phase ' + node + b'\n', b'phase  ' + node + b'\n')
    ])
    checks.table('name_model.Line.ref_line_of', [
        ('a line of a ref', (node + b' refs/heads/x\n',), just(Con('OtherRef', (NODE, b'refs/heads/x')))),
        ('a line of an empty ref', (node + b' \n',), just(Con('OtherRef', (NODE, b'')))),
        ('a line without a ref', (node + b'\n',), None),
        ('a line of a ref without LF', (node + b' refs/heads/x',), None),
        ('an empty line', (b'\n',), None),
        ('digits in capitals', (b'AA' * 20 + b' refs/heads/x\n',), None),
    ])
    checks.equal('the ref of a phase', b'refs/hg/phase/2/' + node, 'name_model.Line.ref_name', Con('InPhase', (Con('Secret'), NODE)))


def check_forms(checks):
    """The first form that fits a ref."""
    known = saved()
    phase = b'refs/hg/phase/1/'
    checks.table('name_model.Targets.line_of_ref', [
        ('a branch is a bookmark', (known, row(COMMIT, b'refs/heads/main')), Con('Bookmark', (NODE, b'main'))),
        ('a tag of a commit', (known, row(COMMIT, b'refs/tags/v1')), Con('PlainTag', (NODE, b'v1'))),
        ('a tag of a kept tag', (known, row(TAG, b'refs/tags/v1')), Con('Annotated', (TAG, b'v1'))),
        ('a branch of a kept tag', (known, row(TAG, b'refs/heads/x')), Con('OtherRef', (TAG, b'refs/heads/x'))),
        ('a phase', (known, row(COMMIT, phase + digits(NODE))), Con('InPhase', (Con('Draft'), NODE))),
        ('a phase of another changeset', (known, row(COMMIT, phase + digits(OTHER))), Con('OtherRef', (COMMIT, phase + digits(OTHER)))),
        ('no phase', (known, row(COMMIT, b'refs/hg/phase/3/' + digits(NODE))), Con('OtherRef', (COMMIT, b'refs/hg/phase/3/' + digits(NODE)))),
        ('a phase of a kept tag', (known, row(TAG, phase + digits(NODE))), Con('OtherRef', (TAG, phase + digits(NODE)))),
        ('a note', (known, row(COMMIT, b'refs/notes/x')), Con('OtherRef', (COMMIT, b'refs/notes/x'))),
        ('a branch of nothing', (known, row(THREE[:10] + ONE[:10], b'refs/heads/x')), Con('OtherRef', (THREE[:10] + ONE[:10], b'refs/heads/x'))),
    ])


def check_refs_texts(checks):
    known, commit, tag = saved(), digits(COMMIT), digits(TAG)
    main, phase = commit + b' refs/heads/main\n', commit + b' refs/hg/phase/1/' + digits(NODE) + b'\n'
    rows = row(COMMIT, b'refs/heads/main'), row(COMMIT, b'refs/hg/phase/1/' + digits(NODE))
    checks.table('name_model.Reading.refs_reading', [
        ('no refs', (known, b''), taken()),
        ('two refs', (known, main + phase), taken(*rows)),
        ('two refs in another order', (known, phase + main), taken(*rows)),
        ('a ref of a kept tag', (known, tag + b' refs/tags/v1\n'), taken(row(TAG, b'refs/tags/v1'))),
        ('a ref twice', (known, main + main), refused('NameTwice', 2)),
        ('a ref twice with another target', (known, main + phase + tag + b' refs/heads/main\n'), refused('NameTwice', 3)),
        ('a ref twice before a bad line', (known, main + main + b'\n'), refused('NameTwice', 2)),
        ('a bad line before a ref twice', (known, main + b'\n' + main), refused('NameShape', 2)),
        ('an unfit ref', (known, commit + b' refs/heads/a..b\n'), refused('RefUnfit', 1)),
        ('an unfit ref of nothing', (known, digits(NULL) + b' refs/heads/a..b\n'), refused('RefUnfit', 1)),
        ('the head', (known, commit + b' HEAD\n'), refused('RefUnfit', 1)),
        ('a last line without LF', (known, main + phase[:-1]), refused('NameShape', 2)),
        ('a ref of nothing', (known, digits(NULL) + b' refs/heads/x\n'), refused('TargetUnknown', 1)),
        ('a ref of a changeset', (known, digits(OTHER) + b' refs/heads/x\n'), refused('TargetUnknown', 1)),
    ])
    checks.equal('the limit of names', 100000, 'state_model.Limits.name_limit')
    checks.equal('the limit of the bytes of a ref', 4096, 'state_model.Limits.ref_limit')


def check_names_texts(checks):
    known, node, commit, tag = saved(), digits(NODE), digits(COMMIT), digits(TAG)
    main, phase = b'bookmark ' + node + b' main\n', b'phase 1 ' + node + b'\n'
    rows = row(COMMIT, b'refs/heads/main'), row(COMMIT, b'refs/hg/phase/1/' + node)
    checks.table('name_model.Reading.names_reading', [
        ('no names', (known, b''), taken()),
        ('two names', (known, phase + main), taken(*rows)),
        ('a tag', (known, b'tag ' + node + b' v1\n'), taken(row(COMMIT, b'refs/tags/v1'))),
        ('an annotated tag', (known, b'annotated ' + tag + b' v1\n'), taken(row(TAG, b'refs/tags/v1'))),
        ('a note', (known, b'ref ' + commit + b' refs/notes/x\n'), taken(row(COMMIT, b'refs/notes/x'))),
        ('a bookmark of nothing', (known, b'bookmark ' + digits(NULL) + b' main\n'), refused('TargetUnknown', 1)),
        ('an unfit bookmark of nothing', (known, b'bookmark ' + digits(NULL) + b' a..b\n'), refused('RefUnfit', 1)),
        ('an empty bookmark', (known, b'bookmark ' + node + b' \n'), refused('RefUnfit', 1)),
        ('a phase of nothing', (known, b'phase 1 ' + digits(NULL) + b'\n'), refused('TargetUnknown', 1)),
        ('a branch as a ref', (known, b'ref ' + commit + b' refs/heads/main\n'), refused('NameShape', 1)),
        ('an unfit branch as a ref', (known, b'ref ' + commit + b' refs/heads/a..b\n'), refused('NameShape', 1)),
        ('a branch of nothing as a ref', (known, b'ref ' + digits(NULL) + b' refs/heads/main\n'), refused('TargetUnknown', 1)),
        ('a phase as a ref', (known, b'ref ' + commit + b' refs/hg/phase/1/' + node + b'\n'), refused('NameShape', 1)),
        ('a tag of a kept tag as a ref', (known, b'ref ' + tag + b' refs/tags/v1\n'), refused('NameShape', 1)),
        ('a ref outside', (known, b'ref ' + commit + b' refs\n'), refused('RefUnfit', 1)),
        ('no kept tag', (known, b'annotated ' + commit + b' v1\n'), refused('TagUnknown', 1)),
        ('a ref twice in two forms', (known, b'tag ' + node + b' v1\nannotated ' + tag + b' v1\n'), refused('NameTwice', 2)),
        ('the third line', (known, main + b'ref ' + commit + b' refs/x\nblub\n'), refused('NameShape', 3)),
        ('a last name without LF', (known, main[:-1]), refused('NameShape', 1)),
    ])


def check_printed(checks):
    known, node, commit, tag = saved(), digits(NODE), digits(COMMIT), digits(TAG)
    rows = [row(COMMIT, b'refs/heads/main'), row(COMMIT, b'refs/hg/phase/1/' + node), row(COMMIT, b'refs/notes/x'), row(TAG, b'refs/tags/v1')]
    names = b'bookmark ' + node + b' main\nphase 1 ' + node + b'\nref ' + commit + b' refs/notes/x\nannotated ' + tag + b' v1\n'
    refs = (commit + b' refs/heads/main\n' + commit + b' refs/hg/phase/1/' + node + b'\n' + commit + b' refs/notes/x\n' + tag + b' refs/tags/v1\n')
    checks.equal('the names of one side', names, 'name_model.Reading.names_text', known, rows)
    checks.equal('the refs of the other', refs, 'state_model.Text.refs_text', rows)
    checks.equal('names that were printed', taken(*rows), 'name_model.Reading.names_reading', known, names)
    checks.equal('refs that were printed', taken(*rows), 'name_model.Reading.refs_reading', known, refs)
