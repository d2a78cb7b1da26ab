"""The rules on names, on rows worked out by hand."""
from sync_names import (can_be_hg_name, collisions, is_fit, merged, names_of_refs, refs_of_names, unfit_names)

N, M = 'a' * 40, 'b' * 40  # changesets
K, L = '1' * 40, '2' * 40  # their commits
G = '3' * 40               # an annotated tag

FIT = [b'refs/heads/main', b'refs/heads/a/b', b'refs/notes/x', 'refs/heads/é'.encode(), b'refs/heads/@', b'refs/heads/-x', b'refs/heads/a{', b'refs/x']
UNFIT = [b'main', b'refs/', b'refs/heads/', b'refs/heads//a', b'refs/heads/.a', b'refs/heads/a.lock', b'refs/a.lock/b', b'refs/heads/a..b', b'refs/heads/a@{b',
         b'refs/heads/a b', b'refs/heads/a~', b'refs/heads/a^', b'refs/heads/a:b', b'refs/heads/a?', b'refs/heads/a*', b'refs/heads/a[', b'refs/heads/a\\',
         b'refs/heads/a\x7f', b'refs/heads/a.', b'refs/heads/' + b'a' * 4086]


def check(report):
    report.check('refs that are fit', [ref for ref in FIT if not is_fit(ref)], [])
    report.check('refs that are unfit', [ref for ref in UNFIT if is_fit(ref)], [])
    check_texts(report)
    check_merged(report)
    report.check('names that Mercurial can\'t have', [can_be_hg_name(ref) for ref in (b'refs/heads/tip', b'refs/tags/12', b'refs/heads/\xff', b'refs/heads/a/tip')],
                 [False, False, False, True])
    report.check('a ref below another', collisions([b'refs/heads/a', b'refs/heads/a/b', b'refs/heads/c/d']), [(b'refs/heads/a/b', b'refs/heads/a')])


def check_texts(report):
    names = f'bookmark {N} a b\ntag {M} v1\nannotated {G} v2\nphase 0 {N}\nref {K} refs/notes/x\n'.replace('a b', 'a/b').encode()
    refs = f'{K} refs/heads/a/b\n{K} refs/hg/phase/0/{N}\n{K} refs/notes/x\n{L} refs/tags/v1\n{G} refs/tags/v2\n'.encode()
    report.check('the refs of names', refs_of_names(names, {N: K, M: L}), refs)
    back = f'bookmark {N} a/b\nphase 0 {N}\nref {K} refs/notes/x\ntag {M} v1\nannotated {G} v2\n'.encode()
    report.check('the names of refs, in their order', names_of_refs(refs, {K: N, L: M}), back)
    report.check('a phase of another changeset is another ref', names_of_refs(f'{L} refs/hg/phase/0/{N}\n'.encode(), {L: M}), f'ref {L} refs/hg/phase/0/{N}\n'.encode())
    report.check('names that are unfit are told apart', unfit_names(f'bookmark {N} my mark\ntag {N} v1\n'.encode()), ([('bookmark', b'my mark')], f'tag {N} v1\n'.encode()))


def check_merged(report):
    ref = b'refs/heads/x'
    rows = [  # before, in Mercurial, in Git; then what is set in Git, in Mercurial, whether both moved, and what both have
        ('', '', K, None, ('', K), False, K),
        ('', K, '', ('', K), None, False, K),
        ('', K, K, None, None, False, K),
        ('', K, L, None, None, True, ''),
        (K, K, L, None, (K, L), False, L),
        (K, L, K, (K, L), None, False, L),
        (K, L, L, None, None, False, L),
        (K, '', K, (K, ''), None, False, ''),
        (K, K, '', None, (K, ''), False, ''),
        (K, '', L, None, None, True, K),
        (K, L, '', None, None, True, K),
        (K, '', '', None, None, False, ''),
    ]
    never = lambda one, other: False
    wrong = []
    for before, in_hg, in_git, *wanted in rows:
        plan = merged(*[{ref: commit} if commit else {} for commit in (before, in_hg, in_git)], True, True, never, {})
        got = [plan.for_git.get(ref), plan.for_hg.get(ref), bool(plan.both_moved), plan.agreed.get(ref, '')]
        got[:2] = [change and tuple(commit or '' for commit in change) for change in got[:2]]
        if got != wanted:
            wrong.append((before, in_hg, in_git, got))
    report.check(f'{len(rows)} ways in which a name can have moved', wrong, [])
    plan = merged({}, {ref: K}, {ref: L}, True, True, lambda one, other: (one, other) == (K, L), {})
    report.check('at a first sync a name goes forward', (plan.for_hg, plan.for_git, plan.both_moved), ({ref: (K, L)}, {}, {}))
    always = lambda one, other: True
    plan = merged({ref: M}, {ref: K}, {ref: L}, True, True, always, {})
    report.check('later a name that both moved is left, though one is ahead', (plan.for_hg, plan.for_git, plan.both_moved), ({}, {}, {ref: (K, L)}))
    plan = merged({ref: M}, {ref: K}, {ref: L}, True, True, always, {ref: (K, N)})
    report.check('until one side goes on to what has both', (plan.for_hg, plan.for_git, plan.both_moved), ({ref: (K, L)}, {}, {}))
    plan = merged({ref: K}, {ref: K}, {ref: L}, True, False, never, {})
    report.check('one way alone leaves what the other side moved', (plan.for_hg, plan.for_git, plan.agreed), ({}, {}, {ref: K}))
