"""The history that is made from a number."""
import os
import sys

sys.path.append(os.path.join(os.path.dirname(os.path.dirname(os.path.abspath(__file__))), 'histories'))

from antt.values import Con
from checks import NULL, integer, just, record
from formats.hg import bundle, node_id
from generated import made_bundle


def check(checks):
    check_numbers(checks)
    check_files(checks)
    check_parts(checks)
    check_bundles(checks)


def check_numbers(checks):
    """The states behind 1 were multiplied out by hand."""
    first, second = 7806831264735756412, 9396908728118811419
    checks.table('make_model.Numbers.next_state', [
        ('the first state', (1,), first),
        ('the second state', (first,), second),
        ('the state behind 0', (0,), 1442695040888963407),
        ('the greatest state', (2**64 - 1,), (1442695040888963407 - 6364136223846793005) % 2**64),
    ])
    checks.table('make_model.Numbers.number_of_state', [
        ('a number below 8', (8, 5 * 2**33 + 12345), 5),
        ('a number that is cut', (4, 6 * 2**33 + 2**33 - 1), 2),
        ('a small state', (8, 2**33 - 1), 0),
    ])
    numbers = dict(parents=2, directory=3, file=3, executable=0, copied=0, user=3, zone=2, branch=6)
    got = {}

    def numbers_from():
        found = checks.value('make_model.Numbers.numbers_from', 7)
        got.update({name: found[name] for name in numbers})
        return record(**got)
    checks.compare('the numbers behind 7', record(**drawn(7)), numbers_from)


def drawn(seed):
    """The same by a loop."""
    names = ['parents', 'directory', 'file', 'executable', 'copied', 'user', 'zone', 'branch']
    found, state = {}, seed
    for name, bound in zip(names, (8, 4, 8, 8, 4, 4, 4, 8)):
        state = (state * 6364136223846793005 + 1442695040888963407) % 2**64
        found[name] = state // 2**33 % bound
    return found


def revision(body, p=NULL, q=NULL, meta=None):
    return record(p=p, q=q, meta=meta if meta is None else just(meta), body=body)


def row(path, body, flag='Regular'):
    return record(path=path, flag=Con(flag), revision=revision(body))


def check_files(checks):
    a, b, c = row(b'd0/f1', b'0\n'), row(b'd1/f0', b'1\n'), row(b'd1/f7', b'2\n')
    new = row(b'd1/f0', b'3\n', 'Executable')
    checks.table('make_model.History.with_row', [
        ('a row alone', (a, []), [a]),
        ('a row in front', (a, [b, c]), [a, b, c]),
        ('a row between', (b, [a, c]), [a, b, c]),
        ('a row behind', (c, [a, b]), [a, b, c]),
        ('a row in the place of another', (new, [a, b, c]), [a, new, c]),
    ])
    checks.table('make_model.History.first_other', [
        ('no row', (b'd0/f1', []), None),
        ('the same path', (b'd0/f1', [a, b]), None),
        ('another path', (b'd1/f0', [a, b]), just(a)),
    ])
    path = 'make_model.History.made_path'
    checks.equal('a path', b'd3/f7', path, 3, 7)
    checks.equal('a body', b'120\n', 'make_model.History.made_body', 120)
    none = checks.value('pair_model.Block.no_changeset')
    over = record(p=NULL, q=NULL, first=record(**{**none, 'rows': [a, b]}), second=none)
    node = node_id(NULL, NULL, b'0\n')
    meta = b'copy: d0/f1\ncopyrev: ' + node.hex().encode() + b'\n'
    checks.table('make_model.History.made_revision', [
        ('a copy of the first path', (over, 0, b'd1/f0', b'3\n'), revision(b'3\n', meta=meta)),
        ('the first path is no copy of itself', (over, 0, b'd0/f1', b'3\n'), revision(b'3\n', p=node)),
        ('no copy', (over, 1, b'd1/f0', b'3\n'), revision(b'3\n', p=node_id(NULL, NULL, b'1\n'))),
        ('a path that is new', (over, 2, b'd2/f0', b'3\n'), revision(b'3\n')),
    ])


def check_parts(checks):
    checks.table('make_model.History.made_user', [
        ('the first user', (0,), b'Ann <ann@x>'), ('the second user', (1,), b'bob'),
        ('the third user', (2,), b'carl@x'), ('the last user', (3,), b'd<e>f'),
    ])
    checks.table('make_model.History.made_zone', [
        ('UTC', (0,), integer(0)), ('west of UTC', (1,), integer(3600)), ('east of UTC', (2,), integer(-19800)), ('a minute and a half', (3,), integer(90)),
    ])
    views = [checks.value('make_model.History.made_history', 7, 3)[n] for n in range(3)]
    nodes = [bytes(checks.value('view_model.View.changeset_node', view)) for view in views]
    four = checks.value('make_model.History.made_history', 7, 4)

    def parents(number, before):
        found = checks.value('make_model.History.made_parents', number, before)
        return [bytes(found['p']), bytes(found['q'])]
    for name, number, before, wanted in [
        ('no parent', 1, [], [NULL, NULL]),
        ('one before', 1, views[:1], [nodes[0], NULL]),
        ('the one before that', 1, views[:2], [nodes[0], NULL]),
        ('the one before, of two', 0, views[:2], [nodes[1], NULL]),
        ('two parents', 0, views, [nodes[2], nodes[0]]),
        ('one parent', 2, views, [nodes[2], NULL]),
        ('two parents of four', 0, list(four), [bytes(checks.value('view_model.View.changeset_node', four[3])), nodes[1]]),
    ]:
        checks.compare(name, wanted, lambda number=number, before=before: parents(number, before))


def check_bundles(checks):
    checks.equal('the bundle of no changesets', bundle(), 'make_model.Dump.made_bundle', 0, 5)
    for count, seed in [(1, 1), (2, 7), (30, 7), (9, 2**64 - 1)]:
        checks.equal(f'{count} changesets from {seed}', made_bundle(count, seed), 'make_model.Dump.made_bundle', count, seed)
        checks.equal(f'{count} changesets from {seed} do not collide', False, 'make_model.Dump.made_collides', count, seed)
