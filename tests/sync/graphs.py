"""The graph of a saved history, in its three forms."""
import os
import re
import tempfile
from xml.etree import ElementTree

from both import git_refs, pairs, run, said, sync, tool
from graph_lanes import rows_of
from makers import GitMaker

SVG = '{http://www.w3.org/2000/svg}'


def check(report):
    check_lanes(report)
    with tempfile.TemporaryDirectory() as folder:
        hg, git = os.path.join(folder, 'hg'), os.path.join(folder, 'git')
        said(['git', 'init', '-q', '--bare', '-b', 'main', git])
        maker = GitMaker(git, 9)
        while maker.count < 15:
            maker.step()
        sync(hg, git)
        ids = pairs(git)
        check_text(report, git, ids)
        check_dot(report, git, ids)
        check_svg(report, git, ids)
        answer = run([*tool('hggit-graph'), folder])
        report.check('a folder without a state', (answer.status, 'neither a folder with hggit.state' in answer.errors), (1, True))


def check_text(report, git, ids):
    answer = run([*tool('hggit-graph'), git])
    lines = answer.output.splitlines()
    report.check('the text has a line for each pair', (answer.status, len(lines)), (0, len(ids)))
    shown = pairs_in(lines)
    report.check('with both ids', set(shown), shown_pairs(ids))
    report.check('and children before parents', [edge for edge in edges_of(git) if place_of(shown, edge[0]) >= place_of(shown, edge[1])], [])
    names = [ref.split('/', 2)[2] for ref in git_refs(git) if ref.startswith(('refs/heads/', 'refs/tags/'))]
    report.check('and each name', [name for name in names if name not in answer.output], [])
    answer = run([*tool('hggit-graph'), '-n', '3', git])
    report.check('the newest three', (answer.status, pairs_in(answer.output.splitlines())), (0, shown[:3]))


def pairs_in(lines):
    """The first two short ids in each line; none stands for a line without them."""
    found = [re.search('[0-9a-f]{12} [0-9a-f]{12}', line) for line in lines]
    return [match and match[0] for match in found]


def shown_pairs(ids):
    return {f'{commit[:12]} {node[:12]}' for commit, node in ids.items()}


def place_of(shown, commit):
    """The row of a commit, or one behind all."""
    return next((place for place, pair in enumerate(shown) if pair and pair.startswith(commit[:12])), len(shown))


def edges_of(git):
    """Each commit with each of its parents, as Git says."""
    rows = [line.split() for line in said(['git', '--git-dir', git, 'rev-list', '--parents', '--all']).splitlines()]
    return sorted((commit, parent) for commit, *parents in rows for parent in parents)


def check_dot(report, git, ids):
    answer = run([*tool('hggit-graph'), '--dot', git])
    labels = re.findall('^ *"([0-9a-f]{40})" .label="([0-9a-f]{12}) ([0-9a-f]{12})', answer.output, re.MULTILINE)
    wanted = sorted((commit, commit[:12], node[:12]) for commit, node in ids.items())
    report.check('dot has each pair', (answer.status, sorted(labels)), (0, wanted))
    report.check('and each parent', sorted(re.findall('"([0-9a-f]{40})" -> "([0-9a-f]{40})"', answer.output)), edges_of(git))


def check_svg(report, git, ids):
    answer = run([*tool('hggit-graph'), '--svg', git])
    picture = ElementTree.fromstring(answer.output or '<svg/>')
    texts = [text.text for text in picture.iter(SVG + 'text')]
    report.check('the picture has each pair', (answer.status, len(texts), set(pairs_in(texts))), (0, len(ids), shown_pairs(ids)))
    report.check('and a line to each parent', len(list(picture.iter(SVG + 'polyline'))), len(edges_of(git)))


def check_lanes(report):
    rows = rows_of([('e', ['d', 'c']), ('d', ['b']), ('c', ['b']), ('b', ['a']), ('a', [])])
    report.check('a branch and its merge', [row.text for row in rows], ['*-.', '* |', '+-*', '*', '*'])
    report.check('columns', [row.column for row in rows], [0, 0, 1, 0, 0])
