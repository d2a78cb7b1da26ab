"""Names on both sides: bookmarks, branches, tags and phases of Mercurial, and refs of Git.

A bookmark NAME of a changeset is `refs/heads/NAME` of its commit, a tag is `refs/tags/NAME`, and a public changeset `refs/hg/phase/0/NODE`. These are
lines of two texts: a names text for Mercurial and a refs text for Git. `refs_of_names` and `names_of_refs` turn one into the other.
"""
import re
from typing import Dict, List, NamedTuple

from repositories import NULL, nodes_of

HEADS, TAGS, PHASES, PUBLIC, KEPT = b'refs/heads/', b'refs/tags/', b'refs/hg/phase/', b'refs/hg/phase/0/', b'refs/hg/heads/'
LONGEST_REF = 4096
LINE = re.compile(rb'(?:(bookmark|tag|annotated|ref) ([0-9a-f]{40}) |phase ([012]) )(.*)', re.DOTALL)


# ---- the texts

def is_fit(ref):
    """A name that Git can have for a ref."""
    components = ref.split(b'/')
    return (ref.startswith(b'refs/') and len(ref) <= LONGEST_REF and len(components) >= 2 and not ref.endswith(b'.')
            and not any(part == b'' or part.startswith(b'.') or part.endswith(b'.lock') for part in components)
            and b'..' not in ref and b'@{' not in ref and not re.search(rb'[\0-\x20\x7f~^:?*\[\\]', ref))


def refs_of_names(text, commit_of):
    """The refs text of a names text whose changesets all have commits."""
    refs = {}
    for line in text.split(b'\n')[:-1]:
        kind, id, phase, rest = LINE.fullmatch(line).groups()
        if phase is not None:
            refs[PHASES + phase + b'/' + rest] = commit_of[rest.decode()]
        elif kind in (b'bookmark', b'tag'):
            refs[(HEADS if kind == b'bookmark' else TAGS) + rest] = commit_of[id.decode()]
        else:
            refs[TAGS + rest if kind == b'annotated' else rest] = id.decode()
    return refs_text(refs)


def names_of_refs(text, changeset_of):
    """The names text of a refs text whose ids are commits that have changesets, or annotated tags."""
    lines = []
    for ref, id in sorted(refs_of_text(text).items()):
        lines.append(line_of_ref(ref, id, changeset_of.get(id)))
    return b''.join(line + b'\n' for line in lines)


def line_of_ref(ref, id, node):
    """The first form that fits."""
    if node is not None:
        if ref.startswith(HEADS):
            return b'bookmark %s %s' % (node.encode(), ref[len(HEADS):])
        if ref.startswith(TAGS):
            return b'tag %s %s' % (node.encode(), ref[len(TAGS):])
        if re.fullmatch(PHASES + rb'[012]/' + node.encode(), ref):
            return b'phase %s' % ref[len(PHASES):].replace(b'/', b' ', 1)
    elif ref.startswith(TAGS):
        return b'annotated %s %s' % (id.encode(), ref[len(TAGS):])
    return b'ref %s %s' % (id.encode(), ref)


def refs_text(refs):
    return b''.join(b'%s %s\n' % (id.encode(), ref) for ref, id in sorted(refs.items()))


def refs_of_text(text):
    return {line[41:]: line[:40].decode() for line in text.split(b'\n')[:-1]}


# ---- what a Mercurial repository says

class HgNames(NamedTuple):
    """Names with the changesets that they name, as hex digits. Nothing here is secret."""
    bookmarks: Dict[bytes, str]
    branches: Dict[bytes, List[str]]  # the open heads of each named branch, the newest last
    tags: Dict[bytes, str]
    local_tags: set
    heads: List[str]
    public: List[str]
    held: set  # refs of bookmarks and tags that name secret changesets
    below_held: set  # the heads from which secret changesets with bookmarks go on


def read_hg(mercurial):
    """What a repository says of its names."""
    secret = {line.decode() for line in mercurial.lines('log', '-r', 'secret()', '-T', '{node}\n')}
    bookmarks = dict(pair(line) for line in mercurial.lines('bookmarks', '-T', '{node} {bookmark}\n') if line[:1] != b' ')
    tags, local = read_tags(mercurial)
    held = {HEADS + name for name, node in bookmarks.items() if node in secret} | {TAGS + name for name, node in tags.items() if node in secret}
    return HgNames(
        {name: node for name, node in bookmarks.items() if node not in secret},
        read_branches(mercurial, bool(secret)),
        {name: node for name, node in tags.items() if node not in secret},
        local,
        read_heads(mercurial, bool(secret)),
        [line.decode() for line in mercurial.lines('log', '-r', 'heads(public())', '-T', '{node}\n')],
        held,
        heads_below(mercurial, sorted(secret.intersection(bookmarks.values()))))


def read_heads(mercurial, has_secret):
    """The changesets without a child, where secret ones don't count. Where none is secret, hg knows them without a look at each changeset; those of an empty
    repository are the null one, or none and status 1."""
    if has_secret:
        return nodes_of(mercurial, 'heads(not secret())')
    heads = [line.decode() for line in mercurial.lines('heads', '--topo', '-T', '{node}\n', statuses=(0, 1))]
    return [head for head in heads if head != NULL]


def heads_below(mercurial, nodes):
    """The newest changesets below these secret ones that aren't secret."""
    if not nodes:
        return set()
    return {line.decode() for line in mercurial.lines('log', '-r', f'heads(::({" + ".join(nodes)}) - secret())', '-T', '{node}\n')}


def pair(line):
    node, _, name = line.partition(b' ')
    return name, node.decode()


def read_tags(mercurial):
    tags, local = {}, set()
    for line in mercurial.lines('tags', '-T', '{node} {type}:{tag}\n'):
        kind, _, name = line[41:].partition(b':')
        if name != b'tip':
            tags[name] = line[:40].decode()
            if kind == b'local':
                local.add(name)
    return tags, local


def read_branches(mercurial, has_secret):
    """The open heads of each named branch, where secret changesets don't count."""
    branches = {}
    revset = b'head() and not closed()'
    if has_secret:
        names = mercurial.lines('branches', '-c', '-T', '{branch}\n')
        each = [b'heads(branch("literal:%s") - secret())' % quoted(name) for name in names]
        revset = b'(%s) and not closed()' % b' or '.join(each) if each else b'none()'
    for line in mercurial.lines('log', '-r', b'sort(%s, rev)' % revset, '-T', '{node} {branch}\n'):
        name, node = pair(line)
        branches.setdefault(name, []).append(node)
    return branches


def quoted(name):
    """A name within the quotes of a revset."""
    return name.replace(b'\\', b'\\\\').replace(b'"', b'\\"')


def names_text(names, elsewhere, before):
    """The names text: bookmarks, the named branches that have an open head without a bookmark, tags, and the newest public changesets. `elsewhere` tells
    of a named branch and a changeset whether another name of Git has it, `before` gives the changeset that the branch named before."""
    lines = [b'bookmark %s %s' % (node.encode(), name) for name, node in names.bookmarks.items()]
    for branch, heads in names.branches.items():
        node = None if branch in names.bookmarks else branch_node(names, branch, heads, elsewhere, before)
        if node:
            lines.append(b'bookmark %s %s' % (node.encode(), branch))
    lines += [b'tag %s %s' % (node.encode(), name) for name, node in names.tags.items()]
    lines += [b'phase 0 %s' % node.encode() for node in names.public]
    return b''.join(line + b'\n' for line in sorted(lines))


def branch_node(names, branch, heads, elsewhere, before):
    """The newest open head that nothing else names; else the one before, as long as the branch is open. A bookmark that went on with secret changesets
    names the head below them. Local tags are those of Git: a head that has one counts where no head of the branch has another name."""
    named = {*names.bookmarks.values(), *names.below_held}
    tagged = {names.tags[tag] for tag in names.local_tags if tag in names.tags}
    for node in reversed(heads):
        if node not in named and node not in tagged and not elsewhere(branch, node):
            return node
    if not any(node in named or elsewhere(branch, node) for node in heads):
        return heads[-1]
    return before(branch)


def unfit_names(text):
    """The lines of a names text that can't be refs of Git, in words, and the text without them."""
    unfit, lines = [], []
    for line in text.split(b'\n')[:-1]:
        kind, rest = line.split(b' ', 1)[0], LINE.fullmatch(line)[4]
        ref = {b'bookmark': HEADS, b'tag': TAGS}.get(kind, b'refs/') + rest
        if is_fit(ref):
            lines.append(line + b'\n')
        else:
            unfit.append((kind.decode(), rest))
    return unfit, b''.join(lines)


def can_be_hg_name(ref):
    """Mercurial takes the last part of a ref as the name of a bookmark or a tag."""
    name = ref[len(HEADS):] if ref.startswith(HEADS) else ref[len(TAGS):]
    try:
        name.decode('utf-8')
    except UnicodeDecodeError:
        return False
    return name not in (b'tip', b'.', b'null') and not re.fullmatch(rb'[-+]?[0-9]+', name)


# ---- both sides

class Plan(NamedTuple):
    """What is to be set, each with what stands there now and what shall; which names both sides moved; and what both sides have after it."""
    for_git: Dict[bytes, tuple]
    for_hg: Dict[bytes, tuple]
    both_moved: Dict[bytes, tuple]
    agreed: Dict[bytes, str]


def merged(base, hg, git, to_git, to_hg, is_older, left):
    """Each name goes where the side that moved it since `base` put it. All three give commits. A name that was moved on both sides is left, until one side,
    with the other as it was then (`left`), goes to what has both; and so is one that both have at a first sync. `is_older` tells whether one commit is an
    ancestor of another."""
    plan = Plan({}, {}, {}, {})
    for ref in sorted({*base, *hg, *git}):
        before, in_hg, in_git = base.get(ref), hg.get(ref), git.get(ref)
        stood = left.get(ref, (None, None)) if base else (in_hg, in_git)
        if in_hg == in_git:
            keep(plan.agreed, ref, in_hg)
        elif before == in_git or in_git == stood[1] and older(is_older, in_git, in_hg):
            move(plan.for_git, to_git, plan, ref, (in_git, in_hg), before)
        elif before == in_hg or in_hg == stood[0] and older(is_older, in_hg, in_git):
            move(plan.for_hg, to_hg, plan, ref, (in_hg, in_git), before)
        else:
            plan.both_moved[ref] = in_hg, in_git
            keep(plan.agreed, ref, before)
    return plan


def older(is_older, one, other):
    return one is not None and other is not None and is_older(one, other)


def move(moves, may, plan, ref, change, before):
    if may:
        moves[ref] = change
    keep(plan.agreed, ref, change[1] if may else before)


def keep(agreed, ref, commit):
    if commit is not None:
        agreed[ref] = commit


def collisions(refs):
    """The refs of which one would be a folder of another; each is paired with that one."""
    found, there = [], set(refs)
    for ref in sorted(refs):
        parts = ref.split(b'/')
        for count in range(3, len(parts)):
            if b'/'.join(parts[:count]) in there:
                found.append((ref, b'/'.join(parts[:count])))
    return found
