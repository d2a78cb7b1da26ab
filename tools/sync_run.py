"""One sync: what is new on each side goes to the other, and then the names."""
import os
from typing import NamedTuple
from urllib.parse import quote_from_bytes

import sync_objects
import sync_setting
from progress import Progress, counted, name_of, say_left, say_names, say_plan
from repositories import NULL, Fault, git, git_holds, nodes_of, nodes_there
from slot import NAMES, WORK
from sync_names import HEADS, KEPT, TAGS, can_be_hg_name, collisions, merged, names_text, read_hg, refs_of_names, refs_of_text, unfit_names

LEFT = b'left '
ANOTHER = b'mercurial'  # the first line where the last sync was with a repository that isn't there any more
MOST_ROUNDS = 3


class Base(NamedTuple):
    """What both sides had after the last sync: the commit of each ref, and the annotated tags; where each side had a name that both had moved; and the refs
    of heads without a name."""
    commits: dict
    annotated: dict
    left: dict
    kept: set


def sync(opening, folder, slot, to_git, to_hg, progress, dry):
    """Gives whether names were left. Git is read while hg starts."""
    with progress.stage('reading both repositories'):
        pairs, refs = slot.pairs(), sync_objects.read_git(folder)
        new = sync_objects.new_commits(folder, refs, pairs) if to_hg else None
        mercurial = opening.result()
        names = read_hg(mercurial)
        base = base_of(slot, mercurial.path, names, dry)
    seen = Seen(names, refs, base)
    counts = [0, 0]
    if to_git:
        pairs, counts[0] = objects_to_git(mercurial, folder, slot, pairs, seen, progress, dry)
    if to_hg:
        new = sync_objects.new_commits(folder, refs, pairs) if counts[0] else new
        pairs, counts[1] = objects_to_hg(mercurial, folder, slot, pairs, seen, new, progress, dry)
    with progress.stage('setting names'):
        changed, left = set_names(mercurial, folder, slot, pairs, seen, (to_git, to_hg), progress, dry)
        if not dry and to_git and to_hg and (counts[1] or changed):
            left = settle_names(mercurial, folder, slot, pairs, progress)
    if not any(counts) and not changed:
        progress.line('nothing new' + (', but for names that are left' if left else ''))
    return left


def settle_names(mercurial, folder, slot, pairs, progress):
    """Changesets that came can move a named branch's head or a tag of .hgtags, so names are looked at again until nothing is set."""
    for _ in range(MOST_ROUNDS):
        seen = Seen(read_hg(mercurial), sync_objects.read_git(folder), read_base(slot, mercurial.path))
        quiet = Progress(progress.tool, quiet=True, mute=True)
        changed, left = set_names(mercurial, folder, slot, pairs, seen, (True, True), quiet, False)
        if not changed:
            break
        progress.line(f'names set again, as they moved with what came: {changed}')
    return left


class Seen(NamedTuple):
    """Names of both sides as they were at first, and after the last sync."""
    names: object
    refs: dict
    base: Base


# ---- objects

def objects_to_git(mercurial, folder, slot, pairs, seen, progress, dry):
    new = sync_objects.new_changesets(mercurial, seen.names.heads, pairs)
    with progress.stage(f'carrying {counted(len(new.ids), "changeset")} to Git'):
        restored = 0
        if not dry:
            known = new.bases if new.ids else seen.names.heads
            restored = sync_objects.restore_git(folder, slot, [pairs.commit_of[node] for node in known if node in pairs.commit_of])
        pairs = sync_objects.carry_to_git(mercurial, folder, slot, pairs, new, not dry)
    if restored:
        progress.line(f'to Git: {counted(restored, "object")} that it lacked, from the saved state')
    if new.ids:
        progress.line(f'to Git: {counted(len(new.ids), "changeset")}' + would(dry))
    return pairs, len(new.ids) + restored


def objects_to_hg(mercurial, folder, slot, pairs, seen, new, progress, dry):
    tags = sync_objects.new_tags(seen.refs, set(seen.base.annotated.values()))
    with progress.stage(f'carrying {counted(len(new.ids), "commit")} to Mercurial'):
        restored = 0
        if not dry:
            known = new.bases if new.ids else []
            nodes = {pairs.changeset_of[commit] for commit in known} | nodes_that_came(seen, pairs)
            restored = sync_objects.restore_hg(mercurial, slot, nodes)
        pairs = sync_objects.carry_to_hg(mercurial, folder, slot, pairs, seen.refs, new, tags, not dry)
    if restored:
        progress.line(f'to Mercurial: {counted(restored, "head")} that it lacked, from the saved state')
    if new.ids or tags:
        parts = [counted(len(items), word) for items, word in ((new.ids, 'commit'), (tags, 'annotated tag')) if items]
        progress.line(f'to Mercurial: {", ".join(parts)}' + would(dry))
    return pairs, len(new.ids) + restored


def nodes_that_came(seen, pairs):
    """The changesets to which refs lead that Git has moved or made since the last sync. Others that Mercurial lacks were taken away there."""
    moved, was = moved_in_git(seen), set(seen.base.commits.values())
    came = {name for name, ref in seen.refs.items() if name.startswith(KEPT) and name not in seen.base.kept and ref.commit not in was}
    return {pairs.changeset_of[seen.refs[name].commit] for name in {*moved, *came} if seen.refs[name].commit in pairs.changeset_of}


def would(dry):
    return ' would be carried' if dry else ''


# ---- names

def set_names(mercurial, folder, slot, pairs, seen, ways, progress, dry):
    """Gives how many names were set, and whether some were left."""
    plan = plan_of(mercurial, folder, pairs, seen, ways, progress)
    if dry:
        say_plan(plan, progress)
        return len(plan.for_git) + len(plan.for_hg), bool(plan.both_moved)
    failed, kept, count_hg = names_to_hg(mercurial, folder, pairs, seen, plan, ways)
    for ref in kept:
        keep_in_git(plan, seen, ref, ways)
    ids = ids_of_changes(plan, seen.base)
    count_git = len(plan.for_git)
    why = names_to_git(mercurial, folder, slot, pairs, seen, plan, ids)
    count_side = side_names(mercurial, folder, slot, pairs) if ways[0] else 0
    write_base(slot, mercurial.path, agreed_after(plan, seen.base, {**failed, **why}), plan.both_moved, folder)
    if ways[0]:
        sync_setting.point_head(folder, slot)
    say_names(progress, count_git - len(why), count_hg, count_side)
    say_left(progress, plan, {**failed, **why}, kept)
    return count_git + count_hg + count_side - len(why), bool(plan.both_moved or failed or why)


def plan_of(mercurial, folder, pairs, seen, ways, progress):
    """Where each name goes."""
    in_git = {name: ref.commit for name, ref in seen.refs.items() if name.startswith((HEADS, TAGS)) and ref.commit}
    for name in [name for name in in_git if not can_be_hg_name(name)]:
        progress.fault(f'{name_of(name)} stays in Git: Mercurial has no such names')
        del in_git[name]
    for name in [name for name, ref in seen.refs.items() if name.startswith((HEADS, TAGS)) and ref.commit is None]:
        progress.fault(f'{name_of(name)} stays in Git: it names no commit')
    in_hg, held, unfit = refs_of_hg(mercurial, folder, pairs, seen.names, moved_in_git(seen), seen.base.commits, ways)
    if ways[1]:
        held |= {name for name, commit in in_git.items() if commit not in pairs.changeset_of}  # they came while this run was at work
    for kind, name in unfit:
        progress.fault(f'the {kind} {name_of(name)} stays in Mercurial: Git has no such names')
    base = seen.base.commits
    apart = {ref for ref in held if ref in in_git or ref in base}
    rows = [{ref: commit for ref, commit in side.items() if ref not in apart} for side in (base, in_hg, in_git)]
    plan = merged(*rows, *ways, lambda one, other: git_holds(folder, 'merge-base', '--is-ancestor', one, other), seen.base.left)
    plan.agreed.update({ref: base[ref] for ref in apart if ref in base})
    drop_collisions(plan, in_git, progress)
    return plan


def moved_in_git(seen):
    """The branches and tags that Git moved since the last sync."""
    return {name: ref.commit for name, ref in seen.refs.items() if name.startswith((HEADS, TAGS)) and ref.commit and seen.base.commits.get(name) != ref.commit}


def refs_of_hg(mercurial, folder, pairs, names, moved, base, ways):
    """The refs that Mercurial's names stand for, those that are held back, and the names that can't be refs."""
    unfit, text = unfit_names(names_text(names, *others_of(mercurial, folder, pairs, moved, base)))
    lines, held, commit_of = [], set(names.held), {}
    for line in text.split(b'\n')[:-1]:
        word, node, name = (line + b' ').split(b' ', 2)
        if word == b'phase':
            continue
        node = node.decode()
        if node in pairs.commit_of:
            commit_of[node] = pairs.commit_of[node]
        elif ways[0]:
            held.add((HEADS if word == b'bookmark' else TAGS) + name[:-1])
            continue
        else:
            commit_of[node] = node
        lines.append(line + b'\n')
    return refs_of_text(refs_of_names(b''.join(lines), commit_of)), held, unfit


def others_of(mercurial, folder, pairs, moved, base):
    """Two functions: whether Git has moved another name than a named branch's to a changeset or beyond it, and what the named branch had after the last sync
    where Mercurial still has that."""
    def elsewhere(branch, node):
        commit, others = pairs.commit_of.get(node), set(moved) - {HEADS + branch}
        return bool(commit and others) and (any(moved[ref] == commit for ref in others) or is_below(folder, commit, others))

    def before(branch):
        node = pairs.changeset_of.get(base.get(HEADS + branch))
        return node if node and nodes_of(mercurial, f'present({node}) and not secret()') else None
    return elsewhere, before


def is_below(folder, commit, refs):
    """One of these branches of Git has a commit in its history."""
    if not git_holds(folder, 'cat-file', '-e', commit):
        return False
    found = git(folder, 'for-each-ref', '--contains', commit, '--format', '%(refname)', 'refs/heads/').splitlines()
    return not refs.isdisjoint(found)


def drop_collisions(plan, in_git, progress):
    """Names that Git can't have beside others stay in Mercurial."""
    wanted = {ref for ref, (_, new) in plan.for_git.items() if new}
    there = {ref for ref in in_git if ref not in plan.for_git}
    for ref, other in collisions(wanted | there):
        dropped = ref if ref in wanted else other
        if plan.for_git.pop(dropped, None):
            plan.agreed.pop(dropped, None)
            progress.fault(f'{name_of(dropped)} stays in Mercurial: Git can\'t have it beside {name_of(other if dropped == ref else ref)}')


def names_to_hg(mercurial, folder, pairs, seen, plan, ways):
    """Sets what doesn't stand so already: a named branch has moved with its changesets."""
    if not ways[1]:
        return {}, [], 0
    published = sync_setting.publish(mercurial, seen.refs, pairs.changeset_of)
    if not plan.for_hg:
        return {}, [], published
    now = read_hg(mercurial)
    stands, _, _ = refs_of_hg(mercurial, folder, pairs, now, moved_in_git(seen), plan.agreed, ways)
    changes = {ref: new and pairs.changeset_of[new] for ref, (_, new) in plan.for_hg.items() if stands.get(ref) != new}
    moved = {ref: 'it was moved meanwhile' for ref in changes if changed_meanwhile(seen.names, now, ref)}
    failed, kept = sync_setting.set_hg(mercurial, {ref: node for ref, node in changes.items() if ref not in moved}, now)
    failed.update(moved)
    return failed, kept, len(changes) - len(failed) - len(kept) + published


def changed_meanwhile(before, now, ref):
    """Somebody set a bookmark or a tag while this run was at work."""
    if ref.startswith(HEADS):
        return before.bookmarks.get(ref[len(HEADS):]) != now.bookmarks.get(ref[len(HEADS):])
    return before.tags.get(ref[len(TAGS):]) != now.tags.get(ref[len(TAGS):]) and ref[len(TAGS):] in now.local_tags


def keep_in_git(plan, seen, ref, ways):
    """Mercurial keeps a name that Git has dropped, so Git gets it again."""
    commit = plan.for_hg[ref][0]
    if ways[0]:
        plan.for_git[ref] = None, commit
        plan.agreed[ref] = commit
    elif ref in seen.base.commits:
        plan.agreed[ref] = seen.base.commits[ref]


def ids_of_changes(plan, base):
    """What Git's refs are set to: an annotated tag that was there before, where it is of the commit."""
    ids = {}
    for ref, (_, commit) in plan.for_git.items():
        ids[ref] = base.annotated[ref] if commit and ref in base.annotated and base.commits.get(ref, commit) == commit else commit
    return ids


def names_to_git(mercurial, folder, slot, pairs, seen, plan, ids):
    if not plan.for_git:
        return {}
    tags = [id for ref, id in ids.items() if id and id != plan.for_git[ref][1]]
    if tags:
        sync_objects.restore_git(folder, slot, [], tags)
    sync_setting.set_refs(folder, slot, old_places(mercurial, folder, pairs, plan))
    changes = {ref: (change[0], ids[ref]) for ref, change in plan.for_git.items()}
    stands = {ref: value.id for ref, value in seen.refs.items()}
    return sync_setting.set_git(folder, slot, changes, stands)


def old_places(mercurial, folder, pairs, plan):
    """How to set refs that keep the commits which names of Git leave and no other ref reaches, where Mercurial has the changeset no more."""
    left = {pairs.changeset_of[old]: old for old, _ in plan.for_git.values() if old in pairs.changeset_of}
    changes = {}
    for node in set(left) - nodes_there(mercurial, left):
        reached = git(folder, 'for-each-ref', '--contains', left[node], '--format', '%(refname)').splitlines()
        if not set(reached) - set(plan.for_git):
            changes[KEPT + node.encode()] = None, left[node]
    return changes


def side_names(mercurial, folder, slot, pairs):
    refs = sync_objects.read_git(folder)
    changes = sync_setting.side_refs(mercurial, refs, read_hg(mercurial), pairs.commit_of)
    failed = sync_setting.set_refs(folder, slot, changes)
    if failed:
        ref, why = sorted(failed.items())[0]
        raise Fault(f'{name_of(ref)} isn\'t set: {why}')
    return len(changes)


# ---- what both sides had

def base_of(slot, hg_path, names, dry):
    """What both sides had after the last sync. A Mercurial repository without a changeset was made anew and has had no sync, whatever its path is. That is
    written down at once, since a run that is killed leaves one with changesets and no names, which weren't taken away."""
    base = read_base(slot, hg_path)
    if names.heads or not base.commits:
        return base
    if not dry:
        write_rows(slot, [ANOTHER, *read_rows(slot)[1:]])
    return Base({}, base.annotated, {}, set())


def read_base(slot, hg_path):
    """Of a sync with another Mercurial repository only the annotated tags count."""
    first, *lines = read_rows(slot) or [ANOTHER]
    rows = [(line[82:], line[:40].decode(), line[41:81].decode()) for line in lines if not line.startswith((LEFT, KEPT))]
    annotated = {ref: id for ref, id, commit in rows if id != commit}
    if first != first_line(hg_path):
        return Base({}, annotated, {}, set())
    left = {line[87:]: tuple(side.decode().replace(NULL, '') or None for side in line.split(b' ')[1:3]) for line in lines if line.startswith(LEFT)}
    return Base({ref: commit for ref, _, commit in rows}, annotated, left, {line for line in lines if line.startswith(KEPT)})


def read_rows(slot):
    path = slot.path(NAMES)
    if not os.path.exists(path):
        return []
    with open(path, 'rb') as file:
        return file.read().split(b'\n')[:-1]


def first_line(hg_path):
    return b'mercurial ' + quote_from_bytes(os.fsencode(os.path.realpath(hg_path))).encode()


def write_base(slot, hg_path, agreed, left, folder):
    """Written beside and renamed, after the names were set; a run that is killed before it finds both sides as they are."""
    refs = sync_objects.read_git(folder)
    rows = [first_line(hg_path)]
    for ref, commit in sorted(agreed.items()):
        id = refs[ref].id if ref in refs and refs[ref].commit == commit else commit
        rows.append(b'%s %s %s' % (id.encode(), commit.encode(), ref))
    rows += [LEFT + b'%s %s %s' % ((in_hg or NULL).encode(), (in_git or NULL).encode(), ref) for ref, (in_hg, in_git) in left.items()]
    rows += sorted(ref for ref in refs if ref.startswith(KEPT))
    if rows != read_rows(slot):
        write_rows(slot, rows)


def write_rows(slot, rows):
    path = slot.path(WORK, NAMES)
    with open(path, 'wb') as file:
        file.write(b''.join(row + b'\n' for row in rows))
        file.flush()
        os.fsync(file.fileno())
    os.rename(path, slot.path(NAMES))


def agreed_after(plan, base, failed):
    """A name that couldn't be set is as it was after the last sync."""
    agreed = {ref: commit for ref, commit in plan.agreed.items() if ref not in failed}
    agreed.update({ref: base.commits[ref] for ref in failed if ref in base.commits})
    return agreed
