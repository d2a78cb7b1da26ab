"""Sets names in a Git repository and in a Mercurial one, each only where it still is what was seen."""
import os
import subprocess

from repositories import EMPTY_TREE, environment, first_branch, git, git_holds, parts_of, words_of
from slot import LOCKS_OF_REFS, NO_ID, lock_of_index, locks_of_refs, noted
from sync_names import HEADS, KEPT, PUBLIC, TAGS, can_be_hg_name

JOURNAL = 'checkout'


# ---- Git

def set_refs(folder, slot, changes):
    """Sets refs to ids, each with the id that stands there now; no id stands for none. Gives the refs that couldn't be set, with the reason. All are
    set together, or where one can't, each alone."""
    if not changes:
        return {}
    failed = {}
    with noted(slot, locks_of_refs({ref: new for ref, (_, new) in changes.items()})):
        if update(folder, slot, changes) is None:
            return {}
        for ref, change in sorted(changes.items(), key=is_set):
            why = update(folder, slot, {ref: change})
            if why is not None:
                failed[ref] = why
    return failed


def is_set(item):
    """What is taken away comes first, since another ref can need its place."""
    return item[1][1] is not None


def update(folder, slot, changes):
    """None where all were set, else why none was. Git holds the slot's lock meanwhile, so that no other run takes its locks away."""
    commands = []
    for ref, (old, new) in sorted(changes.items(), key=is_set):
        if new is None:
            commands.append(b'delete %s\0%s\0' % (ref, old.encode()))
        else:
            commands.append(b'update %s\0%s\0%s\0' % (ref, new.encode(), (old or NO_ID).encode()))
    words = ['-c', 'user.name=hggit', '-c', 'user.email=hggit@localhost', 'update-ref', '-m', 'hggit-sync', '--no-deref', '--stdin', '-z']
    run = subprocess.run(['git', '--git-dir', folder, *words], input=b''.join(commands), stdout=subprocess.PIPE, stderr=subprocess.PIPE,
                         env=environment(), pass_fds=slot.keep)
    return words_of(run.stderr) if run.returncode else None


def work_trees(folder):
    """The folder in which each branch is checked out; none where Git doesn't know it."""
    found, place = {}, None
    for line in git(folder, 'worktree', 'list', '--porcelain').split(b'\n'):
        word, _, rest = line.partition(b' ')
        if word == b'worktree':
            place = os.fsdecode(rest)
        elif word == b'branch':
            found[rest] = place
    return {ref: work_tree_elsewhere(folder) if os.path.realpath(place) == folder else place for ref, place in found.items()}


def work_tree_elsewhere(folder):
    """Of a submodule and its like Git names its own folder as the work tree, and the setting the right one."""
    place = git(folder, 'config', '--get', 'core.worktree', statuses=(0, 1)).rstrip(b'\n')
    return os.path.realpath(os.path.join(folder, os.fsdecode(place))) if place else None


def set_checked_out(folder, slot, place, ref, old, new):
    """Moves a branch that is checked out, and with it the files, where nothing was changed there; says why not. A run that was killed in it is known
    by the journal, and goes on."""
    journal, line = slot.path(JOURNAL), f'{ref!r} {old} {new}\n'
    index = os.fsdecode(work_tree_git(place, 'rev-parse', '--git-path', 'index').stdout.rstrip(b'\n'))
    with noted(slot, {**locks_of_refs({ref: new}), **lock_of_index(os.path.join(place, index), place)}):
        if read_text(journal) == line:
            bring_back(place, old or EMPTY_TREE, new)
        elif is_changed(place, old):
            return f'it is checked out in {place}, where files were changed'
        write_text(journal, line)
        run = work_tree_git(place, 'read-tree', '-m', '-u', old or EMPTY_TREE, new)
        why = words_of(run.stderr) if run.returncode else update(folder, slot, {ref: (old, new)})
        os.remove(journal)
    return why


def bring_back(place, old, new):
    """Where a killed run has moved files and not yet the index, gives the files what the index has, so that Git moves them all. Files that are neither as
    before nor as that run leaves them stay, and Git says so."""
    if work_tree_git(place, 'diff-index', '--cached', '--quiet', new).returncode == 0:
        return
    rows = work_tree_git(place, 'diff-tree', '-r', '-z', '--no-renames', old, new).stdout.split(b'\0')[:-1]
    back = []
    for row, path in zip(rows[::2], rows[1::2]):
        old_id, new_id = row.decode().split(' ')[2:4]
        text = file_text(place, path)
        if text is not None and (new_id == NO_ID or not work_tree_git(place, 'cat-file', '--filters', '--path', path, new_id).stdout.startswith(text)):
            continue
        if old_id != NO_ID:
            back.append(path)
        elif text is not None:
            os.remove(os.path.join(os.fsencode(place), path))
    work_tree_git(place, 'checkout-index', '--force', '--index', '-z', '--stdin', data=b''.join(path + b'\0' for path in back if is_free(place, path)))


def file_text(place, path):
    """What a file of a work tree has, or to what a link leads; None where neither is there, or behind another link."""
    path = os.path.join(os.path.realpath(os.fsencode(place)), path)
    if os.path.realpath(os.path.dirname(path)) != os.path.dirname(path) or not os.path.lexists(path):
        return None
    if os.path.islink(path):
        return os.readlink(path)
    if not os.path.isfile(path):
        return None
    with open(path, 'rb') as file:
        return file.read()


def is_free(place, path):
    """No folder with something in it stands where a file shall."""
    path = os.path.join(os.fsencode(place), path)
    return os.path.islink(path) or not os.path.isdir(path) or not os.listdir(path)


def is_changed(place, old):
    if old is None:
        return bool(work_tree_git(place, 'ls-files').stdout)
    return bool(work_tree_git(place, 'status', '--porcelain', '--untracked-files=no').stdout)


def work_tree_git(place, *words, data=b''):
    return subprocess.run(['git', '-C', place, *words], stdout=subprocess.PIPE, stderr=subprocess.PIPE, input=data, env=environment())


def set_git(folder, slot, changes, seen):
    """Sets branches and tags to ids where `seen` says what stands there; gives what couldn't be set, with the reason."""
    trees = work_trees(folder)
    apart = {ref: change for ref, change in changes.items() if ref in trees and ref.startswith(HEADS)}
    failed = set_refs(folder, slot, {ref: (seen.get(ref), new) for ref, (_, new) in changes.items() if ref not in apart})
    for ref, (_, new) in apart.items():
        place = trees[ref]
        if new is None or place is None:
            failed[ref] = f'it is checked out in {place or "a folder that Git does not name"}'
            continue
        why = set_checked_out(folder, slot, place, ref, seen.get(ref), new)
        if why is not None:
            failed[ref] = why
    return failed


def point_head(folder, slot):
    """HEAD of a bare repository names a branch that is there."""
    if git(folder, 'rev-parse', '--is-bare-repository').strip() != b'true' or git_holds(folder, 'rev-parse', '--verify', '--quiet', 'HEAD'):
        return
    heads = [line[len(HEADS):] for line in git(folder, 'for-each-ref', '--format', '%(refname)', 'refs/heads/').splitlines()]
    if heads:
        with noted(slot, LOCKS_OF_REFS):
            git(folder, 'symbolic-ref', 'HEAD', os.fsdecode(HEADS + first_branch(heads)))


def read_text(path):
    if not os.path.exists(path):
        return None
    with open(path, encoding='utf-8', errors='surrogateescape') as file:
        return file.read()


def write_text(path, text):
    with open(path, 'w', encoding='utf-8', errors='surrogateescape') as file:
        file.write(text)


# ---- Mercurial

def set_hg(mercurial, changes, names):
    """Sets bookmarks and local tags to changesets, where `names` says what stands there; gives what couldn't be set, with the reason, and those names
    that Mercurial keeps: of a named branch, and of a tag that a changeset has set."""
    failed, kept = {}, []
    for ref, node in changes.items():
        name = ref[len(HEADS if ref.startswith(HEADS) else TAGS):]
        if not can_be_hg_name(ref):
            failed[ref] = 'Mercurial has no such names'
        elif ref.startswith(HEADS):
            set_bookmark(mercurial, name, ref, node, names, failed, kept)
        else:
            set_tag(mercurial, name, ref, node, names, failed, kept)
    return failed, kept


def set_bookmark(mercurial, name, ref, node, names, failed, kept):
    old = names.bookmarks.get(name, '')
    if node is None and not old:
        kept.append(ref)
        return
    if b'@' in name.rstrip(b'@'):
        words = ['bookmark', '-d'] if node is None else ['bookmark', '-f', '-r', node]  # debugpushkey takes no such names
        status, _, errors = mercurial.answer(*words, '--', name)
    else:
        status, _, errors = mercurial.answer('debugpushkey', '--', '.', 'bookmarks', name, old, node or '')
    if status:
        failed[ref] = words_of(errors) if errors else 'the bookmark was moved meanwhile'


def set_tag(mercurial, name, ref, node, names, failed, kept):
    if node is None and name not in names.local_tags:
        kept.append(ref)
        return
    words = ['tag', '--local', '--remove'] if node is None else ['tag', '--local', '--force', '-r', node]
    status, _, errors = mercurial.answer(*words, '--', name)
    if status:
        failed[ref] = words_of(errors)


def publish(mercurial, refs, changeset_of):
    """Makes public what Git has as public; secret changesets stay secret. Gives their number."""
    nodes = [changeset_of[ref.commit] for name, ref in refs.items()
             if name.startswith(PUBLIC) and changeset_of.get(ref.commit) == os.fsdecode(name[len(PUBLIC):])]
    count = 0
    for part in parts_of(sorted(nodes), 500):
        named = ' or '.join(f'present({node})' for node in part)
        drafts = mercurial.lines('log', '-r', f'draft() and ({named})', '-T', '{node}\n')
        if drafts:
            mercurial.answer('phase', '--public', '-r', b' or '.join(drafts))
            count += len(drafts)
    return count


# ---- what has no name of its own

def side_refs(mercurial, refs, names, commit_of):
    """How to set the refs that keep what has no branch or tag: heads of Mercurial, and the newest public changesets. A ref of a changeset that
    Mercurial doesn't have stays."""
    named = {ref.commit for name, ref in refs.items() if name.startswith((HEADS, TAGS))}
    wanted = {KEPT + node.encode(): commit_of[node] for node in names.heads if node in commit_of and commit_of[node] not in named}
    wanted.update({PUBLIC + node.encode(): commit_of[node] for node in names.public if node in commit_of})
    changes = {ref: (refs[ref].id if ref in refs else None, commit) for ref, commit in wanted.items() if ref not in refs or refs[ref].id != commit}
    changes.update({ref: (refs[ref].id, None) for ref in stale(mercurial, refs, wanted)})
    return changes


def stale(mercurial, refs, wanted):
    """The refs that no head or public changeset asks for any more, though Mercurial has it."""
    found = []
    for prefix, revset in ((KEPT, 'all()'), (PUBLIC, 'public()')):
        rest = {name[len(prefix):].decode(errors='replace'): name for name in refs if name.startswith(prefix) and name not in wanted}
        nodes = [node for node in rest if len(node) == 40 and set(node) <= set('0123456789abcdef')]
        for part in parts_of(nodes, 500):
            named = ' or '.join(f'present({node})' for node in part)
            found += [rest[line.decode()] for line in mercurial.lines('log', '-r', f'{revset} and not secret() and ({named})', '-T', '{node}\n')]
    return found

