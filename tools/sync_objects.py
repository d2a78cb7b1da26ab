"""Changesets and commits from one side to the other: what is new there is pulled through the slot and loaded here."""
import contextlib
import heapq
import io
import os
import select
import subprocess
import sys
import tempfile
import threading
import time
from typing import Dict, NamedTuple, Optional
from urllib.parse import quote_from_bytes

from first_store import is_filled
from repositories import NULL, PIECE, Fault, environment, git, nodes_of, nodes_there, objects_missing, reaches_whole, words_of
from slot import PAUSE, WORK, Growing
from small_deltas import write_small
from sync_names import HEADS, KEPT, TAGS, can_be_hg_name

HERE = os.path.dirname(os.path.realpath(__file__))
LONGEST_PAUSE = 0.05
SLOWER = 1.25


class Ref(NamedTuple):
    """What a ref of Git names, and the commit to which it leads, if there is one."""
    id: str
    commit: Optional[str]


class New(NamedTuple):
    """What one side has that isn't saved: its ids with their parents among them, children first, those that are no parents of others, the saved parents
    below them, and the other objects of commits."""
    ids: dict
    heads: list
    bases: list
    objects: list = []


# ---- what each side has

def read_git(folder) -> Dict[bytes, Ref]:
    """The branches, tags and names of Mercurial's things of a Git repository. Symbolic refs are names of names, and are left alone."""
    form = '%(objectname) %(objecttype) %(symref):%(refname)'
    lines = git(folder, 'for-each-ref', '--format', form, 'refs/heads/', 'refs/tags/', 'refs/hg/').split(b'\n')[:-1]
    refs = {}
    for line in lines:
        id, kind, rest = line.split(b' ', 2)
        symbolic, _, ref = rest.partition(b':')
        if not symbolic:
            refs[ref] = id, kind
    led = commits_of_tags(folder, [id for id, kind in refs.values() if kind == b'tag'])
    return {ref: Ref(id.decode(), id.decode() if kind == b'commit' else led.get(id)) for ref, (id, kind) in refs.items()}


def commits_of_tags(folder, tags):
    """The commits to which annotated tags lead."""
    if not tags:
        return {}
    said = git(folder, 'cat-file', '--batch-check', '--buffer', data=b''.join(tag + b'^{}\n' for tag in tags)).splitlines()
    return {tag: line.split(b' ')[0].decode() for tag, line in zip(tags, said) if line.split(b' ')[1:2] == [b'commit']}


def is_carried(ref):
    return ref.startswith((HEADS, TAGS, KEPT))


def new_changesets(mercurial, heads, pairs) -> New:
    """The changesets that aren't secret and aren't saved. What is below a saved one is saved, links of octopus commits too."""
    if all(head in pairs.commit_of for head in heads):
        return New({}, [], [])
    if not len(pairs):
        return New(dict.fromkeys(nodes_of(mercurial, 'not secret()'), ()), heads, [])
    lines = mercurial.lines('log', '-r', 'reverse(not secret())', '-T', '{node} {p1node} {p2node}\n')
    return new_of([line.decode().split(' ') for line in lines], pairs.commit_of)


def new_commits(folder, refs, pairs) -> New:
    """The commits that branches and tags reach and that aren't saved, and their objects."""
    commits = {ref.commit for name, ref in refs.items() if is_carried(name) and ref.commit}
    known = {commit for commit in commits if commit in pairs.changeset_of}
    if known == commits:
        return New({}, [], [])
    data = ''.join([f'{commit}\n' for commit in sorted(commits - known)] + [f'^{commit}\n' for commit in sorted(known)]).encode()
    lines = git(folder, 'rev-list', '--topo-order', '--parents', '--stdin', data=data).decode().splitlines()
    new = new_of([line.split(' ') for line in lines], pairs.changeset_of)
    return new._replace(objects=[id for id in ids_of(folder, new.heads, new.bases) if id.decode() not in new.ids])


def new_of(members, saved) -> New:
    """Of members with their parents, children before parents."""
    below = set()
    new = {}
    for member, *parents in members:
        if member in saved or member in below:
            below.update(parents)
        else:
            new[member] = [parent for parent in parents if parent != NULL]
    inner = {parent for parents in new.values() for parent in parents}
    own = {member: [parent for parent in parents if parent in new] for member, parents in new.items()}
    return New(own, [member for member in new if member not in inner], sorted(inner - set(new)))


# ---- to Git

def carry_to_git(mercurial, folder, slot, pairs, new, loads=True):
    """Pulls new changesets and loads their commits; gives the pairs after it."""
    if new.ids:
        bundle, stream = slot.path(WORK, 'new.hg'), slot.path(WORK, 'new.stream')
        write_bundle(mercurial, new, bundle)
        slot.pull('pull-hg', bundle, stream)
        os.remove(bundle)
        if loads:
            load(folder, slot, stream)
        os.remove(stream)
        pairs = slot.pairs()
    return pairs


def write_bundle(mercurial, new, path):
    words = ['bundle', '--type', 'none-v1']
    for base in new.bases or [NULL]:
        words += ['--base', base]
    for head in new.heads:
        words += ['-r', head]
    mercurial.output(*words, '--', path)


def load(folder, slot, stream_path):
    """Loads a stream with git-load, which leaves the repository as it was where anything is wrong."""
    with open(stream_path, 'rb') as stream:
        run = subprocess.run([sys.executable, '-B', os.path.join(HERE, 'git-load'), folder], stdin=stream, stderr=subprocess.PIPE, env=environment(),
                             pass_fds=slot.keep)
    if run.returncode:
        raise Fault(words_of(run.stderr))


def restore_git(folder, slot, commits, tags=()):
    """Loads from the saved state what Git lacks of all that these commits reach, and of some tags; gives the number of objects."""
    lacks_tags = tags and objects_missing(folder, [tag.encode() for tag in tags])
    if not lacks_tags and (not commits or reaches_whole(folder, commits)):
        return 0
    dump, stream = slot.path(WORK, 'dump.stream'), slot.path(WORK, 'missing.stream')
    slot.dump('dump-git', dump)
    count = keep_missing(folder, dump, stream)
    os.remove(dump)
    load(folder, slot, stream)
    os.remove(stream)
    return count


def keep_missing(folder, source_path, target_path):
    """Writes those objects of a stream that Git hasn't."""
    with open(source_path, 'rb') as source:
        ids = [line.split(b' ')[0] for line, _ in objects_of(source)]
    missing = objects_missing(folder, ids)
    with open(source_path, 'rb') as source, open(target_path, 'wb') as target:
        for line, content in objects_of(source):
            if line[:40] in missing:
                target.write(line + content)
    return len(missing)


def objects_of(stream):
    """The line of each object of a stream that the program wrote, and its content with the LF behind it."""
    while line := stream.readline():
        yield line, stream.read(int(line.split(b' ')[2]) + 1)


# ---- to Mercurial

def carry_to_hg(mercurial, folder, slot, pairs, refs, new, tags, loads=True):
    """Pulls new commits and annotated tags and unbundles their changesets; gives the pairs after it."""
    if new.ids or tags:
        bundle = slot.path(WORK, 'new.hg')
        with open(bundle, 'wb') as target:
            pull = start_pull(folder, slot, refs, new, tags, target)
        if not (new.ids and loads):
            pull.finish()
        elif not (mercurial.is_made and not len(pairs) and is_filled(mercurial, slot, pull, bundle, len(new.ids))):
            unbundle(mercurial, slot, pull, bundle)
        os.remove(bundle)
    if new.ids:
        pairs = slot.pairs()
    return pairs


def start_pull(folder, slot, refs, new, tags, target):
    """The program pulls what Git writes meanwhile: the new commits in the order in which Mercurial shall have them, the other objects, and the tags."""
    branches = {ref.commit for name, ref in refs.items() if name.startswith(HEADS)}
    tagged = sorted({ref.commit for ref in refs.values() if ref.commit and ref.commit != ref.id})
    ids = [commit.encode() for commit in order_of(new, branches)] + new.objects + ids_of(folder, tags, tagged)
    with tempfile.TemporaryFile() as asked:
        asked.write(b''.join(id + b'\n' for id in ids))
        asked.seek(0)
        words = ['git', '--git-dir', folder, 'cat-file', '--batch', '--buffer']
        writer = subprocess.Popen(words, stdin=asked, stdout=subprocess.PIPE, stderr=subprocess.PIPE, env=environment())
    with writer.stdout as stream:
        return slot.start('pull-git', stream, target, writer)


def unbundle(mercurial, slot, pull, path):
    """Gives hg what the program writes, while it writes it, or as a file where hg can't have it so."""
    wait_for_output(pull, path)
    if mercurial.sink.closed or pull.has_ended():
        pull.finish()
    if not mercurial.sink.closed and is_fed(mercurial, pull, path):
        return
    make_small(slot, path)
    mercurial.output('unbundle', '--', path)


def wait_for_output(pull, path):
    """Looks whether the program writes or has ended, the more seldom the longer it takes."""
    pause = PAUSE
    while not pull.has_ended() and not os.path.getsize(path):
        time.sleep(pause)
        pause = min(pause * SLOWER, LONGEST_PAUSE)


def is_fed(mercurial, pull, path):
    """Whether hg can read what it is fed with."""
    feed, why = Feed(mercurial, pull, path), None
    feed.start()
    try:
        mercurial.output('unbundle', '--', mercurial.fed)
    except (Fault, OSError) as fault:
        why = fault
        feed.drain()
    feed.join()
    if feed.fault or why and mercurial.fed not in str(why):
        raise feed.fault or why
    return why is None


class Feed(threading.Thread):
    """Feeds hg with a bundle of small deltas while the program writes it. Its end comes once the program has ended well, so that Mercurial never has what
    the state hasn't: of a bundle without an end hg takes nothing."""

    def __init__(self, mercurial, pull, path):
        super().__init__(daemon=True)
        self.mercurial, self.pull, self.path, self.fault = mercurial, pull, path, None

    def run(self):
        sink = self.mercurial.sink
        try:
            with open(self.path, 'rb', buffering=0) as source:
                write_small(io.BufferedReader(Growing(source, self.pull), PIECE), sink, self.pull.finish)
            sink.flush()
        except Exception as fault:
            self.fault = fault
            with contextlib.suppress(OSError):
                sink.close()

    def drain(self):
        """Passes over what hg reads no more, until the program has ended."""
        source = self.mercurial.source.fileno()
        while self.is_alive():
            if select.select([source], [], [], PAUSE)[0]:
                os.read(source, PIECE)
        self.mercurial.sink.close()


def make_small(slot, path):
    """Gives a bundle of the program deltas that hg takes quickly."""
    small = slot.path(WORK, 'small.hg')
    with open(path, 'rb') as source, open(small, 'wb') as target:
        write_small(source, target)
    os.replace(small, path)


def order_of(new, branches):
    """Parents before children, and what branches name as late as that allows, so that the head of a branch is the newest on Mercurial's side too."""
    children, waits = {}, {}
    for commit, parents in new.ids.items():
        waits[commit] = len(parents)
        for parent in parents:
            children.setdefault(parent, []).append(commit)
    place = {commit: number for number, commit in enumerate(reversed(new.ids))}
    rank = {commit: 0 if commit not in branches else 1 if commit in children else 2 for commit in new.ids}
    ready = [(rank[commit], place[commit], commit) for commit in new.ids if not waits[commit]]
    heapq.heapify(ready)
    while ready:
        commit = heapq.heappop(ready)[2]
        yield commit
        for child in children.get(commit, ()):
            waits[child] -= 1
            if not waits[child]:
                heapq.heappush(ready, (rank[child], place[child], child))


def ids_of(folder, commits, bases):
    """The objects that commits reach and others don't."""
    if not commits:
        return []
    data = ''.join([f'{commit}\n' for commit in commits] + [f'^{base}\n' for base in bases]).encode()
    return git(folder, 'rev-list', '--objects', '--no-object-names', '--stdin', data=data).splitlines()


def new_tags(refs, saved_tags):
    """The annotated tags that lead to commits and aren't saved."""
    return sorted({ref.id for name, ref in refs.items()
                   if name.startswith(TAGS) and can_be_hg_name(name) and ref.commit not in (None, ref.id) and ref.id not in saved_tags})


def restore_hg(mercurial, slot, nodes):
    """Pulls from the saved state what Mercurial lacks of these changesets; gives how many of them."""
    missing = sorted(set(nodes) - nodes_there(mercurial, nodes))
    if missing:
        dump = slot.path(WORK, 'dump.hg')
        slot.dump('dump-hg', dump)
        make_small(slot, dump)
        words = [word for node in missing for word in ('-r', node)]
        mercurial.output('pull', '--config', 'phases.publish=no', *words, '--', 'file://' + quote_from_bytes(os.fsencode(dump)))
        os.remove(dump)
    return len(missing)
