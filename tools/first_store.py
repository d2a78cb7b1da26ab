"""A first move into a Mercurial repository that this run has made. Hg writes its store down from a stream, in a repository inside of it; once the program has
ended well, that store takes the place of the empty one as a whole."""
import io
import os
import re
import subprocess
import sys

from repositories import APART, PIECE, Fault, apart, environment
from slot import WORK, Growing
from stream_bundle import write_share, write_stream

SHARE = os.path.join(os.path.dirname(os.path.realpath(__file__)), 'stream_share.py')
MANY, MOST_SHARES = 1000, 4  # commits from which on more than one process makes a stream
FORMAT = {'generaldelta', 'revlog-compression-zstd', 'revlogv1', 'sparserevlog'}  # of these a stream names those that its files are for
NEEDED = {'fncache', 'generaldelta', 'revlogv1', 'store'}
USUAL = FORMAT | NEEDED | {'dirstate-tracked-key-v1', 'dirstate-v2', 'dotencode', 'persistent-nodemap', 'share-safe'}
OTHER_HOOK = re.compile(rb'hooks\.(priority|(pre|pretxn)?commit|(pre)?(update|tag|outgoing|pushkey|listkeys)|(pre|post|fail)-(?!unbundle|init)[^.=:]*)[.=:]')


def is_filled(mercurial, slot, pull, path, count):
    """Whether the repository has got all that the program writes of so many commits. Else it has nothing still, and hg can be given the bundle at this path."""
    requirements = requirements_of(mercurial.path)
    if not NEEDED <= requirements <= USUAL or has_hooks(mercurial):
        return False
    try:
        with apart(mercurial.path):
            return is_streamed(mercurial, slot, pull, path, requirements, count)
    except OSError:
        return False


def requirements_of(path):
    """What hg has to know to read a repository (`hg help internals.requirements`)."""
    found = set()
    for names in (['requires'], ['store', 'requires']):
        file_path = os.path.join(path, '.hg', *names)
        if os.path.exists(file_path):
            with open(file_path, encoding='ascii', errors='replace') as file:
                found.update(file.read().split())
    return found


def has_hooks(mercurial):
    """Whether the user has hooks that a bundle would run; a stream runs none of them."""
    return any(not OTHER_HOOK.match(line) for line in mercurial.lines('config', 'hooks', statuses=(0, 1)))


def is_streamed(mercurial, slot, pull, path, requirements, count):
    """Makes the stream while the program writes; hg gets it when the program has ended well."""
    stream = slot.path(WORK, 'new.stream')
    try:
        mercurial.output('init', '--', APART)
        sizes = make_shares(slot, pull, path, shares_of(count))
    except Fault:
        return False
    pull.finish()
    with open(stream, 'wb') as target:
        write_stream(target, sorted(FORMAT & requirements), sizes, [chunks_path(slot, share) for share in range(len(sizes))])
    try:
        mercurial.output('--repository', APART, 'unbundle', '--', stream)
    except Fault:
        return False
    return requirements_of(os.path.join(mercurial.path, APART)) == requirements and is_in_place(mercurial.path)


def shares_of(count):
    """How many processes shall make a stream; the program has one processor meanwhile."""
    return max(1, min(MOST_SHARES, (os.cpu_count() or 1) - 1)) if count >= MANY else 1


def make_shares(slot, pull, path, shares):
    """Writes the chunks of each share, the first one's here; gives how many files and bytes each has."""
    others = [start_share(slot, path, share, shares) for share in range(1, shares)]
    try:
        with open(path, 'rb', buffering=0) as source, open(chunks_path(slot, 0), 'wb') as target:
            sizes = [write_share(io.BufferedReader(Growing(source, pull), PIECE), target, 0, shares)]
        return sizes + [sizes_of(other) for other in others]
    finally:
        for other in others:
            other.kill()
            other.communicate()


def start_share(slot, path, share, shares):
    words = [sys.executable, '-B', SHARE, path, chunks_path(slot, share), str(share), str(shares)]
    return subprocess.Popen(words, stdin=subprocess.PIPE, stdout=subprocess.PIPE, stderr=subprocess.DEVNULL, env=environment(), pass_fds=slot.keep)


def sizes_of(other):
    output, _ = other.communicate()
    if other.returncode:
        raise Fault('a share of a stream can\'t be made')
    return tuple(map(int, output.split()))


def chunks_path(slot, share):
    return slot.path(WORK, f'chunks{share}')


def is_in_place(path):
    """Puts the new store in the place of the empty one, with its caches; not where somebody has written into that one."""
    here, inner = os.path.join(path, '.hg'), os.path.join(path, APART, '.hg')
    store, new = os.path.join(here, 'store'), os.path.join(inner, 'store')
    if set(os.listdir(store)) - {'requires'}:
        return False
    drop_undo(new)
    os.rename(store, os.path.join(inner, 'empty'))
    os.rename(new, store)
    move_files(os.path.join(inner, 'cache'), os.path.join(here, 'cache'))
    return True


def drop_undo(store):
    """Takes away what hg keeps for a rollback, which is none of the whole repository."""
    for name in [name for name in os.listdir(store) if name.startswith('undo')]:
        os.remove(os.path.join(store, name))


def move_files(source, target):
    os.makedirs(target, exist_ok=True)
    for name in os.listdir(source) if os.path.isdir(source) else ():
        os.replace(os.path.join(source, name), os.path.join(target, name))
