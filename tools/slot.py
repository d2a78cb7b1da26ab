"""The folder in a Git repository where a sync keeps the saved state, runs of the program over it, and the locks of Git that a killed run leaves."""
import contextlib
import fcntl
import glob
import io
import os
import re
import shutil
import signal
import subprocess
import sys
import time
from urllib.parse import quote_from_bytes, unquote_to_bytes

from repositories import Fault, environment, words_of

SLOT = 'hggit'
STATE = 'hggit.state'
LOCK = 'lock'
NAMES = 'names'
WORK = 'work'
NOTE = 'locks'
STILL_SECONDS = 1.0
PAUSE = 0.005
NO_ID = '0' * 40
ANY, IN_TREE = b'any', b'tree:'
LOCKS_OF_REFS = {name: ANY for name in (b'HEAD.lock', b'packed-refs.lock', b'packed-refs.new', b'reftable/tables.list.lock')}
REFUSED, BAD_STATE = 1, 6
FIRST_LINE = b'hg-git-bridge 2\n'
PAIR_SIZE = 82
TUNABLES, HUGE_PAGES = 'GLIBC_TUNABLES', 'glibc.malloc.hugetlb'


class Locked(Fault):
    """Another run is at work."""


class Refused(Fault):
    """The program refused an input; the words are its line."""


def program_path():
    """HGGIT, or the program beside this tool, or built in this repository, or in the path."""
    if os.environ.get('HGGIT'):
        return os.path.abspath(os.environ['HGGIT'])
    here = os.path.dirname(os.path.realpath(__file__))
    for folder in (os.path.dirname(os.path.abspath(sys.argv[0])), here, os.path.join(os.path.dirname(here), 'build')):
        path = os.path.join(folder, 'hggit')
        if os.path.isfile(path) and os.access(path, os.X_OK):
            return path
    found = shutil.which('hggit')
    if found is None:
        raise Fault('the program hggit is neither beside this tool nor in the path; the variable HGGIT can name it')
    return os.path.abspath(found)


def with_huge_pages(words):
    """An environment in which the C library asks the system for huge pages, unless it says something of them: the program fills more memory than others, and
    takes a tenth of its time less then."""
    said = words.get(TUNABLES, '')
    return words if HUGE_PAGES in said else dict(words, **{TUNABLES: ':'.join(filter(None, [said, f'{HUGE_PAGES}=1']))})


@contextlib.contextmanager
def locked(folder, seconds):
    """Holds the slot's folder; gives the lock's descriptor, so that programs which change something there can hold it too. It waits so long for
    another run."""
    os.makedirs(folder, exist_ok=True)
    with open(os.path.join(folder, LOCK), 'wb') as file:
        wait_for(file, folder, seconds)
        clean(folder)
        release(folder)
        yield file.fileno()


def wait_for(file, folder, seconds):
    end = time.monotonic() + seconds
    while True:
        try:
            fcntl.flock(file, fcntl.LOCK_EX | fcntl.LOCK_NB)
            return
        except BlockingIOError:
            if time.monotonic() >= end:
                raise Locked(f'another run holds {os.path.join(folder, LOCK)}') from None
            time.sleep(0.05)


def clean(folder):
    """What a run that was killed left of its work is taken away; what counts is the state."""
    shutil.rmtree(os.path.join(folder, WORK), ignore_errors=True)
    os.makedirs(os.path.join(folder, WORK), exist_ok=True)


# ---- locks of Git

def locks_of_refs(ids):
    """The files with which Git may lock a repository while it sets refs to these ids, each with the id that is written into it, if that is known."""
    return {**LOCKS_OF_REFS, **{ref + b'.lock': (id or NO_ID).encode() for ref, id in ids.items()}}


def lock_of_file(path, kind=ANY):
    """Git has the lock of its settings, and of an index, beside the file to which a link leads."""
    return {os.fsencode(os.path.realpath(path)) + b'.lock': kind}


def lock_of_index(path, place):
    return lock_of_file(path, IN_TREE + quote_from_bytes(os.fsencode(os.path.realpath(place))).encode())


@contextlib.contextmanager
def noted(slot, locks):
    """As long as this lasts, a note says what Git may lock for this run. It stays where a signal ends the run, since that may have killed Git."""
    with open(slot.path(NOTE), 'wb') as file:
        file.write(b''.join(b'%s %s\n' % (kind, path) for path, kind in locks.items()))
    try:
        yield
    except Exception:
        os.remove(slot.path(NOTE))
        raise
    os.remove(slot.path(NOTE))


def release(folder):
    """Takes away the locks that a killed run left: those of its note that are no older than it and that stay as they are for a second. That of a work
    tree in which Git is at work stays, with the note."""
    note = os.path.join(folder, NOTE)
    if not os.path.exists(note):
        return
    with open(note, 'rb') as file:
        since, rows = os.fstat(file.fileno()).st_mtime_ns, [line[:-1].split(b' ', 1) for line in file if line.endswith(b'\n')]
    locks = [(os.path.join(os.fsencode(os.path.dirname(folder)), path), kind) for kind, path in rows]
    found = {lock: look_at(*lock, since) for lock in locks if look_at(*lock, since)}
    if found:
        time.sleep(STILL_SECONDS)
    busy = {lock for lock in found if is_busy(lock[1])}
    for lock, look in found.items():
        if lock not in busy and look_at(*lock, since) == look:
            os.remove(lock[0])
    if not busy:
        os.remove(note)


def look_at(path, kind, since):
    """What tells a lock from every other one; None of one that is older than the note, or has what the killed run doesn't write."""
    try:
        with open(path, 'rb') as file:
            found, content = os.fstat(file.fileno()), file.read(len(NO_ID) + 1)
    except (FileNotFoundError, NotADirectoryError):
        return None
    wanted = b'' if kind == NO_ID.encode() else kind + b'\n'
    if found.st_mtime_ns < since or len(kind) == len(NO_ID) and not wanted.startswith(content):
        return None
    return found.st_dev, found.st_ino, found.st_size, found.st_mtime_ns, found.st_ctime_ns


def is_busy(kind):
    """A program of Git runs in the work tree to whose index a lock belongs, as far as the system tells."""
    if not kind.startswith(IN_TREE):
        return False
    place = os.fsdecode(unquote_to_bytes(kind[len(IN_TREE):]))
    for process in glob.glob('/proc/[0-9]*'):
        with contextlib.suppress(OSError), open(os.path.join(process, 'comm'), 'rb') as name:
            if name.read(3) == b'git' and os.path.join(os.readlink(os.path.join(process, 'cwd')), '').startswith(os.path.join(place, '')):
                return True
    return False


class Slot:
    """A folder with the saved state, the program, and the descriptor of the lock, if it is held."""

    def __init__(self, folder, lock=None):
        self.folder = folder
        self.program = program_path()
        self.keep = () if lock is None else (lock,)

    def path(self, *names):
        return os.path.join(self.folder, *names)

    def has_state(self):
        return os.path.exists(self.path(STATE))

    def start(self, word, source, target, writer=None):
        """Lets the program do a command from a file, or nothing, to a file. The file can be what a program of Git writes meanwhile."""
        try:
            process = subprocess.Popen([self.program, word], stdin=source or subprocess.DEVNULL, stdout=target, stderr=subprocess.PIPE, cwd=self.folder,
                                       env=with_huge_pages(environment()), pass_fds=self.keep)
        except OSError as error:
            raise Fault(f'{self.program}: {error.strerror}') from None
        return Run(word, process, self.path(STATE), writer)

    def run(self, word, source, target):
        self.start(word, source, target).finish()

    def pull(self, word, source_path, target_path):
        with open(source_path, 'rb') as source, open(target_path, 'wb') as target:
            self.run(word, source, target)

    def dump(self, word, target_path):
        with open(target_path, 'wb') as target:
            self.run(word, None, target)

    def pairs(self):
        """The commit of each changeset and the changeset of each commit, as hex digits."""
        if not self.has_state():
            return Pairs('')
        try:
            return Pairs(pairs_text(self.path(STATE)))
        except ValueError:
            raise Fault(f'{self.path(STATE)} holds no state of this program') from None


class Run:
    """The program at work on a command, and Git, where that writes what it reads."""

    def __init__(self, word, process, state_path, writer):
        self.word, self.process, self.state_path, self.writer = word, process, state_path, writer
        self.said = None

    def has_ended(self):
        return self.process.poll() is not None

    def finish(self):
        """Waits for the end of both, which must be a good one. Git's is no fault where the program read no more."""
        if self.said is None:
            self.said = self.process.communicate()[1].decode(errors='replace').strip()
        said, status = self.said, self.process.wait()
        if self.writer and self.writer.wait() not in (0, -signal.SIGPIPE):
            raise Fault(f'git cat-file: {words_of(self.writer.stderr.read())}')
        if status == REFUSED:
            raise Refused(said)
        if status == BAD_STATE:
            raise Fault(f'{self.state_path} holds no state of this program ({said})')
        if status:
            raise Fault(f'hggit {self.word} ended with status {status}: {said or "it said nothing"}')


class Growing(io.RawIOBase):
    """A file that the program writes, read while it grows."""

    def __init__(self, file, pull):
        super().__init__()
        self.file, self.pull = file, pull

    def readable(self):
        return True

    def readinto(self, target):
        while True:
            has_ended = self.pull.has_ended()
            count = self.file.readinto(target)
            if count or has_ended:
                return count
            time.sleep(PAUSE)


def pairs_text(path):
    """The lines `GITHEX HGHEX` of a saved state: its third section (docs/state-file.md). What stands before them is passed over; a pull checks all of it."""
    with open(path, 'rb') as file:
        if file.readline() != FIRST_LINE:
            raise ValueError('another version')
        for word in (b'hg', b'git'):
            file.seek(number_of(word, file.readline()) + 1, os.SEEK_CUR)
        size = number_of(b'map', file.readline()) * PAIR_SIZE
        text = file.read(size)
    if len(text) != size:
        raise ValueError('cut short')
    return text.decode('ascii')


def number_of(word, line):
    """The number in the line of a word."""
    match = re.fullmatch(word + rb' ([0-9]+)\n', line)
    if match is None:
        raise ValueError(f'no line of {word}')
    return int(match[1])


class Pairs:
    """What is paired with what."""

    def __init__(self, text):
        pairs = [line.split(' ') for line in text.splitlines()]
        self.changeset_of = dict(pairs)
        self.commit_of = {changeset: commit for commit, changeset in pairs}

    def __len__(self):
        return len(self.commit_of)
