"""Calls of the real hg and the real git, and what they say of a repository that a sync asks about."""
import contextlib
import fcntl
import os
import re
import shutil
import struct
import subprocess
import tempfile
import threading

NULL = '0' * 40
EMPTY_TREE = '4b825dc642cb6eb9a060e54bf8d69288fbee4904'
PIECE = 1 << 20
LEAST_HG = (5, 0)
LEAST_GIT = (2, 28)
APART = os.path.join('.hg', 'hggit')
FIRST_BRANCHES = (b'main', b'master', b'default')
HG_SETTINGS = ['--config', 'ui.interactive=no', '--config', 'phases.new-commit=draft', '--config', 'ui.quiet=no']


class Fault(Exception):
    """Why a stage can't be done, in words for the user."""


# ---- both tools

def need_tools():
    """Both tools are in the path, and Git isn't too old. That of hg is asked once a repository is open, so that hg starts once."""
    for tool, least, name in (('hg', LEAST_HG, 'Mercurial'), ('git', LEAST_GIT, 'Git')):
        if shutil.which(tool) is None:
            raise Fault(f'{tool} is not in the path; {name} {dotted(least)} or newer is needed')
    need_version('git', LEAST_GIT, 'Git', version_said('git'))


def version_said(tool):
    return subprocess.run([tool, '--version'], stdin=subprocess.DEVNULL, stdout=subprocess.PIPE, stderr=subprocess.PIPE, env=environment()).stdout


def need_version(tool, least, name, said):
    match = re.search(rb'version ([0-9]+)\.([0-9]+)', said)
    if match is None:
        raise Fault(f'{tool} --version says no version of {name}: {words_of(said)}')
    found = int(match[1]), int(match[2])
    if found < least:
        raise Fault(f'{tool} is {name} {dotted(found)}; {dotted(least)} or newer is needed')


def dotted(version):
    return '.'.join(map(str, version))


def environment():
    """The user's environment, with plain outputs and without what a hook of Git sets for the repository in which it runs."""
    kept = {name: value for name, value in os.environ.items() if not is_of_one_repository(name)}
    kept.pop('HGPLAINEXCEPT', None)
    return dict(kept, HGPLAIN='1', HGENCODING='utf-8', LC_ALL='C.UTF-8', LANGUAGE='', GIT_NO_REPLACE_OBJECTS='1', GIT_TERMINAL_PROMPT='0')


def is_of_one_repository(name):
    return name in ('GIT_DIR', 'GIT_WORK_TREE', 'GIT_INDEX_FILE', 'GIT_OBJECT_DIRECTORY', 'GIT_ALTERNATE_OBJECT_DIRECTORIES', 'GIT_COMMON_DIR',
                    'GIT_PREFIX', 'GIT_NAMESPACE', 'GIT_QUARANTINE_PATH', 'GIT_SHALLOW_FILE', 'HG_NODE', 'HG_PENDING')


def words_of(text):
    """What a tool said on standard error, in one line."""
    lines = [line.strip() for line in text.decode(errors='replace').splitlines() if line.strip()]
    return '; '.join(lines[:4]) or 'it said nothing'


# ---- Mercurial

class Mercurial:
    """A Mercurial repository, asked by way of one command server, so that hg starts once. It works in the repository's folder, since hg takes a path with a
    `#` for another one. What is written into the sink hg can read as the file `fed`. It `is_made` where this run has made it."""

    def __init__(self, path):
        self.path, self.is_made = path, False
        words = ['hg', '-R', '.', *HG_SETTINGS, 'serve', '--cmdserver', 'pipe']
        self.errors = tempfile.TemporaryFile()
        self.source, self.sink = (os.fdopen(end, mode, PIECE) for end, mode in zip(os.pipe(), ('rb', 'wb')))
        with contextlib.suppress(AttributeError, OSError):
            fcntl.fcntl(self.sink, fcntl.F_SETPIPE_SZ, PIECE)
        self.server = subprocess.Popen(words, stdin=subprocess.PIPE, stdout=subprocess.PIPE, stderr=self.errors, cwd=path,
                                       env=environment(), pass_fds=(self.source.fileno(),))
        channel, _ = self.read_piece()
        if channel != b'o':
            self.server.kill()
            self.server.wait()
            need_version('hg', LEAST_HG, 'Mercurial', version_said('hg'))
            self.errors.seek(0)
            raise Fault(f'hg can\'t open {path}: {words_of(self.errors.read())}')

    def read_piece(self):
        head = self.server.stdout.read(5)
        if len(head) < 5:
            return b'', b''
        channel, size = struct.unpack('>cI', head)
        return channel, size if channel in b'IL' else self.server.stdout.read(size)

    def answer(self, *words):
        """The status, output and errors of a command."""
        data = b'\0'.join(word if isinstance(word, bytes) else os.fsencode(word) for word in words)
        with contextlib.suppress(BrokenPipeError):
            self.server.stdin.write(b'runcommand\n' + struct.pack('>I', len(data)) + data)
            self.server.stdin.flush()
        said = {b'o': [], b'e': [], b'd': []}
        while True:
            channel, piece = self.read_piece()
            if channel == b'r':
                return struct.unpack('>i', piece)[0], b''.join(said[b'o']), b''.join(said[b'e'])
            if channel in (b'I', b'L'):
                self.server.stdin.write(struct.pack('>I', 0))
                self.server.stdin.flush()
            elif channel in said:
                said[channel].append(piece)
            else:
                raise Fault(f'hg {os.fsdecode(words[0])} ended before its answer')

    def output(self, *words, statuses=(0,)):
        status, output, errors = self.answer(*words)
        if status not in statuses:
            raise Fault(f'hg {os.fsdecode(words[0])}: {words_of(errors or output)}')
        return output

    def lines(self, *words, statuses=(0,)):
        return self.output(*words, statuses=statuses).split(b'\n')[:-1]

    @property
    def fed(self):
        return f'/dev/fd/{self.source.fileno()}'

    def close(self):
        with contextlib.suppress(BrokenPipeError):
            self.server.stdin.close()
        self.server.wait()
        for end in (self.sink, self.source, self.errors):
            end.close()


def is_hg_repository(path):
    return os.path.isdir(os.path.join(path, '.hg'))


def make_hg_repository(path):
    make_repository(['hg', 'init'], path)


@contextlib.contextmanager
def apart(path):
    """A folder in a repository, where a first move writes its store, and which other runs leave alone meanwhile. It is taken away at the end. Where the
    repository has no store, since a run ended just when it was to be replaced, it gets that one."""
    folder, store = os.path.join(path, APART), os.path.join(path, '.hg', 'store')
    os.makedirs(folder, exist_ok=True)
    descriptor = os.open(folder, os.O_RDONLY)
    try:
        fcntl.flock(descriptor, fcntl.LOCK_EX | fcntl.LOCK_NB)
        try:
            yield
        finally:
            if not os.path.exists(store):
                os.rename(os.path.join(folder, '.hg', 'store'), store)
            shutil.rmtree(folder)
    finally:
        os.close(descriptor)


def open_mercurial(path, recovers=True):
    """The repository, recovered first where a command of hg, or a first move, was killed in it."""
    if recovers and os.path.exists(os.path.join(path, APART)):
        with contextlib.suppress(BlockingIOError), apart(path):
            pass
    mercurial = Mercurial(path)
    need_version('hg', LEAST_HG, 'Mercurial', mercurial.output('version', '-q'))
    if recovers and os.path.exists(os.path.join(path, '.hg', 'store', 'journal')):
        mercurial.answer('recover')
    return mercurial


class Opening(threading.Thread):
    """Opens a repository, or makes it first, while something else is done."""

    def __init__(self, path, progress, makes, recovers):
        super().__init__(daemon=True)
        self.path, self.progress, self.makes, self.recovers = path, progress, makes, recovers
        self.mercurial = self.fault = None
        self.start()

    def run(self):
        try:
            if self.makes:
                make_hg_repository(self.path)
            self.mercurial = open_mercurial(self.path, self.recovers)
            self.mercurial.is_made = self.makes
        except Exception as fault:
            self.fault = fault

    def result(self):
        self.join()
        if self.fault:
            raise self.fault
        if self.makes:
            self.progress.line(f'made the Mercurial repository {self.path}')
        return self.mercurial

    def close(self):
        self.join()
        if self.mercurial:
            self.mercurial.close()


def nodes_of(mercurial, revset):
    """The changesets of a revset, as hex digits, in their order."""
    return [line.decode() for line in mercurial.lines('log', '-r', revset, '-T', '{node}\n')]


def nodes_there(mercurial, nodes):
    """Those of some changesets that the repository has, hidden ones left out."""
    there = set()
    for part in parts_of(sorted(nodes), 500):
        revset = ' or '.join(f'present({node})' for node in part)
        there.update(nodes_of(mercurial, revset))
    return there


def parts_of(items, size):
    return [items[at:at + size] for at in range(0, len(items), size)]


# ---- Git

def git(folder, *words, data=None, statuses=(0,)):
    """What a command of Git prints over the repository in this folder. It needn't print each line at once."""
    run = subprocess.run(['git', '--git-dir', folder, *words], input=data, stdin=subprocess.DEVNULL if data is None else None,
                         stdout=subprocess.PIPE, stderr=subprocess.PIPE, env=dict(environment(), GIT_FLUSH='0'))
    if run.returncode not in statuses:
        raise Fault(f'git {words[0]}: {words_of(run.stderr)}')
    return run.stdout


def git_holds(folder, *words, data=None):
    """Whether a command of Git ends with status 0."""
    return subprocess.run(['git', '--git-dir', folder, *words], input=data, stdout=subprocess.DEVNULL, stderr=subprocess.DEVNULL,
                          env=environment()).returncode == 0


def git_folder(path):
    """The folder with the objects and refs of a repository, bare or not, or with several work trees; none where Git knows no repository there."""
    below = os.path.join(path, '.git')
    folder = below if os.path.exists(below) else path
    words = ['git', '--git-dir', folder, 'rev-parse', '--git-common-dir']
    run = subprocess.run(words, stdout=subprocess.PIPE, stderr=subprocess.DEVNULL, env=environment())
    return os.path.realpath(os.fsdecode(run.stdout.rstrip(b'\n'))) if run.returncode == 0 else None


def first_branch(branches):
    """The branch of some that HEAD names in a new repository."""
    return next((name for name in FIRST_BRANCHES if name in branches), min(branches))


def make_git_repository(path):
    make_repository(['git', 'init', '--quiet', '--bare'], path)


def make_repository(words, path):
    """Makes a repository beside its place and renames it, so that a run that is killed leaves none that is half made."""
    place = os.path.realpath(path)
    os.makedirs(os.path.dirname(place), exist_ok=True)
    with tempfile.TemporaryDirectory(prefix='.hggit-', dir=os.path.dirname(place)) as folder:
        run = subprocess.run([*words, 'repository'], stdout=subprocess.PIPE, stderr=subprocess.PIPE, cwd=folder, env=environment())
        if run.returncode:
            raise Fault(f'{" ".join(words[:2])}: {words_of(run.stderr)}')
        os.rename(os.path.join(folder, 'repository'), place)


def refuse_partial(folder, path):
    """A repository that lacks objects on purpose, or names them otherwise, is refused."""
    if git(folder, 'rev-parse', '--is-shallow-repository').strip() == b'true':
        raise Fault(f'{path} is a shallow repository of Git, which lacks old commits; `git fetch --unshallow` completes it')
    asked = r'^(extensions\.(partialclone|objectformat)|remote\..*\.promisor)$'
    settings = git(folder, 'config', '--get-regexp', asked, statuses=(0, 1)).decode(errors='replace')
    for line in settings.splitlines():
        name, _, value = line.partition(' ')
        if name == 'extensions.objectformat':
            if value != 'sha1':
                raise Fault(f'{path} is a repository of Git with ids of {value}; only those with sha1 are carried')
        elif value != 'false':
            raise Fault(f'{path} is a partial clone of Git, which lacks objects; a clone without --filter has them')
    if os.path.exists(os.path.join(folder, 'info', 'grafts')):
        raise Fault(f'{path} is a repository of Git with grafts, which show other parents than the commits have; take {folder}/info/grafts away')


def objects_missing(folder, ids):
    """Those of some ids, as bytes, that the repository hasn't."""
    said = git(folder, 'cat-file', '--batch-check', '--buffer', data=b''.join(id + b'\n' for id in ids))
    return {line.split(b' ')[0] for line in said.splitlines() if line.endswith(b' missing')}


def reaches_whole(folder, commits):
    """All that these commits reach is there. What a branch or tag reaches isn't walked again."""
    data = ''.join(f'{commit}\n' for commit in commits).encode()
    return git_holds(folder, 'rev-list', '--objects', '--quiet', '--stdin', '--not', '--all', data=data)
