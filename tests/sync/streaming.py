"""First moves into a Mercurial repository that a run makes: what hg has from a stream is what `hg unbundle` gives, and whatever fails leaves nothing."""
import fcntl
import os
import random
import shutil
import struct
import tempfile
import time

import first_store
from both import disagreements, git_refs, hg_names, hg_nodes, hg_phases, pairs, run, said, sync
from feeding import has, write_program
from formats import hg as form
from kills import KILLS, damage, kill_at, left_over
from made_bundle import write_bundle
from makers import GitMaker, HgMaker
from repositories import APART, Fault, Mercurial
from slot import Refused, Slot
from sync_objects import unbundle

STEPS = 40
ALL = '{rev} {node} {p1rev} {p2rev} {phase} {author} {date|hgdate} {join(extras, "|")} [{join(files, "|")}] [{join(file_copies, "|")}]\\n{desc}\\n'
TEXTS = {b'always empty': b'', b'empty': b'', b'meta': b'\1\nno copy\n', b'zero': b'\0\1\2', b'looks': b'x\x9c', b'bytes': random.Random(1).randbytes(5000)}
MANY_ROWS = 1500
STREAMED, UNBUNDLED = 0x00000001, 0x00010001  # how the index of few changesets begins: a stream's isn't inline
LONG = 'a long folder ' + 'x' * 100
PATHS = ['aux', 'con.txt', 'Upper Case', 'dot.', 'space ', 'é\u0301ü', LONG + '/' + 'y' * 100 + '/Z', 'a.i/b.d/c.hg', '.d', 'nul/prn', '~tilde', 'a"b\\c|d?e*']
RAW_PATH = b'not utf-8 \xe9\xff'
NOTHING, SOUND = '-1', (0, '')
SAVES = 'sleep 0.2; cat hg/.hg/store/00changelog.i hg/.hg/hggit/.hg/store/00changelog.i >early 2>/dev/null; [ -s early ] || rm early; touch saved'


def check(report):
    with tempfile.TemporaryDirectory() as folder:
        for part in (check_moves, check_fallbacks, check_left_over, check_kills):
            part(report, made_folder(folder, part.__name__))
        os.environ['HGGIT'], program = os.path.join(folder, 'program'), os.environ['HGGIT']
        for part in (check_long_chains, check_failures):
            part(report, made_folder(folder, part.__name__))
        os.environ['HGGIT'] = program


def made_folder(folder, name):
    place = os.path.join(folder, name)
    os.mkdir(place)
    return place


# ---- whole moves

def check_moves(report, place):
    source, mirror, streamed, unbundled = (os.path.join(place, name) for name in ('source', 'mirror.git', 'streamed', 'unbundled'))
    make_source(source)
    sync(source, mirror)
    add_commits(mirror)
    sync(source, mirror)
    move_both_ways(report, mirror, streamed, unbundled)
    report.check('a stream gives what hg unbundle gives', differing(told(streamed), told(unbundled)), [])
    report.check('and what was there at first, but for phases', (hg_nodes(streamed), disagreements(streamed, mirror + '1')), (hg_nodes(source), []))
    report.check('hg verify', verified(streamed), (0, ''))
    report.check('nothing is left over', sorted(set(os.listdir(os.path.join(streamed, '.hg'))) - set(os.listdir(os.path.join(unbundled, '.hg')))), [])
    check_use(report, place, streamed)


def move_both_ways(report, mirror, streamed, unbundled):
    """To a repository that is made, and to one that was there."""
    for number, target in ((1, streamed), (2, unbundled)):
        said(['git', 'clone', '-q', '--mirror', mirror, mirror + str(number)])
    said(['hg', 'init', unbundled])
    answers = [sync(streamed, mirror + '1'), sync(unbundled, mirror + '2')]
    report.check('moves', [(answer.status, answer.errors) for answer in answers], [(0, '')] * 2)
    report.check('one by a stream', (form_of(streamed), form_of(unbundled)), (STREAMED, UNBUNDLED))


def make_source(path):
    """A history with all that a store may have: odd paths, copies over files that are there, flags, empty texts and texts that look like something else."""
    said(['hg', 'init', path])
    maker = HgMaker(path, 7)
    for number, name in enumerate([*map(os.fsencode, PATHS), RAW_PATH]):
        write(path, name, b'%d\n' % number * (number + 1))
    for name, text in TEXTS.items():
        write(path, name, text)
    os.symlink('aux', os.path.join(path, 'link'))
    os.chmod(os.path.join(path, 'con.txt'), 0o755)
    maker.record('odd paths')
    for source, target in (('aux', 'meta'), ('con.txt', 'empty'), ('Upper Case', 'new/Name')):
        maker.ask('copy', '--force', source, target)
        maker.record(f'copy to {target}')
    write(path, b'zero', b'')
    maker.record('nothing')
    for _ in range(STEPS):
        maker.step()
    maker.ask('update', '-q', '--clean', '-r', '0')
    maker.ask('branch', '-q', 'closed é')
    maker.write()
    maker.record('a branch')
    maker.ask('commit', '-q', '--close-branch', '-u', 'Ann', '-m', 'closed')
    maker.close()


def add_commits(mirror):
    """Commits of Git, octopus commits among them."""
    maker = GitMaker(mirror, 8)
    while maker.count < STEPS // 2 or not maker.git('rev-list', '--all', '--min-parents=3'):
        maker.step()


def write(folder, name, text):
    path = os.path.join(os.fsencode(folder), name)
    os.makedirs(os.path.dirname(path), exist_ok=True)
    with open(path, 'wb') as file:
        file.write(text)


def form_of(hg):
    with open(os.path.join(hg, '.hg', 'store', '00changelog.i'), 'rb') as file:
        return struct.unpack('>I', file.read(4))[0]


def verified(hg):
    answer = run(['hg', '-R', hg, 'verify', '-q'])
    return answer.status, answer.output + answer.errors


def told(path):
    """What hg says of a repository; a fault where it doesn't."""
    hg = Mercurial(path)
    questions = [('log', '-T', ALL), ('log', '-p', '--git', '-T', '{rev}\\n'), ('heads', '-c', '-T', '{node}\\n'), ('branches', '-c'), ('tags',), ('bookmarks',),
                 ('debugindex', '-c'), ('debugindex', '-m')]
    questions += [(*words, '-r', revision) for revision in hg.lines('log', '-T', '{rev}\\n') for words in (('manifest', '--debug'), ('debugrename', '.'))]
    questions += [('debugindex', '--', name) for name in sorted(set(hg.lines('log', '-T', '{files % "{file}\\n"}')))]
    questions += [('log', '--follow', '-r', 'tip', '-T', '{rev}\\n', '--', name) for name in hg.lines('files', '-r', 'tip', '-T', '{path}\\n')]
    answers = {question: hg.output(*question) for question in questions}
    hg.close()
    return answers


def differing(one, other):
    return [(question, answer, other.get(question)) for question, answer in one.items() if other.get(question) != answer] + sorted(set(other) - set(one))


def check_use(report, place, hg):
    """Other commands of hg over the repository."""
    clones = [os.path.join(place, name) for name in ('clone', 'pulled', 'stream', 'from bundle')]
    said(['hg', 'clone', '-q', '-U', hg, clones[0]])
    said(['hg', 'clone', '-q', '-U', '--pull', hg, clones[1]])
    said(['hg', 'clone', '-q', '-U', '--stream', hg, clones[2]])
    said(['hg', '-R', hg, 'bundle', '-q', '--all', os.path.join(place, 'bundle')])
    said(['hg', 'init', clones[3]])
    said(['hg', '-R', clones[3], 'unbundle', '-q', os.path.join(place, 'bundle')])
    nodes = hg_nodes(hg)
    report.check('it can be cloned and bundled', [(hg_nodes(clone) == nodes, verified(clone)) for clone in clones], [(True, (0, ''))] * 4)
    said(['hg', '-R', clones[1], 'update', '-q', '-r', '0'])
    write(clones[1], b'aux', b'changed\n')
    said(['hg', '-R', clones[1], 'commit', '-q', '-u', 'Ann', '-m', 'more'])
    said(['hg', '-R', clones[1], 'push', '-q', '--force', '-r', '.', hg])
    report.check('a change is pushed to it', (len(hg_nodes(hg)), verified(hg)), (len(nodes) + 1, (0, '')))
    report.check('and is pulled', (run(['hg', '-R', clones[0], 'pull', '-q', hg]).status, hg_nodes(clones[0]) == hg_nodes(hg)), (0, True))


# ---- a program that writes a bundle as it is

class Chain:
    """Revisions, each over the last one, as the program writes them: in place of the whole text before."""

    def __init__(self):
        self.node, self.text, self.entries = form.NULL, b'', []

    def add(self, text, link=None):
        node = form.node_id(self.node, form.NULL, text)
        self.entries.append(form.entry(node, self.node, form.NULL, link or node, form.whole_delta(len(self.text), text)))
        self.node, self.text = node, text
        return node


def bundle_of(texts):
    """A bundle with a changeset for each row of texts of files, which have the numbers of their columns as names."""
    changesets, manifests, files = Chain(), Chain(), [Chain() for _ in texts[0]]
    for row in texts:
        number = len(changesets.entries)
        lines = [form.manifest_line(b'%d' % column, form.node_id(file.node, form.NULL, text)) for column, (file, text) in enumerate(zip(files, row))]
        manifest = form.node_id(manifests.node, form.NULL, b''.join(lines))
        names = b'\n'.join(b'%d' % column for column in range(len(row)))
        node = changesets.add(b'%s\nAnn\n%d 0\n%s\n\nchange' % (manifest.hex().encode(), number, names))
        manifests.add(b''.join(lines), node)
        for file, text in zip(files, row):
            file.add(text, node)
    return form.bundle(changesets.entries, manifests.entries, [(b'%d' % column, file.entries) for column, file in enumerate(files)])


def check_long_chains(report, place):
    """Of small changes to a long text, and of texts that have nothing in common."""
    numbers = random.Random(2)
    front = b''.join(b'%030d\n' % numbers.randrange(10**30) for _ in range(2000))
    rows = [(front + b'%d\n' % number, numbers.randbytes(300), numbers.randbytes(5), b'%d' % number) for number in range(MANY_ROWS)]
    write(place, b'bundle', bundle_of(rows))
    for count, words in ((1, 'one process'), (first_store.MANY, 'several processes')):
        filled = streamed(place, 'cat bundle', count)
        report.check(f'{MANY_ROWS} changesets are streamed by {words}', (filled, has(place)[:2]), (True, (str(MANY_ROWS - 1), SOUND)))
        report.check('chains of deltas have an end, and aren\'t long for their text', [bad_chains(place, name) for name in ('-m', '0', '1', '2')], [[]] * 4)


def bad_chains(place, name):
    """Those of more than 1,000 deltas, or with more bytes than two texts."""
    rows = said(['hg', '-R', os.path.join(place, 'hg'), 'debugdeltachain', '-T', '{chainlen} {chainsize} {uncompsize}\\n', name])
    found = [tuple(map(int, row.split(' '))) for row in rows.splitlines()]
    return [row for row in found if row[0] > 1001 or row[1] > 2 * row[2] + 1]


def streamed(place, words, count=1, change=lambda mercurial: None):
    """What is said of a first move into a new repository by a program that does these words of a shell: whether hg took it, or the fault."""
    hg, work = os.path.join(place, 'hg'), os.path.join(place, 'work')
    for folder in (hg, work):
        shutil.rmtree(folder, ignore_errors=True)
    said(['hg', 'init', hg])
    os.mkdir(work)
    mercurial = Mercurial(hg)
    change(mercurial)
    write_program(words)
    path = os.path.join(work, 'new.hg')
    with open(path, 'wb') as target:
        pull = Slot(place).start('pull-git', None, target)
    try:
        return first_store.is_filled(mercurial, Slot(place), pull, path, count) or unbundle(mercurial, Slot(place), pull, path)
    except Fault as fault:
        return type(fault), str(fault)
    finally:
        mercurial.close()


# ---- what fails

def check_failures(report, place):
    write(place, b'bundle', bundle_of([(b'%d' % number, b'text') for number in range(20)]))
    report.check('hg is given nothing before the program has ended', (streamed(place, f'cat bundle; {SAVES}'), has(place)), (True, ('19', SOUND, ['saved'])))
    os.remove(os.path.join(place, 'saved'))
    fails = {'fails behind its output': ('cat bundle; echo no room >&2; exit 3', (Fault, 'hggit pull-git ended with status 3: no room')),
             'fails in its output': ('head -c 999 bundle; echo no room >&2; exit 3', (Fault, 'hggit pull-git ended with status 3: no room')),
             'refuses': ('echo refused PathUnfit 1 2 >&2; exit 1', (Refused, 'refused PathUnfit 1 2')),
             'ends well with a part': ('head -c 999 bundle', (Fault, 'the program wrote a bundle that is cut short'))}
    for name, (words, wanted) in fails.items():
        for count in (1, first_store.MANY):
            report.check(f'a program that {name}', (streamed(place, words, count), has(place), is_clean(place)), (wanted, (NOTHING, SOUND, []), True))
    check_other_ways(report, place)


def check_other_ways(report, place):
    """Hg unbundles what it doesn't take as a stream."""
    share, first_store.SHARE = first_store.SHARE, os.path.join(place, 'nothing')
    report.check('a process of several fails', (streamed(place, 'cat bundle', first_store.MANY), has(place)[:2]), (None, ('19', SOUND)))
    first_store.SHARE = share
    report.check('hg knows no streams', (streamed(place, 'cat bundle', change=knows_no_streams), has(place)[:2], is_clean(place)), (None, ('19', SOUND), True))
    commits = 'cat bundle; echo a >hg/a; hg -R hg commit -q -A -u Ann -m meanwhile hg/a'
    report.check('somebody commits meanwhile', (streamed(place, commits), has(place)[:2], is_clean(place)), (None, ('20', SOUND), True))
    write(place, b'bundle', bundle_of([(b'a', b'b'), (b'a', b'\1\ncopy: 0\ncopyrev: %040d\n\1\nc' % 0)]))
    parents = []
    for change in (lambda mercurial: None, knows_no_streams):
        streamed(place, 'cat bundle', change=change)
        parents.append(said(['hg', '-R', os.path.join(place, 'hg'), 'debugindex', '1']))
    report.check('of a copy over a file hg has the parent as the second one', parents[0], parents[1])
    write_bundle(20, os.path.join(place, 'bundle'), os.path.join(place, 'texts'), 3)
    report.check('deltas have parts of texts', (streamed(place, 'cat bundle'), has(place)[:2], is_clean(place)), (None, ('19', SOUND), True))


def knows_no_streams(mercurial):
    def answer(*words):
        return (255, b'', b'no such part') if '--repository' in words else Mercurial.answer(mercurial, *words)
    mercurial.answer = answer


def is_clean(place):
    return not os.path.exists(os.path.join(place, 'hg', APART))


# ---- repositories that aren't the usual ones

def check_fallbacks(report, place):
    git = os.path.join(place, 'git')
    said(['git', 'init', '-q', '--bare', '-b', 'main', git])
    maker = GitMaker(git, 9)
    for _ in range(5):
        maker.commit()
    rows = [('a hook that a bundle runs', '[hooks]\npretxnchangegroup.x = touch ../ran0', UNBUNDLED),
            ('a hook of transactions', '[hooks]\ntxnclose = touch ../ran1', UNBUNDLED),
            ('other hooks', '[hooks]\nupdate = false\npretxncommit.x = false\npre-push = false\npost-log.y = false', STREAMED),
            ('no share-safe', '[format]\nuse-share-safe = no', STREAMED), ('no sparse revlogs', '[format]\nsparse-revlog = no\nrevlog-compression = zlib', STREAMED),
            ('bookmarks in the store', '[format]\nbookmarks-in-store = yes', UNBUNDLED), ('no fncache', '[format]\nusefncache = no', UNBUNDLED),
            ('no compression', '[format]\nrevlog-compression = none', UNBUNDLED)]
    for number, (name, settings, wanted) in enumerate(rows):
        hg, plain, settings_path = (os.path.join(place, f'{word}{number}') for word in ('hg', 'plain', 'hgrc'))
        shutil.copytree(git, plain)
        write(place, os.path.basename(settings_path).encode(), settings.encode() + b'\n')
        os.environ['HGRCPATH'], before = settings_path, os.environ['HGRCPATH']
        answer = sync(hg, plain)
        os.environ['HGRCPATH'] = before
        way = 'a stream' if wanted == STREAMED else 'no stream'
        report.check(f'{name}: {way}', (answer.status, answer.errors, form_of(hg), verified(hg)), (0, '', wanted, SOUND))
        report.check('with all that Git has', disagreements(hg, plain), [])
    report.check('both hooks ran', [os.path.exists(os.path.join(place, f'ran{number}')) for number in range(2)], [True] * 2)


# ---- runs that are killed

def check_left_over(report, place):
    git, hg = os.path.join(place, 'git'), os.path.join(place, 'hg')
    make_git(git)
    sync(hg, git)
    inner, store = os.path.join(hg, APART, '.hg'), os.path.join(hg, '.hg', 'store')
    nodes = hg_nodes(hg)
    os.makedirs(inner)
    os.rename(store, os.path.join(inner, 'store'))
    report.check('a run that was killed while it put the store in its place', (sync(hg, git).status, hg_nodes(hg), verified(hg)), (0, nodes, SOUND))
    os.makedirs(os.path.join(inner, 'store', 'data'))
    report.check('or before', (sync(hg, git).status, hg_nodes(hg), os.path.exists(inner)), (0, nodes, False))
    os.makedirs(inner)
    descriptor = os.open(os.path.dirname(inner), os.O_RDONLY)
    fcntl.flock(descriptor, fcntl.LOCK_EX)
    report.check('one that is still at work is left alone', (sync(hg, git).status, os.path.exists(inner)), (0, True))
    os.close(descriptor)


def make_git(git):
    said(['git', 'init', '-q', '--bare', '-b', 'main', git])
    maker = GitMaker(git, 10)
    for _ in range(STEPS):
        maker.step()


def check_kills(report, place):
    """The Mercurial repository isn't there before."""
    master, copy = os.path.join(place, 'master'), os.path.join(place, 'run')
    make_git(os.path.join(master, 'git'))
    seconds, wanted = min((moved_anew(master, copy) for _ in range(2)), key=lambda run: run[0])
    numbers, wrong, lost, early, looked = random.Random(3), [], [], 0, 0
    for _ in range(KILLS // 4):
        moment = numbers.uniform(seconds / 3, seconds)
        copy_anew(master, copy)
        early += kill_at(copy, moment)
        if os.path.isdir(os.path.join(copy, 'hg')):
            looked += 1
            lost += [(moment, words) for words in damage(copy)]
        _, got = seconds_and_words(copy)
        wrong += [] if got == wanted else [(moment, {key: (got[key], wanted[key]) for key in got if got[key] != wanted[key]})]
    report.check(f'{KILLS // 4} first moves are killed: the next one ends as an unkilled one', wrong, [])
    report.check('and hg verify and git fsck find nothing wrong before', lost, [])
    report.verdict('some were killed at work, some with a repository there', early > KILLS // 16 and looked > 0, f'{early} at work, {looked} with one')


def copy_anew(master, copy):
    shutil.rmtree(copy, ignore_errors=True)
    shutil.copytree(master, copy)


def moved_anew(master, copy):
    copy_anew(master, copy)
    return seconds_and_words(copy)


def seconds_and_words(place):
    """How long a move takes, and what both sides say behind it."""
    hg, git = os.path.join(place, 'hg'), os.path.join(place, 'git')
    start = time.monotonic()
    answer = sync(hg, git)
    seconds = time.monotonic() - start
    return seconds, {'status': (answer.status, answer.errors), 'refs': git_refs(git), 'names': hg_names(hg), 'nodes': hg_nodes(hg), 'phases': hg_phases(hg),
                     'pairs': pairs(git), 'disagreements': disagreements(hg, git), 'sound': verified(hg), 'left over': left_over(git),
                     'in the way': os.path.exists(os.path.join(hg, APART))}
