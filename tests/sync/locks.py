"""Locks that a killed Git leaves: the next run takes them away where a note says that they are a killed run's, and no others."""
import os
import signal
import subprocess
import tempfile
import time

import slot
from both import TOOLS, disagreements, git_folder, peeled_refs, run, said, sync, tool
from cloning import git_commit, hg_commit
from errors import ends, pair

KILLS = 'kill -9 0'  # the shell's whole group
TRIGGER = 'kill-here'


def check(report):
    with tempfile.TemporaryDirectory() as folder:
        for number, part in enumerate((refs, places, head, checked_out, linked, cut_files, settings, without_note, of_others, at_work)):
            place = os.path.realpath(os.path.join(folder, f'{number} {part.__name__}'))
            os.mkdir(place)
            part(report, place)


def killed(report, name, git, words, trigger, wanted):
    """Runs a command in which Git kills it and itself, as long as there is a trigger; says which locks it left."""
    with open(trigger, 'w'):
        pass
    process = subprocess.Popen(words, stdin=subprocess.DEVNULL, stdout=subprocess.DEVNULL, stderr=subprocess.DEVNULL, start_new_session=True)
    report.check(f'{name}: the run is killed', process.wait(), -signal.SIGKILL)
    os.remove(trigger)
    found = locks_below(git)
    report.check(f'{name}: which leaves locks', [lock for lock in wanted if lock not in found], [])


def settled(report, name, hg, git):
    """The next run ends as one before which none was killed."""
    answer = sync(hg, git)
    report.check(f'{name}: the next run ends well', (answer.status, answer.errors), (0, ''))
    report.check(f'{name}: with no lock', locks_below(git), [])
    report.check(f'{name}: and nothing beside the state', left_over(git), [])
    report.check(f'{name}: and both agree', disagreements(hg, git), [])


def locks_below(git):
    folder = git_folder(git)
    found = [os.path.join(place, file) for place, _, files in os.walk(folder) for file in files if file.endswith('.lock') or file == 'packed-refs.new']
    return sorted(os.path.relpath(path, folder) for path in found)


def left_over(git):
    return sorted(set(os.listdir(os.path.join(git_folder(git), 'hggit'))) - {'hggit.state', 'lock', 'names', 'work'})


def sync_words(hg, git):
    return [*tool('hggit-sync'), hg, git]


def write(path, text, mode=0o644):
    os.makedirs(os.path.dirname(path), exist_ok=True)
    with open(path, 'w') as file:
        file.write(text)
    os.chmod(path, mode)


def kill_in_hook(git, folder, pattern):
    """Git calls this hook once it has all locks of a transaction."""
    trigger = os.path.join(folder, TRIGGER)
    words = f'#!/bin/sh\n[ "$1" = prepared ] && [ -e \'{trigger}\' ] && grep -q {pattern} && {KILLS}\nexit 0\n'
    write(os.path.join(git_folder(git), 'hooks', 'reference-transaction'), words, 0o755)
    return trigger


# ---- killed runs

def refs(report, folder):
    """One ref moves, one is made and one goes, which is packed."""
    hg, git = pair(folder)
    said(['hg', 'bookmark', '-i', 'gone'], hg)
    sync(hg, git)
    said(['git', '-C', git, 'symbolic-ref', 'HEAD', 'refs/heads/main'])
    said(['git', '-C', git, 'pack-refs', '--all'])
    said(['hg', 'update', '-q', 'main'], hg)
    hg_commit(hg, 'a', 'later')
    said(['hg', 'bookmark', '-d', 'gone'], hg)
    said(['hg', 'bookmark', '-i', 'made'], hg)
    trigger = kill_in_hook(git, folder, 'refs/heads/')
    wanted = ['HEAD.lock', 'packed-refs.lock', *(f'refs/heads/{name}.lock' for name in ('main', 'made', 'gone'))]
    killed(report, 'refs', git, sync_words(hg, git), trigger, wanted)
    settled(report, 'refs', hg, git)
    report.check('refs: as they shall be', sorted(peeled_refs(git)), ['refs/heads/made', 'refs/heads/main'])


def places(report, folder):
    """Refs of what has no name."""
    hg, git = pair(folder)
    sync(hg, git)
    said(['hg', 'phase', '--public', '-r', 'tip'], hg)
    node = said(['hg', 'log', '-r', 'tip', '-T', '{node}'], hg)
    trigger = kill_in_hook(git, folder, 'refs/hg/')
    killed(report, 'a phase', git, sync_words(hg, git), trigger, [f'refs/hg/phase/0/{node}.lock'])
    settled(report, 'a phase', hg, git)


def head(report, folder):
    """Git locks HEAD, and is killed: a program before it in the path stands for it."""
    hg, git = pair(folder)
    said(['git', 'init', '-q', '--bare', '-b', 'nothing', git])
    trigger = os.path.join(folder, TRIGGER)
    path = kill_before(folder, 'symbolic-ref HEAD ', trigger, os.path.join(git, 'HEAD.lock'))
    killed(report, 'HEAD', git, ['env', f'PATH={path}', *sync_words(hg, git)], trigger, ['HEAD.lock'])
    settled(report, 'HEAD', hg, git)
    report.check('HEAD: names a branch', said(['git', '-C', git, 'symbolic-ref', 'HEAD']), 'refs/heads/main\n')


def kill_before(folder, words, trigger, lock):
    """A path on which a command of Git with these words makes a lock and kills its group."""
    programs = os.path.join(folder, 'programs')
    real = said(['sh', '-c', 'command -v git']).strip()
    words = f'case "$* " in *" {words}"*) [ -e \'{trigger}\' ] && : > \'{lock}\' && {KILLS};; esac\nexec {real} "$@"\n'
    write(os.path.join(programs, 'git'), '#!/bin/sh\n' + words, 0o755)
    return programs + os.pathsep + os.environ['PATH']


def with_work_tree(folder):
    """A work tree in which a filter of the file `b` kills Git and all, while there is a trigger; and a change that moves three files."""
    hg, _ = pair(folder)
    said(['hg', 'update', '-q', 'main'], hg)
    hg_commit(hg, 'b', 'of b')
    work, trigger = os.path.join(folder, 'work'), os.path.join(folder, TRIGGER)
    said(['git', 'init', '-q', '-b', 'main', work])
    sync(hg, work)
    write(os.path.join(work, '.git', 'info', 'attributes'), 'b filter=kills\n')
    said(['git', 'config', 'filter.kills.smudge', f"if [ -e '{trigger}' ]; then {KILLS}; fi; cat"], work)
    for name, text in (('a', 'one, and more of a'), ('b', 'and more of b'), ('aa', 'new')):
        hg_commit(hg, name, text)
    return hg, work, trigger


def files_of(place):
    texts = {}
    for name in sorted(set(os.listdir(place)) - {'.git'}):
        with open(os.path.join(place, name)) as file:
            texts[name] = file.read()
    return texts


MOVED = {'a': 'one, and more of a', 'aa': 'new', 'b': 'and more of b'}


def checked_out(report, folder):
    hg, work, trigger = with_work_tree(folder)
    killed(report, 'files', work, sync_words(hg, work), trigger, ['index.lock'])
    report.verdict('files: some were moved', files_of(work) != MOVED and files_of(work).get('a') == MOVED['a'], repr(files_of(work)))
    settled(report, 'files', hg, work)
    report.check('files: all are moved', (files_of(work), said(['git', 'status', '--porcelain'], work)), (MOVED, ''))


def linked(report, folder):
    """The branch is checked out in a work tree beside the first one."""
    hg, work, trigger = with_work_tree(folder)
    other = os.path.join(folder, 'other')
    said(['git', 'checkout', '-q', '--detach'], work)
    said(['git', 'worktree', 'add', '-q', other, 'main'], work)
    killed(report, 'a linked work tree', work, sync_words(hg, work), trigger, ['worktrees/other/index.lock'])
    settled(report, 'a linked work tree', hg, work)
    report.check('a linked work tree: all is moved', (files_of(other), said(['git', 'status', '--porcelain'], other)), (MOVED, ''))
    hg_commit(hg, 'c', 'third')
    killed(report, 'its ref', work, sync_words(hg, other), kill_in_hook(work, folder, 'refs/heads/main'), ['refs/heads/main.lock'])
    settled(report, 'its ref', hg, work)
    report.check('its ref: all is moved', (files_of(other), said(['git', 'status', '--porcelain'], other)), ({**MOVED, 'c': 'third'}, ''))


def cut_files(report, folder):
    """A file was cut while it was written, and one is the user's by now, which stays."""
    hg, work, trigger = with_work_tree(folder)
    killed(report, 'a cut file', work, sync_words(hg, work), trigger, ['index.lock'])
    write(os.path.join(work, 'a'), MOVED['a'][:3])
    write(os.path.join(work, 'b'), 'mine')
    ends(report, 'a file of the user stays', sync(hg, work), 3, 'is left: ')
    report.check('a file of the user: as it was', files_of(work), {'a': 'one', 'b': 'mine'})
    said(['git', 'checkout', '-q', '--', 'b'], work)
    settled(report, 'a cut file', hg, work)
    report.check('a cut file: all are moved', (files_of(work), said(['git', 'status', '--porcelain'], work)), (MOVED, ''))


def settings(report, folder):
    """Git's helper writes down a path."""
    hg, _ = pair(folder)
    work, trigger = os.path.join(folder, 'work'), os.path.join(folder, TRIGGER)
    said(['git', 'init', '-q', work])
    path = kill_before(folder, 'config hggit.', trigger, os.path.join(work, '.git', 'config.lock'))
    helper = ['sh', '-c', 'cd "$0" && exec "$@"', work, 'env', 'GIT_DIR=.git', f'PATH={path}', *tool('git-remote-hggit'), 'origin', '../hg']
    killed(report, 'settings', work, helper, trigger, ['config.lock'])
    answer = run(['git', '-C', work, 'fetch', '-q', 'hggit::../hg', 'main'], PATH=os.environ['PATH'] + os.pathsep + TOOLS)
    report.check('settings: the next one ends well', (answer.status, answer.errors, locks_below(work), left_over(work)), (0, '', [], []))


# ---- locks of others

def without_note(report, folder):
    hg, git = pair(folder)
    sync(hg, git)
    said(['hg', 'update', '-q', 'main'], hg)
    hg_commit(hg, 'a', 'later')
    lock = os.path.join(git, 'refs', 'heads', 'main.lock')
    write(lock, '')
    answer = run([*tool('hggit-sync'), hg, git], LANGUAGE='de')
    ends(report, 'a lock without a note, in words of one language', answer, 3, 'refs/heads/main is left: fatal: cannot lock ref')
    report.check('stays', locks_below(git), ['refs/heads/main.lock'])
    note = os.path.join(git, 'hggit', slot.NOTE)
    write(note, 'any refs/heads/main.lock\n')
    os.utime(lock, (1, 1))
    ends(report, 'one that is older than the note', sync(hg, git), 3, 'refs/heads/main is left: fatal: cannot lock ref')
    report.check('stays too', locks_below(git), ['refs/heads/main.lock'])
    write(note, f'{"1" * 40} refs/heads/main.lock\n')
    write(lock, '2' * 40 + '\n')
    ends(report, 'one of another id', sync(hg, git), 3, 'refs/heads/main is left: fatal: cannot lock ref')
    report.check('stays as well', locks_below(git), ['refs/heads/main.lock'])
    write(note, f'{"2" * 40} refs/heads/main.lock\n')
    write(lock, '2' * 40 + '\n')
    settled(report, 'one of that id', hg, git)


def of_others(report, folder):
    """While the run looks at a lock, its owner lets it go, or takes it again."""
    lock, note = os.path.join(folder, 'HEAD.lock'), os.path.join(folder, 'hggit', slot.NOTE)

    def written_again():
        write(lock + '.other', '')
        os.rename(lock + '.other', lock)

    for name, meanwhile, wanted in (('goes', lambda: os.remove(lock), []), ('is taken again', written_again, ['HEAD.lock']), ('stays', lambda: None, [])):
        write(note, 'any HEAD.lock\nany packed-refs.lock\n')
        write(lock, '')
        report.check(f'a lock that {name} meanwhile', released(folder, meanwhile), wanted)
        report.check('and the note is done', os.path.exists(note), False)


def released(folder, meanwhile):
    """The locks that are left, where something goes on in the second in which they are looked at."""
    pause, slot.time.sleep = time.sleep, lambda seconds: meanwhile()
    try:
        slot.release(os.path.join(folder, 'hggit'))
    finally:
        slot.time.sleep = pause
    return locks_below(folder)


def at_work(report, folder):
    """Git is at work in a work tree whose index a note names."""
    work = os.path.join(folder, 'work')
    said(['git', 'init', '-q', work])
    git_commit(work, 'a', 'one')
    lock, note = os.path.join(work, '.git', 'index.lock'), os.path.join(work, '.git', 'hggit', slot.NOTE)
    row, = slot.lock_of_index(lock[:-len('.lock')], work).items()
    write(note, f'{row[1].decode()} {row[0].decode()}\n')
    write(lock, '')
    with subprocess.Popen(['git', 'cat-file', '--batch'], cwd=work, stdin=subprocess.PIPE, stdout=subprocess.PIPE) as other:
        other.stdin.write(b'HEAD\n')
        other.stdin.flush()
        other.stdout.readline()
        report.check('a lock of a work tree with Git at work stays', released(os.path.join(work, '.git'), lambda: None), ['index.lock'])
        other.communicate()
    report.check('and goes behind it', released(os.path.join(work, '.git'), lambda: None), [])
