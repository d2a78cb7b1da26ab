"""Hg is fed with a bundle while the program writes it: whichever of the programs fails, Mercurial has all of it behind the saved state, or nothing."""
import os
import subprocess
import tempfile

import sync_objects
from both import run, said
from made_bundle import write_bundle
from repositories import Fault, Mercurial
from slot import Refused, Slot

COUNT, FILES = 300, 7
PARTS = 'head -c 20000 bundle; sleep 0.2; tail -c +20001 bundle'  # what the program writes, in two parts
SAVES = 'sleep 0.2; [ -s hg/.hg/store/00changelog.i ] && touch early; touch saved'


def check(report):
    with tempfile.TemporaryDirectory() as folder:
        write_bundle(COUNT, os.path.join(folder, 'bundle'), os.path.join(folder, 'texts'), FILES)
        os.environ['HGGIT'], program = os.path.join(folder, 'program'), os.environ['HGGIT']
        try:
            for part in (ends_well, program_fails, refuses, is_cut, hg_refuses, cannot_read, hg_is_killed, git_fails):
                place = os.path.join(folder, part.__name__)
                os.mkdir(place)
                os.link(os.path.join(folder, 'bundle'), os.path.join(place, 'bundle'))
                said(['hg', 'init', os.path.join(place, 'hg')])
                part(report, place)
        finally:
            os.environ['HGGIT'] = program


def fed(place, words, meanwhile=lambda mercurial: None, source=None):
    """Feeds hg from a program that does these words of a shell; gives the fault, as its kind and words."""
    mercurial = Mercurial(os.path.join(place, 'hg'))
    meanwhile(mercurial)
    fault = fed_once(place, mercurial, words, source)
    mercurial.close()
    return fault


def write_program(words):
    with open(os.environ['HGGIT'], 'w') as file:
        file.write('#!/bin/sh\n' + words + '\n')
    os.chmod(file.name, 0o755)


def fed_once(place, mercurial, words, source=None):
    write_program(words)
    path = os.path.join(place, 'new.hg')
    with open(path, 'wb') as target:
        pull = Slot(place).start('pull-git', None, target, source)
    try:
        sync_objects.unbundle(mercurial, Slot(place), pull, path)
    except Fault as fault:
        return type(fault), str(fault)
    return None


def has(place):
    """What Mercurial has, what is wrong there, and whether the program was done, and not too late."""
    hg = os.path.join(place, 'hg')
    number = said(['hg', '-R', hg, 'log', '-r', 'tip', '-T', '{rev}'])
    answer = run(['hg', '-R', hg, 'verify', '-q'])
    return number, (answer.status, answer.output), [name for name in ('saved', 'early') if os.path.exists(os.path.join(place, name))]


ALL, NOTHING, SOUND = str(COUNT - 1), '-1', (0, '')


def ends_well(report, place):
    os.makedirs(os.path.join(place, 'work'))
    report.check('a bundle is fed', fed(place, f'{PARTS}; {SAVES}'), None)
    report.check('Mercurial has all of it, and had nothing before the state', has(place), (ALL, SOUND, ['saved']))


def program_fails(report, place):
    fault = fed(place, f'{PARTS}; echo no room >&2; exit 3')
    report.check('the program fails behind its output', fault, (Fault, 'hggit pull-git ended with status 3: no room'))
    report.check('Mercurial has nothing', has(place), (NOTHING, SOUND, []))
    report.check('the program fails in its output', fed(place, 'head -c 20000 bundle; exit 3')[0], Fault)
    report.check('Mercurial still has nothing', has(place), (NOTHING, SOUND, []))


def refuses(report, place):
    report.check('the program refuses', fed(place, 'echo refused PathUnfit 1 2 >&2; exit 1'), (Refused, 'refused PathUnfit 1 2'))
    report.check('Mercurial has nothing of it', has(place), (NOTHING, SOUND, []))


def is_cut(report, place):
    report.check('the output is cut', fed(place, f'head -c 20000 bundle; {SAVES}'), (Fault, 'the program wrote a bundle that is cut short'))
    report.check('Mercurial takes no part of it', has(place), (NOTHING, SOUND, ['saved']))


def hg_refuses(report, place):
    """And is asked again in the same run, as a push of several branches does."""
    os.makedirs(os.path.join(place, 'work'))
    with open(os.path.join(place, 'hg', '.hg', 'hgrc'), 'w') as file:
        file.write('[hooks]\nprechangegroup = test -e allowed\n')
    mercurial = Mercurial(os.path.join(place, 'hg'))
    fault = fed_once(place, mercurial, f'{PARTS}; {SAVES}')
    report.verdict('a hook of Mercurial refuses', fault[0] is Fault and 'prechangegroup' in fault[1], repr(fault))
    with open(os.path.join(place, 'hg', 'allowed'), 'w'):
        report.check('and then it doesn\'t', fed_once(place, mercurial, f'{PARTS}; {SAVES}'), None)
    mercurial.close()
    report.check('Mercurial has all of the second one', has(place)[:2], (ALL, SOUND))


def cannot_read(report, place):
    """Where hg is another program in front of the one that does it, that has no such file."""
    os.makedirs(os.path.join(place, 'work'))

    def is_elsewhere(mercurial):
        mercurial.__class__ = type('Elsewhere', (Mercurial,), {'fed': '/dev/fd/999'})

    report.check('hg can\'t read what it is fed with', fed(place, f'{PARTS}; {SAVES}', is_elsewhere), None)
    report.check('and has it as a file', has(place), (ALL, SOUND, ['saved']))


def hg_is_killed(report, place):
    with open(os.path.join(place, 'hg', '.hg', 'hgrc'), 'w') as file:
        file.write('[hooks]\nprechangegroup = kill -9 $PPID\n')
    report.check('hg is killed', fed(place, f'{PARTS}; {SAVES}'), (Fault, 'hg unbundle ended before its answer'))
    run(['hg', '-R', os.path.join(place, 'hg'), 'recover', '-q'])
    report.check('Mercurial has nothing, and the program ends well', has(place), (NOTHING, SOUND, ['saved']))


def git_fails(report, place):
    """Git writes what the program reads, and its fault counts first."""
    for name, words, wanted in (('fails', 'echo gone >&2; exit 128', 'git cat-file: gone'), ('is read no more', 'kill -PIPE $$', 'refused Missing 1 2')):
        writer = subprocess.Popen(['sh', '-c', words], stdin=subprocess.DEVNULL, stdout=subprocess.PIPE, stderr=subprocess.PIPE)
        report.check(f'a Git that {name}', fed(place, 'sleep 0.2; echo refused Missing 1 2 >&2; exit 1', source=writer)[1], wanted)
    writer = subprocess.Popen(['sh', '-c', 'echo gone >&2; exit 128'], stdin=subprocess.DEVNULL, stdout=subprocess.PIPE, stderr=subprocess.PIPE)
    report.check('a Git that fails where the program doesn\'t', fed(place, f'{PARTS}; {SAVES}', source=writer), (Fault, 'git cat-file: gone'))
    report.check('gives Mercurial nothing', has(place), (NOTHING, SOUND, ['saved']))
