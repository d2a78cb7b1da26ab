"""Folders that can't be written, and full disks: the slot fails, and holds what it held."""
import contextlib
import os
import subprocess
import tempfile

from examples import example
from saved import NEW_STATE, STATE, Answer, Saved
from small_histories import second_changeset

SLOT_FAULT = b'slot fault\n'
DISK = 64 << 10


def check(report, program):
    bundle = example('one-changeset.hg')
    more = second_changeset()
    check_folder_in_the_way(report, program, bundle, more)
    check_no_file(report, program, bundle)
    check_read_only(report, program, bundle, more)
    check_full_disk(report, program, bundle, more)


def check_folder_in_the_way(report, program, bundle, more):
    """Where the new file can't be made, as root too."""
    with tempfile.TemporaryDirectory() as folder:
        saved = Saved(program, folder)
        saved.output_of('pull-hg', bundle)
        text = saved.text
        wanted = wanted_output(program, bundle, more)
        os.mkdir(os.path.join(folder, NEW_STATE))
        report.check('the new file can not be made', saved.run('pull-hg', more), Answer(5, wanted, SLOT_FAULT))
        report.check('the old state is there', saved.text, text)
        os.rmdir(os.path.join(folder, NEW_STATE))
        report.check('the same again', saved.run('pull-hg', more), Answer(0, wanted, b''))


def check_no_file(report, program, bundle):
    """Where the state is no plain file."""
    with tempfile.TemporaryDirectory() as folder:
        os.mkdir(os.path.join(folder, STATE))
        report.check('the state is a folder', Saved(program, folder).run('pull-hg', bundle), Answer(5, b'', SLOT_FAULT))


def check_read_only(report, program, bundle, more):
    with tempfile.TemporaryDirectory() as folder:
        saved = Saved(program, folder)
        saved.output_of('pull-hg', bundle)
        text = saved.text
        with read_only(folder) as can:
            if not can:
                report.skipped('a read-only folder', 'root may write it, and nothing can be mounted')
                return
            answer = saved.run('pull-hg', more)
            report.check('a read-only folder', (answer.status, answer.errors), (5, SLOT_FAULT))
            report.check('a dump from it', saved.run('dump-hg'), Answer(0, bundle, b''))
        report.check('the old state is there behind it', saved.text, text)


def check_full_disk(report, program, bundle, more):
    with tempfile.TemporaryDirectory() as folder, small_disk(folder) as can:
        if not can:
            report.skipped('a full disk', 'nothing can be mounted')
            return
        saved = Saved(program, folder)
        saved.output_of('pull-hg', bundle)
        text = saved.text
        fill(folder)
        answer = saved.run('pull-hg', more)
        report.check('a full disk', (answer.status, answer.errors), (5, SLOT_FAULT))
        report.check('the old state is there on it', saved.text, text)
        os.remove(os.path.join(folder, 'filling'))
        report.check('with room again', saved.run('pull-hg', more).status, 0)


def wanted_output(program, bundle, more):
    with tempfile.TemporaryDirectory() as folder:
        saved = Saved(program, folder)
        saved.output_of('pull-hg', bundle)
        return saved.output_of('pull-hg', more)


def fill(folder):
    with contextlib.suppress(OSError), open(os.path.join(folder, 'filling'), 'wb', buffering=0) as file:
        while True:
            file.write(bytes(512))


@contextlib.contextmanager
def mounted(folder, *words):
    """Whether these words of `mount` could be carried out for the folder."""
    can = os.geteuid() == 0 and subprocess.run(['mount', *words, folder], capture_output=True).returncode == 0
    try:
        yield can
    finally:
        if can:
            subprocess.run(['umount', folder], capture_output=True)


def small_disk(folder):
    return mounted(folder, '-t', 'tmpfs', '-o', f'size={DISK}', 'tmpfs')


@contextlib.contextmanager
def read_only(folder):
    """A folder in which nobody can write: root by a mount, others by its mode."""
    if os.geteuid() == 0:
        with mounted(folder, '--bind', folder) as can:
            yield can and subprocess.run(['mount', '-o', 'remount,bind,ro', folder], capture_output=True).returncode == 0
    else:
        os.chmod(folder, 0o555)
        try:
            yield True
        finally:
            os.chmod(folder, 0o755)
