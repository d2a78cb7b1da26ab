"""The real hg and git, with settings of their own, and nothing of the repository in whose hook the tests may run."""
import os
import shutil
import subprocess

from repositories import is_of_one_repository

HISTORY = os.path.join(os.path.dirname(os.path.abspath(__file__)), 'history.py')
ENVIRONMENT = dict(
    {name: value for name, value in os.environ.items() if not is_of_one_repository(name)},
    HGRCPATH='', HGPLAIN='1', PYTHONDONTWRITEBYTECODE='1', TZ='UTC', LC_ALL='C.UTF-8', LANGUAGE='',
    GIT_CONFIG_NOSYSTEM='1', GIT_CONFIG_GLOBAL='/dev/null',
    GIT_AUTHOR_NAME='Ann', GIT_AUTHOR_EMAIL='ann@x', GIT_AUTHOR_DATE='@0 +0000',
    GIT_COMMITTER_NAME='Ann', GIT_COMMITTER_EMAIL='ann@x', GIT_COMMITTER_DATE='@0 +0000')


def is_there(tool, package):
    """The tool can be run; where it is missing and may be installed, it is installed first."""
    if shutil.which(tool) is None and os.geteuid() == 0 and shutil.which('apt-get'):
        install(package)
    return shutil.which(tool) is not None


def install(package):
    """Says what apt-get says where it fails."""
    for words in (['apt-get', 'update'], ['apt-get', 'install', '-y', '--no-install-recommends', package]):
        run = subprocess.run(words, env=dict(os.environ, DEBIAN_FRONTEND='noninteractive'), stdin=subprocess.DEVNULL, capture_output=True)
        if run.returncode:
            print(f'{" ".join(words)} ended with {run.returncode}: {run.stderr.decode(errors="replace").strip()}', flush=True)


def output_of(words, folder, data=b''):
    """What a command prints; it must end with status 0."""
    run = subprocess.run(words, cwd=folder, env=ENVIRONMENT, input=data, capture_output=True)
    if run.returncode:
        raise RuntimeError(f'{words} ended with {run.returncode}: {run.stderr.decode(errors="replace")}')
    return run.stdout


def hg(folder, *words):
    return output_of(['hg', '--config', f'extensions.history={HISTORY}', *words], folder)


def git(folder, *words, data=b''):
    return output_of(['git', *words], folder, data)


def read(folder, name):
    with open(os.path.join(folder, name), 'rb') as file:
        return file.read()


def write(folder, name, data):
    with open(os.path.join(folder, name), 'wb') as file:
        file.write(data)
