"""Hg-Git (the Debian package mercurial-git), beside which benchmarks measure the program where it is there."""
import os
import subprocess
import time

SETTINGS = dict(HGRCPATH='', HGPLAIN='1', GIT_CONFIG_NOSYSTEM='1', GIT_CONFIG_GLOBAL='/dev/null')
ENVIRONMENT = dict(os.environ, **SETTINGS)
HG = ['hg', '--config', 'extensions.hggit=']


def is_there():
    """Says so where it isn't."""
    found = subprocess.run([*HG, 'help', 'gexport'], env=ENVIRONMENT, capture_output=True).returncode == 0
    if not found:
        print('skipped  the comparison with Hg-Git: it is not installed', flush=True)
    return found


def run(words, folder):
    """A command of hg with it; it must end with status 0."""
    subprocess.run([*HG, *words], cwd=folder, env=ENVIRONMENT, check=True, capture_output=True)


def seconds_of(words, folder):
    start = time.perf_counter()
    run(words, folder)
    return time.perf_counter() - start
