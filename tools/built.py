"""The built programs."""
import os
import subprocess
import sys

from crate_list import PARTS, TOP, crates_of, needed_by


def program_path(name='hggit', argument=1):
    """An argument of the script, or the built program."""
    return os.path.abspath(sys.argv[argument]) if len(sys.argv) > argument else built_program(name)


def built_program(name='hggit'):
    """The program that `make` or `rt ci` built since its sources last changed, or one that is built now."""
    changed = last_change(name)
    built = [os.path.join(TOP, 'build', name), os.path.join(TOP, 'crates', name, 'out', name)]
    for path in built:
        if os.path.isfile(path) and os.path.getmtime(path) > changed:
            return path
    subprocess.run(['make', '-s', '-C', TOP, f'build/{name}'], check=True)
    return built[0]


def last_change(name):
    """When a file changed last of the crates that a program stands on."""
    files = [os.path.join(TOP, 'crates.txt')]
    for crate in needed_by(crates_of(), name):
        for part in PARTS:
            files += files_below(os.path.join(TOP, 'crates', crate, part))
    return max(os.path.getmtime(file) for file in files)


def files_below(folder):
    return [os.path.join(place, file) for place, _, files in os.walk(folder) for file in files]
