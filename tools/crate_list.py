"""The crates of the repository, as crates.txt lists them."""
import os

TOP = os.path.dirname(os.path.dirname(os.path.abspath(__file__)))
PARTS = ('src', 'specs', 'proofs')  # the folders of a crate with its sources


def crates_of(top=TOP):
    """The crates of the repository that each crate stands on, in the order of the list; what the kit brings is left out."""
    with open(os.path.join(top, 'crates.txt')) as file:
        lines = [line.split('#')[0].strip() for line in file]
    below = {}
    for line in filter(None, lines):
        head, _, names = line.partition(':')
        below[head.split()[0]] = names.split()
    return {name: [it for it in names if it in below] for name, names in below.items()}


def needed_by(below, name):
    """A crate and all that it stands on, lower crates first."""
    found = []

    def visit(it):
        for lower in below[it]:
            visit(lower)
        if it not in found:
            found.append(it)

    visit(name)
    return found
