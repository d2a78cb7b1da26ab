"""Trees of few objects that stand for many files: both entries of a tree are one tree below, or in the end one blob."""
from small_histories import blob, id_of, tree

FILE, FOLDER = b'100644', b'40000'
NAMES = [letter + b'n' * 200 for letter in (b'a', b'b')]


def tree_over(first, second):
    """A tree with two entries of one kind."""
    mode = FILE if first.split(b' ', 2)[1] == b'blob' else FOLDER
    return tree(*((mode, name, id_of(below)) for name, below in zip(NAMES, (first, second))))


def wide_texts(levels):
    """An empty blob and the trees over it, the widest last, which has two to the power of the levels files."""
    texts = [blob(b'')]
    for _ in range(levels):
        texts.append(tree_over(texts[-1], texts[-1]))
    return texts


def changed_texts(texts, body):
    """The same with another content of the widest tree's first file: the blob and the trees that are new."""
    changed = [blob(body)]
    for below in texts[:-1]:
        changed.append(tree_over(changed[-1], below))
    return changed
