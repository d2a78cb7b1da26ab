"""Random streams: commits with their trees and blobs, in any order."""
from formats import git as streams
from inputs import Refused
from made_members import Asked, Members
from members import Commit, tree_objects
from pulls import add_block, block_of_commit
from small_histories import id_of
from wide_trees import wide_texts

TAG = b'object %s\ntype commit\ntag v1\ntagger Ann <ann@x> 0 +0000\n\nfirst\n'
MISSING = b'1' * 40 + b' missing\n'


class Stream(Members):
    """The commits that come."""

    def add_next(self):
        what = self.random.randrange(7) if self.is_special() else None
        merges = [commit for commit in self.came if len(commit.parents) == 2]
        if merges and self.random.randrange(40) == 0:
            merge = self.random.choice(merges)
            self.add(merge._replace(parents=merge.parents[::-1]))
        elif what is None or what >= 5 and len(self.history.commits) < 3:
            self.add(self.commit())
        elif what < 3:
            self.add(self.nested(Commit))
        elif what < 5:
            self.add(self.forged_commit())
        elif what == 5:
            self.add(self.commit_of_link())
        else:
            self.add(self.commit(least=3))

    def add(self, commit):
        """The commit comes where it has a block, and seldom where it has none."""
        if commit is not None and commit not in self.came and (self.has_block(commit) or self.random.randrange(3) == 0):
            self.came.append(commit)

    def has_block(self, commit):
        try:
            block = block_of_commit(self.history, commit, Asked())
            add_block(self.history, block, Asked())
        except Refused:
            return False
        self.keep(block.changeset)
        return True

    # ---- as bytes

    def write(self):
        objects = {}
        for commit in self.came:
            objects.update({object.id: (object.kind, object.content) for object in tree_objects(commit.rows)})
            objects[commit.id()] = b'commit', commit.content()
        objects = list(objects.values())
        if objects and self.is_odd() and self.is_odd():
            objects.pop(self.random.randrange(len(objects)))
        if self.came and self.is_odd():
            objects += [(b'blob', b'nothing names this'), (b'tree', b''), (b'tag', TAG % self.came[0].id())]
        if self.random.randrange(2):
            self.random.shuffle(objects)
        objects += self.some_of(objects, 2) if self.is_odd() else []
        end = MISSING if self.is_odd() and self.random.randrange(16) == 0 else b''
        return b''.join(streams.stream_object(kind, content) for kind, content in objects) + end


def wide_stream(levels):
    """A commit of few objects whose tree has two to the power of so many files."""
    texts = wide_texts(levels)
    content = streams.commit_content(id_of(texts[-1]), [], b'Ann <ann@x> 0 +0000', b'no LF at the end')
    return b''.join(texts) + streams.stream_object(b'commit', content)
