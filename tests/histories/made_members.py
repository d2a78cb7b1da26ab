"""Random changesets and commits over a history: plain ones, ones of which the plain rules would lose something, and forged ones. The rules
themselves help to make them."""
from formats.hg import NULL, node_id
from inputs import NO_ID, Refused
from marks import NULL_MANIFEST, ChangesetMarks, CommitMarks, File, Rename, extras_of, headers_of
from members import (EMPTY_TREE, EXECUTABLE, FILE, GITLINK, GROUP, MODE_OF_FLAG, SYMLINK, TREE, Changeset, Commit, FileRow, Item, Revision,
                     TreeRow, file_of_tree, has_clash)
from partners import History
from rules import files_given, links_of, manifest_given, mark_changeset, mark_commit, parent_at, revision_given
from texts import MARKER, Plain, Raw, copy_metadata, in_order

PATHS = [b'a', b'b', b'a.b', b'a0', b'd/c', b'd/e/f', b'd.x', b'd0', b'lib/x', b'x y', b'100%', b'caf\xc3\xa9', b'd', b'lib', b'd/e']
BODIES = [b'hello\n', b'1\n', b'2\n', b'3\n', b'no end', b'', MARKER + b'x', MARKER + MARKER + b'y', b'\x01']
USERS = [b'Ann <ann@x>', b'bob', b'carl@x', b'Zo\xc3\xab <zoe@x>', b'two words']
ODD_USERS = [b'd<e>f', b'<>', b'<e@x>', b'Ann <none@none>', b'A@b <none@none>', b'none@none', b'Ann <ann@x', b' <a>', b'x@y <x@y>', b'x ',
             b'N  <e>', b' ']
ZONES = [0, 3600, -19800, 43200]
ODD_ZONES = [90, -1, 359940, 360000, 1 << 31, -(1 << 31)]
ODD_TIMES = [-1, 1 << 62, -(1 << 62)]
RAW_LINES = [b'', b'yesterday', b'0', b'00 0', b'0 0 ', b'0 0 b:1\0a:2', b'0 -0', b'0 0 noColon', b'0 0 k:a\\x', b'%d 0' % ((1 << 62) + 1)]
EXTRAS = [(b'branch', b'stable'), (b'close', b'1'), (b'note', b'a:b\nc\\d\0e'), (b'\x01', b''), (b'!', b'%'), (b'hg-git', b'x'), (b'hg-git-x', b'')]
DESCRIPTIONS = [b'one', b'two\n\nlines', b'', b'end\n', b'\n', b'\xff\0']
NAMES = [b'Ann <ann@x>', b'bob <none@none>', b'carl@x <carl@x>', b'Z <>']
ODD_LINES = [b' <ann@x> 0 +0000', b'Ann <ann@x> 0 -0000', b'Ann <ann@x> 0 +0060', b'Ann <ann@x> 7 +9999', b'Ann', b'', b'a<b>c 0 +0000',
             b'Ann <none@none> 1 +0000', b'A@b <none@none> 0 +0000', b' <> 0 +0000', b'Ann <ann@x> 00 +0000', b'Ann <ann@x> %d +0000' % (1 << 62),
             b'Ann <ann@x> %d +0000' % ((1 << 62) + 1), b'A <a> <b> 0 +0000', b'none@none <none@none> 0 +0100']
ODD_HEADERS = [b'gpgsig -----BEGIN\n \n iQ\n -----END\n', b'encoding latin1\n', b'HG:x\n', b'HG:user Ann%2a\n', b'HG:files 1\n', b'parent x\n',
               b' \n']
MESSAGES = [b'one\n', b'two\n\nlines\n', b'\n', b'end\n\n']
ODD_MESSAGES = [b'', b'one', b'\xff\0']
ODD_METADATA = [b'', b'x: y\n', b'copy: a\n', b'copy: a\ncopyrev: ' + b'1' * 40 + b'\n', b'\x01', b'no end', b'x: y\ncopy: b\n']
OTHER_NODE = b'\x11' * 20
MOST_MEMBERS = 8
MOST_SPECIAL = 0.6
ODD = 0.3


class Asked:
    """A member that didn't come in an input."""

    def refused(self, name):
        return Refused(name, NO_ID, 0)


class Members:
    """Members that come in an input, over a history. Each choice is odd with the same probability, where 0 makes plain members alone."""

    def __init__(self, random, oddness):
        self.random = random
        self.oddness = oddness
        self.history = History()
        self.came = []
        self.revisions, self.manifests = {}, {NULL: None}
        for _ in range(random.randint(1, MOST_MEMBERS)):
            self.add_next()

    def is_odd(self):
        return self.random.random() < self.oddness

    def is_special(self):
        """The next member has marks, or has the form of a link or links."""
        return self.random.random() < min(MOST_SPECIAL, 3 * self.oddness)

    def one_of(self, usual, odd):
        return self.random.choice(odd if self.is_odd() else usual)

    def some_of(self, values, most):
        return self.random.sample(values, self.random.randint(0, min(most, len(values))))

    # ---- changesets

    def changeset(self):
        parents = self.parents_among(list(self.history.changesets))
        views = [parent_at(self.history, node) for node in parents]
        rows = self.file_rows(views)
        date = Plain(*self.numbers(), self.extras()) if not self.is_odd() else Raw(self.random.choice(RAW_LINES))
        manifest = self.manifest(rows, views)
        files = files_given(rows, views)
        return Changeset((*parents, NULL, NULL)[:2], self.one_of(USERS, ODD_USERS), date, self.other_files(files) if self.is_odd() else files,
                         self.random.choice(DESCRIPTIONS), manifest, rows)

    def keep(self, changeset):
        """Remembers the revisions of a changeset, so that others can have them as parents."""
        for row in changeset.rows:
            self.revisions[row.path, row.revision.node()] = row.revision
        if changeset.manifest is not None:
            self.manifests[changeset.manifest_node()] = (*changeset.manifest, changeset.manifest_text())

    def parents_among(self, members):
        """Two at most, of the last members."""
        count = self.random.choice([0] + [1] * 8 + [2] * 4)
        return self.random.sample(members[-4:], min(count, len(members[-4:])))

    def file_rows(self, parents):
        files = {}
        for parent in reversed(parents):
            files.update({row.path: (row.flag, row.revision.body) for row in parent.rows if not self.random.randrange(8) == 0})
        self.edit(files, list(MODE_OF_FLAG))
        rows = [FileRow(path, flag, revision_given(path, body, parents)) for path, (flag, body) in sorted(files.items())]
        return tuple(row._replace(revision=self.other_revision(row, parents)) if self.is_odd() else row for row in rows)

    def edit(self, files, kinds):
        """Adds, changes and removes some files, which are pairs of a flag or a mode and a body."""
        for path in self.some_of(PATHS, 3):
            if path not in files and has_clash({*files, path}) and not self.is_odd():
                continue
            kind = self.random.choice([kinds[0], kinds[0], *kinds])
            files[path] = kind, self.random.choice([body for _, body in files.values()] + BODIES)
        for path in self.some_of(sorted(files), 1):
            if self.random.randrange(3) == 0:
                del files[path]

    def other_revision(self, row, parents):
        """A revision with the same body that may have other parents and other metadata."""
        metadata = self.random.choice([row.revision.metadata, self.copy(parents), self.copy(parents), self.random.choice(ODD_METADATA)])
        if metadata is None and row.revision.body.startswith(MARKER):
            metadata = b''
        p, q = (NULL, NULL) if self.random.randrange(2) else (self.file_node(row.path, parents), self.file_node(row.path, parents))
        return Revision(*in_order(p, q, metadata), metadata, row.revision.body)

    def copy(self, parents):
        """Metadata of a copy of a path that a parent has, mostly with its node; or none."""
        paths = [row.path for parent in parents for row in parent.rows]
        if not paths:
            return None
        path = self.random.choice(paths)
        node = self.file_node(path, parents)
        return copy_metadata(path, node) if node != NULL else None

    def file_node(self, path, parents):
        """A node of a file in a parent, or of any revision of it that was made, or null; and seldom that of a revision that no changeset has."""
        near = [revision.node() for revision in (parent.revision_at(path) for parent in parents) if revision]
        far = [node for other, node in self.revisions if other == path]
        if self.is_odd() and self.is_odd():
            spare = Revision(NULL, NULL, None, b'spare')
            self.revisions[path, spare.node()] = spare
            return spare.node()
        return self.random.choice(self.random.choice([near, near, far, []]) or [NULL])

    def manifest(self, rows, parents):
        if not self.is_odd():
            return manifest_given(rows, parents)
        if not rows and self.random.randrange(2):
            return None
        return in_order(self.manifest_parent(), self.manifest_parent())

    def manifest_parent(self):
        if self.is_odd() and self.is_odd():
            spare = in_order(NULL, self.random.choice(list(self.manifests)))
            node = node_id(*spare, b'')
            self.manifests[node] = (*spare, b'')
            return node
        return self.random.choice(list(self.manifests))

    def other_files(self, files):
        files = [*files, *self.some_of(PATHS + [b'no such', b'a'], 2)]
        self.random.shuffle(files)
        return tuple(files[:self.random.randint(0, len(files))])

    def numbers(self):
        return self.one_of([0, 1, 1700000000], ODD_TIMES), self.one_of(ZONES, ODD_ZONES)

    def extras(self):
        return tuple(sorted(self.some_of(EXTRAS, 2))) if self.is_odd() else ()

    # ---- commits

    def commit(self, least=0):
        """A commit, where a least number of parents is wanted with so many."""
        commits = list(self.history.commits)
        parents = self.random.sample(commits, self.random.randint(least, min(least + 2, len(commits)))) if least else self.parents_among(commits)
        rows = self.tree_rows([self.history.commits[parent] for parent in parents])
        author = self.one_of([self.plain_line()], ODD_LINES)
        committer = self.one_of([author], [self.plain_line(), *ODD_LINES])
        headers = self.one_of([b''], ODD_HEADERS) + (self.random.choice(ODD_HEADERS) if self.is_odd() else b'')
        return Commit(tuple(parents), author, committer, headers, self.one_of(MESSAGES, ODD_MESSAGES), rows)

    def plain_line(self):
        return self.random.choice(NAMES) + b' %d ' % self.random.choice([0, 5, 1700000000]) + self.random.choice([b'+0000', b'-0100', b'+0530'])

    def tree_rows(self, parents):
        """Rows of the parents, changed; where a file takes the place of what is no file, that is gone."""
        files, rest = {}, {}
        for parent in reversed(parents):
            files.update({row.path: (row.mode, row.content) for row in parent.files() if not self.random.randrange(8) == 0})
        if parents:
            rest = {row.path: row for row in parents[0].rows if row.content is None and not self.is_odd()}
        modes = [FILE, EXECUTABLE, SYMLINK] + ([GROUP, GROUP] if self.is_odd() else [])
        self.edit(files, modes)
        for path in self.some_of(PATHS, 2) if self.is_odd() else []:
            rest[path] = self.random.choice([TreeRow(path, GITLINK, b'2' * 40), TreeRow(path, TREE, EMPTY_TREE)])
        rows = {}
        for path in [*sorted(files), *sorted(rest)]:
            if path not in rows and not has_clash({*rows, path}):
                rows[path] = rest[path] if path not in files else file_of_tree(path, *files[path])
        return tuple(rows[path] for path in sorted(rows))

    # ---- marks

    def made_with(self, oddness, make):
        """What is made where each choice is odd with this probability."""
        kept, self.oddness = self.oddness, oddness
        member = make()
        self.oddness = kept
        return member

    def nested(self, side):
        """A member of that side that is the marked one of a marked one and so on of another, and seldom not quite."""
        member = self.made_with(ODD, self.random.choice([self.changeset, self.commit]))
        times = self.random.choice([1, 1, 1, 2, 3, 4, self.random.randint(5, 14), self.random.randint(14, 18)])
        while member is not None and (times > 0 or not isinstance(member, side)):
            member = mark_commit(self.history, member) if isinstance(member, Changeset) else mark_changeset(self.history, member)
            times -= 1
        if member is None or self.random.randrange(4):
            return member
        return self.changed_changeset(member) if side == Changeset else self.changed_commit(member)

    def commit_of_link(self):
        """A commit that says of itself that it is the marked one of a link."""
        return mark_commit(self.history, links_of(self.history, self.commit(least=3))[0])

    def changed_changeset(self, changeset):
        other = self.changeset()
        extras = self.spoilt_extras(changeset.extras())
        return changeset._replace(**self.random.choice([
            {'user': other.user}, {'files': self.other_files(changeset.files)}, {'description': other.description}, {'date': other.date},
            {'date': Plain(*self.numbers(), changeset.extras())}, {'date': Plain(0, 0, extras)}]))

    def changed_commit(self, commit):
        other = self.commit()
        return commit._replace(**self.random.choice([
            {'author': other.author}, {'committer': other.committer}, {'message': other.message}, {'rows': other.rows},
            {'headers': self.spoilt(commit.headers)}, {'headers': commit.headers + self.random.choice(ODD_HEADERS)}]))

    def forged_changeset(self):
        """A changeset with extras that say something of a commit, true or not."""
        changeset = self.made_with(self.random.choice([0, self.oddness]), self.changeset)
        marks = ChangesetMarks(*self.few_of([
            self.random.choice([*ODD_LINES, self.plain_line(), b'a\nb']), self.random.choice([*ODD_LINES, self.plain_line(), b'a\nb']),
            self.random.choice([*ODD_HEADERS, b'x', b'\n', b'']), self.random.choice(MESSAGES + ODD_MESSAGES),
            self.random.choice([2, 3, 64, 65]), self.items(changeset)]))
        number, tz = changeset.date[:2] if isinstance(changeset.date, Plain) else (0, 0)
        extras = extras_of(marks) + (self.extras() if self.random.randrange(4) == 0 else ())
        return changeset._replace(date=Plain(number, tz, tuple(sorted(extras if self.random.randrange(4) else self.spoilt_extras(extras)))))

    def few_of(self, parts):
        """The same with None in place of most."""
        kept = self.random.sample(range(len(parts)), self.random.choice([1, 1, 1, 2, 3]))
        return [part if place in kept else None for place, part in enumerate(parts)]

    def spoilt_extras(self, extras):
        extras = list(extras)
        if extras:
            place = self.random.randrange(len(extras))
            extras[place] = extras[place][0], self.spoilt(extras[place][1])
        return tuple(extras)

    def items(self, changeset):
        """Items of a residue, of which most fit."""
        paths = set(self.some_of([*changeset.paths(), *PATHS, b'a//b', b'.git', b''], 3))
        return tuple(Item(path, *self.random.choice([(b'group',), (b'link', b'2' * 40), (b'empty',)])) for path in sorted(paths))

    def forged_commit(self):
        """A commit with headers that say something of a changeset, true or not."""
        commit = self.made_with(self.random.choice([0, self.oddness]), self.commit)
        p, q = self.manifest_parent(), self.manifest_parent()
        revisions, *others, extras = self.few_of([
            self.revision_marks(commit), self.random.choice([NULL_MANIFEST, (p, NULL), (p, q), in_order(p, q), in_order(OTHER_NODE, q)]),
            self.other_files(()), self.random.choice(USERS + ODD_USERS + [b'', b'a\nb']), self.numbers(),
            self.random.choice(RAW_LINES + [b'0 0', b'a\nb']), tuple(sorted(self.some_of(EXTRAS + [(b'', b'x'), (b'a:b', b'')], 2)))])
        headers = headers_of(CommitMarks(revisions or (), *others, extras or ()))
        return commit._replace(headers=headers if self.random.randrange(4) else self.spoilt(headers))

    def revision_marks(self, commit):
        """Marks of some files of a commit and perhaps of one that it doesn't have."""
        parents = [parent_at(self.history, self.history.changeset_of[parent]) for parent in commit.parents]
        paths = self.some_of([row.path for row in commit.files()] + ([b'no such'] if self.is_odd() else []), 2)
        return tuple((path, self.revision_mark(path, parents)) for path in sorted(paths))

    def revision_mark(self, path, parents):
        if self.random.randrange(3) == 0:
            return Rename(self.random.choice([row.path for parent in parents for row in parent.rows] + [b'no such', b'']))
        p, q = [self.random.choice([NULL, self.file_node(path, parents), OTHER_NODE]) for _ in range(2)]
        metadata = self.random.choice([None, self.copy(parents), *ODD_METADATA, MARKER])
        return File(*self.random.choice([(p, q), in_order(p, q, metadata)]), metadata)

    def spoilt(self, text):
        """The text without one of its lines, with one twice, or with a byte that is another one; lines keep their ends."""
        lines = text.splitlines(True)
        place = self.random.randrange(len(lines)) if lines else 0
        what = self.random.randrange(3)
        if what < 2 and len(lines) > 1:
            return b''.join(lines[:place] + lines[place + 1:] if what else lines[:place + 1] + lines[place:])
        at = self.random.randrange(len(text)) if text else 0
        return text[:at] + self.random.choice([b'x', b'%', b' ', b'A']) + text[at + 1:] if text[at:at + 1] not in (b'', b'\n') else text
