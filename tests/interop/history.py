"""A Mercurial extension: commits histories of many shapes in one process, and lists all revisions of a repository and all its files."""
import hashlib
import random

from mercurial import context, registrar

cmdtable = {}
command = registrar.command(cmdtable)

ODD_NAMES = [b'a name with blanks', b'100%.txt', b'back\\slash', b'caf\xc3\xa9', b'latin-\xe9', b'~tilde', b'UPPER']
USERS = [b'Ann <ann@x>', b'bob', b'carl@x', b'd<e>f', b'Zo\xc3\xab <zoe@x>']
PLAIN_USERS = [b'Ann <ann@x>', b'bob', b'carl@x', b'Zo\xc3\xab <zoe@x>']
ZONES = [0, 3600, -19800, 43200]
TIPS = 4


class File:
    """A file as a changeset has it."""

    def __init__(self, data, flag=b'', source=None):
        self.data = data
        self.flag = flag
        self.source = source

    def same(self, other):
        return other is not None and (self.data, self.flag) == (other.data, other.flag)


class Tip:
    """A changeset without children, and its files."""

    def __init__(self, node, files):
        self.node = node
        self.files = files


class History:
    users = USERS

    def __init__(self, repo, seed):
        self.repo = repo
        self.random = random.Random(seed)
        self.tips = []
        self.count = 0

    def commit_next(self):
        if len(self.tips) >= 2 and self.random.random() < 0.15:
            self.commit_merge()
        elif len(self.tips) < TIPS and self.random.random() < 0.05 or not self.tips:
            self.commit_branch()
        else:
            self.commit_change(self.random.choice(self.tips))
        self.count += 1

    def commit_branch(self):
        """A changeset over one that has a child already, or the first."""
        if not self.tips:
            files = {b'file%d' % i: self.new_file() for i in range(20)}
            files.update({b'dir/' + name: self.new_file() for name in ODD_NAMES})
            self.tips.append(Tip(self.commit([], {}, files), files))
            return
        old = self.random.choice(self.tips)
        new = Tip(old.node, dict(old.files))
        self.tips.append(new)
        self.commit_change(old)
        self.commit_change(new)

    def commit_change(self, tip):
        files = dict(tip.files)
        for _ in range(self.random.randint(1, 5)):
            self.change_one(files)
        tip.node = self.commit([tip.node], tip.files, files)
        tip.files = files

    def commit_merge(self):
        first, second = self.random.sample(self.tips, 2)
        if first.node == second.node:
            return self.commit_change(first)
        files = dict(first.files)
        for path, theirs in second.files.items():
            files[path] = self.merged(files.get(path), theirs)
        node = self.commit([first.node, second.node], first.files, files)
        first.node, first.files = node, files
        self.tips.remove(second)

    def merged(self, ours, theirs):
        if ours is None or ours.same(theirs):
            return File(theirs.data, theirs.flag)
        return self.random.choice([ours, theirs, File(ours.data + theirs.data[:200], ours.flag)])

    def change_one(self, files):
        paths = sorted(files)
        path = self.random.choice(paths)
        what = self.random.randrange(12)
        if what == 0 and len(files) > 15:
            del files[path]
        elif what == 1:
            self.move(files, path, keeps=False)
        elif what == 2:
            self.move(files, path, keeps=True)
        elif what == 3:
            files[b'dir%d/sub/new%d' % (self.random.randrange(5), self.count)] = self.new_file()
        elif what == 4:
            files[path] = self.replaced(files[path])
        else:
            files[path] = File(self.edited(files[path].data), files[path].flag)

    def move(self, files, path, keeps):
        target = b'moved/from%d-%d' % (self.count, self.random.randrange(1000))
        files[target] = File(files[path].data, files[path].flag, path)
        if not keeps:
            del files[path]

    def replaced(self, file):
        return self.new_file()

    def new_file(self):
        kind = self.random.randrange(12)
        if kind == 0:
            return File(self.random.randbytes(self.random.randrange(3000)))
        if kind == 1:
            return File(b'file%d' % self.random.randrange(20), b'l')
        if kind == 2:
            return File(b'')
        if kind == 3:
            return File(b'\x01\ncontent that begins like metadata\n')
        text = b''.join(self.new_line() for _ in range(self.random.randrange(60)))
        return File(text, b'x' if kind == 4 else b'')

    def new_line(self):
        return b'line %d of some text\n' % self.random.randrange(10**6)

    def edited(self, data):
        """The data with a few lines changed, so that a delta has several hunks."""
        lines = data.splitlines(True)
        for _ in range(self.random.randint(1, 4)):
            i = self.random.randrange(len(lines) + 1)
            lines[i:i + self.random.randrange(3)] = [self.new_line()]
        return b''.join(lines)

    def commit(self, parents, before, after):
        """Commits the files after over the first parent's files before."""
        changed = [p for p in set(before) | set(after) if p not in after or not after[p].same(before.get(p))]

        def content(repo, ctx, path):
            file = after.get(path)
            if file is None:
                return None
            source = file.source if file.source in before else None
            return context.memfilectx(repo, ctx, path, file.data, file.flag == b'l', file.flag == b'x', source)

        parents = (parents + [self.repo.nullid] * 2)[:2]
        changeset = context.memctx(
            self.repo, parents, self.description(), sorted(changed), content,
            self.random.choice(self.users), b'%d %d' % (1000 * self.count, self.random.choice(ZONES)), self.extra())
        return self.repo.commitctx(changeset)

    def description(self):
        return b'changeset %d' % self.count + b'\n\nwith a second paragraph' * self.random.randrange(2)

    def extra(self):
        if self.random.randrange(4):
            return {}
        return {b'branch': b'stable', b'note': b'colon: newline\nbackslash\\ end'}


class PlainHistory(History):
    """A history of which Git keeps all: no copies, no extras, no user that Git can't hold, no merge of a file with one it comes from."""
    users = PLAIN_USERS

    def move(self, files, path, keeps):
        files[b'moved/from%d-%d' % (self.count, self.random.randrange(1000))] = File(files[path].data + b'.', files[path].flag)
        if not keeps:
            del files[path]

    def replaced(self, file):
        """Another content: hg lists a file of a merge whose flag differs from the first parent's, though it is as in the second."""
        return File(self.new_file().data, file.flag)

    def extra(self):
        return {}

    def commit_merge(self):
        first, second = self.random.sample(self.tips, 2)
        if first.node == second.node:
            return self.commit_change(first)
        files = dict(first.files)
        for path in sorted(second.files):
            if path not in files:
                files[path] = second.files[path]
            elif not files[path].same(second.files[path]):
                files[path] = self.of_both(path, first, second)
        node = self.commit([first.node, second.node], first.files, files)
        first.node, first.files = node, files
        self.tips.remove(second)

    def of_both(self, path, first, second):
        """The file of the side that comes from the other's, or where neither does a new one."""
        ours, theirs = first.files[path], second.files[path]
        nodes = [self.repo[tip.node].filenode(path) for tip in (first, second)]
        common = self.repo.file(path).commonancestorsheads(*nodes)
        if common == [nodes[1]]:
            return ours
        if common == [nodes[0]]:
            return theirs
        return File(ours.data + theirs.data[:200] + b'%d' % self.count, ours.flag)


@command(b'commit-history', [], b'COUNT SEED')
def commit_history(ui, repo, count, seed):
    """commit COUNT changesets"""
    commit_all(repo, History(repo, int(seed)), int(count))


@command(b'commit-plain-history', [], b'COUNT SEED')
def commit_plain_history(ui, repo, count, seed):
    """commit COUNT changesets of which Git keeps all"""
    commit_all(repo, PlainHistory(repo, int(seed)), int(count))


def commit_all(repo, history, count):
    with repo.wlock(), repo.lock(), repo.transaction(b'commit-history'):
        while len(repo.changelog) < count:
            history.commit_next()


@command(b'list-files', [], b'')
def list_files(ui, repo):
    """list the files of all changesets: node, path in hex, flag or `-`, and the id that the content has in Git"""
    ids = {}
    for rev in repo:
        ctx = repo[rev]
        for path, node, flag in sorted(ctx.manifest().iterentries()):
            if (path, node) not in ids:
                data = repo.file(path).read(node)
                ids[path, node] = hashlib.sha1(b'blob %d\0' % len(data) + data).hexdigest().encode()
            ui.write(b'%s %s %s %s\n' % (ctx.hex(), path.hex().encode(), flag or b'-', ids[path, node]))


@command(b'list-revisions', [], b'')
def list_revisions(ui, repo):
    """list all revisions: kind, path in hex or `-`, node, both parents, link node"""
    repo = repo.unfiltered()
    list_store(ui, repo, b'changeset -', repo.changelog)
    list_store(ui, repo, b'manifest -', repo.manifestlog.getstorage(b''))
    for path in sorted({path for rev in repo for path in repo[rev].files()}):
        list_store(ui, repo, b'file ' + path.hex().encode(), repo.file(path))


def list_store(ui, repo, words, store):
    for rev in store:
        node = store.node(rev)
        link = repo.changelog.node(store.linkrev(rev))
        ids = [node, *store.parents(node), link]
        ui.write(words + b' ' + b' '.join(i.hex().encode() for i in ids) + b'\n')
