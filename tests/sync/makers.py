"""Makes changes at random in a Mercurial repository and in a Git repository, by the real tools."""
import os
import random

from both import git_folder, said
from repositories import Mercurial

USERS = ['Ann <ann@x>', 'Bob', 'c@x', 'D <<d>']


class HgMaker:
    """Commits, merges, bookmarks, tags and phases in a Mercurial repository."""

    def __init__(self, path, seed):
        self.path = path
        self.numbers = random.Random(seed)
        self.hg = Mercurial(path)
        self.count = 0

    def ask(self, *words):
        return self.hg.output('--cwd', self.path, *words).decode(errors='surrogateescape')

    def heads(self):
        return self.ask('log', '-r', 'heads(not secret()) - extra("hg-git-link")', '-T', '{node}\n').split()

    def bookmarks(self):
        return [line[41:] for line in self.ask('bookmarks', '-T', '{node} {bookmark}\n').splitlines()]

    def any_node(self):
        return self.numbers.choice(self.ask('log', '-r', 'last(not secret() - extra("hg-git-link"), 12)', '-T', '{node}\n').split() or ['null'])

    def step(self):
        moves = [self.commit, self.commit, self.commit, self.merge, self.bookmark, self.tag, self.branch, self.rename, self.publish]
        self.numbers.choice(moves)()

    def write(self):
        self.count += 1
        name = f'hg {self.numbers.randrange(6)}é'
        with open(os.path.join(self.path, name), 'wb') as file:
            file.write(b'%d of hg\n' % self.count * self.numbers.randrange(1, 5))

    def record(self, text):
        self.ask('commit', '--addremove', '-q', '-u', self.numbers.choice(USERS), '-d', f'{1000 + self.count} {self.numbers.choice([0, -3600, 34])}', '-m', text)

    def go_to(self, node):
        self.ask('update', '-q', '--clean', '-r', node)
        self.ask('bookmark', '--inactive', '-q') if self.bookmarks() else None

    def commit(self):
        """On a head, with its bookmark where it has one that is Mercurial's."""
        heads = self.heads()
        node = self.numbers.choice(heads) if heads else 'null'
        self.go_to(node)
        names = [name for name in self.ask('log', '-r', node, '-T', '{join(bookmarks, "\n")}').splitlines() if name.startswith('hg')]
        self.write()
        self.record(f'hg change {self.count}\n\nwith lines')
        if names:
            self.ask('bookmark', '-f', '-r', '.', names[0])

    def merge(self):
        heads = self.heads()
        if len(heads) < 2:
            return
        one, other = self.numbers.sample(heads, 2)
        self.go_to(one)
        self.ask('merge', '-q', '--tool', 'internal:local', '-r', other)
        self.write()
        self.record(f'hg merge {self.count}')

    def bookmark(self):
        name = f'hg/mark-{self.numbers.randrange(4)}'
        if name in self.bookmarks() and self.numbers.random() < 0.3:
            self.ask('bookmark', '-d', name)
        elif self.heads():
            self.ask('bookmark', '-f', '-r', self.any_node(), name)

    def tag(self):
        if not self.heads():
            return
        name = f'hg-tag-{self.numbers.randrange(5)}'
        if self.numbers.random() < 0.5:
            self.ask('tag', '--local', '--force', '-r', self.any_node(), name)
        else:
            node = self.any_node()
            self.go_to(self.numbers.choice(self.heads()))
            self.ask('tag', '--force', '-u', 'Ann <ann@x>', '-d', '5 0', '-r', node, 'global-' + name)

    def branch(self):
        if not self.heads():
            return
        self.go_to(self.any_node())
        self.ask('branch', '-q', '--force', f'branch {self.numbers.randrange(2)}' if self.numbers.random() < 0.2 else f'branch{self.numbers.randrange(3)}')
        self.write()
        self.record(f'hg branch {self.count}')

    def rename(self):
        if not self.heads():
            return
        self.go_to(self.numbers.choice(self.heads()))
        files = self.ask('files', '-T', '{path}\n') if self.hg.answer('--cwd', self.path, 'files')[0] == 0 else ''
        if files:
            self.count += 1
            self.ask('rename', '-q', self.numbers.choice(files.splitlines()), f'renamed{self.count}')
            self.record(f'hg rename {self.count}')

    def publish(self):
        if self.heads():
            self.ask('phase', '--public', '-r', self.any_node())

    def close(self):
        self.hg.close()


class GitMaker:
    """Commits, merges, branches and tags in a Git repository, without a work tree."""

    def __init__(self, path, seed):
        self.path = path
        self.folder = git_folder(path)
        self.numbers = random.Random(seed)
        self.count = 0

    def git(self, *words, data=None, **env):
        return said(['git', '--git-dir', self.folder, *words], data=data, **env).strip()

    def branches(self, prefix=''):
        return self.git('for-each-ref', '--format', '%(refname:strip=2)', 'refs/heads/' + prefix).split('\n') if self.has_branches(prefix) else []

    def has_branches(self, prefix=''):
        return bool(self.git('for-each-ref', '--count', '1', 'refs/heads/' + prefix))

    def step(self):
        self.numbers.choice([self.commit, self.commit, self.commit, self.merge, self.octopus, self.tag, self.new_branch, self.drop_branch])()

    def record(self, parents):
        """A commit over parents with the first one's tree and one file changed."""
        self.count += 1
        index = os.path.join(self.folder, 'index-of-tests')
        if os.path.exists(index):
            os.remove(index)
        if parents:
            self.git('read-tree', parents[0], GIT_INDEX_FILE=index)
        blob = self.git('hash-object', '-w', '--stdin', data=b'%d of git\n' % self.count)
        mode = self.numbers.choice(['100644', '100644', '100755', '120000'])
        path = f'git {self.numbers.randrange(6)}ü'
        self.git('update-index', '--index-info', data=f'{mode} {blob}\t{path}\n'.encode(), GIT_INDEX_FILE=index)
        tree = self.git('write-tree', GIT_INDEX_FILE=index)
        words = [word for parent in parents for word in ('-p', parent)]
        message = self.numbers.choice([f'git change {self.count}\n', f'git change {self.count}', f'git\n\nchange {self.count}\n\n'])
        return self.git('commit-tree', tree, *words, data=message.encode(), GIT_AUTHOR_DATE=f'@{2000 + self.count} {self.numbers.choice(["+0000", "-0130"])}')

    def set(self, branch, commit):
        self.git('update-ref', f'refs/heads/{branch}', commit)

    def own(self):
        """A branch that only Git moves."""
        return self.numbers.choice(['main', 'git/topic', 'git/é'])

    def tip(self, branch):
        return self.git('rev-parse', '--verify', '--quiet', f'refs/heads/{branch}') if branch in self.branches() else None

    def commit(self):
        branch = self.own()
        tip = self.tip(branch)
        others = self.branches()
        parents = [tip] if tip else [self.tip(self.numbers.choice(others))] if others else []
        self.set(branch, self.record(parents))

    def merge(self, count=2):
        branch = self.own()
        commits = list(dict.fromkeys(self.tip(other) for other in self.branches()))
        tip = self.tip(branch)
        if tip and len(commits) >= count:
            others = [commit for commit in commits if commit != tip]
            self.set(branch, self.record([tip, *self.numbers.sample(others, count - 1)]))

    def octopus(self):
        self.merge(self.numbers.choice([3, 4]))

    def tag(self):
        branches = self.branches()
        if branches:
            name, commit = f'git-tag-{self.numbers.randrange(5)}', self.tip(self.numbers.choice(branches))
            words = ['-a', '-m', 'a tag'] if self.numbers.random() < 0.5 else []
            self.git('tag', '-f', *words, name, commit)

    def new_branch(self):
        branches = self.branches()
        if branches:
            self.set(f'git/new-{self.numbers.randrange(3)}', self.tip(self.numbers.choice(branches)))

    def drop_branch(self):
        names = self.branches('git/')
        if names:
            self.git('update-ref', '-d', f'refs/heads/{self.numbers.choice(names)}')
