"""A Mercurial repository that has a URL and no path here: a clone of it is kept in the slot's folder, and what is pushed into the clone goes on to the URL."""
import hashlib
import os
import re
import shutil

from repositories import HG_SETTINGS, Fault, make_repository, words_of

CLONES = 'clones'
PUSHING = '.pushing'


def is_away(url):
    """It has a scheme; hg takes http, https and ssh."""
    return re.match(r'[a-z][a-z0-9+.-]*://', url) is not None


class Away:
    """The clone of a URL. The file PATH.pushing stands beside it while it may have what the URL lacks; such a clone is made anew."""

    def __init__(self, slot_folder, url):
        self.url = url
        name = hashlib.sha1(os.fsencode(url)).hexdigest()
        self.path = os.path.join(slot_folder, CLONES, name)
        self.mark = self.path + PUSHING
        if os.path.exists(self.mark):
            shutil.rmtree(self.path, ignore_errors=True)
            os.remove(self.mark)
        if not os.path.isdir(self.path):
            make_repository(['hg', 'clone', *HG_SETTINGS, '--quiet', '--noupdate', '--', url], self.path)

    def pull(self, mercurial):
        """The clone has what the URL has, and its bookmarks alone."""
        mercurial.output('pull', '--quiet', '--', self.url)
        wanted, there = self.bookmarks(mercurial), bookmarks_of(mercurial)
        gone = [name for name in there if name not in wanted]
        if gone:
            mercurial.output('bookmark', '--delete', '--', *gone)
        for name, node in wanted.items():
            if there.get(name) != node:
                mercurial.output('bookmark', '--force', '--inactive', '--rev', node, '--', name)

    def bookmarks(self, mercurial):
        """Those of the URL."""
        rows = [line.split(b'\t') for line in mercurial.lines('debugpushkey', '--', self.url, 'bookmarks')]
        return {name: node.decode() for name, node in rows}

    def begin(self):
        """From now on the clone may have what the URL lacks."""
        with open(self.mark, 'wb'):
            pass

    def end(self):
        os.remove(self.mark)

    def push(self, mercurial, name, node):
        """Gives the URL a changeset with all below it, and the bookmark of this name, where the clone has one; without a changeset takes the bookmark away."""
        words = ['push', '--quiet']
        is_bookmark = name in bookmarks_of(mercurial) or node is None
        if is_bookmark:
            words += ['--bookmark', name]
        if node is not None:
            words += ['--rev', node]
        status, output, errors = mercurial.answer(*words, '--', self.url)
        if status not in (0, 1):
            raise Fault(f'hg push: {words_of(errors or output)}')
        if is_bookmark and self.bookmarks(mercurial).get(name) != node:
            raise Fault(f'hg push: {words_of(errors or output)}')


def bookmarks_of(mercurial):
    """The bookmarks of the clone."""
    rows = [line.split(b' ', 1) for line in mercurial.lines('log', '-r', 'bookmark()', '-T', '{bookmarks % "{node} {bookmark}\\n"}')]
    return {name: node.decode() for node, name in rows}
