"""Random bundles: changesets, links among them, with all that they stand for, in one of the ways in which it can be written."""
from formats import hg as bundles
from formats.hg import NULL
from inputs import Refused
from made_members import Asked, Members
from members import Changeset
from partners import Link, is_link
from pulls import add_block, block_of_changeset
from rules import LINK_KEY, links_of, mark_changeset
from texts import Plain


class Bundle(Members):
    """The changesets that come."""

    def add_next(self):
        what = self.random.randrange(9) if self.is_special() else None
        merges = [changeset for changeset in self.came if NULL not in changeset.parents]
        if what is None or what >= 5 and len(self.history.commits) < 3:
            self.add(self.changeset())
        elif what < 3:
            self.add(self.nested(Changeset))
        elif what < 5:
            self.add(self.forged_changeset())
        elif what < 8 or not merges:
            self.add_interleaved([self.octopus() for _ in range(self.random.randint(1, 2))])
        elif self.random.randrange(4) == 0:
            merge = self.random.choice(merges)
            self.add(merge._replace(parents=merge.parents[::-1]))

    def add(self, changeset):
        """The changeset comes where it has a block, and seldom where it has none."""
        if changeset is None or changeset in self.came:
            return
        if is_link(changeset.parents, changeset.text()):
            self.history.links[changeset.node()] = Link(changeset.parents, changeset.text())
        elif not self.has_block(changeset) and self.random.randrange(3):
            return
        self.came.append(changeset)
        self.keep(changeset)

    def has_block(self, changeset):
        known = {NULL, *self.history.commit_of, *self.history.links}
        if not known.issuperset(changeset.parents):
            return False
        try:
            add_block(self.history, block_of_changeset(self.history, changeset, Asked()), Asked())
        except Refused:
            return False
        return True

    # ---- octopus commits

    def add_interleaved(self, chains):
        while any(chains):
            self.add(self.random.choice([chain for chain in chains if chain]).pop(0))

    def octopus(self):
        """The links and the changeset of an octopus commit; or with another one among them, without the changeset, or with a child of a link."""
        commit = self.commit(least=3)
        chain = [*links_of(self.history, commit), mark_changeset(self.history, commit)]
        what = self.random.randrange(12)
        if what < 4:
            place = self.random.randrange(len(chain))
            chain = relinked(chain, place, self.other_link(chain[place]))
        elif what == 4:
            chain.pop()
        elif what == 5:
            child = self.changeset()
            chain.append(child._replace(parents=(chain[0].node(), child.parents[0])))
        return chain

    def other_link(self, changeset):
        """The same with another part; mostly with the name of another link."""
        p, q = changeset.parents
        name = dict(changeset.extras()).get(LINK_KEY, b'1' * 40)
        names = [b'1' * 40 + name[40:], name[:40] + b':1:3', name[:40] + b':2:4', name[:40] + b':2:3', name + b'0']
        parts = [{'date': Plain(0, 0, ((LINK_KEY, other),))} for other in names]
        parts += [{'parents': (q, p)}, {'parents': (p, p)}, {'date': Plain(0, 0)}, {'user': b'bob'}, {'files': (b'a',)},
                  {'manifest': None, 'rows': ()}, {'rows': changeset.rows[1:]}]
        return changeset._replace(**self.random.choice(parts))

    # ---- as bytes

    def write(self):
        came = [(changeset.node(), *changeset.parents, changeset.text()) for changeset in self.came]
        manifests, files = {}, {}
        for changeset in self.came:
            self.take_manifest(manifests, changeset.manifest_node())
            for row in changeset.rows:
                self.take_file(files, row.path, row.revision.node())
        if self.came and self.revisions and self.is_odd() and self.is_odd():
            self.take_manifest(manifests, self.random.choice(list(self.manifests)))
            self.take_file(files, *self.random.choice(list(self.revisions)))
        if self.is_odd() and self.is_odd():
            lose_one(self.random, self.random.choice([manifests, *files.values()]))
        changesets = self.group(self.in_some_order(came) if self.is_odd() else came)
        groups = [group for path in files for group in self.file_groups(path, list(files[path].values()))]
        return bundles.bundle(changesets, self.group(self.in_some_order(list(manifests.values())), {}), groups)

    def take_manifest(self, manifests, node):
        """With its parents, which come before it."""
        if node not in manifests and node != NULL:
            p, q, text = self.manifests[node]
            self.take_manifest(manifests, p)
            self.take_manifest(manifests, q)
            manifests[node] = (node, p, q, text)

    def take_file(self, files, path, node):
        group = files.setdefault(path, {})
        if node not in group and node != NULL:
            revision = self.revisions[path, node]
            self.take_file(files, path, revision.p)
            self.take_file(files, path, revision.q)
            group[node] = (node, revision.p, revision.q, revision.text())

    def in_some_order(self, revisions):
        """Parents before children."""
        left, placed = list(revisions), []
        while left:
            ready = [revision for revision in left if not any(other[0] in revision[1:3] for other in left)]
            placed.append(self.random.choice(ready))
            left.remove(placed[-1])
        return placed

    def file_groups(self, path, revisions):
        """The revisions of a file, seldom in two groups, of which one may be empty."""
        revisions, texts = self.in_some_order(revisions), {}
        cut = self.random.randint(0, len(revisions)) if self.is_odd() else 0
        return [(path, self.group(part, texts)) for part in ([revisions[:cut], revisions[cut:]] if cut else [revisions])]

    def group(self, revisions, texts=None):
        """The chunks of a group of which texts are known; without texts, of the changesets. The parents of all others are a pair without order."""
        is_pair, texts, base = texts is not None, {} if texts is None else texts, None
        chunks = []
        for node, p, q, text in revisions + (self.some_of(revisions, 1) if self.is_odd() else []):
            if is_pair and self.random.randrange(2):
                p, q = q, p
            link = self.random.choice(self.came).node() if is_pair else node
            chunks.append(bundles.entry(node, p, q, link, self.delta(texts.get(p, b'') if base is None else base, text)))
            texts[node] = base = text
        return chunks

    def delta(self, base, text):
        """From a base to a text: the whole, or what is between their common ends, as two hunks."""
        if self.random.randrange(2):
            return bundles.whole_delta(len(base), text)
        shorter = min(len(base), len(text))
        start = next((at for at in range(shorter) if base[at] != text[at]), shorter)
        end = next((at for at in range(shorter - start) if base[-1 - at] != text[-1 - at]), shorter - start)
        middle = text[start:len(text) - end]
        return bundles.hunk(start, start, middle[:3]) + bundles.hunk(start, len(base) - end, middle[3:])


def lose_one(random, revisions):
    if revisions:
        del revisions[random.choice(list(revisions))]


def relinked(chain, place, changeset):
    """A chain of links with another one in a place, over which those behind it are put."""
    chain = chain[:place] + [changeset] + chain[place + 1:]
    for number in range(place + 1, len(chain)):
        chain[number] = chain[number]._replace(parents=(chain[number - 1].node(), chain[number].parents[1]))
    return chain
