"""What a run says: lines for its stages, on a terminal a bar while a stage is at work, names that are left, and faults."""
import contextlib
import sys
import threading
import time

from slot import Refused

WIDTH = 24
STEP_SECONDS = 0.2

WHY = {
    'PathUnfit': 'a path that one of the two tools can\'t have',
    'PathClash': 'a path lies below that of a file',
    'StateLimit': 'the history passes a limit of the saved state',
    'InputLimit': 'the new history is over the limit of one pull',
    'Limit': 'a text is over its limit',
    'PairLimit': 'what the other side would get is over its limit',
    'ModeOut': 'a tree with a mode that Mercurial and this program don\'t know',
    'NameUnfit': 'a tree with a name that one of the two tools can\'t have',
    'DanglingLink': 'a link of a merge of many parents whose changeset isn\'t there',
    'ParentIsLink': 'a parent is a link of a merge of many parents, which stands for no commit',
    'ObjectUnknown': 'an object to which another refers isn\'t there',
    'NestLimit': 'a member that was carried back and forth too often by another slot',
}


class Progress:
    def __init__(self, tool, quiet=False, stages=4, mute=False):
        self.tool = tool
        self.mute = mute
        self.quiet = quiet
        self.stages = stages
        self.done = 0
        self.shows_bar = not quiet and sys.stderr.isatty()

    def line(self, text):
        """What was done, on standard output."""
        if not self.quiet:
            self.clear()
            print(printable(text), flush=True)

    def fault(self, text):
        """What the user has to know, on standard error."""
        if not self.mute:
            self.clear()
            print(printable(f'{self.tool}: {text}'), file=sys.stderr, flush=True)

    def clear(self):
        """Takes the bar's line away; it is drawn again on the next one."""
        if self.shows_bar:
            sys.stderr.write('\r\033[K')
            sys.stderr.flush()

    @contextlib.contextmanager
    def stage(self, text):
        """On a terminal a bar with the stages that are done and the seconds of this one."""
        self.done = min(self.done + 1, self.stages)
        if not self.shows_bar:
            yield
            return
        end = threading.Event()
        drawing = threading.Thread(target=self.draw, args=(text, end), daemon=True)
        drawing.start()
        try:
            yield
        finally:
            end.set()
            drawing.join()
            self.clear()

    def draw(self, text, end):
        start = time.monotonic()
        filled = WIDTH * (self.done - 1) // self.stages
        while not end.wait(STEP_SECONDS):
            bar = '#' * filled + '.' * (WIDTH - filled)
            sys.stderr.write(f'\r\033[K[{bar}] {text}, {time.monotonic() - start:.0f} s')
            sys.stderr.flush()


def printable(text):
    """Bytes of names that are no text are shown escaped."""
    return text.encode('utf-8', 'surrogateescape').decode('utf-8', 'backslashreplace')


def name_of(ref):
    """A ref's name as text."""
    return ref.decode('utf-8', 'backslashreplace')


def counted(number, word, words=None):
    return f'{number} {word if number == 1 else words or word + "s"}'


def say_plan(plan, progress):
    for side, changes in (('Git', plan.for_git), ('Mercurial', plan.for_hg)):
        for ref, (old, new) in changes.items():
            progress.line(f'{name_of(ref)} would be {"set" if new and not old else "moved" if new else "taken away"} in {side}')
    say_left(progress, plan, {}, [])


def say_names(progress, in_git, in_hg, aside):
    said = [f'{number} in {side}' for number, side in ((in_git, 'Git'), (in_hg, 'Mercurial')) if number > 0]
    if said:
        progress.line('names set: ' + ', '.join(said))
    if aside:
        progress.line(f'heads without a name and phases: {counted(aside, "ref")} of Git')


def say_left(progress, plan, failed, kept):
    for ref in plan.both_moved:
        progress.fault(f'{name_of(ref)} was moved on both sides and is left as it is on each')
    for ref, why in failed.items():
        progress.fault(f'{name_of(ref)} is left: {why}')
    for ref in kept:
        progress.line(f'{name_of(ref)} is set again: Mercurial keeps a named branch, and a tag of .hgtags')


def in_words(fault):
    """A fault; a refusal of the program with what it means."""
    if not isinstance(fault, Refused):
        return str(fault)
    words = str(fault).split(' ')
    name, id = (words + ['', '', ''])[1:3]
    why = WHY.get(name, 'see docs/faults.md')
    return f'hggit refused {name}: {why} (the changeset, revision or object {id}); no name was changed'
