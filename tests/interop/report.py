"""One line for each check, and their count."""
import os


class Report:
    def __init__(self):
        self.passed = 0
        self.failed = 0

    def check(self, name, got, wanted):
        """Passes where both are equal."""
        self.verdict(name, got == wanted, '' if got == wanted else _difference(got, wanted))

    def verdict(self, name, holds, why=''):
        if holds:
            self.passed += 1
            print(f'ok       {name}', flush=True)
        else:
            self.failed += 1
            print(f'FAILED   {name}: {why}', flush=True)

    def skipped(self, name, why):
        """What may be left out everywhere, such as what only root can do."""
        print(f'skipped  {name}: {why}', flush=True)

    def missing(self, name, tools):
        """What needs tools that aren't there is left out; where HGGIT_WANTS_ALL is set, as in CI, it fails."""
        why = f'{" and ".join(tools)} can\'t be run'
        if os.environ.get('HGGIT_WANTS_ALL'):
            self.verdict(name, False, why)
        else:
            self.skipped(name, why)

    def finish(self):
        """Prints the count and gives the exit status; where nothing was checked it is no good one."""
        print(f'{self.passed} passed, {self.failed} failed')
        return 0 if self.passed and not self.failed else 1


def _difference(got, wanted):
    if isinstance(got, list) and isinstance(wanted, list) and len(got) == len(wanted):
        place = next(i for i, pair in enumerate(zip(got, wanted)) if pair[0] != pair[1])
        return f'at {place} {_difference(got[place], wanted[place])}'
    return f'got {_short(got)}, wanted {_short(wanted)}'


def _short(value):
    text = repr(value)
    return text if len(text) <= 400 else f'{text[:300]}.. ({len(text)} characters)'
