"""Checks of definitions on values, and the values that they share."""
import contextlib

from antt.values import NONE, Con, Rec, shown, some

NULL = bytes(20)
ONE, TWO, THREE = b'\x11' * 20, b'\x22' * 20, b'\x33' * 20
DIGITS = b'1' * 40


class Checks:
    def __init__(self, definitions):
        self.definitions = definitions
        self.passed = 0
        self.failed = 0

    def equal(self, name, wanted, path, *args):
        """The definition, applied to the arguments, has the wanted value."""
        self.compare(name, wanted, lambda: self.value(path, *args))

    def compare(self, name, wanted, compute):
        """The same for a value that `compute` gives."""
        try:
            got = as_value(compute())
        except Exception as error:
            return self.fail(name, f'{type(error).__name__}: {error}')
        if got == as_value(wanted):
            self.passed += 1
        else:
            self.fail(name, f'got {shorter(got)}, wanted {shorter(as_value(wanted))}')

    def table(self, path, rows):
        """Rows of a name, the arguments as a tuple, and the wanted value."""
        for name, args, wanted in rows:
            self.equal(name, wanted, path, *args)

    def value(self, path, *args):
        return self.definitions(path, *map(as_value, args))

    @contextlib.contextmanager
    def where(self, path, value):
        """The checks inside are of definitions of which this one is another value."""
        whole = self.definitions
        self.definitions = whole.where(path, value)
        try:
            yield
        finally:
            self.definitions = whole

    def fail(self, name, why):
        self.failed += 1
        print(f'{name}: {why}')

    def finish(self):
        """Prints the count and gives the exit status."""
        print(f'{self.passed} passed, {self.failed} failed')
        return 1 if self.failed else 0


def as_value(x):
    """Bytes and lists as lists, and None as the empty option."""
    if x is None:
        return NONE
    if isinstance(x, (bytes, list, tuple)):
        return tuple(map(as_value, x))
    if isinstance(x, Con):
        return Con(x.name, map(as_value, x.args))
    if isinstance(x, dict):
        return record(**x)
    return x


def record(**fields):
    return Rec({name: as_value(value) for name, value in fields.items()})


def just(x):
    return some(as_value(x))


def integer(n):
    return Con('pos', (n,)) if n >= 0 else Con('negsuc', (-n - 1,))


def refusal(name, place, id=NULL):
    return record(name=Con(name), id=id, place=place)


def shorter(value):
    text = shown(value)
    return text if len(text) < 300 else text[:300] + '..'
