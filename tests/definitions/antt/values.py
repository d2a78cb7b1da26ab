"""Values: numbers and truth values are Python's, lists are tuples, and the rest is below."""


class Con:
    """A constructor with its arguments."""
    __slots__ = ('name', 'args')

    def __init__(self, name, args=()):
        self.name = name
        self.args = tuple(args)

    def __eq__(self, other):
        return isinstance(other, Con) and (self.name, self.args) == (other.name, other.args)

    def __repr__(self):
        return ' '.join([self.name] + [f'({shown(a)})' for a in self.args])


class Rec(dict):
    """A record."""

    def __repr__(self):
        return '{' + '; '.join(f'{name} = {shown(value)}' for name, value in self.items()) + '}'


class Tup:
    """A pair, or more; a list is none."""
    __slots__ = ('items',)

    def __init__(self, *items):
        self.items = items

    def __eq__(self, other):
        return isinstance(other, Tup) and self.items == other.items

    def __repr__(self):
        return '<' + ', '.join(shown(item) for item in self.items) + '>'


class Function:
    """What can be applied once it has as many arguments as it takes."""
    __slots__ = ('arity', 'call')

    def __init__(self, arity, call):
        self.arity = arity
        self.call = call


class Partial:
    """A function with fewer arguments than it takes."""
    __slots__ = ('function', 'args')

    def __init__(self, function, args):
        self.function = function
        self.args = args


def apply(function, args):
    """The function applied to the arguments, which may be fewer or more than it takes."""
    if isinstance(function, Function) and len(args) == function.arity:
        return function.call(*args)
    args = list(args)
    while args:
        if isinstance(function, Con):
            return Con(function.name, function.args + tuple(args))
        if isinstance(function, Partial):
            function, args = function.function, function.args + args
        if not isinstance(function, Function):
            raise TypeError(f'{shown(function)} is applied')
        if len(args) < function.arity:
            return Partial(function, args)
        function, args = function.call(*args[:function.arity]), args[function.arity:]
    return function


def some(value):
    return Con('Some', (value,))


NONE = Con('None')


def shown(value):
    """Lists of bytes as text."""
    if isinstance(value, tuple) and value and all(isinstance(b, int) and b < 256 for b in value):
        return repr(bytes(value))[1:]
    return repr(value)
