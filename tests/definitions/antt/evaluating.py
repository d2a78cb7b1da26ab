"""Functions of expressions: from an environment, a dictionary of the names that are bound, to the value there."""
from antt.library import OPERATORS
from antt.values import Function, Rec, Tup, apply


def matches(pattern, value, bound):
    """The value has the pattern; its variables are bound then."""
    kind = pattern[0]
    if kind == 'variable':
        bound[pattern[1]] = value
        return True
    if kind == 'nil':
        return value == ()
    if kind == 'cons':
        return value != () and matches(pattern[1], value[0], bound) and matches(pattern[2], value[1:], bound)
    if kind == 'tuple':
        return all(matches(p, v, bound) for p, v in zip(pattern[1], value.items))
    return matches_constructor(pattern[1], pattern[2], value, bound)


def matches_constructor(name, patterns, value, bound):
    if name == 'zero':
        return value == 0
    if name == 'suc':
        return value > 0 and matches(patterns[0], value - 1, bound)
    if name in ('true', 'false'):
        return value is (name == 'true')
    return value.name == name and all(matches(p, v, bound) for p, v in zip(patterns, value.args))


class Evaluator:
    """Makes functions of the expressions of one module."""

    def __init__(self, module):
        self.module = module
        self.of_kind = {
            'value': self.constant, 'name': self.name, 'field': self.field, 'apply': self.application,
            'operator': self.operator, 'if': self.choice, 'let': self.let, 'lambda': self.abstraction,
            'tuple': self.tuple, 'record': self.record, 'elim': self.elimination,
        }

    def of(self, expression):
        kind, *parts = expression
        return self.of_kind[kind](*parts)

    def constant(self, value):
        return lambda bound: value

    def name(self, name):
        meaning = self.module.meaning
        return lambda bound: bound[name] if name in bound else meaning(name)

    def field(self, subject, field):
        if subject[0] == 'name' and subject[1] in self.module.aliases:
            module = self.module.aliased(subject[1])
            return lambda bound: module.meaning(field)
        value = self.of(subject)
        if field.isdigit():
            place = int(field)
            return lambda bound: value(bound).items[place]
        return lambda bound: value(bound)[field]

    def application(self, function, args):
        function, args = self.of(function), [self.of(arg) for arg in args]
        return lambda bound: apply(function(bound), [arg(bound) for arg in args])

    def operator(self, operator, left, right):
        left, right = self.of(left), self.of(right)
        if operator == '&&':
            return lambda bound: left(bound) and right(bound)
        if operator == '||':
            return lambda bound: left(bound) or right(bound)
        combined = OPERATORS[operator]
        return lambda bound: combined(left(bound), right(bound))

    def choice(self, condition, yes, no):
        condition, yes, no = self.of(condition), self.of(yes), self.of(no)
        return lambda bound: yes(bound) if condition(bound) else no(bound)

    def let(self, name, value, body):
        value, body = self.of(value), self.of(body)
        return lambda bound: body({**bound, name: value(bound)})

    def abstraction(self, names, body):
        body = self.of(body)
        return lambda bound: Function(len(names), lambda *args: body({**bound, **dict(zip(names, args))}))

    def tuple(self, parts):
        parts = [self.of(part) for part in parts]
        return lambda bound: Tup(*(part(bound) for part in parts))

    def record(self, base, fields):
        base = self.of(base) if base else lambda bound: {}
        fields = [(name, self.of(value)) for name, value in fields]
        return lambda bound: Rec(base(bound), **{name: value(bound) for name, value in fields})

    def elimination(self, subject, cases):
        subject = self.of(subject)
        cases = [(pattern, self.of(body)) for pattern, body in cases]

        def value(bound):
            scrutinee = subject(bound)
            for pattern, body in cases:
                inner = dict(bound)
                if matches(pattern, scrutinee, inner):
                    return body(inner)
            raise ValueError(f'no case for {scrutinee!r}')

        return value

    def function(self, name, clauses):
        """The function that the clauses define, or its value where it takes nothing."""
        arity = len(clauses[0][0])
        clauses = [(patterns, self.of(body)) for patterns, body in clauses]

        def call(*args):
            for patterns, body in clauses:
                bound = {}
                if all(matches(p, a, bound) for p, a in zip(patterns, args)):
                    return body(bound)
            raise ValueError(f'no clause of {name} for {args!r}')

        return Function(arity, call) if arity else call()
