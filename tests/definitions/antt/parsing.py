"""Clauses, expressions and patterns, as tuples that begin with their kind."""
from antt.lexing import END, tokens_of

# precedence, and whether it groups to the right
OPERATORS = {
    '^': (90, True), '*': (80, False), '/': (80, False), '%': (80, False), '+': (70, False), '-': (70, False),
    '∷': (60, True), '++': (55, True), '==': (40, True), '&&': (30, True), '||': (20, True),
}
RESERVED = {'then', 'else', 'in', 'as', '↦', '|', '=', 'where', ':'}
ESCAPES = {'\\\\': '\\', '\\n': '\n', '\\"': '"'}


class Parser:
    """`is_constructor` tells the names that a pattern takes for constructors."""

    def __init__(self, source, is_constructor):
        self.tokens = tokens_of(source)
        self.at = 0
        self.is_constructor = is_constructor

    def peek(self, ahead=0):
        at = self.at + ahead
        return self.tokens[at] if at < len(self.tokens) else END

    def next(self):
        token = self.peek()
        self.at += 1
        return token

    def has(self, text):
        """Takes the token where it is next."""
        if self.peek().text != text or self.peek().kind == 'string':
            return False
        self.at += 1
        return True

    def expect(self, text):
        if not self.has(text):
            raise SyntaxError(f'{text} expected before {self.peek().text!r}')

    def clause(self):
        """`name pattern .. = expression`: the patterns and the expression."""
        self.next()
        patterns = []
        while not self.has('='):
            patterns.append(self.closed_pattern())
        body = self.expression()
        if self.peek() is not END:
            raise SyntaxError(f'{self.peek().text!r} is left over')
        return patterns, body

    def expression(self, least=0):
        if self.has('let'):
            return self.let()
        if self.has('if'):
            return self.choice()
        if self.has('λ'):
            return self.abstraction()
        left = self.application()
        while self.peek().kind == 'word' and self.peek().text in OPERATORS:
            precedence, right_first = OPERATORS[self.peek().text]
            if precedence < least:
                break
            operator = self.next().text
            left = ('operator', operator, left, self.expression(precedence if right_first else precedence + 1))
        return left

    def let(self):
        name = self.next().text
        self.expect('=')
        value = self.expression()
        self.expect('in')
        return ('let', name, value, self.expression())

    def choice(self):
        condition = self.expression()
        self.expect('then')
        yes = self.expression()
        self.expect('else')
        return ('if', condition, yes, self.expression())

    def abstraction(self):
        names = []
        while not self.has('.'):
            names.append(self.next().text)
        return ('lambda', names, self.expression())

    def application(self):
        if self.has('elim'):
            return self.elimination()
        function, args = self.selection(), []
        while self.starts_atom():
            args.append(self.selection())
        return ('apply', function, args) if args else function

    def starts_atom(self):
        token = self.peek()
        if token.kind == 'word':
            return token.text not in OPERATORS and token.text not in RESERVED
        return token.kind in ('string', 'number') or token.text in ('(', '[')

    def elimination(self):
        """`elim e as (motive) [ | pattern ↦ e .. ]`"""
        subject = self.selection()
        self.expect('as')
        self.skip_parentheses()
        self.expect('[')
        cases = []
        while not self.has(']'):
            self.has('|')
            pattern = self.pattern()
            self.expect('↦')
            cases.append((pattern, self.expression()))
        return ('elim', subject, cases)

    def skip_parentheses(self):
        self.expect('(')
        depth = 1
        while depth:
            depth += {'(': 1, ')': -1}.get(self.next().text, 0)

    def selection(self):
        value = self.atom()
        while self.peek().text == '.' and not self.peek().spaced and not self.peek(1).spaced:
            self.next()
            value = ('field', value, self.next().text)
        return value

    def atom(self):
        token = self.next()
        if token.kind == 'number':
            return ('value', int(token.text, 0))
        if token.kind == 'string':
            return ('value', unescaped(token.text[1:-1]))
        if token.text == '[':
            self.expect(']')
            return ('value', ())
        if token.text == '(':
            return self.parenthesized(self.expression, 'tuple')
        if token.text == 'record':
            return self.record()
        return ('name', token.text)

    def parenthesized(self, part, kind):
        """What stands in parentheses, or the parts between commas."""
        parts = [part()]
        while self.has(','):
            parts.append(part())
        self.expect(')')
        return parts[0] if len(parts) == 1 else (kind, parts)

    def record(self):
        base = None if self.peek().text == '{' else self.selection()
        self.expect('{')
        fields = []
        while not self.has('}'):
            name = self.next().text
            self.expect('=')
            fields.append((name, self.expression()))
            self.has(';')
        return ('record', base, fields)

    def pattern(self):
        if self.peek().kind == 'word' and self.is_constructor(self.peek().text):
            left = self.constructor_pattern()
        else:
            left = self.closed_pattern()
        return ('cons', left, self.pattern()) if self.has('∷') else left

    def constructor_pattern(self):
        name, args = self.next().text, []
        while self.peek().text in ('(', '[') or (self.peek().kind == 'word' and self.peek().text not in ('↦', '∷', '=')):
            args.append(self.closed_pattern())
        return ('constructor', name, args)

    def closed_pattern(self):
        token = self.next()
        if token.text == '[':
            self.expect(']')
            return ('nil',)
        if token.text == '(':
            return self.parenthesized(self.pattern, 'tuple')
        if self.is_constructor(token.text):
            return ('constructor', token.text, [])
        return ('variable', token.text)


def unescaped(text):
    out, at = '', 0
    while at < len(text):
        piece = text[at:at + 2]
        out += ESCAPES.get(piece, text[at])
        at += 2 if piece in ESCAPES else 1
    return out
