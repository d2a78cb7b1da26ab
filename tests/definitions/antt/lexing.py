"""The tokens of a definition."""
import re
from typing import NamedTuple

TOKEN = re.compile(r'''
      (?P<comment>--[^\n]*)
    | (?P<string>"(?:[^"\\]|\\.)*")
    | (?P<number>(?:0x[0-9A-Fa-f]+|[0-9]+)(?![^\s()\[\]{},;.]))
    | (?P<mark>[()\[\]{},;.λ])
    | (?P<word>[^\s()\[\]{},;."λ]+)
''', re.VERBOSE)
SPACE = re.compile(r'\s*')


class Token(NamedTuple):
    """`spaced` says that white space stands before it."""
    kind: str
    text: str
    spaced: bool


END = Token('end', '', True)


def tokens_of(source):
    tokens, at = [], 0
    while True:
        start = SPACE.match(source, at).end()
        if start == len(source):
            return tokens
        match = TOKEN.match(source, start)
        if match.lastgroup != 'comment':
            tokens.append(Token(match.lastgroup, match[0], start > at))
        at = match.end()
