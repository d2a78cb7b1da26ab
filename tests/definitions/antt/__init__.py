"""Evaluates the computing definitions of a repository's `specs/*.antt` files.

Types and relations are read past; functions by clauses, records, cases and recursion are evaluated. Words of the
language's own library that the definitions use are in `library`.
"""
from antt.loading import Definitions

__all__ = ['Definitions']
