"""The modules of definition files, and the meanings of their names."""
import glob
import os
import re

from antt.evaluating import Evaluator
from antt.library import WORDS
from antt.parsing import Parser
from antt.values import Con, apply

IMPORT = re.compile(r'use ([\w.]+)\.\{(.*)\}$')
ALIAS = re.compile(r'use ([\w.]+)(?: as (\w+))?$')
SIGNATURE = re.compile(r'(?:abbrev |unfoldable )?(?:pub )?\S+ :(?: |$)')
DATA = re.compile(r'(?:pub )?data ')
OTHER = re.compile(r'(?:pub )?(?:record|module|mod) ')
CONSTRUCTOR = re.compile(r'\s+(\w+) :')
LIBRARY_CONSTRUCTORS = {'Some', 'None', 'Ok', 'Err', 'true', 'false', 'zero', 'suc', 'pos', 'negsuc'}


class Module:
    """One file."""

    def __init__(self, source, modules):
        self.modules = modules
        self.imports, self.aliases, self.constructors, self.clauses = {}, {}, set(), {}
        self.meanings = {}
        self.evaluator = Evaluator(self)
        for item in items_of(source):
            self.take(item)

    def take(self, item):
        first = item.split('\n', 1)[0]
        if first.startswith(('use ', 'pub use ')):
            self.take_import(first.removeprefix('pub '))
        elif DATA.match(first):
            self.constructors.update(m[1] for m in map(CONSTRUCTOR.match, item.split('\n')[1:]) if m)
        elif not OTHER.match(first) and not SIGNATURE.match(first):
            self.clauses.setdefault(first.split(' ', 1)[0], []).append(item)

    def take_import(self, line):
        match = IMPORT.match(line)
        if match:
            for name in match[2].split(','):
                original, _, new = name.strip().partition(' as ')
                self.imports[new or original] = (match[1], original)
        else:
            path, alias = ALIAS.match(line).groups()
            self.aliases[alias or path.rsplit('.', 1)[-1]] = path

    def aliased(self, alias):
        return self.modules[self.aliases[alias]]

    def is_constructor(self, name):
        if name in LIBRARY_CONSTRUCTORS or name in self.constructors:
            return True
        path, original = self.imports.get(name, ('', ''))
        return path in self.modules and original in self.modules[path].constructors

    def meaning(self, name):
        if name not in self.meanings:
            self.meanings[name] = self.find_meaning(name)
        return self.meanings[name]

    def find_meaning(self, name):
        if name in self.constructors:
            return Con(name)
        if name in self.clauses:
            return self.evaluator.function(name, [self.parsed(text) for text in self.clauses[name]])
        path, original = self.imports.get(name, ('', name))
        if path in self.modules:
            return self.modules[path].meaning(original)
        return WORDS[original]

    def unasked(self):
        """The names of its own that compute, and whose meaning nobody asked for; a type's name begins with a capital letter."""
        return [name for name in self.clauses if name[0].islower() and name not in self.meanings]

    def parsed(self, text):
        return Parser(text, self.is_constructor).clause()


def items_of(source):
    """The declarations and clauses of a file: each begins at the first column."""
    items = []
    for line in source.split('\n'):
        if not line.strip() or line.startswith('--'):
            continue
        if line[0] in ' \t]})':
            items[-1] += '\n' + line
        else:
            items.append(line)
    return items


class Definitions:
    """The definitions of all crates of a repository."""

    def __init__(self, crates):
        self.crates = crates
        self.modules = {}
        for path in sorted(glob.glob(os.path.join(crates, '*', 'specs', '*.antt'))):
            crate, name = path.split(os.sep)[-3], os.path.splitext(os.path.basename(path))[0]
            if name != 'Lib':
                with open(path, encoding='utf-8') as file:
                    self.modules[f'Rattle.{crate}.specs.{name}'] = Module(file.read(), self.modules)

    def __call__(self, path, *args):
        """The value of `crate.File.name`, applied to the arguments."""
        module, name = self.found(path)
        return apply(module.meaning(name), args)

    def found(self, path):
        """The module of `crate.File.name`, and the name."""
        crate, file, name = path.split('.')
        return self.modules[f'Rattle.{crate}.specs.{file}'], name

    def where(self, path, value):
        """The same definitions, but that `crate.File.name` is this value. They are read anew, since modules keep what they found."""
        others = Definitions(self.crates)
        module, name = others.found(path)
        if name not in module.clauses:
            raise KeyError(path)
        module.meanings[name] = value
        return others

    def unasked(self, crate_end):
        """The definitions whose meaning nobody asked for, of the crates whose names end so."""
        for path, module in self.modules.items():
            _, crate, _, file = path.split('.')
            if crate.endswith(crate_end):
                yield from (f'{crate}.{file}.{name}' for name in module.unasked())
