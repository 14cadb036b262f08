"""The functions of all crates: their clauses, the definitions that these cite, and who calls whom.

Names are looked up, and no types are inferred but those that signatures and constructors tell.
"""
import re
from collections import defaultdict
from functools import lru_cache
from pathlib import Path

CRATES = Path(__file__).resolve().parent.parent / 'crates'
HIDDEN = re.compile(r"""//[^\n]*|b?"(?:\\.|[^"\\])*"|b?'(?:\\[^']*|[^\\'])'""", re.S)
CALL = re.compile(r'(?:((?:\w+::)+)|([\w)?\]]+)\s*(\.))?(?<!\w)(\w+)(?:::<[^>()]*>)?\(')


def past(text, at, pairs='(){}'):
    """Returns the place after the bracket that closes the first one from `at` on."""
    depth = 0
    for place in range(at, len(text)):
        found = pairs.find(text[place])
        depth += 0 if found < 0 else 1 - found % 2 * 2
        if found > 0 and depth == 0:
            return place + 1
    raise ValueError(text[at:at + 80])


def past_generics(text, at):
    return past(text, at, '<>') if text[at] == '<' else at


class Function:
    """A function: its place, its signature, its clauses and its body."""

    def __init__(self, module, match, owner, trait):
        text, self.module, self.owner, self.trait = module.text, module, owner, trait
        self.start, self.name = match.start(), match[2]
        at = past(text, past_generics(text, match.end()))
        head = re.compile(r'(?:(?!\s(?:requires|ensures)\b)[^{])*', re.S).match(text, at)
        self.result, self.clauses, at = head[0], [], head.end()
        while clause := re.compile(r'\s*(requires|ensures)\s+(?:(\w+)\*?\s+)?(?={)').match(text, at):
            at = past(text, clause.end())
            if clause[1] == 'ensures':
                self.clauses.append((clause[2] or 'ensures', text[clause.end():at]))
        self.end = past(text, at)
        self.head, self.body = text[match.end():at], text[at:self.end]
        self.title = f'{owner}::{self.name}' if owner else self.name
        self.key = f'{module.crate}::{self.title}'
        self.is_test = text[:self.start].rstrip().endswith('#[test]')
        parameters = text[match.end():head.end()].strip()
        self.is_law = self.clauses != [] and re.fullmatch(r'(<[^()]*>)?\(\)', parameters) is not None
        # What C calls; its `"C"` is hidden.
        self.is_export = ' extern ' in match[0]
        self.is_public = not module.is_test and (match[1] == 'pub ' or trait not in ('', 'Model'))


class Module:
    """A file: its functions, and what its names stand for."""

    def __init__(self, path):
        self.path, self.crate, self.raw = path, path.relative_to(CRATES).parts[0], path.read_text()
        self.text = HIDDEN.sub(lambda m: re.sub(r'[^\n]', ' ', m[0]), self.raw).replace('->', '⇒ ')
        self.is_test = self.crate.endswith('_tests') or path.stem.endswith('tests') or path.parent.name == 'rows'
        types = r'^(?:pub )?(?:struct|enum|trait) (\w+)(.*?^}|.*?;)'
        self.types = dict(re.findall(types, self.text, re.M | re.S))
        self.functions = list(self.read_functions())
        self.names, self.globs, self.exports = {}, [], set()
        for exported, use in re.findall(r'^ *(pub )?use ([^;]+);', self.text, re.M):
            head, _, rest = use.replace('\n', ' ').partition('{')
            for last in rest.rstrip(' }').split(',') if rest else [head.rpartition('::')[2]]:
                name, _, alias = last.strip().partition(' as ')
                if name == '*':
                    self.globs.append(head.split('::')[0])
                elif name:
                    self.names[alias or name] = head.split('::')[0], name
                    self.exports |= {name} if exported else set()
        self.definitions = dict(self.read_definitions())

    def read_functions(self):
        blocks = []
        for match in re.finditer(r'^(impl|pub trait)\b([^{]*){', self.text, re.M):
            trait, _, owner = match[2][past_generics(match[2], 0):].rpartition(' for ')
            owner = re.match(r'[\s&]*(?:\w+::)*(\w+)', owner)[1]
            blocks.append((match.start(), past(self.text, match.end() - 1), owner, trait.strip(), match[1]))
        for match in re.finditer(r'^ *(pub(?:\(\w+\))? )?(?:const |extern +)?fn (\w+)', self.text, re.M):
            start, _, owner, trait, kind = next((b for b in blocks if b[0] < match.start() < b[1]), (0, 0, '', '', ''))
            if kind != 'pub trait':
                f = Function(self, match, owner, trait)
                ghosts = re.findall(r'ghost (\w+) = (.*?});', self.text[start:f.start], re.S) if trait else []
                f.clauses += [ghost for ghost in ghosts if ghost[0] not in ('laws', 'respects_eq')]
                yield f

    def read_definitions(self):
        """Yields each name that stands for a definition of specs/, or as `name.` for a file of it, with that file."""
        uses = r'ghost use Rattle\.(p?zic_\w+)\.specs\.([\w.]+?)(?:\.{([^}]*)}| as (\w+));'
        for crate, place, names, alias in re.findall(uses, self.text):
            path = CRATES / crate / 'specs' / (place.replace('.', '/') + '.antt')
            for name in names.split(',') if path.exists() else []:
                original, _, renamed = name.strip().partition(' as ')
                yield (alias + '.', ('', path)) if alias else (renamed or original, (original, path))

    def cited(self, clause):
        """Yields the definitions that a clause cites, each with its file."""
        for prefix, word in re.findall(r"(?<![\w.])(\w+\.)?([A-Za-z_][\w']*)", clause):
            name, path = self.definitions.get(prefix or word, ('', None))
            if path:
                yield name or word, path


class Tree:
    """All crates: what their names stand for, and who calls whom."""

    def __init__(self):
        self.modules = {path: Module(path) for path in sorted(CRATES.glob('*/src/**/*.rt'))}
        self.roots = {m.crate: m for p, m in self.modules.items() if p.stem in ('lib', 'main')}
        self.types = {(m.crate, name): m for m in self.modules.values() if not m.is_test for name in m.types}
        self.functions = [f for m in self.modules.values() for f in m.functions]
        self.free, self.methods = defaultdict(list), defaultdict(list)
        for f in self.functions:
            f.is_public &= self.is_exported(f)
            (self.methods[f.name] if f.owner else self.free[f.module.crate, f.name]).append(f)

    def is_exported(self, f):
        if f.is_export:
            return True
        name, root = f.owner or f.name, self.roots[f.module.crate]
        is_opened = re.search(rf'^pub mod {f.module.path.stem};', root.text, re.M) is not None
        return is_opened or name in root.exports or root.path.stem == 'main'

    def resolve(self, module, name):
        """Returns the crate, or the module of tests, that declares what a name stands for, and its name there."""
        if name in module.types or any(f.name == name and not f.owner for f in module.functions):
            return (module if module.is_test else module.crate), name
        source, name = module.names.get(name, ('', name))
        for place in [source] if source else module.globs:
            place = module.crate if place == 'crate' else place
            if place == 'super':
                above = self.modules.get(module.path.parent.with_suffix('.rt')) or self.roots[module.crate]
                found = self.resolve(above, name)
            elif place in self.roots:
                found = self.resolve(self.roots[place], name) or ((place, name) if source else None)
            else:
                found = (module.crate, name) if source else None
            if found:
                return found
        return None

    @lru_cache(None)
    def named(self, module, text):
        return {self.resolve(module, word) for word in re.findall(r'\b[A-Z]\w*', text)} & set(self.types)

    @lru_cache(None)
    def typed(self, module, text):
        """Returns the types that a text names, and those of the results of its calls."""
        results = [(f.module, f.result.replace('Self', f.owner)) for f in self.called(module, text, None)]
        return self.named(module, text).union(*(self.named(*result) for result in results))

    def called(self, module, text, caller):
        """Yields the functions that a text calls. Without a caller, methods of all types that may be meant."""
        for path, receiver, dot, name in CALL.findall(text):
            first, last = (path.split('::')[0], path.split('::')[-2]) if path else ('', '')
            place = self.roots.get(first, module)
            if dot:
                yield from self.methods_of(module, caller, receiver, name) if caller else self.methods[name]
            elif last[:1].isupper():
                owner = (module.crate, caller.owner) if last == 'Self' and caller else self.resolve(place, last)
                yield from (f for f in self.methods[name] if (f.module.crate, f.owner) == owner)
            else:
                place, name = self.resolve(place, name) or ((self.resolve(place, last) or [None])[0], name)
                near = [f for f in place.functions if f.name == name and not f.owner] if isinstance(place, Module) else []
                yield from near or self.free[place, name]

    def methods_of(self, module, caller, receiver, name):
        """Returns the methods of this name that a variable may have: those of its types, or of the types of their parts."""
        owners = {(module.crate, caller.owner)} & set(self.types)
        if receiver != 'self':
            text = caller.head + caller.body
            told = re.findall(rf'\b{receiver}\s*:\s*([^,;=|]+)', text) if receiver.isidentifier() else []
            told += re.findall(rf'\blet [^=;]*\b{receiver}\b[^=;]*=([^;{{]*)', text) if receiver.isidentifier() else []
            owners = self.typed(module, ' '.join(told) or text)
        found = [f for f in self.methods[name] if (f.module.crate, f.owner) in owners]
        if not found:
            owners = set().union(*(self.named(self.types[o], self.types[o].types[o[1]]) for o in owners))
        return found or [f for f in self.methods[name] if (f.module.crate, f.owner) in owners]
