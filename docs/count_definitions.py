#!/usr/bin/env python3
"""Counts the lines of the definitions on which the headline rests.

From `Headline` in sasi_run/specs/Headline.antt it goes along the names that each definition uses, through the `use` lines of
its file, down to std and to the kit's crates, which are not counted (the names taken from them are printed with --kit).
Counted is each definition that is reached, of the crates here:

- of a file of specs: its signature, its fields or constructors, its equations, and the line that gives an operator its rank;
- of a type declared in a `.rt` file: the struct or enum, and what its `impl Model` says that it is seen as;
- not: comments, blank lines, imports, attributes, lines of brackets alone. A line that is longer than 160 characters counts as so
  many lines of 160.
- not: a lemma, whose type is an equation. It is proved, so nobody has to believe it, also where a definition has one as a field.

A name that stands in a definition counts as used, but where a variable has it.

When a folder stands for a state is a parameter of the headline, so the formats of files aren't reached from it. They are from the clause
of files: --from sasi_run.specs.Shapes Shapes.

    count_definitions.py              the count by crate, module and definition
    count_definitions.py --brief      by crate and module
    count_definitions.py --why NAME   the definitions that lead from the headline to this one
    count_definitions.py --kit        also the names that are taken from std and the kit
    count_definitions.py --from sasi_run.specs.Causes RunCauses      the same from another definition
"""
import os
import re
import sys

ROOT = os.path.join(os.path.dirname(os.path.abspath(__file__)), '..', 'crates')
START = ('sasi_run.specs.Headline', 'Headline')
WIDTH = 160


class Definition:
    def __init__(self, module, name, lines):
        self.module, self.name, self.lines = module, name, lines

    def size(self):
        return sum(-(-len(line) // WIDTH) for line in self.lines if re.search(r'\w', line))

    def is_lemma(self):
        """Its type is an equation."""
        signature = self.lines[0]
        for line in self.lines[1:]:
            if line.startswith(' '):
                signature += line
            else:
                break
        return bool(re.match(r'(pub )?[^\s(){}]+ : ', signature)) and '≡' in signature.split('→')[-1]


def bare(path):
    """The lines of a file without comments and blank lines."""
    with open(path, encoding='utf-8') as file:
        return [line.rstrip() for line in file if line.strip() and not line.strip().startswith('--')]


class Module:
    """A file of specs: its imports by name, and its definitions by each name that they bring."""

    def __init__(self, name, path):
        self.name, self.imports, self.modules, self.items = name, {}, {}, {}
        rank = []
        item = None
        for line in bare(path):
            if re.match(r'(pub )?use ', line):
                self.use(line)
            elif re.match(r'pub mod |module ', line):
                item = None
            elif re.match(r'\s*infix', line):
                rank = [line]
            else:
                text = line.strip()
                head = re.match(r'(?:(?:abbrev|unfoldable|pub|record|data) )+(\S+)', text)
                if head is None and not line.startswith(' '):
                    head = re.match(r'([^\s(){}]+) : ', text)
                if head and not (line.startswith('  ') and item and item.opens and not re.match(r'\s*(abbrev|unfoldable) ', line)):
                    item = Definition(name, head.group(1), rank + [line])
                    item.opens = bool(re.match(r'(pub )?(record|data) ', text))
                    item.data = bool(re.match(r'(pub )?data ', text))
                    self.items[item.name] = item
                    rank = []
                elif item:
                    item.lines.append(line)
                    maker = re.match(r'\s+([^\s:]+) : ', line)
                    if item.data and maker:
                        self.items[maker.group(1)] = item

    def use(self, line):
        text = re.sub(r'^(pub )?use ', '', line)
        group = re.match(r'(\S+)\.\{(.*)\}$', text)
        if group:
            for entry in group.group(2).split(','):
                names = entry.strip().split(' as ')
                self.imports[names[-1].strip()] = (group.group(1), names[0].strip())
        else:
            names = text.split(' as ')
            self.modules[names[-1].split('.')[-1].strip()] = names[0].strip()


class Repository:
    def __init__(self):
        self.modules = {}
        self.declared = {}
        self.kit = set()

    def module(self, name):
        """The module Rattle.CRATE.specs.NAME, none where it isn't of this repository."""
        if name not in self.modules:
            parts = name.split('.')
            path = os.path.join(ROOT, *parts[1:]) + '.antt'
            self.modules[name] = Module(name[len('Rattle.'):], path) if parts[0] == 'Rattle' and os.path.exists(path) else None
        return self.modules[name]

    def declared_type(self, name):
        """The struct or enum of Rattle.CRATE.specs.declared.MODULES.TYPE, with what it is seen as."""
        if name in self.declared:
            return self.declared[name]
        parts = name.replace('.TheVariants', '').split('.')
        path = os.path.join(ROOT, parts[1], 'src', *parts[4:-1]) + '.rt'
        found = None
        if os.path.exists(path):
            with open(path, encoding='utf-8') as file:
                text = file.read()
            body = re.search(r'^(?:pub(?:\(crate\))? )?(?:struct|enum) %s\b.*?(?:;$|^\}|\}$)' % parts[-1], text, re.M | re.S)
            if body:
                lines = [line for line in body.group(0).split('\n') if line.strip() and not line.strip().startswith(('//', '#['))]
                model = re.search(r'^impl Model for %s\b.*?^\}' % parts[-1], text, re.M | re.S)
                if model:
                    lines += [line for line in model.group(0).split('\n') if re.match(r'\s*ghost (Value|view|invariant) ', line)]
                found = Definition('.'.join(parts[1:2] + ['src'] + parts[4:-1]), parts[-1], lines)
                found.uses = self.field_types(parts, path, text, body.group(0))
        self.declared[name] = found
        return found

    def field_types(self, parts, path, text, body):
        """The types of this crate or another that the fields have."""
        words = set(re.findall(r'\b[A-Z]\w+', re.sub(r'//.*', '', body))) - {parts[-1]}
        uses = []
        for crate, names in re.findall(r'^use (\w+)::(?:\w+::)*(\{[^}]*\}|\w+);', text, re.M):
            for name in re.findall(r'\w+', names):
                if name in words and (crate == 'crate' or crate.startswith('sasi_')):
                    uses.append((parts[1] if crate == 'crate' else crate, name))
        for name in words:
            if re.search(r'^(?:pub(?:\(crate\))? )?(struct|enum) %s\b' % name, text, re.M):
                uses.append((parts[1], name))
        return uses

    def find_declared(self, crate, name):
        """The declared type of a crate by its name alone."""
        source = os.path.join(ROOT, crate, 'src')
        for folder, _, files in sorted(os.walk(source)):
            for file in sorted(files):
                if file.endswith('.rt'):
                    with open(os.path.join(folder, file), encoding='utf-8') as text:
                        if re.search(r'^(?:pub(?:\(crate\))? )?(struct|enum) %s\b' % name, text.read(), re.M):
                            inner = os.path.relpath(os.path.join(folder, file), source)[:-3].replace(os.sep, '.')
                            return self.declared_type('Rattle.%s.specs.declared.%s.%s' % (crate, inner, name))
        return None

    def target(self, path, name):
        """The definition of a name of a module."""
        if '.declared.' in path:
            found = self.declared_type(path)
        else:
            module = self.module(path)
            found = self.resolve(module, name) if module else None
        if found is None:
            self.kit.add(path + '.' + name)
        return found

    def resolve(self, module, name):
        """The definition that a name means in a module."""
        if name in module.items:
            return module.items[name]
        if name in module.imports:
            return self.target(*module.imports[name])
        return None

    def used(self, definition):
        """The definitions whose names stand in this one."""
        if hasattr(definition, 'uses'):
            return [d for d in (self.find_declared(*use) for use in definition.uses) if d]
        module = self.module('Rattle.' + definition.module)
        found = []
        fields = set()
        for clause in clauses(definition.lines):
            names, qualified = names_used(clause, patterns_in(clause, self, module) | fields)
            field = re.match(r'  (?:pub )?([^\s:]+) : ', clause)
            if field and not definition.data:
                fields.add(field.group(1))
            found += [self.resolve(module, name) for name in sorted(names)]
            found += [self.target(module.modules[alias], name) for alias, name in sorted(qualified) if alias in module.modules]
            for mixfix in operators(module):
                if all(part in names for part in mixfix.split('◌') if part):
                    found.append(self.resolve(module, mixfix))
        return [d for d in found if d and not d.is_lemma()]


def operators(module):
    return [name for name in list(module.items) + list(module.imports) if '◌' in name]


def clauses(lines):
    """The lines of a definition, each equation with those that go on with it."""
    found = []
    for line in lines:
        if found and line.startswith(' ' * 4):
            found[-1] += ' ' + line.strip()
        else:
            found.append(line)
    return found


def names_used(clause, bound):
    """The names that stand in a clause where no variable has them, and those behind the name of a module."""
    tokens = re.findall(r'"[^"]*"|[(){}\[\],;]|[^\s(){}\[\],;"]+', clause)
    names, qualified = set(), set()
    scopes = [set(bound)]
    at = 0
    while at < len(tokens):
        token = tokens[at]
        following = tokens[at + 1] if at + 1 < len(tokens) else ''
        if token in '({[':
            end = at + 1
            while end < len(tokens) and not re.match(r'[(){}\[\],;:=→.]', tokens[end]):
                end += 1
            if end < len(tokens) and tokens[end] == ':' and end > at + 1:
                scopes[-1].update(tokens[at + 1:end])
                at = end
            scopes.append(set())
        elif token in ')}]':
            if len(scopes) > 1:
                scopes.pop()
        elif token == 'λ':
            at += 1
            while at < len(tokens) and not tokens[at].endswith('.') and tokens[at] != '(':
                scopes[-1].add(tokens[at])
                at += 1
            if at < len(tokens) and tokens[at] == '(':
                continue
            if at < len(tokens):
                scopes[-1].add(tokens[at].rstrip('.'))
        elif token == 'let' or following == '←':
            scopes[-1].add(following if token == 'let' else token)
            at += 1
        elif following == '=' and at > 0 and tokens[at - 1] in ('{', ';'):
            at += 1
        elif not token.startswith('"'):
            parts = token.split('.')
            if parts[0] and not any(parts[0] in scope for scope in scopes):
                names.add(parts[0])
                if len(parts) > 1 and parts[1]:
                    qualified.add((parts[0], parts[1]))
        at += 1
    return names, qualified


def patterns_in(clause, repository, module):
    """The variables of the patterns on the left of an equation."""
    if re.match(r'\s*(abbrev|unfoldable|pub|record|data|infix)', clause) or ' = ' not in clause:
        return set()
    if ' : ' in clause.split(' = ')[0]:
        return set()
    words = re.findall(r'[^\s(){}\[\],;]+', clause.split(' = ')[0])
    return {word for word in words[1:] if not is_constructor(word, repository, module)}


def is_constructor(word, repository, module):
    parts = word.split('.')
    if len(parts) > 1:
        return parts[0] in module.modules
    meaning = repository.resolve(module, word)
    return meaning is not None and word in constructors(meaning)


def constructors(definition):
    if hasattr(definition, 'uses'):
        return set(re.findall(r'\b[A-Z]\w*', '\n'.join(definition.lines)))
    if getattr(definition, 'data', False):
        return set(m.group(1) for m in (re.match(r'\s+([^\s:]+) : ', line) for line in definition.lines) if m)
    return set()


def reach(repository, start):
    """The definitions that are reached, each with the one by which it was reached first."""
    seen, left = {}, [(repository.target('Rattle.' + start[0], start[1]), None)]
    while left:
        definition, by = left.pop(0)
        key = (definition.module, definition.name)
        if key not in seen:
            seen[key] = definition
            definition.by = by
            left.extend((d, definition) for d in repository.used(definition))
    return seen.values()


def print_path(found, name):
    """The definitions of this name, each with those that lead to it from the headline."""
    for d in found:
        if d.name == name:
            print('%s.%s' % (d.module, d.name))
            while d.by:
                d = d.by
                print('    used by %s.%s' % (d.module, d.name))


def main():
    repository = Repository()
    start = START
    if '--from' in sys.argv:
        start = sys.argv[sys.argv.index('--from') + 1:][:2]
    found = sorted(reach(repository, start), key=lambda d: (d.module, -d.size()))
    crates, modules = {}, {}
    if '--why' in sys.argv:
        print_path(found, sys.argv[sys.argv.index('--why') + 1])
        return
    for d in found:
        crates[d.module.split('.')[0]] = crates.get(d.module.split('.')[0], 0) + d.size()
        modules[d.module] = modules.get(d.module, 0) + d.size()
    for crate in sorted(crates, key=lambda c: -crates[c]):
        print('%5d  %s' % (crates[crate], crate))
        for module in sorted((m for m in modules if m.split('.')[0] == crate), key=lambda m: -modules[m]):
            print('%5d    %s' % (modules[module], module.split('.', 1)[1]))
            if '--brief' not in sys.argv:
                print(''.join('%9d    %s\n' % (d.size(), d.name) for d in found if d.module == module), end='')
    if '--kit' in sys.argv:
        print('of std and the kit: ' + ' '.join(sorted(repository.kit)))
    print('%5d lines, %d definitions' % (sum(crates.values()), len(found)))


if __name__ == '__main__':
    main()
