#!/usr/bin/env python3
"""Counts the old forms in crates/*/src and crates/*/proofs that docs/DESIGN-PASS.md speaks of.

  tools/design_counts.py [REPOSITORY] [--list]

Prints a line for each count; --list prints the places too, as FILE:LINE: TEXT. It goes by text, and a place may be right as it is: docs/DESIGN-PASS.md
has the reason beside each that stays."""

import pathlib
import re
import sys

FN = re.compile(r'^( *)(pub(?:\(crate\))? )?(?:extern "C" )?fn (\w+)', re.M)


class Source:
    """A file of src/, without its comments."""

    def __init__(self, root, path):
        self.name = str(path.relative_to(root))
        self.lines = [re.sub(r'//.*', '', line) for line in path.read_text(encoding='utf-8').split('\n')]
        self.text = '\n'.join(self.lines)

    def functions(self):
        """Each function: its name, its first line, its parameters, its clauses, its body."""
        for m in FN.finditer(self.text):
            line = self.text.count('\n', 0, m.start()) + 1
            body = re.compile(rf'^{m[1]}\{{|\{{\n', re.M).search(self.text, m.end())
            end = re.compile(rf'^{m[1]}\}}', re.M).search(self.text, m.end())
            if not body or not end or body.start() > end.start():
                continue
            head = self.text[m.start() : body.start()]
            clauses = re.findall(r'^\s*(requires|ensures)\b(?: \w+)? ?\{(.*)\}$', head, re.M)
            parameters = re.findall(r'(\w+): ([^,()]+(?:\([^)]*\))?)', re.split(r'^\s*(?:requires|ensures)', head, flags=re.M)[0])
            yield m[3], line, parameters, clauses, self.text[body.start() : end.end()]


def conjuncts(clause):
    """The facts of a clause that has a conjunction: the parts between its outermost `×`."""
    depth, part, parts = 0, '', []
    for c in clause:
        depth += (c == '(') - (c == ')')
        if c == '×' and depth == 0:
            parts.append(part)
            part = ''
        else:
            part += c
    parts.append(part)
    for p in parts:
        p = p.strip()
        while p.startswith('(') and p.endswith(')') and '×' in p and matched(p):
            yield from conjuncts(p[1:-1])
            p = ''
        if p:
            yield p.strip('() ') if matched(p) and p.startswith('(') else p


def matched(p):
    """Whether the first bracket is closed by the last character."""
    depth = 0
    for i, c in enumerate(p):
        depth += (c == '(') - (c == ')')
        if depth == 0:
            return i == len(p) - 1
    return False


def by_line(sources, pattern, only=lambda line: True):
    """The lines that a pattern is on."""
    for s in sources:
        for i, line in enumerate(s.lines):
            if re.search(pattern, line) and only(line):
                yield f'{s.name}:{i + 1}: {line.strip()}'


def result_shaped(sources):
    """Enums of two variants, one of which has no value or the reason of a refusal."""
    for s in sources:
        for m in re.finditer(r'enum (\w+)(?:<[^>]*>)? \{(.*?)\n\}', s.text, re.S):
            variants = re.findall(r'^    (\w+)(?:\(([^)]*)\)| \{([^}]*)\})?(?: = \d+)?,', m[2], re.M | re.S)
            lone = [v for v in variants if re.fullmatch(r'Refused|Malformed|Unknown|None|NotPacked|TooLong|Failed|Missing', v[0])]
            if lone and len(variants) > len(lone):
                yield f'{s.name}:{s.text.count(chr(10), 0, m.start()) + 1}: enum {m[1]}'


def passed_on(sources):
    """Tests of an own answer that end the function with the same answer."""
    for s in sources:
        for m in re.finditer(r'let ([^;{]*?(?:::\w+)(?:\([^)]*\)| \{[^}]*\})?) = [^;]*? else \{\s*return ([^;]*);\s*\};', s.text):
            yield f'{s.name}:{s.text.count(chr(10), 0, m.start()) + 1}: {" ".join(m[1].split())} .. else return {m[2]}'


def facts(sources):
    """Facts in the clauses of three functions or more."""
    found = {}
    for s in sources:
        for name, line, _, clauses, _ in s.functions():
            for kind, clause in clauses:
                if kind == 'requires':
                    for fact in set(conjuncts(clause.strip())):
                        found.setdefault(fact, []).append(f'{s.name}:{line}: {name}')
    for fact, places in sorted(found.items()):
        if len(places) >= 3:
            yield f'{fact}: {len(places)} functions: ' + ', '.join(p.split(': ')[1] for p in places)


def travelling(sources):
    """Parameters of the same three names that stand in three functions or more of a crate."""
    found = {}
    for s in sources:
        crate = s.name.split('/')[1]
        for name, line, parameters, _, _ in s.functions():
            names = [p for p, _ in parameters if p != 'self']
            for i in range(len(names) - 2):
                found.setdefault((crate, tuple(names[i : i + 3])), []).append(name)
    for (crate, names), places in sorted(found.items()):
        if len(places) >= 3:
            yield f'{crate}: {", ".join(names)}: {len(places)} functions: ' + ', '.join(places)


def normal(body):
    """A body with its names replaced in the order of their first use, and its numbers too."""
    names = {}
    return re.sub(r'[A-Za-z_]\w*|\d\w*', lambda m: names.setdefault(m[0], f'n{len(names)}'), ' '.join(body.split()))


def twins(sources):
    """Functions whose bodies are the same but for names and numbers; of three lines or more."""
    found = {}
    for s in sources:
        for name, line, _, _, body in s.functions():
            if body.count('\n') >= 3:
                found.setdefault(normal(body), []).append(f'{s.name}:{line}: {name}')
    for places in found.values():
        if len(places) > 1:
            yield ' = '.join(places)


def indexed(sources):
    """Functions that take a slice, and an index or a length that goes with it."""
    for s in sources:
        for name, line, parameters, _, _ in s.functions():
            for (p, t), (q, u) in zip(parameters, parameters[1:]):
                if '[u8]' in t and u.strip() == 'usize' and re.fullmatch(r'at|from|start|to|count|n|offset|end|filled|column|resume|index|step|pairs|room', q):
                    yield f'{s.name}:{line}: {name}: {p}, {q}'


def uncited(root):
    """Lemmas of proofs/ that no file names but the one that has them, and there once."""
    texts = {p: p.read_text(encoding='utf-8') for c in root.glob('crates/*') for d in ('proofs', 'specs') for p in (c / d).rglob('*.antt')}
    texts |= {p: p.read_text(encoding='utf-8') for p in root.glob('crates/*/src/*.rt')}
    words = {}
    for p, t in texts.items():
        for w in re.findall(r"[\w'′₀₁-]+", re.sub(r'--.*', '', t)):
            words[w] = words.get(w, 0) + 1
    for p, t in sorted(texts.items()):
        if p.parent.name == 'proofs':
            for m in re.finditer(r"^ *(?:pub )?([a-z]\w*(?:-\w+)*) (?:\{[^}]*\} )?: ", t, re.M):
                if words.get(m[1], 0) <= len(re.findall(rf'^ *(?:pub )?{re.escape(m[1])}\b', t, re.M)):
                    yield f'{p.relative_to(root)}: {m[1]}'


def main():
    arguments = [a for a in sys.argv[1:] if a != '--list']
    root = pathlib.Path(arguments[0] if arguments else '.').resolve()
    sources = [Source(root, p) for p in sorted(root.glob('crates/*/src/*.rt'))]
    counts = [
        ('1  own enums of the shape of Option or Result', result_shaped(sources)),
        ('1  answers that are tested and passed on by hand', passed_on(sources)),
        ('1  a flag or a number that says that there is no value', by_line(sources, r'\bfailed: bool|\brefused: bool|times == 0|_ => 16|return line\.len\(\)|\breturn 16\b')),
        ('1  a number for a refusal or a kind', by_line(sources, r'Refusal::\w+ => \d|\bnumber_of\(')),
        ('2  functions that are alike but for names and numbers', twins(sources)),
        ('2  constants of types that differ in nothing else', by_line(sources, r'^    pub const (STRIDE|R|G|B|A): usize')),
        ('3  loops with while', by_line(sources, r'^\s*(while|loop)\b')),
        ('3  an index that is counted', by_line(sources, r'\b(\w+) (\+= 1|= \1 \+ 1);|\b(\w+) = \3 - 1;')),
        ('4  conversions with as', by_line(sources, r'\bas (u8|u16|u32|u64|usize|i16|i64)\b')),
        ('4  wrapping arithmetic by a path', by_line(sources, r'std::num::wrapping')),
        ('4  the lesser of two, a sum that stops at the top, by hand', by_line(sources, r'if a < b \{ a \} else \{ b \}|fn (lesser|least|saturating_add|wide)\b|if left < \w+ \{|if run < 15')),
        ('4  equality by hand', by_line(sources, r'\.refused == |\.number != ')),
        ('5  facts in the requires of three functions or more', facts(sources)),
        ('5  three parameters that travel together in three functions or more', travelling(sources)),
        ('6  a slice with an index or a length beside it', indexed(sources)),
        ('7  a match on which step to run', by_line(sources, r'match (operation|source|image|kind)\b')),
        ('8  lemmas that nothing cites', uncited(root)),
    ]
    for what, places in counts:
        places = list(places)
        print(f'{len(places):5}  {what}')
        if '--list' in sys.argv:
            for p in places:
                print(f'         {p}')


if __name__ == '__main__':
    main()
