#!/usr/bin/env python3
"""Prints what of a repository's contracts differs from an older checkout of it, old and new side by side, as docs/DESIGN-PASS.md has it.

  tools/side_by_side.py OLD [NEW]

Public functions and methods with their clauses, facts that types keep (ghost fields), definitions of specs/, and the statements of lemmas that README or a page
of docs/ names. It goes by text, and finds a thing again by crate and name."""

import pathlib
import re
import sys


def squeeze(text):
    return re.sub(r',? ?([)\]}>])', r'\1', re.sub(r'([(\[<]) ', r'\1', ' '.join(text.split())))


def without_comments(text, mark):
    return re.sub(rf'(?m)^ *{mark}.*\n|(?<=\s){mark} .*', '', text)


def functions(root):
    for path in sorted(root.glob('crates/*/src/*.rt')):
        crate, owner = path.parts[-3], ''
        text = without_comments(path.read_text(encoding='utf-8'), '//')
        for m in re.finditer(r'^impl(?:<[^>]*>)? (?:[\w<>]+ for )?(\w+)|^( *)pub (?:extern "C" )?fn (\w+)', text, re.M):
            if m[1]:
                owner = m[1]
                continue
            end = re.compile(r'\n *\{\n| \{\n').search(text, m.end()).start()
            name = f'{owner}::{m[3]}' if m[2] else m[3]
            yield (crate, name), squeeze(text[m.start() : end])


def facts(root):
    for path in sorted(root.glob('crates/*/src/*.rt')):
        text = without_comments(path.read_text(encoding='utf-8'), '//')
        for m in re.finditer(r'struct (\w+)[^{;]*\{(.*?)\n\}', text, re.S):
            found = [squeeze(g) for g in re.findall(r'ghost (\w+: \{.*?\}),(?:\n|$)', m[2], re.S)]
            if found:
                yield (path.parts[-3], m[1]), '; '.join(found)


def definitions(root):
    for path in sorted(root.glob('crates/*/specs/*.antt')):
        text = without_comments(path.read_text(encoding='utf-8'), '--')
        starts = list(re.finditer(r'^(?:abbrev |unfoldable )*pub (?:record |data )?(?!mod )([^\s:{(]+)', text, re.M))
        for m, end in zip(starts, [n.start() for n in starts[1:]] + [len(text)]):
            if 'Example' not in path.name:
                yield (path.parts[-3], m[1]), squeeze(re.sub(r'^use .*$', '', text[m.start() : end], flags=re.M))


def lemmas(root, named):
    for path in sorted(root.glob('crates/*/proofs/*.antt')):
        text = without_comments(path.read_text(encoding='utf-8'), '--')
        for m in re.finditer(r'^ *pub ([\w-]+)(?: \{[^}]*\})? : (.*(?:\n +(?:→|×|\().*)*)', text, re.M):
            if m[1] in named:
                yield (path.parts[-4] if path.parts[-3] == 'proofs' else path.parts[-3], m[1]), squeeze(m[2])


def compare(title, old, new):
    print(f'### {title}\n')
    changed = [(k, old.get(k), new.get(k)) for k in sorted({**old, **new}) if old.get(k) != new.get(k)]
    for (crate, name), before, after in changed:
        print(f'{crate}, `{name}`:\n\n    old: {before or "none"}\n    new: {after or "none"}\n')
    print(f'The same: {len([k for k in old if old[k] == new.get(k)])}.\n')


def main():
    old, new = (pathlib.Path(a).resolve() for a in (sys.argv[1:] + ['.'])[:2])
    pages = [new / 'README.md', *(p for p in (new / 'docs').glob('*.md') if p.name not in ('PORT.md', 'DESIGN-PASS.md'))]
    pages += [old / 'README.md', *(p for p in (old / 'docs').glob('*.md') if p.name != 'PORT.md')]
    named = {w for p in pages for t in re.findall(r'`([^`]+)`', p.read_text(encoding='utf-8')) for w in re.findall(r'[\w-]+', t)}
    compare('Public functions', dict(functions(old)), dict(functions(new)))
    compare('Facts that a type keeps', dict(facts(old)), dict(facts(new)))
    compare('Definitions', dict(definitions(old)), dict(definitions(new)))
    compare('Lemmas that a page names', dict(lemmas(old, named)), dict(lemmas(new, named)))


if __name__ == '__main__':
    main()
