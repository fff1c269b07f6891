#!/usr/bin/env python3
"""Gives the definitions and lemmas of this repository the spelling of today's Rattle.

  tools/respell.py [FOLDER]

Run once, after the kit's port.py, at the top of the repository or on the folder that is named. tools/port-names.txt has a line 'OLD NEW' for
each name. Sources, definitions, proofs and must-fail edits are turned whole; pages only between back quotes. In comments a name with a dash is
turned only between back quotes, since it may be a plain word. No string, number or file name is touched."""

import pathlib
import re
import sys

TOP = pathlib.Path(__file__).resolve().parent
NAMES = dict(line.split() for line in (TOP / 'port-names.txt').read_text(encoding='utf-8').splitlines())
WORD = re.compile(r"(?<![\w'·-])[^\W\d][\w'-]*")
QUOTED = re.compile(r'`[^`\n]*`')
STRING = re.compile(r'"(?:[^"\\]|\\.)*"')


def turned(text, only=lambda name: True):
    def one(found):
        name = found[0]
        return NAMES[name] if name in NAMES and only(name) else name

    return WORD.sub(one, text)


def plain_word(name):
    return '-' in name and not re.search('[A-Z]', name)


def comment(text):
    """A comment: between back quotes every name, elsewhere those that are no plain words."""
    text = QUOTED.sub(lambda quoted: turned(quoted[0]), text)
    return turned(text, lambda name: not plain_word(name))


def page(text):
    return QUOTED.sub(lambda quoted: turned(quoted[0]), text)


def source(text, mark):
    """Lines of code. `mark` begins a comment; strings stay."""
    lines = []
    for line in text.split('\n'):
        code, sep, rest = line.partition(mark) if not STRING.search(line) else (line, '', '')
        parts, end = [], 0
        for found in STRING.finditer(code):
            parts += [turned(code[end : found.start()]), found[0]]
            end = found.end()
        lines.append(''.join(parts) + turned(code[end:]) + sep + (comment(rest) if sep else ''))
    return '\n'.join(lines)


def edit(text):
    lines = []
    for line in text.split('\n'):
        if line.startswith('#'):
            lines.append(comment(line))
        else:
            word, sep, rest = line.partition(':')
            lines.append(word + sep + (rest if word == 'file' else source(rest, '//')))
    return '\n'.join(lines)


KINDS = {'.antt': lambda text: source(text, '--'), '.rt': lambda text: source(text, '//'), '.edit': edit, '.md': page}


def main(top):
    for path in sorted(top.rglob('*')):
        if path.suffix in KINDS and not {'out', 'target', '.git', 'node_modules'} & set(path.relative_to(top).parts):
            if path.suffix == '.md' and path.name in ('PORT.md', 'DESIGN-PASS.md'):
                continue
            before = path.read_text(encoding='utf-8')
            after = KINDS[path.suffix](before)
            if after != before:
                path.write_text(after, encoding='utf-8')


if __name__ == '__main__':
    main(pathlib.Path(sys.argv[1] if len(sys.argv) > 1 else TOP.parent))
