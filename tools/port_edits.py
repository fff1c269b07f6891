#!/usr/bin/env python3
"""Turns the must-fail edits of the commit before the port, once.

  tools/port_edits.py variants FOLDER      in FOLDER, a checkout of that commit: writes, beside each file that an edit changes, the edited text as
                                           zzK_NAME, so that the kit's port.py and tools/respell.py, run there next, turn it like the file itself
  tools/port_edits.py edits FOLDER         afterwards: writes each edit here anew as the difference of the two turned texts, where the turned
                                           words of the old edit do not say the same already; names those that are left to be turned by hand"""

import difflib
import json
import pathlib
import sys

TOP = pathlib.Path(__file__).resolve().parent.parent


def pairs(path):
    """The lines of an edit that are no pairs, and its pairs: a file, the old text, the new one."""
    head, found, name, old = [], [], None, None
    for line in path.read_text(encoding='utf-8').splitlines():
        word, _, rest = line.partition(':')
        rest = rest.removeprefix(' ')
        if word == 'file':
            name = rest
        elif word == 'old':
            old = rest
        elif word == 'new':
            found.append((name, old, rest))
        else:
            head.append(line)
    return head, found


def applied(found, read):
    """The edited text of each file, or None where an old text does not stand once."""
    texts = {}
    for name, old, new in found:
        text = texts.get(name) or read(name)
        if not old or text.count(old) != 1:
            return None
        texts[name] = text.replace(old, new)
    return texts


def variants(top):
    listed = []
    for number, path in enumerate(sorted(top.glob('crates/*/must-fail*/*.edit'))):
        crate = path.parent.parent
        texts = applied(pairs(path)[1], lambda name: (crate / name).read_text(encoding='utf-8'))
        files = []
        for name, text in texts.items():
            to = (crate / name).with_name(f'zz{number}_{pathlib.PurePath(name).name}')
            to.write_text(text, encoding='utf-8')
            files.append([name, str(to.relative_to(top))])
        listed.append([str(path.relative_to(top)), files])
    (top / 'variants.json').write_text(json.dumps(listed, indent=1), encoding='utf-8')


def differences(before, after):
    """Pairs of lines, or None where the texts differ in their number of lines."""
    found = []
    a, b = before.split('\n'), after.split('\n')
    for tag, i, j, k, m in difflib.SequenceMatcher(None, a, b, autojunk=False).get_opcodes():
        if tag == 'equal':
            continue
        if j - i != m - k:
            return None
        found += list(zip(a[i:j], b[k:m]))
    return found


def edits(top):
    left = kept = written = 0
    for name, files in json.loads((top / 'variants.json').read_text(encoding='utf-8')):
        path, crate = TOP / name, (TOP / name).parent.parent
        turned = {}
        for file, to in files:
            turned[file] = ((top / crate.relative_to(TOP) / file).read_text(encoding='utf-8'), (top / to).read_text(encoding='utf-8'))
        head, old_pairs = pairs(path)
        texts = applied(old_pairs, lambda file: turned[file][0])
        now = applied(old_pairs, lambda file: (crate / file).read_text(encoding='utf-8'))
        if texts and now and all(texts[file] == turned[file][1] for file in turned):
            kept += 1
            continue
        lines, new_pairs, bad = list(head), [], False
        for file, (before, after) in turned.items():
            lines.append(f'file: {file}')
            found = differences(before, after)
            bad = bad or found is None
            for old, new in found or []:
                new_pairs.append((file, old, new))
                lines += [f'old: {old}', f'new: {new}']
        if bad or applied(new_pairs, lambda file: (crate / file).read_text(encoding='utf-8')) is None:
            left += 1
            print(f'left: {name}')
            continue
        path.write_text('\n'.join(lines) + '\n', encoding='utf-8')
        written += 1
    print(f'{kept} fit as they are, {written} written anew, {left} left')


if __name__ == '__main__':
    {'variants': variants, 'edits': edits}[sys.argv[1]](pathlib.Path(sys.argv[2]).resolve())
