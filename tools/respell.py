#!/usr/bin/env python3
"""respell: the definitions, fields and lemmas of specs/ and proofs/ in the spelling that the library has.

usage: python3 tools/respell.py [--list]     at the top; --list writes the names and changes nothing

Words are in snake case. A dash stays in a lemma's name where it joins the names of two definitions, as in `length-drop`; any other
becomes `_`. Names of the library stay. What is renamed: .antt files, clauses and `ghost use` lines of .rt files, must-fail edits, and
names between backquotes or in brackets of a page. Functions of src/, C names, strings, inputs and outputs are not: no such name is in
camel case. It is run once, after port.py.
"""
import os
import re
import sys

WORD = re.compile(r"[A-Za-z_][\w']*(?:[-→≢≡≤≥<>+*/∷][\w'→≢≡≤≥<>+*/∷]+)*")
LIBRARY_WORDS = ('length drop take append set get_or map reverse cond pick not and or add mul sub zero suc eqb leb ltb '
                 'min max concat nth replicate').split()
# names that would fall together with another of the same file
OTHERWISE = {
    'fullFrom': 'is_full_from',
    'noCell': 'no_cell_byte',
    'cell-kind': 'cell_stays',
}


def files(ends, root='crates'):
    for folder, dirs, names in os.walk(root):
        dirs[:] = sorted(d for d in dirs if d not in ('out', 'target', '.git'))
        for name in sorted(names):
            if name.endswith(ends):
                yield os.path.join(folder, name)


def read(path):
    with open(path, encoding='utf-8') as f:
        return f.read()


def code(path):
    """A file's lines without comments."""
    mark = '//' if path.endswith('.rt') else '--'
    return [line.split(' ' + mark)[0] for line in read(path).split('\n') if not line.lstrip().startswith(mark)]


def is_variant(path):
    return '_edit_' in os.path.basename(path)


def declared(crates):
    """Own definitions (with a body that clauses or lemmas compute with), and all own names."""
    definitions, names = set(), set()
    for path in files('.antt'):
        if path.endswith('/Proof.antt') or is_variant(path):
            continue
        for line in code(path):
            m = re.match(r"(\s*)((?:abbrev |unfoldable )?(?:pub )?)(\S+) :(?= |$)", line)
            if m and re.match(r"[a-z]", m.group(3)):
                names.add(m.group(3))
                if 'abbrev' in m.group(2) or 'unfoldable' in m.group(2) or '/specs/' in path:
                    definitions.add(m.group(3))
    return definitions, names


def imported(crates):
    """Names that are the library's."""
    found = set()
    for path in files(('.antt', '.rt')):
        for m in re.finditer(r"use ([A-Z·a-z][^\s{]*)\.\{([^}]*)\}", read(path)):
            parts = m.group(1).split('.')
            if not (parts[0] == 'Rattle' and len(parts) > 1 and parts[1] in crates):
                found.update(x.split(' as ')[0].strip() for x in m.group(2).split(','))
    return found


def snake(word):
    return re.sub(r"(?<=[a-z0-9'])([A-Z])", lambda m: '_' + m.group(1).lower(), word)


def respelled():
    crates = set(os.listdir('crates'))
    definitions, names = declared(crates)
    library = imported(crates)
    known = {snake(d) for d in definitions} | set(LIBRARY_WORDS)
    camel = set()
    for path in files(('.antt', '.rt')):
        if path.endswith('/Proof.antt') or is_variant(path):
            continue
        for line in code(path):
            for m in re.finditer(r"(?<![\w'])[a-z][\w']*", line):
                if re.search(r"[a-z0-9][A-Z]", m.group()):
                    camel.add(m.group())
    table = {}
    for name in sorted(names | camel):
        if name in library:
            continue
        new = OTHERWISE.get(name) or snake(name)
        if '-' in new:
            parts = new.split('-')
            new = parts[0]
            for before, after in zip(parts, parts[1:]):
                new += ('-' if before in known and after in known else '_') + after
        if new != name:
            table[name] = new
    # a lemma that would have its function's name
    taken = names | {new for old, new in table.items() if '-' not in old}
    for name, new in table.items():
        if '-' in name and new in taken:
            table[name] = new + '_lem'
    return table, names, library


def clashes(table, names):
    """Names that fall together with another one of a file where the old name stands."""
    back = {}
    for old, new in table.items():
        back.setdefault(new, []).append(old)
    said = ['%s: %s' % (new, ', '.join(olds)) for new, olds in sorted(back.items()) if len(olds) > 1]
    for path in files(('.antt', '.rt')):
        if is_variant(path):
            continue
        there = set()
        for line in code(path):
            if path.endswith('.rt') and not re.search(r"ghost|requires|ensures", line):
                continue
            there.update(m.group() for m in WORD.finditer(line))
        for old in sorted(there & set(table)):
            if table[old] in there:
                said.append('%s: %s and %s' % (path, old, table[old]))
    return said


def main():
    table, names, library = respelled()
    if '--list' in sys.argv:
        for old, new in sorted(table.items()):
            print(old, new)
        for line in clashes(table, names):
            print('clash:', line)
        return
    pattern = re.compile(r"(?<![\w'→-])(" + '|'.join(re.escape(x) for x in sorted(table, key=len, reverse=True)) + r")(?![\w'→]|-[\w])")
    # a `-` before or behind a name is part of a longer one, and of none where a space stands beside it
    for path in list(files(('.antt', '.rt', '.edit'))):
        text = read(path)
        new = pattern.sub(lambda m: table[m.group(1)], text)
        if new != text:
            with open(path, 'w', encoding='utf-8') as f:
                f.write(new)
    for path in [p for p in ['README.md'] + list(files('.md', 'docs')) if os.path.exists(p)]:
        text = read(path)
        new = re.sub(r"`[^`\n]+`|\[[^\]\n]+\]", lambda q: pattern.sub(lambda m: table[m.group(1)], q.group()), text)
        if new != text:
            with open(path, 'w', encoding='utf-8') as f:
                f.write(new)


if __name__ == '__main__':
    main()
