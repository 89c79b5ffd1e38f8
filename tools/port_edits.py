#!/usr/bin/env python3
"""port_edits: the must-fail edits in the spelling that port.py and respell.py give the files that they change.

usage: python3 tools/port_edits.py COMMIT     at the top, where port.py and respell.py have run; COMMIT is what they ran on

Each edit is applied to the files of COMMIT as a copy beside the file that it changes, the copies are turned by the same two scripts, and
what then differs between file and copy is the edit. An edit whose text still stands, and one that cannot be read off so, is left as it is
and printed.
"""
import difflib
import os
import re
import shutil
import subprocess
import sys
import tempfile

HERE = os.path.dirname(os.path.abspath(__file__))


def read(path):
    with open(path, encoding='utf-8') as f:
        return f.read()


def write(path, text):
    with open(path, 'w', encoding='utf-8') as f:
        f.write(text)


def edits(root):
    for crate in sorted(os.listdir(os.path.join(root, 'crates'))):
        folder = os.path.join(root, 'crates', crate, 'must-fail')
        for name in sorted(os.listdir(folder)) if os.path.isdir(folder) else []:
            if name.endswith('.edit'):
                yield crate, name[:-5], os.path.join(folder, name)


def parsed(path):
    file, pairs, old = None, [], None
    for line in read(path).split('\n'):
        if line.startswith('file: '):
            file = line[6:]
        elif line.startswith('old: '):
            old = line[5:]
        elif line.startswith('new: ') or line == 'new:':
            pairs.append((file, old, line[5:]))
    return pairs


def variant(path, name, k):
    stem, end = os.path.splitext(path)
    return '%s_edit_%s_%d%s' % (stem, name, k, end)


def stands(base, path, name):
    """Whether the edit's own text makes of the turned file what its copy was turned to."""
    texts = {}
    for k, (file, old, new) in enumerate(parsed(path), 1):
        text = texts.get(file) or read(os.path.join(base, file))
        there = variant(os.path.join(base, file), name, k)
        if text.count(old) != 1 or not os.path.exists(there):
            return False
        texts[file] = text.replace(old, new)
        if texts[file] != read(there):
            return False
    return True


def unique(text, before, after):
    """The least part of a line, in whole words, that stands once in the text, with what it becomes."""
    a, b = before.strip(), after.strip()
    if text.count(a) == 1 and len(a) <= 200:
        return a, b
    left = len(os.path.commonprefix([a, b]))
    right = len(os.path.commonprefix([a[left:][::-1], b[left:][::-1]]))
    while True:
        part = a[left:len(a) - right]
        clean = (left == 0 or a[left - 1] == ' ') and (right == 0 or a[len(a) - right] in ' ,;)')
        if clean and part and part == part.strip() and text.count(part) == 1:
            return part, b[left:len(b) - right]
        if left == 0 and right == 0:
            return None
        if left and (right == 0 or left >= right or a[left - 1] != ' '):
            left -= 1
        else:
            right -= 1


def main():
    commit = sys.argv[1]
    top = tempfile.mkdtemp(prefix='edits-')
    work = os.path.join(top, 'work')
    subprocess.run(['git', 'clone', '-q', '.', work], check=True)
    subprocess.run(['git', 'checkout', '-q', commit], cwd=work, check=True)
    for crate, name, path in edits(work):
        base = os.path.join(work, 'crates', crate)
        texts = {}
        for k, (file, old, new) in enumerate(parsed(path), 1):
            whole = os.path.join(base, file)
            text = texts.get(file) or read(whole)
            if text.count(old) != 1:
                print('not once in %s: %s/%s' % (commit, crate, name))
                continue
            texts[file] = text.replace(old, new)
            write(variant(whole, name, k), texts[file])
    subprocess.run(['git', 'add', '-A'], cwd=work, check=True)
    subprocess.run(['git', '-c', 'user.name=x', '-c', 'user.email=x@x', 'commit', '-qm', 'variants'], cwd=work, check=True)
    kit = os.path.dirname(subprocess.run(['rt', 'doc'], check=True, stdout=subprocess.PIPE, text=True).stdout.strip())
    subprocess.run([sys.executable, os.path.join(kit, 'port', 'port.py')], cwd=work, check=True, stdout=subprocess.DEVNULL)
    subprocess.run([sys.executable, os.path.join(HERE, 'respell.py')], cwd=work, check=True)
    turned = left = 0
    for crate, name, path in edits(work):
        base = os.path.join(work, 'crates', crate)
        lines, texts, bad = [], {}, []
        files = []
        for k, (file, old, new) in enumerate(parsed(path), 1):
            whole = os.path.join(base, file)
            there = variant(whole, name, k)
            if not os.path.exists(there):
                bad.append('no copy')
                continue
            before, after = texts.get(file) or read(whole), read(there)
            texts[file] = after
            if file not in files:
                files.append(file)
                lines.append('file: ' + file)
            xs, ys = before.split('\n'), after.split('\n')
            blocks = [o for o in difflib.SequenceMatcher(None, xs, ys, autojunk=False).get_opcodes() if o[0] != 'equal']
            if not blocks or any(o[2] - o[1] != o[4] - o[3] for o in blocks):
                bad.append('the lines differ in number')
                continue
            for _, a, b, c, d in blocks:
                for x, y in zip(xs[a:b], ys[c:d]):
                    if x != y:
                        part = unique(before, x, y)
                        if part is None:
                            bad.append('not once: ' + x)
                        else:
                            lines += ['old: ' + part[0], 'new: ' + part[1]]
        if stands(base, path, name):
            continue
        if bad or not lines:
            left += 1
            print('by hand: %s/%s: %s' % (crate, name, '; '.join(bad)))
            continue
        head = [x for x in read(path).split('\n') if not re.match(r"(file|old|new):", x)]
        while head and not head[-1]:
            head.pop()
        write(os.path.join('crates', crate, 'must-fail', name + '.edit'), '\n'.join(head + lines) + '\n')
        turned += 1
    print('turned %d, left %d' % (turned, left))
    shutil.rmtree(top)


if __name__ == '__main__':
    main()
