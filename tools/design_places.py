#!/usr/bin/env python3
"""Lists the places of docs/DESIGN-PASS.md that grep cannot: python3 tools/design_places.py twins | facts | lengths

twins    pairs of functions with a statement or a choice in their bodies, which differ in little but names: at least nine tokens in ten are
         the same once names of values and numbers are left out
facts    what stands, but for names of values, in the clauses of three or more functions
lengths  functions that take a slice with an offset or a length of it beside
"""
import collections
import difflib
import glob
import re
import sys

FUNCTION = re.compile(r'^( *)(pub )?(extern "C" )?fn (\w+)(<[^(]*>)?\((.*?)\)( -> [^{]*?)?\s*\n?((?:\s*(?:requires|ensures)[^\n]*\n|\s*//[^\n]*\n|\s*\n)*)\1\{\n(.*?)\n\1\}', re.S | re.M)
TOKEN = re.compile(r"[A-Za-z_]\w*|\d+|[^\sA-Za-z_0-9]+")
KEEP = set('let mut if else for in while loop match return break true false as fn pub self Some None Ok Err'.split())


def functions():
    for path in sorted(glob.glob('crates/*/src/*.rt')):
        text = re.sub(r'[ \t]*//[^\n]*\n', '\n', open(path).read())
        for found in FUNCTION.finditer(text):
            _, _, _, name, _, arguments, result, clauses, body = found.groups()
            yield path, name, arguments, result or '', clauses or '', body


def shape_of(body):
    tokens = TOKEN.findall(body)
    shape = []
    for k, token in enumerate(tokens):
        if re.match(r'[A-Za-z_]', token) and token not in KEEP:
            shape.append('call' if k + 1 < len(tokens) and tokens[k + 1].startswith('(') else 'name')
        elif token.isdigit():
            shape.append('number')
        else:
            shape.append(token)
    return shape


def twins():
    listed = [(path, name, shape_of(body)) for path, name, _, _, _, body in functions() if '_cases' not in path]
    listed = [one for one in listed if len(one[2]) >= 12 and {'let', 'for', 'if', 'match', 'while'} & set(one[2])]
    for k, (path, name, shape) in enumerate(listed):
        for other_path, other, other_shape in listed[k + 1:]:
            if min(len(shape), len(other_shape)) < 0.8 * max(len(shape), len(other_shape)):
                continue
            match = difflib.SequenceMatcher(None, shape, other_shape, autojunk=False)
            if match.real_quick_ratio() >= 0.9 and match.quick_ratio() >= 0.9 and match.ratio() >= 0.9:
                yield f'{path}: {name} ~ {other_path}: {other}'


def facts():
    found = collections.defaultdict(set)
    for path, name, arguments, _, clauses, _ in functions():
        values = set(re.findall(r'(\w+)\s*:', arguments)) | {'result'}
        for clause in re.findall(r'requires \{ (.*) \}', clauses):
            depth, start, parts = 0, 0, []
            for k, letter in enumerate(clause):
                depth += letter in '(⟨' 
                depth -= letter in ')⟩'
                if depth == 0 and letter == '×':
                    parts.append(clause[start:k])
                    start = k + 1
            parts.append(clause[start:])
            for part in parts:
                part = part.strip()
                if part.startswith('(') and part.endswith(')'):
                    part = part[1:-1]
                part = re.sub(r'\b(\w+)\.(now|old|new)\b', r'\1', part)
                part = re.sub(r'\w+', lambda m: '_' if m.group() in values else m.group(), part)
                found[part].add(f'{path}: {name}')
    for part, where in sorted(found.items(), key=lambda item: -len(item[1])):
        if len(where) >= 3:
            yield f'{len(where):3} functions: {part}'


def lengths():
    for path, name, arguments, _, _, _ in functions():
        slices = re.findall(r'\w+: &(?:mut )?\[\w+\]', arguments)
        numbers = re.findall(r'\b(n|from|to|a|b|c|low|high|of|keep|grow|start|len|size|values|card|count|k|r): usize', arguments)
        if slices and numbers:
            yield f'{path}: {name}: {", ".join(numbers)}'


kind = sys.argv[1] if len(sys.argv) == 2 else ''
if kind not in ('twins', 'facts', 'lengths'):
    sys.exit(__doc__)
listed = list({'twins': twins, 'facts': facts, 'lengths': lengths}[kind]())
print('\n'.join(listed))
print(len(listed), file=sys.stderr)
