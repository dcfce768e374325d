#!/usr/bin/env python3
"""Lists the places in src/ that docs/DESIGN-PASS.md counts, point by point.

    tools/places.py [COMMIT]      the tree of a commit, else the files as they are

It goes by text: what it lists is read, and the page says what each place is.
"""
import collections
import itertools
import re
import subprocess
import sys


def sources(commit):
    if commit:
        names = subprocess.check_output(['git', 'ls-tree', '-r', '--name-only', commit, 'crates'], text=True)
    else:
        names = subprocess.check_output(['git', 'ls-files', 'crates'], text=True)
    for name in names.split('\n'):
        if re.fullmatch(r'crates/[a-z_]+/src/.*\.rt', name) and 'tests' not in name and '/cases/' not in name:
            if commit:
                yield name, subprocess.check_output(['git', 'show', f'{commit}:{name}'], text=True)
            else:
                with open(name) as f:
                    yield name, f.read()


def lines(files, pattern, without=None):
    for name, text in files:
        for number, line in enumerate(text.split('\n'), 1):
            code = line.split('//')[0]
            if re.search(pattern, code) and not (without and re.search(without, code)):
                yield f'{name}:{number}: {line.strip()}'


def enums(files):
    """Enums of two cases, of which one at least has a value."""
    for name, text in files:
        for m in re.finditer(r'enum (\w+)[^{]*\{(.*?)\n\}', text, re.S):
            body = re.sub(r'//[^\n]*', '', m.group(2))
            cases = [c.strip() for c in re.split(r',\s*\n', body) if c.strip(' ,\n')]
            if len(cases) == 2 and any('(' in c or '{' in c for c in cases):
                yield f'{name}: enum {m.group(1)} {{ {"; ".join(c.strip(", ") for c in cases)} }}'


def bodies(files):
    """Functions whose bodies differ only in names, numbers, types or texts."""
    same = collections.defaultdict(list)
    for name, text in files:
        for m in re.finditer(r'\n( *)((?:pub(?:\([a-z]+\))? )?fn (\w+)[^;{]*?(?:\n\1 +(?:ensures|requires)[^\n]*)*\n\1\{)(.*?)\n\1\}', text, re.S):
            body = re.sub(r'//[^\n]*', '', m.group(4))
            shape = re.sub(r'b?"[^"]*"|\b\d\w*\b|[A-Za-z_]\w*', 'x', re.sub(r'\s+', ' ', body))
            if len(re.findall('x', shape)) > 3:
                same[shape].append(f'{name}: {m.group(3)}')
    for found in same.values():
        if len(found) > 1:
            yield ' = '.join(found)


def types(files):
    """Structs and enums of one name in two crates."""
    seen = collections.defaultdict(list)
    for name, text in files:
        for m in re.finditer(r'\n(?:pub )?(?:struct|enum) (\w+)', text):
            seen[m.group(1)].append(name)
    for what, found in seen.items():
        if len(found) > 1:
            yield f'{what}: ' + ', '.join(found)


def clauses(files):
    """Requirements that stand in three contracts of a crate, and facts that relate a value before and after."""
    seen = collections.Counter()
    for name, text in files:
        for m in re.finditer(r'(?:requires|ensures)(?: [a-z_]+)? (\{.*\})', text):
            seen[name.split('/')[1], re.sub(r'\w+\.(now|old)\b', 'x.old', m.group(1))] += 1
    for (crate, clause), count in seen.items():
        if count > 2:
            yield f'{crate}: {count} times {clause}'


def together(files):
    """Two parameters that three functions of a crate have."""
    seen = collections.Counter()
    for name, text in files:
        for m in re.finditer(r'fn \w+(?:<[^>]*>)?\(([^)]*)\)', text):
            given = sorted({re.sub(r'\s+', ' ', p.strip()) for p in m.group(1).split(',') if re.match(r'\s*\w+\s*:', p)})
            for pair in itertools.combinations(given, 2):
                seen[name.split('/')[1], pair] += 1
    for (crate, pair), count in seen.items():
        if count > 2:
            yield f'{crate}: {count} functions take ' + ' and '.join(pair)


def main():
    files = list(sources(sys.argv[1] if len(sys.argv) > 1 else None))
    points = [
        ('1 enums of two cases with a value', enums(files)),
        ('1 flags as answers of what changes, or as parameters', lines(files, r'fn .*&mut .*-> bool|\w: bool\b')),
        ('1 numbers for kinds', lines(files, r'\brank\b.*: u8|-> u8|NO_[A-Z]+', r'ensures|requires')),
        ('2 functions of one shape', bodies(files)),
        ('2 types of one name', types(files)),
        ('3 loops that count', lines(files, r'\bfor \w+ in [^{]*\.\.|\bwhile (?!let)|\bfor \(\w+, \w+\) in')),
        ('4 by hand', lines(files, r'impl.*\b(PartialEq|Eq|PartialOrd|Ord|Clone|Copy|From<.*>|TryFrom<.*>|Display)\b.* for|fn (number|layer|same|comes_before|lowest|append_decimal|stored)\b')),
        ('5 clauses that repeat', clauses(files)),
        ('5 parameters together', together(files)),
        ('5 contracts over every source', lines(files, r'ensures.*\(source : Text\) →')),
        ('6 arrays in values', lines(files, r'^\s+(pub(\(crate\))? )?\w+: \[\w+(<\w+>)?; \w+\],')),
        ('6 stretches by indices', lines(files, r'\bSpan\b', r'use |ghost')),
        ('7 steps by tables or functions', lines(files, r'\bdyn\b|\bfn\(|\bFn\(|\bFnMut\(')),
    ]
    for title, found in points:
        found = list(found)
        print(f'{title}: {len(found)}')
        for place in found:
            print(f'    {place}')


main()
