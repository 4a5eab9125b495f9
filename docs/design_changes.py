#!/usr/bin/env python3
"""Lists what differs between two commits of what callers and readers see, old and new side by side:

    python3 docs/design_changes.py OLD [NEW]

Public functions (signature and clauses), ghost fields and invariants of types, and definitions in specs/. Names that
only went into snake case, and std's words under their newer names, count as the same. A function or definition is
found again in its crate, or under its name in one other crate, unless CHANCE says that the two only share a name.
Theorems are paired by the table of docs/DESIGN-PASS.md. A record that was named after a number, which is what balance
and conform promise, is shown under its present name.
"""
import argparse
import collections
import re
from pathlib import Path

from design_pass import TOP, files, matching, page

NEWER = [(r'\beqb\b', 'nat_eq'), (r'\bltb\b', 'nat_lt'), (r'\bleb\b', 'nat_le'), (r'\bget_or\b', 'slice_index_or'),
         (r'\bsome_below\b|\bany_below\b', 'any'), (r'\bNode\b', 'MeshNode'), (r'\bPatch\b', 'NetCell')]

RENAMED = [(r'\bDemand[A-Z]\w+', 'EndsCoarsest'), (r'\bdemand_\w+', 'ends_coarsest')]

CHANCE = {('record', 'number'), ('record', 'next'), ('strips', 'next'), ('rows', 'clear'), ('strips', 'skip'),
          ('printing', 'text')}
OF_TRAITS = {'count', 'entry', 'nodes', 'edges', 'ready', 'serves', 'output', 'from_gives', 'try_from_gives',
             'next_gives', 'remaining', 'Value', 'view'}


def squeeze(text):
    return re.sub(r'\s+', ' ', text).strip()


def snake(word):
    return re.sub(r'(?<=[a-z0-9])([A-Z])', lambda m: '_' + m[1].lower(), word) if word[:1].islower() else word


def plain(text):
    """A text in which only meaning is left to differ."""
    text = re.sub(r'[A-Za-z_]\w*', lambda m: snake(m[0]), text)
    for old, new in NEWER:
        text = re.sub(old, new, text)
    return re.sub(r'[\s()]+', '', text)


def functions(raw):
    text = re.sub(r'//[^\n]*', '', raw)
    text = text.split('#[cfg(test)]')[0]
    for m in re.finditer(r'\bpub (?:extern "C" )?fn (\w+)', text):
        start = text.find('(', m.end())
        end = matching(text, start, '(', ')')
        rest, at, clauses = text[end + 1:], 0, []
        answer = squeeze(re.split(r'\brequires\b|\bensures\b|\{', rest)[0])
        while True:
            c = re.compile(r'\s*(?:->[^{]*?)?\s*(requires|ensures\*?)(?:\s+(\w+))?\s*\{').match(rest, at)
            if not c:
                break
            stop = matching(rest, c.end() - 1, '{', '}')
            clauses.append(f'{c[1]} {c[2] or ""} {{ {squeeze(rest[c.end():stop])} }}'.replace('  ', ' '))
            at = stop + 1
        yield m[1], f'fn {m[1]}({squeeze(text[start + 1:end]).rstrip(",")}) {answer}'.strip(), clauses


def ghosts(raw):
    for m in re.finditer(r'\bghost (?!use\b)(\w+)\s*[:=]\s*\{', raw):
        yield m[1], squeeze(raw[m.end():matching(raw, m.end() - 1, '{', '}')])


def theorems(crate, raw):
    """(crate, name, statement) of what a file of proofs hands out."""
    raw = re.sub(r'(?m)\s*--.*$', '', raw)
    for m in re.finditer(r'(?m)^(\s*)pub ([\w-]+) :((?:.*\n)(?:\1\s+.*\n)*)', raw):
        yield crate, m[2], squeeze(m[3])


def print_theorems(old, new):
    print('\n## Theorems')
    table = page('DESIGN-PASS.md').read_text().split('\n## Theorems\n')[1]
    for row in re.findall(r'(?m)^\| (`.*) \| (.*) \|$', table):
        before, now = (re.findall(r'`([^`]+)`', side) for side in row)
        print('\n' + ', '.join(before) + '\n\n```')
        for word in before:
            for crate, name, text in old['theorems']:
                if name == word:
                    print(f'- {crate}: {name} : {text}')
        for word in re.findall(r'[\w:]+::(?:\{[^}]*\}|\w+)', row[1]):
            crate = word.split('::')[0]
            for fn in re.findall(r'\w+', word.rsplit('::', 1)[1] if '{' not in word else word[word.index('{'):]):
                # A word with a capital is a type, which keeps a fact.
                if (crate, fn) not in new['functions'] and fn[0].islower():
                    raise SystemExit(f'{word}: a theorem of the table that is gone')
                for sign, clauses in new['functions'].get((crate, fn), []):
                    print(f'+ {crate}: ' + sign)
                    for clause in clauses:
                        print('+     ' + clause)
                        fact = re.search(r'\{ (\w+)[ }]', clause)
                        for text in new['definitions'].get((crate, fact[1]), []) if fact else []:
                            print('+         ' + text)
        print('```')


def definitions(raw):
    lines = [re.sub(r'\s*--.*', '', line) for line in raw.split('\n')]
    name, text = None, []
    for line in lines:
        m = re.match(r'(?:(?:abbrev|unfoldable|pub)\s+)*(?:(?:record|data)\s+)?([^\s:(){},.=|]+)[^=]*?:(?:\s|$)', line)
        if m and not line.startswith(' ') and m[1] not in ('use', 'mod', 'module', 'infixl', 'infixr', 'open'):
            if name:
                yield snake(name), squeeze(' '.join(text))
            name, text = m[1], [line]
        elif name and line.strip() and re.match(r'(module|use|open|infix|pub use|pub mod)\b', line):
            yield snake(name), squeeze(' '.join(text))
            name = None
        elif name:
            text.append(line)
    if name:
        yield snake(name), squeeze(' '.join(text))


def read(commit):
    found = {'functions': {}, 'ghosts': {}, 'definitions': {}, 'theorems': []}
    for name, raw in files(commit):
        crate = name.split('/')[1]
        for old, new in RENAMED:
            raw = re.sub(old, new, raw)
        if name.endswith('.rt'):
            for word, sign, clauses in functions(raw):
                found['functions'].setdefault((crate, word), []).append((sign, clauses))
            for word, text in ghosts(raw):
                found['ghosts'].setdefault((crate, word), []).append(text)
        elif '/proofs/' in name:
            found['theorems'] += theorems(crate, raw)
        elif '/Boards.antt' not in name:
            for word, text in definitions(raw):
                found['definitions'].setdefault((crate, word), []).append(text)
    return found


def paired(old, new):
    """(old key, new key) of what both have, then old keys alone."""
    both, alone, taken = [], [], set()
    for key in old:
        if key in new:
            both.append((key, key))
            taken.add(key)
    names = collections.defaultdict(list)
    for key in new:
        if key not in taken:
            names[snake(key[1])].append(key)
    for key in old:
        if key in taken:
            continue
        same = [] if key in CHANCE else names[snake(key[1])]
        if len(same) == 1:
            both.append((key, same[0]))
        else:
            alone.append(key)
    return both, alone


def shown(item):
    if isinstance(item, str):
        return [item]
    sign, clauses = item
    return [sign] + ['    ' + c for c in clauses]


def text_of(items):
    return [line for item in items for line in shown(item)]


def meaning(items):
    """What of an item counts: of a function its signature and its facts, whatever their clauses are called."""
    out = []
    for item in items:
        if isinstance(item, str):
            out.append(plain(item))
        else:
            sign, clauses = item
            out.append((plain(sign), sorted(plain(re.sub(r'^(\w+\*?) \w+ \{', r'\1 {', c)) for c in clauses)))
    return out


def main():
    parser = argparse.ArgumentParser(description=__doc__, formatter_class=argparse.RawDescriptionHelpFormatter,
                                     usage='design_changes.py OLD [NEW]', add_help=False)
    parser.add_argument('--help', action='help')
    parser.add_argument('old', metavar='OLD')
    parser.add_argument('new', metavar='NEW', nargs='?', default='HEAD')
    words = parser.parse_args()
    old_commit, new_commit = words.old, words.new
    old, new = read(old_commit), read(new_commit)
    print('# What changed of what callers and readers see\n')
    script = Path(__file__).resolve().relative_to(TOP)
    print(f'Written by `python3 {script} {old_commit} {new_commit}`, whose head says what counts as the same.')
    print('Lines that begin with - are the old ones, lines that begin with + the new ones.')
    titles = {'functions': 'Public functions', 'ghosts': 'Facts that types keep', 'definitions': 'Definitions'}
    for kind, title in titles.items():
        both, alone = paired(old[kind], new[kind])
        changed = [(a, b) for a, b in both if meaning(old[kind][a]) != meaning(new[kind][b])]
        print(f'\n## {title}\n\n{len(old[kind])} before, {len(new[kind])} now; the same {len(both) - len(changed)}, '
              f'changed {len(changed)}, under other names or gone {len(alone)}.')
        for a, b in changed:
            print(f'\n`{a[0]}::{a[1]}`' + (f' (now `{b[0]}::{b[1]}`)' if a != b else '') + '\n\n```')
            for line in text_of(old[kind][a]):
                print('- ' + line)
            for line in text_of(new[kind][b]):
                print('+ ' + line)
            print('```')
        by = collections.defaultdict(list)
        for crate, word in alone:
            by[crate].append(word)
        if kind == 'ghosts':
            print('\nNew, but for what traits name:\n\n```')
            for key in new[kind]:
                if key not in old[kind] and key[1] not in OF_TRAITS:
                    for text in new[kind][key]:
                        print(f'+ {key[0]}: {key[1]} {{ {text.lstrip()} }}')
            print('```')
        print('\nUnder other names, or gone:\n')
        for crate in sorted(by):
            print(f'- {crate}: ' + ', '.join(by[crate]))
    print_theorems(old, new)


main()
