#!/usr/bin/env python3
"""Counts the forms that docs/DESIGN-PASS.md names, at a commit: python3 docs/design_pass.py [--list WORD] [COMMIT].

--list prints the places of each count whose name has WORD in it; --again counts another way, by one pattern a row over
the lines of code, and says nothing of what the places mean.
"""
import argparse
import collections
import io
import re
import subprocess
import tarfile
from pathlib import Path

HERE = Path(__file__).resolve().parent


def git(*words, at=HERE):
    return subprocess.run(['git', '-C', str(at), *words], capture_output=True, check=True).stdout


TOP = Path(git('rev-parse', '--show-toplevel').decode().rstrip('\n'))


def page(name):
    """Where a page stands, by its name: the one file of it that git knows."""
    known = git('ls-files', '--', f'*{name}', at=TOP).decode().split()
    found = [TOP / line for line in known if Path(line).name == name]
    if len(found) != 1:
        raise SystemExit(f'{name}: {len(found)} of them, and not one')
    return found[0]


def files(commit):
    tar = git('archive', commit, 'crates', at=TOP)
    with tarfile.open(fileobj=io.BytesIO(tar)) as archive:
        for member in archive:
            if member.isfile() and re.search(r'/src/.*\.rt$|/(specs|proofs)/.*\.antt$', member.name):
                yield member.name, archive.extractfile(member).read().decode()


def bare(text):
    """Without comments and string literals."""
    return re.sub(r'//[^\n]*|"(?:\\.|[^"\\])*"', '', text)


def matching(text, start, opens, closes):
    depth = 0
    for i in range(start, len(text)):
        if text[i] in opens:
            depth += 1
        elif text[i] in closes:
            depth -= 1
            if depth == 0:
                return i
    return len(text)


def split_list(text):
    parts, depth, last = [], 0, 0
    for i, c in enumerate(text):
        if c in '([{<':
            depth += 1
        elif c in ')]}>' and not (c == '>' and text[i - 1] in '-='):
            depth -= 1
        elif c == ',' and depth == 0:
            parts.append(text[last:i])
            last = i + 1
    parts.append(text[last:])
    return [p.strip() for p in parts if p.strip()]


def functions(text):
    """(name, parameters, contract) of each function of a file."""
    for m in re.finditer(r'\bfn (\w+)', text):
        start = text.find('(', m.end())
        between = text[m.end():start]
        if between.strip() and not between.strip().startswith('<'):
            continue
        if between.strip().startswith('<'):
            generic = matching(text, m.end(), '<', '>')
            start = text.find('(', generic)
        end = matching(text, start, '(', ')')
        rest = text[end + 1:]
        body = re.search(r'\n\s*\{\n|\{\}|;|\{\n', rest)
        yield m.group(1), split_list(text[start + 1:end]), rest[:body.start()] if body else ''


def clauses(contract):
    for m in re.finditer(r'\b(requires|ensures\*?)(?:\s+(\w+))?\s*\{', contract):
        end = matching(contract, m.end() - 1, '{', '}')
        yield m.group(1), m.group(2) or '', contract[m.end():end]


AGAIN = {
    'enums': r'\benum \w',
    '`bool` anywhere, also as a result': r'\bbool\b',
    'lines with `NO_CELL`, `NONE` or `ANY`': r'\b(NO_CELL|NONE|ANY)\b',
    'constants `const X: u64 = digits;`': r'\bconst \w+: u64 = \d+;',
    '`while` and `loop`': r'\b(while|loop)\b',
    '`for i in a..b`': r'\bfor [a-z]\w* in [^{\[]*\.\.',
    '`for _ in a..b`: repeats, no index': r'\bfor _\w* in [^{\[]*\.\.',
    '`for` over items': r'^\s*for (?![^{\[]*\.\.)',
    'derives': r'#\[derive',
    '`impl .. for`': r'\bimpl\b.*\bfor\b',
    '`PartialEq`, `Ord`, `Clone`, `Copy` implemented by hand': r'\bimpl\b.*\b(PartialEq|Ord|Clone|Copy)\b.* for ',
    'offsets in code (`* 8`, `* 4`, `* 64`, `4 * x`)': r'\* (8|4|64)\b|\b4 \* \w',
    'numbers taken apart (`/` and `%` of 8, 4, 2, `RING_POINTS`)': r'[/%] (8|4|2|RING_POINTS)\b',
}
CONTRACT = re.compile(r'\b(requires|ensures|ghost)\b|[≡≤→λ]')


def counted_again(commit):
    """How many lines fit the pattern of each row, without comments, quotes and contracts."""
    n = collections.Counter({row: 0 for row in AGAIN})
    for name, raw in files(commit):
        if name.endswith('.rt'):
            code = [line for line in bare(raw).split('\n') if not CONTRACT.search(line)]
            for row, pattern in AGAIN.items():
                n[row] += sum(1 for line in code if re.search(pattern, line))
    return n


def words_taken():
    parser = argparse.ArgumentParser(description=__doc__, formatter_class=argparse.RawDescriptionHelpFormatter,
                                     usage='design_pass.py [--list WORD | --again] [COMMIT]', add_help=False)
    parser.add_argument('--help', action='help')
    either = parser.add_mutually_exclusive_group()
    either.add_argument('--list', metavar='WORD')
    either.add_argument('--again', action='store_true')
    parser.add_argument('commit', metavar='COMMIT', nargs='?', default='HEAD')
    return parser.parse_args()


def counted(commit):
    """The counts of a commit by their names, and of those that have places the places."""
    n, places = collections.Counter(), collections.defaultdict(list)

    def add(word, place, text='', count=1):
        n[word] += count
        places[word].append(f'{place}: {text.strip()[:110]}')

    names = collections.defaultdict(set)
    crates = set()
    for name, raw in files(commit):
        crate = name.split('/')[1]
        crates.add(crate)
        if name.endswith('.antt'):
            kind = 'specs' if '/specs/' in name else 'proofs'
            body = [line for line in raw.split('\n') if line.strip()]
            if kind == 'specs':
                n['8 lines of definitions'] += len(body)
                n['camelCase definitions'] += len(re.findall(r'(?m)^(?:unfoldable )?(?:def|abbrev)(?: pub)? ([a-z]+[A-Z]\w*) :', raw))
                for word in ('eqb', 'cond', 'get_or'):
                    n['older forms (eqb, cond, get_or) in definitions'] += len(re.findall(r'\b' + word + r'\b', raw))
            elif re.search(r'/proofs/[^/]+/', name):
                n['8 lines of functions\' proofs'] += len(body)
            else:
                n['8 lines of lemmas'] += len(body)
            continue
        text = bare(raw)
        n['lines of code'] += len([line for line in raw.split('\n') if line.strip()])
        n['lines of documentation (///)'] += len(re.findall(r'(?m)^\s*///', raw))
        n['tests'] += len(re.findall(r'#\[test\]', raw))
        for i, line in enumerate(text.split('\n'), 1):
            place = f'{name}:{i}'
            if re.search(r'\benum (\w+)', line):
                add('1 enums of our own', place, line)
            if re.search(r'\b(NO_CELL|ANY|NONE)\b|[=!]= -1\b', line):
                add('1 a number that means none', place, line)
            for _ in re.findall(r'\w+: bool\b', line):
                add('1 bool parameters and fields', place, line)
            if re.search(r'\b(while|loop)\b', line):
                add('3 while and loop', place, line)
            if re.search(r'\bfor \w+ in [^{\[]*\.\.', line):
                add('3 for over an index', place, line)
            elif re.search(r'\bfor \S+.* in ', line) and not re.search(r'\bimpl\b', line):
                add('3 for over items', place, line)
            if re.search(r'\bimpl(<[^>]*>)? (PartialEq|Eq|PartialOrd|Ord|Clone|Copy|Default|Debug)\b', line):
                add('4 derives written by hand', place, line)
            if re.search(r'\bimpl(<[^>]*>)? (From|TryFrom|Display|fmt::Display|Iterator)\b', line):
                add('4 From, Display, Iterator', place, line)
            if re.search(r'#\[derive', line):
                add('4 derives', place, line)
            for _ in re.findall(r'\b\w+ \* (?:[0-9]+|[a-z]+) \+|\b[0-9]+ \* [a-z_]+\b|\[[a-z_]+ \* [0-9]+', line):
                add('6 bare offsets into rows', place, line)
        for fn, parameters, contract in functions(text):
            n['functions'] += 1
            names[fn].add(crate)
            if len(parameters) >= 6:
                add('5 functions of six parameters or more', name, fn)
            for kind, clause, fact in clauses(contract):
                n['clauses'] += 1
                if '×' in fact:
                    add('5 clauses that join facts by ×', name, f'{fn}: {clause}')
                if re.search(r'\d|_in_bounds$|_lt_|_le_|^result_|_bound$', clause):
                    add('5 clauses named by number or part', name, f'{fn}: {clause}')
                if kind == 'requires' and re.search(r'WellFormed', fact):
                    add('5 requires that ask for a well-formed table', name, f'{fn}: {clause}')
    for fn, where in names.items():
        if len(where) > 1 and fn not in ('main', 'new', 'fmt', 'next', 'drop', 'code', 'from'):
            add('2 names that functions of two crates have', fn, ', '.join(sorted(where)))
        other = re.sub(r'(?<![a-z])x(?![a-z])', 'y', fn)
        if other != fn and other in names:
            add('2 pairs of a function for x and one for y', fn, other)
    n['crates'] = len(crates)
    return n, places


def main():
    words = words_taken()
    if words.again:
        n = counted_again(words.commit)
        for row in AGAIN:
            print(f'{n[row]:7,}  {row}')
        return
    n, places = counted(words.commit)
    if words.list:
        for word in places:
            if words.list in word:
                print('\n'.join(places[word]))
    else:
        for word in sorted(n):
            print(f'{n[word]:7,}  {word}')


if __name__ == '__main__':
    main()
