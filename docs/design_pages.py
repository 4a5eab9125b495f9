#!/usr/bin/env python3
"""Holds DESIGN-CHANGES.md and the counts of DESIGN-PASS.md to what the last commit has, wherever the two pages stand:

    python3 docs/design_pages.py            ends with 1, and what differs, where a page says something else
    python3 docs/design_pages.py --write    writes both: commit the crates first, and the pages behind them

The commit that both are held against is named in the first line of DESIGN-PASS.md.
"""
import argparse
import difflib
import re
import subprocess
import sys

from design_pass import AGAIN, HERE, counted, counted_again, git, page


def table(begun, old, new, rows):
    """The rows of a table of counts, under its head."""
    yield f'| | {begun} | now |'
    yield '|---|---|---|'
    for row in rows:
        yield f'| {row} | {old[row]:,} | {new[row]:,} |'


def filled(text, name, lines):
    """The page with other lines between a comment of this name and the next end."""
    pattern = rf'(?ms)(^<!-- {name} -->\n).*?(^<!-- end -->$)'
    if len(re.findall(pattern, text)) != 1:
        raise SystemExit(f'DESIGN-PASS.md has no one table between the comments {name} and end')
    return re.sub(pattern, lambda m: m[1] + '\n'.join(lines) + '\n' + m[2], text)


def pages(begun):
    """What each page is to say."""
    text = page('DESIGN-PASS.md').read_text()
    old, new = counted(begun)[0], counted('HEAD')[0]
    text = filled(text, 'counts', table(begun, old, new, sorted(old | new)))
    text = filled(text, 'again', table(begun, counted_again(begun), counted_again('HEAD'), AGAIN))
    yield 'DESIGN-PASS.md', text
    words = [sys.executable, str(HERE / 'design_changes.py'), begun, 'HEAD']
    yield 'DESIGN-CHANGES.md', subprocess.run(words, capture_output=True, check=True, text=True).stdout


def main():
    parser = argparse.ArgumentParser(description=__doc__, formatter_class=argparse.RawDescriptionHelpFormatter,
                                     usage='design_pages.py [--write]', add_help=False)
    parser.add_argument('--help', action='help')
    parser.add_argument('--write', action='store_true')
    words = parser.parse_args()
    begun = page('DESIGN-PASS.md').read_text()[:7]
    try:
        git('cat-file', '-e', begun)
    except subprocess.CalledProcessError:
        print(f'left out: this clone has no commit {begun}')
        return
    differ = False
    for name, text in pages(begun):
        place = page(name)
        if words.write:
            place.write_text(text)
        elif place.read_text() != text:
            differ = True
            lines = difflib.unified_diff(place.read_text().split('\n'), text.split('\n'), name, 'the last commit',
                                         n=0, lineterm='')
            print('\n'.join(list(lines)[:40]))
    if differ:
        raise SystemExit('design_pages.py: `design_pages.py --write` writes what the last commit has')


if __name__ == '__main__':
    main()
