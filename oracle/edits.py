#!/usr/bin/env python3
"""Runs must-fail edits as programs, with no proof, and sees the answer of each differ from the right program's.

    edits.py [CRATE[/EDIT]...]    only the edits of these crates, or these; otherwise all that name an input

An edit shows something only if its program is another one. A line of its own says which input tells them apart:

    # seen by replay_table: refine: the cell at the finest level      a stored case (oracle/names)
    # seen by calls: evening::only_so_far                             a test of crates/calls

The edit is made in a copy of the crates, and that program runs there with `rt try`: of a replay the stored case must be
the first that differs from what the original answered, and the test must fail. An edit that names no input is run
through every replay and then the tests, and the first input that tells is printed. A program that its own checks stop
(an index out of range) has written nothing, so the stop is what is printed. That the right program passes them all
is seen by the gate. Exit status 1 if an edit isn't seen where it says, or nowhere. Not in the gate: each takes half a
minute to two.
"""

import argparse
import os
import re
import shutil
import subprocess
import sys
import tempfile

from faults import BOARDS, NET, OUTLINE, ROOT, TABLE, case_at, read, tried, write

CALLS = "calls"
PROGRAMS = (TABLE, OUTLINE, NET, BOARDS, CALLS)
SEEN = re.compile(r"^# seen by (\w+): (.*)$", re.M)


def text_of(name):
    """The lines of an edit."""
    crate, edit = name.split("/")
    return read(os.path.join(ROOT, "crates", crate, "must-fail", f"{edit}.edit")).decode()


def changes(text):
    """Each pair of an edit: the file, what stands there and what is put in its place."""
    pairs, file, old = [], None, None
    for line in text.split("\n"):
        if line.startswith("file: "):
            file = line[len("file: "):].strip()
        elif line.startswith("old: "):
            old = line[len("old: "):]
        elif line.startswith("new:"):
            pairs.append((file, old, line[len("new:"):].removeprefix(" ")))
    return pairs


def edited(crate, text):
    """What an edit makes of the files that it changes in a crate's folder, by their paths."""
    files = {}
    for file, old, new in changes(text):
        path = os.path.join(crate, file)
        now = files.get(path) or read(path)
        if now.count(old.encode()) != 1:
            raise ValueError(f"no such text, or more than once: {old!r}")
        files[path] = now.replace(old.encode(), new.encode())
    return files


def lay_tests(folder, module=None):
    """The crate of all calls in the copy: all of it, or one file of tests with the crates that it names, for speed."""
    crate = os.path.join(folder, "crates", CALLS)
    shutil.rmtree(crate)
    shutil.copytree(os.path.join(ROOT, "crates", CALLS), crate, ignore=shutil.ignore_patterns("out"))
    lines = read(os.path.join(ROOT, "crates.txt")).decode().splitlines()
    if module:
        tests = f"{module}.rt"
        named = re.findall(r"\b(\w+)::", read(os.path.join(crate, "src", tests)).decode())
        for file in os.listdir(os.path.join(crate, "src")):
            if file != tests:
                os.remove(os.path.join(crate, "src", file))
        write(os.path.join(crate, "src", "lib.rt"), f"#![tactic(auto)]\n\n#[cfg(test)]\nmod {module};\n".encode())
        name = f"{CALLS}:"
        lines = [" ".join(word for word in line.split() if word in (name, *named)) if line.startswith(name) else line
                 for line in lines]
    write(os.path.join(folder, "crates.txt"), "\n".join(lines + [""]).encode())


def failed_tests(folder):
    """The tests of calls that fail, by name."""
    run = subprocess.run(["rt", "try", "--test"], cwd=os.path.join(folder, "crates", CALLS), capture_output=True)
    said = (run.stdout + run.stderr).decode(errors="replace")
    if not re.search(r"^tests: \d+$", said, re.M):
        raise ValueError(said)
    return [name for name, end in re.findall(r"^test (\S+) \.\.\. (.*)$", said, re.M) if end != "ok"]


def seen_by(folder, program, wanted=None):
    """The input on which a program differs, in words; None if it differs nowhere, or a wanted test is not among it."""
    if program == CALLS:
        lay_tests(folder, wanted and wanted.split("::")[0])
        failed = failed_tests(folder)
        if wanted:
            failed = [name for name in failed if name == wanted]
        return f"{CALLS}: {failed[0]}" if failed else None
    differs = tried(folder, program)
    if differs is None:
        return None
    byte, said = differs
    where = case_at(folder, program, byte).removeprefix(f"{program}, ") if byte >= 0 else said
    return f"{program}: {where}"


def result_of(folder, name):
    """What is said of an edit, and whether it is what the edit says."""
    text = text_of(name)
    said = SEEN.search(text)
    held = {}
    try:
        for path, data in edited(os.path.join(folder, "crates", name.split("/")[0]), text).items():
            held[path] = read(path)
            write(path, data)
        if said:
            seen = seen_by(folder, said.group(1), said.group(2))
            return seen or "NOT SEEN there", bool(seen) and seen.startswith(f"{said.group(1)}: {said.group(2)}")
        for program in PROGRAMS:
            seen = seen_by(folder, program)
            if seen:
                return seen, True
        return "NOT SEEN by any program", False
    except ValueError as why:
        return f"NOT COMPILED, or no answer: {str(why)[-600:]}", False
    finally:
        for path, data in held.items():
            write(path, data)


def chosen_edits():
    """Those that the words name; a word that names none is refused."""
    parser = argparse.ArgumentParser(description=__doc__, formatter_class=argparse.RawDescriptionHelpFormatter,
                                     usage="edits.py [CRATE[/EDIT]...]", add_help=False)
    parser.add_argument("--help", action="help")
    parser.add_argument("words", metavar="CRATE[/EDIT]", nargs="*")
    words = parser.parse_args().words
    names = []
    for crate in sorted(os.listdir(os.path.join(ROOT, "crates"))):
        edits = os.path.join(ROOT, "crates", crate, "must-fail")
        if os.path.isdir(edits):
            names += [f"{crate}/{file[:-len('.edit')]}" for file in sorted(os.listdir(edits)) if file.endswith(".edit")]
    for word in words:
        if not any(word in (name, name.split("/")[0]) for name in names):
            parser.error(f"no edit is named {word!r}")
    if words:
        return [name for name in names if name in words or name.split("/")[0] in words]
    return [name for name in names if SEEN.search(text_of(name))]


def main():
    names = chosen_edits()
    folder = tempfile.mkdtemp()
    try:
        kept_work = shutil.ignore_patterns("out")
        shutil.copytree(os.path.join(ROOT, "crates"), os.path.join(folder, "crates"), ignore=kept_work)
        shutil.copy(os.path.join(ROOT, "crates.txt"), folder)
        missed = 0
        for name in names:
            said, good = result_of(folder, name)
            missed += not good
            print(f"{name}: {said}", flush=True)
        print(f"{len(names) - missed} of {len(names)} edits are other programs")
        return 1 if missed else 0
    finally:
        shutil.rmtree(folder)


if __name__ == "__main__":
    sys.exit(main())
