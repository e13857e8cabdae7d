#!/usr/bin/env python3
"""Brings this repository's own definitions and lemmas to the spelling of today's Rattle.

usage: python3 tools/respell.py        at the top of the repository, once, after the kit's port.py

A type, a record or a fact is in upper camel case, and every other word in snake case. A name that a check makes (`goal.NAME`)
stays, and so do functions, strings and comments that only use the word. Two names that would fall together stop the script.
"""
import pathlib
import re
import sys

ROOT = pathlib.Path(__file__).resolve().parent.parent / 'crates'
DECLARED = re.compile(
    r'^\s*(?:(?:abbrev|pub|unfoldable|record|data)\s+)*([^\s:(){}.,;]+)(?:\s*(?:\([^)]*\)|\{[^}]*\}))*\s*:\s*(.*)')
RECORD = re.compile(r'^\s*(?:pub\s+)?(?:record|data)\s+([^\s:(){}.,;]+)')
LET = re.compile(r'\blet ([^\s:(){}.,;=]+)')
# another name for an import, and the names of a definition's arguments
ALIAS = re.compile(r'\bas ([^\s:(){}.,;=]+)')
ARGUMENTS = re.compile(r'^\s*[^\s:(){}.,;=]+((?: [^\s:.,;=]+)+) =')
TOKEN = re.compile(r'[^\s(){}\[\],;.:|"«»@]+')


def files(*ends):
    for path in sorted(ROOT.rglob('*')):
        if path.suffix in ends and 'out' not in path.relative_to(ROOT).parts:
            yield path


def respelled(name):
    if '-' not in name or not re.fullmatch(r"[A-Za-z0-9_'-]+", name):
        return name
    if name[0].isupper():
        return ''.join(word[0].upper() + word[1:] for word in name.split('-'))
    return '_'.join(word if word.islower() or not word.isalpha() else word.lower() for word in name.split('-'))


def declared():
    names = set()
    for path in files('.antt'):
        for line in path.read_text().splitlines():
            if line.lstrip().startswith('--'):
                continue
            names.update(ALIAS.findall(line))
            if line.startswith('use '):
                continue
            found = DECLARED.match(line)
            if found and not found.group(2).startswith('goal.'):
                names.add(found.group(1))
            names.update(RECORD.findall(line) + LET.findall(line))
            names.update(name for found in ARGUMENTS.findall(line) for name in TOKEN.findall(found))
    return names


def outside(line, mark):
    """The parts of a line, and whether each is code: not a comment, and not a string."""
    at, parts = 0, []
    for found in re.finditer(r'"(?:\\.|[^"\\])*"|' + re.escape(mark) + r'.*$', line):
        if found.group().startswith(mark) and mark == '--' and found.start() and not line[found.start() - 1].isspace():
            continue
        parts += [(line[at:found.start()], True), (found.group(), False)]
        at = found.end()
    return parts + [(line[at:], True)]


def main():
    names = declared()
    turned = {name: respelled(name) for name in names if respelled(name) != name}
    clash = sorted(f'{old} and {new}' for old, new in turned.items()
                   if new in names or sum(other == new for other in turned.values()) > 1)
    # a part of a path, as a function's own folder, is another kind of name
    used = {found.group() for path in files('.antt') for text in [path.read_text()] for found in TOKEN.finditer(text)
            if text[found.start() - 1:found.start()] != '.' and text[found.end():found.end() + 1] != '.'}
    clash += sorted(f'{old} and the used {new}' for old, new in turned.items() if new in used and new not in names)
    if clash:
        sys.exit('these fall together: ' + '; '.join(clash))
    for path in files('.antt', '.rt'):
        mark = '--' if path.suffix == '.antt' else '//'
        lines = []
        for line in path.read_text().split('\n'):
            lines.append(''.join(TOKEN.sub(lambda t: turned.get(t.group(), t.group()), part) if code else part
                                 for part, code in outside(line, mark)))
        path.write_text('\n'.join(lines))
    for old, new in sorted(turned.items()):
        print(f'{old} → {new}')


main()
