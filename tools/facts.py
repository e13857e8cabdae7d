#!/usr/bin/env python3
"""Facts that stand in the `requires` of three or more functions, and parameters that travel together through three or more.

Run at the root of the repository: python3 tools/facts.py
"""
import collections, itertools, pathlib, re


def cut(text, at):
    """The parts of a text between the marks `at` that stand in no brackets."""
    parts, depth = [''], 0
    for ch in text:
        depth += (ch in '([{<') - (ch in ')]}>')
        if ch == at and depth == 0:
            parts.append('')
        else:
            parts[-1] += ch
    return [part.strip() for part in parts if part.strip()]


def facts_of(clause):
    """The facts that a product of facts joins; brackets round a product are no part of a fact."""
    parts = cut(clause.replace('<', '‹').replace('>', '›'), '×')
    if len(parts) == 1 and not (parts[0].startswith('(') and parts[0].endswith(')')):
        return [parts[0].replace('‹', '<').replace('›', '>')]
    inner = [part[1:-1] if part.startswith('(') and part.endswith(')') else part for part in parts]
    return [fact for part in inner for fact in facts_of(part.replace('‹', '<').replace('›', '>'))]


facts, groups = collections.defaultdict(list), collections.defaultdict(list)
for path in sorted(pathlib.Path('crates').glob('*/src/**/*.rt')):
    if path.name == 'tests.rt':
        continue
    text = path.read_text()
    for found in re.finditer(r'\bfn (\w+)(?:<[^(]*>)?\(([^)]*)\)', text):
        name = f'{path.parts[1]}::{found.group(1)}'
        for line in text[found.end():].split('\n')[1:]:
            line = line.strip()
            clause = re.match(r'requires(?: \w+)? \{(.*)\}$', line)
            if clause:
                for fact in facts_of(clause.group(1).strip()):
                    facts[re.sub(r'\.(now|old)', '', fact)].append(name)
            elif not re.match(r'(where|ensures|[A-Z]\S*: )', line):
                break
        given = [re.sub('^mut ', '', part) for part in cut(found.group(2).replace('\n', ' '), ',')]
        given = sorted(part for part in given if ':' in part and not part.startswith('rt:'))
        for size in (2, 3):
            for group in itertools.combinations(given, size):
                groups[group].append(name)

for title, counted in (('facts', facts), ('parameters together', {' | '.join(k): v for k, v in groups.items()})):
    print(f'{title} in three or more functions')
    for what, names in sorted(counted.items(), key=lambda item: -len(item[1])):
        if len(names) >= 3:
            print(f'{len(names):3} {what}: {", ".join(names)}')
