#!/usr/bin/env python3
"""The crates and what they use: crates.py [--write]

A line of crates.txt names the libraries that the crate's own files name, and no others: the toolchain finds those below them. The headings
of crates.txt are groups of crates. docs/ARCHITECTURE.md has a table of all crates by group, each with the first sentence of its doc comment
and with the highest crates that it names, and a diagram with a box for each group. Without --write, says where the two files differ from
what the crates' files say, and ends with status 1 if they do. --write writes the lines and the table; the diagram is mended by hand.
"""
import argparse
import glob
import os
import re
import shutil
import sys

TOP = os.path.dirname(os.path.dirname(os.path.abspath(__file__)))
LIST, MAP = f'{TOP}/crates.txt', f'{TOP}/docs/ARCHITECTURE.md'
ROW = re.compile(r'(?P<name>\w+)(?P<kind> staticlib)?:(?P<uses>[^#\n]*)')
BEGIN, END = '<!-- crates: begin -->\n', '<!-- crates: end -->\n'
BOX = re.compile(r'^ *(\w+)\["<b>([^<]+)</b>(.*)"\]$', re.M)
ARROW = re.compile(r'^ *(\w+) --> (\w+(?: & \w+)*)$', re.M)


def text_of(path):
    with open(path, encoding='utf-8') as file:
        return file.read()


def libraries_of_kit():
    """The names of the libraries that the toolchain brings."""
    folder = os.path.dirname(os.path.dirname(os.path.realpath(shutil.which('rt'))))
    return {it.removesuffix('.rlib') for it in os.listdir(f'{folder}/rlibs') if it.endswith('.rlib')} - {'std', 'core'}


def rows():
    """The crates of crates.txt in their order, with their kind and the libraries that are named."""
    matches = [ROW.match(line) for line in text_of(LIST).split('\n')]
    return {it['name']: (it['kind'] or '', it['uses'].split()) for it in matches if it}


def groups():
    """The groups of crates.txt in their order, with their crates. Those before the first heading are under ''."""
    found = {'': []}
    for line in text_of(LIST).split('\n'):
        row = ROW.match(line)
        if line.startswith('## '):
            found[line[3:]] = []
        elif row:
            found[list(found)[-1]].append(row['name'])
    return {title: names for title, names in found.items() if names}


def named_in(crate, names):
    """The libraries among these that the crate's files name."""
    found = set()
    for path in glob.glob(f'{TOP}/crates/{crate}/src/**/*.rt', recursive=True):
        text = re.sub(r'//.*', '', text_of(path))
        own = set(re.findall(r'\bmod (\w+)', text)) | set(re.findall(r'\buse std::(\w+)', text))
        found |= (set(re.findall(r'(?<![\w:])(\w+)::', text)) - own) | set(re.findall(r'\bRattle\.(\w+)', text))
    for part in ('specs', 'proofs'):
        for path in glob.glob(f'{TOP}/crates/{crate}/{part}/**/*.antt', recursive=True):
            found |= set(re.findall(r'\bRattle\.(\w+)', re.sub(r'--.*', '', text_of(path))))
    return (found & names) - {crate}


def direct():
    """Of each crate the libraries that its files name: those that crates.txt names already in its order, and then the others."""
    crates = rows()
    names = {*crates, *libraries_of_kit()}
    made = {}
    for name, (kind, uses) in crates.items():
        found = named_in(name, names)
        made[name] = kind, [it for it in dict.fromkeys(uses) if it in found] + sorted(it for it in found if it not in uses and it in crates)
    return made


def below(name, crates):
    """The crates of the repository below one."""
    found = set()
    for it in crates[name][1]:
        if it in crates and it not in found:
            found |= {it, *below(it, crates)}
    return found


def highest(name, crates):
    """The crates that one names and that are below no other that it names."""
    uses = [it for it in crates[name][1] if it in crates]
    return [it for it in uses if not any(it in below(other, crates) for other in uses)]


def is_program(name):
    return os.path.exists(f'{TOP}/crates/{name}/src/main.rt')


def subject(name):
    """The first sentence of a crate's doc comment, without its full stop."""
    text = text_of(f'{TOP}/crates/{name}/src/{"main" if is_program(name) else "lib"}.rt')
    comment = re.match(r'(?:\s*//!.*\n)*', text)[0].strip()
    first = ' '.join(line.strip().removeprefix('//!').strip() for line in re.split(r'^\s*//!\s*$', comment, flags=re.M)[0].split('\n'))
    return re.match(r'.*?(?=\.(?: |$)|$)', first)[0].replace('|', r'\|')


def table_of(crates):
    """The table of docs/ARCHITECTURE.md."""
    lines = ['| Crate | What it holds | Uses |', '|---|---|---|']
    for title, names in groups().items():
        lines.append(f'| **{title}** | | |')
        for name in names:
            kind = ', a program' if is_program(name) else ', a static library' if crates[name][0] else ''
            uses = ', '.join(highest(name, crates))
            lines.append(f'| {name}{kind} | {subject(name)} |{f" {uses}" if uses else ""} |')
    return '\n'.join(lines) + '\n'


def list_with(crates, text):
    """crates.txt with these libraries."""
    def line(match):
        kind, uses = crates[match['name']]
        return f'{match["name"]}{kind}:' + ''.join(f' {it}' for it in uses)
    return re.sub(ROW.pattern + r'$', line, text, flags=re.M)


def map_with(crates, text):
    """docs/ARCHITECTURE.md with the table of these crates."""
    head, begin, rest = text.partition(BEGIN)
    _, end, tail = rest.partition(END)
    if not begin or not end:
        sys.exit(f'docs/ARCHITECTURE.md lacks the line {(END if begin else BEGIN).strip()}, between which the table is')
    return head + begin + table_of(crates) + end + tail


def reached(box, arrows):
    """The boxes to which arrows lead from one."""
    found, left = set(), [box]
    while left:
        more = arrows.get(left.pop(), set()) - found
        found |= more
        left += more
    return found


def wrong_in_diagram(crates, text):
    """Where the diagram is not what the crates use."""
    diagram = (re.findall(r'^```mermaid\n(.*?)^```', text, re.M | re.S) or [''])[0]
    boxes = {box: title for box, title, _ in BOX.findall(diagram)}
    named = {title: re.findall(r'\b(?:vt_|segyolant)\w*', words) for _, title, words in BOX.findall(diagram)}
    arrows = {title: set() for title in boxes.values()}
    for box, others in ARROW.findall(diagram):
        arrows[boxes.get(box, box)] = arrows.get(boxes.get(box, box), set()) | {boxes.get(it, it) for it in others.split(' & ')}
    made = {title: names for title, names in groups().items() if title}
    group_of = {name: title for title, names in made.items() for name in names}
    used = {title: {group_of.get(it) for name in names for it in crates[name][1] if it in crates} - {title, None} for title, names in made.items()}
    wrong = [f'has no box for the group {it}' for it in made if it not in named]
    wrong += [f'has a box {it}, which is no group of crates.txt' for it in named if it not in made]
    wrong += [f'names {it} in the box {title}, which does not have it' for title, names in named.items() for it in names if it not in made.get(title, [])]
    wrong += [f'has no way from {title} to {it}, which it uses' for title in named for it in sorted(used.get(title, set()) - reached(title, arrows))]
    wrong += [f'has an arrow from {title} to {it}, which it does not use' for title, others in arrows.items() for it in sorted(others - used.get(title, set()))]
    cure = ['docs/ARCHITECTURE.md: mend the boxes and arrows of the diagram by hand'] if wrong else []
    return [f'docs/ARCHITECTURE.md: the diagram {it}' for it in wrong] + cure


def main():
    parser = argparse.ArgumentParser(description=__doc__.split('\n')[0])
    parser.add_argument('--write', action='store_true', help='writes both files anew')
    write, crates = parser.parse_args().write, direct()
    wrong = [f'crates.txt: {it} is under no heading: put its line under one with ##' for it in groups().get('', [])]
    for path, make in ((LIST, list_with), (MAP, map_with)):
        made = make(crates, text_of(path))
        if made == text_of(path):
            continue
        if write:
            with open(path, 'w', encoding='utf-8') as file:
                file.write(made)
        else:
            wrong.append(f'{os.path.relpath(path, TOP)} is not what the files of the crates say: scripts/crates.py --write mends it')
    wrong += wrong_in_diagram(crates, text_of(MAP))
    print('\n'.join(wrong) or f'crates.txt: {len(crates)} crates, {sum(len(uses) for _, uses in crates.values())} libraries named')
    sys.exit(1 if wrong else 0)


if __name__ == '__main__':
    main()
