#!/usr/bin/env python3
"""Writes the reference pages of the command lines: reference.py [--check] [--programs PATH]

A page is made of the program's help, and of tests/reference: sessions, which are tests, and tables of what is printed. With --check it says which page is not what
would be written. PATH has {} where the name of a program stands; the quick builds are taken unless it is given.
"""
import argparse
import os
import sys

sys.dont_write_bytecode = True

import command_lines  # noqa: E402

ROOT = os.path.dirname(os.path.dirname(os.path.abspath(__file__)))
PROGRAMS = {'vt_replay': 'VT_REPLAY', 'segyolant': 'SEGYOLANT', 'segyolant_log': 'SEGYOLANT_LOG'}
GUIDES = {
    'vt_replay': '[PROFILE.md](PROFILE.md) has the lines of a log and what is printed, exactly.',
    'segyolant': '[POOLS.md](POOLS.md) is the guide: each fault with its cause and its cure.',
    'segyolant_log': '[LOGS.md](LOGS.md) is the guide: from a log of the field to what went wrong.',
}
# Lines of an example that are shown; what is longer is cut.
MOST_LINES = 34


def page_of(program, path):
    line = command_lines.of_program(path, program)
    examples = examples_of(program)
    parts = [f'# {program}', f'<!-- Written by scripts/reference.py from `{program} --help` and tests/reference/{program}.run. -->',
             f'{line.about}. {GUIDES[program]}', code([line.usage])]
    if line.commands:
        parts.append(table('Subcommand', [row for row in line.commands if row.word != 'help']))
    parts += details_of(line, notes_of(program) + examples.get('', []))
    for each in line.subcommands:
        parts += [f'## {each.name}', f'{each.about}.', code([each.usage])]
        parts += details_of(each, examples.get(each.name.split()[1], []))
    return '\n\n'.join(parts) + '\n'


def details_of(line, examples):
    """The words of a command line, what its help says behind them, and examples."""
    rows = [row for row in line.arguments + line.options if '--help' not in row.names()]
    parts = [table('Word', rows)] if rows else []
    parts += [code([row[2:] for row in block]) if block[0].startswith('  ') else text(block) for block in line.after]
    return parts + examples


def notes_of(program):
    """What tests/reference/PROGRAM.md has besides, if there is one."""
    path = f'{ROOT}/tests/reference/{program}.md'
    return [open(path, encoding='utf-8').read().strip()] if os.path.exists(path) else []


def table(head, rows):
    return '\n'.join([f'| {head} | Meaning |', '|---|---|', *(f'| `{bars_escaped(row.word)}` | {escaped(row.meaning)} |' for row in rows)])


def bars_escaped(word):
    return word.replace('|', '\\|')


def escaped(meaning):
    for sign in ('\\', '|', '<', '[', '*'):
        meaning = meaning.replace(sign, '\\' + sign)
    return meaning


def code(lines):
    return '\n'.join('    ' + line if line else '' for line in lines)


def text(block):
    """A block in which indented lines, such as those of a list, stay lines."""
    if any(line.startswith(' ') for line in block):
        at = next(k for k, line in enumerate(block) if line.startswith(' '))
        return escaped(' '.join(block[:at])) + '\n\n' + code([line[2:] for line in block[at:]])
    return escaped(' '.join(block))


def examples_of(program):
    """The examples of a program by the subcommand, '' where there is none: a remark, and a command line with what it prints."""
    found, remark, lines, is_told = {}, [], None, False
    path = f'{ROOT}/tests/reference/{program}.run'
    for line in open(path, encoding='utf-8').read().splitlines()[1:] + ['']:
        if line.startswith('# '):
            remark.append(line[2:])
        elif line.startswith('$ '):
            lines, is_told = [line], True
        elif lines is not None and line:
            # (what the program wrote into files stands behind, and is not shown)
            is_told = is_told and line[0] in '|!'
            lines += [line[2:]] if is_told else []
        elif lines is not None and not line:
            key = '' if program == 'vt_replay' else lines[0].split()[2]
            shown = lines if len(lines) <= MOST_LINES else lines[:MOST_LINES] + ['..']
            found.setdefault(key, []).extend([*([' '.join(remark)] if remark else []), code(shown)])
            remark, lines = [], None
    return found


def main():
    parser = argparse.ArgumentParser(description=__doc__.split('\n')[0])
    parser.add_argument('--check', action='store_true')
    parser.add_argument('--programs', metavar='PATH', default=f'{ROOT}/out/quick/{{}}')
    words = parser.parse_args()
    wrong = []
    for program, name in PROGRAMS.items():
        path, page = f'{ROOT}/docs/{name}.md', page_of(program, words.programs.replace('{}', program))
        if not words.check:
            with open(path, 'w', encoding='utf-8') as file:
                file.write(page)
        elif not os.path.exists(path) or open(path, encoding='utf-8').read() != page:
            wrong.append(f'docs/{name}.md')
    if wrong:
        sys.exit(f'not what scripts/reference.py writes: {", ".join(wrong)}')
    print(f'{len(PROGRAMS)} reference pages: {"checked" if words.check else "written"}')


if __name__ == '__main__':
    main()
