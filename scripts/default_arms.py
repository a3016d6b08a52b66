#!/usr/bin/env python3
"""Says where a match leaves commands, events or kinds of objects to an arm for all others.

A match over events has no such arm, nor has one that names a single kind or a single command: `let .. else` says that. One over commands
has it only in the files of COMMANDS, whose contracts have the value for each command. One over kinds has it only in a file that
docs/EXTENDING.md names in "An object kind", so that whoever adds a kind comes there.
"""
import os
import re
import sys

sys.dont_write_bytecode = True

import recipes

# Files in which a match over commands has an arm for all others, and what fails if a new command falls there wrongly.
COMMANDS = {
    'crates/vt_effects/src/effects.rt': 'the law that each refusal has its bit in the row',
    'crates/vt_effects/src/execution.rt': 'the laws on the causes of faults, and on references',
    'crates/vt_effects/src/looks.rt': 'nothing: a new command draws a new screen',
    'crates/vt_effects/src/replacements.rt': 'the law that references may refer, and that the chains are short',
}

VARIANT = re.compile(r'\b(Command|Event|Kind|Object)::(\w+)')


def matches_with_others(text):
    """The line of each arm for all others, and the types and variants that the arms before it name."""
    lines = text.split('\n')
    for number, line in enumerate(lines):
        arm = re.match(r'( *)_ =>', line)
        if not arm:
            continue
        indent = len(arm[1])
        head = next(it for it in range(number - 1, -1, -1) if re.match(rf' {{{indent - 4}}}\S', lines[it]))
        patterns = [it.split('=>')[0] for it in lines[head + 1:number] if re.match(rf' {{{indent}}}[^\s}}]', it)]
        found = {it for pattern in patterns for it in VARIANT.findall(pattern)}
        if found:
            yield number + 1, {it for it, _ in found}, len(found)


def wrong_in(path, text, named):
    """What is wrong with the arms for all others in a file."""
    for number, types, count in matches_with_others(text):
        if 'Event' in types:
            yield f'{path}:{number}: name each event'
        elif 'Command' in types and path not in COMMANDS:
            yield f'{path}:{number}: name each command'
        elif count == 1:
            yield f'{path}:{number}: test a single variant by `let .. else` or `if let`'
        elif 'Command' not in types and not recipes.is_named(path, named):
            yield f'{path}:{number}: name each kind, or the file in "An object kind" of {recipes.PAGE}'


def main():
    named = [it for _, line in recipes.recipes()['An object kind'] for paths, _ in recipes.named_in(line) for it in paths]
    texts = {it: recipes.text_of(it) for it in recipes.found('crates/*/src/**/*.rt') if '_tests/' not in it}
    wrong = [it for path, text in texts.items() for it in wrong_in(path, text, named)]
    wrong += [f'scripts/default_arms.py: {it} has no such arm' for it in COMMANDS if not any('Command' in types for _, types, _ in matches_with_others(texts.get(it, '')))]
    print('\n'.join(wrong) or f'{len(texts)} files leave no command, event or kind to an arm for all others in silence')
    sys.exit(1 if wrong else 0)


if __name__ == '__main__':
    main()
