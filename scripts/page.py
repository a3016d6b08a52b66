#!/usr/bin/env python3
"""The pages of `segyolant_log report` and `segyolant report` as constants of log_page and check_page: page.py [--write]

A page is made of the files of its crate's page/: head.html, style.css, body.html, and the scripts in the order of order.txt. With --write
each becomes a constant of a file in the crate's src/page. Without, it says which of these differ, and ends with status 1 if one does.
"""
import os
import sys

TOP = os.path.dirname(os.path.dirname(os.path.abspath(__file__)))
# The crates with a page, and what it is a page of.
CRATES = {'log_page': 'log', 'check_page': 'pool'}
WHAT = {'head.html': 'the page up to its style', 'style.css': 'the style of the page', 'body.html': 'the page from the end of its style to its data'}


def read(path):
    with open(path, encoding='utf-8') as it:
        return it.read()


def squeezed(text):
    """A text without its blanks and line ends, which the formatter changes."""
    return ''.join(text.split())


def constant(crate, name, text):
    """The file of a constant. A text needs no escape in it."""
    bad = sorted({it for it in text if it in '"\\' or ord(it) > 126 or ord(it) < 32 and it != '\n'})
    if bad:
        sys.exit(f'crates/{crate}/page/{name}: the page has no quotation marks, backslashes, tabs or letters beyond ASCII, but here are {bad}')
    what = WHAT.get(name, 'a part of the script of the page')
    return f'//! The file page/{name}: {what}. Written by scripts/page.py.\n\n/// The text of the file.\npub(crate) const TEXT: &str = "{text}";\n'


def made(crate):
    """The text of each file in a crate's src/page."""
    source = f'{TOP}/crates/{crate}/page'
    scripts = read(f'{source}/order.txt').split()
    texts = {f'{name.split(".")[0]}.rt': constant(crate, name, read(f'{source}/{name}')) for name in [*WHAT, *scripts]}
    modules = sorted(it.removesuffix('.rt') for it in texts)
    parts = ''.join(f'    {it.split(".")[0]}::TEXT,\n' for it in scripts)
    texts['../page.rt'] = (f'//! The parts of the page that are the same for each {CRATES[crate]}. Written by scripts/page.py from the files of page/.\n\n'
                           + ''.join(f'{"" if f"{it}.js" in scripts else "pub(crate) "}mod {it};\n' for it in modules)
                           + f'\n/// The parts of the script, in their order.\npub(crate) const SCRIPTS: &[&str] = &[\n{parts}];\n')
    return texts


def write(crate):
    """Writes the files of a crate's src/page anew, and removes those that have no part of the page any more."""
    texts, folder = made(crate), f'{TOP}/crates/{crate}/src/page'
    os.makedirs(folder, exist_ok=True)
    for name in set(os.listdir(folder)) - set(texts):
        os.remove(f'{folder}/{name}')
    for name, text in texts.items():
        # (a file that was formatted stays as it is)
        if not os.path.exists(f'{folder}/{name}') or squeezed(read(f'{folder}/{name}')) != squeezed(text):
            with open(f'{folder}/{name}', 'w', encoding='utf-8') as it:
                it.write(text)


def compare(crate):
    """Says which files of a crate's src/page differ. Returns how many do."""
    texts, folder = made(crate), f'{TOP}/crates/{crate}/src/page'
    there = {*os.listdir(folder), '../page.rt'}
    differing = sorted({it for it in texts if it not in there or squeezed(read(f'{folder}/{it}')) != squeezed(texts[it])} | there - set(texts))
    for name in differing:
        print(f'{os.path.normpath(f"crates/{crate}/src/page/{name}")} is not what scripts/page.py makes of crates/{crate}/page: run scripts/page.py --write')
    print(f'crates/{crate}/src/page: {len(texts)} files')
    return len(differing)


def main():
    if sys.argv[1:] == ['--write']:
        for crate in CRATES:
            write(crate)
        return
    sys.exit(1 if sum(compare(crate) for crate in CRATES) else 0)


main()
