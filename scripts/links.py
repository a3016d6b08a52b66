#!/usr/bin/env python3
"""Says which files, functions and commands that the documents name are not there.

Files are links, and paths in backquotes below a folder of the repository or from a crate's name on. A path with a word in capitals, as
crates/NAME, stands for many, and one below out/ is made by a command: these are passed over. Functions are the names in parentheses behind
a path from a crate's name on, each in backquotes: the file has to have each. Commands are `make TARGET` in backquotes, which the Makefile
must have, and lines of code that run a program: its subcommand and its options have to be on the reference page of the program.
"""
import glob
import os
import re
import sys

TOP = os.path.dirname(os.path.dirname(os.path.abspath(__file__)))
FOLDERS = ('bindings', 'crates', 'docs', 'examples', 'include', 'scripts', 'tests', 'wrong_bodies')
PATH = re.compile(r'`((?:%s)/[\w./*-]+)`' % '|'.join(FOLDERS))
SOURCE = re.compile(r'`((?:(?:vt|check|draw|log)_\w+|segyolant\w*)/[\w./]+\.rt)`(?: \(((?:`\w+`(?:, )?)+)\))?')
LINK = re.compile(r'\]\(([^)#:]+)\)')
TARGET = re.compile(r'(?:`|^ {4})make ([a-z][a-z0-9-]*)')
# A program with its words, at the beginning of a line of code or of a text in backquotes, up to a pipe, a remark or the end.
COMMAND = re.compile(r'(?:`|^ {4}(?:\$ )?(?:- run: )?)(?:[\w./]*/)?(vt_replay|segyolant|segyolant_log) ([^`|<>#]*)')
PAGES = {'vt_replay': 'VT_REPLAY', 'segyolant': 'SEGYOLANT', 'segyolant_log': 'SEGYOLANT_LOG'}


def text_of(path):
    with open(path, encoding='utf-8') as file:
        return file.read()


def targets():
    return set(re.findall(r'^([a-z][a-z0-9-]*):', text_of(f'{TOP}/Makefile'), re.M))


def words_of(program):
    """The options of a program by its subcommands, by '' those of the program itself."""
    page = text_of(f'{TOP}/docs/{PAGES[program]}.md')
    front, *sections = re.split(rf'^## {program} (?=\w+$)', page, flags=re.M)
    found = {section.split('\n')[0]: section for section in sections}
    return {name: set(re.findall(r'(?<![\w-])--?[a-z][a-z-]*', text)) for name, text in {'': front, **found}.items()}


def lacking_words(program, words, known):
    """What a command line has that its program does not take."""
    options = [word.split('=')[0] for word in words if re.match(r'--?[a-z]', word)]
    name = words[0] if words and words[0] in known else ''
    is_subcommand = program != 'vt_replay' and words and re.fullmatch('[a-z]+', words[0]) and words[0] != 'help'
    if is_subcommand and not name:
        return [words[0]]
    return [option for option in options if option not in known[name] | {'--help', '-h'}]


def lacking_functions(path, names):
    """Which of the functions that a file of a crate is said to have are not there, or the file if it is not."""
    if not os.path.exists(f'{TOP}/crates/{path}'):
        return [path]
    text = text_of(f'{TOP}/crates/{path}')
    return [f'{it} in {path}' for it in names if not re.search(rf'\bfn {it}\b', text)]


def lacking_in(document, made, known):
    """What a document names and what is not there, with the numbers of the lines."""
    for number, line in enumerate(text_of(document).split('\n'), 1):
        paths = [f'{TOP}/{it}' for it in PATH.findall(line) if not re.search(r'/[A-Z]{2,}(?![\w.])|/out/', it)]
        paths += [os.path.join(os.path.dirname(document), it) for it in LINK.findall(line)]
        missing = [os.path.relpath(path, TOP) for path in paths if not glob.glob(path)]
        for path, names in SOURCE.findall(line):
            missing += lacking_functions(path, re.findall(r'\w+', names))
        missing += [f'make {it}' for it in TARGET.findall(line) if it not in made]
        for program, words in COMMAND.findall(line):
            missing += [f'{program} {it}' for it in lacking_words(program, words.split(), known[program])]
        for it in missing:
            yield f'{os.path.relpath(document, TOP)}:{number}: {it} is not there'


def main():
    at_top = [f'{TOP}/{it}.md' for it in ('README', 'CHANGELOG', 'CONTRIBUTING', 'SECURITY', 'examples/README', 'bindings/python/README')]
    documents = [*at_top, *sorted(glob.glob(f'{TOP}/docs/*.md'))]
    made, known = targets(), {program: words_of(program) for program in PAGES}
    lacking = [it for document in documents for it in lacking_in(document, made, known)]
    print('\n'.join(lacking) or f'{len(documents)} documents: each file, function and command that they name is there')
    sys.exit(1 if lacking else 0)


if __name__ == '__main__':
    main()
