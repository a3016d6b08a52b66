#!/usr/bin/env python3
"""Says where a recipe of docs/EXTENDING.md is not true.

Each recipe has an example, of which the code has words. Each file with such a word has to be named in the recipe, or in another one that
the recipe names in double quotes. Each file that a recipe names has to be there, with the names that stand in backquotes in parentheses
directly behind it, or, if it is a document, with the texts in double quotes behind it.
"""
import fnmatch
import glob
import os
import re
import sys

sys.dont_write_bytecode = True

TOP = os.path.dirname(os.path.dirname(os.path.abspath(__file__)))
PAGE = 'docs/EXTENDING.md'
FOLDERS = ('crates/*/src', 'crates/*/specs', 'crates/*/proofs', 'include', 'bindings', 'examples/c', 'examples/cpp', 'examples/sdl', 'scripts')
CODE = ('.antt', '.c', '.cpp', '.h', '.hpp', '.js', '.md', '.py', '.rs', '.rt')
OTHERS = ('.log', '.pool', '.run', '.txt')

# The words of each recipe's example, as regular expressions, and how the paths begin below which they are looked for.
EXAMPLES = {
    'A command': {'Change(Priority|ChildPosition)|CHANGE_(PRIORITY|CHILD_POSITION)': '', '0xB0': 'bindings/'},
    'An error bit of a command': {'PATTERN|the pattern is no Picture Graphic': 'crates/'},
    'An attribute': {'NeedleColour': ''},
    'A field of a kind': {'needle_colour|VT_METER_NEEDLE_COLOUR': ''},
    'An object kind': {'Meter|meter|VT_METER': '', 'InputNumber|InputList': 'crates/'},
    'An operator line': {'Select(?! Input| Active| Colour)|VT_SELECT|! select|"select ?"|HeldKey': '', r"def select|'select'|release\|select": 'bindings/'},
    'An event': {'InputSelected|InputDeselected': '', r'event, 0 to 26|(at most|above|event) 26|(event|n) < 27|≤ 27': 'crates/'},
    'A refusal to the operator': {'NotPressed|VT_NOT_PRESSED': ''},
    'A refusal of a pool': {r'MacroValue|(rule|refusal)\W+1 to 12': ''},
    'A fault of a pool': {r'NullId|1 to 5\W+(and|or) 7': ''},
    'A timeout': {r'(TP|ETP|SENDER)_TIMEOUT(: u64)? =|1250000|1_250_000|1,250,000': '', 'SILENCE|3000000|3_000_000|3,000,000': 'crates/'},
    'A form of log lines': {'frame_form|data_form|put_frame': 'crates/vt_recorded/'},
    'An option of vt_replay': {r'report_flag|in_report|options\.report|"report"|six_ids': 'crates/vt_program/'},
    'A subcommand of segyolant_log': {'Options::Compare|CompareOptions|run_compare|"compare"': 'crates/'},
    'A column of stats': {'seen_twice|seen twice|repeated_packets|masks_never': 'crates/'},
    'A warning of the checker': {'TextTooWide': ''},
    'The text of a message': {'no frame could be read': 'crates/'},
    'A subcommand of the checker': {'Options::Diff|DiffOptions|run_diff|"diff"': 'crates/', 'DrawOptions|"draw"': 'crates/check_options'},
    'A call for C': {'vt_lost|TellsLost|screen::lost|vt_limits_of|vt_text_of_limits|WritesLimits|dialog::limits': ''},
}

# Files that no recipe has to name, and why.
APART = {
    'crates/check_tool/src/check/config.rt': 'its select is an option',
    'crates/check_options/src/check.rt': 'its select is an option',
    'crates/vt_terminal/proofs/*/Proof.antt': 'scripts/export_proofs.py writes them',
    'scripts/recipes.py': 'it has the words of all examples',
    'crates/check_options/src/options.rt': 'its "select" chooses codes; a subcommand names it',
    'scripts/testing/consoles.py': 'its pool may have any refusal',
    'bindings/python/build/*': 'a build leaves them',
    'bindings/rust/target/*': 'a build leaves them',
}

TOKEN = re.compile(r'`(?P<quoted>[^`]+)`|(?P<bare>[\w-]+(?:[/.][\w-]+)*)')
PATH = re.compile(r'[\w*][\w.*{},-]*(?:/[\w.*{},-]+)*/?')


def text_of(path):
    with open(f'{TOP}/{path}', encoding='utf-8', errors='replace') as file:
        return file.read()


def found(pattern):
    """The paths of a pattern, from the top."""
    return sorted(os.path.relpath(it, TOP) for it in glob.glob(f'{TOP}/{pattern}', recursive=True))


CRATES = set(os.listdir(f'{TOP}/crates'))
SUBJECTS = [os.path.basename(it).removesuffix('.rt') for it in found('crates/vt_records/src/records/*.rt')]


# ---- the page

def recipes():
    """The lines of each recipe with their numbers, by its heading."""
    made, heading = {}, None
    for number, line in enumerate(text_of(PAGE).split('\n'), 1):
        if line.startswith('## '):
            heading = line.removeprefix('## ')
        elif heading not in (None, 'How to work'):
            made.setdefault(heading, []).append((number, line))
    return made


def is_path(match):
    """Whether a word of the page is a path. One without backquotes is that of a file, behind a folder or at the top."""
    word = match['quoted'] or match['bare']
    if match['bare'] and '/' not in word and not os.path.isfile(f'{TOP}/{word}'):
        return False
    is_file = word.endswith(CODE + OTHERS)
    return bool(PATH.fullmatch(word)) and (is_file or match['quoted'] is not None and '/' in word)


def placed(word, crates, folders):
    """The paths of a word, from the top: it begins there, or in the crates named last, or it is in the folders of the file before it."""
    if os.path.isdir(f'{TOP}/{word.split("/")[0]}') or os.path.isfile(f'{TOP}/{word}'):
        return [word]
    within = [f'crates/{it}' for it in crates] if '/' in word else folders
    return [f'{it}/{word}' for it in within] or [word]


def expanded(path):
    """The paths for which one with braces stands, and for one with SUBJECT those that are there."""
    if 'SUBJECT' in path:
        return [it for it in (path.replace('SUBJECT', subject) for subject in SUBJECTS) if found(it)] or [path]
    parts = re.fullmatch(r'(.*?)\{(.*?)\}(.*)', path)
    return [it for part in parts[2].split(',') for it in expanded(parts[1] + part + parts[3])] if parts else [path]


def named_in(line):
    """Rows of the paths that a word of a line names, and the text behind the word up to the next one that names some."""
    crates, folders, rows, crate_end = [], [], [], None
    for match in TOKEN.finditer(line):
        if match['bare'] in CRATES:
            is_second = crate_end is not None and line[crate_end:match.start()] == ' and '
            crates = [*crates, match['bare']] if is_second else [match['bare']]
            folders, crate_end = [], match.end()
        elif is_path(match):
            paths = placed(match['quoted'] or match['bare'], crates, folders)
            folders, crate_end = [os.path.dirname(it) for it in paths if '/' in it], None
            rows.append((match, [it for path in paths for it in expanded(path)]))
    ends = [match.start() for match, _ in rows[1:]] + [len(line)]
    return [(paths, line[match.end():end]) for (match, paths), end in zip(rows, ends)]


# ---- what is there

def quoted_behind(path, behind, headings):
    """What has to stand in a file by the text behind its path."""
    if path.endswith('.md'):
        return [it for it in re.findall(r'"([^"]+)"', behind) if it not in headings and 'NAME' not in it]
    parentheses = re.match(r' \(([^)]*)', behind)
    return [it.split('::')[-1] for it in re.findall(r'`(\w[\w:-]*)`', parentheses[1])] if parentheses else []


def false_in(line, headings):
    """What is false in a line: files that are not there, and what their files do not have."""
    for paths, behind in named_in(line):
        gone = [it for it in paths if not found(it)]
        yield from (f'{it} is not there' for it in gone)
        files = [it for path in paths for it in found(f'{path}**' if path.endswith('/') else path) if os.path.isfile(f'{TOP}/{it}')]
        for name in quoted_behind(paths[0], behind, headings):
            whole = re.compile(rf'(?<!\w){re.escape(name)}(?!\w)')
            if not gone and not any(whole.search(text_of(it)) for it in files):
                yield f'{paths[0]} does not have {name}'


# ---- what is named

def code():
    """The texts of the files in which words are looked for, by their paths."""
    paths = [it for folder in FOLDERS for it in found(f'{folder}/**') if it.endswith(CODE)]
    return {it: text_of(it) for it in paths if not any(fnmatch.fnmatch(it, apart) for apart in APART)}


def word_in(words, text):
    """The first of these words in a text that does not begin within a longer one."""
    return next((it[0] for it in words.finditer(text) if not re.match(r'\w', text[it.start() - 1:it.start()])), None)


def is_named(file, paths):
    return any(file == it or it.endswith('/') and file.startswith(it) or fnmatch.fnmatch(file, it) for it in paths)


def lacking(heading, paths, texts):
    """The files with words of a recipe's example that are not among these paths, and words that no file has."""
    for words, front in EXAMPLES[heading].items():
        whole = re.compile(rf'(?:{words})(?!\w)')
        held = {file: word_in(whole, text) for file, text in texts.items() if file.startswith(front)}
        if not any(held.values()):
            yield f'no file has the example of "{heading}", {words}'
        for file, word in held.items():
            if word and not is_named(file, paths):
                yield f'"{heading}" does not name {file}, which has {word}'


def main():
    pages, texts = recipes(), code()
    wrong = [f'{PAGE}: "{it}" has no example in scripts/recipes.py' for it in pages if it not in EXAMPLES]
    wrong += [f'{PAGE}: "{it}" is not there, and has an example in scripts/recipes.py' for it in EXAMPLES if it not in pages]
    wrong += [f'{PAGE}:{number}: {it}' for lines in pages.values() for number, line in lines for it in false_in(line, pages)]
    named = {heading: [it for _, line in lines for paths, _ in named_in(line) for it in paths] for heading, lines in pages.items()}
    for heading in filter(EXAMPLES.get, pages):
        others = [it for it in pages if any(f'"{it}"' in line for _, line in pages[heading])]
        wrong += [f'{PAGE}: {it}' for it in lacking(heading, sum((named[it] for it in others), named[heading]), texts)]
    print('\n'.join(wrong) or f'{PAGE}: {len(pages)} recipes name the files of their examples')
    sys.exit(1 if wrong else 0)


if __name__ == '__main__':
    main()
