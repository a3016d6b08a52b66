"""Tests of the symbols and the sections of the library."""
import re
import subprocess

from c.programs import HEADERS, LIBRARY
from c.results import expect, read

MEMORY_FUNCTIONS = {'memcpy', 'memmove', 'memset', 'rattle_alloc', 'rattle_realloc', 'rattle_dealloc'}
COMPARING_FUNCTIONS = {'memcmp', 'bcmp'}


def nm(*words):
    ran = subprocess.run(['nm', *words, LIBRARY], capture_output=True, text=True, check=True)
    return [line.split(None, 2) for line in ran.stdout.splitlines() if ' ' in line.strip()]


def check_needed():
    needed = {words[1] for words in nm('--undefined-only')}
    expect(needed - COMPARING_FUNCTIONS == MEMORY_FUNCTIONS, f'it needs {", ".join(sorted(needed))}')
    return ', '.join(sorted(needed))


def check_defined():
    header = re.sub(r'/\*.*?\*/', '', read(f'{HEADERS}/vt_terminal.h').decode(), flags=re.S)
    declared = set(re.findall(r'^(?:size_t|void|enum vt_result|enum vt_output|uint32_t|uint64_t) (vt_\w+)\(', header, re.M))
    defined = {words[2] for words in nm('--defined-only', '--extern-only')}
    expect(defined == declared, f'only declared: {sorted(declared - defined)}, only defined: {sorted(defined - declared)}')
    return f'{len(defined)} functions'


def check_no_data():
    """No section may be written but tables of addresses, which are read-only once the program is loaded."""
    ran = subprocess.run(['readelf', '-SW', LIBRARY], capture_output=True, text=True, check=True)
    sections = re.findall(r'\] (\S+) +(?:PROGBITS|NOBITS) +[0-9a-f]+ [0-9a-f]+ ([0-9a-f]+) [0-9a-f]+ +(\w*)', ran.stdout)
    expect(len(sections) > 10, 'the sections were not found')
    written = [(name, int(size, 16)) for name, size, flags in sections if 'W' in flags and int(size, 16) > 0]
    others = [name for name, _ in written if not name.startswith('.data.rel.ro')]
    expect(not others, f'it has {others}')
    common = [words for words in nm() if len(words) == 3 and words[1] in 'BbCDGgSs']
    expect(not common, f'it has {common}')
    return f'{sum(size for _, size in written)} bytes of .data.rel.ro'


def test_symbols(tests):
    tests.run('needed symbols', check_needed)
    tests.run('defined symbols', check_defined)
    tests.run('no data', check_no_data)
