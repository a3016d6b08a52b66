#!/usr/bin/env python3
"""The version of all that is released, which the file VERSION has: version.py [--write]

Programs, libraries and packages say it in files of their own, whose places are below. The script names each place that says another one,
and with --write puts that of VERSION there.
"""
import os
import re
import sys

ROOT = os.path.dirname(os.path.dirname(os.path.abspath(__file__)))
# The file, and the text around the version: {} is 0.2.0, {hex} the number of vt_version(), 000200, as a header or Rust writes it.
PLACES = [
    ('crates/vt_program/src/options.rt', '.version("{}")'),
    ('crates/vt_cli/src/command_line.rt', 'pub const VERSION: &str = "{}";'),
    ('crates/vt_live/src/main.rt', '"vt_live {}\\n"'),
    ('crates/vt_live/stdout', 'vt_live {}\n'),
    ('crates/vt_terminal/src/lib.rt', 'const VERSION: u32 = 0x00{high}_{low};'),
    ('include/vt_terminal.h', '#define VT_VERSION 0x{high}{low}u'),
    ('bindings/rust/Cargo.toml', '\nversion = "{}"\n'),
    ('bindings/python/pyproject.toml', '\nversion = "{}"\n'),
    ('bindings/python/segyolant/__init__.py', "\n__version__ = '{}'\n"),
    ('docs/PYTHON.md', 'segyolant-{}-py3-none-linux_x86_64.whl'),
    ('tests/segyolant/words.run', '| segyolant {}\n'),
    ('tests/segyolant_log/examples.run', '| segyolant_log {}\n'),
    ('tests/vt_live/words.run', '| vt_live {}\n'),
    ('tests/vt_replay/words.run', '| vt_replay {}\n'),
]


def version():
    with open(f'{ROOT}/VERSION', encoding='utf-8') as file:
        return file.read().strip()


def filled(form, said):
    """The text of a place with a version."""
    major, minor, patch = map(int, said.split('.'))
    return form.replace('{}', said).replace('{high}', f'{major:02X}').replace('{low}', f'{minor:02X}{patch:02X}')


def pattern(form):
    """What matches the text of a place with any version."""
    parts = re.split(r'(\{\}|\{high\}|\{low\})', form)
    forms = {'{}': r'\d+\.\d+\.\d+', '{high}': r'[0-9A-F]{2,4}', '{low}': '[0-9A-F]{4}'}
    return ''.join(forms.get(part) or re.escape(part) for part in parts)


def main(write):
    wrong = []
    for path, form in PLACES:
        with open(f'{ROOT}/{path}', encoding='utf-8') as file:
            text = file.read()
        found = re.findall(pattern(form), text)
        if len(found) != 1:
            sys.exit(f'{path}: {len(found)} places have the form {form!r}, and one is expected')
        if found[0] == filled(form, version()):
            continue
        wrong.append(path)
        if write:
            with open(f'{ROOT}/{path}', 'w', encoding='utf-8') as file:
                file.write(text.replace(found[0], filled(form, version())))
    if wrong and not write:
        sys.exit(f'VERSION is {version()}, and these say another one: {", ".join(wrong)}; scripts/version.py --write mends them')
    print(f'version {version()}: {len(PLACES)} places {"written" if wrong else "say so"}')


if __name__ == '__main__':
    main(sys.argv[1:] == ['--write'])
