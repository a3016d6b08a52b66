#!/usr/bin/env python3
"""Makes a wheel of this package with the proved programs in segyolant/bin, for x86-64 Linux: make_wheel.py [--out FOLDER] [--programs PATTERN]

It needs no network and no other package. PATTERN says where the programs are, crates/{}/out/{} of the repository unless given. The same
files give the same bytes. It prints the path of the wheel.
"""
from __future__ import annotations

import argparse
import base64
import hashlib
import re
import sys
import zipfile
from pathlib import Path

HERE = Path(__file__).resolve().parent
TOP = HERE.parents[1]
PROGRAMS = ('vt_live', 'segyolant', 'vt_replay')
# What the simulated sprayer of the desk lives on.
EXAMPLES = ('sprayer.iop', 'sprayer.h')
TAG = 'py3-none-linux_x86_64'
# The earliest date that a zip file can say.
DATE = (1980, 1, 1, 0, 0, 0)


def setting(name: str) -> str:
    """A text of pyproject.toml."""
    found = re.search(rf'^{name} = "(.*)"$', (HERE / 'pyproject.toml').read_text(encoding='utf-8'), re.M)
    if found is None:
        sys.exit(f'{HERE / "pyproject.toml"} has no {name}')
    return found[1]


def metadata() -> str:
    front = f'Metadata-Version: 2.1\nName: {setting("name")}\nVersion: {setting("version")}\nSummary: {setting("description")}\n'
    front += f'Requires-Python: {setting("requires-python")}\nDescription-Content-Type: text/markdown\n'
    return front + '\n' + (HERE / 'README.md').read_text(encoding='utf-8')


def files(pattern: str) -> list[tuple[str, bytes, int]]:
    """The files of the wheel but its RECORD: path, bytes and mode."""
    package = HERE / 'segyolant'
    modules = sorted([*package.glob('*.py'), *package.glob('desk/*.py'), *package.glob('desk/static/*'), package / 'py.typed'])
    made = [(f'segyolant/{path.relative_to(package)}', path.read_bytes(), 0o644) for path in modules]
    made += [(f'segyolant/examples/{name}', (TOP / 'examples' / name).read_bytes(), 0o644) for name in EXAMPLES]
    for name in PROGRAMS:
        path = TOP / pattern.replace('{}', name)
        if not path.is_file():
            sys.exit(f'{path} is not there: make build proves the programs')
        made.append((f'segyolant/bin/{name}', path.read_bytes(), 0o755))
    info = f'{setting("name")}-{setting("version")}.dist-info'
    wheel = f'Wheel-Version: 1.0\nGenerator: make_wheel.py\nRoot-Is-Purelib: false\nTag: {TAG}\n'
    return [*made, (f'{info}/METADATA', metadata().encode(), 0o644), (f'{info}/WHEEL', wheel.encode(), 0o644)]


def record(held: list[tuple[str, bytes, int]], path: str) -> bytes:
    """The list of the files with their checksums."""
    lines = []
    for name, data, _ in held:
        sum_of = base64.urlsafe_b64encode(hashlib.sha256(data).digest()).rstrip(b'=').decode()
        lines.append(f'{name},sha256={sum_of},{len(data)}\n')
    return ''.join([*lines, f'{path},,\n']).encode()


def make(out: Path, pattern: str) -> Path:
    """Makes the wheel in a folder, and returns its path."""
    held = files(pattern)
    path = f'{setting("name")}-{setting("version")}.dist-info/RECORD'
    held.append((path, record(held, path), 0o644))
    out.mkdir(parents=True, exist_ok=True)
    wheel = out / f'{setting("name")}-{setting("version")}-{TAG}.whl'
    with zipfile.ZipFile(wheel, 'w', zipfile.ZIP_DEFLATED) as archive:
        for name, data, mode in held:
            entry = zipfile.ZipInfo(name, DATE)
            entry.compress_type = zipfile.ZIP_DEFLATED
            entry.external_attr = (0o100000 | mode) << 16
            archive.writestr(entry, data)
    return wheel


def main() -> None:
    parser = argparse.ArgumentParser(description=(__doc__ or '').split('\n')[0])
    parser.add_argument('--out', type=Path, default=TOP / 'out' / 'wheel', metavar='FOLDER')
    parser.add_argument('--programs', default='crates/{}/out/{}', metavar='PATTERN')
    words = parser.parse_args()
    print(make(words.out, words.programs))


if __name__ == '__main__':
    main()
