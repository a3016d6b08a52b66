#!/usr/bin/env python3
"""Installs what is made, or packs it: dist.py --prefix FOLDER [--root FOLDER], or dist.py [--quick]

Installed are the four programs, the static and the shared libraries with their headers and files for pkg-config and CMake, man pages,
completions for bash, fish and zsh, and the documents with the examples. --root is put before the prefix where files are written.

Without --prefix they are packed into dist/segyolant-VERSION-x86_64-linux.tar.gz, which may be unpacked anywhere; SHA256SUMS in it has a
line for each file. With --quick it has the quick builds of the programs, which are not proved, and no libraries, and is named so. The
same files give the same bytes.
"""
import argparse
import gzip
import hashlib
import os
import shutil
import subprocess
import sys
import tarfile
import tempfile

sys.dont_write_bytecode = True

import command_lines  # noqa: E402
import manuals  # noqa: E402
import shared_lib  # noqa: E402
from quick import PROGRAMS, QUICK, ROOT  # noqa: E402
from version import version  # noqa: E402

# Files at the top that are installed with the documents, if they are there.
PAGES = ['README.md', 'CHANGELOG.md', 'CONTRIBUTING.md', 'SECURITY.md', 'LICENSE', 'LICENSE.md', 'COPYING']
FOLDERS = ['docs', 'examples']
# What the README of an archive of quick builds says in place of the libraries.
LACKS = '''
This archive has no libraries and no headers: an archive that `make dist` packs without `QUICK=1` has them. No archive has the package for Python, which is in the repository.
'''


def write(path, text):
    os.makedirs(os.path.dirname(path), exist_ok=True)
    with open(path, 'w', encoding='utf-8') as file:
        file.write(text)


def put_programs(at, programs):
    """The programs with their man pages and completions."""
    for name in PROGRAMS:
        path = programs.replace('{}', name)
        if not os.path.exists(path):
            sys.exit(f'{path} is not there: make build proves the programs, and make quick builds them without a proof')
        said = subprocess.run([path, '--version'], check=True, capture_output=True, text=True).stdout.split()
        if said != [name, version()]:
            sys.exit(f'{path} says {" ".join(said)}, and VERSION is {version()}: build it anew')
        shared_lib.copy(path, f'{at}/bin')
        line = command_lines.of_program(path, name)
        for file, text in manuals.man_pages(line, version()).items():
            write(f'{at}/share/man/man1/{file}', text)
        for file, text in manuals.completions(line).items():
            write(f'{at}/share/{file}', text)


def put_documents(at):
    """The documents and the examples, with the folders that they have in the repository, so that their links hold."""
    folder = f'{at}/share/doc/segyolant'
    for name in PAGES:
        if os.path.exists(f'{ROOT}/{name}'):
            shared_lib.copy(f'{ROOT}/{name}', folder)
    for name in FOLDERS:
        shutil.copytree(f'{ROOT}/{name}', f'{folder}/{name}', dirs_exist_ok=True, ignore=shutil.ignore_patterns('__pycache__', 'out'))


def put_readme(at, libraries):
    """What to do with what was unpacked."""
    with open(f'{ROOT}/packaging/README.md.in', encoding='utf-8') as file, open(f'{ROOT}/packaging/libraries.md.in', encoding='utf-8') as more:
        text = file.read().replace('@LIBRARIES@\n', more.read() if libraries else LACKS)
    write(f'{at}/README.md', text.replace('@VERSION@', version() + ('' if libraries else ', quick builds, not proved,')))


def install(prefix, root, programs, libraries):
    """Installs all below root + prefix. What finds the libraries names the prefix, or where it lies itself if there is none."""
    at = root + prefix
    put_programs(at, programs)
    if libraries:
        shared_lib.install(prefix, root)
    put_documents(at)


def pack(quick):
    """Makes the package, and returns its path."""
    name = f'segyolant-{version()}-x86_64-linux' + ('-quick' if quick else '')
    path = f'{ROOT}/dist/{name}.tar.gz'
    with tempfile.TemporaryDirectory() as room:
        at = f'{room}/{name}'
        install('', at, f'{QUICK}/{{}}' if quick else f'{ROOT}/crates/{{}}/out/{{}}', not quick)
        put_readme(at, not quick)
        write(f'{at}/SHA256SUMS', sums_of(at))
        os.makedirs(f'{ROOT}/dist', exist_ok=True)
        with open(path, 'wb') as file, gzip.GzipFile('', 'wb', fileobj=file, mtime=0) as packed:
            with tarfile.open(mode='w', fileobj=packed, format=tarfile.GNU_FORMAT) as archive:
                for folder, folders, files in os.walk(at):
                    folders.sort()
                    for file_name in sorted(files):
                        each = f'{folder}/{file_name}'
                        archive.add(each, os.path.relpath(each, room), filter=without_maker)
    return path


def without_maker(entry):
    """The entry of an archive without the time and the user that made it."""
    entry.mtime, entry.uid, entry.gid, entry.uname, entry.gname = 0, 0, 0, '', ''
    entry.mode = 0o755 if entry.mode & 0o100 else 0o644
    return entry


def sums_of(at):
    lines = []
    for folder, _, files in os.walk(at):
        for name in files:
            path = f'{folder}/{name}'
            if not os.path.islink(path):
                with open(path, 'rb') as file:
                    lines.append(f'{hashlib.sha256(file.read()).hexdigest()}  {os.path.relpath(path, at)}\n')
    return ''.join(sorted(lines, key=lambda line: line[66:]))


def main():
    parser = argparse.ArgumentParser(description=__doc__.split('\n')[0])
    parser.add_argument('--prefix', metavar='FOLDER', help='such as /usr/local')
    parser.add_argument('--root', metavar='FOLDER', default='')
    parser.add_argument('--quick', action='store_true')
    words = parser.parse_args()
    if not words.quick:
        shared_lib.make()
    if words.prefix is not None:
        install(os.path.abspath(words.prefix), words.root, f'{ROOT}/crates/{{}}/out/{{}}', True)
        print(f'installed below {words.root}{words.prefix}')
    else:
        path = pack(words.quick)
        print(f'made {os.path.relpath(path, ROOT)}, {os.path.getsize(path)} bytes')


if __name__ == '__main__':
    main()
