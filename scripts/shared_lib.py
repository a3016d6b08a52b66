#!/usr/bin/env python3
"""Links the two static libraries to a shared one, and installs all three: shared_lib.py [--prefix FOLDER [--root FOLDER]]

It leaves out/lib/libsegyolant.so, which exports the functions of vt_terminal.h and vt_check.h and no others, and takes memory by malloc.
The static libraries are there already (scripts/static_libs.py). It needs gcc.

With --prefix it also copies the libraries to FOLDER/lib, the headers to FOLDER/include/segyolant, and files for pkg-config and CMake.
--root is put before that path where files are written, as for a package. scripts/dist.py installs the programs too.
"""
import argparse
import os
import shutil
import subprocess
import sys

from version import version

ROOT = os.path.dirname(os.path.dirname(os.path.abspath(__file__)))
ARCHIVES = [f'{ROOT}/crates/{name}/out/lib{name}.a' for name in ('vt_terminal', 'vt_check')]
PACKAGING, OUT = f'{ROOT}/packaging', f'{ROOT}/out/lib'
NAMES = ['libsegyolant.so', f'libsegyolant.so.{version().split(".")[0]}', f'libsegyolant.so.{version()}']


def link():
    """Links the shared library."""
    os.makedirs(OUT, exist_ok=True)
    words = ['gcc', '-shared', '-fPIC', '-O2', '-Wall', '-Wextra', '-Werror', f'-I{ROOT}/include', '-o', f'{OUT}/{NAMES[2]}',
             f'-Wl,-soname,{NAMES[1]}', f'-Wl,--version-script={PACKAGING}/exported.map', '-Wl,-z,defs',
             f'{PACKAGING}/shared.c', f'{ROOT}/examples/c/heap.c', '-Wl,--whole-archive', *ARCHIVES, '-Wl,--no-whole-archive']
    subprocess.run(words, check=True)
    # Copies in place of links, as rt ci takes no link in the tree. A program that has the old one loaded keeps it.
    for name in NAMES[:2]:
        if os.path.lexists(f'{OUT}/{name}'):
            os.remove(f'{OUT}/{name}')
        shutil.copy2(f'{OUT}/{NAMES[2]}', f'{OUT}/{name}')


def put_links(folder):
    """The names by which a program finds the library when it is linked and when it runs."""
    for name in NAMES[:2]:
        if os.path.lexists(f'{folder}/{name}'):
            os.remove(f'{folder}/{name}')
        os.symlink(NAMES[2], f'{folder}/{name}')


def copy(path, folder):
    os.makedirs(folder, exist_ok=True)
    shutil.copy2(path, folder)


def write_file(name, folder, prefix):
    """Writes a file of `packaging` with its names filled in."""
    with open(f'{PACKAGING}/{name}.in', encoding='utf-8') as file:
        text = file.read().replace('@PREFIX@', prefix).replace('@VERSION@', version()).replace('@INTERFACE@', version().rpartition('.')[0])
    os.makedirs(folder, exist_ok=True)
    with open(f'{folder}/{name}', 'w', encoding='utf-8') as file:
        file.write(text)


def install(prefix, root):
    """Copies the libraries to lib, the headers to include/segyolant, and files for pkg-config and CMake, below root + prefix."""
    at = root + prefix
    for path in [f'{OUT}/{NAMES[2]}', *ARCHIVES]:
        copy(path, f'{at}/lib')
    put_links(f'{at}/lib')
    for name in sorted(os.listdir(f'{ROOT}/include')):
        copy(f'{ROOT}/include/{name}', f'{at}/include/segyolant')
    for name in ('segyolant.pc', 'segyolant-static.pc'):
        write_file(name, f'{at}/lib/pkgconfig', prefix or '${pcfiledir}/../..')
    for name in ('segyolantConfig.cmake', 'segyolantConfigVersion.cmake'):
        write_file(name, f'{at}/lib/cmake/segyolant', prefix)


def make():
    """Links the library from the static ones, which have to be there."""
    missing = [path for path in ARCHIVES if not os.path.exists(path)]
    if missing:
        sys.exit(f'{missing[0]} is not there: scripts/static_libs.py makes it')
    link()
    print(f'made out/lib/{NAMES[2]}')


def main():
    parser = argparse.ArgumentParser(description=__doc__.split('\n')[0])
    parser.add_argument('--prefix', metavar='FOLDER', help='such as /usr/local')
    parser.add_argument('--root', metavar='FOLDER', default='')
    words = parser.parse_args()
    make()
    if words.prefix:
        install(os.path.abspath(words.prefix), words.root)
        print(f'installed in {words.root}{words.prefix}')


if __name__ == '__main__':
    main()
