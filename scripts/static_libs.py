#!/usr/bin/env python3
"""Makes the static libraries for C, each in its crate as out/libNAME.a: static_libs.py [NAME ...]

`rt lib` makes them over the libraries below, which it proves first where they are not kept. After `rt ci` those are there, proved in
that very run, but without the stamp that says what they were made from, since a later edit would not be seen. So with --after-gate
they are taken as the gate left them: only right behind `rt ci` in the same tree, with no edit in between. A library whose checksum is
that of its sources is left as it is.

With --target the libraries are made for another processor, as out/TARGET/libNAME.a. They are proved for it too, over the libraries
below that are there, as with --after-gate.
"""
import argparse
import concurrent.futures
import os
import subprocess
import sys

sys.dont_write_bytecode = True

from quick import ROOT, kit_module, sum_of, text_of  # noqa: E402

LIBRARIES = ['vt_terminal', 'vt_check']
PARTS = ('src', 'specs', 'proofs')


def make_over_gate(name):
    """`rt lib`, over the libraries that the gate left."""
    rtlib = kit_module()
    rtlib.Crate.is_built = lambda crate: os.path.isdir(crate.rlib)
    os.chdir(f'{ROOT}/crates/{name}')
    return rtlib.main('lib', '--jobs', '2')


def make_for(name, target):
    """Proves and builds a library for another processor, over the libraries that are there."""
    rtlib = kit_module()
    rtlib.Crate.is_built = lambda crate: os.path.isdir(crate.rlib)
    folder = f'{ROOT}/crates/{name}'
    os.chdir(folder)
    os.makedirs(f'out/{target}', exist_ok=True)
    crate = rtlib.Crate(folder, ROOT, {}, name=None)
    return crate.compile(['--jobs', '2', '--target', target], f'out/{target}/lib{name}.a')


def make(name, after_gate, target):
    """Makes a library in a process of its own unless it is made, and returns its status and what it said."""
    folder, made_from = f'{ROOT}/crates/{name}/out', sum_of(name, PARTS)
    stamp = f'{folder}/lib{name}.sum'
    if not target and os.path.exists(f'{folder}/lib{name}.a') and text_of(stamp) == made_from:
        return 0, ''
    words = ['rt', 'lib', '--jobs', '2']
    if after_gate or target:
        words = [sys.executable, os.path.abspath(__file__), '--one', name, *(['--target', target] if target else [])]
    ran = subprocess.run(words, cwd=f'{ROOT}/crates/{name}', stdout=subprocess.PIPE, stderr=subprocess.STDOUT, text=True)
    if ran.returncode == 0 and not target and sum_of(name, PARTS) == made_from:
        with open(stamp, 'w', encoding='utf-8') as file:
            file.write(made_from)
    return ran.returncode, ran.stdout


def main():
    parser = argparse.ArgumentParser(description=__doc__.split('\n')[0])
    parser.add_argument('names', nargs='*', metavar='NAME')
    parser.add_argument('--after-gate', action='store_true')
    parser.add_argument('--target', metavar='TARGET', help='as aarch64-unknown-linux-gnu')
    parser.add_argument('--one', metavar='NAME', help=argparse.SUPPRESS)
    words = parser.parse_args()
    if words.one is not None:
        sys.exit(make_for(words.one, words.target) if words.target else make_over_gate(words.one))
    names = words.names or LIBRARIES
    with concurrent.futures.ThreadPoolExecutor(2 if words.after_gate else 1) as pool:
        made = list(pool.map(lambda name: make(name, words.after_gate, words.target), names))
    for name, (status, said) in zip(names, made):
        if status != 0:
            sys.exit(f'{said}\n{name}: the library was not made')
        folder = f'out/{words.target}' if words.target else 'out'
        print(f'made crates/{name}/{folder}/lib{name}.a')


if __name__ == '__main__':
    main()
