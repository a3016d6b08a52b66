#!/usr/bin/env python3
"""Proves the programs and leaves them in crates/NAME/out, as LLVM builds them and, behind `.by-rattle`, as Rattle's own compiler does.

The crates are proved side by side by `rt ci`, in a copy of the repository that has the programs and what they stand on and no others.
It keeps what it proves on this machine: where `make prove` has run on the same files, nothing is proved again. A program whose
checksum is that of its sources is left as it is. With --gate it runs `rt ci` in this tree, and notes what the programs were made from.
"""
import os
import shutil
import subprocess
import sys
import tempfile

sys.dont_write_bytecode = True

from quick import PROGRAMS, ROOT, crate_of, sum_of, text_of  # noqa: E402

PARTS = ('src', 'specs', 'proofs')


def stamp_of(name):
    """The file that says what a program was made from."""
    return f'{ROOT}/crates/{name}/out/{name}.sum'


def is_built(name):
    """Whether the proved program that is there was made from what is there."""
    made = [f'{ROOT}/crates/{name}/out/{name}{end}' for end in ('', '.by-rattle')]
    return all(os.path.exists(it) for it in made) and text_of(stamp_of(name)) == sum_of(name, PARTS)


def sums_of(names):
    """The checksums of all that programs are made from, by their names."""
    return {name: sum_of(name, PARTS) for name in names}


def note_built(sums):
    """Notes what the programs that are there were made from, those whose sources are the same as when their proof began."""
    for name, made_from in sums.items():
        if os.path.exists(f'{ROOT}/crates/{name}/out/{name}') and sum_of(name, PARTS) == made_from:
            with open(stamp_of(name), 'w', encoding='utf-8') as file:
                file.write(made_from)


def copy_of_programs(names, room):
    """Makes a repository of some programs and the crates below them."""
    kept = {it.name for name in names for it in [crate_of(name), *crate_of(name).below()]}
    lines = [line for line in text_of(f'{ROOT}/crates.txt').split('\n') if line.split(':')[0].split(' ')[0] in kept]
    with open(f'{room}/crates.txt', 'w', encoding='utf-8') as file:
        file.write('\n'.join(lines) + '\n')
    shutil.copyfile(f'{ROOT}/HANDLES', f'{room}/HANDLES')
    for name in kept:
        shutil.copytree(f'{ROOT}/crates/{name}', f'{room}/crates/{name}', ignore=shutil.ignore_patterns('out', 'must-fail'))


def main():
    if sys.argv[1:] == ['--gate']:
        # (the gate runs in this tree, so its programs lie where `make build` leaves them)
        sums = sums_of(PROGRAMS)
        status = subprocess.run(['rt', 'ci'], cwd=ROOT).returncode
        if status == 0:
            note_built(sums)
        sys.exit(status)
    names = [name for name in PROGRAMS if not is_built(name)]
    if names:
        print(f'{", ".join(names)}: proving; from nothing that takes some 30 minutes on four processors', file=sys.stderr)
        with tempfile.TemporaryDirectory(prefix='build-') as room:
            sums = sums_of(names)
            copy_of_programs(names, room)
            subprocess.run(['git', 'init', '-q', room], check=True)
            environment = {name: value for name, value in os.environ.items() if name != 'CI'}
            if subprocess.run(['rt', 'ci'], cwd=room, env=environment).returncode != 0:
                sys.exit('the programs were not built')
            for name in names:
                os.makedirs(f'{ROOT}/crates/{name}/out', exist_ok=True)
                for end in ('', '.by-rattle'):
                    shutil.copy(f'{room}/crates/{name}/out/{name}{end}', f'{ROOT}/crates/{name}/out/{name}{end}')
        note_built(sums)
    for name in PROGRAMS:
        print(f'crates/{name}/out/{name}')


if __name__ == '__main__':
    main()
