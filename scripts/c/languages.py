"""Tests of other languages and processors: the headers and examples/cpp in C++, bindings/rust, and the library for aarch64."""
import glob
import os
import subprocess

from c.programs import EXAMPLES, HEADERS, LIBRARY, REPLAY, ROOT, SANITIZERS, compiled, run
from c.replays import check_replay, stored_runs
from c.results import PassedOver, expect, need

AARCH64 = 'aarch64-unknown-linux-gnu'


def check_cpp_header(folder):
    need('g++')
    source = f'{folder}/headers.cpp'
    with open(source, 'w') as file:
        file.write('#include "vt_heap.h"\n#include "vt_check.h"\n#include "vt_records.h"\n#include "vt_terminal.h"\nint main() { return vt_size() == 0; }\n')
    words = ['g++', '-std=c++17', '-Wall', '-Wextra', '-Werror', f'-I{HEADERS}', '-fsyntax-only', source]
    ran = subprocess.run(words, capture_output=True, text=True)
    expect(ran.returncode == 0, ran.stderr[:400])


def check_cpp(folder, source, *flags):
    need('g++')
    program = f'{folder}/{os.path.basename(source)[:-4]}_cpp'
    words = ['g++', '-std=c++17', '-Wall', '-Wextra', '-Werror', *(flags or ['-O2']), f'-I{HEADERS}', '-o', program, source, LIBRARY]
    ran = subprocess.run(words, capture_output=True, text=True)
    expect(ran.returncode == 0, ran.stderr[:400])
    status, _, messages = run([program], ROOT)
    expect(status == 0, f'status {status}: {messages[-300:]!r}')


def check_rust(folder):
    need('cargo')
    if not os.path.isdir(f'{ROOT}/bindings/rust'):
        raise PassedOver('there is no bindings/rust')
    env = {**os.environ, 'CARGO_TARGET_DIR': f'{folder}/cargo'}
    ran = subprocess.run(['cargo', 'test', '--offline', '--quiet'], cwd=f'{ROOT}/bindings/rust', env=env, capture_output=True, text=True)
    expect(ran.returncode == 0, (ran.stdout + ran.stderr)[-600:])


class Emulator:
    """In the place of the programs: the emulator, whose first word is a program."""

    def get(self, name):
        return name


def check_aarch64(folder):
    """replay.c on the library for aarch64, in an emulator, prints what the gate stores."""
    need('qemu-aarch64')
    need('aarch64-linux-gnu-gcc')
    library = f'{ROOT}/crates/vt_terminal/out/{AARCH64}/libvt_terminal.a'
    if not os.path.exists(library):
        raise PassedOver('there is no library for it; make libs-aarch64 makes it')
    program = compiled(folder, 'replay-aarch64', [*REPLAY, 'heap.c'], '-O2', '-static', compiler='aarch64-linux-gnu-gcc', library=library)
    runs = [one for one in stored_runs() if not one.reported() and one.why_not() is None]
    expect(runs, 'no run is stored')
    for one in runs:
        check_replay(Emulator(), 'qemu-aarch64', one, [program])


def check_there(path):
    if not os.path.exists(path):
        raise PassedOver(f'there is no {os.path.relpath(path, ROOT)}')


def test_other_languages(tests, folder):
    tests.run('headers in C++', check_cpp_header, folder)
    sources = sorted(glob.glob(f'{EXAMPLES}/cpp/*.cpp'))
    for source in sources:
        tests.run(f'C++ {os.path.basename(source)}', check_cpp, folder, source)
    if not sources:
        tests.run('C++ examples', check_there, f'{EXAMPLES}/cpp')
    tests.run('C++ moves.cpp', check_cpp, folder, f'{ROOT}/scripts/c/moves.cpp', '-O1', *SANITIZERS)
    tests.run('Rust bindings', check_rust, folder)
    tests.run('aarch64', check_aarch64, folder)
