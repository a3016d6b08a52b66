"""Tests of the shared library and of what is installed: its symbols, a program of another language, pkg-config and CMake."""
import ctypes
import os
import re
import subprocess
import sys

from c.programs import EXAMPLES, HEADERS, ROOT
from c.results import expect, need, read

MAKER = [sys.executable, f'{ROOT}/scripts/shared_lib.py']
SHARED = f'{ROOT}/out/lib/libsegyolant.so'


def made(words):
    ran = subprocess.run([str(word) for word in words], capture_output=True, text=True)
    expect(ran.returncode == 0, f'{words[0]}: {(ran.stderr or ran.stdout)[-400:]}')
    return ran.stdout


def check_shared():
    """It exports the functions of the headers, needs the C library alone, and is not changed when it is loaded."""
    need('gcc')
    made(MAKER)
    exported = {line.split()[-1] for line in made(['nm', '-D', '--defined-only', SHARED]).splitlines()}
    texts = [re.sub(r'/\*.*?\*/', '', read(f'{HEADERS}/{name}').decode(), flags=re.S) for name in ('vt_terminal.h', 'vt_check.h')]
    declared = set(re.findall(r'^(?:VT_INLINE )?(?:size_t|void|enum vt_result|enum vt_output|uint32_t|uint64_t|struct vt_event) (vt_\w+)\(', '\n'.join(texts), re.M))
    expect(exported == declared, f'only exported: {sorted(exported - declared)}, only declared: {sorted(declared - exported)}')
    dynamic = made(['readelf', '-d', SHARED])
    expect(re.findall(r'NEEDED.*\[(.*)\]', dynamic) == ['libc.so.6'] and 'TEXTREL' not in dynamic, dynamic)
    return f'{len(exported)} functions'


class Profile(ctypes.Structure):
    _fields_ = [('size', ctypes.c_uint32), ('memory', ctypes.c_uint32), *((f'byte_{k}', ctypes.c_uint8) for k in range(10)), ('width', ctypes.c_uint16),
                ('height', ctypes.c_uint16)]


def check_ctypes():
    """A program in Python preloads a pool and reads its screen and its picture."""
    library = ctypes.CDLL(SHARED)
    library.vt_size.restype = ctypes.c_size_t
    for name in ('vt_screen', 'vt_picture', 'vt_elements'):
        getattr(library, name).restype = ctypes.c_uint64
    memory = ctypes.create_string_buffer(library.vt_size() + 16)
    at = ctypes.c_void_p((ctypes.addressof(memory) + 15) // 16 * 16)
    profile = Profile(ctypes.sizeof(Profile), 1048576, 64, 64, 64, 6, 0x7F, 0x7F, 0, 0, 2, 0, 480, 480)
    expect(library.vt_begin(at, 0x26, ctypes.c_uint64(0x20001D0000000001), ctypes.byref(profile)) == 0, 'vt_begin fails')
    pool = read(f'{EXAMPLES}/pool.iop')
    expect(library.vt_preload(at, 0x80, pool, ctypes.c_size_t(len(pool))) == 0, 'vt_preload fails')
    buffer = ctypes.create_string_buffer(65536)
    count = library.vt_screen(at, buffer, ctypes.c_size_t(len(buffer)))
    expect(buffer.raw[:count] == b'screen 80 mask 1000\ncontainer 100 10 5 50x20\n', f'the screen is {buffer.raw[:count]}')
    count = library.vt_picture(at, 0x80, 65535, buffer, ctypes.c_size_t(len(buffer)))
    expect(buffer.raw[:count].startswith(b'<svg ') and b'data-id="100"' in buffer.raw[:count], f'the picture is {buffer.raw[:80]}')
    expect(library.vt_elements(at, None, ctypes.c_size_t(0)) == 1, 'another number of elements')
    library.vt_done(at)


def installed(folder):
    prefix = f'{folder}/installed'
    made([*MAKER, '--prefix', prefix])
    return prefix


SOURCE = '#include "vt_terminal.h"\n#include <stdio.h>\nint main(void) { return vt_size() == 0 || puts("linked") < 0; }\n'


def check_pkg_config(folder):
    need('pkg-config')
    prefix = installed(folder)
    with open(f'{folder}/uses.c', 'w') as file:
        file.write(SOURCE)
    env = {**os.environ, 'PKG_CONFIG_PATH': f'{prefix}/lib/pkgconfig', 'LD_LIBRARY_PATH': f'{prefix}/lib'}
    for name, heap in [('segyolant', []), ('segyolant-static', [f'{EXAMPLES}/c/heap.c'])]:
        flags = subprocess.run(['pkg-config', '--cflags', '--libs', name], env=env, capture_output=True, text=True, check=True).stdout.split()
        made(['gcc', '-std=c11', '-o', f'{folder}/uses', f'{folder}/uses.c', *heap, *flags])
        ran = subprocess.run([f'{folder}/uses'], env=env, capture_output=True, text=True)
        expect(ran.returncode == 0 and ran.stdout == 'linked\n', f'{name}: status {ran.returncode}')


CMAKE = '''cmake_minimum_required(VERSION 3.16)
project(uses C)
find_package(segyolant REQUIRED)
add_executable(shared uses.c)
target_link_libraries(shared segyolant::segyolant)
add_executable(static uses.c HEAP)
target_link_libraries(static segyolant::terminal)
'''


def check_cmake(folder):
    need('cmake')
    prefix = installed(folder)
    source = f'{folder}/cmake'
    os.makedirs(source, exist_ok=True)
    for name, text in [('uses.c', SOURCE), ('CMakeLists.txt', CMAKE.replace('HEAP', f'{EXAMPLES}/c/heap.c'))]:
        with open(f'{source}/{name}', 'w') as file:
            file.write(text)
    made(['cmake', '-S', source, '-B', f'{source}/build', f'-DCMAKE_PREFIX_PATH={prefix}'])
    made(['cmake', '--build', f'{source}/build'])
    for name in ('shared', 'static'):
        expect(made([f'{source}/build/{name}']) == 'linked\n', f'{name} prints something else')


def test_shared(tests, folder):
    tests.run('shared library', check_shared)
    tests.run('shared library in Python', check_ctypes)
    tests.run('pkg-config', check_pkg_config, folder)
    tests.run('CMake', check_cmake, folder)
