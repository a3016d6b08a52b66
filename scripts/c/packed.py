"""Tests of the package that make dist makes: unpacked into a folder of its own, where the checkout is out of sight."""
import os
import subprocess
import sys
import tarfile

from c.programs import ROOT
from c.results import expect, need, pass_over
from c.shared import CMAKE, SOURCE, made

# Hides the checkout behind an empty folder, and runs what is behind it.
HIDDEN = ['unshare', '-rm', 'sh', '-c', 'mount -t tmpfs none "$0" && exec "$@"', ROOT]

# Uses what was unpacked in the folder $1. $2 is a folder with a program in C, and a project of CMake.
USES = '''set -e
cd "$1"
sha256sum -c --quiet SHA256SUMS
examples=$PWD/share/doc/segyolant/examples
export PATH="$PWD/bin:$PATH" PKG_CONFIG_PATH="$PWD/lib/pkgconfig" LD_LIBRARY_PATH="$PWD/lib"
vt_replay $examples/hide.log --pool $examples/pool.iop --owner 80
segyolant check $examples/sprayer.iop
segyolant draw $examples/sprayer.iop > "$2/drawn.svg"
segyolant_log pools $examples/seeder.log
echo '{"do":"screen"}' | vt_live
bash -c '. share/bash-completion/completions/segyolant; COMP_WORDS=(segyolant check --fo) COMP_CWORD=2; _segyolant; echo "${COMPREPLY[0]}"'
test ! -x "$(command -v groff)" || groff -man -Tutf8 -ww share/man/man1/*.1 2>&1 > "$2/manuals"
for name in segyolant segyolant-static; do
    heap=$([ $name = segyolant ] || echo $examples/c/heap.c)
    gcc -std=c11 -o "$2/uses" "$2/uses.c" $heap $(pkg-config --cflags --libs $name)
    "$2/uses"
done
cmake -S "$2" -B "$2/build" -DCMAKE_PREFIX_PATH="$PWD" -DEXAMPLES=$examples > "$2/cmake.txt"
cmake --build "$2/build" >> "$2/cmake.txt"
"$2/build/shared"
"$2/build/static"
'''

# Lines of its output, in their order.
PRINTED = ['screen 80 mask 1000', '14E68026#A064000000FFFFFF', 'sprayer.iop: 0 errors', 'accepted 7 objects', '"value":"screen none', '--format', 'linked',
           'linked', 'linked', 'linked']


def unpacked(folder):
    """The folder that is unpacked from the package of the proved programs."""
    words = made([sys.executable, f'{ROOT}/scripts/dist.py'])
    (path,) = [line.split()[1].rstrip(',') for line in words.splitlines() if '.tar.gz' in line]
    with tarfile.open(f'{ROOT}/{path}') as archive:
        archive.extractall(folder, filter='data')
    return f'{folder}/{os.path.basename(path)[:-len(".tar.gz")]}'


def check_package(folder):
    for tool in ('bash', 'gcc', 'pkg-config', 'cmake', 'unshare'):
        need(tool)
    if not os.path.exists(f'{ROOT}/crates/vt_live/out/vt_live'):
        pass_over('make build has not made the programs here')
    if subprocess.run([*HIDDEN, 'true']).returncode != 0:
        pass_over('this machine lets no program hide a folder')
    os.makedirs(folder)
    at = unpacked(folder)
    for name, text in [('uses.c', SOURCE), ('CMakeLists.txt', CMAKE.replace('HEAP', '${EXAMPLES}/c/heap.c').replace('segyolant REQUIRED', 'segyolant 0.2 REQUIRED')), ('uses.sh', USES)]:
        with open(f'{folder}/{name}', 'w') as file:
            file.write(text)
    ran = subprocess.run([*HIDDEN, 'sh', f'{folder}/uses.sh', at, folder], capture_output=True, text=True)
    expect(ran.returncode == 0, f'status {ran.returncode}: {ran.stderr[-400:]}')
    lines = iter(ran.stdout.splitlines())
    missing = [text for text in PRINTED if not any(text in line for line in lines)]
    expect(not missing, f'it does not print {missing[:1]}:\n{ran.stdout}')
    return f'{len(os.listdir(f"{at}/bin"))} programs'


def test_package(tests, folder):
    tests.run('package', check_package, folder)
