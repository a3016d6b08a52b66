"""Pools that are made to be dear or long: their pictures end at their limits (docs/PROFILE.md, "The picture of a mask"), and a file that is too
long is refused before it is read."""
import subprocess
import tempfile

MASK = bytes.fromhex('0000 00 00 01 E803 00 00 00  E803 01 00 FFFF 0A 00')
# The Output String 2000, 6 by 65535, which wraps, with 16,000 characters, and its Font Attributes 3000, of 6x8.
TEXT = bytes.fromhex('D007 0B 0600 FFFF 00 B80B 02 FFFF 00 803E') + b'<' * 16000 + bytes.fromhex('00  B80B 17 00 00 00 00 00')
# The Picture 2000, 800 by 65535 with a bit for each pixel, and 65,536 bytes.
PIXELS = bytes.fromhex('D007 14 6400 2003 FFFF 00 00 00 00000100 00') + bytes(number % 251 for number in range(65536))
# What is shown, with the most and the fewest bytes of its picture.
LIMITS = [('rows of a text', TEXT, 8_000_000, 10_000_000), ('pixels', PIXELS, 12_000_000, 12_100_000)]


def shown_2000_times():
    """A pool whose mask has ten Containers, each with the object 2000 200 times."""
    pool = MASK + b''.join(bytes([number, 0, 0, 0, 0, 0]) for number in range(100, 110))
    for number in range(100, 110):
        pool += bytes([number, 0, 3, 20, 0, 10, 0, 0, 200, 0]) + bytes.fromhex('D00700000000') * 200
    return pool


def pictures_end(programs):
    """After so many bytes a picture has no more shapes, or no more pixels."""
    with tempfile.TemporaryDirectory() as folder:
        for what, shown, least, most in LIMITS:
            with open(f'{folder}/dear.iop', 'wb') as file:
                file.write(shown_2000_times() + shown)
            ran = subprocess.run([programs['segyolant'], 'draw', 'dear.iop'], cwd=folder, capture_output=True, timeout=60)
            if ran.returncode != 0 or not least < len(ran.stdout) < most or not ran.stdout.rstrip().endswith(b'</svg>'):
                yield f'{what}: status {ran.returncode}, {len(ran.stdout)} bytes, {ran.stderr[-200:]!r}'


def long_files_are_refused(programs):
    """A file of more than 32 MiB is no pool, from a file or a pipe."""
    with tempfile.TemporaryDirectory() as folder:
        with open(f'{folder}/long.iop', 'wb') as file:
            file.truncate(1 << 30)
        for words, given in [(['check', 'long.iop'], None), (['check', '-'], bytes((1 << 25) + 1)), (['draw', 'long.iop'], None)]:
            ran = subprocess.run([programs['segyolant'], *words], cwd=folder, capture_output=True, timeout=60, input=given)
            told = f'segyolant: {words[1]}: the file has more than 33554432 bytes, and no longer pool is read; expected an object pool\n'
            if ran.returncode != 2 or ran.stdout or ran.stderr != told.encode():
                yield f'{" ".join(words)}: status {ran.returncode}, {ran.stdout[-200:]!r}, {ran.stderr[-200:]!r}'


def results(_top, programs, only):
    """The name of each test, and what differs."""
    found = []
    for test in [pictures_end, long_files_are_refused]:
        name = f'limits/{test.__name__}'
        if only in name:
            differing = list(test(programs))
            found.append((name, [f'scripts/testing/limits.py: {test.__name__}', *(f'  {it}' for it in differing)] if differing else []))
    return found
