"""Pictures as pixels: reading of PNG and BMP, and their differences. It needs no library beside Python's own."""
import struct
import zlib
from collections import Counter

from c.results import Failed, read


class Pixels:
    """A picture: rows of bytes, three for each pixel, red, green and blue."""

    def __init__(self, width, height, rows):
        self.width, self.height, self.rows = width, height, rows

    def at(self, x, y):
        return self.rows[y][3 * x:3 * x + 3]

    def box(self, left, top, right, bottom):
        """The pixels of a part of the picture."""
        return [self.at(x, y) for y in range(max(top, 0), min(bottom, self.height)) for x in range(max(left, 0), min(right, self.width))]


def read_bmp(path):
    """A BMP with 24 bits for a pixel, as SDL_SaveBMP writes it: rows from the bottom up, each pixel blue, green and red."""
    data = read(path)
    start, width, height, bits = (*struct.unpack_from('<I', data, 10), *struct.unpack_from('<ii', data, 18), *struct.unpack_from('<H', data, 28))
    if data[:2] != b'BM' or bits != 24 or height < 0:
        raise Failed(f'{path} is no BMP of 24 bits')
    stride = (3 * width + 3) // 4 * 4
    rows = []
    for k in range(height - 1, -1, -1):
        row = bytearray(data[start + k * stride:start + k * stride + 3 * width])
        row[0::3], row[2::3] = row[2::3], row[0::3]
        rows.append(bytes(row))
    return Pixels(width, height, rows)


def read_png(data):
    """A PNG with 8 bits for a colour, red, green and blue, and perhaps an opacity, which is left out."""
    at, packed = 8, b''
    while at < len(data):
        size, name = struct.unpack_from('>I4s', data, at)
        if name == b'IHDR':
            width, height, bits, kind = struct.unpack_from('>IIBB', data, at + 8)
        elif name == b'IDAT':
            packed += data[at + 8:at + 8 + size]
        at += 12 + size
    if bits != 8 or kind not in (2, 6):
        raise Failed(f'a PNG of kind {kind} with {bits} bits')
    step = 3 if kind == 2 else 4
    return Pixels(width, height, [without_opacity(row, step) for row in unfiltered(zlib.decompress(packed), step, step * width)])


def without_opacity(row, step):
    if step == 3:
        return bytes(row)
    pixels = bytearray(3 * (len(row) // 4))
    for k in range(3):
        pixels[k::3] = row[k::4]
    return bytes(pixels)


def unfiltered(data, step, size):
    """The rows of a PNG: each has the number of its filter, and its bytes are differences to those at the left and above."""
    above = bytearray(size)
    for start in range(0, len(data), size + 1):
        row = bytearray(data[start + 1:start + 1 + size])
        kind = data[start]
        for k in range(size if kind else 0):
            left, corner = (row[k - step], above[k - step]) if k >= step else (0, 0)
            if kind == 4:
                guess = nearest(left, above[k], corner)
            else:
                guess = left if kind == 1 else above[k] if kind == 2 else (left + above[k]) // 2
            row[k] = (row[k] + guess) & 0xFF
        yield row
        above = row


def nearest(left, above, corner):
    """Which of the three is nearest to left + above - corner (the filter of Paeth)."""
    far_left, far_above, far_corner = abs(above - corner), abs(left - corner), abs(left + above - 2 * corner)
    if far_left <= far_above and far_left <= far_corner:
        return left
    return above if far_above <= far_corner else corner


def differing(one, other, tolerance, is_left_out):
    """The places where a colour differs by more than a tolerance, without those that are left out."""
    places = []
    for y, (row, second) in enumerate(zip(one.rows, other.rows)):
        if row == second:
            continue
        for x in range(one.width):
            pair = zip(row[3 * x:3 * x + 3], second[3 * x:3 * x + 3])
            if any(abs(a - b) > tolerance for a, b in pair) and not is_left_out(x, y):
                places.append((x, y))
    return places


def has_ink(pixels, tolerance):
    """Whether pixels differ from the one that is there most often."""
    if not pixels:
        return False
    counts = Counter(pixels)
    paper = counts.most_common(1)[0][0]
    return any(abs(a - b) > tolerance for pixel in counts for a, b in zip(pixel, paper))
