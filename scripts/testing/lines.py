"""Texts as lines of a test: `| text`, or `|\\ text` where bytes need an escape.

In a line with a backslash behind its mark, `\\xNN` is a byte, `\\\\` a backslash, and a backslash at the end says that no newline follows.
"""
import re


def is_plain(line):
    """Whether the line can stand as it is: text that is seen, and no space at its end."""
    try:
        text = line.decode('utf-8')
    except UnicodeDecodeError:
        return False
    return text.isprintable() and not text.endswith(' ')


def escaped(line):
    """The line with an escape for each byte that is no printable ASCII, and for a space at the end."""
    text = ''.join('\\\\' if it == 0x5C else chr(it) if 0x20 <= it < 0x7F else f'\\x{it:02X}' for it in line)
    return re.sub(' $', r'\\x20', text)


def lines_of(mark, data):
    """The lines of a test that stand for these bytes."""
    if not data:
        return []
    parts = data.split(b'\n')
    last = parts.pop()
    lines = [f'{mark} {it.decode()}'.rstrip() if is_plain(it) else f'{mark}\\ {escaped(it)}' for it in parts]
    return lines + [f'{mark}\\ {escaped(last)}\\'] * (last != b'')


def unescaped(text):
    """The bytes that a line with escapes stands for."""
    whole = text.encode('utf-8')
    ends = re.search(rb'(\\*)$', whole)[1]
    newline = b'\n'
    if len(ends) % 2:
        whole, newline = whole[:-1], b''
    return re.sub(rb'\\(x[0-9A-Fa-f]{2}|\\)', lambda it: bytes.fromhex(it[1][1:].decode()) if it[1] != b'\\' else b'\\', whole) + newline


def bytes_of(line):
    """The bytes that a line of a test stands for, without its mark."""
    if line.startswith('\\'):
        return unescaped(line[1:].removeprefix(' '))
    return line.removeprefix(' ').encode('utf-8') + b'\n'
