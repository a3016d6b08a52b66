"""Object pools as text: bytes in hex, with IDs in decimal and remarks.

    # a Data Mask with one child
    @1000 01 00 00 @65535 01 00  @100 05 00 0A 00
    "text" FF*8
    for i in 100..399: @i 1C 08 00 BE @i+1 FF*5

`E8`, `E803`   bytes in hex digits
`@1000`        a number of 16 bits, lowest byte first, as the IDs in a pool
`%200`         a number of 8 bits
`"text"`       the bytes of a text
`FF*8`         a byte or number, so many times
`for i in A..B: ..`  the rest of the line for each number from A to B; `i`, `i+1` or `i-1` may stand behind `@` and `%`
`#`            begins a remark
"""
import re

TOKEN = re.compile(r'"(?P<text>[^"]*)"|(?P<sort>[@%])(?P<number>\d+|[a-z]+)(?P<more>[+-]\d+)?(?:\*(?P<times>\d+))?'
                   r'|(?P<hex>(?:[0-9A-Fa-f]{2})+)(?:\*(?P<repeat>\d+))?')
RANGE = re.compile(r'for ([a-z]+) in (\d+)\.\.(\d+): (.*)')


class PoolText(ValueError):
    """A line of a pool's text that says no bytes."""


def without_remark(line):
    """The line without what stands behind a `#` that is in no text."""
    text = re.match(r'(?:"[^"]*"|[^"#])*', line)[0]
    if line[len(text):len(text) + 1] == '"':
        raise PoolText('a quote is not closed')
    return text.strip()


def bytes_of_line(line, names):
    """The bytes of a line, where `names` gives the numbers of its names."""
    made, at = b'', 0
    while at < len(line):
        if line[at].isspace():
            at += 1
            continue
        token = TOKEN.match(line, at)
        if token is None or token.end() < len(line) and not line[token.end()].isspace():
            raise PoolText(f'no bytes: {line[at:]}')
        at = token.end()
        if token['text'] is not None:
            made += token['text'].encode('latin-1')
        elif token['hex']:
            made += bytes.fromhex(token['hex']) * int(token['repeat'] or 1)
        else:
            number = int(names.get(token['number'], token['number'])) + int(token['more'] or 0)
            made += number.to_bytes(2 if token['sort'] == '@' else 1, 'little') * int(token['times'] or 1)
    return made


def pool_of(text):
    """The bytes of a pool's text. A line that says none raises PoolText with its number."""
    made = b''
    for number, line in enumerate(text.split('\n'), 1):
        try:
            line = without_remark(line)
            loop = RANGE.fullmatch(line)
            if loop is not None and int(loop[2]) > int(loop[3]):
                raise PoolText('the range is empty')
            if loop is None:
                made += bytes_of_line(line, {})
            else:
                made += b''.join(bytes_of_line(loop[4], {loop[1]: i}) for i in range(int(loop[2]), int(loop[3]) + 1))
        except (PoolText, OverflowError, ValueError) as error:
            raise PoolText(f'line {number}: {error}') from None
    return made


def text_of(data):
    """Bytes as lines of a pool's text, sixteen on a line."""
    return [data[at:at + 16].hex(' ').upper() for at in range(0, len(data), 16)]
