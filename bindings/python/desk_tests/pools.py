"""Pools for the tests of the page, made object by object (docs/PROFILE.md, 8)."""
from __future__ import annotations

from struct import pack

WORKING_SET, MASK, KEYS, KEY, BUTTON, FONT, NULL = 1, 1000, 2000, 2001, 2101, 100, 0xFFFF
WHITE, RED, SILVER = 1, 12, 7


def children(*places: tuple[int, int, int]) -> bytes:
    return b''.join(pack('<Hhh', *place) for place in places)


def working_set(*inside: tuple[int, int, int], colour: int = WHITE) -> bytes:
    return pack('<HBBBHBBB', WORKING_SET, 0, colour, 1, MASK, len(inside), 0, 1) + children(*inside) + b'en'


def mask(*inside: tuple[int, int, int], keys: int = NULL, colour: int = SILVER, id: int = MASK) -> bytes:
    return pack('<HBBHBB', id, 1, colour, keys, len(inside), 0) + children(*inside)


def soft_keys(*keys: int) -> bytes:
    return pack('<HBBBB', KEYS, 4, SILVER, len(keys), 0) + b''.join(pack('<H', key) for key in keys)


def key(id: int, *inside: tuple[int, int, int]) -> bytes:
    return pack('<HBBBBB', id, 5, SILVER, 1, len(inside), 0) + children(*inside)


def button(id: int, *inside: tuple[int, int, int]) -> bytes:
    return pack('<HBHHBBBBBB', id, 6, 200, 40, SILVER, 0, 1, 0, len(inside), 0) + children(*inside)


def font() -> bytes:
    return pack('<HBBBBBB', FONT, 23, 0, 2, 0, 0, 0)


def text(id: int, value: bytes, width: int = 400) -> bytes:
    return pack('<HBHHBHBHBH', id, 11, width, 14, WHITE, FONT, 0, NULL, 0, len(value)) + value + b'\x00'


def input_text(id: int, value: bytes) -> bytes:
    return pack('<HBHHBHHBHBB', id, 8, 400, 14, WHITE, FONT, NULL, 0, NULL, 0, len(value)) + value + b'\x01\x00'


def input_list(id: int, *items: int) -> bytes:
    return pack('<HBHHHBBBB', id, 10, 200, 20, NULL, 0, len(items), 1, 0) + b''.join(pack('<H', item) for item in items)


HOSTILE = [b'<script>window.hacked=1</script>', b'"><img src=x onerror="window.hacked=2">', b"'><svg onload=window.hacked=3>",
           b'</text></svg><script>window.hacked=4</script>', b']]><!--javascript:window.hacked=5', b'&lt;b&gt;&amp;${window.hacked=6}']

# A picture as no core draws it, and what the page takes of it.
MARKUP = '''<svg xmlns="http://www.w3.org/2000/svg" xmlns:l="http://www.w3.org/1999/xlink" xmlns:h="http://www.w3.org/1999/xhtml" width="9"
onload="window.hacked=7"><script>window.hacked=8</script><h:script>window.hacked=9</h:script><style>* { display: none }</style><!-- - -->
<?xml-stylesheet href="x"?><foreignObject><h:img src="x" onerror="window.hacked=10"/></foreignObject><image href="x" onerror="window.hacked=11"/>
<rect id="mask" class="hit" width="9" fill="url(http://127.0.0.1/x)" onclick="window.hacked=12" style="fill: red"/><use href="data:,x#p1"/>
<use l:href="#p1" href="#p1"/><l:rect/><a href="javascript:window.hacked=13"><text>no</text></a><set attributeName="href" to="x"/>
<animate onbegin="window.hacked=14"/><text>&lt;b&gt;</text></svg>'''.replace('\n', ' ')
MARKUP_LEFT = ('<svg xmlns="http://www.w3.org/2000/svg" width="9">  <rect width="9"></rect><use></use> <use href="#p1"></use> '
               '<text>&lt;b&gt;</text></svg>')


def hostile() -> bytes:
    """A pool whose every text is markup."""
    texts = [text(3000 + k, value) for k, value in enumerate(HOSTILE)]
    places = [(3000 + k, 4, 4 + 20 * k) for k in range(len(HOSTILE))]
    return b''.join([
        working_set((3000, 0, 0)), font(), *texts, text(3100, HOSTILE[1]), text(3101, HOSTILE[0]), input_text(3200, HOSTILE[1]),
        input_list(3300, 3000, 3001, 3002), button(BUTTON, (3100, 2, 2)), key(KEY, (3101, 2, 2)), soft_keys(KEY),
        mask(*places, (3200, 4, 200), (3300, 4, 240), (BUTTON, 4, 300), keys=KEYS),
    ])


def plain(title: str = 'The second set') -> bytes:
    """A pool with a text, a text input and a key."""
    return b''.join([working_set((3000, 0, 0), colour=RED), font(), text(3000, title.encode('latin-1')), text(3101, b'GO'),
                     input_text(3200, b'my name         '), key(KEY, (3101, 4, 20)), soft_keys(KEY),
                     mask((3000, 4, 4), (3200, 4, 40), keys=KEYS)])
