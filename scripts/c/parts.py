"""Tests of vt_part by examples/c/state.c: an object by itself has the elements that segyolant draws of it on a mask."""
import copy
import re
import xml.etree.ElementTree as xml

from c.display import beginning_of, log_of_mask, masks_of
from c.programs import EXAMPLES, run
from c.readings import SEGYOLANT, all_told, told
from c.results import expect, need

SVG, RECTANGLE = '{http://www.w3.org/2000/svg}svg', '{http://www.w3.org/2000/svg}rect'
WORKING_SET, POINTER = 0, 27
# Where the record of a Working Set has the number of its entries, and the first of them.
COUNT, CHILDREN = 7, 10
# The areas of a mask and of a key in VT_STANDARD_PROFILE.
MASK, KEY, GAP = (480, 480), (64, 64), 8


def parts_told(programs, kind, *words):
    """The pictures of single objects that state prints, by their IDs."""
    rows = [line.split(' ', 2) for line in all_told(programs, kind, *words)[0] if line.startswith('part ')]
    return {int(row[1]): xml.fromstring(row[2]) for row in rows}


def drawn(pool, log):
    """The picture that segyolant draws at the end of a log."""
    status, out, messages = run([SEGYOLANT, 'draw', pool, '--state', log, '--owner', '80'], EXAMPLES)
    expect(status == 0, f'segyolant: status {status}: {messages[-200:]!r}')
    return xml.fromstring(out)


def is_element(node):
    return node.tag == SVG and node.get('data-id') is not None


def elements_in(node):
    """The elements that stand in a node itself."""
    return [child for child in node if is_element(child)]


def text_of(node):
    return xml.tostring(node)


def without_place(node):
    """An element as text, without its place."""
    other = copy.copy(node)
    other.attrib = {name: value for name, value in node.attrib.items() if name not in ('x', 'y')}
    return text_of(other)


def size_of(node):
    return int(node.get('width', 0)), int(node.get('height', 0))


def ground_of(node):
    """The background of a picture, its first node, and its size."""
    expect(node[0].tag == RECTANGLE, f'a picture begins with {node[0].tag}')
    return node[0].get('fill'), size_of(node[0])


def owner_of(records):
    """The ID of the Working Set."""
    (owner,) = [number for number, record in records.items() if record[2] == WORKING_SET]
    return owner


def entries_of(record, count, at):
    """The IDs and the positions of the entries in a record, where it has their number and the first of them."""
    rows = [record[at + 6 * k:at + 6 * k + 6] for k in range(record[count])]
    return [(int.from_bytes(row[:2], 'little'), *(int.from_bytes(row[k:k + 2], 'little', signed=True) for k in (2, 4))) for row in rows]


def check_frame(number, part, size, ground):
    """A picture has this size and this background."""
    expect(size_of(part) == size and part.get('viewBox') == f'0 0 {size[0]} {size[1]}', f'part {number} has the size {size_of(part)}, and not {size}')
    expect(ground_of(part) == (ground, size), f'part {number} has the background {ground_of(part)}')


def check_images(number, part, picture):
    """All to which the elements of a part refer is in it once, as on the picture of the mask."""
    named = re.findall(r'(?:href="|url\()#(\w+)', text_of(part).decode())
    own = [node for node in part if node.get('id') is not None]
    there = {node.get('id'): text_of(node) for node in picture if node.get('id') is not None}
    expect(set(named) <= {node.get('id') for node in own}, f'part {number} has not all of {named}')
    for node in own:
        expect(text_of(node) == there.get(node.get('id')), f'part {number} has another {node.get("id")}')
    expect(len(own) == len({node.get('id') for node in own}), f'part {number} has an image twice')
    return len(own)


def check_page(number, part, area, size, ground):
    """A mask or a Working Set by itself has the elements that are in it on a picture."""
    check_frame(number, part, size, ground)
    expect([text_of(node) for node in elements_in(part)] == [text_of(node) for node in area], f'part {number} has other elements')
    expect(len(area) > 0, f'there is nothing in {number}')


def check_element(node, parts, picture, owner):
    """An element of the picture of a mask is the same by itself, up to its place. Returns the number of its images."""
    number = int(node.get('data-id'))
    expect(number in parts, f'part {number} is not told')
    part = parts[number]
    if number == owner:
        check_page(number, part, elements_in(node), KEY, ground_of(part)[0])
    else:
        check_frame(number, part, size_of(node), 'none')
        inner = elements_in(part)
        expect([(one.get('x'), one.get('y')) for one in inner] == [('0', '0')], f'part {number} has other elements')
        expect(without_place(inner[0]) == without_place(node), f'part {number}: {without_place(inner[0])} and on the picture {without_place(node)}')
    return check_images(number, part, picture)


def check_mask(parts, picture, mask, keys, owner):
    """The elements of a picture, its mask and its soft key mask by themselves. Returns how many elements and images there are."""
    elements = [node for node in picture.iter(SVG) if is_element(node)]
    images = sum(check_element(node, parts, picture, owner) for node in elements)
    in_mask, of_keys = [node for node in picture if node.tag == SVG]
    check_page(mask, parts[mask], in_mask, MASK, ground_of(picture)[0])
    if keys in parts:
        width = size_of(picture)[0] - MASK[0] - GAP
        check_page(keys, parts[keys], of_keys, (width, MASK[1]), 'none')
    return len(elements), images


def check_after(programs, kind, pool, log):
    """The mask that is active at the end of a log. Returns its number, and how many elements and images there are."""
    lines, records, _ = told(programs, kind, pool, log)
    mask, keys = (int(word) for word in lines[1].split()[1:3])
    return mask, *check_mask(parts_told(programs, kind, pool, log), drawn(pool, log), mask, keys, owner_of(records))


def check_log(programs, kind, pool, log, count):
    """The mask that is active after the first lines of a log."""
    need(SEGYOLANT)
    return '{1} elements and {2} images in mask {0}'.format(*check_after(programs, kind, pool, beginning_of(programs, log, count)))


def check_masks(programs, kind, pool):
    """Each mask of a pool, after its working set has made it active."""
    need(SEGYOLANT)
    masks, counts = masks_of(programs, pool), []
    for mask in masks:
        counts.append(check_after(programs, kind, pool, log_of_mask(programs, pool, mask)))
    expect([count[0] for count in counts] == masks, f'{counts} are not the masks {masks}')
    return f'{len(masks)} masks, {sum(count[1] for count in counts)} elements, {sum(count[2] for count in counts)} images'


def check_designator(programs, kind, pool):
    """The designator of a working set has the size of a key, a background, and the elements that its record names."""
    records, parts = told(programs, kind, pool)[1], parts_told(programs, kind, pool)
    owner = owner_of(records)
    expect(size_of(parts[owner]) == KEY and ground_of(parts[owner])[0] != 'none', f'it has the size {size_of(parts[owner])}')
    inner = elements_in(parts[owner])
    wanted = entries_of(records[owner], COUNT, CHILDREN)
    expect([(int(node.get('data-id')), int(node.get('x')), int(node.get('y'))) for node in inner] == wanted, f'it has other elements than {wanted}')
    for node in inner:
        expect(without_place(node) == without_place(elements_in(parts[int(node.get('data-id'))])[0]), 'an element is another one by itself')
    expect(len(inner) > 0, 'it is empty')
    return f'{len(inner)} elements'


def check_objects(programs, kind, pool):
    """Each object has a part, but for a pointer to none, and no other ID has one."""
    _, records, _ = told(programs, kind, pool)
    led = {number: int.from_bytes(record[3:5], 'little') for number, record in records.items() if record[2] == POINTER}
    parts = parts_told(programs, kind, pool)
    wanted = {number for number in records if number not in led or led[number] in records}
    expect(set(parts) == wanted, f'other IDs have parts: {sorted(set(parts) ^ wanted)}')
    for number in led.keys() & wanted:
        expect(text_of(parts[number]) == text_of(parts[led[number]]), f'pointer {number} is another picture than {led[number]}')
    return f'{len(parts)} objects, {len(led)} pointers'


def test_parts(tests, programs):
    for kind in ['state', 'state-sanitized']:
        for pool in ['sprayer.iop', 'kinds.iop']:
            tests.run(f'{kind} objects of {pool} by themselves', check_objects, programs, kind, pool)
            tests.run(f'{kind} masks of {pool} by themselves', check_masks, programs, kind, pool)
            tests.run(f'{kind} designator of {pool} by itself', check_designator, programs, kind, pool)
        tests.run(f'{kind} objects after commands by themselves', check_log, programs, kind, 'sprayer.iop', 'sprayer.log', 8)
