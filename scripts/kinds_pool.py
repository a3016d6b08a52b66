#!/usr/bin/env python3
"""Writes a pool that shows each kind of object that is drawn, with each bit of its options.

    kinds_pool.py [FOLDER]

Writes kinds.iop and kinds.h to FOLDER, or else to examples/. examples/kinds.md says what is to be seen in each of its masks.
"""
import argparse
import os
from struct import pack

from pool_objects import (
    BLACK, BLUE, CREAM, GREEN, LIME, NAMES, NAVY, NULL, RAMP_16, RAMP_256, RECORDS, RED, SILVER, SKY, WHITE, add, arch, arrow,
    bar, board, boolean, button, container, ellipse, fill, font, image, input_list, input_number, input_text, key, line, listed,
    meter, number_variable, packed, pen, picture, pointer, polygon, rectangle, run_lengths, shared, string_variable, text, value)


class Mask:
    def __init__(self, title, colour=WHITE):
        self.title, self.colour, self.children = title, colour, []
        self.say(4, 3, title)

    def put(self, x, y, thing, name=''):
        """Puts an object, or the ID of one, at a place."""
        object_id = thing if isinstance(thing, int) else add(name, thing)
        self.children.append((object_id, x, y))

    def say(self, x, y, words):
        content = words.encode()
        self.put(x, y, shared('says ' + words, text(content, 6 * len(content), 8, 1, face=font(0))))

    def column(self, x, y, beside, things):
        """Objects one below the other, each with its caption beside it, and how far down the next one is."""
        for caption, down, thing in things:
            self.put(x, y, thing, caption)
            self.say(x + beside, y + 2, caption)
            y += down

    def grid(self, x, y, columns, across, down, below, things):
        """Objects in rows, each with its caption below it."""
        for n, (caption, thing) in enumerate(things):
            left, top = x + n % columns * across, y + n // columns * down
            self.put(left, top, thing, caption)
            self.say(left, top + below, caption)

    def add(self, object_id, soft_keys=NULL):
        head = pack('<BHBB', self.colour, soft_keys, len(self.children), 0)
        add(self.title.split()[1], (1, head + listed(self.children)), object_id)

    def add_alarm(self, object_id, soft_keys):
        head = pack('<BHBBBB', self.colour, soft_keys, 0, 0, len(self.children), 0)
        add(self.title.split()[1], (2, head + listed(self.children)), object_id)


def texts():
    mask = Mask('1000 texts')
    long, styles = b'one two three four five', {}
    for name, style in [('bold', 1), ('crossed out', 2), ('underlined', 4), ('italic', 8), ('inverted', 16), ('bits 0 2', 5),
                        ('bits 1 3', 10), ('bits 0 to 3', 15), ('bits 0 to 4', 31), ('bit 5', 32)]:
        styles[name] = font(style=style)
    mask.column(4, 16, 84, [('justify %d' % n, 14, text(b'Agj', justify=n)) for n in (0, 1, 2, 3, 6)] + [
        ('transparent', 14, text(b'Agj', options=1)), ('not wrapped', 14, text(long)),
        ('too long, 1', 14, text(long, justify=1)),
        ('too long, 2', 14, text(long, justify=2)), ('wrapped 0', 32, text(long, 80, 30, 2)),
        ('wrapped 1', 32, text(long, 80, 30, 2, 1)), ('wrapped 2', 32, text(long, 80, 30, 2, 2)),
        ('wrapped, cut', 14, text(long, options=2)), ('bits 0 1', 32, text(long, 80, 30, 3)),
        ('wraps end', 32, text(b'one\ntwo\r\nthree', 80, 30, 2)), ('too high', 14, text(b'Agj', face=font(3)))])
    mask.column(164, 16, 84, [(name, 14, text(b'Agj 10', face=face)) for name, face in styles.items()] + [
        ('inverted 0', 14, text(b'Agj 10', options=1, face=styles['inverted'])),
        ('inverted 2', 14, text(b'Agj 10', justify=2, face=styles['inverted'])),
        ('coloured', 14, text(b'Agj 10', face=font(colour=RED))), ('no font', 14, text(b'Agj 10', face=NULL)),
        ('size 15', 14, text(b'Agj 10', face=font(15))), ('empty', 14, text(b'')),
        ('Latin 1', 14, text('ÄöüßéÇ½°µ×'.encode('latin-1'))),
        ('above 127', 14, text(bytes([0x80, 0x9f, 0xa0, 0xa1, 0xad, 0xff]) + b'|')),
        ('control', 14, text(b'\x01A\tB\x1b\x7fC|')),
        ('line ends', 14, text(b'A\nB\r\nC|')), ('special', 14, text(b'<&>"\'&lt;')), ('NULs', 14, text(b'end\0\0\0')),
        ('NULs, 2', 14, text(b'end\0\0\0', justify=2)), ('spaces, 2', 14, text(b'end   ', justify=2)),
        ('spaces, 1', 14, text(b'   x', justify=1)),
        ('gap, 2', 14, text(b'ab          cd', justify=2)), ('3 spaces', 14, text(b'   ', face=font(style=4)))])
    string = string_variable(b'its text')
    mask.column(324, 16, 84, [
        ('variable', 14, text(b'own', variable=string)), ('enabled', 14, input_text(b'Agj')),
        ('disabled', 14, input_text(b'Agj', enabled=0)), ('enabled 2', 14, input_text(b'Agj', enabled=2)),
        ('justify 1', 14, input_text(b'Agj', justify=1)), ('justify 2', 14, input_text(b'Agj', justify=2)),
        ('transparent', 14, input_text(b'Agj', options=1)), ('wrapped', 32, input_text(long, 80, 30, 2)),
        ('too long', 14, input_text(long)), ('inverted', 14, input_text(b'Agj', face=styles['inverted'])),
        ('no font', 14, input_text(b'Agj', face=NULL)), ('variable', 14, input_text(b'own', variable=string)),
        ('empty', 14, input_text(b'', enabled=0))])
    x = 4
    for size, width, height in zip(range(11), (6, 8, 8, 12, 16, 16, 24, 32, 32, 48, 64),
            (8, 8, 12, 16, 16, 24, 32, 32, 48, 64, 64)):
        letters = b'Ag' if size < 9 else b'g'
        mask.put(x, 464 - height, text(letters, width * len(letters), height, face=font(size)), 'size %d' % size)
        mask.say(x, 468, '%d' % size)
        x += width * len(letters) + 5
    return mask


def inputs():
    mask = Mask('1001 inputs')
    large = 4294967295
    mask.column(4, 16, 92, [
        ('.001, 2', 14, value(1235, 0, 3, 2)), ('offset', 14, value(0, -1235, 3, 2)), ('-0', 14, value(0, -4, 3, 2)),
        ('greatest', 14, value(large, 2147483647)), ('.1, 1', 14, value(1235, 0, 1, 1)), ('.01, 2', 14, value(5, 0, 2, 2)),
        ('.001, 0', 14, value(1500, 0, 3, 0)), ('1, 7', 14, value(3, 0, 0, 7)), ('justify 1', 14, value(42, justify=1)),
        ('justify 2', 14, value(42, justify=2)), ('bit 0', 14, value(42, options=1)), ('bit 1', 14, value(42, options=2)),
        ('bit 2', 14, value(0, options=4)), ('bit 3', 14, value(1999, 0, 3, 1, options=8)),
        ('exponent', 14, value(1235, form=1)),
        ('variable', 14, value(1, variable=number_variable(1874))), ('no font', 14, value(42, face=NULL)),
        ('inverted', 14, value(42, face=font(style=16))), ('too long', 14, value(large, width=40))])
    mask.column(4, 296, 92, [
        ('enabled', 14, input_number(1235, 0, 3, 2)), ('disabled', 14, input_number(1235, 0, 3, 2, enabled=0)),
        ('only bit 1', 14, input_number(1235, enabled=2)), ('offset', 14, input_number(5, -10)),
        ('justify 1', 14, input_number(42, justify=1)), ('justify 2', 14, input_number(42, justify=2)),
        ('bit 0', 14, input_number(42, options=1)), ('bits 1 2', 14, input_number(0, options=6)),
        ('variable', 14, input_number(1, variable=number_variable(1874)))])
    mask.column(170, 16, 36, [
        ('true', 16, boolean(1)), ('false', 16, boolean(0)), ('value 255', 16, boolean(255)),
        ('disabled', 16, boolean(1, enabled=0)),
        ('false, off', 16, boolean(0, enabled=0)), ('variable 1874', 16, boolean(0, variable=number_variable(1874))),
        ('variable 0', 16, boolean(1, variable=number_variable(0))), ('font green', 16, boolean(1, face=font(colour=GREEN))),
        ('inverted', 16, boolean(1, face=font(style=16))), ('no font', 16, boolean(1, face=NULL)),
        ('font size 15', 16, boolean(1, face=font(15, RED))), ('width 6', 16, boolean(1, 6)),
        ('width 32', 36, boolean(1, 32))])
    items = [add('item %d' % n, text(words, 80, 12, 1)) for n, words in enumerate([b'Manual', b'Automatic'])]
    items += [NULL, add('item arrow', picture(arrow(4, 3), 1)), add('item', pointer(items[0]))]
    items += [add('item none', pointer(NULL))]
    items += [add('item wide', rectangle(200, 40, pen(1), 0, fill(2, LIME)))]
    mask.column(290, 16, 92, [
        ('item 0', 20, input_list(0, items)), ('item 1', 20, input_list(1, items)), ('disabled', 20, input_list(1, items, 0)),
        ('NULL item', 20, input_list(2, items)), ('picture', 20, input_list(3, items)), ('pointer', 20, input_list(4, items)),
        ('NULL pointer', 20, input_list(5, items)), ('cut', 20, input_list(6, items)), ('no item', 20, input_list(255, items)),
        ('of variable 0', 20, input_list(1, items, 1, number_variable(0)))])
    word, sign = add('word', text(b'START', 40, 8, 1)), add('sign', picture(arrow(12, 0), 1, 1, 0))
    mask.grid(170, 260, 3, 100, 70, 54, [
        ('text, picture', button(80, 50, [(word, 20, 30), (sign, 32, 8)])), ('cut', button(80, 50, [(word, 60, 30),
        (sign, -8, -8)])),
        ('border red', button(80, 50, [], LIME, RED)), ('bits 0 1', button(80, 50, [(word, 20, 20)], options=3)),
        ('in a button', button(80, 50, [(add('inner', button(40, 30, [(word, 0, 10)], SKY)), 20, 10)])),
        ('small', button(4, 4, [])), ('list in it', button(80, 50, [(add('inner', input_list(1, items)), 4, 10)]))])
    return mask


SQUARE = [(0, 0), (36, 0), (36, 28), (0, 28)]
DART = [(0, 0), (36, 14), (0, 28), (12, 14)]
STAR = [(18, 0), (28, 28), (0, 10), (36, 10), (8, 28)]
ZIGZAG = [(0, 28), (12, 0), (24, 28), (36, 0)]


def shapes():
    mask = Mask('1002 shapes')
    thin, thick, wide, dashes = pen(1), pen(3, NAVY), pen(8, NAVY), pen(3, NAVY, 0xF0F0)
    pattern = fill(3, LIME, add('pattern', picture(board(9, 14, 8, 8), 1)))
    odd = fill(3, LIME, add('pattern odd', picture(arrow(9, 14, 13), 1)))
    wider = fill(3, LIME, add('pattern wider', picture(board(9, 14, 8, 8), 1, width=24)))
    clear = fill(3, LIME, add('pattern clear', picture(arrow(0, 1, 13), 0, 5, 1)))
    own, of_line = fill(2, LIME), fill(1, LIME)
    lines = [('d%d w%d' % (way, it[1]), line(36, 28, it[0], way)) for it in ((thin, 1), (thick, 3),
            (wide, 8)) for way in (0, 1)]
    lines += [('level', line(36, 1, thick)), ('high 0', line(36, 0, thick)), ('upright', line(1, 28, thick)),
            ('w8 lvl', line(36, 1, wide))]
    lines += [('%04X' % art, line(36, 1, pen(1, BLACK, art))) for art in (0xF0F0, 0xAAAA)]
    lines += [('%04X 3' % art, line(36, 1, pen(3, BLACK, art))) for art in (0xAAAA, 0xFF00, 0x00FF, 0x8001, 0)]
    lines += [('no pen', line(36, 28, NULL)), ('w0', line(36, 28, pen(0))), ('F0F0 d1', line(36, 28, dashes, 1))]
    rectangles = [('side %d' % bits, rectangle(36, 28, thick, bits, own)) for bits in (0, 1, 2, 4, 8, 5, 10, 15, 16)]
    rectangles += [('fill %d' % it, rectangle(36, 28, thick, 0, fill(it, LIME))) for it in (0, 1, 4)]
    rectangles += [('pattern', rectangle(36, 28, thick, 0, pattern)), ('odd', rectangle(36, 28, NULL, 0, odd)),
                   ('3 NULL', rectangle(36, 28, thin, 0, fill(3, LIME))), ('no fill', rectangle(36, 28, thick)),
                   ('1 nopen', rectangle(36, 28, NULL, 0, of_line)),
                   ('2 nopen', rectangle(36, 28, NULL, 0, own)), ('F0F0', rectangle(36, 28, dashes)),
                   ('w8', rectangle(36, 28, wide, 0, own))]
    ellipses = [('t%d' % it, ellipse(36, 28, thick, it, 10, 80)) for it in range(5)]
    ellipses += [('t%d fill' % it, ellipse(36, 28, thick, it, 10, 80, own)) for it in range(4)]
    ellipses += [('pattern', ellipse(36, 28, thick, 3, 10, 80, pattern)), ('1 line', ellipse(36, 28, thick, 0, 0, 0, of_line)),
                 ('t1 same', ellipse(36, 28, thick, 1, 45, 45)), ('t2 same', ellipse(36, 28, thick, 2, 45, 45, own)),
                 ('t3 same', ellipse(36, 28, thick, 3, 45, 45, own)), ('135-45', ellipse(36, 28, thick, 3, 135, 45, own)),
                 ('225-90', ellipse(36, 28, thick, 3, 225, 90, own)), ('nopen', ellipse(36, 28, NULL, 0, 0, 0, own)),
                 ('w8', ellipse(36, 28, wide, 0, 0, 0, own)), ('narrow', ellipse(8, 28, wide, 0, 0, 0, own)),
                 ('F0F0', ellipse(36, 28, dashes))]
    polygons = [('%s %d' % (name, it), polygon(points, thick, it, own)) for it in range(4)
                for name, points in (('sq', SQUARE), ('dart', DART), ('star', STAR), ('zz', ZIGZAG))]
    polygons += [('no fill', polygon(STAR, thick, 2)), ('1 line', polygon(DART, thick, 1, of_line)),
                 ('pattern', polygon(STAR, thick, 2, pattern)), ('nopen', polygon(STAR, NULL, 2, own)),
                 ('F0F0', polygon(SQUARE, dashes)), ('w8', polygon(SQUARE, wide, 0, own)),
                 ('0 pts', polygon([], thick, 0, own)),
                 ('1 pt', polygon([(10, 10)], thick, 0, own)), ('2 pts', polygon([(0, 0), (36, 28)], thick, 0, own)),
                 ('outer', polygon([(0, 0), (18, 14), (0, 28)], thick, 0, own, 8, 8)),
                 ('type 4', polygon(DART, thick, 4, own))]
    polygons += [('wider', rectangle(36, 28, thin, 0, wider)), ('clear', rectangle(36, 28, thin, 0, clear)),
                 ('beside', rectangle(36, 28, NULL, 0, pattern)), ('dot w1', line(1, 1, thin)), ('dot w3', line(3, 3, thick)),
                 ('5x1 w3', line(5, 1, thick)), ('1x1 w1', rectangle(1, 1, thin)), ('4x4 w3', rectangle(4, 4, thick))]
    mask.grid(4, 16, 10, 48, 46, 34, lines + rectangles + ellipses + polygons)
    return mask


def meters():
    mask = Mask('1003 meters and arched bars')
    eighty, zero = number_variable(80), number_variable(0)
    things = [('bits %d' % it, meter(it)) for it in (0, 1, 2, 4, 8, 15, 7)]
    things += [('below', meter(7, 10, 50)), ('above', meter(7, 200)), ('empty', meter(7, 40, 50, 50)),
            ('max < min', meter(7, 40, 80, 20)),
               ('variable', meter(7, 10, variable=eighty)), ('whole', meter(5, 25, start=45, end=45)),
               ('1 tick', meter(5, ticks=1)),
               ('0 ticks', meter(5, ticks=0)), ('2 ticks', meter(5, ticks=2)), ('225-90', meter(5, start=225, end=90)),
               ('least', meter(7, 0)), ('most', meter(7, 100)), ('most, 3', meter(15, 100)),
               ('9 ticks', meter(5, ticks=9, start=0, end=90))]
    things += [('bits %d' % it, arch(it)) for it in (0, 1, 2, 4, 8, 16, 31)]
    things += [('below', arch(3, 10, 20, 50)), ('above', arch(3, 200, 200)), ('empty', arch(3, 40, 40, 50, 50)),
               ('variable', arch(3, 10, 20, variable=eighty, aim=zero)), ('whole', arch(3, start=45, end=45)),
               ('bits 19', arch(19)),
               ('wide 0', arch(3, wide=0)), ('wide 28', arch(3, wide=28)), ('wide 40', arch(3, wide=40)),
               ('wide 60', arch(3, wide=60)), ('flat', arch(3, size=(56, 28), start=45, end=45)),
               ('flat 27', arch(27, size=(56, 28), start=150, end=120)), ('135-45', arch(3, start=135, end=45)),
               ('225-90', arch(3, start=225, end=90))]
    mask.grid(4, 16, 7, 68, 77, 60, things)
    return mask


def bars():
    mask = Mask('1004 bars')
    names = ['none', 'border', 'target', '0 1', 'ticks', '0 2', '1 2', '0 1 2']
    for low in range(8):
        mask.say(58 + 53 * low, 14, names[low])
    for high, name in enumerate(['none', '3 line', '4 level', '3 4', '5 begin', '3 5', '4 5', '3 4 5']):
        mask.say(4, 40 + 45 * high, name)
        for low in range(8):
            mask.put(58 + 53 * low, 26 + 45 * high, bar(8 * high + low), 'bits %d' % (8 * high + low))
    eighty, zero = number_variable(80), number_variable(0)
    mask.grid(4, 392, 9, 53, 45, 35, [
        ('below', bar(35, 10, 20, 50)), ('above', bar(35, 200, 200)), ('empty', bar(35, 40, 40, 50, 50)),
        ('1 tick', bar(36, ticks=1)),
        ('0 ticks', bar(37, ticks=0)), ('9 ticks', bar(53, ticks=9)), ('variable', bar(35, 10, 20, variable=eighty, aim=zero)),
        ('bit 6', bar(99)), ('border', bar(33, 0)), ('1x1', bar(35, width=1, height=1)), ('0x0', bar(35, width=0, height=0))])
    return mask


def pictures():
    mask = Mask('1005 pictures', SKY)
    one, two, three = arrow(1, 0), arrow(12, 14), arrow(200, 20)
    things = [('%d bits %d' % (form, options), picture(rows, form, options, clear))
              for form, rows, clear in ((0, one, 0), (1, two, 14), (2, three, 20)) for options in (0, 1, 2, 4, 5, 7)]
    things += [('16 at %d' % width, picture(two, 1, 1, 14, width)) for width in (8, 16, 24, 40, 0)]
    things += [('ramp16', picture(RAMP_16, 1, 0, 0, 40)), ('16 rle', picture(RAMP_16, 1, 4, 0, 40)),
               ('ramp256', picture(RAMP_256, 2, 0, 0, 40)), ('256 rle', picture(RAMP_256, 2, 4, 0, 40)),
               ('board', picture(board(0, 1), 0)), ('board16', picture(board(9, 14), 1)),
               ('wide', picture(board(9, 14, 24, 4), 1, 0, 0, 48)),
               ('high', picture(board(9, 14, 4, 24), 1, 0, 0, 6))]
    spare = [arrow(1, 0, 13), arrow(9, 14, 13)]
    things += [('13 wide', picture(spare[0], 0, 0, 0, 39)), ('13 rle', picture(spare[0], 0, 4, 0, 39)),
               ('13 of 4', picture(spare[1], 1, 0, 0, 39)), ('13 rle4', picture(spare[1], 1, 4, 0, 39))]
    whole = packed(two, 1)
    things += [('short', picture(two, 1, 0, 0, 32, whole[:84])), ('shrtRLE', picture(two, 1, 4, 0, 32, whole[:84])),
               ('long', picture(two, 1, 0, 0, 32, whole + whole)), ('longRLE', picture(two, 1, 4, 0, 32, whole + whole)),
               ('noBytes', picture(two, 1, 0, 0, 32, b'')), ('format3', picture(two, 3, 0, 0, 32, whole)),
               ('odd RLE', image(32, 16, 16, 1, 4, 0, run_lengths(whole) + b'\x05')),
               ('overRow', image(32, 3, 4, 2, 4, 0, b'\x05\x0a\x05\x0c\x02\x09')),
               ('count0', image(32, 2, 2, 2, 4, 0, b'\x00\x0a\x02\x0c\x02\x09')),
               ('bits248', picture(two, 1, 248, 0, 32)), ('clear20', picture(two, 1, 1, 20, 32)),
               ('0 wide', image(32, 0, 16, 1, 0, 0, whole)), ('0 high', image(32, 16, 0, 1, 0, 0, whole))]
    same = add('same', picture(two, 1, 1, 14))
    things += [('same %d' % n, same) for n in range(3)] + [('cut', container(30, 10, [(same, -4, -4), (same, 20, 2)]))]
    mask.grid(4, 16, 9, 53, 62, 50, things)
    return mask


def areas():
    mask = Mask('1006 areas')

    def square(side, colour):
        return shared('%d %d' % (side, colour), rectangle(side, side, pen(1), 0, fill(2, colour)))
    red, lime, blue = square(40, RED), square(40, LIME), square(40, BLUE)
    frame = shared('frame', rectangle(60, 60, pen(1, SILVER)))
    inner = add('inner', container(20, 60, [(lime, -10, 10)]))
    word = add('word', text(b'cut here and below', 100, 12, 1))
    small = add('small', ellipse(10, 10, pen(1), 0, 0, 0, fill(2, LIME)))
    cells = [('cut', [(red, 30, -20), (blue, -20, 40)], 60, 60), ('nested', [(inner, 30, 10), (red, -20, 20)], 60, 60),
             ('order', [(red, 0, 0), (lime, 10, 10), (blue, 20, 20)], 60, 60), ('order back', [(blue, 20, 20),
             (lime, 10, 10), (red, 0, 0)], 60, 60),
             ('text cut', [(word, 4, 6), (word, -30, 26), (word, 4, 54)], 60, 60), ('0 x 0', [(red, 0, 0)], 0, 0),
             ('60 x 0', [(red, 0, 0)], 60, 0)]
    cells = [(name, container(width, height, kids + [(frame, 0, 0)])) for name, kids, width, height in cells]
    mask.grid(4, 16, 7, 68, 80, 62, cells)
    pointers = [('pointer', pointer(red)), ('to NULL', pointer(NULL)),
            ('to group', pointer(add('group', container(30, 30, [(red, -10, -10)])))),
                ('by two', pointer(add('two', container(60, 60, [(add('inner', pointer(lime)), 10, 10)])))),
                ('hidden', add('hidden', container(60, 60, [(red, 0, 0)], 1))),
                ('to hidden', pointer(NAMES['container_hidden'])),
                ('hidden 2', container(60, 60, [(red, 0, 0)], 2))]
    mask.grid(4, 100, 7, 68, 80, 62, pointers)
    deep = add('middle', container(20, 20, [(small, 5, 5)]))
    for side in range(24, 64, 4):
        ring = add('deep', rectangle(side, side, pen(1, SILVER)))
        deep = add('deep %d' % side, container(side, side, [(ring, 0, 0), (deep, 2, 2)]))
    reach = [('line', line(60, 60, pen(8))), ('rectangle', rectangle(60, 60, pen(8))), ('ellipse', ellipse(60, 60, pen(8))),
             ('0 x 0', rectangle(0, 0, pen(8)))]
    reach = [(name, add('reach', container(60, 60, [(add('reach', it), 0, 0)]))) for name, it in reach]
    mask.grid(4, 184, 7, 68, 80, 62, [('deep', deep), ('set', 1)] + reach + [('0 x 0 line', line(0, 0, pen(8)))])
    for x, y in ((-20, 300), (460, 300), (200, 460), (32767, 32767), (-32768, -32768)):
        mask.put(x, y, red)
    for x, y, words in ((26, 316, 'at -20'), (418, 316, 'at 460'), (244, 468, 'below')):
        mask.say(x, y, words)
    mask.put(100, 280, red)
    mask.put(120, 290, text(b'transparent', 88, 8, 1), 'over')
    mask.put(120, 304, text(b'not so', 88, 8), 'over')
    mask.say(100, 324, 'texts over a square')
    return mask


def keys():
    """Twelve keys, and two places without one: more than two columns."""
    thin, small = pen(1), font(0)
    sign = add('key sign', picture(arrow(12, 0), 1, 1, 0, 32))
    word = add('key word', text(b'KEY', 24, 8, 1))
    wide = add('key wide', text(b'too wide for a key', 108, 8, 1, face=small))
    frame = add('key frame', rectangle(64, 64, thin))
    things = [[(word, 20, 28)], [(sign, 16, 16)], [(sign, 16, 4), (word, 20, 48)], [(wide, 2, 28)], [], [(frame, 0, 0)],
              [(add('key', meter(7)), 4, 4)], [(add('key', bar(55, width=56, height=20)), 4, 20)],
              [(add('key', button(48, 48, [(word, 12, 20)])), 8, 8)],
              [(add('key', container(32, 32, [(frame, 0, 0), (sign, 8, 8)])), 16, 16)], [(1, 0, 0)]]
    colours = [SILVER, WHITE, CREAM, SKY, RED, LIME, SILVER, WHITE, SILVER, SILVER, SILVER]
    ids = [add('%d' % n, key(kids, colour, n)) for n, (kids, colour) in enumerate(zip(things, colours))]
    ids.append(add('by pointer', pointer(add('pointed', key([(word, 20, 28)], CREAM, 12)))))
    ids[3:3] = [NULL, add('key none', pointer(NULL))]
    return ids


def soft_keys(name, object_id, ids):
    return add(name, (4, pack('<BBB', SKY, len(ids), 0) + b''.join(pack('<H', it) for it in ids)), object_id)


def main():
    words = argparse.ArgumentParser()
    words.add_argument('folder', nargs='?', default=os.path.join(os.path.dirname(os.path.abspath(__file__)), '..', 'examples'))
    words = words.parse_args()
    sign = add('designator', picture(arrow(12, 14), 1, 1, 14))
    label = add('designator', text(b'kinds', 40, 8, 1))
    children = [(sign, 4, 4), (label, 4, 30)]
    add('kinds', (0, pack('<BBHBBB', WHITE, 1, 1000, len(children), 0, 1) + listed(children) + b'en'), 1)
    ids = keys()
    texts().add(1000, soft_keys('texts', 4000, ids))
    for n, mask in enumerate((inputs, shapes, meters, bars, pictures, areas)):
        mask().add(1001 + n)
    alarm = Mask('1010 alarm', CREAM)
    alarm.put(100, 150, rectangle(280, 160, pen(8, RED), 0, fill(2, WHITE)), 'alarm')
    alarm.put(140, 210, text(b'ALARM', 200, 40, 1, 1, font(6, RED, 1)), 'alarm')
    alarm.add_alarm(1010, soft_keys('alarm', 4010, ids[:2]))
    with open(os.path.join(words.folder, 'kinds.iop'), 'wb') as out:
        out.write(b''.join(RECORDS.values()))
    with open(os.path.join(words.folder, 'kinds.h'), 'w', encoding='ascii') as out:
        out.writelines('#define %s %d\n' % it for it in NAMES.items())
    print('%d objects, %d bytes' % (len(RECORDS), sum(map(len, RECORDS.values()))))


if __name__ == '__main__':
    main()
