"""The fields of each kind of record, in their order behind the ID and the kind. Made by make_layouts.py from include/vt_records.h.

B, H and I are numbers of 1, 2 and 4 bytes, i is a signed one, and f a float. The others are lists, whose counts are in the fields
`count_of_` and their names.
"""
from __future__ import annotations

from collections.abc import Mapping

LAYOUTS: Mapping[int, tuple[tuple[str, str], ...]] = {
    # working set
    0: (
        ('colour', 'B'),
        ('selectable', 'B'),
        ('active_mask', 'H'),
        ('count_of_children', 'B'),
        ('count_of_macros', 'B'),
        ('count_of_languages', 'B'),
        ('children', 'children'),
        ('macros', 'macros'),
        ('languages', 'languages'),
    ),
    # data mask
    1: (
        ('colour', 'B'),
        ('soft_key_mask', 'H'),
        ('count_of_children', 'B'),
        ('count_of_macros', 'B'),
        ('children', 'children'),
        ('macros', 'macros'),
    ),
    # alarm mask
    2: (
        ('colour', 'B'),
        ('soft_key_mask', 'H'),
        ('priority', 'B'),
        ('acoustic', 'B'),
        ('count_of_children', 'B'),
        ('count_of_macros', 'B'),
        ('children', 'children'),
        ('macros', 'macros'),
    ),
    # container
    3: (
        ('width', 'H'),
        ('height', 'H'),
        ('hidden', 'B'),
        ('count_of_children', 'B'),
        ('count_of_macros', 'B'),
        ('children', 'children'),
        ('macros', 'macros'),
    ),
    # soft key mask
    4: (
        ('colour', 'B'),
        ('count_of_keys', 'B'),
        ('count_of_macros', 'B'),
        ('keys', 'ids'),
        ('macros', 'macros'),
    ),
    # key
    5: (
        ('colour', 'B'),
        ('key_code', 'B'),
        ('count_of_children', 'B'),
        ('count_of_macros', 'B'),
        ('children', 'children'),
        ('macros', 'macros'),
    ),
    # button
    6: (
        ('width', 'H'),
        ('height', 'H'),
        ('colour', 'B'),
        ('border', 'B'),
        ('key_code', 'B'),
        ('options', 'B'),
        ('count_of_children', 'B'),
        ('count_of_macros', 'B'),
        ('children', 'children'),
        ('macros', 'macros'),
    ),
    # input boolean
    7: (
        ('colour', 'B'),
        ('width', 'H'),
        ('font', 'H'),
        ('variable', 'H'),
        ('value', 'B'),
        ('enabled', 'B'),
        ('count_of_macros', 'B'),
        ('macros', 'macros'),
    ),
    # input string
    8: (
        ('width', 'H'),
        ('height', 'H'),
        ('colour', 'B'),
        ('font', 'H'),
        ('input_attributes', 'H'),
        ('options', 'B'),
        ('variable', 'H'),
        ('justification', 'B'),
        ('count_of_text', 'B'),
        ('text', 'bytes'),
        ('enabled', 'B'),
        ('count_of_macros', 'B'),
        ('macros', 'macros'),
    ),
    # input number
    9: (
        ('width', 'H'),
        ('height', 'H'),
        ('colour', 'B'),
        ('font', 'H'),
        ('options', 'B'),
        ('variable', 'H'),
        ('value', 'I'),
        ('min', 'I'),
        ('max', 'I'),
        ('offset', 'i'),
        ('scale', 'f'),
        ('decimals', 'B'),
        ('format', 'B'),
        ('justification', 'B'),
        ('options_two', 'B'),
        ('count_of_macros', 'B'),
        ('macros', 'macros'),
    ),
    # input list
    10: (
        ('width', 'H'),
        ('height', 'H'),
        ('variable', 'H'),
        ('value', 'B'),
        ('count_of_items', 'B'),
        ('options', 'B'),
        ('count_of_macros', 'B'),
        ('items', 'ids'),
        ('macros', 'macros'),
    ),
    # output string
    11: (
        ('width', 'H'),
        ('height', 'H'),
        ('colour', 'B'),
        ('font', 'H'),
        ('options', 'B'),
        ('variable', 'H'),
        ('justification', 'B'),
        ('count_of_text', 'H'),
        ('text', 'bytes'),
        ('count_of_macros', 'B'),
        ('macros', 'macros'),
    ),
    # output number
    12: (
        ('width', 'H'),
        ('height', 'H'),
        ('colour', 'B'),
        ('font', 'H'),
        ('options', 'B'),
        ('variable', 'H'),
        ('value', 'I'),
        ('offset', 'i'),
        ('scale', 'f'),
        ('decimals', 'B'),
        ('format', 'B'),
        ('justification', 'B'),
        ('count_of_macros', 'B'),
        ('macros', 'macros'),
    ),
    # line
    13: (
        ('line_attributes', 'H'),
        ('width', 'H'),
        ('height', 'H'),
        ('direction', 'B'),
        ('count_of_macros', 'B'),
        ('macros', 'macros'),
    ),
    # rectangle
    14: (
        ('line_attributes', 'H'),
        ('width', 'H'),
        ('height', 'H'),
        ('suppression', 'B'),
        ('fill', 'H'),
        ('count_of_macros', 'B'),
        ('macros', 'macros'),
    ),
    # ellipse
    15: (
        ('line_attributes', 'H'),
        ('width', 'H'),
        ('height', 'H'),
        ('ellipse_type', 'B'),
        ('start', 'B'),
        ('end', 'B'),
        ('fill', 'H'),
        ('count_of_macros', 'B'),
        ('macros', 'macros'),
    ),
    # polygon
    16: (
        ('width', 'H'),
        ('height', 'H'),
        ('line_attributes', 'H'),
        ('fill', 'H'),
        ('polygon_type', 'B'),
        ('count_of_points', 'B'),
        ('count_of_macros', 'B'),
        ('points', 'points'),
        ('macros', 'macros'),
    ),
    # meter
    17: (
        ('width', 'H'),
        ('needle_colour', 'B'),
        ('border_colour', 'B'),
        ('arc_colour', 'B'),
        ('options', 'B'),
        ('ticks', 'B'),
        ('start', 'B'),
        ('end', 'B'),
        ('min', 'H'),
        ('max', 'H'),
        ('variable', 'H'),
        ('value', 'H'),
        ('count_of_macros', 'B'),
        ('macros', 'macros'),
    ),
    # linear bar
    18: (
        ('width', 'H'),
        ('height', 'H'),
        ('colour', 'B'),
        ('target_colour', 'B'),
        ('options', 'B'),
        ('ticks', 'B'),
        ('min', 'H'),
        ('max', 'H'),
        ('variable', 'H'),
        ('value', 'H'),
        ('target_variable', 'H'),
        ('target', 'H'),
        ('count_of_macros', 'B'),
        ('macros', 'macros'),
    ),
    # arched bar
    19: (
        ('width', 'H'),
        ('height', 'H'),
        ('colour', 'B'),
        ('target_colour', 'B'),
        ('options', 'B'),
        ('start', 'B'),
        ('end', 'B'),
        ('bar_width', 'H'),
        ('min', 'H'),
        ('max', 'H'),
        ('variable', 'H'),
        ('value', 'H'),
        ('target_variable', 'H'),
        ('target', 'H'),
        ('count_of_macros', 'B'),
        ('macros', 'macros'),
    ),
    # picture
    20: (
        ('width', 'H'),
        ('actual_width', 'H'),
        ('actual_height', 'H'),
        ('format', 'B'),
        ('options', 'B'),
        ('transparency', 'B'),
        ('count_of_bytes', 'I'),
        ('count_of_macros', 'B'),
        ('bytes', 'bytes'),
        ('macros', 'macros'),
    ),
    # number variable
    21: (
        ('value', 'I'),
    ),
    # string variable
    22: (
        ('count_of_text', 'H'),
        ('text', 'bytes'),
    ),
    # font
    23: (
        ('colour', 'B'),
        ('size', 'B'),
        ('font_type', 'B'),
        ('style', 'B'),
        ('count_of_macros', 'B'),
        ('macros', 'macros'),
    ),
    # line attributes
    24: (
        ('colour', 'B'),
        ('width', 'B'),
        ('line_art', 'H'),
        ('count_of_macros', 'B'),
        ('macros', 'macros'),
    ),
    # fill attributes
    25: (
        ('fill_type', 'B'),
        ('colour', 'B'),
        ('pattern', 'H'),
        ('count_of_macros', 'B'),
        ('macros', 'macros'),
    ),
    # input attributes
    26: (
        ('validation_type', 'B'),
        ('count_of_text', 'B'),
        ('text', 'bytes'),
        ('count_of_macros', 'B'),
        ('macros', 'macros'),
    ),
    # object pointer
    27: (
        ('value', 'H'),
    ),
    # macro
    28: (
        ('count_of_bytes', 'H'),
        ('bytes', 'bytes'),
    ),
}
