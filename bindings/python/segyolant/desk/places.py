"""The places of objects in a picture, from its SVG: each element is an `svg` with its ID, in the order in which elements are drawn."""
from __future__ import annotations

from dataclasses import dataclass
from xml.parsers import expat

MOST = 2000


@dataclass(frozen=True)
class Place:
    """An element: its ID, how many elements are around it, and the part of its area that is seen, in pixels of the picture."""
    id: int
    depth: int
    left: int
    top: int
    right: int
    bottom: int


@dataclass
class _Area:
    """An area that is open: its corner in the picture, and the bounds of what is seen in it."""
    x: int
    y: int
    left: int
    top: int
    right: int
    bottom: int
    is_element: bool


def places_in(svg: str) -> list[Place]:
    """The places of the elements of a picture, at most 2,000. A picture that is no XML has none."""
    reader = _Reader()
    parser = expat.ParserCreate()
    parser.StartElementHandler, parser.EndElementHandler = reader.begin, reader.end
    try:
        parser.Parse(svg, True)
    except (expat.ExpatError, ValueError):
        return []
    return reader.places[:MOST]


class _Reader:
    def __init__(self) -> None:
        self.places: list[Place] = []
        self._areas: list[_Area] = []
        self._depth = 0

    def begin(self, name: str, attributes: dict[str, str]) -> None:
        if name != 'svg':
            return
        x, y, width, height = (int(attributes[key]) if key in attributes else None for key in ('x', 'y', 'width', 'height'))
        around = self._areas[-1] if self._areas else _Area(0, 0, 0, 0, width or 0, height or 0, False)
        corner = around.x + (x or 0), around.y + (y or 0)
        area = _Area(*corner, around.left, around.top, around.right, around.bottom, 'data-id' in attributes)
        # (an element without a size, as a Working Set, clips nothing)
        if attributes.get('overflow') != 'visible' and not (area.is_element and width is None):
            area.left, area.top = max(area.x, area.left), max(area.y, area.top)
            area.right = area.right if width is None else min(area.x + width, area.right)
            area.bottom = area.bottom if height is None else min(area.y + height, area.bottom)
        if area.is_element:
            self.places.append(Place(int(attributes['data-id']), self._depth, area.left, area.top, area.right, area.bottom))
            self._depth += 1
        self._areas.append(area)

    def end(self, name: str) -> None:
        if name == 'svg':
            self._depth -= self._areas.pop().is_element
