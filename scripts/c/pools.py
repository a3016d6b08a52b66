"""The objects of a pool, as logs that are made at random name them."""
from c.programs import EXAMPLES
from c.results import read
from pool_text import HEADS, length_of

# The kinds with children, those of masks, and that of macros.
PARENTS, MASKS, MACRO = (0, 1, 2, 3, 5, 6), (1, 2), 28


def number_at(record, at):
    return int.from_bytes(record[at:at + 2], 'little')


class Pool:
    """The records of a pool by their IDs, the IDs by their kinds, and those of the objects near to each mask."""

    def __init__(self, name):
        data = read(f'{EXAMPLES}/{name}')
        self.name, self.data, self.records, self.kinds = name, data, {}, {}
        while data:
            size = length_of(data)
            number, kind = number_at(data, 0), data[2]
            self.records[number], data = data[:size], data[size:]
            self.kinds.setdefault(kind, []).append(number)
        self.set = self.of([0])[0]
        self.active = number_at(self.records[self.set], 5)
        self.near = {mask: self.reached(mask) for mask in self.of(MASKS)}

    def of(self, kinds):
        """The objects of some kinds."""
        return [number for kind in kinds for number in self.kinds.get(kind, [])]

    def kind(self, number):
        """The kind of an object, or None."""
        return self.records[number][2] if number in self.records else None

    def children(self, number):
        """The objects in the list of one with children."""
        record = self.records[number]
        first, (count, *_), *_ = HEADS[record[2]]
        return [number_at(record, first + 6 * k) for k in range(record[count])]

    def reached(self, mask):
        """The objects that a mask shows or that those name: each number in a record that is an ID, some of them by chance."""
        found, waiting = {mask}, [mask]
        while waiting:
            record = self.records[waiting.pop()]
            for number in {number_at(record, at) for at in range(3, len(record) - 1)} - found:
                if self.kind(number) not in (None, 0, *MASKS, MACRO):
                    found.add(number)
                    waiting.append(number)
        return found
