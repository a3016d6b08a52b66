"""Logs that the tests write, and a pool whose macros and containers are deep."""
import struct


def macro(number, commands):
    return struct.pack('<HBH', number, 28, len(commands)) + commands


def deep_pool(depth=32):
    """A pool with a chain of 256 macros, each of which runs the next, and a chain of containers, each of which has the next.

    The first macro is run when the set is shown, the key is pressed, or a container is shown or hidden.
    """
    everything = struct.pack('<HBBBHBBB', 60000, 0, 0, 1, 50000, 0, 1, 0) + bytes([1, 0])
    everything += struct.pack('<HBBHBB', 50000, 1, 0, 50001, 1, 0) + struct.pack('<Hhh', 2000, 1, 1)
    everything += struct.pack('<HBBBBH', 50001, 4, 0, 1, 0, 50002)
    everything += struct.pack('<HBBBBB', 50002, 5, 0, 1, 0, 1) + bytes([24, 0])
    for number in range(depth):
        is_last = number == depth - 1
        everything += struct.pack('<HBHHBBB', 2000 + number, 3, 9, 9, 0, 0 if is_last else 1, 2)
        everything += b'' if is_last else struct.pack('<Hhh', 2001 + number, 1, 1)
        everything += bytes([3, 0, 4, 0])
    for number in range(255):
        everything += macro(number, struct.pack('<BH5s', 0xBE, number + 1, b'\xff' * 5))
    # The last one changes the colour of the mask.
    return everything + macro(255, struct.pack('<BHB4s', 0xA7, 50000, 5, b'\xff' * 4))


class Log:
    """A log that is written, a millisecond between two lines."""

    def __init__(self):
        self.at, self.lines = 1000000, []

    def gap(self):
        """The microseconds from the frame before to the next one."""
        return 1000

    def hear(self, identifier, data):
        self.at += self.gap()
        self.lines.append(f'({self.at // 1000000}.{self.at % 1000000:06}) can0 {identifier:08X}#{data.hex().upper()}')

    def vt(self, data, source=0x80):
        self.hear(0x14E72600 | source, data + b'\xff' * (8 - len(data)))

    def register(self, source=0x80):
        self.hear(0x18EEFF00 | source, struct.pack('<Q', 0x20001D0000000100 + source))
        self.hear(0x1CFE0D00 | source, bytes([1]) + b'\xff' * 7)

    def send_by_tp(self, message, source=0x80):
        packets = -(-len(message) // 7)
        self.hear(0x1CEC2600 | source, struct.pack('<BHBB', 0x10, len(message), packets, 0xFF) + bytes([0, 0xE7, 0]))
        for number in range(packets):
            self.hear(0x1CEB2600 | source, bytes([number + 1]) + message[7 * number:7 * number + 7].ljust(7, b'\xff'))

    def upload_by_pieces(self, pool, source=0x80):
        for at in range(0, len(pool), 7):
            self.hear(0x14E72600 | source, b'\x11' + pool[at:at + 7])
        self.vt(b'\x12', source)

    def upload_by_tp(self, pool, source=0x80):
        self.send_by_tp(b'\x11' + pool, source)
        self.vt(b'\x12', source)

    def upload_by_etp(self, pool):
        message = b'\x11' + pool
        packets = -(-len(message) // 7)
        self.hear(0x1CC82680, struct.pack('<BI', 0x14, len(message)) + bytes([0, 0xE7, 0]))
        for first in range(0, packets, 255):
            count = min(255, packets - first)
            self.hear(0x1CC82680, bytes([0x16, count]) + first.to_bytes(3, 'little') + bytes([0, 0xE7, 0]))
            for number in range(count):
                at = 7 * (first + number)
                self.hear(0x1CC72680, bytes([number + 1]) + message[at:at + 7].ljust(7, b'\xff'))
        self.vt(b'\x12')

    def text(self):
        return ''.join(line + '\n' for line in self.lines)


def timeouts_log():
    """Sessions of all sources, which time out together, and sets that fall silent together."""
    log = Log()
    for source in range(254):
        if source != 0x26:
            log.register(source)
            log.hear(0x1CEC2600 | source, bytes.fromhex('1064000FFF00E700'))
            log.hear(0x1CC82600 | source, bytes.fromhex('14E803000000E700'))
    log.at += 2000000
    log.hear(0x18FFFF26, b'')
    log.at += 2000000
    log.hear(0x18FFFF26, b'')
    return log


def deep_log(pool):
    """The log of a set with a deep pool: its macros run by name, by a container and by a key, and its pool is updated."""
    log = Log()
    log.register()
    log.upload_by_etp(pool)
    log.vt(bytes.fromhex('BE0000'))
    log.vt(bytes.fromhex('A0D00700'))
    log.vt(bytes.fromhex('A0D00701'))
    log.lines.append('! press 50002')
    log.lines.append('! release 50002')
    log.upload_by_tp(pool[:1700])
    log.upload_by_etp(pool)
    return log


def upload_log(pool, way):
    log = Log()
    log.register()
    getattr(log, way)(pool)
    return log
