"""The words of the command line of the desk."""
from __future__ import annotations

import argparse
from pathlib import Path

EXTRAS = ['request-claims', 'versions', 'language']
USAGE = """examples:
  python3 -m segyolant.desk                                      a simulated sprayer
  python3 -m segyolant.desk --bus socketcan:can0                 your implement, on a bus of python-can
  python3 -m segyolant.desk --log my.log --record again.log      a log, and a recording of what this terminal answers
  python3 -m segyolant.desk --pool 80=my.iop --names my.h        a pool alone

docs/DESK.md tells more."""


def parse(words: list[str] | None = None) -> argparse.Namespace:
    """The words, checked. It ends the program with a message for wrong ones."""
    parser = argparse.ArgumentParser(prog='python3 -m segyolant.desk', description='A virtual terminal in a browser.', epilog=USAGE,
                                     formatter_class=argparse.RawDescriptionHelpFormatter)
    source = parser.add_mutually_exclusive_group()
    source.add_argument('--bus', metavar='TYPE[:CHANNEL]', type=_bus, help='an interface of python-can, such as socketcan:can0 or udp_multicast')
    source.add_argument('--log', metavar='FILE', type=_file, help='play a log of candump')
    parser.add_argument('--bitrate', type=int, help='the bits a second, for interfaces that set them')
    parser.add_argument('--pool', metavar='AA=FILE', type=_pool, action='append', default=[],
                        help='a pool that is there from the start, at an address in hexadecimal')
    parser.add_argument('--names', metavar='FILE', type=_file, action='append', default=[],
                        help='the names of objects, as a pool editor writes them')
    parser.add_argument('--record', metavar='FILE', type=Path, help='record the bus as candump does')
    parser.add_argument('--own', metavar='AA', type=_address, default=0x26, help="the terminal's address in hexadecimal (26)")
    parser.add_argument('--name', metavar='NAME', type=_name, default=0x20001D0000000001, help='its NAME, 16 hexadecimal digits')
    parser.add_argument('--extras', metavar='NAME,..', type=lambda text: [each for each in text.split(',') if each], default=EXTRAS,
                        help=f'what is said beside the core, as segyolant.host has it ({",".join(EXTRAS)})')
    parser.add_argument('--program', metavar='FILE', type=_file, help='the program vt_live')
    parser.add_argument('--port', type=_port, default=8099, help='the port of the page (8099), 0 for any free one')
    parser.add_argument('--host', default='127.0.0.1', help='the address of the page; all but loopback opens it to a network')
    parser.add_argument('--open', action='store_true', help='open the page in the browser')
    return parser.parse_args(words)


def _bus(text: str) -> tuple[str, str | None]:
    interface, _, channel = text.partition(':')
    return interface, channel or None


def _file(text: str) -> Path:
    if Path(text).is_dir():
        raise argparse.ArgumentTypeError(f'{text} is a folder; expected a file')
    if not Path(text).is_file():
        raise argparse.ArgumentTypeError(f'there is no file {text}')
    return Path(text)


def _port(text: str) -> int:
    if not text.isdecimal() or int(text) > 65535:
        raise argparse.ArgumentTypeError(f'{text} is no port from 0 to 65535')
    return int(text)


def _address(text: str) -> int:
    try:
        address = int(text, 16)
    except ValueError:
        address = 256
    if address > 253:
        raise argparse.ArgumentTypeError(f'{text} is no address from 00 to FD')
    return address


def _name(text: str) -> int:
    try:
        return int(text, 16) if len(text) == 16 else int('')
    except ValueError:
        raise argparse.ArgumentTypeError(f'{text} is no NAME of 16 hexadecimal digits') from None


def _pool(text: str) -> tuple[int, Path]:
    address, mark, path = text.partition('=')
    if not mark:
        raise argparse.ArgumentTypeError(f'{text} has no =, as 80=my.iop has')
    return _address(address), _file(path)
