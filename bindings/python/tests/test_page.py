"""The recipes of docs/PYTHON.md: each is run, and prints what stands behind it."""
import contextlib
import io
import os
import re
import tempfile
import types
import unittest
from pathlib import Path

from segyolant.extras import NAMES
from segyolant.host import Host
from tests.support import TOP

PAGE = (TOP / 'docs' / 'PYTHON.md').read_text(encoding='utf-8')
RECIPE = re.compile(r'^## ([^\n]*)\n(?:(?!^## ).)*?```python\n(.*?)```\n((?:\n(?:    [^\n]*\n)+)?)', re.M | re.S)


class Bus:
    """A bus on which another node asks for the claim of the terminal and then takes its addresses."""

    def __init__(self) -> None:
        messages = [(0x18EA2680, '00EE00'), (0x18EEFF26, '00' * 8), (0x18EEFF27, '00' * 7 + '01')]
        self.waiting = [types.SimpleNamespace(arbitration_id=it[0], data=bytes.fromhex(it[1]), timestamp=0.0, is_extended_id=True) for it in messages]
        self.sent: 'list[str]' = []

    def recv(self, timeout: float) -> object:
        return self.waiting.pop(0) if self.waiting else None

    def send(self, message: object) -> None:
        self.sent.append(str(message))


def recipes() -> 'list[tuple[str, str, str]]':
    """The title of each recipe, its code, and what it prints."""
    return [(title, code, re.sub('^    ', '', printed.lstrip('\n'), flags=re.M)) for title, code, printed in RECIPE.findall(PAGE)]


class Recipes(unittest.TestCase):
    def test_there_are_five(self) -> None:
        self.assertEqual((len(recipes()), PAGE.count('```python')), (5, 5))

    def test_each_prints_what_stands_behind_it(self) -> None:
        for title, code, printed in recipes():
            with self.subTest(title):
                bus = Bus()
                told = self.run_recipe(code, {'message_of': str, 'bus': bus})
                self.assertEqual(told, printed)
                if 'bus' in code:
                    self.assertEqual(bus.sent, [
                        '18EEFF26#01000000001D0020', '18EEFF26#01000000001D0020', '18EEFFFE#01000000001D0020', '18EEFF27#01000000001D0020',
                        '18EEFFFE#01000000001D0020',
                    ])

    def run_recipe(self, code: str, names: 'dict[str, object]') -> str:
        told = io.StringIO()
        before = os.getcwd()
        with tempfile.TemporaryDirectory() as folder:
            (Path(folder) / 'examples').symlink_to(TOP / 'examples')
            os.chdir(folder)
            try:
                with contextlib.redirect_stdout(told):
                    exec(compile(code, 'docs/PYTHON.md', 'exec'), names)
            finally:
                os.chdir(before)
        return told.getvalue()


class Tables(unittest.TestCase):
    def test_the_extras_are_those_of_the_host(self) -> None:
        for text in (PAGE, Host.__doc__ or ''):
            rows = re.findall(r'^ *\| (`[a-z-]+`) \| (.*) \|$', text, re.M)
            self.assertEqual([name.strip('`') for name, _ in rows], list(NAMES))
        on_page = re.findall(r'^\| `[a-z-]+` \| .* \|$', PAGE, re.M)
        self.assertEqual(on_page, re.findall(r'^ *(\| `[a-z-]+` \| .* \|)$', Host.__doc__ or '', re.M))

    def test_the_page_is_short(self) -> None:
        self.assertLessEqual(PAGE.count('\n'), 120)


if __name__ == '__main__':
    unittest.main()
