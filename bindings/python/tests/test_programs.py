"""Where programs are found."""
import os
import tempfile
import unittest
from pathlib import Path
from unittest import mock

from segyolant import ProgramNotFound, programs
from tests.support import PYTHON, TOP


class Places(unittest.TestCase):
    def test_in_a_checkout(self) -> None:
        with mock.patch.dict(os.environ, {'SEGYOLANT_BIN': ''}):
            self.assertEqual(programs.places('vt_live'), [
                PYTHON / 'segyolant/bin/vt_live', TOP / 'crates/vt_live/out/vt_live', TOP / 'out/quick/vt_live',
            ])

    def test_installed_by_itself(self) -> None:
        package = Path('/usr/lib/python3/site-packages/segyolant')
        with mock.patch.object(programs, 'PACKAGE', package), mock.patch.dict(os.environ, {'SEGYOLANT_BIN': ''}):
            self.assertEqual(programs.places('vt_live'), [package / 'bin/vt_live'])

    def test_no_other_place_than_the_folder_of_the_variable(self) -> None:
        with tempfile.TemporaryDirectory() as folder:
            program = Path(folder) / 'vt_live'
            program.write_text('#!/bin/sh\n')
            with mock.patch.dict(os.environ, {'SEGYOLANT_BIN': folder}):
                self.assertIsNone(self.found())
                program.chmod(0o755)
                self.assertEqual(self.found(), program)

    def found(self) -> 'Path | None':
        try:
            return programs.find('vt_live')
        except ProgramNotFound:
            return None

    def test_the_error_names_the_places_and_the_cure(self) -> None:
        with mock.patch.dict(os.environ, {'SEGYOLANT_BIN': ''}), self.assertRaises(ProgramNotFound) as raised:
            programs.find('no_such')
        for words in ('the program no_such is not at', f'{TOP}/out/quick/no_such', '`make quick`', 'SEGYOLANT_BIN'):
            self.assertIn(words, str(raised.exception))


if __name__ == '__main__':
    unittest.main()
