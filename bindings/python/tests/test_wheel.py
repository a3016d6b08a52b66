"""The wheel: its files, and that the package in it finds its programs."""
import base64
import hashlib
import os
import subprocess
import sys
import tempfile
import unittest
import zipfile
from pathlib import Path

from segyolant import __version__ as VERSION
from segyolant import programs
from tests.support import PYTHON

sys.path.append(str(PYTHON))
import make_wheel  # noqa: E402


class Wheel(unittest.TestCase):
    def setUp(self) -> None:
        folder = tempfile.TemporaryDirectory()
        self.addCleanup(folder.cleanup)
        self.folder = Path(folder.name)

    def test_it_runs_from_its_files_alone(self) -> None:
        (self.folder / 'found').mkdir()
        (self.folder / 'found' / 'vt_live').symlink_to(programs.find('vt_live'))
        for name in ('segyolant', 'vt_replay'):
            (self.folder / 'found' / name).write_text('another program')
        wheel = make_wheel.make(self.folder, f'{self.folder}/found/{{}}')
        self.assertEqual(wheel.name, f'segyolant-{VERSION}-py3-none-linux_x86_64.whl')
        with zipfile.ZipFile(wheel) as archive:
            self.assertIsNone(archive.testzip())
            self.check_record(archive)
            for entry in archive.infolist():
                path = Path(archive.extract(entry, self.folder / 'there'))
                path.chmod(entry.external_attr >> 16 & 0o777)
        code = 'import segyolant; print(segyolant.programs.find("vt_live")); print(segyolant.Terminal().screen(), end="")'
        words = [sys.executable, '-B', '-W', 'ignore', '-c', code]
        ran = subprocess.run(words, cwd='/', capture_output=True, text=True, env={'PYTHONPATH': f'{self.folder}/there', 'PATH': os.environ['PATH']})
        self.assertEqual((ran.stdout, ran.stderr), (f'{self.folder.resolve()}/there/segyolant/bin/vt_live\nscreen none\n', ''))

    def check_record(self, archive: zipfile.ZipFile) -> None:
        record = archive.read(f'segyolant-{VERSION}.dist-info/RECORD').decode().splitlines()
        self.assertEqual([line.split(',')[0] for line in record], archive.namelist())
        for line in record[:-1]:
            name, checksum, size = line.split(',')
            data = archive.read(name)
            self.assertEqual(checksum, 'sha256=' + base64.urlsafe_b64encode(hashlib.sha256(data).digest()).decode().rstrip('='))
            self.assertEqual(int(size), len(data))
        self.assertTrue(all(f'segyolant/{path.name}' in archive.namelist() for path in (PYTHON / 'segyolant').glob('*.py')))

    def test_a_program_that_is_not_there(self) -> None:
        with self.assertRaisesRegex(SystemExit, 'vt_live is not there: make build proves the programs'):
            make_wheel.make(self.folder, f'{self.folder}/none/{{}}')


if __name__ == '__main__':
    unittest.main()
