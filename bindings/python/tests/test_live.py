"""The child process."""
import fcntl
import os
import signal
import tempfile
import unittest
from pathlib import Path
from unittest import mock

from segyolant import CoreEnded, ProgramNotFound, ProtocolError
from segyolant.live import Live
from tests.support import SET, example

# (of Linux; the module fcntl of Python 3.9 has no name for it)
F_SETPIPE_SZ = 1031
BEGIN = {'do': 'begin', 'own': 38, 'name': '20001D0000000001'}


class Exchange(unittest.TestCase):
    def setUp(self) -> None:
        self.live = Live()
        self.addCleanup(self.live.close)

    def test_a_request_has_its_lines_and_its_answer(self) -> None:
        self.assertEqual(self.live.ask(BEGIN).answer['result'], 'done')
        claim = self.live.ask({'do': 'claim'})
        self.assertEqual(claim.lines, [{'send': '18EEFF26#01000000001D0020'}])
        self.assertEqual((claim.answer['shown'], claim.error()), (None, None))

    def narrow_pipes(self) -> None:
        """Makes both pipes hold one page each, so that a little fills them."""
        for file in (self.live._in, self.live._out):
            fcntl.fcntl(file, F_SETPIPE_SZ, 4096)

    def test_many_requests_do_not_fill_the_pipes(self) -> None:
        self.live.ask(BEGIN)
        self.narrow_pipes()
        replies = self.live.ask_all([{'do': 'claim'} for _ in range(400)])
        self.assertEqual([reply.answer['answer'] for reply in replies], list(range(1, 401)))
        self.assertEqual({len(reply.lines) for reply in replies}, {1})

    def test_requests_and_answers_that_are_longer_than_a_pipe(self) -> None:
        self.live.ask(BEGIN)
        self.narrow_pipes()
        self.assertEqual(self.live.ask({'do': 'preload', 'address': SET, 'pool': example('sprayer.iop').hex()}).answer['result'], 'done')
        asked = {'do': 'picture', 'address': SET, 'mask': 65535}
        pictures = {reply.answer['value'] for reply in self.live.ask_all([asked, {'do': 'sets'}, asked]) if reply.request == asked}
        self.assertEqual([len(each) > 30_000 for each in pictures], [True])

    def test_none_is_asked(self) -> None:
        self.assertEqual(self.live.ask_all([]), [])

    def test_before_begin_and_malformed(self) -> None:
        told = {
            'not-begun': {'do': 'claim'},
            'unknown-request': {'do': 'rain'},
            'wrong-member': {'do': 'tick', 'time': -1},
        }
        for result, request in told.items():
            error = self.live.ask(request).error()
            self.assertEqual((error and error.result, error and error.request), (result, request))
            self.assertIn(str(request['do']), str(error))
        self.assertIsInstance(error, ProtocolError)
        self.assertIn('about its member time', str(error))


class Ends(unittest.TestCase):
    def test_a_killed_child(self) -> None:
        live = Live()
        self.addCleanup(live.close)
        live.ask(BEGIN)
        os.kill(live.pid, signal.SIGKILL)
        with self.assertRaisesRegex(CoreEnded, r'ended with status -9 at tick time=5; it said nothing; restart\(\)'):
            live.ask({'do': 'tick', 'time': 5})
        with self.assertRaises(CoreEnded):
            live.ask({'do': 'tick', 'time': 5})

    def test_a_closed_one(self) -> None:
        live = Live()
        live.close()
        live.close()
        with self.assertRaisesRegex(CoreEnded, 'status 0 at claim; it was closed'):
            live.ask({'do': 'claim'})

    def test_an_exchange_that_is_interrupted_ends_the_child(self) -> None:
        live = Live()
        self.addCleanup(live.close)
        live.ask(BEGIN)
        with mock.patch('os.read', side_effect=KeyboardInterrupt), self.assertRaises(KeyboardInterrupt):
            live.ask({'do': 'screen'})
        with self.assertRaisesRegex(CoreEnded, 'an exchange with it was interrupted'):
            live.ask({'do': 'screen'})

    def script(self, text: str) -> Live:
        folder = tempfile.TemporaryDirectory()
        self.addCleanup(folder.cleanup)
        program = Path(folder.name) / 'program'
        program.write_text(f'#!/bin/sh\n{text}\n')
        program.chmod(0o755)
        live = Live(program)
        self.addCleanup(live.close)
        return live

    def test_what_cannot_be_started(self) -> None:
        with self.assertRaisesRegex(ProgramNotFound, '/none cannot be started .No such file or directory.'):
            Live('/none')

    def test_its_error_output_is_told(self) -> None:
        live = self.script('read line; echo "no more memory" >&2; exit 3')
        with self.assertRaisesRegex(CoreEnded, 'ended with status 3 at claim; it said: no more memory;') as raised:
            live.ask({'do': 'claim'})
        self.assertEqual(raised.exception.said, 'no more memory')

    def test_what_is_no_answer_is_told(self) -> None:
        for said, words in (('hello', 'answered a line that is no JSON: hello to claim'), ('{"answer":7}', 'another request')):
            live = self.script(f"read line; echo '{said}'; sleep 5")
            with self.assertRaisesRegex(ProtocolError, words):
                live.ask({'do': 'claim'})


if __name__ == '__main__':
    unittest.main()
