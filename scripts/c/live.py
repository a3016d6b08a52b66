"""Tests of the live programs, examples/c/live.c and examples/bridge.py, which are played against by pipes."""
import os
import re
import shlex
import signal
import subprocess
import sys
import threading
import time

from c.logs import Log
from c.programs import EXAMPLES, LIVE, ROOT, VT_REPLAY, compiled, run
from c.results import Failed, difference, expect, read

NO_SET_STATUS = '14E6FF26#FEFEFFFFFFFF00FF'
CLAIM = '18EEFF26#01000000001D0020'
CLAIM_REQUEST = '18EA2680#00EE00'
# The begin of a session, and its answer.
SESSION, SESSION_ANSWER = '1CEC2680#1064000FFF00E700', '1CEC8026#110F01FFFF00E700'


class Live:
    """A program that is played against by pipes. Each line that it prints is kept with its time."""

    def __init__(self, words):
        self.child = subprocess.Popen(words, stdin=subprocess.PIPE, stdout=subprocess.PIPE, stderr=subprocess.PIPE, text=True)
        self.frames, self.words = [], []
        self.readers = [threading.Thread(target=self.read, args=[self.child.stdout, self.frames]),
                        threading.Thread(target=self.read, args=[self.child.stderr, self.words])]
        for reader in self.readers:
            reader.start()

    def read(self, pipe, lines):
        for line in pipe:
            lines.append((time.monotonic(), line.rstrip('\n')))

    def say(self, lines):
        self.child.stdin.write(''.join(line + '\n' for line in lines))
        self.child.stdin.flush()

    def wait_for(self, frame, count, seconds):
        """Waits until a frame has come some times."""
        end = time.monotonic() + seconds
        while [line for _, line in self.frames].count(frame) < count and time.monotonic() < end:
            time.sleep(0.01)

    def end(self):
        """Closes the input, and returns the status."""
        self.child.stdin.close()
        try:
            status = self.child.wait(10)
        except subprocess.TimeoutExpired:
            self.child.kill()
            status = 'timeout'
        for reader in self.readers:
            reader.join()
        return status


def play_lines():
    """The frames and actions of the play, as lines of a log without times."""
    log = Log()
    log.register()
    log.upload_by_tp(read(f'{EXAMPLES}/pool.iop'))
    frames = [line.split()[2] for line in log.lines]
    commands = ['14E72680#A0640000FFFFFFFF', '14E72680#A0640001FFFFFFFF', '14E72680#C0FF640000000000']
    return frames + ['! press 400'] + commands + ['! set 80', '! set 81']


def wanted_of_play(program, folder, lines):
    """What replay prints for the play, and for an echo after three seconds of silence."""
    log = Log()
    text = ''
    for line in lines:
        log.at += 1000
        text += line + '\n' if line.startswith('!') else f'({log.at // 1000000}.{log.at % 1000000:06}) can0 {line}\n'
    text += f'({log.at // 1000000 + 4}.000000) can0 {NO_SET_STATUS}\n'
    with open(f'{folder}/play.log', 'w') as file:
        file.write(text)
    status, out, _ = run([program, f'{folder}/play.log'], folder)
    expect(status == 0, f'replay ends with status {status}')
    return out.decode().splitlines()[:-1]


def without_repeats(frames):
    """The frames without a status that is the same as the one before, and the times of those that are left out."""
    status, kept, times = NO_SET_STATUS, [], []
    for at, frame in frames:
        if frame.startswith('14E6FF26#FE') and frame == status:
            times.append(at)
            continue
        if frame.startswith('14E6FF26#FE'):
            status = frame
        kept.append((at, frame))
    return kept, times


def check_live(words, replay, folder, has_counts):
    """Plays a working set against a program, and compares what comes with what replay prints."""
    lines = play_lines()
    wanted = wanted_of_play(replay, folder, lines)
    is_frame = re.compile('[0-9A-F]{8}#')
    live = Live(words)
    try:
        live.wait_for(NO_SET_STATUS, 1, 5)
        live.say(lines)
        said = time.monotonic()
        live.wait_for(NO_SET_STATUS, 3, 8)
    finally:
        status = live.end()
    expect(status == 0, f'status {status}: {live.words[-3:]}')
    expect(live.frames and live.frames[0][1] == CLAIM, f'the first frame is {live.frames[:1]}')
    kept, repeats = without_repeats(live.frames[1:])
    got, want = [frame for _, frame in kept], [line for line in wanted if is_frame.match(line)]
    expect(got == want, difference('\n'.join(want).encode(), '\n'.join(got).encode()))
    got = [line for _, line in live.words if not (has_counts and line.startswith('lines '))]
    want = [line for line in wanted if not is_frame.match(line)]
    expect(got == want, difference('\n'.join(want).encode(), '\n'.join(got).encode()))
    expect('screen none' == got[-1], f'the last line is {got[-1]}')
    return check_times(live.frames[0][0], said, kept, repeats)


def check_times(begin, said, kept, repeats):
    """The status comes each second, and the set is closed after three seconds of silence. A busy machine may be late."""
    gaps = [later - earlier for earlier, later in zip([begin] + repeats, repeats)]
    expect(len(gaps) >= 4 and all(0.3 < gap < 1.9 for gap in gaps), f'the status comes after {[round(gap, 2) for gap in gaps]} s')
    expect(0.9 < sum(gaps) / len(gaps) < 1.2, f'the status comes each {sum(gaps) / len(gaps):.2f} s')
    closed = kept[-1][0] - said
    expect(kept[-1][1] == NO_SET_STATUS and 2.9 < closed < 4.5, f'{kept[-1][1]} comes {closed:.2f} s after the last line')
    return f'{len(repeats)} repeated statuses, closed after {closed:.2f} s'


def check_loss(words):
    """A node with a lower NAME takes the address."""
    live = Live(words)
    try:
        live.wait_for(CLAIM, 1, 5)
        live.say(['18EEFF26#0000000000000000'])
        live.child.wait(5)
    except subprocess.TimeoutExpired:
        raise Failed('it does not end') from None
    finally:
        status = live.end()
    expect(status == 1, f'status {status}')
    expect([frame for _, frame in live.frames] == [CLAIM, '18EEFFFE#01000000001D0020'], f'frames {live.frames}')
    expect('another node took the address' in live.words[-1][1], f'the last message is {live.words[-1]}')


def check_quiet(words):
    """Right after the claim at the start a request for it is answered, and a session is passed over. Later a session is answered too."""
    live = Live(words)
    try:
        live.wait_for(CLAIM, 1, 5)
        live.say([SESSION, CLAIM_REQUEST])
        live.wait_for(NO_SET_STATUS, 1, 5)
        live.say([SESSION])
        live.wait_for(SESSION_ANSWER, 1, 5)
    finally:
        status = live.end()
    expect(status == 0, f'status {status}: {live.words[-3:]}')
    expect([frame for _, frame in live.frames] == [CLAIM, CLAIM, NO_SET_STATUS, SESSION_ANSWER], f'frames {live.frames}')


# A Working Set 0 with the Data Mask 1000, and in it the Input String 301 of 8 bytes.
POOL_WITH_TEXT = bytes.fromhex('00000000 01 E803 000000  E80301 00 FFFF 01 00 2D01 0000 0000  2D0108 0A00 0500 00 FFFF FFFF 00 FFFF 00 08'
                               '2020202020202020 01 00')
# The begin of the session for a text of 8 bytes, and its abort.
TEXT_SESSION, TEXT_ABORT = '1CEC8026#100C0002FF00E600', '1CEC8026#FF03FFFFFF00E600'

# A Working Set 0 with the Data Mask 1000, and in it the Button 500 with the key code 7; its messages when it is pressed and released.
POOL_WITH_KEY = bytes.fromhex('00000000 01 E803 000000  E80301 00 FFFF 01 00 F401 0000 0000  F40106 1400 1400 01 00 07 00 00 00')
KEY_PRESSED, KEY_RELEASED = '14E68026#0101F401E80307FF', '14E68026#0100F401E80307FF'


def check_late_text(words):
    """A text after a silence of nearly two seconds begins its session then: it does not time out at once."""
    log = Log()
    log.register()
    log.upload_by_tp(POOL_WITH_TEXT)
    live = Live(words)
    try:
        live.wait_for(NO_SET_STATUS, 1, 5)
        live.say([line.split()[2] for line in log.lines])
        time.sleep(1.9)
        live.say(['! text 301 ABCDEFGH'])
        live.wait_for(TEXT_ABORT, 1, 5)
    finally:
        status = live.end()
    expect(status == 0, f'status {status}: {live.words[-3:]}')
    times = {frame: at for at, frame in live.frames}
    expect(TEXT_SESSION in times and TEXT_ABORT in times, f'frames {live.frames}')
    waited = times[TEXT_ABORT] - times[TEXT_SESSION]
    expect(1.1 < waited < 2.5, f'the session is aborted after {waited:.2f} s')
    return f'aborted after {waited:.2f} s'


def check_standstill(words):
    """A program that stood still sends its status once then, and not for each second of that."""
    live = Live(words)
    try:
        live.wait_for(NO_SET_STATUS, 1, 5)
        live.child.send_signal(signal.SIGSTOP)
        time.sleep(4)
        begin = time.monotonic()
        live.child.send_signal(signal.SIGCONT)
        time.sleep(0.5)
    finally:
        status = live.end()
    expect(status == 0, f'status {status}: {live.words[-3:]}')
    repeats = [at for at, frame in live.frames if frame == NO_SET_STATUS and at >= begin]
    expect(len(repeats) == 1, f'{len(repeats)} statuses after the standstill')


def check_held_key(words):
    """A key that is held is released before another set is chosen."""
    log = Log()
    log.register()
    log.upload_by_tp(POOL_WITH_KEY)
    live = Live(words)
    try:
        live.wait_for(NO_SET_STATUS, 1, 5)
        live.say([line.split()[2] for line in log.lines] + ['! press 500', '! set 81'])
        live.wait_for(KEY_RELEASED, 1, 5)
    finally:
        status = live.end()
    expect(status == 0, f'status {status}: {live.words[-3:]}')
    frames = [frame for _, frame in live.frames]
    expect(KEY_PRESSED in frames and KEY_RELEASED in frames, f'frames {frames}')


def check_live_refusals(program):
    """A frame for which there is no memory is tried some times and left out, and the terminal goes on."""
    live = Live([program, '--pipe'])
    try:
        live.wait_for(CLAIM, 1, 5)
        live.say(['18EEFF80#02000000001D0020', CLAIM_REQUEST])
        live.wait_for(CLAIM, 2, 5)
    finally:
        status = live.end()
    words = [line for _, line in live.words]
    expect(status == 0, f'status {status}: {words}')
    expect('the memory for an input was refused 10 times' in words, f'messages {words}')
    expect([frame for _, frame in live.frames].count(CLAIM) == 2, f'frames {live.frames}')


def with_messages_apart(program, folder):
    """A program that runs another, whose messages go to a file. Under a bridge both would write to one error output, and mix there."""
    path = f'{folder}/child'
    with open(path, 'w') as file:
        file.write(f'#!/bin/sh\nexec {shlex.quote(program)} "$@" 2>{shlex.quote(f"{folder}/child.messages")}\n')
    os.chmod(path, 0o755)
    return path


def check_bridge(words, replay, folder):
    """Plays against the bridge. The messages of its child are about refused actions alone."""
    note = check_live(words, replay, folder, True)
    messages = read(f'{folder}/child.messages').decode().splitlines()
    refused = re.compile(r"vt_replay: -: line \d+: the operator's action (is|and \d+ later ones are) refused: ")
    expect(all(refused.match(line) for line in messages), f'messages {messages}')
    return note


def in_time(function, *words):
    """Runs a test of times up to three times, as a busy machine may be late."""
    for _ in range(2):
        try:
            return function(*words)
        except Failed as why:
            print(f'once more: {why}', flush=True)
    return function(*words)


def test_live(tests, programs):
    replay = programs.get('replay')
    # The bridge runs the proved program where that was built, or else replay.
    child = VT_REPLAY if os.path.exists(VT_REPLAY) else replay
    bridge = [sys.executable, f'{ROOT}/examples/bridge.py', with_messages_apart(child, programs.folder)]
    tests.run('live', in_time, check_live, [programs.get('live'), '--pipe'], replay, programs.folder, False)
    tests.run('live-sanitized', in_time, check_live, [programs.get('live-sanitized'), '--pipe'], replay, programs.folder, False)
    small = compiled(programs.folder, 'live-small', [*LIVE, 'arena.c'], '-O2', '-DARENA_BYTES=36864')
    tests.run('live in 36 KB', in_time, check_live_refusals, small)
    tests.run('live loss', in_time, check_loss, [programs.get('live'), '--pipe'])
    tests.run('live quiet', in_time, check_quiet, [programs.get('live'), '--pipe'])
    tests.run('live late text', in_time, check_late_text, [programs.get('live'), '--pipe'])
    tests.run('live standstill', in_time, check_standstill, [programs.get('live'), '--pipe'])
    tests.run('live held key', in_time, check_held_key, [programs.get('live'), '--pipe'])
    tests.run(f'bridge over {os.path.basename(child)}', in_time, check_bridge, bridge, replay, programs.folder)
    tests.run('bridge loss', in_time, check_loss, bridge)
    tests.run('bridge quiet', in_time, check_quiet, bridge)
    tests.run('bridge late text', in_time, check_late_text, bridge)
    tests.run('bridge standstill', in_time, check_standstill, bridge)
