"""What segyolant prints on a console, which is no file and no pipe: its lines are coloured."""
import os
import pty
import subprocess
import tempfile

from testing import pools

# The warnings of a pool, in colours.
COLOURED = ('warned.iop:24: \x1b[1;33mwarning[W01 Replaced]\x1b[0m Container 100 is replaced by the record at 34\n'
            'warned.iop:0: \x1b[1;33mwarning[W18 NoDesignator]\x1b[0m Working Set 0: no child; expected a designator, by which the operator '
            'knows it\n'
            'warned.iop: 0 errors, 2 warnings, 3 objects\n')
# A Working Set 0, its Data Mask 1000, and in it the Container 100, whose record comes twice.
WARNED = '@0 00 00 01 @1000 00 00 00  @1000 01 00 @65535 01 00 @100 @10 @5\n' + 2 * '@100 03 @50 @20 00 00 00\n'
# Why no cost is known, in colours.
UNKNOWN = ('cut.iop:18: \x1b[1;31merror[R06 MacroBytes]\x1b[0m Macro 5: the bytes end inside a command\n'
           'cut.iop:0: \x1b[1;34mnote[N02 UnknownTriggers]\x1b[0m a macro ends inside a command, so triggers are not known (R11 MacroCircle, '
           'R12 OverBudget not judged; R07 MacroCommand, R08 MacroMissing, R09 MacroKind, R10 MacroValue not for the commands of such a '
           'macro)\n')
# A Working Set 0 with the Data Mask 1000, and a Macro whose command is cut short.
CUT_MACRO = '@0 00 00 01 @1000 00 00 00  @1000 01 00 @65535 00 00\n@5 1C @1 A0\n'
RUNS = [('warned.iop', WARNED, ['check', 'warned.iop'], 0, COLOURED), ('cut.iop', CUT_MACRO, ['why', 'cut.iop', '1000:3'], 2, UNKNOWN)]


def on_a_console(words, folder):
    """The status of a program and what it prints on a console."""
    mine, its = pty.openpty()
    env = {name: value for name, value in os.environ.items() if name != 'NO_COLOR'}
    ran = subprocess.Popen(words, cwd=folder, stdin=subprocess.DEVNULL, stdout=its, stderr=subprocess.DEVNULL, env={**env, 'TERM': 'xterm'})
    os.close(its)
    text = b''
    while True:
        try:
            more = os.read(mine, 65536)
        except OSError:
            more = b''
        if not more:
            break
        text += more
    os.close(mine)
    return ran.wait(60), text.decode().replace('\r\n', '\n')


def lines_are_coloured(programs):
    """Findings on a console, where they are, what they are and in which colour."""
    with tempfile.TemporaryDirectory() as folder:
        for name, pool, words, status, text in RUNS:
            with open(f'{folder}/{name}', 'wb') as file:
                file.write(pools.pool_of(pool))
            told = on_a_console([programs['segyolant'], *words], folder)
            if told != (status, text):
                yield f'{" ".join(words)}: expected {(status, text)}, came {told}'


def results(_top, programs, only):
    """The name of each test, and what differs."""
    if only not in 'consoles/lines_are_coloured':
        return []
    differing = list(lines_are_coloured(programs))
    return [('consoles/lines_are_coloured', ['scripts/testing/consoles.py: lines_are_coloured', *(f'  {it}' for it in differing)] if differing else [])]
