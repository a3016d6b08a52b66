"""Tests of the stack: the most bytes that a call of the library takes."""
from c.logs import deep_log, deep_pool, timeouts_log, upload_log
from c.programs import EXAMPLES, run
from c.results import expect, read

# The most bytes of the stack: of making, preloading and ending a terminal, of what a display or a log window reads, and of an input.
STACKS = {'init': 16384, 'preload': 16384, 'done': 16384, 'screen': 16384, 'readings': 16384, 'words': 16384, 'hear': 98304, 'act': 98304, 'tick': 98304}


def measure(program, folder, text, pool=None):
    """The depths of the calls on a log."""
    paths = [f'{folder}/stack.log']
    with open(paths[0], 'w') as file:
        file.write(text)
    if pool is not None:
        with open(f'{folder}/stack.iop', 'wb') as file:
            file.write(pool)
        paths += [f'{folder}/stack.iop', '90']
    status, out, messages = run([program, *paths], folder)
    expect(status == 0, f'status {status}: {messages[-300:]!r}')
    return {name: int(depth) for name, depth in (line.split() for line in out.decode().splitlines())}


def stack_inputs():
    """The logs and pools of the measurement."""
    kinds, deep = read(f'{EXAMPLES}/kinds.iop'), deep_pool()
    yield read(f'{EXAMPLES}/seeder.log').decode(), None
    yield read(f'{EXAMPLES}/sprayer.log').decode(), read(f'{EXAMPLES}/sprayer.iop')
    yield upload_log(kinds, 'upload_by_etp').text(), kinds
    yield upload_log(read(f'{EXAMPLES}/sprayer.iop')[:1700], 'upload_by_tp').text(), read(f'{EXAMPLES}/dear-event.iop')
    yield upload_log(read(f'{EXAMPLES}/dear-event.iop'), 'upload_by_pieces').text(), read(f'{EXAMPLES}/more-faults.iop')
    yield deep_log(deep).text(), deep
    yield deep_log(deep_pool(33)).text(), deep_pool(33)
    yield upload_log(read(f'{EXAMPLES}/refusal-05-too-deep.iop'), 'upload_by_pieces').text(), None
    yield timeouts_log().text(), read(f'{EXAMPLES}/refusal-12-over-budget.iop')


def measured_stacks(program, folder):
    most = {}
    for text, pool in stack_inputs():
        for name, depth in measure(program, folder, text, pool).items():
            most[name] = max(most.get(name, 0), depth)
    return most


def check_stack(most, name):
    expect(most[name] <= STACKS[name], f'{most[name]} bytes, and the limit is {STACKS[name]}')
    return f'{most[name]} bytes of {STACKS[name]}'


def check_deep_pool(program, folder):
    """The deep pool is accepted, and its macros run."""
    with open(f'{folder}/deep.log', 'w') as file:
        file.write(deep_log(deep_pool()).text())
    status, out, _ = run([program, f'{folder}/deep.log'], folder)
    lines = out.decode().splitlines()
    expect(status == 0 and '14E68026#1200FFFFFFFF00FF' in lines, 'the pool is not accepted')
    expect('14E68026#BE000000FFFFFFFF' in lines, 'the macro does not run')
    expect('14E68026#000152C350C301FF' in lines, 'the key is not pressed')
    expect(sum(line.startswith('container ') for line in lines) >= 32, 'the containers are not drawn')


def test_stacks(tests, programs):
    program = programs.get('stack')
    tests.run('stack pool', check_deep_pool, programs.get('replay'), programs.folder)
    if not any(tests.only in f'stack of {name}' for name in STACKS):
        return
    most = measured_stacks(program, programs.folder)
    print(f'most bytes of the stack: {", ".join(f"{name} {depth}" for name, depth in most.items())}')
    for name in STACKS:
        tests.run(f'stack of {name}', check_stack, most, name)
