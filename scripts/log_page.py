#!/usr/bin/env python3
"""Tests of the page of `segyolant_log report` in headless Chromium: log_page.py PROGRAM [--pages FOLDER] [--shots FOLDER] [--only TEST ..]

PROGRAM makes the pages from logs of examples/ and from logs that are made here. With --pages they are taken from a folder, as NAME.html
with the names of LOGS, and PROGRAM --logs FOLDER only writes the logs. --shots keeps pictures of the pages, and --only runs
some of the tests, as Field.test_play. Where Chromium or selenium is not there, the tests are passed over, and what is missing is named.
The last line is 'N passed, N failed'.
"""
import os
import re
import struct
import subprocess
import sys
import tempfile
import time
import unittest

sys.dont_write_bytecode = True

TOP = os.path.dirname(os.path.dirname(os.path.abspath(__file__)))
sys.path[:0] = [f'{TOP}/scripts', f'{TOP}/bindings/python']

from desk_tests import pools  # noqa: E402
from testing import browser  # noqa: E402
from testing.browser import EXAMPLES, WORDS, WithPage  # noqa: E402

PAGE = f'{TOP}/crates/log_page/page'
LONG = 50_000
IMG = '</script><img src=x onerror=window.hacked=20>'


# ---- logs

class Log:
    """Lines of a log between an implement at 80 and a terminal at 26."""

    def __init__(self, start=1.0, pause=0.01):
        self.now, self.pause, self.lines = start, pause, []

    def put(self, identifier, data):
        self.lines.append(f'({self.now:.6f}) can0 {identifier}#{data.hex().upper()}')
        self.now += self.pause

    def say(self, message):
        """A message of the implement, in packets if it is long."""
        if len(message) <= 8:
            self.put('14E72680', message.ljust(8, b'\xff'))
            return
        packets = [message[at:at + 7].ljust(7, b'\xff') for at in range(0, len(message), 7)]
        size = struct.pack('<H', len(message))
        self.put('1CEC2680', b'\x10' + size + bytes([len(packets), 0xFF]) + b'\x00\xe7\x00')
        self.put('1CEC8026', bytes([0x11, len(packets), 1]) + b'\xff\xff\x00\xe7\x00')
        for number, packet in enumerate(packets, 1):
            self.put('1CEB2680', bytes([number]) + packet)
        self.put('1CEC8026', b'\x13' + size + bytes([len(packets), 0xFF]) + b'\x00\xe7\x00')

    def upload(self, pool):
        self.put('18EEFF80', bytes.fromhex('0500000000001E20'))
        self.put('18FE0D80', b'\x01' + b'\xff' * 7)
        self.say(b'\xff\x01')
        for at in range(0, len(pool), 1700):
            self.say(b'\x11' + pool[at:at + 1700])
        self.say(b'\x12')

    def text(self):
        return '\n'.join(self.lines) + '\n'


def change_string(object, value):
    return b'\xb3' + struct.pack('<HH', object, len(value)) + value


def hostile():
    """A log whose every text is markup: the pool's, the label of a stored pool, new values, and a pool that is refused."""
    log = Log()
    log.upload(pools.hostile())
    log.say(b'\xd1<b>hi</')
    log.say(change_string(3003, IMG.encode()))
    log.say(b'\x11' + pools.text(3000, IMG.encode())[:20])
    log.say(b'\x12')
    return f'# a comment {IMG}\nrubbish {IMG}\n(0.500000) can0 20000080#0000000000000000\n{log.text()}! press 2001\n! press 2001\n'


def long():
    """A log of many lines at dates of a calendar, with a screen for each tenth and a step back of the clock."""
    log = Log(start=1_700_000_000.0, pause=0.02)
    log.upload(pools.plain())
    for number in range(LONG - len(log.lines)):
        if number == LONG // 2:
            log.now -= 60
        log.say(b'\xff\x01' if number % 10 else b'\xb3' + struct.pack('<HH', 3000, 3) + b'%03d' % (number // 10 % 1000))
    return log.text()


def example(name):
    with open(f'{EXAMPLES}/{name}') as file:
        return file.read()


def field():
    """The log of examples/ on one interface, so that no frame is twice."""
    return ''.join(line for line in example('field.log').splitlines(True) if ' can0 ' in line)


def other():
    """The log of a cab, of which one answer was changed and another one removed."""
    return ''.join(line for line in example('cab.log').replace('#A064000000', '#A064000002').splitlines(True) if '(6.013000)' not in line)


# The logs by the names of their pages: the name of the file, what is in it, and the words of the program.
LOGS = {
    'field': ('field.log', field, ['--names', f'{EXAMPLES}/sprayer.h']),
    'part': ('part.log', field, ['--from', '405', '--to', '420']),
    'other': ('other.log', other, []),
    'sprayer': ('sprayer.log', lambda: example('sprayer.log'), ['--pool', f'{EXAMPLES}/sprayer.iop']),
    'nothing': ('nothing.log', lambda: '(1.000000) can0 18EEFF90#0500000000001E20\n', []),
    'hostile': ('<img src=x onerror=window.hacked=21>.log', hostile, []),
    'long': ('long.log', long, []),
}


# Those in which the recorded terminal tells what the operator did: they are read with the operator's actions.
OPERATED = {'field', 'part', 'other'}


def write_logs(program, folder):
    for name, (file, text, _) in LOGS.items():
        os.makedirs(f'{folder}/{name}', exist_ok=True)
        with open(f'{folder}/{name}/{file}', 'w') as out:
            out.write(text())
        if name in OPERATED:
            ran = subprocess.run([program, 'operator', file], cwd=f'{folder}/{name}', capture_output=True, text=True, check=True)
            with open(f'{folder}/{name}/{file}', 'w') as out:
                out.write(ran.stdout)


# ---- the page

class WithLog(WithPage):
    """Opens the page of a log."""

    def line(self):
        """The line of the cursor."""
        return self.script('return model.entries[cursor.index].line')

    def words(self):
        """The words of the lines that are in the page."""
        return self.texts('.row.line .words')

    def picture(self):
        """The source of the picture, once it is drawn."""
        is_drawn = 'const it = document.getElementById("picture"); return !it.hidden && it.complete && it.naturalWidth > 0'
        self.until(lambda: self.script(is_drawn), 'the picture')
        return self.script('return document.getElementById("picture").src')

    def point(self, lane, at):
        """A place in a lane of the time line, from the middle of the canvas."""
        return self.script('''const { top, height } = lanes.get(arguments[0]);
            const place = [xOf(arguments[1]) - canvas.clientWidth / 2, top + height / 2 - canvas.clientHeight / 2];
            return place.map(Math.round)''', lane, at)

    def pointer(self):
        from selenium.webdriver.common.action_chains import ActionChains
        return ActionChains(self.browser.driver, duration=20), self.browser.driver.find_element('id', 'timeline')


class Form(unittest.TestCase):
    """The files of the page: each is a text of the program, so it has no quote, no backslash and only ASCII."""

    def test_the_files(self):
        browser.look_at_files(self, PAGE)


class Field(WithLog):
    def setUp(self):
        super().setUp()
        self.open('field')

    def test_the_header(self):
        self.assertEqual(self.text('#log'), 'field.log')
        self.assertEqual(self.texts('.chip'), ['no differences', '1 refused pool', '1 broken transfer', '1 gap'])
        self.shot('field')

    def test_the_picture_is_shown(self):
        self.assertTrue(self.picture().startswith('data:image/svg+xml,'))
        self.assertEqual(self.text('#shown'), 'set 80, Data Mask 1000 `mask_work`')

    def test_screens_by_keys(self):
        from selenium.webdriver.common.keys import Keys
        self.press(Keys.HOME)
        self.assertEqual(self.line(), 1)
        self.assertTrue(self.script('return document.getElementById("picture").hidden'))
        self.assertEqual(self.text('#nothing'), 'Nothing is shown at this line.')
        seen, lines = [], []
        for _ in range(9):
            self.press(Keys.ARROW_RIGHT)
            seen.append(self.picture())
            lines.append(self.line())
        self.assertEqual(lines, sorted(set(lines)))
        self.assertEqual(len(set(seen)), 8)
        self.press(Keys.ARROW_RIGHT)
        self.assertEqual(self.text('#note'), 'This is the last screen.')
        self.press(Keys.ARROW_LEFT)
        self.assertEqual((self.line(), self.picture()), (lines[-2], seen[-2]))

    def test_lines_by_keys(self):
        from selenium.webdriver.common.keys import Keys
        self.press(Keys.HOME, Keys.ARROW_DOWN, Keys.ARROW_DOWN)
        self.assertEqual(self.line(), 3)
        self.press(Keys.ARROW_UP)
        self.assertEqual(self.line(), 2)
        self.press(Keys.END)
        last = self.script('return model.entries.at(-1).line')
        self.assertEqual(self.line(), last)
        self.assertEqual(self.texts('.row.lit .number'), [str(last)])

    def test_a_line_opens(self):
        from selenium.webdriver.common.keys import Keys
        self.script('moveTo(0); stepScreen(1)')
        self.press(Keys.ENTER)
        self.assertTrue(any('End of Object Pool: accepted' in text for text in self.texts('.row.output')))
        self.assertEqual(self.texts('.row.removed'), ['- screen none'])
        self.assertIn('+ screen 80 mask 1000', self.texts('.row.added'))
        self.shot('line-open')
        self.press(Keys.ENTER)
        self.assertEqual(self.texts('.row.output'), [])
        self.click('.row.lit .toggle')
        self.assertEqual(self.texts('.row.removed'), ['- screen none'])

    def test_play(self):
        from selenium.webdriver.common.keys import Keys
        self.click('#speeds button:last-child')
        self.press(Keys.HOME, ' ')
        self.assertEqual(self.text('#play'), 'Pause')
        self.until(lambda: self.text('#play') == 'Play', 'the end', 10)
        self.assertEqual(self.line(), self.script('return model.entries.at(-1).line'))
        self.press(Keys.HOME, ' ')
        self.until(lambda: self.line() > 20, 'some lines')
        self.press(' ')
        line = self.line()
        time.sleep(0.2)
        self.assertEqual((self.text('#play'), self.line()), ('Play', line))

    def test_the_time_line(self):
        at = self.script('return model.screens[4].from + 50000')
        pointer, canvas = self.pointer()
        pointer.move_to_element_with_offset(canvas, *self.point('screens', at)).click().perform()
        self.assertTrue(self.script('return screenAt(cursor.index) === model.screens[4]'))
        whole = self.script('return view.to - view.from')
        pointer, canvas = self.pointer()
        pointer.move_to_element_with_offset(canvas, *self.point('seconds', at - 1e6)).click_and_hold()
        pointer.move_to_element_with_offset(canvas, *self.point('seconds', at + 1e6)).release().perform()
        self.assertAlmostEqual(self.script('return view.to - view.from') / 1e6, 2, delta=0.1)
        self.shot('zoomed')
        self.script('canvas.dispatchEvent(new WheelEvent("wheel", { deltaY: 300, cancelable: true }))')
        self.assertGreater(self.script('return view.to - view.from'), 2.5e6)
        pointer, canvas = self.pointer()
        pointer.move_to_element_with_offset(canvas, *self.point('seconds', at)).double_click().perform()
        self.assertEqual(self.script('return view.to - view.from'), whole)
        pointer, canvas = self.pointer()
        pointer.move_to_element_with_offset(canvas, *self.point('gaps', at)).perform()
        self.assertIn('no VT Status of 26 for 6.239 s', self.text('#tip'))
        self.shot('tip')

    def test_search_and_filters(self):
        from selenium.webdriver.common.keys import Keys
        self.press('/', 'hide/show')
        self.until(lambda: len(self.words()) == 2, 'two lines')
        self.assertEqual(self.texts('mark'), ['Hide/Show', 'Hide/Show'])
        self.press(Keys.HOME)
        self.press(Keys.ENTER)
        first = self.line()
        self.press(Keys.ENTER)
        self.assertEqual(self.line(), first + 1)
        self.press(Keys.ESCAPE, '/', 'A072010000')
        self.until(lambda: len(self.words()) == 2, 'the command and its answer')
        self.assertIn('A072010000', self.text('.row.output mark').upper())
        self.press(Keys.ESCAPE, '/', 'no such words')
        self.until(lambda: self.words() == [], 'no line')
        self.assertIn('No line is as the search', self.text('#rows'))
        self.press(Keys.ESCAPE)
        self.click('[data-filter=operator]')
        self.assertTrue(all(text.startswith('operator: ') for text in self.words()))
        self.click('[data-filter=commands]')
        self.assertTrue(any('Change Numeric Value' in text for text in self.words()))
        self.shot('filtered')
        self.click('[data-filter=operator]')
        self.click('[data-filter=commands]')
        few = self.script('return trace.rows.length')
        self.click('#hide-packets')
        self.assertEqual(self.script('return trace.rows.length'), self.script('return model.entries.length'))
        self.assertLess(few, self.script('return model.entries.length') / 4)

    def test_keys_are_typed_into_the_search(self):
        line = self.line()
        self.press('/', 'd g ?')
        self.assertEqual((self.script('return document.getElementById("search").value'), self.line()), ('d g ?', line))

    def test_the_pools(self):
        self.click('.chip.bad')
        self.assertEqual(self.line(), self.script('return model.uploads[2].last_line'))
        self.assertIn('refused 3 Missing 1000 100', self.text('article h3.bad'))
        self.assertIn('child 0 names object 100 `font_title`', self.text('article li'))
        self.click('article h3.good')
        self.assertEqual(self.line(), self.script('return model.uploads[3].last_line'))

    def test_the_numbers(self):
        self.click('#tab-numbers')
        self.assertIn('no VT Status of 26', self.text('#gaps'))
        self.assertIn('9.4 %', self.text('#load'))
        self.assertEqual(len(self.texts('.bars i')), len(self.script('return model.seconds')))
        self.shot('numbers')
        self.press('g')
        self.assertEqual(self.line(), self.script('return model.gaps[0].longest.first_line'))

    def test_the_help(self):
        self.press('?')
        self.assertTrue(self.script('return document.getElementById("help").open'))
        self.shot('help')
        self.click('#help button')
        self.assertFalse(self.script('return document.getElementById("help").open'))

    def test_sizes(self):
        for width, height in [(1280, 800), (1280, 680), (1024, 768), (1920, 1080)]:
            self.browser.size(width, height)
            self.assertLessEqual(self.script('return document.documentElement.scrollWidth'), width)
            self.assertGreater(self.script('return document.getElementById("picture").clientHeight'), 120)
            self.shot(f'size-{width}-{height}')

    def test_print(self):
        self.browser.size(794, 1123, 'print')
        for selector, is_seen in [('header', True), ('#differences', True), ('#pools-panel', True), ('main', False), ('#time', False)]:
            self.assertEqual(self.script('return document.querySelector(arguments[0]).checkVisibility()', selector), is_seen, selector)
        self.shot('print')


class Differences(WithLog):
    def setUp(self):
        super().setUp()
        self.open('other')
        self.lines = self.script('return model.differences.map(each => each.line)')

    def test_keys(self):
        from selenium.webdriver.common.keys import Keys
        self.assertEqual(len(self.lines), 2)
        self.press(Keys.HOME, 'd')
        self.assertEqual(self.line(), self.lines[0])
        self.press('d')
        self.assertEqual(self.line(), self.lines[1])
        self.press('D')
        self.assertEqual(self.line(), self.lines[0])
        self.press('D')
        self.assertEqual((self.line(), self.text('#note')[:19]), (self.lines[1], 'There is no differe'))

    def test_the_table(self):
        self.assertEqual(self.texts('.chip')[0], '2 differences')
        self.assertEqual(self.texts('#differences td:first-child'), [str(line) for line in sorted(self.lines)])
        self.click('.chip')
        self.assertEqual(self.line(), self.lines[0])
        self.click('#differences tbody tr:nth-child(2)')
        self.assertEqual(self.line(), self.lines[1])
        self.assertEqual(len(self.texts('#differences tr.lit')), 1)
        self.assertIn('refused: the object is not there or of another kind', self.text('#differences'))
        self.shot('differences')

    def test_both_messages_are_in_the_trace(self):
        self.press('d')
        self.click('[data-filter=differences]')
        rows = self.texts('.row')
        self.assertTrue(any(row.startswith('this terminal: A064000000FFFFFF done') for row in rows), rows)
        self.assertTrue(any('A064000002FFFFFF refused' in row for row in rows), rows)
        self.assertEqual(len(self.words()), 3)


class Others(WithLog):
    def setUp(self):
        super().setUp()
        folder = tempfile.TemporaryDirectory()
        self.addCleanup(folder.cleanup)
        self.folder = folder.name

    def test_a_log_with_a_pool_of_its_own(self):
        self.open('sprayer')
        self.picture()
        self.assertEqual(self.texts('.chip')[0], 'nothing compared')
        self.assertIn('No pool is uploaded in this log.', self.text('#pools-panel'))
        self.shot('sprayer')

    def test_a_log_without_anything(self):
        self.open('nothing')
        self.assertIn('no message of a terminal at 26', self.text('#differences'))
        self.assertIn('no pool was accepted', self.text('#nothing'))
        self.press('d', 'g', ' ')
        self.assertEqual(self.text('#note'), 'There is no gap in this log.')
        self.shot('nothing')

    def test_a_hostile_log(self):
        self.open('hostile')
        self.picture()
        self.script('for (const entry of model.entries) trace.open.add(entry); refill()')
        for name in ('differences', 'pools', 'numbers'):
            self.click(f'#tab-{name}')
        self.shot('hostile')
        for row in range(0, self.script('return trace.rows.length'), 15):
            self.script('list.scrollTop = arguments[0] * ROW; drawRows()', row)
        # all that the page has by itself is one picture
        self.assertEqual(self.script('return document.querySelectorAll("img, iframe, object, embed, svg, b").length'), 1)
        self.assertEqual(self.script('return Object.keys(window).filter(name => name === "hacked")'), [])
        self.assertEqual(self.text('#log'), LOGS['hostile'][0])
        self.assertTrue(self.script('return model.entries.some(entry => entry.words.includes(arguments[0]))', IMG))
        self.assertTrue(self.script('return model.entries.some(entry => entry.added.some(line => line.includes(arguments[0])))', IMG))

    def test_lines_without_a_message(self):
        self.open('hostile')
        self.script('moveTo(0)')
        self.assertTrue(all(re.match('faulty|skipped|rubbish|#', words) for words in self.texts('.row.other .words')))
        self.assertGreater(len(self.texts('.row.other')), 1)
        self.click('#tab-numbers')
        self.assertIn('1 error frame passed over, the first at line 3', self.text('#clock-steps'))

    def test_an_action_that_is_refused(self):
        from selenium.webdriver.common.keys import Keys
        self.open('hostile')
        self.press(Keys.END, Keys.ENTER)
        self.assertIn('operator: refused 7 Held  a key is held already, and has to', ' '.join(self.texts('.row.output.refused')))

    def test_a_part_of_a_log(self):
        from selenium.webdriver.common.keys import Keys
        self.open('part')
        self.picture()
        self.press(Keys.END)
        self.assertEqual(self.line(), 420)
        self.press(Keys.HOME)
        self.assertEqual(self.line(), 405)
        self.click('.chip.bad')
        self.assertEqual(self.line(), 405)
        self.assertEqual(len(self.texts('.leads h3, h3.leads')), 0)
        self.assertIn('(not among the lines of this page)', self.text('article h3.bad'))
        self.assertEqual(self.script('return marks.filter(mark => mark.lane === "uploads").length'), 0)
        self.assertEqual(self.script('return marks.filter(mark => mark.lane === "gaps").length'), 1)
        self.shot('part')

    def test_a_page_that_was_cut_off(self):
        with open(f'{WORDS.pages}/field.html') as whole, open(f'{self.folder}/cut.html', 'w') as cut:
            cut.write(whole.read()[:60000])
        self.browser.driver.get(f'file://{self.folder}/cut.html')
        self.assertIn('the file was cut off', self.script('return document.body.innerText'))

    def test_a_page_with_parts_left_out(self):
        with open(f'{WORDS.pages}/field.html') as whole, open(f'{self.folder}/less.html', 'w') as less:
            text = re.sub('"(lines|screens)_left_out":0', r'"\1_left_out":12', whole.read())
            less.write(re.sub(r'"picture":\d+', '"picture":null', text))
        self.browser.driver.get(f'file://{self.folder}/less.html')
        self.assertIn('12 lines left out of this page, 12 screens left out of this page', self.text('#span'))
        self.press('d')
        self.script('moveTo(model.entries.length - 1)')
        self.assertEqual(self.text('#nothing'), 'There is no picture of this screen.')
        self.assertTrue(self.text('#since').endswith('(10 of 10, later ones are left out)'))

    def test_a_long_log(self):
        from selenium.webdriver.common.keys import Keys
        begun = time.monotonic()
        self.open('long')
        self.assertLess(time.monotonic() - begun, 20)
        self.assertGreater(self.script('return model.entries.length'), LONG * 0.99)
        self.press(Keys.END)
        self.assertEqual(self.texts('.row.lit .number'), [str(self.script('return model.entries.at(-1).line'))])
        self.assertLess(len(self.words()), 100)
        self.assertIn('2023-11-14 22:13:20 UTC', self.text('#span'))
        self.picture()
        for does, most in [('for (let k = 0; k < 20; k += 1) moveTo(k * 2000)', 2000), ('drawTimeline()', 500), ('refill()', 1000)]:
            took = self.script(f'const begun = performance.now(); {does}; return performance.now() - begun')
            self.assertLess(took, most, does)
        self.shot('long')

    def test_the_page_may_not_use_the_network(self):
        self.open('field')
        refused = self.browser.driver.execute_async_script(
            'const told = arguments[0]; fetch("http://127.0.0.1:9/").then(() => told("asked"), () => told("refused"))')
        self.assertEqual(refused, 'refused')
        self.assertTrue(all('Content Security Policy' in message for message in self.browser.said()))


# ---- the run

def make_pages(program, folder):
    """Writes the logs and makes their pages by the program."""
    write_logs(program, folder)
    for name, (file, _, words) in LOGS.items():
        ran = subprocess.run([program, 'report', file, *words], cwd=f'{folder}/{name}', capture_output=True)
        if not ran.stdout.startswith(b'<!DOCTYPE html>'):
            sys.exit(f'{program} report {file}: status {ran.returncode}, {ran.stderr.decode()}')
        with open(f'{folder}/{name}.html', 'wb') as out:
            out.write(ran.stdout)


def main():
    if '--logs' in sys.argv:
        at = sys.argv.index('--logs')
        return write_logs(os.path.abspath(sys.argv[1]), sys.argv[at + 1])
    return browser.main(sys.modules[__name__], make_pages)


if __name__ == '__main__':
    sys.exit(main())
