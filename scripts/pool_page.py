#!/usr/bin/env python3
"""Tests of the page of `segyolant report` in headless Chromium: pool_page.py PROGRAM [--pages FOLDER] [--shots FOLDER] [--only TEST ..]

PROGRAM makes the pages from pools of examples/ and from pools that are made here. With --pages they are taken from a folder, as NAME.html
with the names of POOLS. --shots keeps pictures of the pages, and --only runs some of the tests, as Sprayer.test_zoom. Where Chromium or
selenium is not there, the tests are passed over, and what is missing is named. The last line is 'N passed, N failed'.
"""
import json
import os
import re
import subprocess
import sys
import tempfile
import time
import unittest
from struct import pack

sys.dont_write_bytecode = True

TOP = os.path.dirname(os.path.dirname(os.path.abspath(__file__)))
sys.path[:0] = [f'{TOP}/scripts', f'{TOP}/bindings/python']

from desk_tests import pools  # noqa: E402
from testing import browser  # noqa: E402
from testing.browser import EXAMPLES, WORDS, WithPage  # noqa: E402

PAGE = f'{TOP}/crates/check_page/page'
IMG = '</script><img src=x onerror=window.hacked=20>'
HOSTILE_NAMES = f'3000,{IMG}\n1000,<b>work</b>\n2001,"><svg onload=window.hacked=21>\n2000,&lt;i&gt;\n'


# ---- pools

def example(name):
    with open(f'{EXAMPLES}/{name}', 'rb') as file:
        return file.read()


def number_variable(id):
    return pack('<HBI', id, 21, 0)


def large():
    """A pool with more masks than a page has, and with many keys."""
    masks = [pools.mask(id=1000 + k) for k in range(210)]
    keys = [pools.key(4000 + k) for k in range(400)]
    key_masks = [pack('<HBBBB', 2000 + k, 4, 7, 200, 0) + b''.join(pack('<H', 4000 + 200 * k + each) for each in range(200)) for k in range(2)]
    return b''.join([pools.working_set(), *masks, *key_masks, *keys, *map(number_variable, range(10_000, 10_400))])


def deep():
    """A pool with a hidden Container, a pointer to a key, two masks with the same object, and a child far outside."""
    def container(id, hidden, *inside):
        return pack('<HBHHBBB', id, 3, 100, 40, hidden, len(inside), 0) + pools.children(*inside)

    def pointer(id, to):
        return pack('<HBH', id, 27, to)
    return b''.join([
        pools.working_set((3000, 0, 0)), pools.font(), pools.text(3000, b'two places'), pools.text(3001, b'hidden'), pools.text(3002, b'far', width=9),
        container(3100, 1, (3001, 0, 0)), container(3101, 0, (3000, 0, 0), (3002, 30_000, -30_000)),
        pools.mask((3000, 4, 4), (3101, 4, 40), (3100, 4, 100), (3000, 4, 200), keys=2000), pools.mask((3000, 9, 9), id=1001),
        pools.key(2001), pack('<HBBBB', 2000, 4, 7, 2, 0) + pack('<HH', 3200, 2001), pointer(3200, 2001),
    ])


# The pools by the names of their pages: the name of the file, what is in it, and the words of the program.
POOLS = {
    'sprayer': ('sprayer.iop', lambda: example('sprayer.iop'), ['--names', f'{EXAMPLES}/sprayer.h']),
    'faults': ('many-faults.iop', lambda: example('many-faults.iop'), []),
    'kinds': ('kinds.iop', lambda: example('kinds.iop'), ['--names', f'{EXAMPLES}/kinds.h']),
    'small': ('small.iop', lambda: example('sprayer.iop'), ['--size', '240x240', '--key-size', '50x50', '--keys', '2']),
    'cut': ('cut.iop', lambda: example('fault-1-truncated.iop'), []),
    'circle': ('circle.iop', lambda: example('refusal-11-macro-circle.iop'), []),
    'dear': ('dear.iop', lambda: example('dear-event.iop'), []),
    'empty': ('empty.iop', lambda: b'', []),
    'deep': ('deep.iop', deep, []),
    'hostile': ('<img src=x onerror=window.hacked=22>.iop', pools.hostile, ['--names', 'names.csv']),
    'large': ('large.iop', large, []),
}
ERRORS = {'faults', 'cut', 'circle', 'dear', 'empty'}


def make_pages(program, folder):
    """Writes the pools and makes their pages by the program."""
    for name, (file, pool, words) in POOLS.items():
        os.makedirs(f'{folder}/{name}', exist_ok=True)
        with open(f'{folder}/{name}/{file}', 'wb') as out:
            out.write(pool())
        with open(f'{folder}/{name}/names.csv', 'w') as out:
            out.write(HOSTILE_NAMES)
        ran = subprocess.run([program, 'report', file, *words], cwd=f'{folder}/{name}', capture_output=True)
        if not ran.stdout.startswith(b'<!DOCTYPE html>') or ran.returncode != (1 if name in ERRORS else 0):
            sys.exit(f'{program} report {file}: status {ran.returncode}, {ran.stderr.decode()}')
        for end, text in (('html', ran.stdout), ('told', ran.stderr)):
            with open(f'{folder}/{name}.{end}', 'wb') as out:
                out.write(text)


# ---- the files and the data

class Form(unittest.TestCase):
    """The files of the page: each is a text of the program, so it has no quote, no backslash and only ASCII."""

    def test_the_files(self):
        browser.look_at_files(self, PAGE)


class Data(unittest.TestCase):
    """The data of a page are the lines that the other subcommands print."""

    def setUp(self):
        if WORDS.program is None:
            self.skipTest('the pages were made before')

    def printed(self, name, *words, subcommand):
        file, _, options = POOLS[name]
        ran = subprocess.run([os.path.abspath(WORDS.program), subcommand, file, *options, *words], cwd=f'{WORDS.pages}/{name}', capture_output=True)
        return ran.stdout.decode()

    def block(self, name, block):
        with open(f'{WORDS.pages}/{name}.html', encoding='utf-8') as file:
            text = re.search(f"<script type='application/json' id='{block}'>\n(.*?)</script>", file.read(), re.S)[1]
        self.assertNotIn('<', text)
        return [json.loads(line) for line in text.splitlines()]

    def lines(self, text):
        return sorted(json.dumps(json.loads(line), sort_keys=True) for line in text.splitlines())

    def told(self, name, block):
        return sorted(json.dumps(line, sort_keys=True) for line in self.block(name, block))

    def test_findings(self):
        for name in ('sprayer', 'faults', 'kinds', 'small', 'cut', 'circle', 'empty', 'hostile'):
            self.assertEqual(self.told(name, 'findings'), self.lines(self.printed(name, '--format', 'json', '--isolated', subcommand='check')), name)

    def test_costs(self):
        for name in ('sprayer', 'dear', 'hostile'):
            self.assertEqual(self.told(name, 'costs'), self.lines(self.printed(name, '--format', 'json', subcommand='why')), name)

    def test_needs(self):
        for name in ('sprayer', 'faults', 'kinds', 'hostile'):
            self.assertEqual(self.told(name, 'needs'), self.lines(self.printed(name, '--format', 'json', subcommand='needs')), name)

    def test_pictures(self):
        for name in ('sprayer', 'small', 'hostile'):
            for mask in self.block(name, 'masks'):
                file, _, options = POOLS[name]
                words = [word for word in options if word not in ('--keys', '2')]
                ran = subprocess.run([os.path.abspath(WORDS.program), 'draw', file, *words, '--mask', str(mask['id'])], cwd=f'{WORDS.pages}/{name}', capture_output=True)
                self.assertEqual(mask['svg'], ran.stdout.decode().rstrip('\n'))

    def test_objects(self):
        objects = {line['id']: line for line in self.block('sprayer', 'objects')}
        self.assertEqual(len(objects), 76)
        self.assertEqual(objects[321], {'at': 416, 'id': 321, 'kind': 'Output Number', 'name': 'value_Rate', 'references': [[102, 'font'], [200, 'variable']]})
        self.assertIn([10, 'macro entry 0 (key press)'], objects[2002]['references'])
        self.assertIn([370, 'Hide/Show Object (A0) at byte 0'], objects[10]['references'])
        self.assertEqual(objects[311]['text'].strip(), 'SPRAYER 24 m')

    def test_what_is_left_out(self):
        about = self.block('large', 'about')[0]
        left = {name: about[f'{name}_left_out'] for name in ('masks', 'keys', 'objects', 'findings', 'events')}
        self.assertEqual(left, {'masks': 10, 'keys': 0, 'objects': 0, 'findings': 0, 'events': 0})
        with open(f'{WORDS.pages}/large.told') as file:
            self.assertEqual(file.read().splitlines(), [f'segyolant: large.iop: {number} {name} are left out of the page'
                                                        for name, number in left.items() if number > 0])


# ---- the page

class WithPool(WithPage):
    """Opens the page of a pool."""

    def chosen(self):
        return self.script('return choice.id')

    def frames(self, kind='chosen'):
        """The frames of a kind: of each the mask, and its place and size in pixels of the mask."""
        return self.script('''return [...document.querySelectorAll(`.frame.${arguments[0]}`)].map(frame => [
            Number(frame.closest('figure').id.slice(5)), ...['--x', '--y', '--fw', '--fh'].map(name => Number(frame.style.getPropertyValue(name)))])''', kind)

    def is_in_sight(self, selector):
        return self.script('return isInSight(document.querySelector(arguments[0]))', selector)

    def in_mask(self, mask, x, y):
        """A pointer at a place of a mask's picture."""
        from selenium.webdriver.common.action_chains import ActionChains
        at = self.script('''const [mask, x, y] = arguments, { box } = figures.get(mask), outer = pictures.getBoundingClientRect();
            const point = () => { const { left, top } = box.getBoundingClientRect(); return [left + x * zoom, top + y * zoom]; };
            if (point()[0] < outer.left || point()[0] > outer.right - 20) pictures.scrollLeft += point()[0] - outer.left - outer.width / 2;
            if (point()[1] < outer.top || point()[1] > outer.bottom - 20) pictures.scrollTop += point()[1] - outer.top - outer.height / 2;
            return point().map(Math.round);''', mask, x, y)
        chain = ActionChains(self.browser.driver, duration=20)
        chain.w3c_actions.pointer_action.move_to_location(*at)
        return chain


class Sprayer(WithPool):
    def setUp(self):
        super().setUp()
        self.open('sprayer')

    def test_the_header(self):
        self.assertEqual(self.text('#pool'), 'sprayer.iop')
        self.assertEqual(self.text('#span'), '76 objects, 2,544 bytes, 2 masks, 3 keys')
        self.assertEqual(self.texts('.head-chip'), ['no errors', '2 warnings', 'fits 480x480'])
        self.shot('sprayer')

    def test_masks_are_drawn(self):
        self.until(lambda: len(self.script('return document.querySelectorAll(".picture > svg")')) == 2, 'two masks')
        self.assertEqual(self.script('return document.querySelectorAll("#mask-1000 svg [data-id]").length'), self.script('return model.masks[0].elements.length'))
        # each reference in a picture is to something in this picture
        self.assertEqual(self.script('''return [...document.querySelectorAll('svg [href]')].filter(use =>
            use.closest('.picture, .key').querySelector(use.getAttribute('href')) === null).length'''), 0)

    def test_hover(self):
        self.in_mask(1000, 60, 90).perform()
        self.assertEqual(self.text('#tip'), 'Output Number 321 `value_Rate`, 130x36 at 12,74')
        self.assertEqual(self.frames('hover'), [[1000, 12, 74, 130, 36]])
        self.in_mask(1000, 240, 180).perform()
        self.assertEqual(self.text('#tip'), 'Data Mask 1000 `mask_work`')
        self.in_mask(1000, 500, 90).perform()
        self.assertIn('keybox_1', self.text('#tip'))
        self.shot('hover')

    def test_a_click_on_an_object(self):
        self.click('#tab-objects')
        self.in_mask(1000, 60, 370).click().perform()
        self.assertEqual(self.chosen(), 361)
        self.in_mask(1000, 60, 280).click().perform()
        self.assertEqual(self.chosen(), 350)
        self.assertEqual(self.frames(), [[1000, 12, 270, 200, 12]])
        self.assertIn('350Output Stringin_label', self.text('.row.lit'))
        self.assertIn('at byte 663 (0x297)', self.text('#inspector'))
        self.assertIn('W03 ', self.text('#inspector .told'))
        self.click('#tab-findings')
        self.assertIn('Output String 350', self.text('.finding.lit'))
        self.shot('object')

    def test_a_click_on_a_finding(self):
        self.script('pictures.scrollTop = 99999')
        self.click('.code:nth-child(2) .finding')
        self.assertEqual(self.chosen(), 370)
        self.assertEqual(self.frames(), [[1000, 120, 350, 220, 44]])
        # and the child that reaches out
        self.assertEqual(self.frames('other'), [[1000, 120, 388, 300, 1]])
        self.assertTrue(self.is_in_sight('.frame.chosen'))
        self.shot('finding')

    def test_findings_by_keys(self):
        from selenium.webdriver.common.keys import Keys
        self.press('f')
        self.assertEqual(self.chosen(), 350)
        self.press('f')
        self.assertEqual(self.chosen(), 370)
        self.press('f')
        self.assertEqual(self.text('#note'), 'This is the last finding.')
        self.press('F')
        self.assertEqual(self.chosen(), 350)
        self.script('document.querySelector(".finding").focus()')
        self.press(Keys.ARROW_DOWN)
        self.assertEqual(self.chosen(), 370)
        self.press(Keys.ARROW_UP, Keys.ENTER)
        self.assertEqual(self.chosen(), 350)
        self.press(Keys.ESCAPE)
        self.assertIsNone(self.chosen())
        self.assertEqual(self.frames(), [])

    def test_elements_by_keys(self):
        from selenium.webdriver.common.keys import Keys
        self.script('document.querySelector("#mask-1000 .picture").focus()')
        seen = []
        for _ in range(4):
            self.press(Keys.ARROW_RIGHT)
            seen.append(self.chosen())
        self.assertEqual(seen, self.script('return model.masks[0].elements.slice(0, 4).map(element => element.id)'))
        self.press(Keys.ARROW_LEFT)
        self.assertEqual(self.chosen(), seen[2])
        self.assertIn(f'{seen[2]}', self.script('return document.activeElement.getAttribute("aria-label")'))

    def test_search(self):
        from selenium.webdriver.common.keys import Keys
        self.press('/', 'rate')
        self.assertEqual(self.script('return found.map(object => object.name)'), ['v_rate', 'label_Rate', 'value_Rate', 'unit_Rate', 'in_label', 'in_rate'])
        self.assertEqual(self.text('#count'), '6 of 76')
        self.press(Keys.ENTER)
        self.assertEqual(self.chosen(), 200)
        self.press(Keys.ARROW_DOWN)
        self.assertEqual(self.chosen(), 320)
        self.shot('search')
        self.press(Keys.ESCAPE, '/', '32')
        self.assertEqual(self.script('return found.map(object => object.id)'), [320, 321, 322, 323, 324, 325])
        self.press(Keys.ESCAPE, '/', 'output string menu')
        self.assertEqual(self.script('return found.map(object => object.name)'), ['keytext_menu'])
        self.press(Keys.ESCAPE, '/', 'no such words')
        self.assertIn('No object is as the search asks', self.text('#rows'))
        self.press(Keys.ESCAPE)
        self.assertEqual(self.text('#count'), '76')
        # keys are typed into the search
        self.press('/', 'f m 1')
        self.assertEqual(self.script('return document.getElementById("search").value'), 'f m 1')

    def test_the_filter(self):
        self.click('#tab-objects')
        for value, ids in [('findings', [350, 370]), ('errors', []), ('Button', [360])]:
            self.script('const it = document.getElementById("filter"); it.value = arguments[0]; it.onchange()', value)
            self.assertEqual(self.script('return found.map(object => object.id)'), ids)
        # what is chosen elsewhere is shown in the list
        self.script('choose(321)')
        self.assertIn('321Output Number', self.text('.row.lit'))

    def test_the_list_by_keys(self):
        from selenium.webdriver.common.keys import Keys
        self.press('2')
        self.script('list.focus()')
        self.press(Keys.END)
        self.assertEqual(self.chosen(), self.script('return model.objects.at(-1).id'))
        self.assertTrue(self.script('const row = document.querySelector(".row.lit").getBoundingClientRect(); return row.bottom <= list.getBoundingClientRect().bottom + 1'))
        self.press(Keys.HOME, Keys.ARROW_DOWN)
        self.assertEqual(self.chosen(), 10)

    def test_zoom(self):
        width = lambda: self.script('return document.querySelector("#mask-1000 .picture > svg").getBoundingClientRect().width')
        self.press('0')
        self.assertEqual((width(), self.text('#zoom-one')), (552, '100 %'))
        self.press('+')
        self.assertEqual((width(), self.text('#zoom-one')), (690, '125 %'))
        self.script('choose(321)')
        frame = self.script('const it = document.querySelector(".frame.chosen").getBoundingClientRect(); return [it.width, it.height]')
        self.assertAlmostEqual(frame[0], 130 * 1.25 + 2, delta=1)
        self.in_mask(1000, 60, 90).perform()
        self.assertIn('Output Number 321', self.text('#tip'))
        self.press('-', '-')
        self.assertEqual(self.text('#zoom-one'), '80 %')
        self.click('#zoom-in')
        self.assertEqual(self.text('#zoom-one'), '100 %')
        for _ in range(30):
            self.press('+')
        self.assertEqual(self.text('#zoom-one'), '800 %')
        self.shot('zoomed')

    def test_marks(self):
        self.assertEqual([frame[1:] for frame in self.frames('mark')], [[12, 270, 200, 12], [120, 350, 220, 44]])
        self.press('m')
        self.assertEqual(self.frames('mark'), [])
        self.click('#marks')
        self.assertEqual(len(self.frames('mark')), 2)

    def test_masks_by_keys(self):
        self.press('n')
        self.assertTrue(self.is_in_sight('#mask-1500 .picture'))
        self.press('n')
        self.assertEqual(self.text('#note'), 'This is the last mask.')
        self.press('p')
        self.assertTrue(self.is_in_sight('#mask-1000 .picture'))

    def test_keys_as_tiles(self):
        self.assertEqual(self.texts('.keys .title'), ['Soft Key Mask 2000 `keys`, of Data Mask 1000 `mask_work`'])
        self.assertEqual(self.texts('.tile .words'), ['Key 2001 code 10key_on', 'Key 2002 code 11key_fold', 'Key 2003 code 12key_menu'])
        self.assertEqual(self.script('return document.querySelectorAll(".tile svg [data-id]").length > 3'), True)
        self.script('document.querySelector(".tile").scrollIntoView()')
        self.click('.tile')
        self.assertEqual(self.chosen(), 2001)
        self.assertEqual(len(self.script('return document.querySelectorAll(".tile.lit")')), 1)
        self.assertEqual(self.frames(), [[1000, 488, 0, 64, 64]])
        self.shot('tiles')

    def test_the_inspector(self):
        self.script('choose(321)')
        self.assertEqual(self.texts('#inspector .chip'), ['Data Mask 1000 `mask_work`: 130x36 at 12,74', 'Data Mask 1000 `mask_work`: child 4',
                                                          'Font Attributes 102 `font_value`: font', 'Number Variable 200 `v_rate`: variable'])
        self.script('[...document.querySelectorAll("#inspector .chip")].at(-1).click()')
        self.assertEqual(self.chosen(), 200)
        # a variable is seen where it is shown
        self.assertEqual(self.frames('user'), [[1000, 12, 74, 130, 36]])
        self.assertIn('It has no place of its own. What names it is framed: Output Number 321 `value_Rate`', self.text('#inspector'))
        self.script('choose(10)')
        self.assertIn('run by name: 15 steps', self.text('#inspector'))
        self.assertIn('Container 370 `sections`: Hide/Show Object (A0) at byte 0', self.text('#inspector'))
        self.assertEqual(self.frames('user'), [[1000, 488, 72, 64, 64]])

    def test_an_object_by_the_address(self):
        self.script('choose(321)')
        self.assertTrue(self.script('return location.hash === "#321"'))
        self.browser.driver.get('about:blank')
        self.browser.driver.get(f'file://{WORDS.pages}/sprayer.html#370')
        self.until(lambda: self.script('return document.getElementById("loading") === null'), 'the page')
        self.assertEqual(self.chosen(), 370)

    def test_costs(self):
        from selenium.webdriver.common.keys import Keys
        self.press('3')
        self.assertEqual(self.texts('.cost')[:2], ['16Key 2002 `key_fold`, key press', '15Macro 10 `macro_fold`, run by name'])
        widths = self.script('return [...document.querySelectorAll(".cost .bar i")].map(bar => parseFloat(bar.style.width))')
        self.assertEqual(widths, sorted(widths, reverse=True))
        self.assertEqual((widths[0], widths[1]), (100, 93.75))
        self.click('.cost')
        self.assertEqual(self.chosen(), 2002)
        self.press(Keys.ARROW_DOWN, Keys.ENTER)
        self.assertEqual(self.chosen(), 10)
        self.shot('costs')

    def test_needs(self):
        self.press('4')
        self.assertIn('The pool fits a terminal of 480x480 with 64 soft keys.', self.text('#needs-panel'))
        self.assertEqual(self.texts('.need > span:not(.bar)')[:5], ['480 of 480 pixels', '470 of 480 pixels', '60 of 64 pixels', '60 of 64 pixels', '4 of 64'])
        self.assertIn('Font size 1, 8x8: 2 objects', self.texts('#needs-panel summary'))
        self.script('[...document.querySelectorAll("#needs-panel .chip")].find(chip => chip.textContent === "Button 1").click()')
        self.assertEqual(self.script('return found.map(object => object.id)'), [360])
        self.press('4')
        self.shot('needs')

    def test_tabs_by_keys(self):
        from selenium.webdriver.common.keys import Keys
        self.script('document.getElementById("tab-findings").focus()')
        for name in ('objects', 'costs', 'needs', 'findings'):
            self.press(Keys.ARROW_RIGHT)
            self.assertEqual(self.script('return [...document.querySelectorAll(".panel.open")].map(each => each.id)'), [f'{name}-panel'])

    def test_the_tab_key_reaches_each_part(self):
        from selenium.webdriver.common.keys import Keys
        seen = set()
        for _ in range(40):
            self.press(Keys.TAB)
            seen |= set(self.script('const it = document.activeElement; return [it.id, ...it.classList]'))
        self.assertLessEqual({'help-button', 'tab-findings', 'finding', 'jump', 'zoom-in', 'marks', 'picture', 'title', 'tile'}, seen)

    def test_the_help(self):
        self.press('?')
        self.assertTrue(self.script('return document.getElementById("help").open'))
        self.shot('help')
        self.click('#help button')
        self.assertFalse(self.script('return document.getElementById("help").open'))

    def test_sizes(self):
        for width, height in [(1280, 800), (1280, 680), (1024, 768), (1920, 1080), (700, 900)]:
            self.browser.size(width, height)
            self.assertLessEqual(self.script('return document.documentElement.scrollWidth'), width)
            self.assertGreater(self.script('return pictures.clientHeight'), 200)
            self.shot(f'size-{width}-{height}')

    def test_print(self):
        self.browser.size(794, 1123, 'print')
        self.until(lambda: self.script('return document.getElementById("printed") !== null'), 'the table for paper')
        seen = [('header', True), ('#mask-1500 svg', True), ('.finding', True), ('.rule', True), ('#printed', True), ('.cost', True), ('.need', True),
                ('.tile', True), ('#tabs', False), ('#toolbar', False), ('#inspector', False), ('#list', False), ('#help-button', False)]
        for selector, is_seen in seen:
            self.assertEqual(self.script('return document.querySelector(arguments[0]).checkVisibility()', selector), is_seen, selector)
        self.assertEqual(len(self.texts('#printed tbody tr')), 76)
        self.assertEqual(self.script('return getComputedStyle(document.body).backgroundColor'), 'rgba(0, 0, 0, 0)')
        self.shot('print')


class Faults(WithPool):
    def test_many_faults(self):
        self.open('faults')
        self.assertEqual(self.texts('.head-chip'), ['13 errors', '3 warnings', '1 note', 'not judged whether it fits'])
        self.assertEqual(self.texts('.code summary')[:3], ['errorP04 Scale1', 'errorR03 Missing6', 'errorR04 WrongKind2'])
        self.assertEqual([text[:5] for text in self.texts('.code summary')], sorted((text[:5] for text in self.texts('.code summary')), key=['error', 'warni', 'noteN'].index))
        self.press('f')
        self.assertEqual((self.chosen(), self.frames()), (324, [[1000, 12, 134, 130, 36]]))
        self.shot('faults')
        self.click('.head-chip.note')
        self.click('.code.note .finding')
        self.assertIsNone(self.chosen())
        self.assertIn('This finding is about no object that could be read.', self.text('#inspector'))
        self.script('choose(341)')
        self.assertEqual(self.texts('#inspector .chip.missing'), ['object 104: font'])
        self.press('3')
        self.assertIn('No costs are known', self.text('#costs-panel'))
        self.press('4')
        self.assertIn('It is not judged whether the pool fits a terminal', self.text('#needs-panel'))

    def test_kinds(self):
        self.open('kinds')
        self.assertEqual(self.texts('.head-chip'), ['no errors', '76 warnings', 'does not fit 480x480'])
        self.press('f')
        seen = self.script('''const seen = [];
            for (let k = 0; k < 76; k += 1) {
              const isFramed = [...document.querySelectorAll('.frame.chosen, .frame.user')].some(isInSight);
              seen.push([choice.finding.index, isFramed || seenPlaces(choice.id).places.length === 0]);
              stepFinding(1);
            }
            return seen''')
        self.assertEqual(seen, [[k, True] for k in range(76)])
        self.assertEqual(self.script('return document.querySelectorAll("parsererror").length'), 0)
        self.browser.size(1920, 1080)
        self.shot('kinds')

    def test_another_terminal(self):
        self.open('small')
        self.assertEqual(self.texts('.head-chip')[-1], 'does not fit 240x240')
        self.press('4')
        self.assertIn('too small is the area of a mask, and the area of a key, and the number of soft keys', self.text('#needs-panel'))
        self.assertEqual(self.script('return [model.masks[0].height, document.querySelectorAll(".bar i.error").length]'), [240, 5])
        self.shot('small')

    def test_what_could_be_read(self):
        for name, words in [('cut', 'P01 Truncated'), ('circle', 'R11 MacroCircle'), ('empty', 'R01 NoWorkingSet')]:
            self.open(name)
            self.assertIn(words, ' '.join(self.texts('.code.error summary')))
            self.press('f', 'n', '+', '3', '4', '2')
            self.shot(name)
        self.assertEqual(self.text('#pictures'), 'No Data Mask or Alarm Mask could be read.')

    def test_a_dear_event(self):
        self.open('dear')
        self.press('3')
        self.assertGreater(len(self.script('return document.querySelectorAll(".cost .bar i.error")')), 0)
        self.shot('dear')


class Others(WithPool):
    def test_places(self):
        self.open('deep')
        self.script('choose(3000)')
        self.assertEqual(self.frames(), [[1000, 4, 4, 400, 14], [1000, 4, 40, 400, 14], [1000, 4, 200, 400, 14], [1001, 9, 9, 400, 14]])
        # what is in a hidden Container is not drawn: the mask is framed
        self.script('choose(3001)')
        self.assertEqual(self.frames('user'), [[1000, 0, 0, 552, 480]])
        # a frame stays close to the picture
        self.script('choose(3002)')
        self.assertEqual(self.frames()[0][:3], [1000, 552, -8])
        # a pointer leads to a key
        self.assertEqual(self.texts('.tile .words'), ['Key 2001 code 1', 'Key 2001 code 1'])
        self.script('choose(2001)')
        self.assertEqual(len(self.script('return document.querySelectorAll(".tile.lit")')), 2)
        self.script('choose(2000)')
        self.assertEqual(len(self.script('return document.querySelectorAll(".keys.lit")')), 1)
        self.script('choose(3200)')
        self.assertEqual(len(self.frames('user')), 1)

    def test_a_hostile_pool(self):
        self.open('hostile')
        self.until(lambda: self.script('return document.querySelector(".picture > svg") !== null'), 'the mask')
        for id in self.script('return model.objects.map(object => object.id)'):
            self.script('choose(arguments[0])', id)
        for name in ('findings', 'objects', 'costs', 'needs'):
            self.click(f'#tab-{name}')
        self.in_mask(1000, 20, 10).perform()
        self.browser.size(794, 1123, 'print')
        self.until(lambda: self.script('return document.getElementById("printed") !== null'), 'the table for paper')
        self.browser.size(1280, 800)
        self.shot('hostile')
        self.assertEqual(self.script('return document.querySelectorAll("img, iframe, object, embed, body b:not(.code b, .words b, .told b, .need b), script:not([type])").length'), 1)
        self.assertEqual(self.script('return Object.keys(window).filter(name => name === "hacked")'), [])
        self.assertEqual(self.text('#pool'), POOLS['hostile'][0])
        self.assertEqual(self.script('return model.byId.get(3000).name'), IMG)
        self.assertEqual(self.script('return model.byId.get(3000).text'), pools.HOSTILE[0].decode())

    def test_a_large_pool(self):
        begun = time.monotonic()
        self.open('large')
        self.assertLess(time.monotonic() - begun, 20)
        self.assertIn('10 masks left out of this page', self.text('#span'))
        self.assertEqual(self.script('return [model.masks.length, model.keys.length, model.objects.length]'), [200, 400, 1013])
        self.assertLess(len(self.script('return [...document.querySelectorAll(".picture > svg")]')), 40)
        self.press('2')
        self.assertLess(len(self.texts('.row')), 80)
        for does, most in [('for (let k = 0; k < 20; k += 1) choose(10000 + k * 20)', 4000), ('refill()', 1000), ('setZoom(2)', 1000), ('stepMask(1)', 1000)]:
            took = self.script(f'const begun = performance.now(); {does}; return performance.now() - begun')
            self.assertLess(took, most, does)
        self.shot('large')

    def test_a_page_that_was_cut_off(self):
        with tempfile.TemporaryDirectory() as folder:
            with open(f'{WORDS.pages}/sprayer.html') as whole, open(f'{folder}/cut.html', 'w') as cut:
                cut.write(whole.read()[:60000])
            self.browser.driver.get(f'file://{folder}/cut.html')
            self.assertIn('the file was cut off', self.script('return document.body.innerText'))

    def test_a_page_of_many_objects(self):
        """A page with as many objects and findings as a page may have, of which more are left out."""
        with open(f'{WORDS.pages}/sprayer.html') as whole:
            text = re.sub('"(objects|findings)_left_out":0', r'"\1_left_out":12', whole.read())
        many = ''.join(f'{{"at":{9000 + id},"id":{id},"kind":"Number Variable","name":null,"references":[]}}\n' for id in range(10_000, 59_924))
        unused = ''.join(f'{{"code":"W02","details":{{"object":{{"id":{id},"kind":"Number Variable","name":null}}}},"file":"","message":"Number Variable {id}: nothing '
                         f'names it","name":"Unused","offset":{9000 + id},"severity":"warning"}}\n' for id in range(10_000, 29_998))
        text = text.replace("id='objects'>\n", f"id='objects'>\n{many}").replace("id='findings'>\n", f"id='findings'>\n{unused}")
        with tempfile.TemporaryDirectory() as folder:
            with open(f'{folder}/many.html', 'w') as out:
                out.write(text)
            begun = time.monotonic()
            self.browser.driver.get(f'file://{folder}/many.html')
            self.until(lambda: self.script('return document.getElementById("loading") === null'), 'the page')
            self.assertLess(time.monotonic() - begun, 20)
            self.assertIn('12 objects left out of this page, 12 findings left out of this page', self.text('#span'))
            self.assertEqual(self.script('return [model.objects.length, model.findings.length]'), [50_000, 20_000])
            self.press('2')
            self.assertLess(len(self.texts('.row')), 80)
            for does, most in [('for (let k = 0; k < 20; k += 1) choose(10000 + k * 900)', 4000), ('refill()', 1000), ('setZoom(2)', 1000)]:
                took = self.script(f'const begun = performance.now(); {does}; return performance.now() - begun')
                self.assertLess(took, most, does)
            self.shot('many')

    def test_the_page_may_not_use_the_network(self):
        self.open('sprayer')
        refused = self.browser.driver.execute_async_script(
            'const told = arguments[0]; fetch("http://127.0.0.1:9/").then(() => told("asked"), () => told("refused"))')
        self.assertEqual(refused, 'refused')
        self.assertTrue(all('Content Security Policy' in message for message in self.browser.said()))

    def test_a_light_system_theme(self):
        self.open('sprayer')
        self.browser.driver.execute_cdp_cmd('Emulation.setEmulatedMedia', {'features': [{'name': 'prefers-color-scheme', 'value': 'light'}]})
        self.assertEqual(self.script('return getComputedStyle(document.body).backgroundColor'), 'rgb(20, 23, 26)')
        self.assertEqual(self.script('return getComputedStyle(document.getElementById("search")).colorScheme'), 'dark')
        self.shot('light')


if __name__ == '__main__':
    sys.exit(browser.main(sys.modules[__name__], make_pages))
