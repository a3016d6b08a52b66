"""The page of the desk in a browser: make test-desk. It writes its pictures to out/desk."""
from __future__ import annotations

import statistics
import tempfile
import time
import unittest
from collections.abc import Callable, Iterable, Sequence
from pathlib import Path

from selenium.webdriver.common.action_chains import ActionChains
from selenium.webdriver.common.keys import Keys

from desk_tests import pools
from desk_tests.page import TOP, Browser, RunningDesk
from segyolant import Terminal, commands
from segyolant.bench import Bench
from segyolant.implement import Implement
from segyolant.programs import find
from segyolant.sprayer import ALARM, KEY_FILL, KEY_FOLD, KEY_ON, MASK_WORK, Sprayer
from tests.support import example, is_quick

MEDIAN, MOST = 0.050, 0.150  # seconds from a frame to the changed page
ROUNDS = 3
# Draws each of some pictures over the one before, and again from nothing. Returns the numbers of those that are not the same.
DRAWS_ALL = '''
const picture = document.getElementById('picture'), differ = [];
for (const [k, svg] of arguments[0].entries()) {
    drawSvg(svg);
    const patched = picture.firstChild, parsed = new DOMParser().parseFromString(svg, 'image/svg+xml').documentElement;
    picture.replaceChildren();
    drawSvg(svg);
    if (patched.outerHTML !== picture.innerHTML || !patched.isEqualNode(parsed)) differ.push(k);
    picture.replaceChildren(patched);
}
return differ;'''
# How many nodes are new when a picture is drawn over another one.
NEW_NODES = '''
drawSvg(arguments[0]);
const watch = new MutationObserver(() => {});
watch.observe(document.getElementById('picture'), { childList: true, subtree: true });
drawSvg(arguments[1]);
return watch.takeRecords().reduce((sum, each) => sum + each.addedNodes.length, 0);'''


class WithPage(unittest.TestCase):
    @classmethod
    def setUpClass(cls) -> None:
        cls.browser = Browser()
        cls.addClassCleanup(cls.browser.close)

    def tearDown(self) -> None:
        self.assertEqual(self.browser.console(), [])
        self.browser.driver.get('about:blank')

    def open(self, *implements: Implement, **more: object) -> RunningDesk:
        desk = RunningDesk(implements, **more)  # type: ignore[arg-type]
        self.addCleanup(desk.close)
        self.browser.open(desk)
        return desk

    def open_sprayer(self, **options: float) -> Sprayer:
        self.sprayer = Sprayer(**options)
        self.desk = self.open(self.sprayer)
        self.browser.until(lambda: 'mask_work' in self.browser.text('#shown'), 'the mask', 60)
        self.browser.hit(2001)
        return self.sprayer

    def heard(self, what: str, object: int) -> list[object]:
        return [each.value for each in self.sprayer.heard if (each.what, each.object) == (what, object)]


class Operating(WithPage):
    def test_the_upload_is_shown(self) -> None:
        self.open_sprayer()
        browser = self.browser
        self.assertEqual(browser.script('return document.querySelector("#picture > svg").getAttribute("viewBox")'), '0 0 552 480')
        browser.until(lambda: browser.all('#sets button img'), 'the designator')
        browser.until(lambda: any('the pool of 80 is accepted' in line.text for line in browser.all('#lines .good')), 'the acceptance')
        self.assertEqual(browser.label(360), 'button 360: START')
        browser.shot('1-upload')
        # (the frames right behind the upload are counted, and not in words)
        browser.hit(2001).click()
        browser.until(lambda: 'Change Numeric Value: Number Variable 200 `v_rate`' in browser.text('#lines'), 'words')

    def test_a_key_by_mouse(self) -> None:
        self.open_sprayer()
        browser = self.browser
        ActionChains(browser.driver).move_to_element(browser.hit(2001)).click_and_hold().perform()
        browser.until(lambda: self.heard('key', 2001) == [True], 'the press')
        browser.until(lambda: 'held' in browser.hit(2001).get_attribute('class'), 'the held key')
        browser.shot('2-key-held')
        ActionChains(browser.driver).release().perform()
        browser.until(lambda: self.heard('key', 2001) == [True, False], 'the release')
        browser.until(lambda: float(browser.value(321) or 0) > 50, 'the rate')
        browser.shot('3-spraying')

    def test_a_pointer_that_leaves_a_key_releases_it(self) -> None:
        self.open_sprayer()
        browser = self.browser
        ActionChains(browser.driver).move_to_element(browser.hit(2001)).click_and_hold().move_by_offset(0, 160).perform()
        browser.until(lambda: self.heard('key', 2001) == [True, False], 'the release')
        ActionChains(browser.driver).release().perform()
        self.assertEqual(self.heard('key', 2001), [True, False])

    def test_a_page_that_goes_releases_its_key(self) -> None:
        self.open_sprayer()
        ActionChains(self.browser.driver).move_to_element(self.browser.hit(2001)).click_and_hold().perform()
        self.browser.until(lambda: self.heard('key', 2001) == [True], 'the press')
        self.browser.driver.get('about:blank')
        self.browser.until(lambda: self.heard('key', 2001) == [True, False], 'the release')
        ActionChains(self.browser.driver).release().perform()
        self.browser.driver.get(self.desk.server.url)

    def test_a_key_by_keyboard(self) -> None:
        self.open_sprayer()
        browser = self.browser
        browser.script('document.getElementById("hit-2001-0").focus()')
        ActionChains(browser.driver).key_down(Keys.ENTER).perform()
        browser.until(lambda: self.heard('key', 2001) == [True], 'the press')
        time.sleep(0.7)
        # (the focus stays while the picture changes under it)
        self.assertEqual(browser.script('return document.activeElement.id'), 'hit-2001-0')
        ActionChains(browser.driver).key_up(Keys.ENTER).perform()
        browser.until(lambda: self.heard('key', 2001) == [True, False], 'the release')
        browser.script('document.getElementById("hit-360-0").focus()')
        ActionChains(browser.driver).send_keys(Keys.SPACE).perform()
        browser.until(lambda: self.heard('button', 360) == [True, False], 'the button')
        browser.shot('4-keyboard')

    def test_a_key_whose_mask_goes_while_it_is_held(self) -> None:
        self.open_sprayer()
        browser = self.browser
        ActionChains(browser.driver).move_to_element(browser.hit(2002)).click_and_hold().perform()
        browser.until(lambda: 'mask_fold' in browser.text('#shown'), 'the mask of folding')
        browser.until(lambda: not browser.all('#hit-2002-0'), 'its keys are gone')
        browser.shot('5-folding')
        ActionChains(browser.driver).release().perform()
        browser.until(lambda: self.heard('key', 2002) == [True, False], 'the release')
        browser.until(lambda: 'mask_work' in browser.text('#shown'), 'the work mask again')

    def test_an_alarm(self) -> None:
        sprayer = self.open_sprayer(tank=100.2)
        browser = self.browser
        browser.hit(2001).click()
        browser.until(lambda: 'alarm' in browser.script('return document.getElementById("mask").className'), 'the alarm')
        self.assertEqual(browser.text('#banner'), 'Alarm, priority medium')
        browser.shot('6-alarm')
        browser.hit(3003).click()
        browser.until(lambda: browser.script('return document.getElementById("banner").hidden'), 'the end of the alarm')
        self.assertGreater(sprayer.tank, 900)


class Dialogs(WithPage):
    def test_a_number(self) -> None:
        self.open_sprayer()
        browser = self.browser
        browser.hit(351).click()
        field = browser.until(lambda: browser.all('#entry input'), 'the dialog')[0]
        self.assertEqual((field.get_attribute('value'), browser.text('#hint')), ('200', 'from 0 to 500'))
        self.assertEqual(browser.text('#dialog-title'), 'number 351 in_rate')
        browser.shot('7-number')
        field.clear()
        field.send_keys('600', Keys.ENTER)
        browser.until(lambda: browser.text('#fault') == 'it is out of range', 'the refusal')
        browser.shot('8-number-refused')
        field.clear()
        field.send_keys('250', Keys.ENTER)
        browser.until(lambda: not browser.script('return document.getElementById("dialog").open'), 'the end of the dialog')
        browser.until(lambda: browser.label(351) == 'number 351: 250', 'the value')
        self.assertEqual(self.heard('number', 351), [250])
        self.assertEqual(browser.script('return document.activeElement.id'), 'hit-351-0')

    def test_cancel_enters_nothing(self) -> None:
        self.open_sprayer()
        browser = self.browser
        for end in ('button', 'escape'):
            browser.hit(351).click()
            field = browser.until(lambda: browser.all('#entry input'), 'the dialog')[0]
            field.send_keys('77')
            browser.all('#cancel')[0].click() if end == 'button' else field.send_keys(Keys.ESCAPE)
            browser.until(lambda: not browser.script('return document.getElementById("dialog").open'), 'the end of the dialog')
        self.assertEqual(self.heard('number', 351), [])

    def test_a_list_and_a_boolean(self) -> None:
        self.open_sprayer()
        browser = self.browser
        browser.hit(354).click()
        items = browser.until(lambda: browser.all('#entry .item'), 'the items')
        browser.until(lambda: len(browser.all('#entry .item img')) == 3, 'their pictures')
        self.assertEqual([item.text for item in items], ['Manual', 'Automatic', 'Headland'])
        browser.shot('9-list')
        items[2].click()
        browser.all('#ok')[0].click()
        browser.until(lambda: browser.label(354) == 'list 354: Headland', 'the item')
        browser.until(lambda: not browser.script('return document.getElementById("dialog").open'), 'the end of the dialog')
        browser.hit(352).click()
        items = browser.until(lambda: len(found := browser.all('#entry .item')) == 2 and found, 'off and on')
        items[0].click()
        items[0].find_element('css selector', 'input').send_keys(Keys.ENTER)
        browser.until(lambda: browser.label(352) == 'boolean 352: off', 'the value')
        self.assertEqual((self.heard('number', 354), self.heard('number', 352)), ([2], [0]))

    def test_a_text(self) -> None:
        self.open_sprayer()
        browser = self.browser
        browser.hit(3020).click()
        field = browser.until(lambda: browser.all('#entry input'), 'the dialog')[0]
        self.assertEqual((field.get_attribute('value'), browser.text('#hint')), ('North field 12', 'at most 16 characters'))
        field.clear()
        field.send_keys('Südfeld <7>')
        browser.shot('10-text')
        field.send_keys(Keys.ENTER)
        browser.until(lambda: self.heard('text', 3020) == ['Südfeld <7>'.encode('latin-1')], 'the text')
        browser.until(lambda: browser.label(3020) == 'text 3020: Südfeld <7>', 'the value')

    def test_a_disabled_input_is_refused_with_its_reason(self) -> None:
        self.open_sprayer()
        self.browser.script('document.getElementById("hit-353-0").click()')
        self.browser.until(lambda: self.browser.text('#note') == 'refused: Disabled', 'the refusal')


class Sets(WithPage):
    def test_two_sets_and_one_that_is_closed(self) -> None:
        second = Implement(pools.plain(), 0x81, 0xA000_1D00_0000_0022)
        self.sprayer = Sprayer()
        self.open(self.sprayer, second)
        browser = self.browser
        browser.until(lambda: len(browser.all('#sets button:not(:disabled)')) == 2, 'two sets', 60)
        browser.until(lambda: len(browser.all('#sets button img')) == 2, 'their designators')
        browser.all('#set-129')[0].click()
        browser.until(lambda: browser.text('#shown').startswith('set 81'), 'the second set')
        browser.until(lambda: browser.label(pools.KEY) == f'key {pools.KEY}: GO', 'its key')
        browser.shot('11-two-sets')
        second.stop()
        browser.until(lambda: len(browser.all('#sets button')) == 1, 'one set', 10)
        browser.until(lambda: browser.text('#shown').startswith('set 80'), 'the first set')
        browser.until(lambda: 'set 81 fell silent and is closed' in browser.text('#lines'), 'the reason')
        browser.shot('12-closed')

    def test_a_key_that_is_held_when_another_set_is_chosen(self) -> None:
        second = Implement(pools.plain(), 0x81, 0xA000_1D00_0000_0022)
        self.sprayer = Sprayer()
        desk = self.open(self.sprayer, second)
        browser = self.browser
        browser.until(lambda: len(browser.all('#sets button:not(:disabled)')) == 2, 'two sets', 60)
        browser.script('document.getElementById("hit-2001-0").focus()')
        ActionChains(browser.driver).key_down(Keys.ENTER).perform()
        browser.until(lambda: self.heard('key', 2001) == [True], 'the press')
        browser.script('document.getElementById("set-129").click()')
        browser.until(lambda: self.heard('key', 2001) == [True, False], 'the release')
        ActionChains(browser.driver).key_up(Keys.ENTER).perform()
        self.assertIsNotNone(desk)

    def test_a_refused_pool_is_told_with_its_reason(self) -> None:
        self.open(Implement((TOP / 'examples' / 'refusal-03-missing.iop').read_bytes()))
        browser = self.browser
        browser.until(lambda: 'the pool of 80 is refused: rule 3, object 1000' in browser.text('#lines'), 'the refusal', 60)
        browser.shot('13-refused')

    def test_a_hostile_pool(self) -> None:
        implement = Implement(pools.hostile())
        self.open(implement)
        browser = self.browser
        browser.until(lambda: implement.phase in ('live', 'failed'), 'the verdict', 60)
        self.assertEqual(implement.fault, '')
        self.assertEqual(browser.until(lambda: browser.label(pools.KEY), 'its label'), f'key {pools.KEY}: {pools.HOSTILE[0].decode()}')
        self.assertEqual(browser.label(pools.BUTTON), f'button {pools.BUTTON}: {pools.HOSTILE[1].decode()}')
        browser.hit(3300).click()
        items = browser.until(lambda: browser.all('#entry .item'), 'the items')
        self.assertEqual([item.text for item in items], [value.decode() for value in pools.HOSTILE[:3]])
        browser.shot('14-hostile')
        browser.all('#cancel')[0].click()
        browser.hit(3200).click()
        field = browser.until(lambda: browser.all('#entry input[type=text]'), 'the dialog')[0]
        self.assertEqual(field.get_attribute('value'), pools.HOSTILE[1].decode())
        field.send_keys(Keys.ESCAPE)
        time.sleep(0.5)
        self.assertIsNone(browser.script('return window.hacked ?? null'))
        self.assertEqual(browser.all('#hits > * > *, #said img, #lines img, script:not([src]), svg :not(svg, rect, text, polyline)'), [])
        self.assertEqual(browser.all('svg'), browser.all('#picture svg'))
        self.assertIn(pools.HOSTILE[0].decode(), browser.script('return [...document.querySelectorAll("text")].map(it => it.textContent)'))


class Pictures(WithPage):
    """A picture that differs from the one before is drawn only where it does. The page then has what a page that comes new has."""

    def test_a_page_that_comes_later_has_the_same(self) -> None:
        sprayer = self.open_sprayer()
        browser = self.browser
        browser.hit(2001).click()
        browser.until(lambda: float(browser.value(321) or 0) > 50, 'the rate')
        sprayer.work = lambda: None  # type: ignore[method-assign]
        time.sleep(2)
        there = browser.script('return document.getElementById("picture").innerHTML')
        browser.open(self.desk)
        browser.hit(2001)
        self.assertEqual(browser.script('return document.getElementById("picture").innerHTML'), there)

    def test_each_step_of_the_sprayer(self) -> None:
        pictures = sprayed(60 if is_quick() else 300)
        self.assertGreater(len(set(pictures)), 40)
        self.draw(pictures)

    def test_each_mask_of_kinds(self) -> None:
        pictures = masks('kinds.iop', range(1000, 1007))
        self.draw([*pictures, *pictures[::-1], *pictures[::2]])

    def draw(self, pictures: Sequence[str]) -> None:
        self.open()
        for at in range(0, len(pictures), 50):
            self.assertEqual(self.browser.script(DRAWS_ALL, pictures[at:at + 50]), [], f'from picture {at} on')

    def test_a_text_that_changes_is_one_new_node(self) -> None:
        self.open()
        svg = masks('kinds.iop', [1000])[0]
        self.assertIn('>1000 texts<', svg)
        self.assertEqual(self.browser.script(NEW_NODES, svg, svg.replace('>1000 texts<', '>1001 texts<')), 1)
        self.assertEqual(self.browser.script(NEW_NODES, svg, svg), 0)

    def test_what_the_core_draws_nothing_with_is_left_out(self) -> None:
        self.open()
        for before in ('', masks('kinds.iop', [1000])[0]):
            self.browser.script('document.getElementById("picture").replaceChildren(); if (arguments[0]) drawSvg(arguments[0])', before)
            self.browser.script('drawSvg(arguments[0])', pools.MARKUP)
            time.sleep(0.3)
            self.assertEqual(self.browser.script('return document.getElementById("picture").innerHTML'), pools.MARKUP_LEFT)
            self.assertIsNone(self.browser.script('return window.hacked ?? null'))
        # (the browser blocks its handlers and styles already where it is parsed)
        self.assertEqual([said for said in self.browser.console() if 'Content Security Policy' not in said], [])


def sprayed(steps: int) -> list[str]:
    """The pictures of a sprayer at work, half a second of its time apart: it sprays, is filled after an alarm, and is folded."""
    sprayer, pictures = Sprayer(tank=110), []
    with Bench(sprayer) as bench:
        for step in range(steps):
            mask = bench.terminal.sets()[0].mask
            if mask == ALARM:
                bench.press(KEY_FILL)
            elif mask == MASK_WORK and step % 60 == 40:
                bench.press(KEY_FOLD)
            elif mask == MASK_WORK and step % 60 == 2 and not sprayer.is_folded:
                bench.press(KEY_ON)
            bench.wait(0.5)
            pictures.append(bench.terminal.picture())
    return pictures


def masks(pool: str, ids: Iterable[int]) -> list[str]:
    """Masks of a pool of examples/ as pictures."""
    with Terminal() as terminal:
        terminal.preload(0x80, example(pool))
        return [terminal.picture(0x80, mask) for mask in ids]


class OtherLines(WithPage):
    def test_a_log(self) -> None:
        log = TOP / 'examples' / 'seeder.log'
        self.open(log=log)
        browser = self.browser
        browser.until(lambda: 'the end' in browser.text('#player'), 'the end of the log', 60)
        browser.until(lambda: browser.said(), 'the mask')
        browser.shot('15-log')

    def test_a_log_without_a_frame(self) -> None:
        with tempfile.NamedTemporaryFile(suffix='.log') as log:
            log.write(b'# a comment\n18EEFF80#01000000001D0020\n')
            log.flush()
            self.open(log=Path(log.name))
            self.browser.until(lambda: 'line 2 is faulty (Time); the log has no frame' in self.browser.text('#player'), 'what it lacks')

    def test_a_terminal_that_ends_comes_back_with_its_sets(self) -> None:
        self.open_sprayer()
        browser = self.browser
        self.desk.call(lambda: self.desk.desk.terminal._live.kill())
        browser.until(lambda: 'the terminal is there again, with the sets that were there' in browser.text('#lines'), 'the restart', 60)
        browser.hit(2001).click()
        browser.until(lambda: self.heard('key', 2001) == [True, False], 'the key')
        browser.shot('16-restarted')

    def test_the_lines_of_the_bus_can_be_held_and_found(self) -> None:
        self.open_sprayer()
        browser = self.browser
        browser.all('#find')[0].send_keys('v_rate')
        browser.script('document.getElementById("lines").replaceChildren()')
        browser.hit(2001).click()
        browser.until(lambda: browser.all('#lines li'), 'a line')
        time.sleep(1)
        self.assertTrue(all('v_rate' in line.text for line in browser.all('#lines li')))


class Latency(WithPage):
    def test_from_the_frame_to_the_page(self) -> None:
        sprayer = self.open_sprayer()
        time.sleep(1)
        if is_quick():
            self.times(self.change, sprayer)
            self.skipTest('the times are promised of the proved program: a quick build draws slowly')
        self.expect_times(self.change, sprayer)

    def test_from_the_picture_to_the_page(self) -> None:
        """The part of the server and of the browser, which a quick build does not slow down."""
        self.pictures = sprayed(20)[5:]
        self.desk = self.open()
        time.sleep(1)
        self.expect_times(self.tell)

    def expect_times(self, change: Callable[..., None], *more: object) -> None:
        """The best of three rounds counts, since other work beside a round makes it slower."""
        for _ in range(ROUNDS):
            median, most = self.times(change, *more)
            if median < MEDIAN and most < MOST:
                return
        self.fail(f'no round of {ROUNDS} has a median below {MEDIAN} s and 95 % below {MOST} s')

    def times(self, change: Callable[..., None], *more: object) -> tuple[float, float]:
        """The median of 60 changes, and what 95 % of them are below, in seconds."""
        self.browser.script('desk.changes.length = 0')
        for k in range(60):
            self.desk.call(change, k, *more)
            time.sleep(0.2)
        seconds = sorted((painted - heard) / 1000 for painted, heard in self.browser.script('return desk.changes'))
        self.assertGreater(len(seconds), 40)
        median, most = statistics.median(seconds), seconds[int(len(seconds) * 0.95)]
        print(f'\n{self._testMethodName[5:].replace("_", " ")}, {len(seconds)} changes by {find("vt_live")}: '
              f'median {median * 1000:.0f} ms, 95 % under {most * 1000:.0f} ms')
        return median, most

    def tell(self, k: int) -> None:
        """A picture that was drawn before is told, now."""
        picture = {'kind': 'picture', 'svg': self.pictures[k % len(self.pictures)], 'hits': [], 'lines': []}
        self.desk.desk.audience.tell_picture(picture, time.time())

    def change(self, k: int, sprayer: Sprayer) -> None:
        """The sprayer says another value, now."""
        line = self.desk.line
        line._advance()
        sprayer.send(commands.number(202, 100 + k))
        line.bus.send(sprayer, sprayer.tick(line.clock.now()))
        line._plan()


if __name__ == '__main__':
    unittest.main()
