"""What the tests of pages have in common: a headless Chromium, a test that opens a page, and the run of the tests of a page.

A page says that it is shown by the removal of its element `loading`.
"""
import argparse
import os
import re
import shutil
import sys
import tempfile
import time
import unittest

TOP = os.path.dirname(os.path.dirname(os.path.dirname(os.path.abspath(__file__))))
sys.path[:0] = [f'{TOP}/scripts', f'{TOP}/bindings/python']

import desk  # noqa: E402

MODULES = {'selenium': 'python3-selenium'}
PROGRAMS = {'chromium': 'chromium', 'chromedriver': 'chromium-driver'}
EXAMPLES = f'{TOP}/examples'
# The words of the command line of a run.
WORDS = argparse.Namespace(program=None, pages=None, shots=None)


class Browser:
    """A headless Chromium that tells what a page said on its console and which addresses it asked for."""

    def __init__(self):
        from selenium import webdriver
        from selenium.webdriver.chrome.service import Service
        options = webdriver.ChromeOptions()
        for word in ('--headless=new', '--no-sandbox', '--disable-dev-shm-usage', '--disable-gpu'):
            options.add_argument(word)
        options.set_capability('goog:loggingPrefs', {'browser': 'ALL', 'performance': 'ALL'})
        self.driver = webdriver.Chrome(service=Service(shutil.which('chromedriver')), options=options)

    def size(self, width, height, media=''):
        self.driver.execute_cdp_cmd('Emulation.setDeviceMetricsOverride',
                                    {'width': width, 'height': height, 'deviceScaleFactor': 1, 'mobile': False})
        self.driver.execute_cdp_cmd('Emulation.setEmulatedMedia', {'media': media})

    def script(self, text, *arguments):
        return self.driver.execute_script(text, *arguments)

    def asked(self):
        return re.findall(r'"method":"Network.requestWillBeSent".*?"url":"([^"]*)"', ' '.join(
            entry['message'] for entry in self.driver.get_log('performance')))

    def said(self):
        return [entry['message'] for entry in self.driver.get_log('browser')]


class WithPage(unittest.TestCase):
    """Opens a page for each test. Nothing may be on its console, and nothing may have been asked for but the page and pictures in it."""

    @classmethod
    def setUpClass(cls):
        cls.browser = Browser()
        cls.addClassCleanup(cls.browser.driver.quit)

    def setUp(self):
        self.shots = 0
        self.browser.size(1280, 800)

    def tearDown(self):
        self.assertEqual(self.browser.said(), [])
        self.assertEqual([url for url in self.browser.asked() if not url.startswith(('file:', 'data:'))], [])
        self.browser.driver.get('about:blank')

    def open(self, name):
        self.browser.driver.get(f'file://{WORDS.pages}/{name}.html')
        self.until(lambda: self.browser.script('return document.getElementById("loading") === null'), 'the page')

    def script(self, text, *arguments):
        return self.browser.script(text, *arguments)

    def until(self, holds, what, seconds=20):
        end = time.monotonic() + seconds
        while not holds():
            self.assertLess(time.monotonic(), end, f'{what}: not within {seconds} s')
            time.sleep(0.03)

    def press(self, *keys):
        from selenium.webdriver.common.action_chains import ActionChains
        ActionChains(self.browser.driver).send_keys(*keys).perform()

    def click(self, selector):
        self.browser.driver.find_element('css selector', selector).click()

    def text(self, selector):
        return self.script('return document.querySelector(arguments[0]).textContent', selector)

    def texts(self, selector):
        return self.script('return [...document.querySelectorAll(arguments[0])].map(each => each.textContent)', selector)

    def shot(self, what):
        if WORDS.shots is not None:
            self.shots += 1
            os.makedirs(WORDS.shots, exist_ok=True)
            time.sleep(0.2)
            self.browser.driver.save_screenshot(f'{WORDS.shots}/{what}.png')


def look_at_files(test, folder):
    """Tests the files of a page: each is a text of the program, so it has no quote, no backslash and only ASCII."""
    order = open(f'{folder}/order.txt').read().split()
    names = sorted(os.listdir(folder))
    test.assertEqual(sorted(order), [name for name in names if name.endswith('.js')])
    for name in names:
        text = open(f'{folder}/{name}', encoding='ascii').read()
        test.assertNotRegex(text, r'["\\\t]', name)
        test.assertLess(text.count('\n'), 380, name)
        test.assertNotIn('innerHTML', text, name)


def run_tests(module, names):
    wanted = unittest.defaultTestLoader.loadTestsFromNames(names, module) if names else unittest.defaultTestLoader.loadTestsFromModule(module)
    result = unittest.TextTestRunner().run(wanted)
    failed = len(result.failures) + len(result.errors)
    print(f'{result.testsRun - failed} passed, {failed} failed')
    return 1 if failed else 0


def main(module, make_pages):
    """Runs the tests of a module on the pages that the program of the command line makes. Returns the status of the run."""
    parser = argparse.ArgumentParser(description=module.__doc__.split('\n')[0])
    parser.add_argument('program', nargs='?')
    parser.add_argument('--pages')
    parser.add_argument('--shots')
    parser.add_argument('--only', nargs='*', default=[])
    parser.parse_args(namespace=WORDS)
    if WORDS.program is None and WORDS.pages is None:
        parser.error('PROGRAM or --pages is needed')
    python, lacking = desk.best_python(MODULES)
    packages = [MODULES[name] for name in lacking] + [package for name, package in PROGRAMS.items() if shutil.which(name) is None]
    if packages:
        print(f'passed over: the tests of the report need what is not there: {desk.INSTALL} {" ".join(packages)}')
        print('0 passed, 0 failed, 1 passed over')
        return 0
    if python != sys.executable:
        os.execv(python, [python, *sys.argv])
    with tempfile.TemporaryDirectory() as folder:
        if WORDS.pages is None:
            make_pages(os.path.abspath(WORDS.program), folder)
        WORDS.pages = os.path.abspath(WORDS.pages or folder)
        return run_tests(module, WORDS.only)
