"""Tests the window of the page: what is in sight at which size, what is dark, bars, panels and keys."""
import json
import unittest

from page_driven import PAGE, READY, Shown
from doomview_tools import counting

ALWAYS = ['bar', 'chosen', 'map', 'picture', 'counts', 'start', 'where', 'copy', 'pixel', 'keyLine']
SIZES = [(1280, 720, False, 'counted'), (1920, 1080, False, 'counted'), (1366, 768, False, ''), (1000, 700, False, 'counted'), (700, 900, False, 'counted'), (390, 844, True, 'counted')]
KEYS = {'w': 87, 's': 83, 'a': 65, 'd': 68}


class Window(Shown):
    def size(self, width, height, is_mobile=False):
        self.devtools('Emulation.setDeviceMetricsOverride', width=width, height=height, deviceScaleFactor=1, mobile=is_mobile)
        self.value('new Promise(done => requestAnimationFrame(() => requestAnimationFrame(() => done(0))))')

    def test_sizes(self):
        """Map, picture, counts and worst views are in sight together, without scrolling, at each size."""
        for width, height, is_mobile, state in SIZES:
            with self.subTest(width=width):
                self.size(width, height, is_mobile)
                self.browser.show(PAGE)
                self.browser.wait(READY)
                self.drive()
                self.take(self.room)
                if state:
                    self.value("driver.counted('128')")
                wide = [part for part in ALWAYS if width > 800 or part != 'keyLine']
                self.assertEqual(self.value(f'driver.outside({json.dumps(wide + (["worst", "doors"] if state else []))})'), [])
                self.assertEqual(self.value('[document.documentElement.scrollWidth, document.documentElement.scrollHeight]'), [width, height])
                boxes = {part: self.value(f'driver.box({part!r})') for part in ('map', 'picture')}
                if width > 800:
                    self.assertLess(boxes['map']['left'] + boxes['map']['width'], boxes['picture']['left'])
                    self.assertGreater(boxes['map']['height'], .85 * height)
                else:
                    self.assertLess(boxes['picture']['top'] + boxes['picture']['height'], boxes['map']['top'])
                    self.assertGreater(boxes['map']['height'], 110)
                self.assertAlmostEqual(boxes['picture']['width'] / boxes['picture']['height'], 4 / 3, delta=.01)
        self.shown_once()

    def test_split(self):
        """The border of map and picture is moved by mouse and by keys, and the map takes its room."""
        self.size(1280, 720)
        self.take(self.room)
        before = self.value('driver.box("map").width')
        border = self.value('driver.box("split")')
        at = (border['left'] + 3, border['top'] + 200)
        self.browser.mouse('mousePressed', *at)
        self.devtools('Input.dispatchMouseEvent', type='mouseMoved', x=at[0] - 200, y=at[1], button='left', buttons=1)
        self.browser.mouse('mouseReleased', at[0] - 200, at[1])
        self.browser.wait(f'driver.box("map").width < {before - 150}')
        self.browser.wait('display.width === find("map").clientWidth')
        share = self.value('split.share')
        self.value("find('split').focus(); 0")
        self.browser.press('ArrowRight', 39)
        self.assertEqual(self.value('split.share'), share - 2)

    def test_panels(self):
        """Panels open beside map, picture, counts and worst views, and close."""
        self.size(1280, 720)
        self.take(self.room)
        self.value("driver.counted('128')")
        for panel in self.value("[...document.querySelectorAll('#tabs button')].map(it => it.dataset.panel)"):
            self.value(f"document.querySelector('#tabs [data-panel={panel}]').click(); 0")
            self.assertTrue(self.value(f'isShown({panel!r})'))
            self.assertEqual(self.value('driver.outside(["map", "picture", "counts", "worst", "doors", "panels"])'), [])
            self.value(f"document.querySelector('#tabs [data-panel={panel}]').click(); 0")
            self.assertFalse(self.value(f'isShown({panel!r})'))

    def test_dark(self):
        """Where the system is dark the page is."""
        self.take(self.room)
        brightness = "(([r, g, b]) => Number(r) + Number(g) + Number(b))(getComputedStyle(document.body).backgroundColor.match(/\\d+/g))"
        self.assertGreater(self.value(brightness), 600)
        self.devtools('Emulation.setEmulatedMedia', features=[{'name': 'prefers-color-scheme', 'value': 'dark'}])
        self.browser.wait("display.theme === 'dark'")
        self.assertLess(self.value(brightness), 150)

    def test_bars(self):
        """A bar shows what is farther over its limit as more."""
        self.take(self.room)
        lengths = []
        for planes in (0, 64, 128, 129, 187, 318, 500):
            self.value(f"counts.show({{ planes: {planes} }}); 0")
            lengths.append(self.value("[...document.querySelectorAll('#counts .bar')[0].children].reduce((sum, part) => sum + part.getBoundingClientRect().width, 0)"))
            self.assertEqual(self.value("document.querySelector('#counts td.number').className.includes('over')"), planes > 128)
        self.assertEqual(lengths, sorted(set(lengths)))

    def test_before(self):
        """Before a WAD is there: what the page is, where to drop, a picture; and no control that does nothing."""
        self.size(1280, 720)
        self.assertEqual(self.value("driver.outside(['drop', 'chooseFirst'])"), [])
        self.assertGreater(self.value("document.querySelector('#drop img').naturalWidth"), 300)
        self.assertIn('Drop WADs here', self.value("find('drop').innerText"))
        self.assertEqual(self.value("[...document.querySelectorAll('#bar button, #bar select')].filter(it => it.offsetParent).map(it => it.textContent)"), ['Files', 'Help'])

    def test_words(self):
        """The words of the trade, with an explanation where the pointer is."""
        self.take(self.room)
        shown = self.value("[...document.querySelectorAll('#counts th button')].map(it => [it.textContent, it.title])")
        self.assertEqual([word for word, _ in shown], ['visplanes', 'openings', 'drawsegs', 'vissprites', 'solidsegs'])
        self.assertTrue(all(len(told) > 40 for _, told in shown))
        self.assertEqual(len(shown), len(counting.COUNTS))

    def test_port(self):
        """A port's frames have a panel of their own, and what is compared lies over the map."""
        self.take(self.room)
        self.value("compared = ''; putFiles('portPath', [new File([pathText([walker.view.row])], 'own.csv')]); putFiles('portFrames', [new File([walker.view.frame], 'own.bin')]); compare()")
        self.assertFalse(self.value("find('portPage').hidden"))
        self.browser.press('Escape', 27)
        self.assertTrue(self.value("find('portPage').hidden"))


class Keys(Shown):
    def test_letters(self):
        """W A S D walk, in either case of a letter; after a choice in a list the picture has the focus."""
        self.take(self.room)
        for letters in ('wsad', 'WSAD'):
            for letter in letters:
                before = self.value('walker.view.row.join()')
                self.browser.press(letter, KEYS[letter.lower()])
                self.browser.wait(f"!walker.isBusy && walker.view.row.join() !== '{before}'")
        self.value("find('skill').focus(); find('skill').value = '4'; find('skill').dispatchEvent(new Event('change')); 0")
        self.browser.wait("document.activeElement === find('picture') && level.skill === 4 && walker.view && !walker.isBusy")
        for key, part in (('K', 'Kept: '), ('C', ''), ('3', 'drawsegs')):
            self.browser.press(key)
            self.browser.wait(f"find('hint').textContent.includes({part!r})")
        self.assertEqual(self.value('kept.count'), 1)
        self.browser.press('?')
        self.assertIn('ahead, back', self.value("find('keys').innerText"))
        self.assertTrue(self.value("isShown('helpPanel')"))

    def test_named(self):
        """Each control has a name, and can be reached by the keyboard."""
        self.take(self.room)
        self.value("driver.counted('256')")
        for panel in ('', *self.value("[...document.querySelectorAll('#tabs button')].map(it => it.dataset.panel)")):
            self.value(f"{panel!r} && showPanel({panel!r}, true); 0")
            named = self.value('driver.unnamed()')
            self.assertEqual(named, [])


if __name__ == '__main__':
    unittest.main()
