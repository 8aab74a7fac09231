"""Tests that the page finds in maps what lint finds, sentence for sentence, and shows it."""
import contextlib
import json
import os
import re
import unittest

import faulty_maps
from page_driven import GAMES, Shown, run
from doomview_tools import checks, levels, wads
from doomview_tools.trouble import Trouble
from systems.page import FOLDER

KIND = re.compile(r'\d+')


def native(files, name):
    """What lint finds in a map, as lists; or the sentence with which the map is refused."""
    try:
        level = levels.read(files, name)
        level.check_whole()
        return [list(found) for found in checks.findings(level, files)]
    except Trouble as error:
        return str(error)


class Findings(Shown):
    def here(self, cases, paths):
        """What the page finds in maps: cases are pairs of the names of files and a map."""
        self.value('driver.addInput()')
        self.browser.choose('#given', paths)
        return self.value(f'driver.findings({json.dumps(cases)})')

    @contextlib.contextmanager
    def in_folder(self):
        """In the folder of the files, so that names of files are the same in both."""
        before = os.getcwd()
        os.chdir(self.folder)
        try:
            yield
        finally:
            os.chdir(before)

    @unittest.skipUnless(GAMES, 'Freedoom is not installed')
    def test_freedoom(self):
        """The findings of all maps of Freedoom are those of lint, in its order."""
        for path in GAMES:
            own = os.path.basename(path)
            with contextlib.suppress(FileExistsError):
                os.symlink(path, self.at(own))
        with self.in_folder():
            cases = [([os.path.basename(path)], name) for path in GAMES for name in wads.maps_of([path])]
            found, count = self.here(cases, [self.at(os.path.basename(path)) for path in GAMES]), 0
            self.assertEqual(len(found), len(cases))
            for (files, name), here in zip(cases, found):
                self.assertEqual(here, native(files, name), name)
                count += len(here)
        self.assertEqual(len(cases), 36 * (len(GAMES) > 1) + 32)
        self.assertGreater(count, 1000)

    def test_faulty(self):
        """So are those of a map for each kind of finding."""
        kinds, cases = set(), []
        for number, (_, made, lumps) in enumerate(faulty_maps.faulty_maps()):
            self.write(f'made{number}.wad', faulty_maps.pwad(made, lumps))
            cases.append((['room.wad', f'made{number}.wad'], 'MAP01'))
        with self.in_folder():
            found = self.here(cases, [self.at(name) for name in os.listdir('.') if name.endswith('.wad')])
            self.assertEqual(len(found), len(cases))
            for (files, name), (what, *_), here in zip(cases, faulty_maps.faulty_maps(), found):
                self.assertEqual(here, native(files, name), what)
                self.assertTrue(here, what)
                kinds.update((grade, kind, KIND.sub('', told)[:14]) for grade, kind, _, told in (here if isinstance(here, list) else []))
        self.assertGreaterEqual(len(cases), 40)
        self.assertGreaterEqual(len(kinds), 25, kinds)

    def test_tables(self):
        """The tables of specials, things and limits are in data/game.json alone: no script has a list of its own."""
        for name in os.listdir(FOLDER):
            with open(os.path.join(FOLDER, name), encoding='utf-8') as file:
                text = file.read()
            for mark in (r'\b2049\b', r'\b20,?480\b', r'117, ?118', r'\b666\b'):
                self.assertEqual(re.findall(mark, text) if name != 'doomview.html' else [], [], name)

    def test_shown(self):
        """Each finding is a line of the panel and a mark on the map; a click goes to its place."""
        path = self.write('mine.wad', faulty_maps.pwad(dict((what, made) for what, made, _ in faulty_maps.of_rest())['an unknown thing that never appears'], []))
        self.take(self.room, path)
        self.browser.wait('findings.found')
        self.assertEqual(self.value("[...document.querySelectorAll('.finding')].map(it => it.textContent)"),
                         [line for line in run('lint', '--iwad', self.room, path, 'MAP01').decode().splitlines()])
        self.assertEqual(self.value('display.shown.marks.length'), 1)
        self.assertEqual(self.value("find('findingsCount').textContent"), '1')
        mark = self.value('[display.shown.marks[0].x, display.shown.marks[0].y]')
        before = self.value('walker.view.row.join()')
        self.value("showPanel('findingsPanel', true); document.querySelector('.finding').click(); 0")
        self.browser.wait(f"walker.view.row.join() !== '{before}' && !walker.isBusy")
        self.assertEqual(self.value('display.centre'), mark)
        row = self.value('walker.view.row.map(part => part / 65536)')
        self.assertAlmostEqual(((row[0] - mark[0]) ** 2 + (row[1] - mark[1]) ** 2) ** .5, 64, delta=1)
        self.browser.press('l')
        self.assertFalse(self.value("isShown('findingsPanel')"))
        self.value("findings.toggle.click(); 0")
        self.assertEqual(self.value('display.shown.marks.length'), 0)

    def test_open_alone(self):
        """A map that is over a limit with its doors open alone is marked at the button and in the summary."""
        self.take(self.room)
        self.value("driver.counted('256')")
        for name, count in (('shut', 0), ('open', 7)):
            self.value(f"{{ const state = whole.found.numbers.states.find(one => one.doors === {name!r}); if (state) state.counts.planes.over = {count}; }}")
        if self.value('whole.found.numbers.states.length') < 2:
            self.value("whole.found.numbers.states.push({ ...structuredClone(whole.found.numbers.states[0]), doors: 'open' }); "
                       "whole.found.states.push({ ...whole.found.states[0], label: 'open' }); whole.found.numbers.states[1].counts.planes.over = 7; 0")
        self.value('showWhole(); 0')
        self.assertIn('over', self.value("[...document.querySelectorAll('#doors button')].at(-1).className"))
        self.assertIn('Over a limit with the doors open alone: visplanes.', self.value("find('sum').textContent"))


if __name__ == '__main__':
    unittest.main()
