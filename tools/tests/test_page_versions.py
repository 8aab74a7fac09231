"""Tests what the page keeps and saves: the count of a map before, places in map units, paths, and the names of files with the doors."""
import json
import os
import struct
import subprocess
import unittest

from made_files import COMMAND
from made_maps import Map
from page_driven import GAMES, SAID, TESTED, Shown
from doomview_tools import earlier_run, levels, paths, wads

STEP = '256'


def lighter(wad, name):
    """The bytes of a PWAD of a map in which every second sector without a sky has a light of its own."""
    level = levels.read([wad], name)
    data = bytearray(level.lumps['SECTORS'])
    for number, sector in enumerate(level.sectors):
        if number % 2 and sector.ceiling_flat != 'F_SKY1':
            struct.pack_into('<h', data, 26 * number + 20, (40 + 8 * number) % 256)
    return levels.alone(level, {'SECTORS': bytes(data)})


class Versions(Shown):
    def limits_map(self, *words):
        done = subprocess.run([COMMAND, 'limits-map', *words, '--json', '--step', STEP], stdin=subprocess.DEVNULL, capture_output=True,
                              env={**os.environ, 'DOOMVIEW': TESTED})
        self.assertIn(done.returncode, (0, 1), done.stderr)
        return json.loads(done.stdout)

    def saved(self, name):
        return self.bytes_of(f'saved[{name!r}]')

    @unittest.skipUnless(GAMES, 'Freedoom is not installed')
    def test_before(self):
        """The count of a version stays when the next one is dropped; what got worse and better is what limits-map --before says."""
        game = GAMES[-1]
        path = self.write('mine.wad', levels.alone(levels.read([game], 'MAP02'), {}))
        self.take(game, path)
        self.choose('MAP02')
        old = self.value(f'driver.counted({STEP!r})')
        self.write('mine.wad', lighter(game, 'MAP02'))
        self.browser.choose('#files', [path])
        self.browser.wait('level && !whole.found && walker.view && !walker.isBusy')
        self.assertIn('Before: mine.wad as it was until', self.value("showPanel('countPanel', true); find('before').textContent"))
        new = self.value(f'driver.counted({STEP!r})')
        with open(self.at('old.json'), 'w', encoding='utf-8') as file:
            json.dump(old, file, indent=1)
        theirs = self.limits_map('--iwad', game, path, 'MAP02', '--before', self.at('old.json'))
        here = self.value('earlier.found')
        self.assertEqual(here['lines'], theirs['before'])
        self.assertGreater(len(here['changes']), 5)
        self.assertEqual([[change[part] for part in ('doors', 'count', 'x', 'y', 'before', 'now')] for change in here['changes']],
                         [[change[part] for part in ('doors', 'count', 'x', 'y', 'before', 'now')] for change in theirs['changes']])
        self.assertEqual(here['isWorse'], theirs['worse'])
        self.assertEqual({**new, 'wad': 0}, {**{key: theirs[key] for key in new}, 'wad': 0})
        marks = self.value('earlier.marks().map(mark => mark.told)')
        self.assertEqual(len(marks), sum(change['doors'] == 'shut' and change['count'] == 'planes' for change in here['changes']))
        self.assertIn('worse', {mark.split(',')[0] for mark in marks})
        self.assertEqual(earlier_run.SHOWN, 4)

    @unittest.skipUnless(GAMES, 'Freedoom is not installed')
    def test_dropped_count(self):
        """What limits-map --json wrote is the count before, and so is what the page saves."""
        game = GAMES[-1]
        old = self.limits_map(game, 'MAP01')
        self.take(game)
        self.value(f"takeFiles([new File([{json.dumps(json.dumps(old, indent=1))}], 'old.json')])")
        now = self.value(f'driver.counted({STEP!r})')
        self.assertEqual({**now, 'wad': 0}, {**old, 'wad': 0})
        self.assertEqual(self.value('earlier.found'), {'lines': [], 'changes': [], 'isWorse': False})
        self.value('driver.catchSaved()')
        self.value("find('json').click(); 0")
        text = self.value("saved['freedoom2-map01.json']")
        self.assertEqual(json.loads(text), now)
        self.value("earlier.forget(); earlier.take(saved['freedoom2-map01.json'], 'mine.json'); 0")
        self.assertIn('MAP01 of mine.json', self.value("find('before').textContent"))

    def test_doors(self):
        """What is saved says with which doors, and the opened map is beside it; a path mixes neither doors nor maps."""
        if not GAMES:
            self.skipTest('Freedoom is not installed')
        self.take(GAMES[-1])
        self.value(f'driver.catchSaved(); driver.counted({STEP!r})')
        self.value("find('worstPath').click(); 0")
        self.browser.wait("driver.savedNames().length === 3")
        self.assertEqual(self.value('driver.savedNames()'), ['freedoom2-map01-doors-open.wad', 'freedoom2-map01-worst-doors-open.csv', 'freedoom2-map01-worst-doors-shut.csv'])
        with open(self.at('open.wad'), 'wb') as file:
            file.write(self.saved('freedoom2-map01-doors-open.wad'))
        subprocess.run([COMMAND, 'limits-map', GAMES[-1], 'MAP01', '--step', STEP, '--opened', self.at('theirs.wad')], stdout=subprocess.DEVNULL,
                       env={**os.environ, 'DOOMVIEW': TESTED})
        self.assertEqual(wads.read(self.at('open.wad')), wads.read(self.at('theirs.wad')))
        with open(self.at('worst.csv'), 'w', encoding='utf-8') as file:
            file.write(self.value("saved['freedoom2-map01-worst-doors-open.csv']"))
        rows = paths.rows(self.at('worst.csv'))
        most = self.value("whole.found.states[1].worst.planes[0]")
        number = [list(row[:4]) for row in rows].index(most[1])
        counted = self.native('limits', [GAMES[-1], self.at('open.wad')], 'MAP01', rows).decode().splitlines()[number]
        self.assertIn(f' planes {most[0]} ', counted)
        self.value("saved = {}; find('keep').click(); chooseState(1); 0")
        self.browser.wait('walker.place.isOpen && !walker.isBusy')
        self.browser.press('k')
        self.value("find('path').click(); 0")
        self.browser.wait('driver.savedNames().length === 3')
        self.assertEqual([len(self.value(f'saved[{name!r}].trim().split("\\n").length') * 'x') for name in
                          ('freedoom2-map01-views-doors-open.csv', 'freedoom2-map01-views-doors-shut.csv')], [2, 2])
        self.choose('MAP02')
        self.assertEqual(self.value('kept.count'), 0)

    def test_names(self):
        """Names of files have the WAD's and the map's name."""
        path = self.write('My Map.wad', wads.wad_of(Map('....').lumps.items(), b'PWAD'))
        self.take(self.room, path)
        self.value("driver.catchSaved(); ['path', 'trim', 'png'].forEach(id => find(id).click()); 0")
        self.browser.wait('driver.savedNames().length === 3')
        self.assertEqual(self.value('driver.savedNames()'), ['my_map-map01-small.wad', 'my_map-map01-view-doors-shut.csv', 'my_map-map01.png'])

    def test_units(self):
        """The place is shown in map units; a field takes those, as an editor copies them, or a row of a path."""
        self.take(self.room)
        for text, place, row in (('480 300, 90', '480 300, 90°', [480, 300, None, 90]), ('X: 500.5 Y: 310 (angle 45)', '500.5 310, 45°', [500.5, 310, None, 45]),
                                 ('31457280,13107200,3276800,3221225472', '480 200, 270°', [480, 200, 50, 270]), ('(512, 192)', '512 192, 270°', [512, 192, None, 270])):
            self.value(f"find('where').focus(); find('where').value = {text!r}; 0")
            self.browser.press('Enter', 13)
            self.browser.wait(f"!walker.isBusy && document.activeElement === find('picture') && find('where').value === {place!r}")
            here = self.value('walker.view.row')
            self.assertEqual([here[0] / 65536, here[1] / 65536, here[3] / 2 ** 32 * 360], [row[0], row[1], row[3]])
            if row[2]:
                self.assertEqual(here[2] / 65536, row[2])
        self.value("find('where').focus(); find('where').value = 'hello'; 0")
        self.browser.press('Enter', 13)
        self.browser.wait("find('hint').textContent.includes('is no place')")

    def test_path(self):
        """A saved path that is dropped is walked through."""
        self.take(self.room)
        rows = [paths.Row(512 << 16, (192 + 32 * i) << 16, 41 << 16, 1 << 30) for i in range(3)]
        self.value(f"takeFiles([new File([{json.dumps(paths.text(rows))}], 'way.csv')])")
        for number in (0, 1, 2, 0):
            self.browser.wait(f'!walker.isBusy && walker.view.row.join() === {json.dumps(",".join(map(str, rows[number][:4])))}')
            self.assertIn(f'way.csv: view {number} of 3', self.value("find('stepTold').textContent"))
            self.browser.press('.')
        self.value('walk.step(-1); walk.step(-1); walk.play(); 0')
        self.browser.wait('walk.at === 2')
        self.assertEqual(self.value(SAID), '')


if __name__ == '__main__':
    unittest.main()
