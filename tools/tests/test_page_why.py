"""Tests that the page says why a view has its counts with the numbers of why-limit, and colours what it says in the picture."""
import collections
import json
import os
import re
import subprocess
import unittest

from made_files import COMMAND
from page_driven import GAMES, TESTED, Shown
from doomview_tools import levels, list_files, map_places, paths, traces

TABLES = {'planes': 'planes', 'splits': 'splits', 'fragments': 'fragments', 'sprites': 'sprites', 'solid range of line': 'solids', 'saves': 'savings'}
VIEWS = [('MAP01', '25165824,-81788928,-3604480,1073741824'), ('MAP02', '57671680,7372800,7405568,2684354560'),
         ('MAP12', '-137887744,-93814784,-3604480,536870912')]


def tables(text):
    """The tables of why-limit: rows of cells by the word of each table."""
    found, name = collections.defaultdict(list), None
    for line in text.splitlines():
        cells = re.split(r'  +', line.strip())
        if not line:
            name = None
        elif cells[0] in TABLES and name is None:
            name = TABLES[cells[0]]
        elif name:
            found[name].append(cells)
    return found


class Why(Shown):
    def native(self, wad, name, row, *more):
        done = subprocess.run([COMMAND, 'why-limit', wad, name, row, '--all', *more], stdin=subprocess.DEVNULL, capture_output=True,
                              env={**os.environ, 'DOOMVIEW': TESTED})
        self.assertIn(done.returncode, (0, 1), done.stderr)
        return tables(done.stdout.decode())

    def here(self, row, is_open=False):
        """The tables of the page of a view."""
        words = json.dumps({'row': list(map(int, row.split(','))), 'spans': 'full', 'isOpen': is_open})
        found = self.value(f"crew.some('why', {words}).then(({{ tables }}) => tables)")
        return {**found, 'savings': self.value(f"crew.some('savings', {words})")}

    def same(self, wad, name, row, *more):
        theirs, here = self.native(wad, name, row, *more), self.here(row, '--open' in more)
        for table in TABLES.values():
            self.assertEqual([[cell for cell in cells if cell] for cells in here[table]], theirs[table], f'{name} {row} {table}')
        self.assertGreater(len(here['planes']), 3)

    def test_room(self):
        """The tables of views of the room are those of why-limit, and what would save most."""
        self.take(self.room)
        for row in ('33554432,12582912,2686976,1073741824', '36700160,7372800,2686976,1073741824'):
            self.same(self.room, 'MAP01', row)

    @unittest.skipUnless(GAMES, 'Freedoom is not installed')
    def test_freedoom(self):
        """So are those of worst views of Freedoom, with more than any limit, and of one with the doors open."""
        self.take(GAMES[-1])
        for name, row in VIEWS:
            self.choose(name)
            self.same(GAMES[-1], name, row)
        self.choose('MAP01')
        self.value("driver.counted('256')")
        self.same(GAMES[-1], 'MAP01', ','.join(map(str, self.value("whole.found.states.find(one => one.label === 'open').worst.planes[0][1]"))), '--open')

    def test_colours(self):
        """A row of the table of planes has in the picture the pixels that its planes painted, and no others."""
        self.take(self.room)
        self.browser.press('y')
        self.browser.wait("why.found && why.savings && !find('colours').hidden")
        row = paths.Row(*self.value('walker.view.row'))
        trace, listed = self.at('trace.bin'), self.at('list.txt')
        for path, job in ((trace, 'trace'), (listed, 'list')):
            with open(path, 'wb') as file:
                file.write(super().native(job, self.room, 'MAP01', [row]))
        view, places = list_files.ListFile(listed).view(0), map_places.Places(levels.read([self.room], 'MAP01'), traces.Names([self.room]), listed)
        painted = collections.Counter()
        for y in range(200):
            for x in range(320):
                record = traces.record_at(trace, 0, x, y)
                if record[0] in (traces.PLANE, traces.SKY):
                    painted[places.group(view, view.planes[record[2]]).key] += 1
        here = self.value('driver.planePixels()')
        self.assertEqual(sorted(here), sorted(painted.values()))
        self.value("document.querySelector('#why table tr.link').click(); 0")
        shown = self.value("[...driver.pixels('colours')].filter((part, i) => i % 4 === 3 && part).length")
        self.assertIn(shown, here)
        self.assertEqual(shown, self.value("why.found.pixels.planes.rows.filter(row => row === 0).length"))
        self.value("[...document.querySelectorAll('#why button')].at(-1).click(); 0")
        self.assertEqual(self.value("document.querySelectorAll('#why .saving').length"), min(8, len(self.here(','.join(map(str, row[:4])))['savings'])))

    def test_follows(self):
        """The panel is of the view that is shown, and closed its colours are gone."""
        self.take(self.room)
        self.browser.press('y')
        self.browser.wait('why.found')
        before = self.value('why.key')
        self.browser.press('s')
        self.browser.wait(f'!walker.isBusy && why.key !== {json.dumps(before)} && JSON.parse(why.key).row.join() === walker.view.row.join()')
        self.assertEqual(self.value('why.found.tables.planes.reduce((sum, [count]) => sum + Number(count), 0)'), self.value('walker.view.counts.planes'))
        self.browser.press('y')
        self.assertEqual(self.value("[find('colours').hidden, isShown('whyPanel')]"), [True, False])


if __name__ == '__main__':
    unittest.main()
