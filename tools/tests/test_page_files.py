"""Tests what the page makes of files: those that are dropped again or changed on disk, folders, maps that cannot be read, and
textures and flats that there are not."""
import json
import os
import time
import unittest

import faulty_maps
import test_lint_kinds as kinds
from made_files import name
from made_maps import Map
from page_driven import GAMES, IS_FIREFOX, SAID, Shown
from doomview_tools import room, wads

FREE = Map('....', **{'.': {'below': 'FLOOR0_1', 'above': 'CEIL1_1', 'wall': 'STARTAN3'}})  # with Freedoom's art


def pwad(made, *lumps, label='MAP01'):
    """A PWAD of a map under another label."""
    return wads.wad_of([(label if part == 'MAP01' else part, data) for part, data in made.lumps.items()] + list(lumps), b'PWAD')


def hall(letters='....', **more):
    return Map(letters, **more)


class Dropping(Shown):
    def drop(self, *files):
        """Drops files and folders on the page, as a user does."""
        data = {'items': [], 'files': [os.path.abspath(path) for path in files], 'dragOperationsMask': 1}
        for kind in ('dragEnter', 'dragOver', 'drop'):
            self.devtools('Input.dispatchDragEvent', type=kind, x=400, y=300, data=data)

    def settled(self):
        self.value('driver.settled()')


class Files(Dropping):
    def test_again(self):
        """A file that is chosen or dropped again takes the place of that of its name: map, view and count are new."""
        path = self.write('mine.wad', pwad(hall()))
        self.take(self.room, path)
        first = self.value("driver.counted('256')")
        self.write('mine.wad', pwad(hall('....', **{'.': {'floor': 32}})))
        row = self.value('walker.view.row')
        self.browser.choose('#files', [path])
        self.browser.wait('level && !whole.found && walker.view && !walker.isBusy')
        self.assertEqual(self.value('list.files.map(file => file.name)'), ['room.wad', 'mine.wad'])
        self.assertEqual(self.value('walker.view.row')[2] - row[2], 32 << 16)
        self.assertEqual(self.value('walker.view.row')[:2], row[:2])
        self.write('mine.wad', pwad(hall('......')))
        self.drop(path)
        self.browser.wait("find('map') && level && level.sectors === 1 && walker.view && !walker.isBusy && display.box[0][1] > 400")
        second = self.value("driver.counted('256')")
        self.assertNotEqual(first['states'][0]['places'], second['states'][0]['places'])
        self.assertEqual(self.said(), '')

    def test_changed(self):
        """A file that has changed on disk is named before it is counted, and where it is read after all; nothing is thrown."""
        path = self.write('mine.wad', pwad(hall()))
        self.take(self.room, path)
        time.sleep(1.1)
        self.write('mine.wad', pwad(hall('......', **{'.': {'wall': 'PANELS'}})))
        self.value("find('start').click(); 0")
        self.browser.wait(f"{SAID} === 'mine.wad has changed on disk; choose it again, or drop it.'")
        self.assertIsNone(self.value('whole.found'))
        if not IS_FIREFOX:  # which reads what is there now
            self.value("find('unsay').click(); list.changed(list.files); 0")
            self.browser.wait(f"{SAID}.includes('mine.wad has changed on disk, or cannot be read; choose it again')")
        self.take(self.room, path)
        self.assertEqual(self.said(), '')
        self.value("say(''); dispatchEvent(new Event('focus')); 0")
        os.remove(path)
        self.value("dispatchEvent(new Event('focus')); 0")
        self.browser.wait(f"{SAID}.includes('mine.wad has changed')")

    def test_read_anew(self):
        """A file that was dropped, and changed on disk since, is read anew where the browser can."""
        path = self.write('mine.wad', pwad(hall()))
        self.take(self.room)
        self.drop(path)
        self.browser.wait("level && level.wad === 'mine.wad' && walker.view && !walker.isBusy")
        if not self.value("list.handles.has('mine.wad')"):
            self.skipTest('this browser gives no handles of files')
        time.sleep(1.1)
        self.write('mine.wad', pwad(hall('....', **{'.': {'floor': 32}})))
        row = self.value('walker.view.row')
        self.value("dispatchEvent(new Event('focus')); 0")
        self.browser.wait(f'walker.view && walker.view.row[2] === {row[2] + (32 << 16)}')
        self.assertIn('Read anew: mine.wad', self.value("find('hint').textContent"))

    def test_folder(self):
        """A folder is searched for WADs; one without any has a sentence."""
        os.makedirs(self.at('folder/below'), exist_ok=True)
        os.makedirs(self.at('nothing'), exist_ok=True)
        self.write('folder/below/mine.WAD', pwad(hall()))
        self.write('folder/room.wad', room.room())
        self.write('folder/notes.txt', b'x')
        self.drop(self.at('folder'))
        self.browser.wait("level && level.wad === 'mine.WAD' && walker.view && !walker.isBusy")
        self.assertEqual(sorted(self.value('list.names')), ['mine.WAD', 'room.wad'])
        self.drop(self.at('nothing'))
        self.browser.wait(f"{SAID} === 'The folder nothing has no WAD in it.'")

    def test_unawaited(self):
        """An error that nobody awaited is a sentence on the page, in the page and in a worker."""
        self.value("Promise.reject(new Error('one')); 0")
        self.browser.wait(f"{SAID} === 'This page failed: one'")
        self.value("setTimeout(() => { throw new Error('two'); }); 0")
        self.browser.wait(f"{SAID}.startsWith('This page failed:') && {SAID}.endsWith('two')")
        if IS_FIREFOX:
            self.browser.errors.clear()  # it tells of the first all the same

    def test_game_first(self):
        """A game's IWAD comes before PWADs, in whatever order files come."""
        path = self.write('mine.wad', pwad(hall()))
        self.take(path, self.room)
        self.assertEqual(self.value('list.names'), ['room.wad', 'mine.wad'])
        self.assertEqual((self.value('level.wad'), self.said()), ('mine.wad', ''))

    def test_no_answer(self):
        """What is dropped or clicked and leads nowhere is answered."""
        self.value("{ const data = new DataTransfer(); data.setData('text/plain', 'x'); dispatchEvent(new DragEvent('drop', { dataTransfer: data })); } 0")
        self.browser.wait(f"{SAID}.startsWith('That is no file')")
        self.drop(self.write('way.csv', b'x,y,z,angle\n0,0,0,0\n'))
        self.browser.wait(f"{SAID}.startsWith('Drop a WAD first')")
        self.take(self.room)
        for key, part in (('n', 'Count the whole map first'), ('o', 'Count the whole map first')):
            self.value("find('hint').textContent = ''; 0")
            self.browser.press(key)
            self.browser.wait(f"find('hint').textContent.startsWith({json.dumps(part)})")
        self.value('stand(-30000, -30000, {}); 0')
        self.browser.wait("find('hint').textContent.startsWith('There is no floor at -30000 -30000')")
        self.drop(self.write('bad.csv', b'hello'))
        self.browser.wait(f"{SAID}.startsWith('bad.csv is no camera path')")
        self.drop(self.write('bad.json', b'{}'))
        self.browser.wait(f"{SAID}.startsWith('bad.json is nothing that limits-map --json')")


class Maps(Dropping):
    def test_hidden(self):
        """A map that cannot be read is named with its sentence, and no other is shown in its place."""
        lumps = list(hall().lumps.items())
        order = [lumps[0], lumps[2], lumps[1], *lumps[3:]]
        cases = {'udmf.wad': ([('MAP01', b''), ('TEXTMAP', b'x'), ('ENDMAP', b'')], 'MAP01 of udmf.wad is a UDMF map; save it in Doom format'),
                 'hexen.wad': ([*lumps[:9], ('REJECT', b'\0'), ('BLOCKMAP', b'\0' * 8), ('BEHAVIOR', b'x')], 'MAP01 of hexen.wad is in Hexen format'),
                 'order.wad': (order, 'MAP01 of order.wad is no map: behind it are LINEDEFS, THINGS'),
                 'label.wad': ([('MAP01', b'')], 'MAP01 of label.wad is no map: behind it are no lumps'),
                 'nodes.wad': ([part for part in lumps if part[0] not in ('SEGS', 'SSECTORS', 'NODES')], 'MAP01 of nodes.wad has no nodes'),
                 'named.wad': ([('MYMAP', b''), ('TEXTMAP', b'x')], 'MYMAP of named.wad is a UDMF map')}
        for file, (made, sentence) in cases.items():
            with self.subTest(file=file):
                self.value('list.files = []; list.changed([]); 0')
                self.take(self.room)
                self.browser.choose('#files', [self.write(file, wads.wad_of(made, b'PWAD'))])
                self.browser.wait(f'{SAID}.includes({json.dumps(sentence)})')
                self.assertIsNone(self.value('level'))
                self.assertIn(f'({file}): cannot be read', self.value("find('chosen').selectedOptions[0].textContent"))

    def test_chosen(self):
        """The first map of the last PWAD is chosen, and says whose it is."""
        if not GAMES:
            self.skipTest('Freedoom is not installed')
        path = self.write('mine.wad', pwad(FREE, label='MAP30'))
        self.write('textures.wad', wads.wad_of([('NOTHING', b'')], b'PWAD'))
        lumps = [(label if part == 'MAP01' else part, data) for label in ('MAP09', 'MAP08') for part, data in FREE.lumps.items()]
        two = self.write('two.wad', wads.wad_of(lumps, b'PWAD'))
        self.browser.choose('#files', [GAMES[-1], path, self.at('textures.wad')])
        self.browser.wait(f"level && level.map === 'MAP30' || {SAID}")
        self.assertEqual(self.value("find('chosen').selectedOptions[0].textContent"), 'MAP30 (mine.wad)')
        self.browser.choose('#files', [two])
        self.browser.wait("find('chosen').value === 'MAP08'")
        self.assertEqual(self.value("find('chosen').selectedOptions[0].textContent"), 'MAP08 (two.wad)')


class StandIns(Dropping):
    def test_missing(self):
        """A map that names textures and flats that there are not is drawn, with squares in their place, and all are said."""
        if not GAMES:
            self.skipTest('Freedoom is not installed')
        art = {'below': 'FLOOR0_1', 'above': 'CEIL1_1'}
        made = Map('..x', x={**art, 'floor': 32, 'wall': 'NOWALL', 'below': 'NOFLAT', 'above': 'NOSKY'}, **{'.': {**art, 'wall': 'NOBRICK'}})
        self.take(GAMES[-1], self.write('mine.wad', faulty_maps.pwad(made, [])))
        for part in ('MAP01 of mine.wad names 2 textures (NOBRICK, NOWALL) and 2 flats (NOFLAT, NOSKY)', 'Squares are drawn in their place'):
            self.assertIn(part, self.said())
        self.assertGreater(self.value('driver.pinkPixels()'), 2000)
        self.browser.wait('findings.found')
        told = self.value('findings.found.map(one => one.told)')
        for name_ in ('NOWALL', 'NOBRICK', 'NOFLAT', 'NOSKY'):
            self.assertTrue(any(name_ in one for one in told), told)

    def test_same_counts(self):
        """The counts of a view are those of the map with art of its own under these names."""
        squares = dict(x={'floor': 32, 'wall': 'NOWALL', 'below': 'NOFLAT'}, y={'floor': 32, 'below': 'NOGRASS'})
        made = Map('..xy', '.xyx', **squares)
        self.take(self.room, self.write('mine.wad', faulty_maps.pwad(made, [])))
        here = self.value('walker.view.counts')
        own = [*kinds.lists('NOWALL'), ('NOWALL', kinds.ART['BRICKS']), ('FF_START', b''), ('NOFLAT', bytes(4096)), ('NOGRASS', bytes(4096)), ('FF_END', b'')]
        self.value('list.files = []; list.changed([]); 0')
        self.take(self.room, self.write('whole.wad', faulty_maps.pwad(made, own)))
        self.assertEqual(self.said(), '')
        self.assertEqual(self.value('walker.view.counts'), here)

    def test_hidden_names(self):
        """A PNAMES that hides the game's is said as lint says it, though the map cannot be drawn."""
        path = self.write('mine.wad', faulty_maps.pwad(hall(), [('PNAMES', b'\1\0\0\0' + name('MINE'))]))
        self.browser.choose('#files', [self.room, path])
        self.browser.wait("findings.found && isShown('findingsPanel')")
        told = self.value("[...document.querySelectorAll('.finding')].map(it => it.textContent)")
        self.assertTrue(any('its PNAMES hides that of room.wad, on which TEXTURE1 counts' in one for one in told), told)
        self.assertNotEqual(self.said(), '')
        self.assertEqual(self.value("find('unseen').textContent"), 'MAP01 of mine.wad cannot be drawn')


if __name__ == '__main__':
    unittest.main()
