"""Tests the page that DOOMVIEW_PAGE names, in Chromium: what it draws, counts and says is what the program DOOMVIEW_TESTED and
the tools say. tools/portable --check makes a page and runs these tests; a page that is made may be tried alone so:

    DOOMVIEW_PAGE=out/doomview.html DOOMVIEW_TESTED=out/doomview python3 tools/tests/test_page.py"""
import hashlib
import json
import os
import random
import re
import subprocess
import unittest

import pages_shown
from made_files import COMMAND, TOP
from made_maps import Map
from page_driven import GAMES, PAGE, READY, SAID, TESTED, Shown, run
from doomview_tools import (counting, explanations, levels, list_counts, list_files, map_places, paths, png, refusals,
                            traces, wads, walls)
from systems import check

COUNTED = [('freedoom2.wad', name) for name in ('MAP01', 'MAP02', 'MAP07')] + [('freedoom1.wad', name) for name in ('E1M1', 'E1M6')]
STEP = os.environ.get('DOOMVIEW_STEP', '128')
RAISED = ['--planes', '1024', '--openings', '245760']
MOST = {'planes': 1024, 'openings': 245760, 'fragments': 256, 'sprites': 128}  # that `limits` counts then
# Refusals for the WADs alone, whatever the thing table has.
OF_WADS = r'doomview: refused (4..|5..|6..|7..|90[135])( |$)'
DRAWN = (901, 903)  # refusals of missing textures and flats, for which the page has stand-ins
NO_WADS = (401, 402, 403)  # refusals of a file that is no whole WAD, which the page says when it is chosen
KEYS = {'ArrowUp': 38, 'ArrowLeft': 37, 'ArrowRight': 39, 'ArrowDown': 40}


class Starts(Shown):
    def walls(self, level):
        """The path of a WAD of the map of a level's solid walls alone."""
        path = self.at('walls.wad')
        with open(path, 'wb') as file:
            file.write(walls.walls_alone(level))
        return path

    @unittest.skipUnless(GAMES, 'Freedoom is not installed')
    def test_starts(self):
        """Frame and counts from the start of each map of Freedoom are those of the program."""
        tried = 0
        for wad in GAMES:
            self.take(wad)
            for name in wads.maps_of([wad]):
                self.choose(name)
                level = levels.read([wad], name)
                row = paths.turn(level, 1)[0]
                self.assertEqual(self.value('walker.view.row'), list(row[:4]), name)
                self.assertEqual(self.frame(), self.native('render', wad, name, [row], *RAISED), name)
                counts = self.value('walker.view.counts')
                listed, ranged = (self.native('list', of, name, [row], *RAISED) for of in (wad, [wad, self.walls(level)]))
                self.assertEqual(counts, {**next(list_counts.counts_of(listed)), 'solids': next(list_counts.ranges_of(ranged))}, name)
                limits = self.native('limits', wad, name, [row], *RAISED).decode()
                capped = ' '.join(f'{key} {min(counts[key], most)}' for key, most in MOST.items())
                self.assertEqual(limits, f'view 0 {capped}\n', name)
                tried += 1
            self.value("list.files = []; list.changed([]); 0")
        self.assertEqual(tried, 32 * ('freedoom2.wad' in GAMES[-1]) + 36 * ('freedoom1.wad' in GAMES[0]))


class Views(Shown):
    def test_walk(self):
        """Keys, clicks and buttons move the eye; what is shown is what the program draws there."""
        self.take(self.room)
        seen = [self.value('walker.view.row')]
        for key in ('ArrowUp', 'ArrowLeft', 'd', 'PageUp'):
            self.browser.press(key, KEYS.get(key, 0))
            self.browser.wait('!walker.isBusy && !walker.held.size')
            seen.append(self.value('walker.view.row'))
        self.assertEqual(len(set(map(tuple, seen))), len(seen))
        box = self.value("(({ left, top, width, height }) => [left, top, width, height])(find('map').getBoundingClientRect())")
        x, y = self.value('display.at(480, 300)')
        self.browser.click(box[0] + x, box[1] + y)
        self.browser.wait('!walker.isBusy')
        place = self.value('walker.view.row.map(v => v / 65536)')
        self.assertAlmostEqual(place[0], 480, delta=4)
        self.assertAlmostEqual(place[1], 300, delta=4)
        x, y = self.value('display.at(480, 800)')
        self.browser.click(box[0] + x, box[1] + y, 8)
        self.browser.wait('!walker.isBusy')
        self.assertAlmostEqual(self.value('walker.view.row[3]'), 2 ** 30, delta=2 ** 24)
        row = self.value('walker.view.row')
        self.assertEqual(self.frame(), self.native('render', self.room, 'MAP01', [paths.Row(*row)]))
        self.value("find('spans').value = 'packed'; find('spans').onchange(); 0")
        self.browser.wait('!walker.isBusy')
        self.assertEqual(self.frame(), self.native('render', self.room, 'MAP01', [paths.Row(*row)], '--spans', 'packed'))

    def test_picture(self):
        """The canvas has the colours of the frame."""
        self.take(self.room)
        pixels = self.bytes_of("driver.pixels('picture')")
        drawn = self.native('render', self.room, 'MAP01', [paths.Row(*self.value('walker.view.row'))], '--format', 'ppm')
        self.assertEqual(b''.join(pixels[i:i + 3] for i in range(0, len(pixels), 4)), drawn[15:])

    def test_pixels(self):
        """Of pixels by chance the page says what the tool pixel says with a list."""
        chance = random.Random(1)
        for wad, name in [(self.room, 'MAP01'), *((GAMES[-1], name) for name in ('MAP01', 'MAP18') if GAMES)]:
            self.take(wad)
            self.choose(name)
            row = paths.Row(*self.value('walker.view.row'))
            trace, found = self.at('trace.bin'), self.at('list.txt')
            for path, job in ((trace, 'trace'), (found, 'list')):
                with open(path, 'wb') as file:
                    file.write(self.native(job, wad, name, [row]))
            names, view = traces.Names([wad]), list_files.ListFile(found).view(0)
            places = map_places.Places(levels.read([wad], name), names, found)
            for _ in range(40):
                x, y = chance.randrange(320), chance.randrange(200)
                record = traces.record_at(trace, 0, x, y)
                said = places.in_words(view, record, traces.KINDS[record[0]][0]) or traces.in_words(record, names)
                told = self.value(f"crew.some('pixel', {{ row: walker.view.row, spans: 'full', isOpen: false, x: {x}, y: {y} }})")
                self.assertEqual(told, said, f'{name}: column {x} row {y}')
            self.value('list.files = []; list.changed([]); 0')
        self.take(self.room)
        box = self.value("(({ left, top, width, height }) => [left, top, width, height])(find('picture').getBoundingClientRect())")
        self.browser.mouse('mouseMoved', box[0] + box[2] / 2, box[1] + box[3] / 2)
        self.browser.wait("find('pixel').textContent.startsWith('column 160 row 100: ')")
        before = self.value("find('pixel').textContent")
        self.go((30 << 22, 13 << 20, 41 << 16, 1 << 31))
        self.browser.wait(f"find('pixel').textContent.startsWith('column 160 row 100: ') && find('pixel').textContent !== {before!r}")

    def test_compare(self):
        """The comparison with a port's frames is that of `compare --html`."""
        self.take(self.room)
        run('places', self.room, 'MAP01', '12', '-o', self.at('port.csv'))
        words = [self.room, '--path', self.at('port.csv')]
        for path, job, more in (('ours.bin', 'render', []), ('port.bin', 'render', ['--skill', '1']), ('trace.bin', 'trace', []),
                                ('list.txt', 'list', [])):
            run(job, 'MAP01', *words, *more, '-o', self.at(path))
        run('compare', self.at('ours.bin'), self.at('port.bin'), '--wad', self.room, '--trace', self.at('trace.bin'), '--list',
            self.at('list.txt'), '--html', self.at('compared.html'), status=1)
        self.browser.choose('#portPath', [self.at('port.csv')])
        self.browser.choose('#portFrames', [self.at('port.bin')])
        self.value("find('compare').click(); 0")
        self.browser.wait('compared')
        data = json.loads(self.value('compared.match(/^const data = (.*);$/m)[1]'))
        theirs = pages_shown.data_of(self.at('compared.html'))
        self.assertEqual(data['palette'], theirs['palette'])
        self.assertGreater(len(data['views']), 3)
        self.assertEqual(len(data['views']), len(theirs['views']))
        for here, there in zip(data['views'], theirs['views']):
            for part in ('view', 'told', 'first', 'known', 'painters', 'pixels'):
                self.assertEqual(here[part], there[part], part)
        self.assertIn('views 13 same', data['head'])
        self.browser.wait("find('comparison').contentDocument?.querySelectorAll('section').length > 3")
        self.compare_pictures(data)

    def compare_pictures(self, data):
        """The same frames as pictures give the same views; one with a colour of no palette is named."""
        with open(self.at('port.bin'), 'rb') as file:
            frames = file.read()
        palette = dict(wads.read(self.room))['PLAYPAL'][:768]
        names = [f'shot{view}.png' for view in range(len(frames) // 64000)]
        for view, name in enumerate(names):
            pixels = b''.join(palette[3 * i:3 * i + 3] for i in frames[64000 * view:64000 * (view + 1)])
            with open(self.at(name), 'wb') as file:
                file.write(png.png(320, 200, pixels))
        self.value("compared = ''; 0")
        self.browser.choose('#portFrames', [self.at(name) for name in reversed(names)])
        self.value("find('compare').click(); 0")
        self.browser.wait('compared')
        views = json.loads(self.value('compared.match(/^const data = (.*);$/m)[1]'))['views']
        self.assertEqual([[view['view'], view['pixels']] for view in views], [[view['view'], view['pixels']] for view in data['views']])
        with open(self.at('shot7.png'), 'wb') as file:
            file.write(png.png(320, 200, b'\1\2\3' * 64000))
        self.browser.choose('#portFrames', [self.at(name) for name in names])
        self.value("find('compare').click(); 0")
        self.browser.wait("find('compared').textContent.startsWith('shot7.png: the colour 1,2,3 at row 0 column 0 is in no entry')")
        self.value(f"driver.dropPath({json.dumps(paths.text([paths.Row(*self.value('walker.view.row'))]))})")
        self.browser.wait("find('compared').textContent === 'doomview and own.bin: views 1 same 1 different 0 pixels 0'")

    def test_open(self):
        """The picture of a worst view with the doors open is that of the map with its doors open."""
        if not GAMES:
            self.skipTest('Freedoom is not installed')
        wad = GAMES[-1]
        self.take(wad)
        self.value("find('step').value = '256'; find('start').click(); 0")
        self.browser.wait('whole.found && !walker.isBusy')
        self.value("document.querySelectorAll('#doors button')[1].click(); 0")
        self.browser.wait('whole.isOpen && walker.place.isOpen && !walker.isBusy')
        run('limits-map', wad, 'MAP01', '--step', '256', '--opened', self.at('open.wad'))
        row = paths.Row(*self.value('walker.view.row'))
        self.assertEqual(self.frame(), self.native('render', [wad, self.at('open.wad')], 'MAP01', [row]))


class Maps(Shown):
    @unittest.skipUnless(len(GAMES) == 2, 'Freedoom is not installed')
    def test_maps(self):
        """The numbers of whole maps are those of `limits-map --all --json`."""
        for game, name in COUNTED:
            wad = next(path for path in GAMES if path.endswith(game))
            self.value('list.files = []; list.changed([]); 0')
            self.take(wad)
            self.choose(name)
            self.value(f"find('everywhere').checked = true; find('step').value = {STEP!r}; find('start').click(); 0")
            self.browser.wait("whole.found && !find('start').hidden", 600)
            done = subprocess.run([COMMAND, 'limits-map', wad, name, '--all', '--json', '--step', STEP], stdin=subprocess.DEVNULL,
                                  stdout=subprocess.PIPE, env={**os.environ, 'DOOMVIEW': TESTED})
            native, here = json.loads(done.stdout), self.value('whole.found.numbers')
            self.assertEqual({**here, 'wad': wad}, native, name)


class Deep(Shown):
    """Nodes one over the other, as deep as there may be: the program calls itself as often."""

    def test_deep(self):
        """Such a map is drawn, walked through and counted as the program does it."""
        wad = self.write('deep.wad', Map('....', '.##.', '....').deepen(refusals.MOST_DEPTH).wad())
        self.take(wad)
        for key in (None, 'ArrowUp', 'ArrowLeft', 'w', 'd'):
            if key:
                self.browser.press(key, KEYS.get(key, 0))
                self.browser.wait('!walker.isBusy && !walker.held.size')
            row = paths.Row(*self.value('walker.view.row'))
            self.assertEqual(self.frame(), self.native('render', wad, 'MAP01', [row], *RAISED), key)
        self.value("find('everywhere').checked = true; find('step').value = '64'; find('start').click(); 0")
        self.browser.wait("whole.found && !find('start').hidden && !walker.isBusy")
        native = json.loads(run('limits-map', wad, 'MAP01', '--all', '--json', '--step', '64'))
        self.assertEqual({**self.value('whole.found.numbers'), 'wad': wad}, native)
        self.assertEqual(self.value(SAID), '')

    def test_deeper(self):
        """One node more is refused, with the sentence of explain."""
        wad = self.write('deeper.wad', Map('....', '.##.', '....').deepen(refusals.MOST_DEPTH + 1).wad())
        self.browser.choose('#files', [wad])
        self.browser.wait(SAID)
        self.assertIn('the nodes are 1,025 deep, and 1,024 is the most', self.value(SAID))

    def test_no_stack(self):
        """A run that the engine ends for want of stack is told, and so is one for which it has no memory."""
        with open(PAGE, encoding='utf-8') as file:
            text = file.read()
        for call, told in (('(function all() { return all() + run(); })()', 'the nodes of this map are deeper than this browser can follow ('),
                           ('new ArrayBuffer(2 ** 53)', 'the browser gave no more memory (')):
            with open(self.at('short.html'), 'w', encoding='utf-8') as file:
                file.write(text.replace('status: run()', f'status: {call}'))
            self.browser.show(self.at('short.html'))
            self.browser.wait(READY)
            self.browser.choose('#files', [self.room])
            self.browser.wait(SAID)
            self.assertIn(f'MAP01: {told}', self.value(SAID))
        self.shown_once()


class Counts(Shown):
    def test_room(self):
        """A whole count shows its squares, worst views and numbers; keys go from view to view, and it can be stopped. What it
        saves is an earlier run for `limits-map`."""
        self.take(self.room)
        self.value("window.grown = []; whole.grow = part => { WholeMap.prototype.grow.call(whole, part); grown.push(whole.now().places.length); }; 0")
        self.value("find('start').click(); 0")
        self.browser.wait('whole.found && !walker.isBusy')
        self.assertGreater(len(set(self.value('grown'))), 2)
        self.assertEqual(self.value("document.querySelectorAll('#counts button').length"), len(counting.COUNTS))
        worst = self.value('whole.worst().map(view => view[1])')
        self.assertEqual(self.value('walker.view.row'), worst[0])
        self.browser.press('n')
        self.browser.wait(f'walker.view.row.join() === {json.dumps(worst[1])}.join()')
        self.browser.press('3')
        self.browser.wait("whole.name === 'fragments' && !walker.isBusy")
        self.assertGreater(self.value("new Set(new Uint32Array(find('map').getContext('2d').getImageData(0, 0, find('map').width, "
                                      "find('map').height).data.buffer)).size"), 8)
        rows = self.value('whole.rows()')
        self.assertEqual(len(rows), len(set(map(tuple, rows))))
        with open(self.at('page.json'), 'w', encoding='utf-8') as file:
            file.write(self.value('jsonOf(whole.found.numbers)'))
        found = json.loads(run('limits-map', self.room, 'MAP01', '--before', self.at('page.json'), '--json'))
        self.assertEqual((found['before'], found['changes'], found['worse']), ([], [], False))
        self.value("find('step').value = '32'; find('start').click(); find('stop').click(); 0")
        self.browser.wait("find('far').textContent === 'stopped' && !find('start').hidden")


class Wrong(Shown):
    def sentences(self, files, name):
        """What the page says of a map of files: lines."""
        self.value("list.files = []; list.changed([]).then(() => { walker.view = null; say(''); })")
        self.browser.choose('#files', files)
        self.browser.wait(f"!find('chosen').disabled || {SAID}")
        return self.value(f"crew.first('level', {{ map: {name!r}, skill: 3 }}).then(({{ remark }}) => remark, error => error.message)").split('\n')

    def test_refusals(self):
        """Of each golden case that is refused for its WADs the page says what explain says, but for lists of all its kind."""
        run_ = check.golden()
        cases = {case for table in run_.table_names() for case in run_.read_table(table)
                 if re.match(OF_WADS, case.expected.line) and re.match(r'audit .* --things things\.csv .*path\d+\.csv$', case.words)}
        chosen, codes = [], set()
        for case in sorted(cases, key=lambda it: it.name):
            code = case.expected.line.split()[2]
            if [word for word in case.words.split() if word.endswith('.wad')] and code not in codes:
                codes.add(code)
                chosen.append(case)
        self.assertGreater(len(chosen), 10)
        run_.put_files(TESTED, self.folder, chosen)
        os.chdir(self.folder)
        self.addCleanup(os.chdir, TOP)
        with open(self.at('things.csv'), encoding='utf-8') as file:
            self.value(f'driver.takeThings({json.dumps(file.read())})')
        for case in chosen:
            words = explanations.Words(case.arguments())
            sentences = list(explanations.explain(case.expected.line, case.arguments()))
            code = int(case.expected.line.split()[2])
            if code in NO_WADS:
                self.value('list.files = []; list.changed([]); 0')
                self.browser.choose('#files', words.wads)
                self.browser.wait(SAID)
                self.assertIn(os.path.basename(words.wads[0]), self.value(SAID), case.words)
                continue
            here = self.sentences(words.wads, words.map_name)
            if code in DRAWN and 'Squares are drawn in their place' in here[0]:
                continue
            self.assertEqual(here[0], sentences[0], case.words)

    def test_no_wad(self):
        """A file that is no WAD is named, and the page goes on with the others."""
        with open(self.room, 'rb') as file:
            paths_ = {'notes.txt': b'hello', 'maps.zip': b'PK\3\4', 'short.wad': b'IWAD\1', 'cut.wad': file.read()[:-40]}
        for name, data in paths_.items():
            with open(self.at(name), 'wb') as file:
                file.write(data)
        self.browser.choose('#files', [self.at(name) for name in paths_])
        self.browser.wait(f"{SAID}.includes('There is no map')")
        said = self.value(SAID)
        for part in ('notes.txt is no WAD', 'maps.zip is no WAD: it is a packed file', 'short.wad is cut short', 'cut.wad is cut short'):
            self.assertIn(part, said)
        self.take(self.room)
        self.assertEqual(self.value('level.map'), 'MAP01')
        self.assertIn('notes.txt is no WAD', self.value(SAID))

    def test_large(self):
        """A WAD of 600 MB is read piece by piece."""
        path = self.at('large.wad')
        lumps = wads.read(self.room)
        data = wads.wad_of(lumps)
        place, shift = int.from_bytes(data[8:12], 'little'), 600 << 20
        moved = bytearray(data[:8] + (place + shift).to_bytes(4, 'little'))
        with open(path, 'wb') as file:
            file.write(moved)
            file.seek(12 + shift)
            file.write(data[12:place])
            for i in range(len(lumps)):
                entry = data[place + 16 * i:place + 16 * i + 16]
                file.write((int.from_bytes(entry[:4], 'little') + shift).to_bytes(4, 'little') + entry[4:])
        self.addCleanup(os.remove, path)
        self.take(path)
        self.assertEqual(hashlib.sha256(self.frame()).hexdigest(), hashlib.sha256(self.native(
            'render', self.room, 'MAP01', [paths.Row(*self.value('walker.view.row'))])).hexdigest())

    def test_memory(self):
        """Where the browser gives no memory the page says so, and goes on once there is some."""
        self.take(self.room)
        self.value('driver.takeMemory()')
        self.browser.wait(f"{SAID}.includes('no more memory')")
        self.value('Crew.prototype.call = held; walker.again(); 0')
        self.browser.wait('!walker.isBusy')

    def test_no_memory64(self):
        """An engine without memories of 64 bits is told to the user."""
        with open(PAGE, encoding='utf-8') as file:
            text = file.read()
        with open(self.at('old.html'), 'w', encoding='utf-8') as file:
            file.write(text.replace('WebAssembly.validate(', '!WebAssembly.validate('))
        self.browser.show(self.at('old.html'))
        self.browser.wait(SAID)
        self.assertIn('no WebAssembly memory of 64 bits', self.value(SAID))
        self.shown_once()


class Saved(Shown):
    def test_saved(self):
        """What is saved: the kept views as a path, the picture, a small WAD that draws the same, the numbers."""
        self.take(self.room)
        self.value('driver.catchSaved()')
        self.browser.press('k')
        self.value("['path', 'trim', 'png'].forEach(id => find(id).click()); 0")
        self.browser.wait("Object.keys(saved).length === 3")
        row = self.value('walker.view.row')
        self.assertEqual(self.value("saved['room-map01-views-doors-shut.csv']"), paths.text([paths.Row(*row)]))
        small = self.bytes_of("saved['room-map01-small.wad']")
        with open(self.at('small.wad'), 'wb') as file:
            file.write(small)
        self.assertEqual(small, self.native('trim', self.room, 'MAP01', []))
        rows = [paths.Row(*row)]
        self.assertEqual(self.native('render', self.at('small.wad'), 'MAP01', rows), self.native('render', self.room, 'MAP01', rows))
        self.assertEqual(self.value("saved['room-map01.png'].type"), 'image/png')

    def test_touch(self):
        """Two fingers bring the map nearer, and what is below them stays there; one finger moves it, and a tap stands there."""
        self.devtools('Emulation.setTouchEmulationEnabled', enabled=True, maxTouchPoints=2)
        self.take(self.room)
        left, top = self.value("(({ left, top }) => [left, top])(find('map').getBoundingClientRect())")
        scale, before = self.value('display.scale'), self.value('[display.from(100, 150), display.from(200, 150)]')
        row = self.value('walker.view.row')

        def touch(kind, *points):
            self.devtools('Input.dispatchTouchEvent', type=kind, touchPoints=[
                {'x': left + x, 'y': top + y, 'id': number} for number, (x, y) in enumerate(points)])

        touch('touchStart', (100, 150))
        touch('touchStart', (100, 150), (200, 150))
        touch('touchMove', (60, 150), (200, 150))
        touch('touchMove', (60, 150), (260, 150))
        touch('touchEnd')
        self.assertAlmostEqual(self.value('display.scale') / scale, 2, delta=.05)
        after = self.value('[display.from(60, 150), display.from(260, 150)]')
        for one, other in zip(sum(before, []), sum(after, [])):
            self.assertAlmostEqual(one, other, delta=8)
        self.assertEqual(self.value('walker.view.row'), row)
        touch('touchStart', (100, 150))
        touch('touchMove', (140, 150))
        touch('touchEnd')
        self.assertAlmostEqual(self.value('display.from(100, 150)[0]'), after[0][0], delta=8)
        self.value('display.whole(); 0')
        x, y = self.value('display.at(480, 300)')
        touch('touchStart', (x, y))
        touch('touchEnd')
        self.browser.wait(f'!walker.isBusy && walker.view.row.join() !== {json.dumps(row)}.join()')
        self.assertAlmostEqual(self.value('walker.view.row[0]') / 65536, 480, delta=4)

    def test_narrow(self):
        """At 700 pixels nothing is wider than the page, and each control can be reached by the keyboard."""
        for width in (700, 390):
            self.devtools('Emulation.setDeviceMetricsOverride', width=width, height=900, deviceScaleFactor=1, mobile=width < 500)
            self.browser.show(PAGE)
            self.browser.wait(READY)
            self.take(self.room)
            self.assertLessEqual(self.value('document.documentElement.scrollWidth'), width)
        self.drive()
        named = self.value('driver.unnamed(true)')
        self.assertEqual(named, [])
        self.shown_once()


if __name__ == '__main__':
    unittest.main()
