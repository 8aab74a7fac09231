"""Tests the tool limits-map: with a stand-in for doomview, and with the program that DOOMVIEW_TESTED names."""
import json
import os
import random
import signal
import struct
import subprocess
import time
import types
import unittest

import pages_shown
from made_files import COMMAND, Tools, name, wad
from doomview_tools import cells, counting, earlier_run, ground, levels, limits_page, player_reach, traces

COARSE = ['--step', '256', '--directions', '4']
TESTED = os.environ.get('DOOMVIEW_TESTED', '')
# Counts by the row alone: planes 100 and more to the east of a place, sprites by the direction. Refuses MAP02.
COUNTING = '''#!/usr/bin/env python3
import sys
job, words = sys.argv[1], sys.argv[2:]
if 'MAP02' in words:
    sys.exit(print('doomview: refused 603', file=sys.stderr) or 2)
with open(words[words.index('--path') + 1]) as file:
    rows = [tuple(map(int, line.split(','))) for line in list(file)[1:]]
for view, (x, y, z, angle) in enumerate(rows):
    planes = 60 + (x >> 16) // 4 + len([word for word in words if word.endswith('open.wad')])
    fragments, sprites = abs(y) >> 16, angle >> 28
    if job == 'limits':
        print(f'view {view} planes {planes} openings {y >> 16} fragments {min(256, fragments)} sprites {sprites}')
    elif job == 'list':
        for i in range(fragments // 32):
            print(f'view {view} fragment {i} seg 0 first {5 * i + 5} last {5 * i + 6}')
            print(f'view {view} fragment {i} seg 1 first {5 * i + 9} last {5 * i + 9}')
        print(f'view {view} fragments {min(256, fragments)} of {fragments} planes {planes} openings {y >> 16} sprites '
              f'{sprites} of {sprites}')
    else:
        sys.stdout.buffer.write(bytes(i % 251 for i in range(64000 if job == 'render' else 512000)))
'''

# In other rows than in the first version: in the south half more planes, in the north half fewer.
OTHER = '''    planes += 9 if y >> 16 < 256 else -9
'''


def hall():
    """Two halls with a door between them, and one to which no way leads; without nodes but one leaf each."""
    corners = [(0, 0), (512, 0), (512, 512), (0, 512), (576, 0), (576, 512), (1024, 0), (1024, 512), (2000, 0),
               (2300, 0), (2300, 300), (2000, 300)]
    one = [(0, 3, 0, None), (3, 2, 0, None), (1, 0, 0, None), (2, 5, 1, None), (4, 1, 1, None), (5, 7, 2, None),
           (7, 6, 2, None), (6, 4, 2, None), (8, 11, 3, None), (11, 10, 3, None), (10, 9, 3, None), (9, 8, 3, None)]
    doors = [(2, 1, 0, 1), (4, 5, 2, 1)]
    sides, lines = [], []
    for start, end, front, back in one + doors:
        flags, side = (1, 0xffff) if back is None else (4, len(sides) + 1)
        lines.append((start, end, flags, int(back is not None), 0, len(sides), side))  # special 1 opens a door
        sides += [front] if back is None else [front, back]
    first = {sector: next(i for i, it in enumerate(one) if it[2] == sector) for sector in range(4)}
    segs = [(*one[first[sector]][:2], 0, first[sector], 0, 0) for sector in range(4)]
    box = [512, 0, 0, 2300]
    nodes = [(512, 0, 0, 512, *box, *box, 0x8001, 0x8000), (576, 0, 0, 512, *box, *box, 0x8002, 0),
             (1500, 0, 0, 512, *box, *box, 0x8003, 1)]
    sectors = [(0, 128), (0, 0), (0, 128), (0, 128)]
    return [('THINGS', struct.pack('<hhhHH', 64, 64, 0, 1, 7)),
            ('LINEDEFS', b''.join(struct.pack('<7H', *line) for line in lines)),
            ('SIDEDEFS', b''.join(struct.pack('<hh8s8s8sH', 0, 0, *[name('-')] * 3, it) for it in sides)),
            ('VERTEXES', b''.join(struct.pack('<hh', *it) for it in corners)),
            ('SEGS', b''.join(struct.pack('<6H', *it) for it in segs)),
            ('SSECTORS', b''.join(struct.pack('<HH', 1, i) for i in range(4))),
            ('NODES', b''.join(struct.pack('<12h2H', *it) for it in nodes)),
            ('SECTORS', b''.join(struct.pack('<hh8s8shhh', *it, name('F'), name('F'), 160, 0, tag)
                                 for tag, it in enumerate(sectors)))]


def solids_of(fragments):
    """The solid ranges of what COUNTING lists for so many fragments: one more for each pair but the first."""
    return 3 + fragments // 32 if fragments >= 32 else 2


class Made:
    """Runs that count as by chance, and draw frames that no compression makes smaller."""

    def __init__(self):
        self.chance = random.Random(1)

    def counts(self, rows, what=''):
        return [{'planes': number % 1025, 'openings': number % 245761, 'fragments': number % 257, 'sprites': number % 129}
                for number in map(hash, rows)]

    def counts_by_list(self, rows, what=''):
        return iter(self.counts(rows))

    def ranges(self, rows, what=''):
        return iter([self.chance.randrange(33) for _ in rows])

    def views(self, job, rows, size):
        repeated = 1 if job == 'render' else 64
        return [self.chance.randbytes(size // repeated) * repeated for _ in rows]


class LimitsMap(Tools):
    def setUp(self):
        super().setUp()
        self.hall = self.write('hall.wad', wad([('PLAYPAL', bytes(range(256)) * 3), ('MAP01', b''), *hall()]))
        self.counting = self.stand_in('counting', COUNTING)

    def looked(self, *words):
        """Status and numbers of a run."""
        status, output, error = self.run_tool('limits-map', 'hall.wad', 'MAP01', '--json', *COARSE, *words,
                                              doomview=self.counting)
        self.assertEqual(error, '')
        return status, json.loads(output)

    def test_ground(self):
        """Void, walls, doors, and what a player reaches."""
        plan = ground.Plan(levels.read([self.hall], 'MAP01'))
        place = ground.Ground(plan).sector_at
        self.assertEqual([place(x, y) for x, y in [(256, 256.5), (800, 256.5), (2150, 150.5)]], [0, 2, 3])
        nowhere = [(544, 256.5), (1500, 100.5), (8, 256.5), (256, 600.5), (-9, 9.5)]
        self.assertEqual([place(x, y) for x, y in nowhere], [None] * 5)
        self.assertEqual(player_reach.reach(plan), ({0, 1, 2}, {}))
        self.assertEqual(plan.doors(), {1: 124})
        patch = self.write('open.wad', ground.with_ceilings(plan.level, plan.doors()))
        opened = ground.Plan(levels.read([patch], 'MAP01'))
        self.assertEqual(ground.Ground(opened).sector_at(544, 256.5), 1)

    def test_numbers(self):
        """The greatest counts, those over a limit, and the rows of their views."""
        status, found = self.looked()
        shut, opened = found['states']
        self.assertEqual((status, found['over'], found['reached'], found['sectors']), (1, True, 3, 4))
        self.assertEqual([shut['doors'], opened['doors']], ['shut', 'open'])
        planes, fragments = shut['counts']['planes'], shut['counts']['fragments']
        x, y, z, angle = planes['row']
        self.assertEqual((planes['most'], planes['limit'], z), (60 + (x >> 16) // 4, 128, 41 << 16))
        self.assertEqual(opened['counts']['planes']['most'], planes['most'] + 1)
        self.assertGreater(planes['over'], 0)
        self.assertEqual((fragments['most'], shut['counts']['sprites']['most']), (fragments['row'][1] >> 16, 14))
        self.assertGreater(fragments['most'], 256)  # past what `limits` counts
        self.assertEqual(shut['counts']['solids']['most'], 3 + fragments['most'] // 32)
        self.assertEqual(len(self.looked('--shut')[1]['states']), 1)
        self.assertGreater(self.looked('--all', '--shut')[1]['states'][0]['places'], shut['places'])

    def test_limits(self):
        """Raised limits are those of the status."""
        words = ['--planes', '512', '--fragments', '600', '--sprites', '200', '--solids', '50']
        status, found = self.looked(*words)
        counts = found['states'][0]['counts']
        self.assertEqual([(counts[name]['limit'], counts[name]['over']) for name in words[::2] for name in [name[2:]]],
                         [(512, 0), (600, 0), (200, 0), (50, 0)])
        fragments = self.looked('--fragments', '300')[1]['states'][0]['counts']['fragments']
        self.assertEqual((status, fragments['limit']), (0, 300))
        words = ['hall.wad', 'MAP01', 'page.html', '--shut', *COARSE]
        status, output, _ = self.run_tool('limits-map', *words, doomview=self.counting)
        self.assertIn(f'<pre id="plain">{output.decode()}</pre>', self.read('page.html'))  # for an old browser
        lines = output.decode().splitlines()
        self.assertEqual((status, lines[0]), (1, 'MAP01 of hall.wad: a player reaches 3 of its 4 sectors'))
        self.assertRegex(lines[1], r'^doors shut: \d+ views from \d+ places$')
        self.assertRegex(lines[4], r'^  fragments most \d+ of 256, \d+ views over, row [-\d]+(,[-\d]+){3}$')

    def test_before(self):
        """An earlier run: at which places it got worse and better, in the lines, on the page and in the status."""
        status, found = self.looked('--shut')
        self.write('same.json', json.dumps(found, indent=1).encode())
        other = self.stand_in('other', COUNTING.replace('    if job ==', OTHER + '    if job ==', 1))
        words = ['limits-map', 'hall.wad', 'MAP01', '--shut', *COARSE]
        status, output, _ = self.run_tool(*words, '--json', 'page.html', '--before', 'same.json', doomview=other)
        now, old = json.loads(output), {tuple(square[:2]): square for square in found['states'][0]['squares']}
        expected = {(x, y, old[x, y][3], planes) for x, y, _, planes, *_ in now['states'][0]['squares']
                    if (x, y) in old and planes != old[x, y][3] and max(planes, old[x, y][3]) > 128}
        changes = {(change['x'], change['y'], change['before'], change['now']) for change in now['changes']}
        self.assertEqual((status, now['worse'], {change['count'] for change in now['changes']}), (1, True, {'planes'}))
        self.assertEqual({it for it in changes if None not in it}, expected)
        self.assertEqual({now > before for x, y, before, now in expected}, {True, False})
        self.assertTrue(all((now > before) == (y < 256) for _, y, before, now in expected))
        self.assertEqual(now['before'][0].split(':')[0], 'worse, doors shut')
        self.assertRegex(now['before'][1], r'^  worse at \d+ places: x \d+ y \d+: 1[3-9]\d, before 1[23]\d; x ')
        self.assertRegex(now['before'][2], r'^  better at \d+ places: x \d+ y \d+: 1[0-4]\d, before 1[3-9]\d; x ')
        data = pages_shown.data_of(self.at('page.html'))
        self.assertEqual(data['before'], now['before'])
        if pages_shown.BROWSER:
            found = pages_shown.shown(self.at('page.html'), 'limits_changes')
            worse = sum(now > (before or 0) for *_, before, now in changes)
            self.assertEqual(found, [len(changes), f'since the earlier run, planes: ▲ worse at {worse}, ▼ better at '
                                     f'{len(changes) - worse}', 0, 0])
        shown = {tuple(row[2:]) for row in pages_shown.rows_of(data['changes'])}
        self.assertEqual(shown, {tuple(-1 if part is None else part for part in change) for change in changes})
        status, output, _ = self.run_tool(*words, '--before', 'same.json', doomview=self.counting)
        self.assertEqual((status, b'worse' in output), (0, False))  # over a limit as before
        status, output, _ = self.run_tool(*words, '--before', 'same.json', doomview=self.stand_in('better', COUNTING.replace(
            'planes = 60', 'planes = 50')))
        self.assertEqual((status, b'better, doors shut: planes most ' in output), (0, True))

    def test_places_compared(self):
        """A place that is new counts, and one that is gone; a quarter in one run alone does not."""
        def state(*squares):
            most = max(square[3] for square in squares)
            return {'doors': 'shut', 'step': 64, 'squares': [[*square, 0, 0, 0, 0] for square in squares],
                    'counts': {'planes': {'most': most, 'over': sum(square[3] > 128 for square in squares)}}}
        old = state((0, 0, 64, 140), (64, 0, 64, 130), (128, 0, 64, 90), (48, 16, 32, 150))
        for squares, verdict, changes in [
                ([(0, 0, 64, 150), (64, 0, 64, 130), (128, 0, 64, 90)], 'worse', [(0, 0, 140, 150)]),
                ([(0, 0, 64, 140), (64, 0, 64, 130), (48, 16, 32, 150), (16, 16, 32, 160)], 'more', []),
                ([(0, 0, 64, 140), (128, 0, 64, 90)], 'better', [(64, 0, 130, None)]),
                ([(0, 0, 64, 140), (64, 0, 64, 130), (192, 0, 64, 129)], 'worse', [(192, 0, None, 129)]),
                ([(0, 0, 64, 140), (64, 0, 64, 130), (128, 0, 64, 128)], 'fewer', []),
                ([(0, 0, 64, 120), (64, 0, 64, 131)], 'worse', [(0, 0, 140, 120), (64, 0, 130, 131)])]:
            found = earlier_run.comparison_of({'states': [old]}, {'states': [state(*squares)]}, counting.LIMITS)
            self.assertEqual([tuple(change[2:]) for change in found.changes], changes, squares)
            self.assertEqual((found.lines[0].split(',')[0], found.is_worse), (verdict, verdict == 'worse'), squares)

    def test_same_grid(self):
        """A run beside an earlier one looks from its places, though the map grew, in its directions."""
        self.write('old.json', json.dumps(self.looked('--shut')[1]).encode())
        lumps = dict(hall())
        lumps['VERTEXES'] += struct.pack('<hhhhhh', -1000, -40, -900, -40, -1000, 70)  # a triangle far away
        lumps['LINEDEFS'] += b''.join(struct.pack('<7H', 12 + i, 12 + (i + 1) % 3, 1, 0, 0, 0, 0xffff) for i in range(3))
        self.write('hall.wad', wad([('PLAYPAL', bytes(range(256)) * 3), ('MAP01', b''), *lumps.items()]))
        words = ['limits-map', 'hall.wad', 'MAP01', '--json', '--shut']
        places = []
        for more in (COARSE, ['--before', 'old.json']):
            output = self.run_tool(*words, *more, doomview=self.counting)[1]
            places.append({tuple(square) for square in json.loads(output)['states'][0]['squares']})
        with open(self.at('old.json'), encoding='utf-8') as file:
            old = {tuple(square) for square in json.load(file)['states'][0]['squares']}
        self.assertEqual((places[1], places[0] == old), (old, False))

    def test_before_sums(self):
        """Of an earlier run without places sums are compared; what is no earlier run is refused."""
        found = self.looked('--shut')[1]
        state = found['states'][0]
        del state['squares'], found['directions']
        for count, more in [('planes', 0), ('fragments', -1), ('sprites', -1)]:
            state['counts'][count]['most'] += more
        state['counts']['fragments']['over'] -= 1
        state['counts']['solids']['most'] += 5
        self.write('old.json', (json.dumps(found) + '\n').encode())
        words = ['limits-map', 'hall.wad', 'MAP01', '--shut', *COARSE]
        status, output, _ = self.run_tool(*words, 'page.html', '--before', 'old.json', doomview=self.counting)
        told = [line for line in output.decode().splitlines() if line.startswith(('worse', 'better'))]
        self.assertEqual([line.split(':')[0] + line.split(':')[1].split(' most')[0] for line in told],
                         ['worse, doors shut fragments', 'worse, doors shut sprites', 'better, doors shut solids'])
        self.assertEqual((status, pages_shown.data_of(self.at('page.html'))['before']), (1, told))
        for text, part in [(b'{', 'is nothing that'), (b'[1]', 'is nothing that'), (b'', 'has no numbers of MAP01'),
                           (b'{"map": "MAP01", "states": [{"counts": {"planes": {"most": "x"}}}]}', 'is nothing that'),
                           (b'{"map": "MAP01", "states": [{"counts": {}, "step": 8, "squares": [[1, 2]]}]}', 'is nothing')]:
            self.write('bad.json', text)
            self.refuses(part, *words, '--before', 'bad.json', doomview=self.counting)

    def test_all_maps(self):
        """All maps in one call: a line and a page each, an index, and the greatest status."""
        lumps = [lump for label in ('MAP01', 'MAP02', 'MAP03') for lump in [(label, b''), *hall()]]
        self.write('halls.wad', wad([('PLAYPAL', bytes(range(256)) * 3), *lumps]))
        words = ['limits-map', 'halls.wad', '--all-maps', 'pages', '--shut', '--step', '512', '--directions', '2']
        status, output, error = self.run_tool(*words, doomview=self.counting)
        lines = output.decode().splitlines()
        self.assertEqual([line[:13] for line in lines], ['MAP01 planes ', 'MAP02 refused', 'MAP03 planes '])
        self.assertEqual((status, sorted(os.listdir(self.at('pages')))), (2, ['MAP01.html', 'MAP03.html', 'index.html']))
        self.assertIn('explain: 603', error)
        self.assertIn('<a href="MAP03.html">MAP03</a>', self.read('pages/index.html'))
        status, output, _ = self.run_tool('lint', 'halls.wad', doomview=self.stand_in('accepting', '#!/bin/sh\nexit 0\n'))
        self.assertRegex(output.decode(), r'^(MAP0[123] error [1-9]\d* hole \d+ fault \d+ odd \d+\n){3}$')
        self.assertEqual(status, 1)
        for more in (['MAP01'], ['--worst', 'worst.csv']):
            self.refuses('--all-maps looks at all maps', *words, *more, doomview=self.counting)
        self.refuses('name a map, or a folder', 'limits-map', 'halls.wad', doomview=self.counting)

    def test_no_way(self):
        """What a player wants is looked at where no way leads to it, and said."""
        key = struct.pack('<hhhHH', 2150, 150, 0, 5, 7)
        lumps = {**dict(hall()), 'THINGS': dict(hall())['THINGS'] + key * 5}
        self.write('hall.wad', wad([('PLAYPAL', bytes(range(256)) * 3), ('MAP01', b''), *lumps.items()]))
        status, found = self.looked('--shut', 'page.html')
        self.assertEqual((status, found['reached'], found['no_way'][0]['sector']), (1, 4, 3))
        self.assertEqual(found['no_way'][0]['things'][0], {'thing': 1, 'what': 'blue keycard'})
        self.assertEqual(found['states'][0]['places'], self.looked('--shut', '--all')[1]['states'][0]['places'])
        output = self.run_tool('limits-map', 'hall.wad', 'MAP01', '--shut', *COARSE, doomview=self.counting)[1].decode()
        self.assertIn('no way was found to sector 3, which is looked at all the same: blue keycard (thing 1), blue '
                      'keycard (thing 2), blue keycard (thing 3) and 2 more\n', output)
        self.assertEqual(pages_shown.data_of(self.at('page.html'))['noWay'], [3])

    def test_page(self):
        """Each number of the page is that which doomview gave for its row."""
        self.looked('page.html', '--worst', 'worst.csv', '--opened', 'opened.wad', '--all')
        opened = levels.read([self.at('opened.wad')], 'MAP01')
        self.assertEqual([sector.ceiling for sector in opened.sectors], [128, 124, 128, 128])
        data = pages_shown.data_of(self.at('page.html'))
        self.assertEqual((data['title'], data['reached'], data['doors']), ('MAP01 of hall.wad', 3, [1]))
        for number, state in enumerate(data['states']):
            places = pages_shown.rows_of(state['cells'])
            self.assertIn(0, {place[5] for place in places})
            for x, y, size, floor, sector, _, planes, _, openings, _, fragments, _, sprites, way, solids, _ in places:
                counts = 60 + x // 4 + number, y, abs(y), way * 16 // data['directions'], solids_of(abs(y))
                self.assertEqual((planes, openings, fragments, sprites, solids), counts)
            for view in state['views']:
                self.assertEqual(view['counts']['planes'], 60 + (view['row'][0] >> 16) // 4 + number)
        rows = self.read('worst.csv').splitlines()
        self.assertEqual(rows[0], 'x,y,z,angle')
        self.assertIn(','.join(map(str, data['states'][0]['views'][0]['row'])), rows)

    def test_seen(self):
        """Of what the planes, fragments and sprites are that have a pixel."""
        rows = [(1, 1, 4, 7, 99, 0), (1, 1, 4, 7, 98, 0), (1, 1, 5, 7, 99, 0), (4, 2, 5, 3, 0, 0), (2, 1, 0, 8, 1, 0),
                (2, 1, 3, 8, 1, 0), (3, 2, 1, 2, 1, 0), (5, 1, 6, 9, 1, 0), (0, 0, 0, 0, 0, 0), (6, 1, 1, 9, 1, 0)]
        found = limits_page.names_in(b''.join(traces.RECORD.pack(*row) for row in rows), traces.Names([]))
        fragments, planes = [('lump 7', 2), ('texture 3', 1)], [('lump 8', 2), ('texture 2', 1)]
        self.assertEqual(found, {'fragments': (2, 2, fragments), 'planes': (3, 2, planes),
                                 'sprites': (1, 1, [('lump 9', 1)])})

    def test_size(self):
        """A page of as many places and views as there can be is no larger than 3 MB, and the worst have pictures."""
        plan = ground.Plan(levels.read([self.hall], 'MAP01'))
        options = types.SimpleNamespace(limits=counting.LIMITS, all=True, step=8, directions=8, views=20)
        reach = player_reach.reach(plan)
        states = [limits_page.State(label, cells.Grid(ground.Ground(plan), Made(), Made(), reach, options), Made())
                  for label in ('shut', 'open')]
        self.assertGreater(min(len(state.grid.cells) for state in states), 9000)
        made = limits_page.limits_page(plan, [self.hall], states, bytes(768), options, {1: 124}, '')
        page = self.write('page.html', made)
        self.assertLessEqual(os.path.getsize(page), 3000000)
        for shown in pages_shown.data_of(page)['states']:
            numbers = [view for order in shown['order'].values() for view in order]
            for order in shown['order'].values():
                found = [len(shown['views'][view]['picture']) for view in order if numbers.count(view) == 1]
                self.assertGreater(found[0], 16000)
                self.assertGreater(len(set(found)), 1)
                self.assertEqual(found, sorted(found, reverse=True))

    def test_pictures(self):
        """Pictures are whole as far as there is room, then of half the size, then none."""
        for room, sizes in [(99, [9, 9, 9]), (27, [9, 9, 9]), (26, [9, 9, 3]), (15, [9, 3, 3]), (9, [3, 3, 3]),
                            (8, [3, 3, 0]), (0, [0, 0, 0])]:
            views = [{}, {}, {}]
            limits_page.put_in([(view, {'picture': ('123456', '12', ''), 'planes': ('123', '1', '')})
                                for view in views], room)
            self.assertEqual([len(view['picture'] + view['planes']) for view in views], sizes)

    @unittest.skipUnless(pages_shown.BROWSER, 'no Chromium here')
    def test_shown(self):
        """The picture is not empty, and keys work."""
        self.looked('page.html')
        found = pages_shown.shown(self.at('page.html'), 'limits_map')
        data = pages_shown.data_of(self.at('page.html'))
        rows = [','.join(map(str, view['row'])) for view in data['states'][1]['views']]
        self.assertGreater(found[0], 20)
        self.assertEqual(found[1], 'planes')
        self.assertEqual(found[2], ','.join(map(str, data['states'][0]['views'][0]['row'])))
        self.assertEqual(found[4:6], ['openings', 1])
        self.assertEqual(found[6], rows[data['states'][1]['order']['planes'][1]])
        self.assertRegex(found[7], r'(?s)^x \d+ y [\d.]+ floor 0 sector \d.*planes \d+')
        self.assertGreater(found[8], found[9])
        self.assertEqual(found[9], found[3])
        self.assertEqual(found[10], 320)
        made_of, overs, black, cut, pointed, row, expected, shown, plain = found[11:20]
        marks, is_near, told, button, cores, darkest = found[20:]
        self.assertGreater(marks, 3)
        self.assertTrue(is_near)
        self.assertRegex(told, r'^(error|hole|fault|odd), \w+: ')
        self.assertRegex(button, r'^what lint finds: error \d+')
        self.assertEqual((cores, darkest), ([0, .3, .6, .6], 'rgb(140,52,0)'))
        self.assertRegex(made_of, r'^\d+ of the \d+ planes have a pixel in this view: \w+ \d+')
        self.assertGreater(overs, 3)
        self.assertGreater(black, .8 * overs)  # but for lines, dots and the cone over them
        self.assertGreater(cut, 3)
        self.assertEqual(pointed, len(pages_shown.rows_of(data['states'][1]['cells'])))
        self.assertEqual((row, plain), (expected, None))
        self.assertRegex(shown, r'^planes \d+ · x [-\d.]+ y [-\d.]+, [\d.]+°; the nearest picture is from x [-\d.]+ y ')

    def test_wrong(self):
        """Refusals are in doomview's words, with status 2, and nothing is left half-written."""
        status, output, error = self.run_tool('limits-map', 'hall.wad', 'MAP02', 'page.html', doomview=self.counting)
        self.assertEqual((status, output, os.path.exists(self.at('page.html'))), (2, b'', False))
        self.assertTrue(error.startswith('doomview: refused 603\nexplain: 603: SSECTORS has no record'), error)
        self.assertNotIn('cannot be read', error)
        for part, *words in [('has to end in .html', 'page.htm'), ('there is no folder absent', 'absent/page.html'),
                             ('multiple of 8', '--step', '60'), ('--planes: a number from 128', '--planes', '1'),
                             ('there is no folder absent', '--worst', 'absent/rows'),
                             ('there is no folder absent', '--opened', 'absent/open.wad'),
                             ('cannot write', 'a' * 300 + '.html'), ('hall.wad is a file that is read', '--opened', 'hall.wad'),
                             ('is named twice', '--worst', 'new', '--opened', 'new')]:
            self.refuses(part, 'limits-map', 'hall.wad', 'MAP01', *words, doomview=self.counting)
        self.refuses('there is no WAD absent', 'limits-map', 'absent', 'MAP01', doomview=self.counting)
        lumps = dict(hall())
        for part, label, data in [('has no start of a player', 'THINGS', b''),
                                  ('a vertex of line 0 is not there', 'VERTEXES', b''),
                                  ('is damaged', 'LINEDEFS', b''), ('NODES ends within', 'NODES', bytes(99)),
                                  ('lead to 1 of its 4 leaves', 'NODES', b''),
                                  ('THINGS ends within', 'THINGS', lumps['THINGS'][:-1])]:
            self.write('bad.wad', wad([('MAP01', b''), *{**lumps, label: data}.items()]))
            self.refuses(part, 'limits-map', 'bad.wad', 'MAP01', 'page.html', '--opened', 'opened.wad',
                         doomview=self.counting)
            self.assertFalse({'page.html', 'opened.wad'} & {*os.listdir(self.folder)})

    def test_interrupt(self):
        """A signal ends the runs that go on, and leaves nothing behind."""
        for number in (signal.SIGINT, signal.SIGTERM):
            with self.subTest(signal=number):
                self.interrupted(number)

    def interrupted(self, number):
        slow = self.stand_in('slow', '#!/bin/sh\ncase "$*" in *.1.csv*) exit 0 ;; esac\n'
                             'echo $$ >>pids\nexec sleep 60\n')
        if not os.path.exists(self.at('tmp')):
            os.symlink('/bin/sleep', self.at('bin', 'sleep'))
            os.mkdir(self.at('tmp'))
        before = set(os.listdir(self.folder))
        run = subprocess.Popen([COMMAND, 'limits-map', 'hall.wad', 'MAP01', 'page.html'], cwd=self.folder,
                               env=self.surroundings(slow, TMPDIR=self.at('tmp')), stderr=subprocess.DEVNULL,
                               preexec_fn=lambda: signal.signal(signal.SIGINT, signal.SIG_DFL))  # a script's background
        for _ in range(600):
            if os.path.exists(self.at('pids')):
                break
            time.sleep(.1)
        run.send_signal(number)
        self.assertEqual(run.wait(60), 128 + number)
        for pid in self.read('pids').split():
            self.assertFalse(os.path.exists(f'/proc/{pid}'), pid)
        os.remove(self.at('pids'))
        self.assertEqual((os.listdir(self.at('tmp')), set(os.listdir(self.folder)) - before - {'cache'}), ([], set()))

    @unittest.skipUnless(TESTED, 'no program is named')
    def test_program(self):
        """With the program: each number of the page is that which `limits` gives for its row."""
        self.run_tool('room', '-o', 'room.wad')
        words = ['room.wad', 'MAP01', 'page.html', '--shut', '--step', '256']
        self.assertEqual(self.run_tool('limits-map', *words, doomview=TESTED)[0], 0)
        data = pages_shown.data_of(self.at('page.html'))
        places, names = pages_shown.rows_of(data['states'][0]['cells']), data['counts']
        rows = ['x,y,z,angle'] + [
            f'{x << 16},{(y << 16) + 32768},{floor + 41 << 16},{(way << 32) // data["directions"]}'
            for x, y, _, floor, _, _, *counts in places for way in counts[1::2]]
        self.write('rows.csv', ''.join(f'{row}\n' for row in rows).encode())
        words = ['limits', 'MAP01', 'room.wad', '--path', 'rows.csv']
        lines = iter(self.run_tool(*words, doomview=TESTED)[1].decode().splitlines())
        for place in places:
            for i, count in enumerate(names):
                line = next(lines) + ' '
                if count != 'solids':  # which `limits` does not count
                    self.assertIn(f' {count} {place[6 + 2 * i]} ', line)


if __name__ == '__main__':
    unittest.main()
