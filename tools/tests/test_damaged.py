"""Tests what limits-map, lint and why-limit say of maps that are damaged, have no nodes, or are in another format."""
import os
import unittest

from made_files import Tools, wad
from doomview_tools import levels, room, wads

TESTED = os.environ.get('DOOMVIEW_TESTED', '')
ACCEPTING = '#!/bin/sh\nexit 0\n'
TOOLS = [('limits-map', 'page.html'), ('lint',), ('why-limit', '512,192,90')]
NO_NODES = dict.fromkeys(levels.BUILT_LUMPS, b'')


class Damaged(Tools):
    """Each tool ends with 2 and a sentence, whether the program accepts the map or refuses it, and writes nothing."""

    def setUp(self):
        super().setUp()
        self.lumps = dict(wads.read(self.write('whole.wad', room.room())))
        self.programs = [self.stand_in('accepting', ACCEPTING)] + [TESTED] * bool(TESTED)

    def refused(self, part, lumps):
        """All tools refuse a WAD of these lumps; `part` is what they say where the program accepts it."""
        self.write('bad.wad', wad(lumps))
        for program in self.programs:
            for tool, *words in TOOLS:
                with self.subTest(part, tool=tool, program=program):
                    given = [tool, 'bad.wad', 'MAP01', *words]
                    status, output, error = self.run_tool(*given, doomview=program)
                    self.assertEqual(status, 2, error)
                    self.assertIn(part if program != TESTED else 'bad.wad', error)
                    self.assertNotIn('Traceback', error)
                    self.assertFalse(os.path.exists(self.at('page.html')))
                    if tool != 'lint':  # which may list what it found
                        self.assertEqual(output, b'')

    def changed(self, **lumps):
        return {**self.lumps, **lumps}.items()

    def test_cut(self):
        """A lump that ends within a record, or without all nodes."""
        for label in levels.LAYOUTS:
            self.refused(f'{label} ends within a record', self.changed(**{label: self.lumps[label][:-1]}))
        nodes, leaves = self.lumps['NODES'], len(self.lumps['SSECTORS']) // 4
        self.refused(f'of its {leaves} leaves (SSECTORS); build them anew', self.changed(NODES=nodes[:-28]))
        self.refused(f'lead to 1 of its {leaves} leaves', self.changed(NODES=b''))

    def test_nodes(self):
        """No nodes, and extended ones."""
        self.refused('has no nodes (SSECTORS is empty); build them', self.changed(**NO_NODES))
        without = [(label, data) for label, data in self.lumps.items() if label not in levels.BUILT_LUMPS]
        self.refused('has no nodes (SEGS, SSECTORS, NODES); build them', without)
        for label, letters in [('NODES', 'XNOD'), ('NODES', 'ZNOD'), ('SSECTORS', 'XNOD'), ('SSECTORS', 'ZNOD'),
                               ('SSECTORS', 'XGLN'), ('SSECTORS', 'ZGL3')]:
            lumps = self.changed(**{**NO_NODES, label: letters.encode() + bytes(50)})
            self.refused(f'has extended nodes ({letters} in {label}); build plain ones', lumps)

    def test_formats(self):
        """UDMF and Hexen."""
        art = [(label, data) for label, data in self.lumps.items() if label not in ['MAP01', *wads.MAP_LUMPS]]
        udmf = [('MAP01', b''), ('TEXTMAP', b'namespace="doom";'), ('ENDMAP', b'')]
        self.refused('is a UDMF map; save it in Doom format', art + udmf)
        self.refused('is in Hexen format (it has a BEHAVIOR); save it in Doom format',
                     art + [(label, self.lumps.get(label, b'')) for label in
                            ('MAP01', *wads.MAP_LUMPS, 'REJECT', 'BLOCKMAP', 'BEHAVIOR')])


if __name__ == '__main__':
    unittest.main()
