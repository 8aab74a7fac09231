"""Tests which constants of the crates have to have a row with their value, and which lack one."""
import contextlib
import io
import os
import tempfile
import unittest
from unittest import mock

from test_check import check_module
from doomview_tools import constant_rows, sources

CODE = '''// The crate below.
pub mod places;
pub use places::FLOOR;
use outside::WORD;

/// The side, of which NOTED says more.
pub const SIDE: u32 = 64;
pub const NOTED: u32 = 65;
pub(crate) const SPARE: [u8; 2] = *b"IT";
'''
PLACES = '''pub const FLOOR: u32 = 1;
pub const CEILING: u32 = 2;
const FREE: u32 = 3;

pub fn first(free: u32) -> u32
    requires least { FLOOR ≤ free }
    ensures {
        IsTrue (is_at { CEILING } result)
    }
{
    free + FREE
}
'''
RULES = '''-- What NOTED is for.
use Rattle.low.specs.declared.TheConstants.{SIDE}
use Rattle.low.specs.{declared.TheConstants.SPARE, Other.word}
use Rattle.low.specs.declared.places.TheConstants as at

size = SIDE * at.CEILING
'''
ROWS = '''-- The values.
use Rattle.low.specs.declared.TheConstants.{SIDE, SPARE}
use Rattle.low.specs.declared.places.TheConstants.{CEILING, FLOOR}

side_row : SIDE ≡ 64
side_row = refl

spare_row : SPARE
    ≡ codes "IT"
spare_row = refl

floor_row : FLOOR ≡ 1
floor_row = refl

ceiling_row : CEILING ≡ 2
ceiling_row = refl
'''
ABOVE = '''use low::{FLOOR as GROUND, NOTED};

pub fn second() -> u32
    ensures { result ≡ GROUND }
{
    NOTED
}
'''
FILES = {'low/src/lib.rt': CODE, 'low/src/places.rt': PLACES, 'low/specs/Rules.antt': RULES,
         'low/proofs/ConstantRows.antt': ROWS, 'high/src/lib.rt': ABOVE}


class Made(unittest.TestCase):
    """Two crates, of which one stands on the other."""

    def setUp(self):
        folder = tempfile.TemporaryDirectory()
        self.addCleanup(folder.cleanup)
        self.folder = folder.name
        for place in (mock.patch.object(sources, 'CRATES', self.folder),
                      mock.patch.object(sources, 'crates', lambda: ['low', 'high'])):
            place.start()
            self.addCleanup(place.stop)
        self.addCleanup(self.forget)

    def forget(self):
        for kept in (constant_rows.text_of, constant_rows.constants, constant_rows.passed_on):
            kept.cache_clear()

    def lacking(self, changes=()):
        """The names that lack a row, after changes of files: each a file, a text in it, and what stands for it."""
        self.forget()
        files = dict(FILES)
        for name, old, new in changes:
            self.assertIn(old, files[name])
            files[name] = files[name].replace(old, new)
        for name, text in files.items():
            path = os.path.join(self.folder, *name.split('/'))
            os.makedirs(os.path.dirname(path), exist_ok=True)
            with open(path, 'w', encoding='utf-8') as file:
                file.write(text)
        return [constant.name for constant in constant_rows.missing(sources.crates())]

    def test_none_lacks(self):
        self.assertEqual(self.lacking(), [])

    def test_a_row_that_is_missing(self):
        """Whatever cites it: a definition, its name behind another, a clause below and one above."""
        for name, row in [('SIDE', 'side_row : SIDE ≡ 64\n'), ('SPARE', 'spare_row : SPARE\n    ≡ codes "IT"\n'),
                          ('FLOOR', 'floor_row : FLOOR ≡ 1\n'), ('CEILING', 'ceiling_row : CEILING ≡ 2\n')]:
            self.assertEqual(self.lacking([('low/proofs/ConstantRows.antt', row, '')]), [name])
        least = ('low/src/places.rt', 'least { FLOOR ≤ free }', 'least { 1 ≤ free }')
        row = ('low/proofs/ConstantRows.antt', 'floor_row : FLOOR ≡ 1\n', '')
        self.assertEqual(self.lacking([least, row]), ['FLOOR'])
        self.assertEqual(self.lacking([least, row, ('high/src/lib.rt', 'result ≡ GROUND', 'result ≡ 1')]), [])

    def test_a_clause_that_is_new(self):
        self.assertEqual(self.lacking([('high/src/lib.rt', '≡ GROUND', '≡ NOTED')]), ['NOTED'])
        self.assertEqual(self.lacking([('low/src/places.rt', 'CEILING } result', 'FREE } result')]), ['FREE'])

    def test_a_row_by_another_constant(self):
        """What gives a constant by another one, or is no equation, says no value."""
        for row in ('SIDE ≡ FLOOR', 'SIDE ≤ 64'):
            self.assertEqual(self.lacking([('low/proofs/ConstantRows.antt', 'SIDE ≡ 64', row)]), ['SIDE'])

    def test_no_file_of_rows(self):
        self.assertEqual(self.lacking([('low/proofs/ConstantRows.antt', ROWS, '')]),
                         ['SIDE', 'SPARE', 'FLOOR', 'CEILING'])

    def test_it_is_said(self):
        """tools/check fails then, and says which constant it is and where its row belongs."""
        check = check_module()
        for changes, ends in [((), True), ([('low/proofs/ConstantRows.antt', 'side_row : SIDE ≡ 64\n', '')], False)]:
            self.lacking(changes)
            with contextlib.redirect_stdout(io.StringIO()) as said:
                self.assertEqual(check.constants_have_rows(), ends)
            self.assertEqual('check: SIDE of crates/low/src/lib.rt is cited by a clause or a definition, and has no row in '
                             'crates/low/proofs/ConstantRows.antt\n' in said.getvalue(), not ends)


class Crates(unittest.TestCase):
    def test_each_has_a_row(self):
        self.assertEqual(constant_rows.sentences(), [])


if __name__ == '__main__':
    unittest.main()
