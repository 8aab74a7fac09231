"""Tests what prove_times says of the files that a check keeps, on files that are made up."""
import os
import shutil
import subprocess
import sys
import tempfile
import unittest

from made_files import TOOLS

# The files of a check, with the second at which each was written.
FILES = {'Rattle-low-proofs.read.Mir.oantt': 0, 'Rattle-low-proofs.read.Lts.oantt': 4,
         'Rattle-low-proofs.read.Proof.decls.oantt': 10, 'Rattle-low-proofs.read.Met.oantt': 11,
         'Rattle-low-proofs.list.Names.add.Lts.oantt': 12.5, 'Rattle-low-proofs.list.Names.add.Answers.oantt': 13,
         'Rattle-low-proofs.NameLemmas.decls.oantt': 15}


class ProveTimes(unittest.TestCase):
    def setUp(self):
        self.top = tempfile.mkdtemp()
        self.addCleanup(shutil.rmtree, self.top)
        os.mkdir(os.path.join(self.top, 'tools'))
        shutil.copy(os.path.join(TOOLS, 'prove_times'), os.path.join(self.top, 'tools'))
        self.kept = os.path.join(self.top, 'crates', 'low', 'out', 'incremental')

    def write(self, files):
        os.makedirs(os.path.join(self.kept, 'records'))
        for name, second in files.items():
            path = os.path.join(self.kept, 'records' if '.decls' in name else '', name)
            open(path, 'w').close()
            os.utime(path, (1000 + second, 1000 + second))

    def run_tool(self, *words, **more):
        return subprocess.run([sys.executable, os.path.join(self.top, 'tools', 'prove_times'), *words],
                              capture_output=True, text=True, **more)

    def test_dearest_first(self):
        self.write(FILES)
        done = self.run_tool('low', '--kept')
        self.assertEqual((done.returncode, done.stderr), (0, ''))
        rows = [line.split() for line in done.stdout.splitlines()]
        self.assertEqual(rows[0], ['seconds', 'borrows', 'search', 'answers', 'tie', 'rest', 'function'])
        self.assertEqual(rows[1], ['11.0', '4.0', '6.0', '0.0', '0.0', '1.0', 'read'])
        self.assertEqual(rows[2:], [['2.0', '1.5', '0.0', '0.5', '0.0', '0.0', 'list.Names.add'],
                                    ['2.0', '0.0', '0.0', '0.0', '0.0', '2.0', 'NameLemmas'],
                                    ['15.0', '5.5', '6.0', '0.5', '0.0', '3.0', 'all', '3']])

    def test_most(self):
        self.write(FILES)
        done = self.run_tool('low', '--kept', '--most', '1')
        self.assertEqual([line.split()[-1] for line in done.stdout.splitlines()], ['function', 'read', '3'])

    def test_other_files_are_refused(self):
        self.write({'low.checked': 1, 'Rattle-low-proofs.read.Walk.oantt': 2})
        done = self.run_tool('low', '--kept')
        self.assertEqual((done.returncode, done.stdout), (2, ''))
        self.assertIn('is not as this tool knows it', done.stderr)

    def test_unknown_crate(self):
        done = self.run_tool('high', '--kept')
        self.assertEqual((done.returncode, done.stdout), (2, ''))
        self.assertIn('there is no crate high', done.stderr)

    def test_a_check_that_began_with_another(self):
        self.write(FILES)
        folder = os.path.join(self.top, 'bin')
        os.mkdir(folder)
        with open(os.path.join(folder, 'rt'), 'w') as file:
            file.write('#!/bin/sh\necho rt: low: begins with what a check kept in somewhere/crates/low\n')
        os.chmod(os.path.join(folder, 'rt'), 0o755)
        done = self.run_tool('low', env={**os.environ, 'PATH': folder + os.pathsep + os.environ['PATH']})
        self.assertEqual((done.returncode, done.stdout), (2, ''))
        self.assertIn('somewhere/crates/low', done.stderr)


if __name__ == '__main__':
    unittest.main()
