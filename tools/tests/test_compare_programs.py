"""Tests tests/compare, with stand-ins for both programs: what differs is told, and what does not is counted."""
import os
import subprocess
import sys
import tempfile
import unittest

TOP = os.path.dirname(os.path.dirname(os.path.dirname(os.path.abspath(__file__))))
COMPARE = os.path.join(TOP, 'tests', 'compare')
# Writes its words, but for the WADs; makes sets of files; WRONG says for which job it ends, writes or says something else.
PROGRAM = '''import os, sys
job, *words = sys.argv[1:]
if job in ('x-gen', 'x-mutate'):
    os.mkdir(words[-1])
    options = '--format ppm ' if job == 'x-gen' else ''
    open(os.path.join(words[-1], 'words'), 'w').write(f'render --zone=64 {options}MAP01 a.wad b.wad')
    sys.exit()
print(job, [word for word in words if not word.endswith('.wad')])
if (job, WRONG) in (('list', 'status'), ('trace', 'line')):
    sys.exit(2 if WRONG == 'status' else 'another line')
if 'packed' in words and 'trimmed.wad' in words and WRONG == 'trimmed':
    print('more')
'''


class Comparisons(unittest.TestCase):
    def setUp(self):
        folder = tempfile.TemporaryDirectory()
        self.addCleanup(folder.cleanup)
        self.folder = folder.name

    def program(self, wrong=''):
        path = os.path.join(self.folder, f'program{wrong}')
        with open(path, 'w') as file:
            file.write(f'#!{sys.executable}\nWRONG = {wrong!r}\n{PROGRAM}')
        os.chmod(path, 0o755)
        return path

    def compared(self, ours, theirs):
        done = subprocess.run([sys.executable, COMPARE, ours, theirs, '--sets', '1', '--damaged', '1'],
                              capture_output=True, text=True)
        return done.returncode, done.stdout.splitlines(), done.stderr

    def test_programs_that_agree_are_counted(self):
        self.assertEqual(self.compared(self.program(), self.program()),
                         (0, ['compare: 2 maps and sets, 22 runs: 22 with status 0; 0 differ'], ''))

    def test_another_status_line_and_output_are_told(self):
        for wrong, differ, first in (('status', 2, 'set 1: list'), ('line', 4, 'set 1: trace'),
                                     ('trimmed', 2, 'set 1: trimmed render --spans packed')):
            status, said, _ = self.compared(self.program(), self.program(wrong))
            self.assertEqual((status, len(said)), (1, differ + 1), wrong)
            self.assertTrue(said[0].startswith(f'compare: {first}: status 0, '), said[0])
            self.assertTrue(said[-1].endswith(f'{differ} differ'), said[-1])

    def test_frames_of_a_trimmed_file_that_are_not_those_of_its_wads_are_told(self):
        wrong = self.program('trimmed')
        self.assertEqual(self.compared(wrong, wrong)[0], 1)


if __name__ == '__main__':
    unittest.main()
