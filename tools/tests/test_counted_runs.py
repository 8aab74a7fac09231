"""Tests bench/memory.py and bench/calls.py with a stand-in for the program, which does what no clause forbids."""
import contextlib
import io
import os
import shutil
import subprocess
import sys
import tempfile
import unittest

from made_files import TOP

sys.path.insert(0, os.path.join(TOP, 'bench'))
import calls  # noqa: E402
import made_runs  # noqa: E402
import memory  # noqa: E402
import read_bounds  # noqa: E402

# Does what its first word says beside opening, reading and writing once what it is to; its second word is a file.
STAND_IN = r'''
#include <fcntl.h>
#include <stdlib.h>
#include <string.h>
#include <unistd.h>

static const char *fault;

static int is(const char *name) { return !strcmp(fault, name); }

int main(int count, char **words) {
    void *(*volatile take)(size_t) = malloc;
    char bytes[12];
    fault = words[1];
    void *block = take(is("takes too much") ? 1000000 : 1000);
    if (!is("forgets"))
        free(block);
    int file = open(words[2], O_RDONLY);
    if (is("opens twice"))
        open(words[2], O_RDONLY);
    for (int times = is("reads twice") ? 2 : 1; times > 0; times--) {
        lseek(file, 0, SEEK_SET);
        if (read(file, bytes, 12) < 0)
            return 1;
    }
    if (is("writes in pieces"))
        return write(1, "a li", 4) + write(1, "ne\n", 3) - 7;
    return write(1, "a line\n", 7) - 7;
}
'''


@unittest.skipUnless(shutil.which('cc'), 'the command cc is not there')
class Counted(unittest.TestCase):
    def setUp(self):
        folder = tempfile.TemporaryDirectory()
        self.addCleanup(folder.cleanup)
        self.folder = folder.name
        self.program = os.path.join(self.folder, 'program')
        source = made_runs.write(self.folder, 'program.c', STAND_IN.encode())
        subprocess.run(['cc', '-o', self.program, source], check=True)
        self.wad = made_runs.write(self.folder, 'tiny.wad', made_runs.tiny_wad())

    def holds(self, fault):
        """Whether a run gives back all that it took, and took no more than its bound."""
        refusals = memory.Refusals(made_runs.compiled(self.folder, 'refuse'), self.folder)
        with contextlib.redirect_stdout(io.StringIO()):
            return refusals.holds('make path', [self.program, fault, self.wad], 0)

    def said(self, fault):
        """What is said of the calls of a run."""
        runs, words = calls.Runs(self.program, self.folder), [fault, self.wad]
        with contextlib.redirect_stderr(io.StringIO()) as said:
            came = runs.run(words)
            calls.told_files(runs, words, came)
            calls.told_pieces(runs, words, came)
            wad = read_bounds.Wad(self.wad)
            runs.told_reads(words, wad, came.times(self.wad), wad.whole())
        self.assertEqual(runs.is_well, not said.getvalue())
        return said.getvalue()

    def test_memory(self):
        self.assertTrue(self.holds('does well'))
        for fault in ('forgets', 'takes too much'):
            self.assertFalse(self.holds(fault), fault)

    def test_calls(self):
        self.assertEqual(self.said('does well'), '')
        for fault, said in (('opens twice', 'opened '), ('reads twice', '12 bytes from 0 on was read 2 times, 1 too many'),
                            ('writes in pieces', '2 writes, and not 1')):
            self.assertIn(said, self.said(fault))


if __name__ == '__main__':
    unittest.main()
