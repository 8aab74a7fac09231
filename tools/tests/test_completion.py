"""Tests the completions for bash, as bash takes them: each option that a page has is offered, and no other."""
import re
import shutil
import subprocess
import unittest

from made_files import COMMAND, Tools
from doomview_tools import command, jobs

BASH = shutil.which('bash')
ASK = '''source "$1"
shift
COMP_WORDS=("$@")
COMP_CWORD=$(($# - 1))
_doomview
echo "${COMPREPLY[@]}"
complete -p doomview
'''


@unittest.skipUnless(BASH, 'no bash here')
class Completion(Tools):
    def setUp(self):
        super().setUp()
        status, output, error = self.run_command(COMMAND, '--completion')
        self.assertEqual((status, error), (0, ''))
        self.script = self.write('completion.bash', output)

    def offered(self, *words):
        """What is offered for the last of some words."""
        done = subprocess.run([BASH, '--norc', '-c', ASK, 'bash', self.script, 'doomview', *words], capture_output=True, text=True)
        self.assertEqual((done.returncode, done.stderr), (0, ''))
        offered, registered = done.stdout.splitlines()
        self.assertEqual(registered, 'complete -o bashdefault -o default -F _doomview doomview')
        return offered.split()

    def test_first_word(self):
        self.assertEqual(set(self.offered('')) - {'help', '--help', '--version', '--build', '--built', '--completion'},
                         {*jobs.JOBS, *command.TOOLS})
        self.assertEqual(self.offered('comp'), ['compare'])
        self.assertEqual(self.offered('--b'), ['--build', '--built'])
        self.assertEqual(self.offered('help', 'lim'), ['limits', 'limits-map'])

    def test_options(self):
        """The options of a page are those that are offered."""
        for name in ('render', 'flat', 'compare', 'vectors', 'places', 'draw-all'):
            page = self.run_command(COMMAND, name, '--help')[1].decode()
            options = page[page.index('\nOptions:'):page.index('\nExamples:')]
            found = set(re.findall(r'^  (?:-\w, )?(--?[a-z-]+)', options, re.M)) | set(re.findall(r'^  --[a-z-]+, (-\w)', options, re.M))
            offered = self.offered(name, 'made.wad', '-')
            self.assertEqual(set(offered) - {'-h', '-q'}, found - {'-h', '-q'}, name)

    def test_values(self):
        for words, found in ((['render', '--spans', ''], ['full', 'packed']), (['trace', 'MAP01', '--skill', ''], list('12345')),
                             (['render', '--format', 'p'], ['ppm']), (['render', '--zone', ''], []), (['render', 'MAP'], []),
                             (['vectors', 'm'], ['make']), (['compare', '--trace', ''], [])):
            self.assertEqual(self.offered(*words), found, words)


if __name__ == '__main__':
    unittest.main()
