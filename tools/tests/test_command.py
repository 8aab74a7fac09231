"""Tests the command doomview: its own words, help pages, and what it does before it hands words to the program."""
import hashlib
import os
import pty
import re
import shutil
import signal
import subprocess
import time
import unittest

from made_files import COMMAND, TOOLS, Tools, made_wad
from doomview_tools import command, job_options, jobs

# Writes its words down; paints bytes and ends with the status that ENDS has.
PROGRAM = '''#!/bin/sh
[ -z "$DOOMVIEW" ] || exit 99
for word; do echo "$word"; done >"$WORDS"
printf 'painted'
[ -z "$ENDS" ] || { echo "doomview: ended $ENDS" >&2; exit "$ENDS"; }
[ -z "$WAITS" ] || exec sleep 60
'''
LEVEL = ['MAP01', 'made.wad', '--path', 'path.csv']


def heed_interrupts():
    """A program in the background of a script ignores interrupts, and so would all that it starts."""
    signal.signal(signal.SIGINT, signal.SIG_DFL)


class Command(Tools):
    def setUp(self):
        super().setUp()
        self.program = self.stand_in('program', PROGRAM)
        os.symlink(shutil.which('sleep'), self.at('bin/sleep'))

    def runs(self, *words, **more):
        return self.run_command(COMMAND, *words, doomview=self.program, WORDS=self.at('words'), **more)

    def words(self):
        return self.read('words').splitlines()

    def hands_on(self, *words, **more):
        """The words that the program gets."""
        done = self.runs(*words, **more)
        self.assertEqual(done, (0, b'painted', ''))
        return self.words()


class Help(Command):
    def test_overview(self):
        """Jobs and tools under two headings, each with a page of its own."""
        status, output, error = self.runs('--help')
        self.assertEqual((status, error), (0, ''))
        text = output.decode()
        heads = [text.index(head) for head in ('Jobs of the proved program:', 'Tools:', 'The manual: man -l ')]
        self.assertEqual(heads, sorted(heads))
        for names, part in [(jobs.JOBS, text[heads[0]:heads[1]]), (command.TOOLS, text[heads[1]:heads[2]])]:
            for name in names:
                self.assertRegex(part, f'(?m)^  {name} ')
        self.assertTrue(os.path.isfile(re.search('man -l (.*)', text)[1]))
        self.assertEqual(self.runs('-h')[1], output)
        self.assertEqual(self.runs(), (64, b'', 'doomview: usage\n' + text))
        self.assertFalse(os.path.exists(self.at('words')))

    def test_modules(self):
        """Each tool is a module, and no module is none."""
        folder = os.path.join(TOOLS, 'doomview_tools', 'commands')
        modules = {name[:-3].replace('_', '-') for name in os.listdir(folder) if name.endswith('.py')}
        self.assertEqual(modules - {'--init--'}, set(command.TOOLS))

    def test_pages(self):
        """Each page has the same parts in the same order, whatever stands before --help; no line is too long."""
        for name in [*jobs.JOBS, *command.TOOLS]:
            status, output, error = self.runs(name, '--help', COLUMNS='80')
            self.assertEqual((status, error), (0, ''), name)
            text = output.decode()
            parts = re.findall(r'^(usage|Words|Options|Examples|Ends with|Needs):', text, re.M)
            order = [part for part in ('usage', 'Words', 'Options', 'Examples', 'Ends with', 'Needs') if part in parts]
            self.assertEqual(parts, order, name)
            self.assertTrue({'usage', 'Options', 'Examples', 'Needs'} <= set(parts), name)
            self.assertTrue(text.startswith(f'usage: doomview {name}'))
            self.assertIn(f'  $ doomview {name}', text)
            self.assertNotRegex(text, r'\n\n\n|[^.]\.\.\n\nNeeds|\S  +\n')
            described = text[:text.index('\nOptions:')]
            self.assertLessEqual(max(map(len, described.splitlines())), 80, name)
            self.assertEqual(self.runs(name, '-h', COLUMNS='80')[1], output)
        words = ['render', *LEVEL, '--help']
        self.assertTrue(self.runs(*words)[1].startswith(b'usage: doomview render MAP WAD..'))
        self.assertFalse(os.path.exists(self.at('words')))

    def test_options(self):
        """The page of a job has each of its options with range and default, and no other."""
        for name in jobs.JOBS:
            text = ' '.join(self.runs(name, '--help')[1].decode().split())
            for option in job_options.options().values():
                self.assertEqual(f' {option.name} {option.value} {option.meaning}' in text, name in option.jobs, name)
                if name in option.jobs and option.least is not None:
                    self.assertIn(f'{option.least} to {option.greatest}; else {option.default} ', text)

    def test_remarks(self):
        """What readers of other programs would not expect."""
        for name, part in [('render', 'z is the height of the eye'), ('places', 'z is the height of the eye'),
                           ('audit', 'audit is no map check'), ('audit-all', 'audit is no map check'),
                           ('explain', 'audit is no map check'), ('trim', 'it starts no port')]:
            self.assertIn(part, ' '.join(self.runs(name, '--help')[1].decode().split()))

    def test_version(self):
        with open(os.path.join(TOOLS, 'data', 'version')) as file:
            known = dict(line.split() for line in file)
        told = f'doomview {known["version"]}\nlogic {known["logic"]}\n'
        self.assertEqual(self.runs('--version'), (0, told.encode(), ''))

    def test_wrong_words(self):
        """A tool says what is wrong with its words in one sentence."""
        for words in (['picture'], ['places', self.wad], ['turn', '--absent'], ['pixel', '0', '0', '0'],
                      ['compare', 'one'], ['video', self.wad, 'MAP01'], ['draw-all', self.wad], ['maps'],
                      ['vectors', 'make']):
            status, output, error = self.runs(*words)
            self.assertEqual((status, output, error.count('\n')), (2, b'', 1), error)
            self.assertRegex(error, f'^doomview {words[0]}: .*; doomview {words[0]} --help shows its words\n$')

    def test_damaged_data(self):
        """A file of the tools that is missing or damaged is named."""
        doomview = self.clone()
        self.write('clone/tools/data/options.csv', b'option\n')
        self.refuses('options.csv is missing or damaged', 'render', '--help', command=doomview)
        self.write('clone/tools/data/version', b'1.1\n')
        self.refuses('version is missing or damaged', '--version', command=doomview)


class Words(Command):
    def test_own_files(self):
        """The tables and things that are not named are the tools' own; those that are named stay."""
        own = self.hands_on('render', *LEVEL)
        self.assertEqual([own[0], own[1], own[3], *own[5:]], ['render', '--tables', '--things', *LEVEL])
        with open(os.path.join(TOOLS, 'data', 'tables.sha256')) as sums, open(own[2], 'rb') as tables:
            self.assertEqual(hashlib.sha256(tables.read()).hexdigest(), sums.read().split()[0])
        self.assertEqual(own[2], self.at('cache/doomview/tables.bin'))
        self.assertEqual(own[4], os.path.join(TOOLS, 'data', 'things.csv'))
        for more in (['--tables', 'a', '--things', 'b'], ['--tables=a', '--things=b']):
            self.assertEqual(self.hands_on('render', *LEVEL, *more), ['render', *LEVEL, *more])
        self.assertEqual(self.hands_on('--zone', '64', 'limits', *LEVEL)[-7:], ['--zone', '64', 'limits', *LEVEL])
        self.assertEqual(self.hands_on('make', 'path', '3'), ['make', 'path', '3'])
        self.assertEqual(self.hands_on('render', '--', *LEVEL)[5:], ['--', *LEVEL])

    def test_cache(self):
        """Tables that are damaged are made anew; where none can be kept they are there as long as the run."""
        kept = self.hands_on('render', *LEVEL)[2]
        self.write('cache/doomview/tables.bin', b'damaged')
        self.assertEqual(self.hands_on('render', *LEVEL)[2], kept)
        self.assertEqual(os.path.getsize(kept), 65540)
        self.write('file', b'')
        os.mkdir(self.at('temporary'))
        held = self.hands_on('render', *LEVEL, XDG_CACHE_HOME=self.at('file'), TMPDIR=self.at('temporary'))[2]
        self.assertEqual(os.path.dirname(held), self.at('temporary'))
        self.assertEqual(os.listdir(self.at('temporary')), [])
        status = self.runs('render', *LEVEL, XDG_CACHE_HOME=self.at('file'), ENDS='6')[0]
        self.assertEqual(status, 6)
        for named in ('', 'relative'):
            home = self.hands_on('render', *LEVEL, XDG_CACHE_HOME=named)[2]
            self.assertEqual(home, self.at('.cache/doomview/tables.bin'))

    def test_wads(self):
        """WADs of jobs are found as ports find them; a name that is found nowhere goes to the program as it is."""
        for folder in ('one', 'two'):
            os.mkdir(self.at(folder))
        self.write('one/doom2.wad', made_wad())
        self.write('two/patch.wad', made_wad())
        env = {'DOOMWADDIR': self.at('one'), 'DOOMWADPATH': f'{self.at("absent")}:{self.at("two")}'}
        for job in jobs.LEVEL_JOBS:
            words = self.hands_on(job, 'MAP01', 'DOOM2', 'patch', 'made.wad', 'nowhere.wad', '--path=p', **env)
            self.assertEqual(words[5:], ['MAP01', self.at('one/doom2.wad'), self.at('two/patch.wad'), 'made.wad',
                                         'nowhere.wad', '--path=p'])
        self.assertEqual(self.hands_on('flat', 'DOOM2', 'doom2', **env), ['flat', 'DOOM2', self.at('one/doom2.wad')])
        self.assertEqual(self.hands_on('flat', 'A', './doom2', **env), ['flat', 'A', './doom2'])
        self.assertEqual(self.hands_on('make', 'wad', 'doom2', **env), ['make', 'wad', 'doom2'])
        self.assertEqual(self.hands_on('make', 'wad', '--', 'doom2', **env), ['make', 'wad', '--', 'doom2'])

    def test_other_words(self):
        """A word that is neither job nor tool goes to the program as it is, and so do wrong words of jobs."""
        for words in (['paint', 'it'], ['--help', 'me'], ['--build', 'it'], ['Render'], [''], ['exercise'], ['-x'],
                      ['paint', '-o', 'it'], ['-o']):
            self.assertEqual(self.hands_on(*words), words)
        self.assertEqual(self.hands_on('render', '--path')[5:], ['--path'])

    def test_itself(self):
        """DOOMVIEW may name this command: the program that is built runs then."""
        doomview = self.clone()
        os.mkdir(self.at('clone/out'))
        self.stand_in('clone/out/doomview', PROGRAM)
        done = self.run_command(doomview, 'make', 'path', '1', doomview=doomview, WORDS=self.at('words'))
        self.assertEqual(done, (0, b'painted', ''))
        os.symlink(doomview, self.at('link'))
        done = self.run_command(self.at('link'), 'make', 'path', '1', doomview='', WORDS=self.at('words'))
        self.assertEqual(done, (0, b'painted', ''))

    def test_statuses(self):
        """The program's statuses, its line and its output are the command's."""
        for status in (1, 2, 3, 4, 5, 6, 7):
            done = self.runs('limits', *LEVEL, ENDS=str(status))
            self.assertEqual(done, (status, b'painted', f'doomview: ended {status}\n'))


class Outputs(Command):
    def test_output(self):
        """-o: the output goes into a file, which is whole or not there."""
        for words in (['-o', 'out', 'render', *LEVEL], ['render', *LEVEL, '-o', 'out']):
            self.assertEqual(self.runs(*words), (0, b'', ''))
            self.assertEqual(self.read('out'), 'painted')
            self.assertNotIn('-o', self.words())
        self.write('out', b'old')
        done = self.runs('render', *LEVEL, '-o', 'out', ENDS='5')
        self.assertEqual((done, self.read('out')), ((5, b'', 'doomview: ended 5\n'), 'old'))
        self.assertEqual(self.runs('render', *LEVEL, '-o', 'new', ENDS='5')[0], 5)
        self.assertFalse(os.path.exists(self.at('new')))
        self.assertEqual([name for name in os.listdir(self.folder) if name.startswith('.out')], [])

    def test_wrong_outputs(self):
        os.mkfifo(self.at('pipe'))
        for part, path in [('bin is a folder', 'bin'), ('pipe is no plain file', 'pipe'),
                           ('there is no folder absent', 'absent/out'), ('/dev/null is no plain file', '/dev/null')]:
            self.refuses(part, 'render', *LEVEL, '-o', path, doomview=self.program, WORDS=self.at('words'))
        for words in (['render', *LEVEL, '-o'], ['render', '-o', 'a', *LEVEL, '-o', 'b']):
            done = self.runs(*words)
            self.assertEqual(done, (1, b'', 'doomview: -o comes once, with the name of a file behind it\n'))
        self.assertFalse(os.path.exists(self.at('words')))

    def test_stopped(self):
        """A run that a signal ends leaves no part of its file, and no program."""
        for number in (signal.SIGTERM, signal.SIGHUP, signal.SIGINT):
            run = subprocess.Popen([COMMAND, 'render', *LEVEL, '-o', 'out'], cwd=self.folder, stderr=subprocess.PIPE,
                                   env=self.surroundings(doomview=self.program, WORDS=self.at('words'), WAITS='1'),
                                   preexec_fn=heed_interrupts)
            while not os.path.exists(self.at('words')):
                time.sleep(0.01)
            time.sleep(0.2)
            run.send_signal(number)
            self.assertEqual((run.communicate()[1], run.returncode), (b'', 128 + number))
            self.assertEqual([name for name in os.listdir(self.folder) if 'out' in name], [])
            os.remove(self.at('words'))

    def on_terminal(self, *words, **more):
        """Status, what a terminal shows of the standard output, and standard error."""
        main, other = pty.openpty()
        env = self.surroundings(doomview=self.program, WORDS=self.at('words'), **more)
        run = subprocess.Popen([COMMAND, *words], cwd=self.folder, env=env, stdout=other, stderr=subprocess.PIPE)
        error = run.communicate()[1].decode()
        os.close(other)
        try:
            shown = os.read(main, 10000)
        except OSError:
            shown = b''
        os.close(main)
        return run.returncode, shown, error

    def test_terminal(self):
        """What is no text goes to no terminal; texts do, and words that are wrong go to the program."""
        for words in (['render', *LEVEL], ['trace', *LEVEL], ['trim', *LEVEL], ['flat', 'A', 'made.wad'],
                      ['make', 'wad', '1'], ['make', 'tables']):
            sentence = (f'doomview: what {words[0]} writes is no text, and the output is a terminal; name a file by '
                        '-o FILE\n')
            self.assertEqual(self.on_terminal(*words), (1, b'', sentence))
            self.assertEqual(self.on_terminal('explain', *words), (1, b'', sentence.replace(': ', ' explain: ', 1)))
        self.assertFalse(os.path.exists(self.at('words')))
        for words in (['tables'], ['room']):
            status, shown, error = self.on_terminal(*words)
            self.assertEqual((status, shown), (2, b''))
            self.assertIn('is no text, and the output is a terminal; name a file by -o FILE', error)
        for words in (['limits', *LEVEL], ['audit', *LEVEL], ['make', 'path', '1'], ['make', 'things'],
                      ['exercise', '1'], ['paint']):
            self.assertEqual(self.on_terminal(*words), (0, b'painted', ''))
        self.assertEqual(self.on_terminal('places', self.wad, 'MAP01', '0')[:2],
                         (0, b'x,y,z,angle\r\n4194304,-2097152,4259840,1073741824\r\n'))
        status, shown, error = self.on_terminal('render', 'MAP01', ENDS='1')
        self.assertEqual((status, shown, error), (1, b'', 'doomview: ended 1\n'))


if __name__ == '__main__':
    unittest.main()
