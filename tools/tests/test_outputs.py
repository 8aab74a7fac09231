"""Tests that no job and no tool writes over a file that it reads, however the file is named. The tools and their words are
those of the command, so a new one is tried too."""
import ast
import contextlib
import io
import os
import unittest
from unittest import mock

from made_files import COMMAND, TOOLS, Tools
from doomview_tools import cli, command, files, jobs
from doomview_tools.trouble import Trouble

READ = 'read; name another one to write'
# Values of words that name no file, by what a help page calls them; a word of any other name has to have a type that says
# what its file is for.
PLAIN = {'MAP': 'MAP01', 'NAME': 'MAP01', 'COUNT': '3', 'VIEWS': '3', 'VIEW': '0', 'X': '0', 'Y': '0', 'PLACE': '0,0,0', 'N': '1',
         'X,Y,DEGREES': '0,0,0', 'KINDS': 'sprite', 'NAMES': 'MAP01', 'S': 'full', 'F': 'index', 'LIST': '1/one', 'WORDS..': 'audit',
         'make|draw|explain': 'make', '': None}
# The modules in which a file is opened to be written by another way than WholeFile: those that nothing else names.
OF_THEIR_OWN = {'build', 'commands/why_limit', 'counting', 'files', 'original', 'path_drawing', 'program', 'setup_trials'}
FILE_TYPES = files.Source, files.Output, files.Folder


def kind_of(argument):
    """Which of FILE_TYPES the type of an argument is, or None."""
    is_type = isinstance(argument.type, type)
    return next((kind for kind in FILE_TYPES if is_type and issubclass(argument.type, kind)), None)


class Outputs(Tools):
    def setUp(self):
        super().setUp()
        self.program = self.stand_in('program', '#!/bin/sh\necho "$@" >>"$(dirname "$0")/started"\n')
        os.mkdir(self.at('folder'))
        os.symlink(self.folder, self.at('here'))
        self.addCleanup(files.check_outputs, [], [])  # so that other tests of this process may write what was read here

    def read_file(self, name):
        """A file that is read, and the ways to name it."""
        self.write(name, f'what is in {name}'.encode())
        os.link(self.at(name), self.at('hard'))
        os.symlink(name, self.at('soft'))
        return [name, f'./{name}', f'folder/../{name}', self.at(name), f'here/{name}', 'hard', 'soft']

    def forget(self):
        for name in ('hard', 'soft'):
            os.remove(self.at(name))

    def there(self):
        """All files of the folder with their bytes."""
        return {name: self.read(name) for name in os.listdir(self.folder) if os.path.isfile(self.at(name))}

    def refused(self, *words, status=2):
        """The words are refused since a file is read, and nothing is written or started."""
        before = self.there()
        ended, output, error = self.answered(*words)
        self.assertEqual((ended, output), (status, ''), (words, error))
        self.assertIn(READ, error, words)
        self.assertEqual(self.there(), before, words)

    def answered(self, *words):
        """Status and outputs of the command, in this process."""
        output, error, former = io.StringIO(), io.StringIO(), os.getcwd()
        surroundings = mock.patch.dict(os.environ, self.surroundings(doomview=self.program), clear=True)
        with surroundings, contextlib.redirect_stdout(output), contextlib.redirect_stderr(error):
            os.chdir(self.folder)
            try:
                status = command.answer(list(words))
            except Trouble as trouble:
                status = trouble.status
                error.write(str(trouble))
            finally:
                os.chdir(former)
        return status, output.getvalue(), error.getvalue()


def words_of(arguments, values):
    """The words of a tool: those that it needs, and those that have a value in `values`, which are by place."""
    plain, options = [], []
    for place, argument in enumerate(arguments):
        value = values.get(place, PLAIN.get(argument.value, 'other') if argument.is_needed or not argument.names else None)
        if value is not None and argument.names:
            options += [argument.names[0], value]
        elif value is not None:
            plain.append(value)
    return options + plain


class OfTools(Outputs):
    def test_types(self):
        """Each word of a tool that names a file says by its type what the file is for."""
        for name in command.TOOLS:
            for argument in cli.parser_of(command.tool(name)).arguments:
                self.assertNotEqual(kind_of(argument) is None, argument.value not in PLAIN, (name, argument))

    def test_tools(self):
        """Every file that a tool writes against every file that it reads, and against the program."""
        tried = set()
        for name in command.TOOLS:
            arguments = cli.parser_of(command.tool(name)).arguments
            kinds = [(place, kind_of(argument)) for place, argument in enumerate(arguments)]
            for output in [place for place, kind in kinds if kind is files.Output]:
                tried.add(name)
                self.refused(name, *words_of(arguments, {output: 'program'}))
                for source in [place for place, kind in kinds if kind is files.Source]:
                    for spelled in self.read_file('read.wad'):
                        self.refused(name, *words_of(arguments, {output: spelled, source: 'read.wad'}))
                    self.forget()
        self.assertLessEqual({'picture', 'places', 'turn', 'path', 'compare', 'limits-map', 'video', 'tables', 'room'}, tried)

    def test_found(self):
        """A WAD that is found elsewhere, the WAD of IWAD, and a map before its WAD."""
        os.mkdir(self.at('wads'))
        self.write('wads/game.wad', b'game')
        for words, more in ((['places', 'game', 'MAP01'], {'DOOMWADDIR': self.at('wads')}),
                            (['places', 'MAP01', 'wads/game.wad'], {}),
                            (['places', 'made.wad', 'MAP01'], {'IWAD': 'wads/game.wad'})):
            done = self.run_command(COMMAND, *words, '-o', 'wads/../wads/game.wad', **more)
            self.assertEqual((done[0], READ in done[2]), (2, True), done)
        self.assertEqual(self.read('wads/game.wad'), 'game')

    def test_twice(self):
        for words in (['--worst', 'new', '--opened', './new'], ['--worst', 'new', '--opened', 'here/new']):
            self.refuses('is named twice', 'limits-map', 'made.wad', 'MAP01', *words, doomview=self.program)
        self.assertFalse(os.path.exists(self.at('new')))

    def test_folders(self):
        """What is written into a folder is held against all that is read too, of a folder that is read its files."""
        for name in command.TOOLS:
            arguments = cli.parser_of(command.tool(name)).arguments
            for place in [place for place, argument in enumerate(arguments) if kind_of(argument) is files.Source]:
                for given in ('read.wad', 'shots'):
                    os.makedirs(self.at('shots'), exist_ok=True)
                    self.read_file('read.wad')
                    os.link(self.at('read.wad'), self.at('shots/view00000.png'))
                    words = words_of(arguments, {place: self.at(given)})
                    options = cli.in_order(cli.parser_of(command.tool(name)).parse(words))
                    files.check_outputs([], cli.sources_of(options))
                    with self.assertRaises(Trouble) as found:
                        files.write_whole(self.at('shots/view00000.png'), b'new')
                    self.assertIn(READ, str(found.exception))
                    self.assertEqual(self.read('read.wad'), 'what is in read.wad')
                    self.forget()
                    os.remove(self.at('shots/view00000.png'))

    def test_rest(self):
        """A tool that writes into the folder of what it reads."""
        before = self.run_tool('room', '-o', 'room.wad'), self.run_tool('rest', 'room.wad', 'MAP01', 'out')
        self.assertEqual([done[0] for done in before], [0, 0], before)
        still = self.read('out/still.wad')
        self.refuses(READ, 'rest', '--iwad', 'room.wad', 'out/still.wad', 'MAP01', 'out')
        self.assertEqual(self.read('out/still.wad'), still)

    def test_one_way(self):
        """No other module opens a file to write it."""
        found, top = set(), os.path.join(TOOLS, 'doomview_tools')
        for folder in ('', 'commands'):
            for name in sorted(os.listdir(os.path.join(top, folder))):
                if name.endswith('.py'):
                    found |= {os.path.join(folder, name[:-3])} if writes(os.path.join(top, folder, name)) else set()
        self.assertLessEqual(found, OF_THEIR_OWN)


def writes(path):
    """Whether a module opens a file to write it."""
    with open(path, encoding='utf-8') as file:
        tree = ast.parse(file.read())
    calls = [node for node in ast.walk(tree) if isinstance(node, ast.Call) and getattr(node.func, 'id', '') == 'open']
    modes = [call.args[1].value for call in calls if len(call.args) > 1 and isinstance(call.args[1], ast.Constant)]
    return any(set(mode) & set('wax+') for mode in modes if isinstance(mode, str))


class OfJobs(Outputs):
    def test_jobs(self):
        """-o against every file of a job, by every way to name it, also beside words that are wrong."""
        for name in jobs.LEVEL_JOBS:
            for option in ('--path', '--tables', '--things', '--weapon'):
                ways = self.read_file('read.csv')
                for spelled in ways:
                    self.refused(name, 'MAP01', 'made.wad', f'{option}=read.csv', '-o', spelled, status=4)
                self.refused('-o', ways[-1], name, 'MAP01', 'made.wad', option, 'read.csv', status=4)
                self.forget()

    def test_wads(self):
        for name in [*jobs.LEVEL_JOBS, 'flat']:
            for spelled in self.read_file('read.wad'):
                for words in (['MAP01', 'read.wad'], ['MAP01', 'made.wad', 'read.wad'], ['read.wad', 'MAP01']):
                    self.refused(name, *words, '-o', spelled, status=4)
            self.forget()

    def test_others(self):
        """The program itself, the tools' own things, a line's places, and explain."""
        self.read_file('read.wad')
        self.refused('make', 'wad', '1', '-o', 'program', status=4)
        self.refused('limits', 'MAP01', 'read.wad', '-o', 'soft', '--places', status=4)
        self.refused('audit', 'MAP01', 'made.wad', '-o', os.path.join(TOOLS, 'data', 'things.csv'), status=4)
        self.refused('explain', 'audit', 'MAP01', 'read.wad', '-o', 'hard', status=4)

    def test_other_file(self):
        """A file that is not read is written over, as are links to it."""
        self.write('old', b'old')
        os.symlink('old', self.at('to-old'))
        for path in ('old', 'to-old', 'new'):
            done = self.run_command(COMMAND, 'make', 'path', '1', '-o', path, doomview=self.program)
            self.assertEqual(done, (0, b'', ''))
        self.assertEqual((self.read('old'), self.read('new')), ('', ''))


if __name__ == '__main__':
    unittest.main()
