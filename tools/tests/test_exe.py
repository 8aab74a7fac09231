"""Tests doomview.exe, which DOOMVIEW_EXE names, under Wine: its jobs with the tables built in write what ./doomview writes.
tools/portable --check makes one and runs these tests."""
import fcntl
import os
import pty
import re
import select
import shutil
import struct
import subprocess
import tempfile
import termios
import time
import unittest
from unittest import mock

from made_files import COMMAND, pixels_of
from doomview_tools import call_words, command, explanations, jobs, levels, paths, program, refusals, wads
from systems import built_in, check, targets

EXE, TESTED = os.environ.get('DOOMVIEW_EXE', ''), os.environ.get('DOOMVIEW_TESTED', '')
GAMES = [path for path in ('/usr/share/games/doom/freedoom1.wad', '/usr/share/games/doom/freedoom2.wad') if os.path.exists(path)]
RAISED = ['--planes', '1024', '--openings', '245760']
READ = 'read; name another one to write'
PYTHON = '''#include <stdio.h>
#include <windows.h>
int main(int count, char **words) {
    char path[1000];
    GetModuleFileNameA(NULL, path, 1000);
    for (int i = 1; i < count; i++) printf("[%s]", words[i]);
    return printf(" %s\\n", path), 3;
}
'''
SECONDS = 60  # that a program on a terminal may take
UNREADABLE = ' cannot be read: | is no plain file |^there is no WAD '  # the causes are those of the system
TABLES_TOOL = '; `doomview tables` writes them'  # of a tool that is not there
# Sentences that the program has not: they look through all of a map, or guess what is meant.
MORE = r'; did you mean|nodes are .* deep|textures of the map are in no list|lines of two sides with|spaces beside its commas'


def first_line(said):
    """The program's own line of what was said: the command adds sentences."""
    return said.decode().partition('\n')[0].rstrip('\r')


@unittest.skipUnless(EXE and TESTED and check.wine(), 'there is no doomview.exe, no program or no Wine')
class Exe(unittest.TestCase):
    """A folder, and Wine with a folder of its own."""

    @classmethod
    def setUpClass(cls):
        cls.folder = tempfile.mkdtemp()
        cls.addClassCleanup(shutil.rmtree, cls.folder)
        cls.there = check.Wine()
        cls.there.__enter__()
        cls.addClassCleanup(cls.there.__exit__)

    def at(self, name):
        return os.path.join(self.folder, name)

    def exe(self, *words):
        """Status and outputs of doomview.exe, of what it says the first line."""
        status, output, said = self.whole(*words)
        return status, output, said.partition('\n')[0]

    def whole(self, *words):
        """Status, output and all that doomview.exe says."""
        done = self.there.run([os.path.abspath(EXE), *words], self.folder)
        return done.returncode, done.stdout, done.stderr.decode()

    def explained(self, *words):
        """Status, line and sentences of doomview.exe."""
        status, output, said = self.whole(*words)
        lines = said.splitlines()
        self.assertEqual(output, b'', words)
        self.assertTrue(all(line.startswith('explain: ') for line in lines[1:]), said)
        return status, lines[0], [line[len('explain: '):] for line in lines[1:]]

    def there_now(self):
        """All files of the folder with their bytes."""
        found = {}
        for name in os.listdir(self.folder):
            if os.path.isfile(self.at(name)):
                with open(self.at(name), 'rb') as file:
                    found[name] = file.read()
        return found

    def room(self, wad='room.wad', path='path.csv'):
        """A WAD and a path; the words of a job over them."""
        self.assertEqual(self.command('room', '-o', wad)[0], 0)
        self.assertEqual(self.command('places', wad, 'MAP01', '4', '-o', path)[0], 0)
        return ['MAP01', wad, '--path', path]

    def command(self, *words):
        done = subprocess.run([COMMAND, *words], cwd=self.folder, env={**os.environ, 'DOOMVIEW': TESTED},
                              stdin=subprocess.DEVNULL, capture_output=True)
        return done.returncode, done.stdout, first_line(done.stderr)

    def write(self, name, rows):
        with open(self.at(name), 'w', encoding='utf-8') as file:
            file.write(paths.text(rows))


class Starts(Exe):
    @unittest.skipUnless(GAMES, 'Freedoom is not installed')
    def test_starts(self):
        """Frame and counts from the start of each map of Freedoom."""
        for wad in GAMES:
            for name in wads.maps_of([wad]):
                self.write('path.csv', paths.turn(levels.read([wad], name), 1))
                for job in ('render', 'limits'):
                    words = [job, name, wad, '--path', self.at('path.csv'), *RAISED]
                    with mock.patch.dict(os.environ, DOOMVIEW=TESTED):
                        done = program.run(words)
                    self.assertEqual(self.exe(*words), (0, done.output, done.line), words)


class Jobs(Exe):
    def test_jobs(self):
        """Each job over a level takes the tables that are built in, and those that are named."""
        self.command('room', '-o', 'room.wad')
        self.command('places', 'room.wad', 'MAP01', '4', '-o', 'path.csv')
        self.command('make', 'things', '-o', 'one.csv')
        for job in ('render', 'trace', 'limits', 'list', 'audit', 'trim'):
            for more in ([], ['--things', 'one.csv'], ['--things=one.csv'], ['--skill', '6']):
                words = [job, 'MAP01', 'room.wad', '--path', 'path.csv', *more]
                self.assertEqual(self.exe(*words), self.command(*words), words)
        for words in (['make', 'wad', '3'], ['exercise', '2'], ['render'], ['audit', 'MAP01', 'absent.wad', '--path', 'path.csv']):
            self.assertEqual(self.exe(*words)[:2], self.command(*words)[:2], words)

    def test_output(self):
        """-o writes a file that is whole, or leaves what was there."""
        words = ['render', *self.room('räume 1.wad', 'wege é.csv')]
        self.assertEqual(self.exe(*words, '-o', 'bild 1.bin'), (0, b'', ''))
        self.assertEqual(self.exe('-o', 'bild 2.bin', *words), (0, b'', ''))
        found = self.there_now()
        self.assertEqual({found['bild 1.bin'], found['bild 2.bin']}, {self.command(*words)[1]})
        status, output, error = self.exe('render', 'MAP02', *words[2:], '-o', 'bild 1.bin')
        self.assertEqual((status, output, error), (2, b'', 'doomview: refused 601'))
        for name, why in (('no/folder.bin', 'there is no such folder'), ('.', 'it is a folder')):
            self.assertEqual(self.exe(*words, '-o', name)[0], 4)
            self.assertIn(f'cannot write {name}; {why}', self.exe(*words, '-o', name)[2])
        self.assertEqual(self.exe(*words, '-o')[:2], (1, b''))
        self.assertEqual(self.exe(*words, '-o', 'a', '-o', 'b')[:2], (1, b''))
        self.assertEqual(self.there_now(), found)

    def test_read(self):
        """No file that is read is written over, however it is named."""
        words = self.room('read.wad', 'read.csv')
        for name in ('read.wad', 'read.csv'):
            os.makedirs(self.at('folder'), exist_ok=True)
            os.link(self.at(name), self.at('hard'))
            os.symlink(name, self.at('soft'))
            before = self.there_now()
            for spelled in (name, name.upper(), f'folder/../{name}', f'.\\{name}', f'Z:{self.at(name)}', 'hard', 'soft'):
                status, output, said = self.whole('limits', *words, '-o', spelled)
                self.assertEqual((status, output, READ in said), (4, b'', True), (spelled, said))
            self.assertEqual(self.there_now(), before)
            os.remove(self.at('hard'))
            os.remove(self.at('soft'))
        shutil.copy(self.at('read.wad'), self.at('read.png'))
        self.assertEqual(self.whole('picture', 'read.png', 'READ.PNG')[0], 2)
        shutil.copy(self.at('read.csv'), self.at('new.part'))
        self.assertEqual(self.exe('limits', 'MAP01', 'read.wad', '--path', 'new.part', '-o', 'new')[0], 0)
        self.assertEqual(self.there_now()['new.part'], self.there_now()['read.csv'])

    def test_picture(self):
        """picture draws what the tool draws, from the start or a place, also where its words are in another order."""
        self.room()
        for words in (['room.wad'], ['room.wad', 'MAP01'], ['MAP01', 'room.wad'], [], ['room.wad', 'MAP01', '--at', '100.5,200,-90'],
                      ['room.wad', '--at', '512,192,30,60'], ['room.wad', '--at', 'ang=0x40000000;x,y=(0x2000000,0xc00000)'],
                      ['room.wad', '--skill', '1', '--size', '8', '--spans=packed']):
            self.assertEqual(self.exe('picture', *words, 'ours é.png'), (0, b'', ''), words)
            self.assertEqual(self.command('picture', *words, 'theirs.png')[0], 0)
            self.assertEqual(pixels_of(self.at('ours é.png')), pixels_of(self.at('theirs.png')), words)
        before = self.there_now()
        for words, said in ((['absent.wad', 'a.png'], 'absent.wad cannot be read: there is no such file'), (['room.wad', 'a.txt'], 'has to end in .png'),
                            (['room.wad', 'MAP09', 'a.png'], 'room.wad has no map MAP09; the maps there: MAP01'), ([], 'OUT.png'),
                            (['room.wad', 'a.png', '--at', 'x'], 'x is no place'), (['room.wad', 'a.png', '--skill', '9'], '--skill is a number'),
                            (['room.wad', 'no/a.png'], 'cannot write no/a.png'), (['path.csv', 'a.png'], 'path.csv has no map')):
            status, output, error = self.whole('picture', *words)
            self.assertEqual((status > 0, output), (True, b''), words)
            self.assertIn(said, error)
        self.assertEqual(self.there_now(), before)

    @unittest.skipUnless(GAMES, 'Freedoom is not installed')
    def test_picture_of_pwad(self):
        """A PWAD is drawn over its game, which --iwad or IWAD names, and is refused without."""
        lumps = wads.read(GAMES[-1])
        label = wads.map_labels(lumps)['MAP05']
        with open(self.at('own.wad'), 'wb') as file:
            file.write(wads.wad_of([('MAP05', b''), *lumps[label + 1:label + 11]], b'PWAD'))
        self.assertEqual(self.exe('picture', '--iwad', GAMES[-1], 'own.wad', 'a.png'), (0, b'', ''))
        with mock.patch.dict(self.there.env, IWAD='Z:' + GAMES[-1]):
            self.assertEqual(self.exe('picture', 'own.wad', 'b.png'), (0, b'', ''))
        self.assertEqual(self.command('picture', GAMES[-1], 'MAP05', 'c.png')[0], 0)
        self.assertEqual(len({pixels_of(self.at(name)) for name in ('a.png', 'b.png', 'c.png')}), 1)
        status, _, said = self.whole('picture', 'own.wad', 'd.png')
        self.assertEqual((status, 'own.wad is a PWAD, and needs the WAD of its game' in said), (2, True))


@unittest.skipUnless(shutil.which(targets.WINDOWS_COMPILER), 'there is no compiler for Windows')
class LauncherJobs(Exe):
    """doomview.cmd, with a stand-in for Python that shows its words and ends with 3."""

    @classmethod
    def setUpClass(cls):
        super().setUpClass()
        with open(os.path.join(cls.folder, 'python.c'), 'w', encoding='ascii') as file:
            file.write(PYTHON)
        for name in ('a release', 'other', 'older'):
            os.makedirs(os.path.join(cls.folder, name))
        cls.python = os.path.join(cls.folder, 'stand-in.exe')
        subprocess.run([targets.WINDOWS_COMPILER, '-O1', '-s', os.path.join(cls.folder, 'python.c'), '-o', cls.python], check=True)
        shutil.copy(os.path.join(os.path.dirname(COMMAND), 'doomview.cmd'), os.path.join(cls.folder, 'a release'))

    def put(self, place):
        os.makedirs(os.path.dirname(self.at(place)), exist_ok=True)
        shutil.copy(self.python, self.at(place))

    def launched(self, *folders):
        """Status, output and what is said of doomview.cmd, with some folders in the path."""
        more = ';'.join('Z:' + self.at(folder) for folder in folders)
        with mock.patch.dict(self.there.env, WINEPATH=more):
            done = self.there.run(['cmd', '/c', 'doomview.cmd', 'maps', 'x y.wad', '--at', '1,2,3'], self.at('a release'))
        return done.returncode, done.stdout.decode(), done.stderr.decode()

    def test_launcher(self):
        status, output, said = self.launched('other')
        self.assertEqual((status, output), (70, ''))
        self.assertIn('Python 3.9 or later is not installed; docs\\SYSTEMS.md says how', said)
        script = 'Z:' + self.at('a release/tools/doomview_tools/__main__.py').replace('/', '\\')
        for place, folders in (('older/python.exe', ['other', 'older']), ('other/py.exe', ['older', 'other']),
                               ('a release/python/python.exe', ['older', 'other'])):
            self.put(place)
            status, output, said = self.launched(*folders)
            self.assertEqual((status, said), (3, ''), place)
            self.assertIn(f'[-X][utf8][{script}][maps][x y.wad][--at][1,2,3]', output)
            self.assertIn(place.replace('/', '\\').lower(), output.lower())


class Sentences(Exe):
    """Where a job fails, doomview.exe says what explain says."""

    def same(self, case, said=None):
        """The sentences on a run are those of explain, of which it may lack MORE and lists of all of a kind."""
        words = case if said is None else said
        status, line, found = self.explained(*words)
        with mock.patch.dict(os.environ, DOOMVIEW=TESTED):
            known = [sentence.replace(TABLES_TOOL, '') for sentence in explanations.on_line(line, words)]
        found, known = ([sentence for sentence in told if not re.search(UNREADABLE, sentence)] for told in (found, known))
        self.assertGreater(status, 0)
        self.assertEqual(found[:1], known[:1], words)
        self.assertEqual(found, [sentence for sentence in known if sentence in found], words)
        return line, found, known

    def test_refusals(self):
        """Of each code that a golden case is refused with the names and what is known more."""
        run_, chosen = check.golden(), {}
        for case in check.golden_cases():
            code = re.match(r'doomview: refused (\d+)', case.expected.line)
            if code and not case.how and check.is_text(case):
                chosen.setdefault(code[1], case)
        run_.put_files(TESTED, self.folder, chosen.values())
        self.assertGreater(len(chosen), 40)
        os.chdir(self.folder)
        self.addCleanup(os.chdir, os.path.dirname(COMMAND))
        for code, case in sorted(chosen.items()):
            line, found, known = self.same(case.arguments())
            self.assertEqual(line, case.expected.line)
            self.assertRegex(found[0], f'^(.* in UTF-16|.* semicolons|{code}: )')
            of_all = self.of_all(int(code), case.arguments()) if int(code) in refusals.CHECKS else []
            left = [sentence for sentence in known if sentence not in [*found, *of_all] and not re.search(MORE, sentence)]
            self.assertEqual(left, [], case.words)

    def of_all(self, code, words):
        """The sentences on all of a map that is refused for a code."""
        with mock.patch.dict(os.environ, DOOMVIEW=TESTED):
            scene = refusals.Scene(call_words.Words(program.complete(words)))
        return list(refusals.all_wrong(scene, code))

    def test_usage(self):
        """What is wrong with words, of each kind; a guess at what is meant is explain's alone."""
        level = self.room()
        self.addCleanup(os.chdir, os.path.dirname(COMMAND))
        os.chdir(self.folder)
        for words in (['render'], ['render', 'MAP01'], ['render', 'MAP01', 'room.wad'], ['limits', *level, '--zone', '63'],
                      ['limits', *level, '--zone', '66'], ['limits', *level, '--skill=9'], ['limits', *level, '--skill', 'x'],
                      ['render', *level, '--spans', 'half'], ['audit', *level, '--path', 'path.csv'],
                      ['render', *level, '--format'], ['render', 'MAP0000001', *level[1:]], ['render', *level, *['room.wad'] * 17],
                      ['make'], ['make', 'wad', '33'], ['exercise', 'x'], ['flat', 'A'], ['flat', 'A', 'room.wad', '--zone', '64'],
                      ['make', 'path', '3', '--qqqqqqq', '1']):
            line, found, known = self.same(words)
            self.assertEqual((line, found), ('doomview: usage', known), words)
        for words, said in ((['render', *level, '--fromat', 'ppm'], 'render takes no --fromat; its options are --tables'),
                            (['limits', *level, '--spans', 'full'], 'limits takes no --spans; its options are --tables')):
            status, line, found = self.explained(*words)
            self.assertEqual((status, line, len(found)), (1, 'doomview: usage', 1))
            self.assertIn(said, found[0])
        for words in (['paint', 'it'], ['--zone', '64'], ['Render', *level], ['-x']):
            status, line, found = self.explained(*words)
            self.assertEqual((status, line, len(found)), (1, 'doomview: usage', 1))
            self.assertRegex(found[0], '^there is no job ')

    def test_faults(self):
        """A file that cannot be read is named, also one that is none of a WAD, and no file without a cause."""
        level = self.room('räume.wad')
        os.makedirs(self.at('folder'), exist_ok=True)
        for words, said in (([*level[:3], 'absent.csv'], ['absent.csv cannot be read: there is no such file.']),
                            (['MAP01', 'fehlt é.wad', *level[2:]], ['fehlt é.wad cannot be read: there is no such file.']),
                            (['MAP01', 'folder', *level[2:]], ['folder is no plain file (a folder or a pipe cannot be read).']),
                            (['MAP01', 'räume.wad', 'no/a.wad', *level[2:], '--weapon=b'],
                             ['b cannot be read: there is no such file.', 'no/a.wad cannot be read: there is no such file or folder.'])):
            status, line, found = self.explained('audit', *words)
            self.assertEqual((status, line, found), (3, 'doomview: read fault', said))

    def test_other_ends(self):
        """A view over a limit with its place, a full zone, and what trim has left."""
        level = self.room()
        self.addCleanup(os.chdir, os.path.dirname(COMMAND))
        os.chdir(self.folder)
        self.assertEqual(self.same(['audit', *level, '--zone', '64'])[0][:19], 'doomview: zone full')
        status, _, said = self.whole('trim', *level, '--zone', '12000')
        self.assertEqual((status, said.splitlines()[-1]), (6, 'explain: what was written is no whole WAD; throw it away.'))
        self.assertNotIn('no whole WAD', self.whole('trim', *level, '--zone', '12000', '-o', 'new')[2])

    @unittest.skipUnless(GAMES, 'Freedoom is not installed')
    def test_limit(self):
        row = paths.Row(-50331648, -60817408, 2686976, 0)
        self.write('over.csv', self.over_row() or [row])
        words = ['render', 'MAP12', GAMES[-1], '--path', 'over.csv']
        status, output, said = self.whole(*words)
        self.assertEqual((status, output), (5, b''))
        os.chdir(self.folder)
        self.addCleanup(os.chdir, os.path.dirname(COMMAND))
        lines = said.splitlines()
        with mock.patch.dict(os.environ, DOOMVIEW=TESTED):
            self.assertEqual([line[len('explain: '):] for line in lines[1:]], list(explanations.on_line(lines[0], words)))

    def over_row(self):
        """A row of MAP12 at which the program finds more than 128 planes."""
        self.write('many.csv', paths.places(levels.read([GAMES[-1]], 'MAP12'), 2000, 1))
        _, output, _ = self.command('limits', 'MAP12', GAMES[-1], '--path', 'many.csv')
        views = [int(line.split()[1]) for line in output.decode().splitlines() if ' over planes ' in line]
        return [paths.rows(self.at('many.csv'))[view] for view in views[:1]]


class ToolJobs(Exe):
    """The tools in Python over doomview.exe, as a release on Windows has them."""

    def both(self, *words):
        """What the command does with doomview.exe and with the program: status and outputs of each."""
        with open(EXE, 'rb') as file:
            path = self.there.command(file.read())
        runs = (subprocess.run([COMMAND, *words], cwd=self.folder, env={**os.environ, 'DOOMVIEW': program}, stdin=subprocess.DEVNULL,
                               capture_output=True) for program in (path, TESTED))
        return [(done.returncode, done.stdout, done.stderr.decode().replace('\r', '')) for done in runs]

    def test_tools(self):
        """They write the same, and sentences come once."""
        level = self.room()
        for words in (['limits', *level, '--places'], ['audit', 'MAP02', *level[1:]], ['render', *level, '--zone', '20000', '-o', 'a.bin'],
                      ['explain', 'audit', *level, '--skill', '9'], ['limits-map', 'room.wad', 'MAP01', '--shut', '--json', '--step', '256', '--jobs', '1'],
                      ['why-limit', 'room.wad', 'MAP01', '512,192,90'], ['lint', 'room.wad', 'MAP01'], ['audit-all', 'room.wad']):
            exe, native = self.both(*words)
            self.assertEqual(exe, native, words)
        self.assertEqual(self.both('picture', 'room.wad', 'a.png')[0], (0, b'', ''))


class Consoles(Exe):
    """A console of Wine on a terminal, and help."""

    def on_console(self, *words, keys=b''):
        """Status and what a console shows, of Wine's words."""
        main, other = pty.openpty()
        fcntl.ioctl(other, termios.TIOCSWINSZ, struct.pack('HHHH', 60, 200, 0, 0))
        run = subprocess.Popen([*check.start(), *words], cwd=self.folder, env={**self.there.env, 'LC_ALL': 'C.UTF-8', 'TERM': 'xterm'},
                               stdin=other, stdout=other, stderr=other, start_new_session=True)
        os.close(other)
        shown, end = b'', time.monotonic() + SECONDS
        while time.monotonic() < end:
            ready = select.select([main], [], [], 0.1)[0]
            if not ready and run.poll() is not None:
                break
            try:
                shown += os.read(main, 65536) if ready else b''
            except OSError:
                break
            if keys and b'Press a key' in shown:
                os.write(main, keys)
                keys = b''
        if run.poll() is None:
            run.kill()
        os.close(main)
        return run.wait(), re.sub(r'\x1b\[[0-9;?]*[A-Za-z]', ' ', shown.decode(errors='replace'))

    def windows_path(self, path):
        return 'Z:' + os.path.abspath(path).replace('/', '\\')

    def test_code_pages(self):
        """Names of files are right in consoles of three code pages, and UTF-8 in a pipe."""
        for page in ('437', '850', '65001'):
            words = f'chcp {page} & {self.windows_path(EXE)} audit MAP01 räume.wad --path Größe.csv'
            status, shown = self.on_console('cmd', '/c', words)
            self.assertEqual(status, 3, shown)
            self.assertIn(f'code page: {page}', shown)
            for name in ('räume.wad', 'Größe.csv'):
                self.assertIn(f'{name} cannot be read: there is no such file.', shown)
        self.assertIn('räume.wad cannot be read', self.whole('audit', 'MAP01', 'räume.wad', '--path', 'Größe.csv')[2])

    def test_key(self):
        """Where the console is the program's alone it waits for a key, and in that of another program it does not."""
        status, shown = self.on_console(EXE, keys=b'x')
        self.assertEqual((status, 'Press a key' in shown, 'usage: doomview JOB' in shown), (1, True, True), shown)
        for words, ended in ((EXE, 1), (f'{EXE} help', 0)):
            status, shown = self.on_console('cmd', '/c', words.replace(EXE, self.windows_path(EXE)))
            self.assertEqual((status, 'Press a key' in shown, 'usage: doomview JOB' in shown), (ended, False, True), shown)

    def test_bytes(self):
        """What is no text goes to no console; texts do, and so do the sentences on words that are wrong."""
        level = ' '.join(self.room())
        for words, ended, said in ((f'render {level}', 1, 'is no text, and the output is a console; name a file by -o FILE'),
                                   ('render MAP01', 1, 'render needs --path too.'), ('make path 1', 0, 'x,y,z,angle'),
                                   (f'limits {level}', 0, 'view 0 planes ')):
            status, shown = self.on_console('cmd', '/c', f'{self.windows_path(EXE)} {words}')
            self.assertEqual((status, said in shown), (ended, True), shown)

    def test_help(self):
        """Every way to ask for help, and the page of each job; no tool is named that is not there."""
        overview = built_in.overview()
        self.assertEqual(self.whole(), (1, b'', 'doomview: usage\n' + overview))
        for word in ('--help', '-h', '/?', 'help'):
            self.assertEqual(self.whole(word), (0, overview.encode(), ''), word)
        for name, job in jobs.JOBS.items():
            page = built_in.job_page(job).encode()
            self.assertNotRegex(page.decode(), built_in.NAMED_TOOL)
            for words in (['help', name], [name, '--help'], [name, 'MAP01', '-h'], [name, '/?']):
                self.assertEqual(self.whole(*words), (0, page, ''), words)
        self.assertEqual(self.whole('picture', '-h'), (0, built_in.picture_page().encode(), ''))
        for name in set(command.TOOLS) - {'picture'}:
            for words in ([name], ['help', name], [name, 'a.wad', '--help']):
                status, output, said = self.whole(*words)
                self.assertEqual((status, output), (1, b''))
                self.assertEqual(said, f'doomview: {name} is a tool in Python, of the release, and not in this program; doomview --help has what is\n')
        self.assertEqual(self.whole('help', 'paint')[0], 1)
        self.assertEqual(self.whole('--version')[:2], (0, built_in.version().encode()))

    def test_dropped(self):
        """WADs that are dropped on the icon bring the overview, and how to draw them."""
        self.room('räume 1.wad')
        for words in (['räume 1.wad'], ['path.csv', 'räume 1.wad'], ['Z:' + self.at('räume 1.wad')]):
            status, output, said = self.whole(*words)
            self.assertEqual((status, output), (1, b''))
            self.assertIn(built_in.overview(), said)
            self.assertTrue(said.endswith(f'  doomview picture "{words[-1]}" picture.png\n'), said)
        self.assertTrue(self.whole('path.csv')[2].endswith(built_in.overview()))
        shutil.copy(self.at('path.csv'), self.at('help'))
        self.assertEqual(self.whole('help')[0], 0)


if __name__ == '__main__':
    unittest.main()
