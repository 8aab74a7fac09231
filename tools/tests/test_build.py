"""Tests how the command builds the program, with a stand-in for rt, on crates that are made up."""
import os
import re
import shutil
import signal
import subprocess
import sys
import tempfile
import time
import unittest

from made_files import COMMAND, COMMANDS, COMPILED, TOOLS

CRATES = '''# low
low: csv
left: low
right: low csv

high: left right   # both
doomview: high csv
tests: doomview
'''
ORDER = ['low', 'left', 'right', 'high', 'doomview', 'tests']
# Does as rt does, without a proof: builds a crate where its library is not there or of another text, notes its calls in
# the file CALLS, fails at the crate FAILS saying SAYS, waits with a child at the crate WAITS until there is a file GOES.
RT = '''#!PYTHON
import os, shutil, subprocess, sys, time
here = os.path.basename(os.getcwd())
top = os.getcwd() if sys.argv[1] == 'all' else os.path.dirname(os.path.dirname(os.getcwd()))
below = {}
for line in open(f'{top}/crates.txt'):
    head, _, rest = line.partition('#')[0].partition(':')
    if head.strip():
        below[head] = [it for it in rest.split() if it in below]
def note(text):
    with open(os.environ['CALLS'], 'a') as file:
        file.write(text + '\\n')
def build(crate):
    note('build ' + crate)
    print('proving ' + crate, flush=True)
    if crate == os.environ.get('WAITS'):
        child = subprocess.Popen([sys.executable, '-c', 'import time; time.sleep(60)'])
        note(f'waiting {os.getpid()} {child.pid}')
        while child.poll() is None and not os.path.exists(os.environ.get('GOES', '')):
            time.sleep(0.01)
        child.kill()
    if crate == os.environ.get('FAILS'):
        print(os.environ.get('SAYS', 'open goal'))
        return False
    return True
def text_of(crate):
    return repr([open(f'{top}/crates/{crate}/src/lib.rt').read(), *map(text_of, below[crate])])
def lib(crate):
    if not all([lib(it) for it in below[crate]]):
        return False
    made = f'{top}/crates/{crate}/out'
    if os.path.exists(f'{made}/stamp') and open(f'{made}/stamp').read() == text_of(crate):
        return True
    os.makedirs(made, exist_ok=True)
    if not build(crate):
        return False
    with open(f'{made}/stamp', 'w') as file:
        file.write(text_of(crate))
    return True
if sys.argv[1] == 'all':
    note('top: ' + ' '.join(sys.argv[1:]))
    sys.exit(not all([lib(it) for it in below]))
note(here + ': ' + ' '.join(sys.argv[1:]))
if not lib(here):
    sys.exit(1)
program = f'{top}/crates/doomview/out/doomview'
with open(program, 'w') as file:
    file.write('#!/bin/sh\\ncat\\necho "$@"\\nexit 5\\n')
os.chmod(program, 0o755)
sys.exit(not build('program'))
'''


class Build(unittest.TestCase):
    def setUp(self):
        self.folder = tempfile.mkdtemp(prefix='two words ')
        self.addCleanup(shutil.rmtree, self.folder)
        for crate in ORDER:
            os.makedirs(self.at('crates', crate, 'src'))
            self.write(f'crates/{crate}/src/lib.rt', '')
        self.write('crates.txt', CRATES)
        for folder in ('bin', 'opt/kit/bin'):
            os.makedirs(self.at(folder))
        for name in COMMANDS:
            os.symlink(shutil.which(name), self.at('bin', name))
        os.symlink(sys.executable, self.at('bin', 'python3'))
        shutil.copy(COMMAND, self.folder)
        for name in ('data', 'doomview_tools'):
            shutil.copytree(os.path.join(TOOLS, name), self.at('tools', name),
                            ignore=shutil.ignore_patterns('__pycache__'))
        self.change('BUILD_DISK = 9 * 10 ** 9', 'BUILD_DISK = 0')  # whatever room there is
        os.chmod(self.write('opt/kit/bin/rt', RT.replace('PYTHON', sys.executable)), 0o755)
        os.symlink('../opt/kit/bin/rt', self.at('bin', 'rt'))
        self.seen = 0

    def at(self, *parts):
        return os.path.join(self.folder, *parts)

    def write(self, place, text):
        with open(self.at(place), 'w') as file:
            file.write(text)
        return self.at(place)

    def change(self, old, new):
        """Changes the text of the build."""
        place = 'tools/doomview_tools/build.py'
        with open(self.at(place)) as file:
            text = file.read()
        self.assertIn(old, text)
        self.write(place, text.replace(old, new))

    def calls(self):
        """The calls of rt since the last look."""
        with open(self.at('calls'), 'a+') as file:
            file.seek(self.seen)
            lines = file.read().splitlines()
            self.seen = file.tell()
        return lines

    def waiting(self):
        """The processes of an rt that waits: its own, and its child's."""
        for _ in range(3000):
            for line in self.calls():
                if line.startswith('waiting '):
                    return [int(number) for number in line.split()[1:]]
            time.sleep(0.01)
        self.fail('no rt waits')

    def has_ended(self, process):
        """Whether a process ends, which another than this one may have to wait for."""
        for _ in range(1000):
            try:
                with open(f'/proc/{process}/stat') as file:
                    if file.read().rpartition(')')[2].split()[0] == 'Z':
                        return True
            except FileNotFoundError:
                return True
            time.sleep(0.01)
        return False

    def start(self, *words, session=False, **more):
        env = {'PATH': self.at('bin'), 'HOME': self.folder, 'CALLS': self.at('calls'), **COMPILED, **more}
        return subprocess.Popen([self.at('doomview'), *words], cwd='/', text=True, env=env, start_new_session=session,
                                stdin=subprocess.PIPE, stdout=subprocess.PIPE, stderr=subprocess.PIPE)

    def runs(self, *words, **more):
        run = self.start(*words, **more)
        output, error = run.communicate('input ')
        return run.returncode, output, error

    def builds(self):
        """The program is built and run with its words and its input, and then needs no rt."""
        status, output, error = self.runs('make', 'two words')
        self.assertEqual((status, output), (5, 'input make two words\n'), error)
        self.assertRegex(error, '^doomview: building: .*\n$')
        calls = self.calls()
        self.assertRegex(calls[-1], 'build program')
        self.assertEqual(self.runs('again'), (5, 'input again\n', ''))
        self.assertEqual(self.calls(), [])
        return calls, error

    def test_first(self):
        """All crates are proved, at a time as many as there are processors, and then the program is compiled."""
        calls, error = self.builds()
        jobs = re.fullmatch('top: all check --jobs ([1-9][0-9]*)', calls[0])[1]
        self.assertEqual(calls[1:], [*(f'build {it}' for it in ORDER), f'doomview: run --jobs {jobs} -- make things',
                                     'build program'])
        self.assertIn('From nothing that takes about half an hour on four processors\n', error)

    def test_later(self):
        """A later build proves what has changed below the program, and no tests."""
        self.builds()
        self.write('crates/left/src/lib.rt', 'changed')
        calls, error = self.builds()
        self.assertEqual(calls[1:], [f'build {it}' for it in ('left', 'high', 'doomview', 'program')])
        self.assertRegex(calls[0], 'doomview: run --jobs [0-9]+ -- make things')
        self.assertNotIn('From nothing', error)
        os.remove(self.at('out', 'doomview'))
        self.assertEqual(self.builds()[0][1:], ['build program'])

    def test_first_of_a_tried_clone(self):
        """A build is the first one until rt came to all crates that the program names, whatever was proved before."""
        for crate in ('low', 'left', 'doomview'):
            os.mkdir(self.at('crates', crate, 'out'))
        self.assertIn('top: ', self.builds()[0][0])

    def test_failure(self):
        for crate, words, place in [('left', 'all check', ''), ('high', 'all check', ''),
                                    ('program', 'run', '/crates/doomview')]:
            status, output, error = self.runs('make', FAILS=crate)
            self.assertEqual((status, output), (70, ''))
            self.assertIn(f'proving {crate}\nopen goal\n', error)
            self.assertRegex(error, f'doomview: the build failed: rt {words} --jobs .* in {self.folder}{place} ended '
                             'with 1; its last lines are above\n$')
            self.assertFalse(os.path.exists(self.at('out', 'doomview')))
        self.calls()
        self.assertEqual(self.builds()[0][1:], ['build program'])

    def test_long_lines(self):
        """Of what rt said before it failed the last lines are shown, cut."""
        said = [f'line {number} '.ljust(400, '-') for number in range(200)]
        error = self.runs('make', FAILS='program', SAYS='\n'.join(said))[2]
        self.assertEqual(error.splitlines()[-101:-1], [line[:300] for line in said[100:]])
        self.assertNotIn('line 99', error)

    def test_full_disk(self):
        """A full disk is told in one sentence, whatever rt said of it."""
        error = self.runs('make', FAILS='high', SAYS='No space left on device' * 1000)[2]
        told = [line for line in error.splitlines() if not re.match('doomview: building', line)]
        self.assertEqual(len(told), 1, error)
        self.assertRegex(told[0], 'doomview: the build failed: the disk of .* is full')
        self.change('FULL_DISK = 64 << 20', 'FULL_DISK = 1 << 60')
        self.assertIn('is full', self.runs('make', FAILS='high')[2])
        self.builds()

    def test_little_room(self):
        """A first build says where the disk has less room than it takes."""
        self.change('BUILD_DISK = 0', 'BUILD_DISK = 10 ** 18')
        self.assertRegex(self.runs('make')[2], 'doomview: the disk has .* GB free, and a whole build takes about ')
        os.remove(self.at('out', 'doomview'))
        self.assertNotIn('the disk', self.runs('make')[2])

    def test_no_place(self):
        """Where the program can have no place, the build says so."""
        self.write('out', '')
        status, output, error = self.runs('make')
        self.assertEqual((status, output), (70, ''))
        self.assertRegex(error, '^doomview: the build failed: .*out')
        self.assertEqual(self.calls(), [])

    def test_interrupt(self):
        """A signal ends rt and all that it started; the next call goes on."""
        for stop, crate in [(signal.SIGTERM, 'right'), (signal.SIGINT, 'high'), (signal.SIGHUP, 'program')]:
            run = self.start('make', WAITS=crate)
            processes = self.waiting()
            run.send_signal(stop)
            output, error = run.communicate()
            self.assertEqual((run.returncode, output), (128 + stop, ''), error)
            self.assertRegex(error, 'interrupted; what is proved is kept, and the next call goes on from there\n$')
            self.assertTrue(all(self.has_ended(process) for process in processes))
            self.assertFalse(os.path.exists(self.at('out', 'doomview')))
        self.assertEqual(self.builds()[0][1:], ['build program'])

    def test_terminal(self):
        """From a terminal the signal reaches the whole group of the build."""
        run = self.start('make', WAITS='right', session=True)
        processes = self.waiting()
        os.killpg(run.pid, signal.SIGINT)
        output, error = run.communicate()
        self.assertEqual((run.returncode, output), (128 + signal.SIGINT, ''), error)
        self.assertRegex(error, 'interrupted; .*\n$')
        self.assertNotIn('failed', error)
        self.assertTrue(all(self.has_ended(process) for process in processes))
        self.assertNotIn('build low', self.builds()[0])

    def test_killed(self):
        """Nothing half-built is run after a build that could not clear up."""
        run = self.start('make', WAITS='program')
        processes = self.waiting()
        run.kill()
        for process in processes:
            os.kill(process, signal.SIGKILL)
        run.communicate()
        self.assertTrue(os.path.exists(self.at('crates/doomview/out/doomview')))
        self.builds()

    def test_place(self):
        """The program in its place is the one before until all is built, and as old as the start of its build."""
        self.builds()
        first = os.stat(self.at('out/doomview'))
        self.assertLess(first.st_mtime, os.path.getmtime(self.at('crates/doomview/out/doomview')))
        self.write('crates/low/src/lib.rt', 'changed')
        self.assertEqual(self.runs('make', FAILS='program')[0], 70)
        self.assertEqual(os.stat(self.at('out/doomview')), first)
        self.builds()
        self.assertNotEqual(os.stat(self.at('out/doomview')), first)

    def second(self):
        """A build that waits for another one."""
        run = self.start('make', 'two')
        self.assertEqual(run.stderr.readline(), 'doomview: waiting for another build to end\n')
        return run

    def test_second_build(self):
        """A second build waits for the first one, and finds the program built."""
        first = self.start('make', 'one', WAITS='high', GOES=self.at('go'))
        self.waiting()
        second = self.second()
        self.write('go', '')
        self.assertEqual(first.communicate('')[0], 'make one\n')
        self.assertEqual(second.communicate(''), ('make two\n', ''))
        self.assertEqual(sum(' make things' in line for line in self.calls()), 1)

    def test_second_goes_on(self):
        """Where the first one is interrupted, the second builds."""
        first = self.start('make', WAITS='high')
        self.waiting()
        second = self.second()
        first.send_signal(signal.SIGTERM)
        first.communicate()
        self.assertEqual(second.communicate('')[0], 'make two\n')
        self.assertEqual([line for line in self.calls() if 'build' in line],
                         [f'build {it}' for it in ('high', 'doomview', 'program')])

    def test_progress(self):
        """A build says now and then how long it has been going."""
        self.change('TELL_SECONDS = 0.1, 60', 'TELL_SECONDS = 0.1, 0')
        run = self.start('make', WAITS='high')
        self.waiting()
        told = [run.stderr.readline() for _ in range(3)]
        run.send_signal(signal.SIGTERM)
        run.communicate()
        self.assertRegex(told[0], 'doomview: building: each crate is proved')
        self.assertEqual(told[1:], ['doomview: building for 0 minutes\n'] * 2)

    def test_own_words(self):
        """The table of jobs and whether it is built without a build, a build without a job."""
        status, output, error = self.runs('--help')
        self.assertEqual((status, error), (0, ''))
        self.assertEqual(self.runs(), (64, '', 'doomview: usage\n' + output))
        self.assertEqual(self.runs('--built')[:2], (1, ''))
        why = 'explain: there is no job or tool paint; doomview --help has them all\n'
        self.assertEqual(self.runs('paint', 'it'), (64, '', 'doomview: usage\n' + output + why))
        self.assertEqual(self.calls(), [])
        self.assertEqual(self.runs('--build', FAILS='left')[0], 70)
        self.assertEqual(self.runs('--build')[:2], (0, ''))
        self.assertEqual([self.runs('--build'), self.runs('--built')], [(0, '', '')] * 2)
        self.assertEqual(self.runs('--help', 'me')[:2], (5, 'input --help me\n'))
        self.assertEqual(self.runs('paint', 'it')[:2], (5, 'input paint it\n'))

    def test_output(self):
        """A build says what it does on standard error, also where a job's output goes to a file."""
        status, output, error = self.runs('make', 'things', '-o', self.at('out.csv'))
        self.assertEqual((status, output), (5, ''))
        self.assertRegex(error, '^doomview: building: .*\n$')
        self.assertFalse(os.path.exists(self.at('out.csv')))

    def test_missing(self):
        os.remove(self.at('bin', 'rt'))
        status, output, error = self.runs('make')
        self.assertEqual((status, output), (70, ''))
        self.assertRegex(error, '^doomview: the build needs the command rt, .*\n$')
        os.remove(self.at('bin', 'python3'))
        self.assertEqual(self.runs('make'), (70, '', 'doomview: python3 is not installed (package: python3)\n'))

    def test_without_python(self):
        """Without Python the program that is built takes the words as they are."""
        self.builds()
        os.remove(self.at('bin', 'python3'))
        self.assertEqual(self.runs('render', 'two words')[:2], (5, 'input render two words\n'))


if __name__ == '__main__':
    unittest.main()
