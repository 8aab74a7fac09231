"""Tests what makes doomview for other systems: the text of a module for another target, kits that are not known, the parts of
the page. What is made is tried by tools/portable --check, which runs the tests of test_page too."""
import contextlib
import importlib.machinery
import importlib.util
import io
import os
import re
import shutil
import subprocess
import unittest
from unittest import mock

from made_files import TOOLS, TOP, Tools
from doomview_tools import command, installation, job_options, jobs, levels, refusals, room, tables, wads
from doomview_tools.trouble import Trouble
from systems import built_in, check, ir, kit, module, page, static, targets

# A module with a line of each kind that is changed, and code that is not.
MODULE = '''; ModuleID = 'module.bc'
source_filename = "doomview"
target datalayout = "e-m:e-p270:32:32-p271:32:32-p272:64:64-i64:64-i128:128-f80:128-n8:16:32:64-S128"
target triple = "x86_64-unknown-linux-gnu"

@name = private constant [6 x i8] c"@read\\00"

define internal i64 @reader(ptr noundef %to) #0 {
  %n = call i64 @read(i32 3, ptr %to, i64 5)
  %m = call i64 @reader(ptr %to)
  ret i64 %n
}

define i32 @main(i32 %0, ptr %1) #0 {
  %made = call { i64, i64 } @rattle_alloc(i64 8, i64 8)
  call void @rattle_dealloc(ptr null)
  call void @llvm.memcpy.p0.p0.i64(ptr null, ptr null, i64 0, i1 false)
  ret i32 0
}

declare noundef i64 @read(i32 noundef, ptr noundef, i64 noundef) #1

declare { i64, i64 } @rattle_alloc(i64 noundef, i64 noundef) #1

declare { i64, i64 } @rattle_realloc(ptr noundef, i64 noundef, i64 noundef, i64 noundef) #1

declare void @rattle_dealloc(ptr noundef) #1

declare i32 @memcmp(ptr, ptr, i64) #1

declare void @llvm.memcpy.p0.p0.i64(ptr noalias, ptr noalias, i64, i1) #2

attributes #0 = { nounwind "probe-stack"="inline-asm" "target-cpu"="x86-64-v2" }
attributes #1 = { nounwind }
attributes #2 = { nounwind }
'''
HEAP = '; the heap\n'
RATTLE = '''#!/bin/sh
for word; do
    case $last in --toolchain) toolchain=$word ;; -o) target=$word ;; esac
    last=$word
done
cd "$(mktemp -d)" && echo module >{given} && "$toolchain/bin/clang" {given} -o "$target"
'''


class Ir(unittest.TestCase):
    def changed(self, target, *edits):
        """The lines of the text for a target that are others: pairs of before and after."""
        text = MODULE
        for old, new in edits:
            self.assertIn(old, text)
            text = text.replace(old, new)
        after, counts = ir.rewritten(target, text, HEAP)
        self.assertTrue(after.endswith(HEAP))
        return after, counts

    def test_windows(self):
        after, counts = self.changed('windows')
        self.assertEqual(counts, {'triple': 1, 'layout': 1, 'attributes': 1, 'heap': 3, 'called': 1, 'main': 1})
        for line in ('target triple = "x86_64-w64-windows-gnu"', 'define i32 @proved_main(i32 %0, ptr %1) #0 {',
                     '  %n = call i64 @port_read(i32 3, ptr %to, i64 5)', '  %m = call i64 @reader(ptr %to)',
                     '  %made = call { i64, i64 } @rattle_alloc(i64 8, i64 8)', 'declare i32 @memcmp(ptr, ptr, i64) #1',
                     'declare noundef i64 @port_read(i32 noundef, ptr noundef, i64 noundef) #1',
                     'attributes #0 = { nounwind "target-cpu"="x86-64-v2" }'):
            self.assertIn(line + '\n', after)
        self.assertNotRegex(after, r'declare [^\n]*@rattle_|probe-stack|linux')

    def test_browser(self):
        after, counts = self.changed('wasm64')
        self.assertEqual(counts['attributes'], 2)
        self.assertIn('target triple = "wasm64-unknown-unknown"\n', after)
        self.assertIn('attributes #0 = { nounwind }\n', after)
        self.assertEqual(ir.called(MODULE), ['port_read'])

    def test_outlined(self):
        """In a browser, what a function that calls itself calls has a frame of its own where it calls others; nothing else changes."""
        walk = ('define internal void @"walk<(a)>"(ptr %a) #0 {\n  call void @"step<1>"(ptr nonnull dereferenceable(8) %a) #1\n'
                '  call void @leaf(ptr %a)\n  call void @"walk<(a)>"(ptr %a)\n  ret void\n}\n\n'
                'define internal void @"step<1>"(ptr %a) #0 {\n  call void @leaf(ptr %a)\n  ret void\n}\n\n'
                'define internal void @leaf(ptr %a) #0 {\n  ret void\n}\n\n')
        edits = ('define i32 @main', walk + 'define i32 @main')
        after, counts = self.changed('wasm64', edits)
        self.assertEqual(counts['outlined'], 1)
        self.assertIn('call void @"step<1>"(ptr nonnull dereferenceable(8) %a) noinline #1\n  call void @leaf(ptr %a)\n', after)
        self.assertIn('  call void @"walk<(a)>"(ptr %a)\n', after)
        self.assertNotIn('noinline', self.changed('windows', edits)[0])

    def test_rest(self):
        """Every other line stays as it is."""
        before, after = MODULE.splitlines(), self.changed('windows')[0].splitlines()
        kept = [line for line in before if line in after]
        self.assertEqual([line for line in after if line in before], kept)
        self.assertEqual(len(before) - len(kept), 9)

    def test_unknown(self):
        """A text with anything that is not known is refused, and the line is named."""
        read, main = 'declare noundef i64 @read(i32 noundef, ptr noundef, i64 noundef) #1', 'define i32 @main(i32 %0, ptr %1) #0 {'
        for edits, said in [
                ([('x86_64-unknown-linux-gnu', 'riscv64-unknown-linux-gnu')], 'another target, in line 4'),
                ([('n8:16:32:64-S128', 'n8:16:32:64')], 'another target, in line 3'),
                ([(read, read.replace('i64 noundef', 'i32 noundef'))], 'not known as i64 (i32, ptr, i32), in line 21'),
                ([(read, read.replace('@read', '@mmap')), ('@read(i32 3', '@mmap(i32 3')], 'a function that is called'),
                ([('ret i64 %n', 'call void asm "nop", ""()\n  ret i64 %n')], 'in line 11 '),
                ([('  ret i32 0', '  %v = load ptr addrspace(1), ptr null')], 'what only one processor'),
                ([('"probe-stack"="inline-asm"', '"probe-stack"="__probe"')], 'the attribute probe-stack is __probe'),
                ([('"target-cpu"="x86-64-v2"', '"tune-cpu"="znver4"')], 'the attribute tune-cpu is znver4'),
                ([(main, main.replace('i32 @main', 'void @main'))], 'main has another type'),
                ([(main, main.replace('@main', '@start'))], '0 lines of main'),
                ([('declare void @rattle_dealloc(ptr noundef) #1\n', '')], '2 lines of heap')]:
            with self.assertRaises(Trouble) as found:
                self.changed('windows', *edits)
            self.assertIn('this kit is not one that tools/portable knows', str(found.exception))
            self.assertIn(said, str(found.exception))
            self.assertEqual(found.exception.status, 2)


class Kit(Tools):
    """A kit of stand-ins, in which a module is text."""

    def setUp(self):
        super().setUp()
        for folder in ('kit/bin', 'kit/toolchain/bin', 'kit/c', 'top/crates/doomview/src', 'top/crates/doomview/out', 'path'):
            os.makedirs(self.at(folder))
        self.write('kit/START-HERE.md', b'')
        self.stand_in('path/rt', f'#!/bin/sh\necho {self.at("kit/START-HERE.md")!r}\n')
        self.stand_in('kit/toolchain/bin/clang', '#!/bin/sh\necho compiled >"$3"\n')
        self.write('top/crates.txt', b'doomview: std below\nbelow: std\n')
        os.makedirs(self.at('top/crates/below/out/rlib'))
        self.write('top/crates/doomview/src/main.rt', b'')
        self.write('top/crates/doomview/out/doomview.o', b'compiled\n')
        self.put(os.environ, 'PATH', self.at('path') + os.pathsep + os.environ['PATH'])
        self.put(vars(kit), 'OBJECT', self.at('top/crates/doomview/out/doomview.o'))
        self.put(vars(kit.installation), 'TOP', self.at('top'))

    def put(self, place, name, value):
        before = place[name]
        self.addCleanup(place.__setitem__, name, before)
        place[name] = value

    def rattle(self, given='module.bc'):
        self.stand_in('kit/bin/rattle', RATTLE.format(given=given))

    def refused(self, said, act=module.kept):
        with self.assertRaises(Trouble) as found:
            act()
        self.assertIn(said, str(found.exception))
        self.assertEqual(found.exception.status, 2)

    def test_kept(self):
        """The module is what clang was given, and neither the kit nor the sources are changed."""
        self.rattle()
        self.assertEqual(module.kept(), b'module\n')
        self.assertEqual(os.listdir(self.at('kit/toolchain/bin')), ['clang'])
        self.assertEqual(os.listdir(self.at('top/crates/doomview/out')), ['doomview.o'])

    def test_stored(self):
        """The module is kept, and made anew for another object file alone."""
        self.rattle()
        self.assertEqual(module.kept(), b'module\n')
        self.rattle('other.bc')
        self.assertEqual(module.kept(), b'module\n')
        self.write('top/crates/doomview/out/doomview.o', b'other\n')
        self.refused('rattle build')
        self.assertEqual(module.stored('module', [b'other'], lambda: b'made'), b'made')
        self.assertEqual(len(os.listdir(self.at('top/out/previews'))), 1)

    def test_unknown_kit(self):
        self.rattle('other.bc')
        self.refused('rattle build')
        self.rattle()
        self.write('top/crates/doomview/out/doomview.o', b'other\n')
        self.refused('it makes another object file')
        os.rmdir(self.at('top/crates/below/out/rlib'))
        self.refused('build the program first')

    def test_other_target(self):
        """The object file for another target is made by the kit's own toolchain folder."""
        self.rattle()
        self.assertEqual(module.object_for('aarch64-unknown-linux-gnu'), b'compiled\n')
        words = module.build_words('kit', 'made.o', 'tools', ('--target', 'other'))
        self.assertEqual(words[-4:], ['--target', 'other', '-o', 'made.o'])
        self.assertEqual(words[words.index('--toolchain') + 1], 'tools')

    def test_not_built(self):
        os.utime(self.at('top/crates/doomview/out/doomview.o'), (1, 1))
        self.refused('is older than the sources')
        os.remove(self.at('top/crates/doomview/out/doomview.o'))
        self.refused('build the program first')

    def test_no_kit(self):
        self.stand_in('path/rt', '#!/bin/sh\nexit 2\n')
        self.refused('`rt doc` names no page', kit.folder)
        self.refused('the kit has no', lambda: kit.archives(self.at('kit')))


PROVED = 'crates/doomview/out/doomview'
CHECKED = f'check {PROVED}'


class Gate(Tools):
    """.ci/run with stand-ins for all that it calls, and for the program that it checks."""

    def setUp(self):
        super().setUp()
        for folder in ('top/.ci', 'top/tools', 'path', os.path.dirname(f'top/{PROVED}')):
            os.makedirs(self.at(folder))
        shutil.copy(os.path.join(TOP, '.ci', 'run'), self.at('top/.ci/run'))
        self.stand_in(f'top/{PROVED}', '#!/bin/sh\n')
        for name in ('bash', 'dirname', 'timeout', 'python3'):
            os.symlink(shutil.which(name), self.at(f'path/{name}'))
        self.answers(0, 0, 1)

    def answers(self, proved, checked, tried):
        for name, status in (('path/rt', proved), ('top/tools/check', checked), ('top/tools/portable', tried)):
            self.stand_in(name, f'#!/bin/sh\necho {os.path.basename(name)} "$@"\nexit {status}\n')

    def run_gate(self):
        """Its status, and the commands that it called."""
        done = subprocess.run([self.at('top/.ci/run')], env={'PATH': self.at('path')}, stdin=subprocess.DEVNULL,
                              capture_output=True, text=True)
        return done.returncode, [line for line in done.stdout.splitlines() if not line.startswith('ci: ')]

    def test_nothing_there(self):
        """Without Wine, Chromium or the compiler the gate is what it was."""
        self.assertEqual(self.run_gate(), (0, ['rt ci', CHECKED]))
        self.stand_in('path/wine', '#!/bin/sh\n')
        self.stand_in('path/chromium', '#!/bin/sh\n')
        self.assertEqual(self.run_gate(), (0, ['rt ci', CHECKED]))

    def test_previews(self):
        """A preview that differs fails the gate, one that could not be tried does not; what failed before is told at once."""
        for name in ('wine', 'chromium', 'x86_64-w64-mingw32-gcc'):
            self.stand_in(f'path/{name}', '#!/bin/sh\n')
        all_three = ['rt ci', CHECKED, 'portable --check --seconds 600']
        for proved, checked, tried, status, called in [
                (0, 0, 0, 0, all_three), (0, 0, 1, 1, all_three), (0, 0, 2, 0, all_three), (0, 0, 124, 0, all_three),
                (0, 1, 0, 1, all_three[:2]), (1, 0, 0, 1, all_three[:1])]:
            self.answers(proved, checked, tried)
            self.assertEqual(self.run_gate(), (status, called))


class Checked(Tools):
    """tools/portable --check with stand-ins for what is made and for what tries it."""

    def setUp(self):
        super().setUp()
        loader = importlib.machinery.SourceFileLoader('portable', os.path.join(TOOLS, 'portable'))
        self.portable = importlib.util.module_from_spec(importlib.util.spec_from_loader('portable', loader))
        loader.exec_module(self.portable)
        self.begun, self.statuses = [], {}

    def note(self, name):
        self.begun.append(name)
        status = self.statuses.get(name, 0)
        if isinstance(status, Exception):
            raise status
        return status

    def check(self, seconds, there=('chromium', 'wine', 'firefox')):
        """The status, and what is said."""
        made = {'windows': mock.Mock(command=b'exe', plain=b'plain'), 'wasm64': b'wasm'}
        stand_ins = [mock.patch.object(check, 'wine', lambda: 'wine' * ('wine' in there)),
                     mock.patch.object(self.portable.chromium, 'command', lambda: 'chromium' if 'chromium' in there else None),
                     mock.patch.object(self.portable.firefox, 'command', lambda: 'firefox' if 'firefox' in there else None),
                     mock.patch.object(targets, 'made', lambda names: made), mock.patch.object(page, 'page', lambda data: data),
                     mock.patch.object(self.portable, 'tried', lambda what, *_: self.note(what)),
                     mock.patch.object(check, 'status_of_tests', lambda test, part, path, until, browser: self.note(
                         f'{test} {part} {browser}'.rstrip())),
                     mock.patch.object(self.portable.system, 'processors', lambda: 1)]
        said = io.StringIO()
        with contextlib.ExitStack() as stack, contextlib.redirect_stdout(said):
            for stand_in in stand_ins:
                stack.enter_context(stand_in)
            status = self.portable.checked(seconds)
        return status, said.getvalue()

    def test_order(self):
        """The golden runs come first; where all is tried no line says otherwise."""
        self.assertEqual(self.check(60), (0, ''))
        self.assertEqual(sorted(self.begun[:3]), ['firefox', 'page', 'windows'])
        self.assertEqual(len(self.begun), 3 + sum(len(parts) for tests in self.portable.TESTS.values() for _, parts in tests))

    def test_time(self):
        """What is not begun in time is named; a difference that was found is told all the same."""
        status, said = self.check(-1)
        self.assertEqual((status, self.begun), (check.UNTRIED, []))
        self.assertIn('portable: not tried, or not to the end: golden runs of doomview.exe in Wine; golden runs of doomview.html in '
                      'Chromium; golden runs of doomview.html in Firefox; test_exe, Starts in Wine; ', said)
        self.statuses = {'page': check.DIFFERENT, 'test_page Maps': check.UNTRIED, 'test_exe Jobs': Trouble('no room')}
        status, said = self.check(60)
        self.assertEqual(status, check.DIFFERENT)
        self.assertIn('portable: test_exe, Jobs in Wine: no room\n', said)
        self.assertTrue(said.endswith('portable: not tried, or not to the end: test_exe, Jobs in Wine; test_page, Maps in Chromium\n'), said)

    def test_nothing_there(self):
        status, said = self.check(60, there=())
        self.assertEqual((status, self.begun), (0, []))
        self.assertIn('Wine is not installed, so doomview.exe was not tried in it', said)
        self.assertIn('Firefox is not installed, so doomview.html was not tried in it', said)

    def test_late(self):
        """A part of the tests that is not through in time is ended, and was not tried."""
        self.stand_in('late', '#!/bin/sh\nexec sleep 60\n')
        with mock.patch.object(check.sys, 'executable', self.at('late')), mock.patch.object(check, 'native', lambda: ''), \
                mock.patch.object(check, 'MORE', 0):
            self.assertEqual(check.status_of_tests('test_page', 'Maps', 'page', 1), check.UNTRIED)


class Starts(Tools):
    """Starts of Wine, of which one may be lost, by stand-ins."""

    def setUp(self):
        super().setUp()
        environ = mock.patch.dict(os.environ, PATH=self.bin)
        environ.start()
        self.addCleanup(environ.stop)
        check.layout.cache_clear()
        self.addCleanup(check.layout.cache_clear)
        self.stand_in('bin/wineserver', '#!/bin/sh\n')
        self.stand_in('bin/true', '#!/bin/sh\n')

    def wine(self, first):
        """Wine of which the first start of a program does this, and the others write what they were given."""
        self.stand_in('bin/wine', '#!/bin/sh\n[ "$1" != cmd ] || exit 0\necho start >>starts\n'
                      f'[ "$(cat starts)" != start ] || {{ {first}; }}\necho "$@"\n')

    def runs(self, first):
        """How a run ends, and how often it was started."""
        self.wine(first)
        self.write('starts', b'')
        with check.Wine() as there:
            done = there.run(['doomview.exe', 'render'], self.folder)
            self.assertIn('err+virtual', there.env['WINEDEBUG'])
        return done.returncode, done.stdout, done.stderr, self.read('starts').count('start')

    def test_once_more(self):
        """Without the words of layout a run that ended with 1 and no byte is made once more, and no other one."""
        self.wine(':')
        self.assertEqual(check.start(), [self.at('bin/wine')])
        whole = b'doomview.exe render\n'
        lost = 'echo 0024:err:virtual:virtual_init failed to map the shared user data >&2'
        for first, ended in [('exit 1', (0, whole, b'', 2)), (f'{lost}; exit 1', (0, whole, b'', 2)), (':', (0, whole, b'', 1)),
                             ('echo doomview: usage >&2; exit 1', (1, b'', b'doomview: usage\n', 1)),
                             ('echo a; exit 1', (1, b'a\n', b'', 1)), ('exit 2', (2, b'', b'', 1))]:
            self.assertEqual(self.runs(first), ended, first)

    def test_layout(self):
        """Where setarch works Wine is started by it, and each run counts."""
        self.stand_in('bin/setarch', '#!/bin/sh\n[ "$1" = -R ] && shift && exec "$@"\n')
        self.assertEqual(self.runs('exit 1'), (1, b'', b'', 1))
        self.assertEqual(check.start(), ['setarch', '-R', self.at('bin/wine')])
        with check.Wine() as there:
            self.assertIn(f' exec setarch -R {self.at("bin/wine")} ', self.text_of(there.command(b'')))

    def test_no_layout(self):
        """setarch may be there, and be refused by the system."""
        self.stand_in('bin/setarch', '#!/bin/sh\nexit 1\n')
        self.assertEqual(self.runs('exit 1')[3], 2)

    def test_cases(self):
        """A golden case is run a second time where its start may have been lost, and that run counts."""
        lost, said, whole = (mock.Mock(status=status, length=size, line=line) for status, size, line in (
            ('1', '0', ''), ('1', '0', 'doomview: usage'), ('0', '5', '')))
        for outcomes, found in (([lost, whole], whole), ([lost, lost], lost), ([said], said), ([whole], whole)):
            runner = mock.Mock(run=mock.Mock(side_effect=outcomes))
            self.assertIs(check.outcome_of(runner, 'case'), found)
            self.assertEqual(runner.run.call_count, len(outcomes))

    def text_of(self, path):
        with open(path, encoding='utf-8') as file:
            return file.read()


class Static(unittest.TestCase):
    def test_loader(self):
        """Python itself needs a loader, an ELF file without program headers none; what is no ELF file is refused."""
        with open(os.path.realpath('/bin/sh'), 'rb') as file:
            data = file.read()
        self.assertTrue(static.needs_loader(data))
        self.assertFalse(static.needs_loader(data[:56] + b'\0\0' + data[58:]))
        with self.assertRaises(Trouble):
            static.needs_loader(b'#!/bin/sh\n')


class Page(unittest.TestCase):
    def test_facts(self):
        """Each fact that a script of the page names is given to it, and none else."""
        scripts, given = page.parts([*page.WORKER, *page.PAGE]), page.facts()
        lists = re.findall(r'const \{([^}]*)\} = FACTS', scripts)
        named = {name.strip() for part in lists for name in part.split(',')} | set(re.findall(r'FACTS\.(\w+)', scripts))
        self.assertEqual(named, set(given))

    def test_one_file(self):
        """The page names nothing that is fetched, its policy forbids to, and it says what it is."""
        data = page.page(b'program').decode()
        self.assertNotRegex(data, r'(?:src|href)="(?!data:|#)|@import|https?://|fetch\(|XMLHttpRequest|WebSocket|importScripts')
        policy = re.search(r'http-equiv="Content-Security-Policy" content="([^"]*)"', data)[1]
        self.assertIn("default-src 'none'", policy)
        self.assertIn("connect-src 'none'", policy)
        self.assertNotIn('http', policy)
        self.assertIn('preview, and no proved program', data)
        self.assertIn('from 133, \' +', data)
        self.assertEqual(len(re.findall('</script>', data)), 2)

    def test_size(self):
        with self.assertRaises(Trouble):
            page.page(bytes(page.MOST_BYTES))

    def test_files(self):
        """No part of the page is longer than 400 lines."""
        for folder in ('page', 'glue'):
            for name in os.listdir(os.path.join(TOOLS, 'systems', folder)):
                with open(os.path.join(TOOLS, 'systems', folder, name), encoding='utf-8') as file:
                    self.assertLessEqual(len(file.readlines()), 400, name)


class BuiltIn(unittest.TestCase):
    def test_files(self):
        """doomview.exe has the tables, the things and the room as the tools have them."""
        source = built_in.source()
        for name, data in (('tables', tables.tables()), ('things', module.bytes_of(installation.data('things.csv'))), ('room', room.room())):
            numbers = re.search(r'bytes_of_%s\[\] = \{([^}]*)\}' % name, source)[1].split(',')
            self.assertEqual(bytes(map(int, numbers)), data)
            self.assertIn(f'{{"<{name}>", bytes_of_{name}, {len(data)}}}', source)

    def test_tables(self):
        """It has each job, each option with its jobs and its range, and each code with its sentence."""
        source = built_in.source()
        for number, job in enumerate(jobs.JOBS.values()):
            self.assertIn(f'{{"{job.name}", {int(job.name in jobs.LEVEL_JOBS)}, {int(job.is_binary)}, ', source)
            for option in job_options.options().values():
                bits = int(re.search(r'\{"%s", (\d+), ' % option.name, source)[1])
                self.assertEqual(bool(bits >> number & 1), job.name in option.jobs)
        self.assertRegex(source, r'\{"--zone", \d+, 64, 536870912, 4, "", ""\}')
        for code, (wrong, _) in refusals.codes().items():
            self.assertIn(f'{{{code}, {built_in.text(refusals.NAMED.get(code, ""))}, {built_in.text(wrong)}, ', source)

    def test_other_tools(self):
        """No text of it names a tool that is not there but the sentence that says so, nor what a clone alone has."""
        texts = [built_in.overview(), built_in.picture_page(), *map(built_in.job_page, jobs.JOBS.values())]
        texts += [built_in.without_tools(mend) for _, mend in refusals.codes().values()]
        for text in texts:
            self.assertNotRegex(text, built_in.NAMED_TOOL)
            self.assertNotRegex(text, r'--places|--proved|--build|could not be built|\n\n\n|[:;]\n\n')
        for name in command.TOOLS:
            self.assertEqual(bool(built_in.NAMED_TOOL.search(f'as doomview {name} does')), name != 'picture')
        audit = ' '.join(built_in.job_page(jobs.JOBS['audit']).split())
        self.assertIn('or things outside the level. Words: MAP', audit)

    def test_names(self):
        """The parts of the names of a refusal are those that the source in C knows."""
        with open(os.path.join(targets.GLUE, 'sentences.c'), encoding='utf-8') as file:
            known = set(re.findall(r'IS\("([a-z ]+)"\)', file.read()))
        self.assertEqual(known, set(refusals.PARTS))
        self.assertLessEqual({part for form in refusals.NAMED.values() for part in re.findall(r'\{(.*?)\}', form)}, known)

    def test_extended(self):
        """The letters of extended nodes, and what packed files are, are those of the tools."""
        with open(os.path.join(targets.GLUE, 'hints.c'), encoding='utf-8') as file:
            source = file.read()
        self.assertIn(f'"{" ".join(letters.decode() for letters in levels.EXTENDED)}"', source)
        for kind in wads.PACKED.values():
            self.assertIn(f'"{kind}"', source)


if __name__ == '__main__':
    unittest.main()
