"""Tests the pages: that links lead somewhere, that the code they point to is there, and that tables which say the same
agree, with each other and with the data of the tools."""
import datetime
import glob
import os
import re
import shutil
import subprocess
import unittest

import constants
from made_files import TOOLS, TOP, Tools
from doomview_tools import installation, job_options, jobs

TESTED = os.environ.get('DOOMVIEW_TESTED', '')
PAGES = ['README.md', 'CHANGELOG.md', 'tools/original/README.md', 'tools/ports/README.md']


def read(place):
    with open(os.path.join(TOP, place), encoding='utf-8') as file:
        return file.read()


def pages():
    return PAGES + sorted(os.path.relpath(path, TOP) for path in glob.glob(os.path.join(TOP, 'docs', '*.md')))


def rows(page, head):
    """The cells of the tables whose head begins so."""
    for table in re.findall(r'^' + re.escape(head) + r'.*\n\|[-|]+\|\n((?:\|.*\n?)+)', read(page), re.M):
        for line in table.splitlines():
            yield [cell.strip().replace('\\|', '|') for cell in re.split(r'(?<!\\)\|', line)[1:-1]]


def anchors(page):
    """The names that a link may give behind # for the headings of a page."""
    heads = re.findall(r'^#+ (.*)$', read(page), re.M)
    return {re.sub(r'[^\w\- ]', '', re.sub(r'[`*]', '', head).lower()).replace(' ', '-') for head in heads}


def pointers(cell, kind):
    """Of a cell such as "`f`, `g`; crate, file" each word with the file that should have it; a link is its text."""
    found, parts = [], re.sub(r'\[([^]]*)\]\([^)]*\)', r'\1', cell).split(';')
    for before, part in zip(parts, parts[1:]):
        place = re.match(r' *([a-z_]+(?:/[a-z_]+)?), ([\w/.]+)', part)
        words = re.search(r'((?:`[A-Za-z_][\w:]*`(?:, | and )?)+)$', before)
        if place and words:
            crate, _, folder = place[1].partition('/')
            file = place[2] if place[2].endswith('.rt') else f'{place[2]}.{"antt" if kind == "specs" else "rt"}'
            top = 'crates/' + crate if file.startswith('src/') else f'crates/{crate}/{kind}'
            path = '/'.join(it for it in (top, folder, file) if it)
            found += [(word.split('::')[-1], path) for word in re.findall(r'`([\w:]+)`', words[1])]
    return found


class Pages(unittest.TestCase):
    def has(self, word, place, what):
        self.assertTrue(os.path.exists(os.path.join(TOP, place)), f'{what}: there is no {place}')
        self.assertTrue(re.search(r'\b' + word + r'\b', read(place)), f'{what}: {word} is not in {place}')

    def test_links(self):
        for page in pages():
            for link in re.findall(r'\]\(([^)]+)\)', read(page)):
                if '://' in link:
                    continue
                path, _, anchor = link.partition('#')
                to = os.path.normpath(os.path.join(os.path.dirname(page), path)) if path else page
                self.assertTrue(os.path.exists(os.path.join(TOP, to)), f'{page}: {link}')
                if anchor:
                    self.assertIn(anchor, anchors(to), f'{page}: {link}')

    def test_where(self):
        """Each rule, function and edit of WHERE is in the file that it names."""
        count = 0
        for question, rule, code, _, edits in rows('docs/WHERE.md', '| Question | Rule | Code |'):
            for kind, cell in (('specs', rule), ('src', code)):
                for word, place in pointers(cell, kind):
                    self.has(word, place, question)
                    self.assertIn(f'](../{place})', cell, question)
                    count += 1
            for edit in re.findall(r'\b[a-z0-9]+(?:_[a-z0-9]+){2,}\b', edits):
                found = glob.glob(os.path.join(TOP, 'crates/*/must-fail', edit + '.edit'))
                self.assertTrue(found, f'{question}: there is no edit {edit}')
        self.assertGreater(count, 60)

    def test_map(self):
        """MAP names each edit, and no other."""
        there = sorted(os.path.basename(path)[:-len('.edit')]
                       for path in glob.glob(os.path.join(TOP, 'crates', '*', 'must-fail', '*.edit')))
        named = [edit for _, cell in rows('docs/MAP.md', '| File | Function, and its edits |')
                 for names in re.findall(r'`: ([a-z0-9_, ]+)', cell) for edit in names.split(', ')]
        self.assertEqual(sorted(named), there)

    def test_ways(self):
        """Each call of the ways that ARCHITECTURE shows is in the file that it names."""
        count = 0
        for head, at in (('| Step | Call | What it does |', 1), ('| What | Leaves | Goes on by |', 2)):
            for cells in rows('docs/ARCHITECTURE.md', head):
                for word, place in pointers(cells[at], 'src'):
                    self.has(word, place, cells[0])
                    count += 1
        self.assertGreater(count, 50)

    def test_long_lines(self):
        """No line of ARCHITECTURE has over 400 characters."""
        self.assertEqual([line for line in read('docs/ARCHITECTURE.md').splitlines() if len(line) > 400], [])

    def test_rendering(self):
        for question, rule, code, _ in rows('docs/RENDERING.md', '| Question | Rules | Code |'):
            for kind, ending, cell in (('specs', 'antt', rule), ('src', 'rt', code)):
                for part in cell.split(';'):
                    crate, _, files = part.strip().replace('`', '').partition(': ')
                    crate, _, folder = crate.partition('/')
                    for file in files.split(', '):
                        place = '/'.join(it for it in ('crates', crate, kind, folder, f'{file}.{ending}') if it)
                        self.assertTrue(os.path.exists(os.path.join(TOP, place)), f'{question}: {place}')

    def test_excerpts(self):
        """Each excerpt of code is in the file that is named last before it; a line of two dots leaves something out."""
        count = 0
        for page in pages():
            text = read(page)
            for block in re.finditer(r'^```(?:antt|rust)\n(.*?)^```', text, re.M | re.S):
                named = re.findall(r'\]\(\.\./(crates/[^)]+\.(?:antt|rt))\)|`([a-z_]+/proofs/[^`]+)`', text[:block.start()])[-1]
                place = named[0] or f'crates/{named[1]}.antt'
                whole = ' '.join(read(place).split())
                for part in re.split(r'^\.\.$', block[1], flags=re.M):
                    self.assertIn(' '.join(part.split()), whole, f'{page}: {place}')
                    count += 1
        self.assertGreater(count, 15)

    def test_refusals(self):
        """REFUSALS has each code of the code, and no other, each with the variant in the file that it names."""
        text = read('crates/refusals/src/codes.rt')
        known = {int(number) for number in re.findall(r'CODE_\w+: u64 = (\d+);', text)}
        groups = [int(number) for number in re.findall(r'GROUP_\w+: u64 = (\d+);', text)]
        told = []
        for code, _, wrong, mend, where in rows('docs/REFUSALS.md', '| Code | Numbers |'):
            told.append(int(code))
            self.assertTrue(wrong and mend, code)
            for word, place in pointers(where, 'src'):
                self.has(word, place, code)
        self.assertEqual(told, sorted(told))
        self.assertEqual({code for code in told if code not in known and code // 100 * 100 not in groups}, set())
        self.assertEqual(known - set(told), set())

    def test_codes(self):
        """Each row of the refusals names the variant for which the code writes that number."""
        codes = dict(re.findall(r'(\w+): u64 = (\d+);', read('crates/refusals/src/codes.rt')))
        lines = read('crates/refusals/src/lines.rt')
        written = {int(codes[code]): variant for variant, code in
                   re.findall(r'Refusal::(\w+)(?: \{[^}]*\})? => \{?\s*line\.add_numbers\(\s*&\[\s*(CODE_\w+)', lines)}
        of_table = dict(re.findall(r'CsvRefusal::(\w+)(?: \{[^}]*\})? => line\.add_numbers\(&\[group \+ (\d)', lines))
        groups = [int(number) for name, number in codes.items() if name.startswith('GROUP_')]
        self.assertGreater(len(written), 35)
        self.assertEqual(len(of_table), 7)
        for code, _, _, _, where in rows('docs/REFUSALS.md', '| Code | Numbers |'):
            variant = re.match(r'`(?:\w+::)?(\w+)`', where)[1]
            if variant in of_table and int(code) not in written:
                self.assertIn(int(code) - int(of_table[variant]), groups, code)
            else:
                self.assertEqual(written[int(code)], variant, code)

    def test_limits(self):
        """Each number of the table of limits is that of the constant beside it."""
        told = 0
        for what, least, greatest, where in rows('docs/FORMATS.md', '| What | Least | Greatest |'):
            words, _, place = where.rpartition(';')
            crate, file = place.strip().split(', ')
            crate, _, folder = crate.partition('/')
            path = file if file.startswith('src/') else '/'.join(it for it in ('src', folder, f'{file}.rt') if it)
            bounds = [number.strip('` ') for number in f'{least},{greatest}'.split(',')]
            for name, stated in re.findall(r'`(\w+)`(?: = (\d+))?', words):
                number = str(constants.value_in(os.path.join(TOP, 'crates', crate, path), name))
                self.assertTrue(stated == number if stated else number in bounds, f'{what}: {name} is {number}')
                told += 1
        self.assertGreater(told, 45)

    def test_options(self):
        """The table of options has the numbers of the code, and the flags of its parser, and no other."""
        code = {'--zone': ('MIN_ZONE', 'MAX_ZONE', 'ZONE_STEP', 'DEFAULT_ZONE'),
                '--skill': ('MIN_SKILL', 'MAX_SKILL', None, 'DEFAULT_SKILL'),
                '--size': ('MIN_SIZE', 'MAX_SIZE', None, 'DEFAULT_SIZE'),
                '--planes': ('MIN_PLANES', 'MAX_PLANES', None, 'DEFAULT_PLANES'),
                '--openings': ('MIN_OPENINGS', 'MOST_OPENINGS', None, 'DEFAULT_OPENINGS')}
        for name, (*bounds, default) in code.items():
            option = job_options.options()[name]
            for bound, stated in zip(bounds, (option.least, option.greatest, option.step)):
                self.assertEqual(stated, constants.value('job_rules', bound) if bound else None, name)
            self.assertEqual(int(option.default), constants.value('command_line', default), name)
        self.assertEqual({name for name, option in job_options.options().items() if option.least is not None}, set(code))
        self.assertEqual(jobs.MOST_WADS, constants.value('job_rules', 'MAX_WADS'))
        for name, choices in job_options.CHOICES.items():
            self.assertEqual([it for it in choices if it not in job_options.options()[name].meaning], [], name)
            self.assertIn(job_options.options()[name].default, choices)
        flags = re.findall(r'"([a-z]+)"', read('crates/job_rules/src/options.rt'))
        self.assertEqual({f'--{flag}' for flag in flags}, set(job_options.options()))

    def test_jobs(self):
        """The code has the jobs of the tables, by name."""
        code = read('crates/command_line/src/jobs.rt') + read('crates/command_line/src/level_jobs.rt')
        for job in jobs.JOBS:
            self.assertIn(f'"{job}"', code)

    def test_statuses(self):
        """The lines of the statuses begin as the code writes them, and the numbers are those of the code."""
        numbers = re.findall(r'Status::(\w+).* => (\d),', read('crates/job_files/src/status.rt'))
        code = read('crates/job_files/src/notes.rt')
        told = {int(number): re.search(rf'Status::{name}\b.*?=> (?:notes\.put\(b"doomview: (.*?)\\n"|put_\w+)', code)
                for name, number in numbers[1:]}
        self.assertEqual(list(jobs.STATUSES), [*(int(number) for _, number in numbers), 64, 70])
        written = set(re.findall(r'b"doomview: ([a-z ]*[a-z])', code))
        self.assertEqual({re.match('[a-z ]*[a-z]', it.line)[0] for it in jobs.STATUSES.values() if it.line}, written)
        for number, found in told.items():
            self.assertIn(found[1], (None, jobs.STATUSES[number].line))

    def test_proved(self):
        """PROVED names no option that there is not."""
        self.assertLessEqual(set(re.findall('--[a-z]+', read('docs/PROVED.md'))), set(job_options.options()))

    def test_version(self):
        """The first heading of CHANGELOG, README and the manual have the version, and one date once it is released."""
        number, date = re.search(r'^## ([0-9.]+), (.*)$', read('CHANGELOG.md'), re.M).groups()
        self.assertEqual(number, installation.version()['version'])
        self.assertRegex(installation.version()['logic'], '^[0-9a-f]{16}$')
        self.assertIn(f'doomview-{number}.tar.gz', read('README.md'))
        shown = re.match(rf'.TH DOOMVIEW 1 "(.*?)" "doomview {re.escape(number)}" ', read('docs/doomview.1'))[1]
        datetime.date.fromisoformat(shown)
        self.assertIn(date, (shown, 'not released yet'))

    def test_places(self):
        """The page of the tools names each file, and no file names a path of a machine."""
        page = read('docs/TOOLS.md')
        entries = [*os.listdir(TOOLS), *os.listdir(os.path.join(TOOLS, 'data'))]
        entries += [name[:-3] for name in os.listdir(installation.PACKAGE) if name.endswith('.py') and name[0] != '_']
        for entry in set(entries) - {'__pycache__', 'data'}:
            self.assertTrue(re.search('[`/]' + re.escape(entry) + r'\b', page), entry)
        for folder, folders, names in os.walk(TOOLS):
            folders[:] = [name for name in folders if name not in ('__pycache__', 'source')]
            for name in names:
                if name.endswith('.pyc') or name.startswith('still') and not name.endswith('.c'):
                    continue
                place = os.path.relpath(os.path.join(folder, name), TOP)
                paths = set(re.findall(r'(?<![\w.)}*\]])/[a-z][\w/]*', read(place)))
                self.assertEqual({path for path in paths if re.match('/(home|root|work|opt|tmp)', path)}, set(), place)


class Tables(Tools):
    """page_tables: the tables that are made of the data of jobs, options, statuses and tools, and of the sources."""

    PAGES = ['README.md', 'docs/JOBS.md', 'docs/TOOLS.md', 'docs/PORT.md', 'docs/ARCHITECTURE.md', 'docs/MAP.md',
             'docs/WHERE.md', 'docs/doomview.1']
    MADE = '`tools/page_tables --write` makes the tables below.'

    def runs(self, top, *words):
        status, output, error = self.run_command(os.path.join(top, 'tools', 'page_tables'), *words)
        return status, output.decode(), error

    def test_tables(self):
        """Each table of the pages is as the data has it, whole."""
        self.assertEqual(self.runs(TOP), (0, '', ''))

    def clone_with_pages(self):
        self.clone()
        shutil.copytree(os.path.join(TOP, 'crates'), self.at('clone/crates'), dirs_exist_ok=True,
                        ignore=shutil.ignore_patterns('out', 'proofs'))
        for page in ['crates.txt', *self.PAGES]:
            shutil.copy(os.path.join(TOP, page), self.at('clone', page))

    def test_sources(self):
        """A crate that says something else of itself, a new name of the original and a rule that moved change the tables."""
        changes = [('plane_draw/src/lib.rt', 'floors and ceilings by their flats', 'by their flats', 'docs/ARCHITECTURE.md'),
                   ('plane_draw/src/planes.rt', 'The original: `R_DrawPlanes`, r', 'The original: `R_Draw`, r', 'docs/MAP.md'),
                   ('level_rules/specs/walk/Boxes.antt', 'unfoldable pub box_passes :', 'unfoldable pub passes_box :', '')]
        self.clone_with_pages()
        self.assertEqual(self.runs(self.at('clone')), (0, '', ''))
        for file, old, new, page in changes:
            place = self.at('clone/crates', file)
            with open(place, encoding='utf-8') as source:
                text = source.read()
            self.assertIn(old, text)
            self.write(f'clone/crates/{file}', text.replace(old, new).encode())
            status, output, error = self.runs(self.at('clone'))
            self.assertEqual(status, 1 if page else 2)
            self.assertTrue(output.startswith(f'{page}, under ') if page else 'has no rule box_passes' in error, output + error)
            if page:
                self.runs(self.at('clone'), '--write')
                self.assertEqual(self.runs(self.at('clone')), (0, '', ''))

    def test_damaged(self):
        """A word that differs is named by its page and its table, in each of them, and --write mends it."""
        self.clone_with_pages()
        damages = [('README.md', '| Job | Writes |', 'the frames of a camera path |'),
                   ('docs/JOBS.md', '| Job | Writes |', '| one WAD with only'),
                   ('docs/JOBS.md', '| Option | Jobs | Value |', '`list` | how floors'),
                   ('docs/JOBS.md', '| Option of the command | Jobs | |', 'whole or not at all'),
                   ('docs/JOBS.md', '| Status | Line on standard error | When |', 'memory ran out'),
                   ('docs/TOOLS.md', '| Tool | What it does | Needs |', 'ffmpeg (package'),
                   ('docs/PORT.md', '| Name | What differs | In the original | What to look at |', 'the last pixel of columns'),
                   ('docs/ARCHITECTURE.md', '| Crate | What it is | The original |', 'drawn column by column'),
                   ('docs/MAP.md', self.MADE, '`R_ClipPassWallSegment`'),
                   ('docs/WHERE.md', self.MADE, 'Who pins COLORMAP?'),
                   ('docs/doomview.1', '.SH JOBS', 'Draws a frame for each row'),
                   ('docs/doomview.1', '.SH TOOLS', 'what would save most'),
                   ('docs/doomview.1', '.BR \\-\\-zone=65536 .', '128 to 1024'),
                   ('docs/doomview.1', 'Of the command alone:', 'Prints the version'),
                   ('docs/doomview.1', 'Each status but 0 has one line of the program on standard error; the command adds '
                    'sentences that say why.', 'doomview: write fault')]
        for page, _, words in damages:
            with open(self.at('clone', page), encoding='utf-8') as file:
                text = file.read()
            self.assertEqual(text.count(words), 1, words)
            self.write(f'clone/{page}', text.replace(words, words[:-1]).encode())
        for more, status in (((), 1), (('--write',), 0)):
            found = self.runs(self.at('clone'), *more)
            self.assertEqual((found[0], found[2]), (status, ''))
            self.assertEqual(len(found[1].splitlines()), len(damages))
            for line, (page, head, words) in zip(found[1].splitlines(), damages):
                self.assertTrue(line.startswith(f'{page}, under {head}: ') and words[:-1] in line, line)
        self.assertEqual(self.runs(self.at('clone')), (0, '', ''))
        for page in self.PAGES:
            with open(self.at('clone', page), encoding='utf-8') as file:
                self.assertEqual(file.read(), read(page))

    def test_no_table(self):
        """A page without the table ends it with a sentence."""
        self.clone_with_pages()
        self.write('clone/docs/TOOLS.md', b'# Tools\n')
        self.assertEqual(self.runs(self.at('clone')), (2, '', 'page_tables: docs/TOOLS.md has no line | Tool | What it does '
                                                       '| Needs |, or nothing behind it\n'))


@unittest.skipUnless(TESTED, 'the program is not built')
class Taken(Tools):
    """The program takes of each job the options that the data has for it, within their ranges, and no other."""

    PLAIN = {'flat': ['FLAT1', 'made.wad'], 'make': ['things'], 'exercise': ['1']}

    def setUp(self):
        super().setUp()
        for name, words in (('made.wad', ['wad', '1']), ('path.csv', ['path', '1']), ('things.csv', ['things']),
                            ('tables.bin', ['tables'])):
            self.write(name, self.run_command(TESTED, 'make', *words)[1])
        self.write('weapon.csv', b'view,sprite,frame,bright,sx,sy\n')
        self.files = {'--tables': 'tables.bin', '--things': 'things.csv', '--path': 'path.csv', '--weapon': 'weapon.csv'}

    def status(self, job, name, value):
        """The status of a job with an option."""
        files = [part for it in job_options.needed_options() if it != name for part in (it, self.files[it])]
        words = ['MAP01', 'made.wad', *files] if job in jobs.LEVEL_JOBS else self.PLAIN[job]
        return self.run_command(TESTED, job, *words, name, value, stdout=subprocess.DEVNULL)[0]

    def values(self, option):
        """Values of an option that are right, and such that are wrong."""
        if option.name in self.files:
            return [self.files[option.name]], []
        if option.name in job_options.CHOICES:
            return job_options.CHOICES[option.name], ['other']
        wrong = [option.least - (option.step or 1), option.greatest + (option.step or 1), *([65537] if option.step else [])]
        return [option.least, option.greatest, int(option.default)], wrong

    def test_options(self):
        for name, option in job_options.options().items():
            right, wrong = self.values(option)
            for job in jobs.JOBS:
                is_taken = job in option.jobs
                found = {str(value): self.status(job, name, str(value)) for value in (right if is_taken else right[-1:])}
                self.assertEqual({value: status == 1 for value, status in found.items()}, dict.fromkeys(found, not is_taken),
                                 f'{job} {name}')
            for value in wrong:
                self.assertEqual(self.status(option.jobs[0], name, str(value)), 1, f'{name} {value}')


if __name__ == '__main__':
    unittest.main()
