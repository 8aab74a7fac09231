#!/usr/bin/env python3
"""Tests of the golden runs themselves, without a program: that each case tells a wrong run from a right one, and that
the tables have what they should.

usage: python3 tests/golden/test_golden.py"""
import collections
import dataclasses
import os
import re
import shutil
import subprocess
import sys
import tempfile
import unittest

sys.dont_write_bytecode = True
HERE = os.path.dirname(os.path.abspath(__file__))
sys.path.insert(0, HERE)
import cases  # noqa: E402
from cases import FULL, MAY_BE_FULL, ZONE_FULL, ZONES, Case, Outcome, Pixel, Runner, differences  # noqa: E402
from files import WRITTEN  # noqa: E402

TOP = os.path.dirname(os.path.dirname(HERE))
LEVEL_JOBS = ('render', 'trace', 'limits', 'list', 'audit', 'trim')
JOBS = (*LEVEL_JOBS, 'flat', 'make', 'exercise')
RANGES = {'zone': (64, 536870912), 'skill': (1, 5), 'size': (3, 11), 'planes': (128, 1024), 'openings': (20480, 245760)}
OPTIONS = ('tables', 'things', 'path', 'weapon', 'format', 'spans', *RANGES)


def all_cases():
    return [case for table in cases.table_names() for case in cases.read_table(table)]


def turned(text):
    """A sum with its first letter changed."""
    return ('1' if text[0] == '0' else '0') + text[1:]


class Differences(unittest.TestCase):
    def test_a_run_that_ends_as_expected_differs_in_nothing(self):
        for case in all_cases():
            if case.how != FULL:
                self.assertEqual(differences(case, case.expected), [], case.name)

    def test_each_case_tells_another_sum_status_line_and_length(self):
        for case in all_cases():
            if case.how == FULL:
                continue
            came = case.expected
            for name, other in (('sum', turned(came.sum)), ('status', f'{came.status}1'), ('line', f'{came.line}0'),
                                ('length', f'{came.length}0')):
                expected = dataclasses.replace(came, **{name: other})
                found = differences(dataclasses.replace(case, expected=expected), came)
                self.assertEqual(len(found), 1, case.name)
                self.assertIn(other, found[0])

    def test_a_full_zone_has_its_status_its_line_and_a_beginning(self):
        right = Outcome(ZONE_FULL, 'doomview: zone full wanted 24 widest 20', '7', 'any', True)
        for how in ZONES:
            case = Case('table', 'name', 'words', how, Outcome('0', '', '9', 'sum'))
            self.assertEqual(differences(case, right), [])
            for wrong in ({'line': ''}, {'line': 'doomview: zone full wanted 24 widest 24'}, {'is_part': False}):
                self.assertEqual(len(differences(case, dataclasses.replace(right, **wrong))), 1)
        for status in ('0', '7'):
            self.assertTrue(differences(Case('', '', '', FULL, right), dataclasses.replace(right, status=status)))
        whole = Case('', '', '', MAY_BE_FULL, Outcome('0', '', '9', 'sum'))
        self.assertEqual(differences(whole, whole.expected), [])
        self.assertTrue(differences(whole, Outcome('0', '', '9', 'mus')))

    def test_a_zone_is_left_out_of_words(self):
        for words in ('a --zone 64 b', 'a --zone=64 b', 'a b --zone 64', 'a b'):
            self.assertEqual(cases.without_zone(words.split()), ['a', 'b'])


class Runs(unittest.TestCase):
    """Runs of a stand-in for the program."""

    def setUp(self):
        folder = tempfile.TemporaryDirectory()
        self.addCleanup(folder.cleanup)
        self.folder = folder.name
        self.program = os.path.join(self.folder, 'program')
        with open(self.program, 'w') as file:
            file.write(f'#!{sys.executable}\n' + PROGRAM)
        os.chmod(self.program, 0o755)

    def ended(self, words, how='', expected=None):
        return Runner(self.program, self.folder).run(Case('table', 'name', words, how, expected))

    def test_status_line_and_sum_are_those_of_the_run(self):
        self.assertEqual(self.ended('3 abc line'), Outcome('3', 'line', '3', ABC))
        self.assertEqual(self.ended("0 abc ''"), Outcome('0', '', '3', ABC))
        self.assertEqual(self.ended('0 a%62c %22'), Outcome('0', '"', '3', ABC))

    def test_streams_are_closed_and_readers_go(self):
        self.assertEqual(self.ended('0 abc line', '2>&-').line, '')
        self.assertEqual(self.ended('0 abc line', '>/dev/full').status, '4')
        self.assertEqual(self.ended('0 long line', f'{cases.READS}3').status, '4')
        self.assertEqual(self.ended('0 long line', f'{cases.READS}3').length, '3')

    def test_a_pixel_that_is_known_is_looked_at(self):
        for expected, found in ((b'b', []), (b'x', ['view 0 column 1 row 0: 78 expected, 62 came'])):
            case = Case('table', 'name', '0 abc', '', Outcome('0', '', '3', ABC), (Pixel(0, 1, 0, expected),))
            self.assertEqual(differences(case, Runner(self.program, self.folder).run(case)), found)

    def test_a_full_zone_is_compared_with_a_run_in_another(self):
        whole = Outcome('0', '', '3', ABC)
        self.assertTrue(self.ended('0 abc --zone 2', MAY_BE_FULL, whole).is_part)
        self.assertFalse(self.ended('0 abc --zone 2', MAY_BE_FULL, dataclasses.replace(whole, sum='other')).is_part)
        self.assertFalse(self.ended('0 acb --zone 2', MAY_BE_FULL, whole).is_part)
        self.assertEqual(self.ended('0 abc --zone 9', MAY_BE_FULL, whole), whole)


ABC = 'ba7816bf8f01cfea414140de5dae2223b00361a396177a9cb410ff61f20015ad'
# Ends with its first word, writes the second and says the third; of `--zone N` it writes N letters alone.
PROGRAM = '''import os, sys
status, text, line = (sys.argv[1:] + [''])[:3]
if line == '--zone' and int(sys.argv[4]) < len(text):
    status, text, line = 6, text[:int(sys.argv[4])], 'doomview: zone full wanted 2 widest 1'
rest = text.encode() * (200000 if text == 'long' else 1)
try:
    while rest:
        rest = rest[os.write(1, rest):]
except OSError:
    status = 4
if line and line != '--zone':
    try:
        os.write(2, line.encode() + b'\\n')
    except OSError:
        pass
os._exit(int(status))
'''


class NoProgram(unittest.TestCase):
    def test_without_a_program_the_runs_fail_with_a_sentence(self):
        with tempfile.TemporaryDirectory() as top:
            shutil.copytree(HERE, os.path.join(top, 'tests', 'golden'))
            os.mkdir(os.path.join(top, 'crates'))
            open(os.path.join(top, 'crates.txt'), 'w').close()
            words = [sys.executable, os.path.join(top, 'tests', 'golden', 'run')]
            for more, said in (([], 'the program is not built'), (['absent'], 'there is no program absent')):
                done = subprocess.run([*words, *more], capture_output=True, text=True)
                self.assertEqual(done.returncode, 2)
                self.assertIn(said, done.stderr)


class Pixels(unittest.TestCase):
    def test_a_pixel_lies_at_its_place_of_the_output(self):
        output = bytes(8 * 64000) + bytes(8 * (3 * 320 + 2)) + b'\1\2\3\4\5\6\7\0' + bytes(16)
        self.assertEqual(Pixel(1, 2, 3, b'\1\2\3\4\5\6\7\0').difference(output), [])
        self.assertEqual(len(Pixel(1, 3, 3, b'\1\2\3\4\5\6\7\0').difference(output)), 1)
        self.assertEqual(Pixel(2, 0, 0, b'\1').difference(b''), ['view 2 column 0 row 0: 01 expected, none came'])

    def test_each_is_of_a_case_that_ends_well_and_lies_in_its_frame(self):
        of_cases = {case.name: case for case in all_cases()}
        for name, pixels in cases.known_pixels().items():
            self.assertEqual(of_cases[name].expected.status, '0', name)
            self.assertEqual(of_cases[name].pixels, tuple(pixels))
            size = {'render': 1, 'trace': 8}[of_cases[name].words.split()[0]]
            self.assertEqual({len(pixel.expected) for pixel in pixels}, {size}, name)
            self.assertTrue(all(pixel.column < 320 and pixel.row < 200 for pixel in pixels), name)


class TrimmedFiles(unittest.TestCase):
    """Frames of a trimmed file are those of the WADs that it was made of, with full and with packed spans."""

    def test_their_sums_are_those_of_the_wads(self):
        sums = {case.words: case.expected.sum for case in all_cases() if case.expected.status == '0'}
        compared = []
        for words, total in sums.items():
            name = next((name for name in WRITTEN if words.startswith(f'render MAP01 {name} ')), '')
            wads = WRITTEN.get(name, '').partition(' --')[0].removeprefix('trim MAP01 ')
            if name.startswith('trimmed-') and words.replace(name, wads) in sums:
                self.assertEqual(total, sums[words.replace(name, wads)], words)
                compared.append((name, 'packed' in words))
        for name in WRITTEN:
            if name.startswith('trimmed-'):
                self.assertIn((name, True), compared)
                self.assertIn((name, False), compared)


class Tables(unittest.TestCase):
    def test_names_are_unique_and_each_table_says_where_its_values_come_from(self):
        counts = collections.Counter(case.name for case in all_cases())
        self.assertEqual([name for name, count in counts.items() if count > 1], [])
        for table in cases.table_names():
            with open(os.path.join(cases.TABLES, f'{table}.csv'), encoding='utf-8') as file:
                self.assertEqual([next(file).rstrip('\n'), next(file).rstrip('\n')], [cases.NOTE, ','.join(cases.HEADER)])

    def test_each_line_is_one_of_its_status(self):
        lines = {'0': '', '1': 'usage', '2': r'refused \d+( \d+)*', '3': 'read fault', '4': 'write fault',
                 '5': r'limit view \d+ (planes|openings) \d+', '6': r'zone full wanted \d+ widest \d+'}
        for case in all_cases():
            line = '' if '2>' in case.how else lines[case.expected.status]
            self.assertRegex(case.expected.line, f'^{line and "doomview: "}{line}$', case.name)
            self.assertRegex(case.expected.sum, '^[0-9a-f]{64}$', case.name)
            self.assertRegex(case.how, r'^(full|may be full|reads \d+|files \d+|[12]?[<>].*)?$', case.name)

    def test_each_refusal_code_has_a_case(self):
        with open(os.path.join(TOP, 'docs', 'REFUSALS.md'), encoding='utf-8') as file:
            codes = set(re.findall(r'^\| (\d{3,4}) \|', file.read(), re.MULTILINE))
        lines = [case.expected.line.split() for case in all_cases() if case.expected.status == '2']
        self.assertEqual(codes, {line[2] for line in lines if line})
        self.assertGreater(len(codes), 50)

    def test_each_job_and_each_option_has_a_case(self):
        done = [case.words for case in all_cases() if case.expected.status == '0' and not case.how]
        for job in JOBS:
            self.assertTrue([words for words in done if job in words.split()], job)
        usage = [case.words for case in all_cases() if case.expected.status == '1']
        for option in OPTIONS:
            self.assertTrue([words for words in done if f'--{option} ' in words], option)
            self.assertTrue([words for words in usage if words.count(f'--{option}') == 2], option)

    def test_each_range_has_a_case_past_both_ends(self):
        usage = [case.words for case in all_cases() if case.expected.status == '1']
        taken = [case.words for case in all_cases() if case.expected.status != '1']
        for option, (least, greatest) in RANGES.items():
            step = 4 if option == 'zone' else 1
            for value in (least - step, greatest + step):
                self.assertTrue([words for words in usage if re.search(f'--{option}[ =]{value}\\b', words)], option)
            for value in (least, greatest):
                self.assertTrue([words for words in taken if re.search(f'--{option}[ =]{value}\\b', words)], option)


if __name__ == '__main__':
    unittest.main()
