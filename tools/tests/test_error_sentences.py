"""Compares the sentences of the code's errors with what users are told in their place, whole list by whole list.

No user reads a sentence of `#[error(..)]`: the program writes a code or a status, and `doomview explain` has its words from
REFUSALS, or from the statuses. error_sentences.csv has both side by side, so a sentence that is new or changed on either
side fails a test here, and whoever changes one sees the other. Its rows: the type and the variant of an error; its
sentence, with the values of constants; what it is told as, a code or the line of a status, or nothing where it passes
another error on or ends no run; and the words that users then get. A sentence of several codes has a row for each."""
import csv
import glob
import os
import re
import unittest

import constants
from made_files import TOP
from doomview_tools import jobs, refusals

TABLE = os.path.join(os.path.dirname(os.path.abspath(__file__)), 'error_sentences.csv')
# A type of errors; or a sentence, the constants in it, and the variant that has it, or the type where that is one error.
PART = re.compile(r'pub enum (?P<type>\w+)|'
                  r'#\[error\(\s*"(?P<sentence>[^"]*)"(?P<values>[^]]*)\)\]\s*(?:///[^\n]*\s*)*(?:pub struct )?(?P<name>\w+)')
VALUE = re.compile(r'(\w+) = ([A-Z_]+)')
# When a run ends so, by the first words of its line.
STATUSES = {re.match('[a-z ]*?(?= view| wanted|$)', status.line)[0]: status.when for number, status in jobs.STATUSES.items()
            if status.line and number not in (jobs.REFUSED, jobs.NO_SUCH_WORD)}


def sentences_of(path):
    """The errors of a file of the code, each as its type, its variant and its sentence."""
    kind = ''
    for found in PART.finditer(constants.read(path)):
        if found['type']:
            kind = found['type']
            continue
        sentence = found['sentence']
        for name, constant in VALUE.findall(found['values']):
            sentence = sentence.replace(f'{{{name}}}', str(constants.value_in(path, constant)))
        is_struct = 'pub struct' in found[0]
        yield (found['name'], '', sentence) if is_struct else (kind, found['name'], sentence)


def paths():
    """The files of the code."""
    return sorted(glob.glob(os.path.join(TOP, 'crates', '*', 'src', '**', '*.rt'), recursive=True))


def sentences():
    """The errors of all of them."""
    return [error for path in paths() for error in sentences_of(path)]


def table():
    """The rows of error_sentences.csv."""
    with open(TABLE, newline='', encoding='utf-8') as file:
        return list(csv.DictReader(file))


class ErrorSentences(unittest.TestCase):
    maxDiff = None

    def test_the_code_has_the_sentences_of_the_table_and_no_others(self):
        listed = dict.fromkeys((row['type'], row['variant'], row['sentence']) for row in table())
        self.assertEqual(sorted(sentences()), sorted(listed))

    def test_each_error_attribute_is_read(self):
        self.assertEqual(len(sentences()), sum(constants.read(path).count('#[error(') for path in paths()))

    def test_each_code_has_its_row_and_its_words(self):
        listed = {int(row['told']): row['words'] for row in table() if row['told'].isdecimal()}
        self.assertEqual(dict(sorted(listed.items())), {code: wrong for code, (wrong, _) in refusals.codes().items()})

    def test_the_words_of_a_code_have_the_numbers_of_its_sentence(self):
        for row in table():
            if row['told'].isdecimal():
                numbers, told = (set(re.findall(r'\b\d+\b', row[name].replace(',', ''))) for name in ('sentence', 'words'))
                self.assertLessEqual(numbers, told, row['told'])

    def test_each_status_has_its_words(self):
        for row in table():
            if row['told'] and not row['told'].isdecimal():
                self.assertEqual(row['words'], STATUSES[row['told']], row['variant'])

    def test_what_is_told_as_nothing_has_no_words(self):
        self.assertEqual([row for row in table() if bool(row['told']) != bool(row['words'])], [])

    def test_a_code_is_that_of_its_variant(self):
        page = constants.read(os.path.join(TOP, 'docs', 'REFUSALS.md'))
        variants = dict(re.findall(r'^\| (\d{3,4}) \|.*\| `(?:\w+::)?(\w+)`;[^|]*\|$', page, re.M))
        listed = {row['told']: row['variant'] for row in table() if row['told'].isdecimal()}
        self.assertEqual(dict(sorted(listed.items())), dict(sorted(variants.items())))


if __name__ == '__main__':
    unittest.main()
