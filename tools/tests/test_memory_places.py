"""Compares the places of the code that say that memory ran out with a list, place by place.

OutOfMemory is the one answer that no clause ties to its cause (docs/DECISIONS.md), so a body that gives it where another end is
due is proved. memory_places.csv has each place where it is made: the file, the function, the arm, and what the arm is of. A
place that is new, or is another arm, fails a test here, and whoever adds it has to see that it is an arm of an Err of a call
that takes memory, or passes on what such a call gave."""
import csv
import glob
import os
import re
import tempfile
import unittest

import constants
from made_files import TOP

TABLE = os.path.join(os.path.dirname(os.path.abspath(__file__)), 'memory_places.csv')
OF_TESTS = re.compile(r'/crates/(\w+_tests|test_files)/')  # crates that are in no program
GHOST = re.compile(r'[≡≢λ⊎→×∀↔]|^\s*(ghost|requires|ensures)\b')  # of a line that is no code
OTHERS = re.compile(r'^\s*(pub )?use\b.*?;|\bpub enum \w+(<\w+>)? \{.*?^\}', re.MULTILINE | re.DOTALL)  # imports and declarations
# The value, or where it is compared; a type is followed by a bracket or stands behind a colon.
VALUE = re.compile(r'(?<!: )\b(?:\w+::)?(?:OutOfMemory|AllocError)\b(?!\s*,?\s*>)|\bAllocFailed\b(?=\s*[({])')
NAME = re.compile(r'\bfn (\w+)')
ARM = re.compile(r'([^,{}]*?)\s*=>[^,]*$')
HEAD = re.compile(r'[^;{}]*$')
PASSED_ON = re.compile(r'(Err\()?\w+::OutOfMemory\)?$|fn from\(_\w*: (AllocError|AllocFailed<T>|OutOfMemory)\)')
TAKES_MEMORY = re.compile(r'\balloc\b|\.push\(')
COMPARED = 'error.kind() == ErrorKind::OutOfMemory'
# A record of any length can lack memory alone.
RECORD = ('csv_tables/src/records.rt', 'first_records', 'Err(error)', 'row')


def code_of(text):
    """A source without comments, clauses, imports and declarations of enums."""
    lines = [re.sub(r'//.*', '', line) for line in text.splitlines() if not GHOST.search(line)]
    return OTHERS.sub('', '\n'.join(lines))


def block_start(code, place):
    """Where the innermost block around a place begins."""
    depth = 0
    for at in range(place - 1, -1, -1):
        depth += (code[at] == '}') - (code[at] == '{')
        if depth < 0:
            return at
    return 0


def head_of(code, start):
    """What stands before a block, on one line."""
    return ' '.join(HEAD.search(code[:start])[0].split())


def arm_of(code, place):
    """The arm that a place is in, and what it is an arm of: of a match, of a let with an else, or of an if."""
    start = block_start(code, place)
    head = head_of(code, start)
    if head.endswith('=>'):  # the arm is a block
        return arm_of(code, start)
    arm = ARM.search(code[start + 1:place])
    if arm and 'match ' in head:
        return ' '.join(arm[1].split()), head.rpartition('match ')[2]
    chosen = re.fullmatch(r'let (Ok\(.*?\)) = (.*) else', head) or re.fullmatch(r'(if) (.*)', head)
    return (chosen[1] if chosen[1] == 'if' else 'else', chosen[2]) if chosen else (re.sub(r' -> .*', '', head), '')


def places_of(path):
    """The places of a file: each as file, function, arm, and what the arm is of."""
    code = code_of(constants.read(path))
    for found in VALUE.finditer(code):
        rest = code[found.end():]
        if re.match(r'\)?\s*(=>|\{)', rest):  # a pattern, or what is compared
            continue
        name = NAME.findall(code[:found.start()])
        yield (os.path.relpath(path, os.path.join(TOP, 'crates')), name[-1] if name else '', *arm_of(code, found.start()))


def places():
    """The places of all files."""
    paths = sorted(glob.glob(os.path.join(TOP, 'crates', '*', 'src', '**', '*.rt'), recursive=True))
    return [place for path in paths if not OF_TESTS.search(path) for place in places_of(path)]


def table():
    """The rows of memory_places.csv."""
    with open(TABLE, newline='', encoding='utf-8') as file:
        return [tuple(row.values()) for row in csv.DictReader(file)]


def is_of_memory(place):
    """Whether a place passes on that memory ran out, or is an arm of an Err of a call that takes memory."""
    _, _, arm, of = place
    if PASSED_ON.match(arm) or of == COMPARED or place == RECORD:
        return True
    is_error = arm in ('Err(_)', 'Err(AllocError)', 'else') or arm == 'if' and of.endswith('.is_err()')
    return is_error and bool(TAKES_MEMORY.search(of))


class MemoryPlaces(unittest.TestCase):
    maxDiff = None

    def test_the_code_has_the_places_of_the_list_and_no_others(self):
        self.assertEqual(places(), table())

    def test_each_place_passes_on_or_is_an_arm_of_a_call_that_takes_memory(self):
        self.assertEqual([place for place in places() if not is_of_memory(place)], [])

    def test_places_without_a_cause_are_seen(self):
        for body, arm in (('if early() {\n        return Err(AllocError);\n    }', ('if', 'early()')),
                          ('match find(name) {\n        None => Err(Fault::OutOfMemory),\n    }', ('None', 'find(name)')),
                          ('Err(AllocError)', ('fn f(alloc: Global)', ''))):
            code = f'fn f(alloc: Global) -> Result<u8, AllocError>\n{{\n    {body}\n}}\n'
            with tempfile.NamedTemporaryFile('w', suffix='.rt') as file:
                file.write(code)
                file.flush()
                (place,) = places_of(file.name)
            self.assertEqual(place[1:], ('f', *arm))
            self.assertFalse(is_of_memory(place))


if __name__ == '__main__':
    unittest.main()
