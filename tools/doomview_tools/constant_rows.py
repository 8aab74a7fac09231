"""Which constants of the code clauses and definitions cite, and which of them have no row in proofs/ConstantRows of their
crate. What cites a constant does not say its value; a row does, so that a crate with another value is not proved."""
import functools
import re
import typing
from collections.abc import Iterable, Iterator

from . import sources

ROWS = 'ConstantRows.antt'
NAME = r'[A-Z][A-Z0-9_]*'
CONSTANT = re.compile(rf'^(?:pub(?:\([a-z]+\))? )?const ({NAME}):', re.M)
COMMENT = re.compile(r'^\s*(?://|--).*$', re.M)
TEXT = re.compile(r'"[^"\n]*"')
RULES_IMPORT = re.compile(r'\buse Rattle\.(\w+)\.specs\.([^;\n]+)')
BELOW = re.compile(rf'declared\.([\w.]*?)\.?TheConstants(?:\.(?:\{{([^}}]*)\}}|({NAME}))| as (\w+))')
CODE_IMPORT = re.compile(r'^(?:pub(?:\([a-z]+\))? )?use (\w+)::([^;]+);', re.M)
CODE_NAME = re.compile(rf'(\*|\b{NAME}\b)(?: as ({NAME}))?')
CLAUSE = re.compile(r'\b(?:requires|ensures|invariant|decreases|ghost)\b[^{};]*\{')
WORD = re.compile(rf'(?<![\w.:])({NAME})\b')
ROW = re.compile(r'^(?:pub )?\w+ : (.*(?:\n +.*)*)', re.M)


class Constant(typing.NamedTuple):
    """A constant of a crate: its file below src, and its name."""

    crate: str
    file: str
    name: str

    def module(self) -> str:
        """The module of its file, as declared names it."""
        parts = self.file[:-len('.rt')].split('/')
        return '.'.join(parts[:-1] if parts[-1] in ('lib', 'main', 'mod') else parts)


@functools.lru_cache(maxsize=None)
def text_of(crate: str, folder: str, file: str) -> str:
    """The text of a file without its comments."""
    return COMMENT.sub('', sources.read(crate, folder, *file.split('/')))


def code_files(crate: str) -> list[str]:
    """The files of the code of a crate, those of tests left out."""
    return [file for file in sources.files(crate, 'src', 'rt') if not file.startswith('tests')]


@functools.lru_cache(maxsize=None)
def constants(crate: str) -> list[Constant]:
    """The constants of a crate that belong to no type, in the order of its files."""
    return [Constant(crate, file, name) for file in code_files(crate)
            for name in CONSTANT.findall(text_of(crate, 'src', file))]


def named_by_rules(text: str) -> Iterator[tuple[str, str, str]]:
    """The crate, the module and the name of each constant that the imports of definitions or clauses name."""
    for crate, rest in RULES_IMPORT.findall(text):
        for module, several, one, alias in BELOW.findall(rest):
            for name in re.findall(rf'\b{alias}\.({NAME})\b' if alias else NAME, text if alias else several or one):
                yield crate, module, name


def in_rules(text: str) -> set[Constant]:
    """The constants that the imports of definitions or clauses name."""
    return {constant for crate, module, name in named_by_rules(text) if crate in sources.crates()
            for constant in constants(crate) if (constant.module(), constant.name) == (module, name)}


def braced(text: str, start: int) -> str:
    """What stands from a place to the brace that closes the one before it."""
    depth, end = 1, start
    while depth and end < len(text):
        depth += {'{': 1, '}': -1}.get(text[end], 0)
        end += 1
    return text[start:end]


def clause_words(text: str) -> set[str]:
    """The names in capitals in the clauses of a file of code."""
    return {word for clause in CLAUSE.finditer(text) for word in WORD.findall(braced(text, clause.end()))}


def imports(text: str) -> Iterator[tuple[str, str, str]]:
    """Each name in capitals that a file of code takes in: how it is called there, where it is from, and its name there;
    `*` where it takes in all."""
    for home, names in CODE_IMPORT.findall(text):
        for name, alias in CODE_NAME.findall(names):
            yield alias or name, home, name


def meant(crate: str, file: str, word: str) -> set[Constant]:
    """The constants that a name in a file of code means: the file's own, or else what it takes in by that name."""
    own = Constant(crate, file, word)
    if own in constants(crate):
        return {own}
    return {constant for called, home, name in imports(text_of(crate, 'src', file)) if called in (word, '*')
            for constant in passed_on(home if home in sources.crates() else crate, word if name == '*' else name)}


@functools.lru_cache(maxsize=None)
def passed_on(crate: str, name: str) -> frozenset[Constant]:
    """The constants that a crate has by a name: its own, or else those that it passes on."""
    own = frozenset(constant for constant in constants(crate) if constant.name == name)
    return own or frozenset(constant for file in code_files(crate)
                            for called, home, source in imports(text_of(crate, 'src', file))
                            if called == name and home in sources.crates() for constant in passed_on(home, source))


def cited_by(crate: str) -> Iterator[Constant]:
    """The constants that the clauses and definitions of a crate cite."""
    for file in sources.files(crate, 'specs', 'antt'):
        yield from in_rules(text_of(crate, 'specs', file))
    for file in code_files(crate):
        text = text_of(crate, 'src', file)
        yield from in_rules(text)
        for word in clause_words(text):
            yield from meant(crate, file, word)


def with_rows(crate: str) -> set[Constant]:
    """The constants that proofs/ConstantRows of a crate gives a value: a row has one of them, and on the left alone."""
    if ROWS not in sources.files(crate, 'proofs', 'antt'):
        return set()
    text = text_of(crate, 'proofs', ROWS)
    known = {constant.name: constant for constant in in_rules(text)}
    return {known[names[0]] for names in map(valued, ROW.findall(text)) if len(names) == 1 and names[0] in known}


def valued(statement: str) -> list[str]:
    """The names in capitals on the left of a row, or none where its right side has one too or is not there."""
    left, _, right = TEXT.sub('text', statement).partition('≡')
    return WORD.findall(left) if right and not WORD.search(right) else []


def missing(crates: Iterable[str]) -> list[Constant]:
    """Each constant that a clause or a definition cites, and that has no row, in the order of the crates."""
    crates = list(crates)
    found = {constant for crate in crates for constant in cited_by(crate)}
    return [constant for crate in crates for constant in constants(crate) if constant in found - with_rows(crate)]


def sentences() -> list[str]:
    """A sentence for each constant that has no row and should have one."""
    return [f'{it.name} of crates/{it.crate}/src/{it.file} is cited by a clause or a definition, and has no row in '
            f'crates/{it.crate}/proofs/{ROWS}' for it in missing(sources.crates())]
