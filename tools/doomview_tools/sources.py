"""What the sources of the crates say: the groups of crates.txt, the head of each crate, what its docstrings say of the
original, where a word is defined, and which function a must-fail edit changes. tools/page_tables makes tables of it."""
import functools
import glob
import os
import re
import typing
from collections.abc import Iterator

from . import installation
from .trouble import Trouble

CRATES = os.path.join(installation.TOP, 'crates')
ITEM = re.compile(r'\s*(?:pub(?:\([a-z]+\))? )?(?:const )?(fn|struct|enum|trait|const|type) (\w+)')
OWNER = re.compile(r'(?:impl(?:<[^>]*>)?|(?:pub )?trait) (?:(\w+)[^{]* for )?(\w+)')
DEFINED = re.compile(r'^(?:(?:abbrev|unfoldable) )?(?:pub )?(?:(?:record|data) )?([\w-]+)(?: :| \(| \{)', re.M)
ORIGINAL = re.compile(r'The original(?: of [^:]*)?: (.*)')
NAMED = re.compile(r'`([^`]+)`|\b([a-z]+(?:_[a-z]+)?\.[ch])\b')


class Item(typing.NamedTuple):
    """A function, type or constant of a crate: its file below src, the type that it belongs to, and what is said of it."""

    crate: str
    file: str
    owner: str
    name: str
    text: str

    @property
    def word(self) -> str:
        return f'{self.owner}::{self.name}' if self.owner else self.name

    def originals(self) -> list[tuple[str, str]]:
        """The names of the original that its docstring has, each with its file."""
        found = ORIGINAL.search(self.text)
        waiting: list[str] = []
        pairs: list[tuple[str, str]] = []
        for name, file in NAMED.findall(found[1] if found else ''):
            if file:
                pairs += [(it, file) for it in waiting]
                waiting = []
            else:
                waiting.append(name)
        return pairs


class Edit(typing.NamedTuple):
    name: str
    crate: str
    function: str  # with its type


def read(*place: str) -> str:
    with open(os.path.join(CRATES, *place), encoding='utf-8') as file:
        return file.read()


def files(crate: str, folder: str, ending: str) -> list[str]:
    """The files of a folder of a crate, by their names below it."""
    top = os.path.join(CRATES, crate, folder)
    return sorted(os.path.relpath(it, top) for it in glob.glob(os.path.join(top, '**', f'*.{ending}'), recursive=True))


@functools.lru_cache(maxsize=None)
def groups() -> list[tuple[str, list[str]]]:
    """The groups of crates.txt, each with its crates."""
    found: list[tuple[str, list[str]]] = []
    with open(os.path.join(installation.TOP, 'crates.txt'), encoding='utf-8') as file:
        for line in file:
            if line.startswith('# '):
                found.append((line[2:].strip(), []))
            elif ':' in line:
                found[-1][1].append(line.split(':')[0].split()[0])
    return [group for group in found if group[1]]


def crates() -> list[str]:
    return [crate for _, own in groups() for crate in own]


def root(crate: str) -> str:
    return next((it for it in ('lib.rt', 'main.rt') if os.path.exists(os.path.join(CRATES, crate, 'src', it))), '')


def head(crate: str) -> list[str]:
    """The paragraphs at the head of a crate, each as one line."""
    lines = re.match(r'(?://!.*\n)*', read(crate, 'src', root(crate)))
    text = re.sub(r'^//! ?', '', lines[0] if lines else '', flags=re.M)
    if not text:
        raise Trouble(f'crates/{crate}/src/{root(crate)} does not begin by saying what the crate is')
    return [' '.join(part.split()) for part in text.strip().split('\n\n')]


def origin_files(crate: str) -> list[str]:
    """The original's files that the head of a crate names."""
    found = ORIGINAL.search(' '.join(head(crate)))
    return list(dict.fromkeys(file for _, file in NAMED.findall(found[1] if found else '') if file))


def walked(crate: str, file: str) -> Iterator[tuple[int, Item]]:
    """The items of a file, each with the line where it begins."""
    comment: list[str] = []
    owner = ''
    for number, line in enumerate(read(crate, 'src', file).splitlines()):
        bare = line.strip()
        if bare.startswith('//'):
            comment.append(bare.lstrip('/!').strip())
            continue
        if bare.startswith('#['):
            continue
        found, own = ITEM.match(line), OWNER.match(line)
        if found:
            yield number, Item(crate, file, owner if line.startswith(' ') else '', found[2], ' '.join(comment))
        if own:
            owner = own[2]
        comment = comment if not bare else []


@functools.lru_cache(maxsize=None)
def items() -> list[Item]:
    """All items of the crates in their order, those of tests left out."""
    return [item for crate in crates() for file in files(crate, 'src', 'rt') if not file.startswith('tests')
            for _, item in walked(crate, file)]


@functools.lru_cache(maxsize=None)
def edits() -> list[Edit]:
    """Each must-fail edit with the function that it changes."""
    found = []
    for crate in crates():
        for name in files(crate, 'must-fail', 'edit'):
            text = read(crate, 'must-fail', name)
            place, old = re.findall(r'^(?:file|old): *(.*)$', text, re.M)[:2]
            lines = read(crate, *place.split('/')).splitlines()
            at = next((i for i, line in enumerate(lines) if old.strip() in line), -1)
            above = [item for number, item in walked(crate, place[len('src/'):]) if number <= at]
            if not above:
                raise Trouble(f'crates/{crate}/must-fail/{name} changes no function')
            found.append(Edit(name[:-len('.edit')], crate, above[-1].word))
    return found


@functools.lru_cache(maxsize=None)
def definitions(crate: str) -> dict[str, str]:
    """The words that the specs of a crate define, each with its file below the crate."""
    return {word: f'specs/{file}' for file in files(crate, 'specs', 'antt')
            for word in DEFINED.findall(read(crate, 'specs', file))}


@functools.lru_cache(maxsize=None)
def declarations(crate: str) -> dict[str, str]:
    """The items of a crate, by their names and with their types, each with its file below the crate."""
    found: dict[str, str] = {}
    for item in items():
        if item.crate == crate:
            for word in (item.name, item.word):
                found.setdefault(word, f'src/{item.file}')
    return found


def place_of(crate: str, word: str, is_rule: bool) -> str:
    """The file of a crate that has a word: a rule in specs, or else a constant; code in src."""
    if crate not in crates():
        raise Trouble(f'crates.txt has no crate {crate}')
    tables = (definitions, declarations) if is_rule else (declarations,)
    found = next((table(crate)[word] for table in tables if word in table(crate)), '')
    if not found:
        raise Trouble(f'{crate} has no {"rule" if is_rule else "code"} {word}')
    return found


def shown_place(crate: str, file: str, is_rule: bool = False) -> str:
    """A file as the pages name it: `level_rules/walk, Boxes`, `visplanes, floor`, `job_rules, src/ranges.rt`."""
    folder, _, rest = file.partition('/')
    if folder == 'src':
        return f'{crate}, {file}' if is_rule or crate.endswith('_rules') else f'{crate}, {os.path.splitext(rest)[0]}'
    inner, _, name = os.path.splitext(rest)[0].rpartition('/')
    return f'{crate}/{inner}, {name}' if inner else f'{crate}, {name}'
