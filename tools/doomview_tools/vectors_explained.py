"""What is wrong in the views of a test of a port: some of them drawn, traced and listed by doomview, and compared.

`explain(test, most, folder)` gives the text on a test and the page that `doomview compare` makes of it."""
import collections
import html
import itertools
import os
import re
import subprocess
import sys
import typing
from collections.abc import Iterable, Iterator, Sequence

from . import installation, paths, vectors, weapons
from .files import write_whole
from .frames import SIZE
from .trouble import FOUND, Trouble
from .wrong_views import MISSING, NO_VERDICT, OTHER_SPANS, WRONG, Test, View

MOST_PARTS = 6  # maps and sets that are compared with their lists
SHOWN = 12  # names in a line
VIEW = re.compile(r'^view (\d+)\b', re.M)
TOLD = re.compile(r'("told":")view (\d+)\b')
Drawn = tuple[bytes, bytes, str]  # of some views the frames, the traces and the lists of doomview
STYLE = 'body{margin:1em;font-family:sans-serif}pre{white-space:pre-wrap}iframe{width:100%;height:95vh;border:1px solid #999}'


def draw(test: Test, views: Sequence[View], folder: str) -> Drawn:
    """doomview's frames, traces and lists of views of one map, set, skill, size and weapon."""
    first = views[0].vector
    group = vectors.Group(first.set, first.skill, first.size, weapons.of_word(first.weapon),
                          [vectors.row_of(view.vector) for view in views])
    run = vectors.run_of(folder, test.wad_of(first), first.map, group, test.spans)
    run.write_path(range(len(views)))
    frames, traces, lists = (run.doomview(job, run.spans_words) for job in ('render', 'trace', 'list'))
    return frames, traces, lists.decode()


def renumbered(text: str, first: int) -> str:
    """Lines on views that are counted from another number on."""
    return VIEW.sub(lambda found: f'view {int(found[1]) + first}', text)


def draw_all(test: Test, views: Sequence[View], folder: str) -> Drawn:
    """The same of any views, in their order."""
    frames, traces, lists, at = [], [], [], 0
    for _, part in itertools.groupby(views, run_of):
        of_run = list(part)
        drawn = draw(test, of_run, folder)
        frames.append(drawn[0])
        traces.append(drawn[1])
        lists.append(renumbered(drawn[2], at))
        at += len(of_run)
    return b''.join(frames), b''.join(traces), ''.join(lists)


def compare(words: list[str], folder: str) -> str:
    """What `doomview compare` prints; it runs in a folder."""
    main = os.path.join(installation.TOOLS, 'doomview_tools', '__main__.py')
    done = subprocess.run([sys.executable, main, 'compare', *words], cwd=folder, stdin=subprocess.DEVNULL,
                          stdout=subprocess.PIPE, stderr=subprocess.PIPE, text=True)
    if done.returncode not in (0, FOUND):
        raise Trouble(done.stderr.strip().rpartition('doomview compare: ')[2] or f'compare ended with {done.returncode}')
    return done.stdout


class Compared:
    """Some views in a folder: doomview's frames, traces and lists, and the frames of the port."""

    def __init__(self, test: Test, views: list[View], folder: str) -> None:
        self.test, self.views, self.folder = test, views, folder
        frames, traces, lists = draw_all(test, views, folder)
        layers = [weapons.of_word(view.vector.weapon) for view in views]
        for name, data in (('ours.bin', frames), ('trace.bin', traces), ('list.txt', lists.encode()),
                           ('port.bin', b''.join(frame or bytes(SIZE) for frame in test.frames(views))),
                           ('rows.csv', paths.text([vectors.row_of(view.vector) for view in views]).encode()),
                           ('weapon.csv', weapons.text(layers).encode())):
            write_whole(os.path.join(folder, name), data)

    def named(self, text: str) -> str:
        """The lines of compare, with the names of the views in the place of their numbers."""
        return VIEW.sub(lambda found: f'{self.views[int(found[1])].name}:', text)

    def text(self, *words: str) -> str:
        """What compare says of the views."""
        wad = self.test.wad_of(self.views[-1].vector)
        return self.named(compare(['ours.bin', 'port.bin', '--wad', wad, '--trace', 'trace.bin', *words], self.folder))

    def text_of_run(self) -> str:
        """The same of views of one run, with lines, sectors and things; and where much differs, with other set-ups."""
        first = self.views[0].vector
        weapon = ['--weapon', 'weapon.csv'] if first.weapon else []
        return self.text('--list', 'list.txt', '--map', first.map, '--path', 'rows.csv', '--spans', self.test.spans,
                         '--skill', str(first.skill), '--size', str(first.size), *weapon)

    def page(self) -> tuple[str, str]:
        """What compare says of all views in short, and its page."""
        said = self.text('--html', 'page.html', '--most', '0')
        with open(os.path.join(self.folder, 'page.html'), encoding='utf-8') as file:
            text = file.read()
        return said, TOLD.sub(lambda found: f'{found[1]}{self.views[int(found[2])].name} (view {found[2]}):', text)


def counted(views: Iterable[View], all_of: Sequence[View]) -> str:
    """How many views of each set are among some."""
    sets, whole = (collections.Counter(view.vector.set for view in some) for some in (views, all_of))
    return ', '.join(f'{name} {sets[name]} of {count}' for name, count in whole.items())


def of_count(count: int) -> str:
    return f'{count} view is' if count == 1 else f'{count} views are'


def some_names(names: Iterable[str]) -> str:
    """Names in a line, and how many more there are."""
    found = list(dict.fromkeys(names))
    more = len(found) - SHOWN
    return ', '.join(found[:SHOWN]) + (f' and {more} more' if more > 0 else '')


def head(test: Test) -> Iterator[str]:
    """Lines on which views are wrong."""
    wrong = test.of_word(WRONG)
    yield (f'{os.path.basename(test.wad)} by {test.vectors_name}, {test.spans} spans: {len(wrong)} of {len(test.views)} '
           'views are wrong')
    if wrong:
        maps = dict.fromkeys(view.vector.map for view in test.views)
        there = dict.fromkeys(view.vector.map for view in wrong)
        yield f'by set: {counted(wrong, test.views)}; on {len(there)} of {len(maps)} maps: {some_names(there)}'
    for word, spans in OTHER_SPANS.items():
        others = test.of_word(word)
        if others:
            yield (f'{of_count(len(others))} right but for the spans, which are {spans} (--spans {spans} takes them as '
                   f'right): {counted(others, test.views)}')
    yield from told_missing(test)
    none = test.of_word(NO_VERDICT)
    if none:
        names = some_names(f'{view.name} ({view.vector.answer})' for view in none)
        yield f'without a verdict, since doomview departs from the original there: {names}'


def told_missing(test: Test) -> Iterator[str]:
    """Lines on the views that the port did not draw, with the last that it said there."""
    missing = test.of_word(MISSING)
    if missing:
        yield f'{of_count(len(missing))} missing: {some_names(view.name for view in missing)}'
    said = {base: test.said(base) for base in dict.fromkeys(view.file for view in missing)}
    for base, text in list((pair for pair in said.items() if pair[1]))[:SHOWN]:
        yield f'at {base} the port said: {text.splitlines()[-1]}'


def run_of(view: View) -> tuple[str, tuple[typing.Any, ...]]:
    """What the views of one run have in common."""
    return view.vector.map, vectors.key_of(view.vector)


def parts_of(views: list[View]) -> list[list[View]]:
    """The views of some runs: of each set by turns, so that none is left out."""
    of_set = collections.defaultdict(list)
    for _, part in itertools.groupby(views, run_of):
        of_run = list(part)
        of_set[of_run[0].vector.set].append(of_run)
    turns = itertools.zip_longest(*of_set.values())
    return [part for turn in turns for part in turn if part][:MOST_PARTS]


def explain(test: Test, most: int, folder: str) -> tuple[str, str]:
    """The text on a test and the page of its views, or an empty text where no view is wrong."""
    chosen = test.chosen(most)
    lines = list(head(test))
    if not chosen:
        return '\n'.join(lines) + '\n', ''
    said, page = Compared(test, chosen, folder).page()
    lines += ['', f'What differs in {len(chosen)} of the wrong views:', said.rstrip()]
    for part in parts_of(chosen):
        first = part[0].vector
        lines += ['', f'{first.map}, set {first.set}, with lines, sectors and things:',
                  Compared(test, part, folder).text_of_run().rstrip()]
    return '\n'.join(lines) + '\n', page


def section_of(text: str, page: str) -> str:
    """A part of the page: which views of a WAD are wrong, what compare shows of them, and all that it says."""
    head, _, rest = text.partition('\n\n')
    frame = f'<iframe srcdoc="{html.escape(page)}"></iframe>' if page else ''
    more = f'<details><summary>what compare says</summary><pre>{html.escape(rest)}</pre></details>' if rest else ''
    return f'<pre>{html.escape(head)}</pre>{more}{frame}\n'


def whole_page(found: Iterable[tuple[str, str]]) -> str:
    """A page of the texts and the pages of some tests, one below the other."""
    return ('<!DOCTYPE html>\n<html lang="en"><head><meta charset="utf-8"><title>wrong views</title>'
            f'<style>{STYLE}</style></head><body>{"".join(section_of(*pair) for pair in found)}</body></html>\n')
