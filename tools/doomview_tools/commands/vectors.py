"""doomview vectors: sums of the frames that are right, for ports to check themselves by."""
import argparse
import concurrent.futures
import os
import tempfile
import typing
from collections.abc import Callable, Iterable

from .. import cli, original, program, system, vectors, vectors_explained, wads, wrong_views
from ..files import Folder, WholeFile, write_output, write_whole
from ..trouble import Trouble

MAKE, DRAW, EXPLAIN = 'make', 'draw', 'explain'
TEXT_NAME, PAGE_NAME = 'explained.txt', 'explained.html'
PAGE = cli.Page(
    'vectors', 'sums of the right frames of a WAD, for ports to check themselves by; these frames; what is wrong in a port\'s',
    '''
Makes the vectors of a WAD, draws doomview's own frames of them, or says what is wrong in the frames of a port.

make WAD writes FOLDER/NAME.csv: for viewpoints of each map the sums of doomview's frame, of the original's with packed
spans, and in one word whether the original with full spans draws the same, or which rule explains that it does not. It
writes the WAD's own sum into FOLDER/wads.csv, by which vectors/check knows the WAD; NAME is that of the WAD, or --name. It
needs the programs that tools/original/build makes of Debian's source package of chocolate-doom.

draw VECTORS.csv WAD draws the frames of the vectors into FOLDER, a file for each map and set, as a port has to write
them: MAP01.bin has those of the set near, MAP01-sizes.bin those of the set sizes. So doomview compare can show where a
port's frames are others. vectors/check checks such files, and needs no doomview.

explain WORK says what is wrong in the views of a port. WORK is the folder in which vectors/ci left its paths and frames.
It draws, traces and lists doomview's frames of the wrong views, the first of each map and set first, and compares them;
where doomview departs from the original a view counts as no fault of the port. What it says goes to the standard output
and into explained.txt, and the views into a page of one file, explained.html: both in FOLDER, or else in WORK.
''', '''
$ doomview vectors make freedoom2.wad -o vectors
$ doomview vectors draw vectors/freedoom2.csv freedoom2.wad -o ours --maps MAP01,MAP07
$ vectors/check vectors/freedoom2.csv ours --maps MAP01,MAP07
$ doomview vectors explain work
''', 'the program; for make the programs of tools/original', usage=(
        'make WAD [-o FOLDER] [--name NAME] [--maps NAMES] [--jobs N]',
        'draw VECTORS.csv WAD [-o FOLDER] [--maps NAMES] [--sets NAMES] [--spans S] [--jobs N]',
        'explain WORK [-o FOLDER] [--most N]'),
    forms=('make WAD', 'draw VECTORS.csv WAD', 'explain WORK'), more='VECTORS.md')


def add_words(parser: argparse.ArgumentParser) -> None:
    parser.add_argument('job', metavar='make|draw|explain', choices=[MAKE, DRAW, EXPLAIN],
                        help='makes vectors, draws their frames, or explains wrong views')
    parser.add_argument('files', metavar='FILE', type=cli.Wad, nargs='+', help='WAD, found as ports find it, for draw '
                        'the vectors before it; for explain the folder WORK of vectors/ci')
    parser.add_argument('-o', dest='output', metavar='FOLDER', type=Folder, help='where the files go; it is made')
    parser.add_argument('--most', metavar='N', type=cli.number(1, 2000), default=60,
                        help='of explain: how many wrong views of a WAD are compared; else 60')
    parser.add_argument('--maps', metavar='NAMES', type=names, help='these maps alone, with commas between them')
    parser.add_argument('--sets', metavar='NAMES', type=names, default=vectors.SETS, help='these sets alone, of '
                        + ','.join(vectors.SETS))
    parser.add_argument('--name', metavar='NAME', help="of make: the name of the vectors, else that of the WAD")
    parser.add_argument('--spans', metavar='S', choices=list(original.SPANS), help='of draw: full or packed; else full')
    parser.add_argument('--jobs', metavar='N', type=cli.number(1, 1000), default=system.processors(),
                        help='how many maps at a time; else one a processor')


def names(text: str) -> list[str]:
    return text.split(',')


def chosen(there: Iterable[str], wanted: typing.Optional[list[str]], what: str) -> list[str]:
    """The wanted ones of what is there, or all of it."""
    missing = [name for name in wanted or [] if name not in there]
    if missing:
        raise Trouble(f'there is no {what} {missing[0]}; there are {", ".join(there)}')
    return [name for name in there if not wanted or name in wanted]


def folder_of(options: argparse.Namespace, usual: str = '.') -> str:
    folder: str = options.output or usual
    try:
        os.makedirs(folder, exist_ok=True)
    except OSError as error:
        raise Trouble(f'cannot make the folder {folder}: {error.strerror}') from error
    return folder


Item = typing.TypeVar('Item')
Result = typing.TypeVar('Result')


def all_of(call: Callable[[Item], Result], items: Iterable[Item], jobs: int) -> list[Result]:
    """What a call gives for each item, in their order, several at a time."""
    with concurrent.futures.ThreadPoolExecutor(jobs) as pool:
        started = [pool.submit(call, item) for item in items]
        try:
            return [future.result() for future in started]
        finally:
            for future in started:
                future.cancel()


def check_originals() -> None:
    """A Trouble where a program of the original is missing, with what makes it."""
    if original.missing():
        raise Trouble(f"there is no program {original.missing()[0]}; tools/original/build makes it, of Debian's source "
                      'package of chocolate-doom: tools/original/README.md says what it needs. draw needs none of it')


def make(options: argparse.Namespace) -> None:
    if len(options.files) != 1:
        raise Trouble('make takes one WAD; doomview vectors --help shows its words')
    if options.spans:
        raise Trouble('make takes no --spans: vectors have the sums of both')
    wad = os.path.abspath(wads.find(options.files[0]))
    maps = chosen(wads.maps_of([wad]), options.maps, 'map')
    check_originals()
    program.ready()
    found = all_of(lambda name: vectors.of_map(wad, name), maps, options.jobs)
    if not options.maps:
        found.append(vectors.of_made(wad))
    name = options.name or os.path.splitext(os.path.basename(wad))[0]
    folder = folder_of(options)
    text = vectors.text(vector for of_map in found for vector in of_map)
    write_whole(os.path.join(folder, f'{name}.csv'), text.encode())
    write_whole(os.path.join(folder, vectors.WADS), vectors.wads_text(folder, f'{name}.csv', wad).encode())


def draw(options: argparse.Namespace) -> None:
    if len(options.files) != 2:
        raise Trouble('draw takes a file of vectors and a WAD; doomview vectors --help shows its words')
    table, wad = options.files[::-1] if options.files[1].lower().endswith('.csv') else options.files
    rows, wad = vectors.read(table), wads.find(wad)
    vectors.check_wad(table, wad)
    maps = chosen(list(dict.fromkeys(row.map for row in rows)), options.maps, 'map')
    sets = chosen(vectors.SETS, options.sets, 'set')
    program.ready()
    folder = folder_of(options)

    def draw_one(part: tuple[str, str]) -> None:
        of_part = [row for row in rows if (row.map, row.set) == part]
        if of_part:
            with WholeFile(os.path.join(folder, vectors.file_name(*part))) as file:
                file.write(vectors.frames(wad, of_part, options.spans or 'full'))
    all_of(draw_one, [(name, kind) for name in maps for kind in sets], options.jobs)


def explain(options: argparse.Namespace) -> None:
    if len(options.files) != 1:
        raise Trouble('explain takes the folder WORK of vectors/ci; doomview vectors --help shows its words')
    tests = wrong_views.tests(options.files[0])
    program.ready()
    folder = folder_of(options, options.files[0])
    found = []
    for test in tests:
        with tempfile.TemporaryDirectory(prefix='doomview-') as place:
            found.append(vectors_explained.explain(test, options.most, place))
    said = '\n'.join(text for text, _ in found)
    write_whole(os.path.join(folder, TEXT_NAME), said.encode())
    write_whole(os.path.join(folder, PAGE_NAME), vectors_explained.whole_page(found).encode())
    write_output(said)


def run(options: argparse.Namespace) -> None:
    {MAKE: make, DRAW: draw, EXPLAIN: explain}[options.job](options)
