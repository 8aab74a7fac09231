"""doomview compare: two files of frames beside each other."""
import argparse
import os
import sys
from collections.abc import Iterator, Sequence

from .. import (cli, compare_reports, diagnoses, differences, frame_files, frames, job_options, map_places, png,
                program, setup_trials, shapes, symptoms, texels, traces)
from ..compare_page import MOST_VIEWS, ComparePage
from ..comparison import Both, Files, Found, Tasks, View, entries_of, lines_of
from ..files import Folder, Output, Source, write_whole
from ..frames import HEIGHT, SIZE, WIDTH
from ..trouble import FOUND

RED = b'\xff\x00\x00'
ALONE = 0.9  # the share of a kind from which rows say nothing
PAGE = cli.Page(
    'compare', 'which views of two files of frames differ, where, and with a trace in what; as lines or as a page', '''
Compares two files of frames, and says of each view that differs how, where and in what.

OURS is what doomview render wrote, PORT what the port drew at the same rows of the camera path: 64,000 bytes a view.

The first line says how many views differ, and with a trace the second what differs most: of all pixels that differ the
shares of walls, planes, skies, sprites and weapons, and within each of textures, flats and sprites. A mistake of whole
frames follows in a sentence: upside down, mirrored, some rows, columns or views late, another view size, other colours
and the like. Where there is none, the rows or columns that differ in every view are named, and the painters. Then a line for each view that differs has the number of pixels,
their box, and the first of them with both colours. The last line counts all views.

With the file that doomview trace wrote for the same words, the lines under it say what doomview painted there: the
painter's kind, the lump or texture, the pixels, and the numbers of the fragments, planes or sprites in the view. Names
need the WADs of the run. A texture of one patch is named where no other texture has the patch. Where the port has a
fragment, a plane or a sprite as under another light, a line says how much lighter or darker that is, and with a list
which light.

Where the shape of what differs is certain, a line names the symptom and the functions of the original where one looks:
the last pixel of columns, other texels of the same flat, sprites that are moved, and so on (docs/PORT.md has all).

With --list, what doomview list wrote for the same words, the lines under those say where in the map that is: the pixels
of each line, side and part of a wall, of each sector's floor or ceiling, and of each thing.

With --path, --map and --wad, and what else the run was given (--skill, --size, --spans, --weapon), our side is drawn
again with what ports get wrong: another eye, angle, place or light, things of another skill, other floors, no weapon,
where most differs another size, and two of these at once. A sentence says what makes our frames the port's.

With --vectors a line ends with what is known of the port's frame there: that it has packed spans, or is the original's
where doomview departs from it (docs/VECTORS.md). PORT is named by the map then, as MAP01.bin or MAP01-sizes.bin.

With --only sprite,sky,weapon pixels count, and decide the status, only where doomview painted these; with --but plane
only where it painted something else. A line says how many pixels these are. So a port that draws floors or walls by
other rules can still be right in all else. With --least-width 2 sprites that are one column wide do not count either,
which crispy-doom does not draw; sprites at the edge of the screen count always. Pictures and pages show doomview's pixels
in the place of the port's others then.

--png writes a picture for each view that differs: OURS, PORT and the differences beside each other (red over grey), in
the palette of the WADs or else in greys. --html writes one page of the views that differ, in most pixels if there are
many: it names the pixel under the pointer and, with a trace, what painted it, and sorts the differences by painter;
with a list by lines, sectors and things as well.

--json and --junit write what was found for other programs, and -q prints nothing. Of many views several processes
compare some each, and a terminal shows how far they are.

PORT may also be a folder of such files, of one view or several each, or of pictures, PNG, PCX or PPM of 320 by 200, a
view each, in the order of the numbers in their names; or one picture. Both may be what doomview render --format ppm
wrote. The colours of pictures have to be those of the palette of the WADs.
''', '''
$ doomview compare ours.bin port.bin
$ doomview compare ours.bin port.bin --wad freedoom2.wad --trace trace.bin --png out --most 10
$ doomview compare ours.bin port.bin --wad freedoom2.wad --trace trace.bin --list list.txt --map MAP01
$ doomview compare ours.bin port.bin --trace trace.bin --only sprite,sky,weapon
$ doomview compare ours.bin port.bin --views 3,7-9 -q || echo different
$ doomview compare ours.bin shots --wad freedoom2.wad --trace trace.bin --html compared.html
''', ends='''
 0  all views are the same
 1  some differ
 2  the files cannot be compared
''', needs='Python alone; for --path the program', more='PORT.md#reading-a-comparison')


def add_words(parser: argparse.ArgumentParser) -> None:
    parser.add_argument('ours', metavar='OURS', type=Source, help='the frames that doomview drew')
    parser.add_argument('port', metavar='PORT', type=Source, help='the frames that the port drew, or its pictures')
    parser.add_argument('--trace', metavar='FILE', type=Source, help='what doomview trace wrote: names what painted the '
                        'pixels')
    parser.add_argument('--wad', metavar='WAD', type=cli.Wad, action='append', default=[], help='a WAD of the run; once '
                        'for each, in their order')
    map_places.add_words(parser)
    parser.add_argument('--only', metavar='KINDS', help='counts pixels of these painters alone, of '
                        + ','.join(word for word, _ in traces.KINDS.values()))
    parser.add_argument('--but', metavar='KINDS', help='counts no pixels of these painters')
    parser.add_argument('--least-width', metavar='N', type=cli.number(1, WIDTH), default=1, help='counts no pixels of '
                        'sprites that have fewer columns; needs --list')
    parser.add_argument('--vectors', metavar='FILE', type=Source, help='the vectors whose views the files have')
    parser.add_argument('--png', metavar='FOLDER', type=Folder, help='writes a picture of each view that differs into '
                        'FOLDER')
    parser.add_argument('--html', metavar='OUT.html', type=Output, help='writes a page of the views that differ')
    parser.add_argument('--path', metavar='FILE', type=Source, help='the camera path of the run: tries other set-ups; '
                        'needs --map, --wad and the words of the run that are not usual')
    cli.add_job_options(parser, 'render', [name for name in job_options.options() if name not in setup_trials.WORDS])
    parser.add_argument('--views', metavar='VIEWS', help='compares these views alone, as 3,7-9')
    parser.add_argument('--json', metavar='FILE', type=Output, help='writes what was found of all views that differ as JSON')
    parser.add_argument('--junit', metavar='FILE', type=Output, help='writes a test of each view, as JUnit does')
    parser.add_argument('-q', '--quiet', action='store_true', help='prints nothing; the status says whether views differ')
    parser.add_argument('--most', metavar='N', type=cli.number(0, sys.maxsize), default=sys.maxsize,
                        help='lists N views that differ, and counts the others')


def marked_frame(frame: bytes, palette: bytes, marks: bytes) -> bytearray:
    """The frame in dark greys, with what is marked in red."""
    greys = bytes(sum(palette[3 * i:3 * i + 3]) // 6 for i in range(256))
    rgb = frames.rgb_of(frame, bytes(shade for shade in greys for _ in 'rgb'))
    for place in differences.places_of(marks):
        rgb[3 * place:3 * place + 3] = RED
    return rgb


def put_picture(folder: str, view: int, both: Both, marks: bytes, palette: bytes) -> None:
    pictures = [*(frames.rgb_of(frame, palette) for frame in both), marked_frame(both[0], palette, marks)]
    path = os.path.join(folder, f'view{view:05}.png')
    png.write_png(path, WIDTH * len(pictures), HEIGHT, frames.beside(pictures))


def mixed_frame(view: View) -> bytes:
    """The port's frame, with doomview's pixels where a mask is 0."""
    if not view.mask:
        return view.port
    first, second, kept = map(differences.number_of, (view.ours, view.port, view.mask))
    return differences.bytes_of(first ^ (first ^ second) & kept)


class Comparison:
    """What is found of the views of both files, and what is said of it."""

    def __init__(self, files: Files, tasks: Tasks) -> None:
        self.files, self.tasks, self.options = files, tasks, files.options
        self.sentences = [*frame_files.check_pixels(files.ours, files.port, self.options.port),
                          *frame_files.missing_numbers(self.options.port, files.port.count)]
        self.summary = tasks.summary()
        self.found = self.summary.found

    def say(self, line: str) -> None:
        if not self.options.quiet:
            print(line)

    def case(self) -> diagnoses.Case:
        """Some of the views that differ, for the mistakes of whole frames."""
        step = max(1, len(self.found) // diagnoses.SAMPLES)
        some = [found.view for found in self.found[::step][:diagnoses.SAMPLES]]
        pairs = [diagnoses.Pair(view, *self.files.both(view)) for view in some]
        return diagnoses.Case(pairs, self.files.ours.frame, min(self.files.counts), self.files.names.colormaps)

    def head(self) -> Iterator[str]:
        """What is said of all views that differ, before each of them: how many, what differs most, mistakes of whole
        frames, and what differs in every view."""
        yield f'{len(self.found)} of {len(self.files.views)} views differ'
        shares = self.summary.shares
        if shares.all:
            yield shares.line()
        mistakes = diagnoses.whole_frames(self.case()) or self.set_ups() if self.files.kinds is None else []
        yield from mistakes
        if not mistakes:
            by_rows = all(shares.share_of(word) < ALONE for word, _ in shares.of_kinds())
            yield from self.summary.everywhere.sentences(len(self.files.views), by_rows)
            yield from self.summary.of_every_view(self.files.names)
            yield from self.symptoms() if shares.all and self.options.wad else []

    def symptoms(self) -> list[str]:
        """A line on the function of the original where one looks, if the shape of what differs is certain."""
        files, samples = self.files, []
        most = sorted(self.found, key=lambda found: -found.pixels)[:symptoms.SAMPLES]
        for view in (files.view(found.view) for found in most):
            marks = differences.marks_of(view.ours, view.port, view.mask)
            items = files.placing.view(view.number) if files.placing else None
            samples.append(shapes.Sample(view.ours, view.port, view.records, marks,
                                         traces.pixels_of(view.records, marks), items))
        shares = {word: self.summary.shares.share_of(word) for word, _ in traces.KINDS.values()}
        return symptoms.sentences(symptoms.Evidence(
            samples, shares, [found.view for found in self.found], files.run.rows if files.run else [],
            texels.Texels(files.wads), files.lights, files.names.colormaps))

    def set_ups(self) -> list[str]:
        """A sentence on another set-up that makes our frames the port's, where the path is named."""
        if not self.files.run:
            return []
        if not program.is_built():
            return ['set-up: not tried, since the program is not built; doomview --build builds it']
        trials = setup_trials.Trials(self.files.run, self.files.both, [found.view for found in self.found])
        return trials.sentences(2 * self.summary.far > len(self.found))

    def count_line(self) -> str:
        """A line on the pixels that count, where not all do."""
        kinds, least = self.files.kinds or traces.KINDS, self.options.least_width
        words = ', '.join(word for kind, (word, _) in traces.KINDS.items() if kind in kinds)
        width = f', of sprites of {least} and more columns' if least > 1 else ''
        return f'of {words} alone{width}: {self.summary.counted} of {SIZE * len(self.files.views)} pixels'

    def last_line(self) -> str:
        views, different = len(self.files.views), len(self.found)
        return f'views {views} same {views - different} different {different} pixels {self.summary.pixels}'

    def told(self, found: Sequence[Found], is_shown: bool = True) -> Iterator[list[str]]:
        """What is said of each of some views that differ."""
        known = self.summary.told
        if known:
            return (known[one.view] for one in found)
        return (lines for part in self.tasks.run(lines_of, found, is_shown) for lines in part)

    def show_views(self) -> None:
        """Says of each view that differs in what it does, up to the most that are wanted, and draws its picture."""
        for lines in self.told([] if self.options.quiet else self.found[:self.options.most], not sys.stdout.isatty()):
            print('\n'.join(lines))
        for found in self.found[:self.options.most] if self.options.png else []:
            view = self.files.view(found.view)
            marks = differences.marks_of(view.ours, view.port, view.mask)
            put_picture(self.options.png, found.view, (view.ours, mixed_frame(view)), marks, self.files.names.palette)

    def page(self) -> bytes:
        """The page of the views that differ, in most pixels if there are many."""
        page, files = ComparePage(self.files.names), self.files
        for found in sorted(sorted(self.found, key=lambda it: (bool(it.known), -it.pixels))[:MOST_VIEWS]):
            view = files.view(found.view)
            places = differences.places_of(differences.marks_of(view.ours, view.port, view.mask))
            page.add(found.view, files.lines(found)[0], found.known, (view.ours, mixed_frame(view)), places, view.records,
                     files.place_of(found.view))
        page.different = len(self.found)
        head = f'{self.options.ours} and {self.options.port}: {self.last_line()}'
        if files.kinds is not None:
            head += f'; {self.count_line()}, elsewhere the port is shown with the pixels of ours'
        return page.page(head)

    def write_reports(self, sentences: list[str]) -> None:
        """Writes what was found for other programs."""
        if self.options.json:
            entries = [entry for part in self.tasks.run(entries_of, self.found) for entry in part]
            text = compare_reports.json_text(self.files, self.summary, sentences, entries)
            write_whole(self.options.json, text.encode())
        if self.options.junit:
            text = compare_reports.junit_text(self.files, self.found, list(self.told(self.found)))
            write_whole(self.options.junit, text.encode())

    def run(self) -> bool:
        """Says what was found; whether any view differs, or one file lacks one."""
        counts = self.files.counts
        self.sentences += self.head() if self.found else []
        for line in self.sentences:
            self.say(line)
        if self.files.kinds is not None:
            self.say(self.count_line())
        self.show_views()
        self.say(self.last_line())
        for sentence in self.files.port.sentences():
            self.say(sentence)
        if self.options.html:
            write_whole(self.options.html, self.page())
        if counts[0] != counts[1]:
            self.say(f'{self.options.ours} has {counts[0]} views, {self.options.port} {counts[1]}')
        self.write_reports(self.sentences)
        return bool(self.found) or counts[0] != counts[1]


def run(options: argparse.Namespace) -> int:
    files = Files(options)
    if options.png:
        os.makedirs(options.png, exist_ok=True)
    with Tasks(files) as tasks:
        return FOUND if Comparison(files, tasks).run() else 0
