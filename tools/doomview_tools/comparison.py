"""A comparison of two files of frames: what a process reads of them, what it finds of each view, and what it says of a
view that differs. Where there are many views, several processes do it, each with files of its own."""
import argparse
import collections
import concurrent.futures
import functools
import gc
import itertools
import signal
import typing
from collections.abc import Callable, Iterator, Sequence

from . import (cli, diagnoses, differences, frame_files, lights, list_files, map_places, setup_trials, shares,
               silhouettes, system, traces, vectors, wads)
from .frames import SIZE, WIDTH
from .progress import Progress
from .trouble import Trouble

MANY_VIEWS, PART = 200, 50  # views for which several processes are worth their start, and the views of a task
MOST_PAINTERS = 5  # that are named because they differ in every view
MOST_TOLD = 20_000  # views that are told as soon as they are looked at, so that each is looked at once
Both = tuple[bytes, bytes]  # doomview's frame of a view, and the port's
PlaceOf = Callable[[traces.Painter, int], str]
Result = typing.TypeVar('Result')


class View(typing.NamedTuple):
    """Both frames of a view, its trace, and the mask of the pixels that count; these are empty where they are not needed."""

    number: int
    ours: bytes
    port: bytes
    records: bytes
    mask: bytes


class Looked(typing.NamedTuple):
    """What a view that differs has: its marks, and what doomview painted there, all of it and what differs beside sprites."""

    view: View
    marks: bytes
    pixels: traces.Pixels
    beside: dict[traces.Painter, traces.Pixels]


class Found(typing.NamedTuple):
    """What is found of a view that differs: its number, the pixels, and what is known of the port's frame there."""

    view: int
    pixels: int
    known: str


def kinds_of(options: argparse.Namespace) -> typing.Optional[set[int]]:
    """The kinds of painters whose pixels count, or None for all."""
    if options.least_width > 1 and not options.list:
        raise Trouble('--least-width needs the list of the same words; name it by --list FILE')
    if not (options.only or options.but):
        return {*traces.KINDS} if options.least_width > 1 else None
    if options.only and options.but:
        raise Trouble('name --only or --but, and not both')
    if not options.trace:
        raise Trouble('--only and --but need the trace of the same words; name it by --trace FILE')
    named = traces.numbers_of(options.only or options.but)
    return named if options.only else {*traces.KINDS} - named


def run_of(options: argparse.Namespace, files: list[str], count: int) -> typing.Optional[setup_trials.Run]:
    """How our side was drawn, where the path is named; a Trouble where other words of the run are missing."""
    words = cli.job_words(options)
    if not options.path:
        if words:
            raise Trouble(f'{words[0]} is a word of the run whose path is named by --path FILE')
        return None
    if not (options.map and files):
        raise Trouble('--path needs --map and --wad too, so that our side can be drawn again')
    run = setup_trials.Run(options.map, files, options.path, words)
    if len(run.rows) != count:
        raise Trouble(f'{options.path} has {len(run.rows)} rows, and {options.ours} {count} views; name the path of the run')
    return run


class Files:
    """The files of a comparison."""

    def __init__(self, options: argparse.Namespace) -> None:
        files = [wads.find(name) for name in options.wad]
        self.options, self.wads, self.names, self.kinds = options, files, traces.Names(files), kinds_of(options)
        self.lights = lights.Lights(self.names.colormaps)
        self.ours = frame_files.of_path(options.ours, files, self.names.palette)
        self.port = frame_files.of_path(options.port, files, self.names.palette, self.ours.count)
        self.counts = [self.ours.count, self.port.count]
        self.known = vectors.of_frames(options.vectors, options.port) if options.vectors else []
        if options.trace and traces.count_views(options.trace) != self.counts[0]:
            raise Trouble(f'{options.trace} is not the trace of {self.counts[0]} views, as {options.ours} has them')
        self.placing = map_places.placing_of(options, files, self.counts[0], self.names, bool(options.path))
        self.run = run_of(options, files, self.counts[0])
        self.views = cli.views_of(options.views, min(self.counts)) if options.views is not None else \
            range(min(self.counts))

    def both(self, view: int) -> Both:
        """Both frames of a view."""
        ours = self.ours.frame(view)
        return ours, self.port.frame(view, ours)

    def view(self, number: int) -> View:
        """Where both frames are the same the trace is read for the mask alone."""
        ours, port = self.both(number)
        records = self.records(number) if self.options.trace and (ours != port or self.kinds) else b''
        mask = traces.mask(records, self.kinds, self.left_out(number)) if self.kinds else b''
        return View(number, ours, port, records, mask)

    def left_out(self, number: int) -> set[int]:
        """The numbers of a view's sprites that do not count."""
        least = self.options.least_width
        return list_files.narrow(self.placing.view(number), least) if self.placing and least > 1 else set()

    def records(self, view: int) -> bytes:
        with open(self.options.trace, 'rb') as file:
            file.seek(traces.VIEW_SIZE * view)
            return file.read(traces.VIEW_SIZE)

    def place_of(self, view: int) -> typing.Optional[PlaceOf]:
        """What says where in the map an item of a view is, or None."""
        return functools.partial(self.placing.places.place, self.placing.view(view)) if self.placing else None

    def known_of(self, view: View) -> str:
        """What is known of the port's frame of a view, by the vectors."""
        return vectors.rule_of(self.known[view.number], view.ours, view.port) if view.number < len(self.known) else ''

    @property
    def is_told(self) -> bool:
        """Whether each view that differs is told, or most are, and they are not too many to keep what is told."""
        options, count = self.options, len(self.views)
        return count <= MOST_TOLD and (bool(options.junit) or not options.quiet and options.most >= count)

    def looked(self, view: View, marks: bytes) -> Looked:
        pixels = traces.pixels_of(view.records, marks) if view.records else {}
        return Looked(view, marks, pixels, silhouettes.beside(view.records, marks, pixels) if pixels else {})

    def lines(self, found: Found) -> list[str]:
        """What is said of a view that differs."""
        view = self.view(found.view)
        return self.told(self.looked(view, differences.marks_of(view.ours, view.port, view.mask)), found)

    def told(self, looked: Looked, found: Found) -> list[str]:
        """The same, of a view that was looked at."""
        line = line_of(looked.view, looked.marks, found)
        return [line, *(self.of_painters(looked) if looked.view.records else [])]

    def entry(self, found: Found) -> dict[str, typing.Any]:
        """What is found of a view that differs, for other programs."""
        view = self.view(found.view)
        marks = differences.marks_of(view.ours, view.port, view.mask)
        top, bottom, left, right = differences.box_of(marks)
        row, column = divmod(marks.find(differences.MARK), WIDTH)
        pixels = traces.pixels_of(view.records, marks) if view.records else {}
        return {'view': found.view, 'pixels': found.pixels, 'known': found.known, 'rows': [top, bottom],
                'columns': [left, right], 'first': {'row': row, 'column': column, 'ours': view.ours[WIDTH * row + column],
                                                    'port': view.port[WIDTH * row + column]},
                'painters': [self.painter_entry(painter, numbers) for painter, numbers in pixels.items()]}

    def painter_entry(self, painter: traces.Painter, numbers: collections.Counter[int]) -> dict[str, typing.Any]:
        kind = traces.KINDS.get(painter.kind, ('nothing', ''))[0]
        return {'kind': kind, 'name': self.names.source_of(painter).name, 'pixels': sum(numbers.values()),
                'numbers': sorted(numbers)}

    def of_painters(self, looked: Looked) -> Iterator[str]:
        """Lines on what doomview painted where a view differs, on what differs beside sprites, and on what differs by its
        light alone."""
        view, marks, pixels, beside = looked
        yield from traces.painters(pixels, self.names, self.place_of(view.number))
        for painter, others in beside.items():
            words = ' and '.join(traces.KINDS[kind][0] for kind in sorted({other.kind for other in others}))
            count = sum(sum(numbers.values()) for numbers in others.values())
            yield f'  sprite   {self.names.source(painter):9} {count:6}  more beside it, of {words}: another picture, or moved'
        known: list[typing.Any] = []
        if self.placing:
            known = [functools.partial(of, self.placing.view(view.number))
                     for of in (self.placing.places.light, self.placing.places.is_bright)]
        yield from self.lights.lines(view.records, marks, (view.ours, view.port), pixels, *known)


def line_of(view: View, marks: bytes, found: Found) -> str:
    """The line on a view that differs."""
    place = marks.find(differences.MARK)
    top, bottom, left, right = differences.box_of(marks)
    line = (f'view {view.number} pixels {found.pixels} rows {top} to {bottom} columns {left} to {right} first at row '
            f'{place // WIDTH} column {place % WIDTH}: {view.ours[place]}, port {view.port[place]}')
    return line + (f'; {found.known}' if found.known else '')


class Summary:
    """What is found of some views, before each of them is told: how many differ, in what, and where."""

    def __init__(self) -> None:
        self.everywhere, self.shares = diagnoses.Everywhere(), shares.Shares()
        self.painters: dict[traces.Painter, collections.Counter[str]] = collections.defaultdict(collections.Counter)
        self.found: list[Found] = []
        self.told: dict[int, list[str]] = {}  # of views that are told as soon as they are looked at
        self.counted = self.far = 0  # pixels that count; views of which more than half differ

    def add(self, files: Files, number: int) -> None:
        """Takes a view."""
        view = files.view(number)
        self.counted += SIZE - view.mask.count(0)
        marks = differences.marks_of(view.ours, view.port, view.mask) if view.ours != view.port else b''
        pixels = differences.count_of(marks)
        if not pixels:
            return
        found = Found(number, pixels, files.known_of(view))
        self.found.append(found)
        self.far += 2 * pixels > SIZE
        self.everywhere.add(marks, pixels)
        if view.records:
            traces.check_records(view.records, marks, view.ours, files.options.trace)
        looked = files.looked(view, marks)
        self.add_painters(files, looked)
        if files.is_told:
            self.told[number] = files.told(looked, found)

    def add_painters(self, files: Files, looked: Looked) -> None:
        """Takes what doomview painted where a view differs."""
        files.names.check_all(looked.pixels, files.options.trace)
        for painter, numbers in looked.pixels.items():
            self.painters[painter].update(views=1, pixels=sum(numbers.values()))
            self.shares.add(painter, sum(numbers.values()), files.names)
        for painter, others in looked.beside.items():
            for other, numbers in others.items():
                self.shares.move(other, painter, sum(numbers.values()), files.names)
        if files.placing:
            self.add_lights(files.placing, looked.view.number, looked.pixels)

    def add_lights(self, placing: map_places.Placing, number: int, pixels: traces.Pixels) -> None:
        """Takes the lights of what differs in a view."""
        items = placing.view(number)
        for painter, numbers in pixels.items():
            for item, count in numbers.items():
                self.shares.add_light(placing.places.light(items, painter.kind, item), count)

    def update(self, other: 'Summary') -> None:
        """Takes what was found of views that come behind."""
        self.everywhere.update(other.everywhere)
        self.shares.update(other.shares)
        for painter, counts in other.painters.items():
            self.painters[painter].update(counts)
        self.found += other.found
        self.told.update(other.told)
        self.counted += other.counted
        self.far += other.far

    @property
    def pixels(self) -> int:
        return self.everywhere.pixels

    def of_every_view(self, names: traces.Names) -> Iterator[str]:
        """Lines on the painters that differ in every view."""
        whole = len(self.found)
        found = [pair for pair in self.painters.items() if pair[1]['views'] == whole] if whole > 1 else []
        for painter, counts in sorted(found, key=lambda pair: -pair[1]['pixels'])[:MOST_PAINTERS]:
            word, name = traces.KINDS.get(painter.kind, ('nothing',))[0], names.source_of(painter).name
            yield f'in each of these {whole} views: {word} {name}, {counts["pixels"]} pixels'


# What a process of several has: the files of its own.
own_files: list[Files] = []


def begin(options: argparse.Namespace) -> None:
    """Begins a process of several."""
    gc.disable()  # memory stays small without it, and to look for cycles takes a tenth of the time
    signal.signal(signal.SIGINT, signal.SIG_IGN)  # the first process ends the others
    own_files.append(Files(options))


def summary_of(files: Files, views: Sequence[int]) -> Summary:
    """What is found of some views."""
    summary = Summary()
    for number in views:
        summary.add(files, number)
    return summary


def lines_of(files: Files, found: Sequence[Found]) -> list[list[str]]:
    """What is said of some views that differ."""
    return [files.lines(view) for view in found]


def entries_of(files: Files, found: Sequence[Found]) -> list[dict[str, typing.Any]]:
    """What is found of some views that differ, for other programs."""
    return [files.entry(view) for view in found]


def by_own_files(task: Callable[[Files, typing.Any], Result], part: typing.Any) -> Result:
    return task(own_files[0], part)


class Tasks:
    """Does a task for each of many views, in parts: here, or in several processes where the views are many and both files
    have plain frames."""

    def __init__(self, files: Files) -> None:
        self.files, self.pool = files, None
        are_plain = all(isinstance(frames, frame_files.OfIndices) for frames in (files.ours, files.port))
        workers = system.processors()
        if are_plain and workers > 1 and len(files.views) >= MANY_VIEWS:
            self.pool = concurrent.futures.ProcessPoolExecutor(workers, initializer=begin, initargs=(files.options,))

    def __enter__(self) -> 'Tasks':
        return self

    def __exit__(self, kind: typing.Optional[type], *_: typing.Any) -> None:
        if self.pool:
            self.pool.shutdown(cancel_futures=kind is not None)

    def run(self, task: Callable[[Files, typing.Any], Result], items: Sequence[typing.Any],
            is_shown: bool = True) -> Iterator[Result]:
        """What a task gives for each part of some items, in their order."""
        parts = [items[at:at + PART] for at in range(0, len(items), PART)]
        tasks: Iterator[Result] = self.pool.map(by_own_files, itertools.repeat(task), parts) if self.pool else \
            (task(self.files, part) for part in parts)
        with Progress(len(items), 'views') as progress:
            for part, done in zip(parts, tasks):
                if is_shown:
                    progress.add(len(part))
                yield done

    def summary(self) -> Summary:
        """What is found of all views."""
        whole = Summary()
        for part in self.run(summary_of, self.files.views):
            whole.update(part)
        return whole
