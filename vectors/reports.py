"""What a check found of each view, for other programs: as JSON, as JUnit's XML, which pages of CI show, and as the lines
by which a workflow of GitHub says what is wrong."""
import itertools
import json
import os
import typing
import xml.etree.ElementTree as xml

import games

NO_VERDICT = 'departs'
MOST_ERRORS = 10  # that GitHub shows of a step
SAID = {'missing': 'the frame is missing', 'packed': 'it has packed spans', 'full': 'it has full spans'}


class View(typing.NamedTuple):
    """A view: its map, set and number; what it is in a word, and whether that is wrong; the line on it; the rows of
    pixels that differ, pairs of the first and the last; and the sum of its frame."""

    map: str
    set: str
    view: str
    word: str
    is_wrong: bool
    said: str
    rows: list[tuple[int, int]]
    sum: str


def json_text(vectors: str, wad: str, spans: str, found: list[View]) -> str:
    """The text of a JSON object: `vectors`, where a WAD was named `wad` and its `sum`, `spans`, and `views`, in their
    order."""
    of_wad = {'wad': os.path.abspath(wad), 'sum': games.sum_of(wad)} if wad else {}
    head = {'vectors': os.path.basename(vectors), **of_wad, 'spans': spans}
    views = [{'map': view.map, 'set': view.set, 'view': int(view.view), 'word': view.word, 'wrong': view.is_wrong,
              'rows': view.rows, 'sum': view.sum, 'said': view.said} for view in found]
    lines = ',\n'.join(json.dumps(view) for view in views)
    return f'{json.dumps(head)[:-1]}, "views": [\n{lines}\n]}}\n'


def case_of(view: View) -> xml.Element:
    """A view as a test."""
    case = xml.Element('testcase', classname=f'{view.map}.{view.set}', name=f'view {view.view}')
    if view.is_wrong:
        xml.SubElement(case, 'failure', message=view.said or SAID[view.word])
    elif view.word == NO_VERDICT:
        xml.SubElement(case, 'skipped', message='no verdict: doomview departs from the original here')
    return case


def suite_of(name: str, views: list[View]) -> xml.Element:
    """The views of a map and set as a suite of tests."""
    counts = {'tests': len(views), 'failures': sum(view.is_wrong for view in views),
              'skipped': sum(view.word == NO_VERDICT for view in views)}
    suite = xml.Element('testsuite', {'name': name, **{word: str(count) for word, count in counts.items()}})
    suite.extend(case_of(view) for view in views)
    return suite


def junit_text(vectors: str, spans: str, found: list[View]) -> str:
    """The text of JUnit's XML: a suite for each map and set, a test for each view."""
    head = f'{os.path.basename(vectors)} {spans} spans'
    suites = xml.Element('testsuites', name=head)
    for (name, kind), views in itertools.groupby(found, lambda view: (view.map, view.set)):
        suites.append(suite_of(f'{name} {kind}', list(views)))
    text = xml.tostring(suites, encoding='unicode').replace('<test', '\n<test').replace('</testsuite', '\n</testsuite')
    return f'<?xml version="1.0" encoding="utf-8"?>{text}\n'


def is_on_github() -> bool:
    """Whether this is a step of a workflow of GitHub."""
    return bool(os.environ.get('GITHUB_ACTIONS'))


def escaped(text: str) -> str:
    return text.replace('%', '%25').replace('\r', '%0D').replace('\n', '%0A')


def error_line(title: str, text: str) -> str:
    """A line by which a step says what is wrong."""
    return f'::error title={escaped(title).replace(":", "%3A").replace(",", "%2C")}::{escaped(text)}'


def error_lines(vectors: str, found: list[View]) -> list[str]:
    """Of each map and set with views that are wrong such a line, but no more than GitHub shows."""
    lines = []
    for (name, kind), views in itertools.groupby(found, lambda view: (view.map, view.set)):
        of_part = list(views)
        wrong = [view for view in of_part if view.is_wrong]
        if wrong:
            first = wrong[0].said or f'view {wrong[0].view}: {SAID[wrong[0].word]}'
            lines.append(error_line(f'{os.path.basename(vectors)} {name} {kind}',
                                    f'{len(wrong)} of {len(of_part)} views are wrong; {first}'))
    more = len(lines) - MOST_ERRORS + 1
    if more <= 1:
        return lines
    return [*lines[:MOST_ERRORS - 1], error_line(os.path.basename(vectors), f'{more} more maps and sets have wrong views')]
