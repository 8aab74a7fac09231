"""What compare found, for other programs: as JSON, and as JUnit's XML with a test for each view."""
import json
import typing
import xml.etree.ElementTree as xml

from .comparison import Files, Found, Summary


def json_text(files: Files, summary: Summary, sentences: list[str], views: list[dict[str, typing.Any]]) -> str:
    """All that was found: sums, sentences, shares, and each view that differs."""
    count, different = len(files.views), len(summary.found)
    shares = [{'kind': kind, 'name': name, 'pixels': pixels}
              for (kind, name), pixels in summary.shares.pixels.most_common() if pixels > 0]
    lights = [{'light': light, 'pixels': pixels} for light, pixels in summary.shares.lights.most_common()]
    found = {'ours': files.options.ours, 'port': files.options.port,
             'files': {'ours': files.counts[0], 'port': files.counts[1]},
             'views': count, 'same': count - different, 'different': different, 'pixels': summary.pixels,
             'sentences': sentences, 'shares': shares, 'lights': lights, 'differing': views}
    return json.dumps(found, indent=1) + '\n'


def junit_text(files: Files, found: list[Found], told: list[list[str]]) -> str:
    """A test for each view, and one for views that one file lacks."""
    lines = {one.view: lines for one, lines in zip(found, told)}
    lacking = files.counts[0] != files.counts[1]
    suite = xml.Element('testsuite', name='doomview compare', tests=str(len(files.views) + lacking),
                        failures=str(len(found) + lacking))
    for view in files.views:
        case = xml.SubElement(suite, 'testcase', classname=files.options.port, name=f'view {view}')
        if view in lines:
            xml.SubElement(case, 'failure', message=lines[view][0]).text = '\n'.join(lines[view])
    if lacking:
        case = xml.SubElement(suite, 'testcase', classname=files.options.port, name='views')
        message = f'{files.options.ours} has {files.counts[0]} views, {files.options.port} {files.counts[1]}'
        xml.SubElement(case, 'failure', message=message)
    return xml.tostring(suite, encoding='unicode', xml_declaration=True) + '\n'
