"""The page of one file: the program for a browser, the scripts beside it, and the facts of Doom that these share with the
tools in Python."""
import base64
import os
import re
from typing import Any

from doomview_tools import (cells, checks, cli, compare_page, counting, doom, earlier_run, findings, frames,
                            game_checks, ground, installation, job_options, jobs, levels, list_counts, map_places,
                            pages, player_reach, reasons, refusals, tables, traces, wads, walls, what_if)
from doomview_tools.commands import limits_map
from doomview_tools.trouble import Trouble

FOLDER = os.path.join(os.path.dirname(os.path.abspath(__file__)), 'page')
# The parts of both scripts, in the order in which each needs those before it.
WORKER = ['shared.js', 'wads.js', 'ground.js', 'walls.js', 'player_reach.js', 'lists.js', 'art.js', 'findings.js', 'checks.js', 'game_checks.js', 'counts.js',
          'cells.js', 'refusals.js', 'stand_ins.js', 'reasons.js', 'what_if.js', 'host.js', 'comparison.js', 'engine.js']
PAGE = ['shared.js', 'files.js', 'dropped.js', 'crew.js', 'map_display.js', 'units.js', 'layout.js', 'bars.js', 'walking.js', 'whole.js', 'earlier_run.js', 'views.js', 'port.js',
        'findings_shown.js', 'earlier_run_shown.js', 'why_shown.js', 'eye.js', 'count_shown.js', 'saving.js', 'main.js', 'keys.js', 'start.js']
MOST_BYTES = 2 << 20
PACKED = (b'PK', b'\x1f\x8b', b'7z')  # the first letters of a zip, a gzip and a 7z
MARK = re.compile(r'/\*(WORKER|PAGE|FACTS|BUILT|COMPARE|STYLE)\*/(?:null)?|<!--(ABOUT|FIRST|KEYS)-->')
KEYS = [('W,S,↑,↓', 'ahead, back'), ('←,→', 'turn'), ('A,D', 'to the left, to the right'), ('Page up,Page down', 'the eye higher, lower'),
        ('1,2,3,4,5', 'visplanes, openings, drawsegs, vissprites, solidsegs'), ('N,P', 'the next of the worst views, the one before'),
        ('O', 'doors shut, open'), ('L', 'what is wrong with the map'), ('Y', 'why this view'), ('K', 'keep this view'), ('C', 'copy the row'),
        ('&lt;,&gt;', 'a camera path: the view before, the next (the keys of comma and dot)'), ('+,-,0', 'nearer, farther, the whole map'), ('?', 'these keys'), ('Esc', 'closes a panel')]
ABOUT = ('doomview {version}, made of the proved program: the module from which the kit compiles it, compiled anew for the browser '
         'by LLVM, with glue that nothing proves. So this page is a preview, and no proved program. Trusted anew are: the '
         'rewriting of the module for another target, the glue (its calls of the system, this page), LLVM for WebAssembly and '
         'its linker, and the engine of this browser. Its frames and counts were compared with those of the proved program.')


def facts() -> dict[str, Any]:
    """What the scripts have from the tools in Python, by name."""
    found = {name: getattr(module, name) for module, names in (
        (levels, 'UNIT TURN EYE_HEIGHT'), (wads, 'BEHIND_MAP'), (doom, 'GAME LEAF NO_SIDE PLAYER_1 MAP_LUMPS BUILT_LUMPS BLOCKS UPPER_UNPEGGED LOWER_UNPEGGED SKY DESTINATION LIMITS'),
        (ground, 'HEIGHT RADIUS STEP_UP LINTEL SQUARE STEPS'), (cells, 'MOST_PLACES MOST_CUT CUTS MANY FINER APART SMALL'),
        (counting, 'COUNTS CAPPED RAISED'), (list_counts, 'EDGES'), (player_reach, 'SPEED THING_RADIUS WANTED'),
        (walls, 'FLOOR CEILING LIGHT'), (frames, 'WIDTH'), (traces, 'KINDS TEXTURED SHOWN_TEXTURES'), (map_places, 'SHOWN_SECTORS'),
        (compare_page, 'MOST_VIEWS'), (checks, 'TALL'), (game_checks, 'LEAST_BLOCKMAP'), (findings, 'GRADES'), (reasons, 'SHOWN_PLACES SHOWN_CHANGES'), (what_if, 'GOALS MOST_DRAWN'), (refusals, 'FIELDS TABLES COLUMNS OF_ROWS OF_COLUMNS MOST_DEPTH NO_MAP')) for name in names.split()}
    found.update({name: sorted(getattr(module, name)) for module, names in (
        (doom, 'STARTS'), (ground, 'BOSS_TAGS'), (player_reach, 'TO_THINGS TO_LINES STAIRS DONUT'), (game_checks, 'TAGGED')) for name in names.split()})
    found.update(MAP_TABLES=doom.TABLES, PLACES_OF_PLAYERS=sorted(doom.PLACES), SHOWN_NUMBERS=findings.SHOWN, WORDS=doom.GAME['limits'],
                 GRADES_COUNTED=findings.COUNTED, CHANGED=what_if.FIELDS, CHANGES_SHOWN=earlier_run.SHOWN)
    found.update(FRAME_HEIGHT=frames.HEIGHT, CODES=refusals.codes(),
                 PACKED=[letters.decode('latin-1') for letters in PACKED], STATUS_LIMIT=jobs.LIMIT, SKILLS=doom.EVERY_SKILL,
                 EXTENDED=[letters.decode() for letters in levels.EXTENDED], **chosen())
    return found


def chosen() -> dict[str, int]:
    """What limits-map takes where its words say nothing else."""
    parser = cli.parser_of(limits_map)
    zone = job_options.options()['--zone'].default
    return {'ZONE': int(zone), 'DIRECTIONS': parser.get_default('directions'), 'WORST_VIEWS': parser.get_default('views')}


def text(name: str) -> str:
    """A part of the page: a file of its folder, or one that it shares with the pages of tools."""
    path = os.path.join(FOLDER, name)
    with open(path if os.path.exists(path) else installation.data(name), encoding='utf-8') as file:
        return file.read()


def parts(names: list[str]) -> str:
    """Scripts, one behind the other."""
    return '\n'.join(map(text, names))


def keys() -> str:
    """The keys as rows of a table."""
    return ''.join(f'<tr><td>{"".join(f"<kbd>{key}</kbd> " for key in names.split(","))}</td><td>{does}</td></tr>' for names, does in KEYS)


def first() -> str:
    """The picture of the page before a WAD is there."""
    with open(os.path.join(installation.TOP, 'docs', 'first.png'), 'rb') as file:
        return 'data:image/png;base64,' + coded(file.read())


def coded(data: bytes) -> str:
    return base64.b64encode(data).decode()


def page(program: bytes) -> bytes:
    """The bytes of the page, with the bytes of the program as WebAssembly."""
    with open(installation.data('things.csv'), 'rb') as file:
        built = {'program': coded(program), 'tables': coded(tables.tables()), 'things': coded(file.read())}
    put = {'WORKER': parts(WORKER), 'PAGE': parts(PAGE), 'FACTS': pages.json_of(facts()), 'BUILT': pages.json_of(built),
           'COMPARE': pages.json_of(pages.SCRIPT.sub(lambda found: text(found[1]), text(compare_page.TEMPLATE))),
           'STYLE': text('style.css'), 'ABOUT': ABOUT.format(version=installation.version()['version']), 'KEYS': keys(), 'FIRST': first()}
    data = MARK.sub(lambda found: put[found[1] or found[2]], text('doomview.html')).encode()
    if len(data) > MOST_BYTES:
        raise Trouble(f'the page has {len(data)} bytes, and {MOST_BYTES} is the most')
    return data
