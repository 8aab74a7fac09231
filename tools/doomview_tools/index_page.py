"""The index of the pages of limits-map over all maps of a WAD: a page without a script."""
import html
import typing

from .counting import COUNTS

HEAD = '''<!DOCTYPE html>
<html lang="en"><head><meta charset="utf-8"><title>{title}: limits</title><style>
body{{font:14px/1.4 system-ui,sans-serif;margin:1em;color:#111;background:#fff}}h1{{font-size:1.15em}}
table{{border-collapse:collapse}}td,th{{border:1px solid #bbb;padding:.2em .6em;text-align:right}}
td:first-child,th:first-child{{text-align:left}}.over{{font-weight:bold;background:#222;color:#fff}}
</style></head><body><h1>{title}: the greatest counts of each map, doors shut / open</h1>
<p>Black is over a limit. A name leads to the page of its map.</p>
<table><tr><th>map</th>{heads}<th>views over a limit</th></tr>
'''


def index_page(title: str, found: dict[str, typing.Any], limits: dict[str, int]) -> bytes:
    """The bytes of the page; `found` has by map the numbers that limits-map found, or why there are none."""
    heads = ''.join(f'<th>{name} of {limits[name]:,}</th>' for name in COUNTS)
    rows = [row_of(name, numbers) for name, numbers in found.items()]
    return (HEAD.format(title=html.escape(title), heads=heads) + '\n'.join(rows) + '\n</table></body></html>\n').encode()


def row_of(name: str, numbers: typing.Any) -> str:
    """The row of a map."""
    if isinstance(numbers, str):
        return f'<tr><td>{name}</td><td colspan="{len(COUNTS) + 1}">{html.escape(numbers)}</td></tr>'
    cells = ''.join(cell_of(numbers, count) for count in COUNTS)
    over = sum(state['counts'][count]['over'] for state in numbers['states'] for count in COUNTS)
    return f'<tr><td><a href="{name}.html">{name}</a></td>{cells}<td>{over:,}</td></tr>'


def cell_of(numbers: dict[str, typing.Any], count: str) -> str:
    """The cell of a count: the greatest in each state."""
    states = [state['counts'][count] for state in numbers['states']]
    mark = ' class="over"' if any(state['over'] for state in states) else ''
    return f'<td{mark}>{" / ".join(format(state["most"], ",") for state in states)}</td>'
