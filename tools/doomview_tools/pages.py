"""Pages of one file: a template of data/ with its data and pictures in it, which need nothing from elsewhere."""
import base64
import html
import json
import re
import typing
from collections.abc import Iterable, Sequence

from . import installation
from .frames import HEIGHT, WIDTH
from .png import indexed_png
from .trouble import Trouble

PLACE = '/*DATA*/null'  # of the data in a template
PLAIN = '<!--PLAIN-->'  # of the plain text
SCRIPT = re.compile(r'/\*FILE (\w+\.js)\*/')  # the place of a script that is a file of its own
DIGITS = ''.join(chr(code) for code in range(35, 127) if chr(code) not in '\\<')  # none that a text has to escape
Column = list[typing.Union[int, str]]  # numbers as a page has them: the least, the digits of a number, all digits


def json_of(data: object) -> str:
    """Data as a page has it: nothing in it can end the script that it stands in."""
    return json.dumps(data, separators=(',', ':')).replace('</', '<\\/')


def columns(rows: Iterable[Sequence[int]]) -> list[Column]:
    """Rows of whole numbers as a page has them: of each column the least number, the digits of a number, and the
    digits of all numbers without the least."""
    return [column(numbers) for numbers in zip(*rows)]


def column(numbers: Sequence[int]) -> Column:
    least, width = min(numbers), 1
    while len(DIGITS) ** width <= max(numbers) - least:
        width += 1
    places = [len(DIGITS) ** place for place in reversed(range(width))]
    return [least, width, ''.join(DIGITS[(number - least) // place % len(DIGITS)]
                                  for number in numbers for place in places)]


def text_of_file(name: str) -> str:
    """The text of a file of data/; a Trouble where it is missing."""
    path = installation.data(name)
    try:
        with open(path, encoding='utf-8') as file:
            return file.read()
    except OSError as error:
        raise Trouble(f'{path} is missing or damaged; take the whole folder of doomview anew') from error


def page(template: str, data: object, plain: str = '') -> bytes:
    """The bytes of a page; `plain` is a text that stands on it where its script cannot run. A template names the files
    that its script has parts in."""
    text = text_of_file(template)
    if PLACE not in text:
        raise Trouble(f'{installation.data(template)} is missing or damaged; take the whole folder of doomview anew')
    text = SCRIPT.sub(lambda named: text_of_file(named[1]), text)
    return text.replace(PLAIN, html.escape(plain)).replace(PLACE, json_of(data)).encode()


def text_of(png: bytes) -> str:
    """A PNG as a page has it."""
    return base64.b64encode(png).decode()


def picture(pixels: bytes, palette: bytes, width: int = WIDTH, height: int = HEIGHT) -> str:
    """A picture as a page has it."""
    return text_of(indexed_png(width, height, bytes(pixels), palette))
