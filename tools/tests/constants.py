"""The values of constants in the code, also of those that other constants give."""
import glob
import os
import re

from made_files import TOP

LITERAL = re.compile(r"b'(.)'|(-?\d[\d_]*)")
SUM = re.compile(r'[\d\s+*/()<>-]+')
NAME = re.compile(r'(?:([a-z_]+)::)?\b([A-Z][A-Z0-9_]*)\b')


def read(path):
    with open(path, encoding='utf-8') as file:
        return file.read()


def expression(path, name):
    """What stands behind the `=` of a constant in a file, or None."""
    found = re.search(rf'\bconst {name}: \w+ =\s*([^;]+);', read(path))
    return found[1].strip() if found else None


def own_crate(path):
    """The crate of a file."""
    return os.path.relpath(path, os.path.join(TOP, 'crates')).split(os.sep)[0]


def imported(path, name):
    """The crate and the name of a constant that a file imports by `use`."""
    for crate, names in re.findall(r'^(?:pub )?use ([a-z_]+)::\{?([^;}]*)\}?;', read(path), re.M):
        for part in re.split(r',\s*', names.strip()):
            source, _, alias = part.partition(' as ')
            if (alias or source) == name:
                return own_crate(path) if crate == 'crate' else crate, source
    raise KeyError(f'{name} is not in {os.path.relpath(path, TOP)}')


def value_in(path, name):
    """The value of a constant of a file: a number, or a letter."""
    text = expression(path, name)
    if text is None:
        return value(*imported(path, name))
    literal = LITERAL.fullmatch(text)
    if literal:
        return literal[1] or int(literal[2].replace('_', ''))
    text = NAME.sub(lambda it: str(value(it[1], it[2]) if it[1] else value_in(path, it[2])),
                    re.sub(r'\bas \w+', '', text))
    text = re.sub(r'(?<=\d)_(?=\d)', '', text)
    if not SUM.fullmatch(text):
        raise KeyError(f'{name} of {os.path.relpath(path, TOP)} is {text}')
    return eval(text.replace('/', '//'), {'__builtins__': {}})  # digits and signs alone; whole numbers


def value(crate, name):
    """The value of a public constant of a crate."""
    files = glob.glob(os.path.join(TOP, 'crates', crate, 'src', '**', '*.rt'), recursive=True)
    having = [path for path in files if re.search(rf'\bpub const {name}: ', read(path))]
    if len(having) != 1:
        raise KeyError(f'{crate} has {len(having)} public constants {name}')
    return value_in(having[0], name)
