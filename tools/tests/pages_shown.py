"""Pages of one file as a browser shows them: Chromium without a window, where it is installed."""
import functools
import json
import os
import re
import shutil
import subprocess
import tempfile

BROWSER = shutil.which('chromium') or shutil.which('chromium-browser') or shutil.which('google-chrome')
WORDS = ['--headless', '--no-sandbox', '--disable-gpu', '--window-size=1200,900', '--virtual-time-budget=5000',
         '--dump-dom']
FOLDER = os.path.join(os.path.dirname(os.path.abspath(__file__)), 'page')  # of scripts
DATA = re.compile(r'^const data = (.*);$', re.M)


def data_of(path):
    """The data of a page."""
    with open(path, encoding='utf-8') as file:
        return json.loads(DATA.search(file.read())[1])


def rows_of(columns):
    """Rows of numbers of a page, which has them as columns of digits."""
    digits = {it: i for i, it in enumerate(it for it in map(chr, range(35, 127)) if it not in '\\<')}
    found = []
    for least, size, text in columns:
        parts = [text[i:i + size] for i in range(0, len(text), size)]
        found.append([least + functools.reduce(lambda sum, it: sum * len(digits) + digits[it], part, 0)
                      for part in parts])
    return list(zip(*found))


def script_of(name):
    """A script of the folder of scripts."""
    with open(os.path.join(FOLDER, f'{name}.js'), encoding='utf-8') as file:
        return file.read()


def shown(path, name):
    """What a script of the folder gives back that is run on a page."""
    with open(path, encoding='utf-8') as file:
        page = file.read()
    with tempfile.TemporaryDirectory() as folder:
        tested = os.path.join(folder, 'page.html')
        with open(tested, 'w', encoding='utf-8') as file:
            file.write(f'{page}<pre id="tested"></pre><script>\n{script_of("shown")}report({script_of(name)});</script>')
        done = subprocess.run([BROWSER, *WORDS, f'--user-data-dir={folder}/user', f'file://{tested}'],
                              stdin=subprocess.DEVNULL, stdout=subprocess.PIPE, stderr=subprocess.DEVNULL, text=True,
                              env={**os.environ, 'HOME': folder})
    found = re.search(r'<pre id="tested">(.*?)</pre>', done.stdout, re.S)
    return json.loads(found[1].replace('&lt;', '<').replace('&gt;', '>').replace('&amp;', '&'))
