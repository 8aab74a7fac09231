"""The original's renderer beside doomview: runs of what tools/original/build makes.

A view that differs is put down to a rule of doomview by drawing it again with that rule in the original."""
import os
import subprocess
from collections.abc import Container, Iterable, Sequence

from . import installation, paths, program, weapons
from .counting import RAISED
from .frames import SIZE as FRAME
from .trouble import Trouble

FOLDER = os.path.join(installation.TOOLS, 'original')
# Of each rule: the program in FOLDER, and its further words.
RULES = {'memory': ('still', ['-zerotail']), 'mark': ('still-mark', ['-zerotail']),
         'tangent': ('still-tangent', ['-zerotail']), 'back': ('still-back', ['-zerotail']),
         'several': ('still-all', ['-zerotail'])}
PACKED = ['-dosspan']
# How the original steps spans as doomview does by --spans.
SPANS: dict[str, list[str]] = {'full': [], 'packed': PACKED}
Drawn = dict[int, bytes]  # frames by the numbers of their views


def missing() -> list[str]:
    """The programs that build has not made yet."""
    names = sorted({variant for variant, _ in RULES.values()})
    return [name for name in names if not os.access(os.path.join(FOLDER, name), os.X_OK)]


def still(words: list[str], folder: str) -> None:
    """Runs a program that build made."""
    try:
        done = subprocess.run(words, cwd=folder, stdout=subprocess.PIPE, stderr=subprocess.PIPE)
    except OSError as error:
        raise Trouble(f'cannot run {words[0]}: {error.strerror}') from error
    if done.returncode:
        raise Trouble(f'{os.path.basename(words[0])}: {done.stderr.decode(errors="replace").strip()[-200:]}')


class Run:
    """One map, one path, in a folder of its own. `layers` are the weapon layers of each view, `spans` how both step
    the spans of floors."""

    def __init__(self, folder: str, wad: str, name: str, rows: list[paths.Row], ours_words: Iterable[str],
                 still_words: Iterable[str], layers: Sequence[weapons.Layer] = (), spans: str = 'full') -> None:
        self.folder, self.wad, self.name, self.rows, self.layers = folder, wad, name, rows, layers
        self.ours_words, self.still_words = list(ours_words), list(still_words) + SPANS[spans]
        self.spans_words = ['--spans', spans]
        self.wide = '-wide' if self.ours_words == RAISED else ''
        if layers:
            self.ours_words += ['--weapon', self.at('weapon.csv')]
            self.still_words += ['-weapon', 'weapon.csv']
        self.ours: Drawn = {}
        self.port: Drawn = {}

    def at(self, name: str) -> str:
        return os.path.join(self.folder, name)

    def write_path(self, views: Sequence[int]) -> None:
        with open(self.at('path.csv'), 'w') as file:
            file.write(paths.text([self.rows[view] for view in views]))
        if self.layers:
            with open(self.at('weapon.csv'), 'w') as file:
                file.write(weapons.text([self.layers] * len(views)))

    def doomview(self, job: str, words: Iterable[str] = ()) -> bytes:
        done = program.run([job, self.name, self.wad, '--path', self.at('path.csv'), *self.ours_words, *words])
        if done.status:
            raise Trouble(f'{os.path.basename(program.path())}: {done.said.strip()[-200:]}')
        return done.output

    def still(self, views: list[int], variant: str, words: Iterable[str]) -> tuple[Drawn, dict[int, str]]:
        """The original's frames of some views, and why it ended which of them: both by number."""
        self.write_path(views)
        still([os.path.join(FOLDER, variant + self.wide), '-iwad', self.wad, '-map', self.name, '-path', 'path.csv',
               '-out', 'port.bin', '-counts', 'counts.txt', *self.still_words, *words], self.folder)
        with open(self.at('counts.txt')) as file:
            ended = {views[int(words[1])]: words[3] for words in (line.split(' ', 3) for line in file)
                     if words[0] == 'view' and words[2] == 'error'}
        with open(self.at('port.bin'), 'rb') as file:
            return {view: file.read(FRAME) for view in views}, ended

    def draw(self, ended: Container[int]) -> None:
        """Draws doomview's frames of all views but those which it ends: by number."""
        kept = [view for view in range(len(self.rows)) if view not in ended]
        self.write_path(kept)
        drawn = self.doomview('render', self.spans_words) if kept else b''
        self.ours = {view: drawn[FRAME * i:FRAME * (i + 1)] for i, view in enumerate(kept)}

    def over(self) -> set[int]:
        """The views that doomview ends for want of planes or openings."""
        self.write_path(range(len(self.rows)))
        lines = self.doomview('limits').decode().splitlines()
        return {view for view, line in enumerate(lines) if ' over ' in line}

    def compare(self) -> dict[int, str]:
        """For each view: 'same', 'ended', the rule that explains a difference, or 'unexplained'."""
        views = list(range(len(self.rows)))
        self.port, port_ended = self.still(views, 'still', [])
        ended = self.over()
        answer = {view: 'unexplained' for view in ended ^ set(port_ended)}
        answer.update({view: 'ended' for view in ended & set(port_ended)})
        answer.update({view: 'ranges' for view, why in port_ended.items() if 'solidsegs' in why})
        self.draw(answer)
        answer.update({view: 'same' for view in self.ours if self.ours[view] == self.port[view]})
        for rule, (variant, words) in RULES.items():
            left = [view for view in self.ours if view not in answer]
            if left:
                found, _ = self.still(left, variant, words)
                answer.update({view: rule for view in left if found[view] == self.ours[view]})
        answer.update({view: 'unexplained' for view in self.ours if view not in answer})
        return answer

    def pixels(self, view: int) -> int:
        return sum(a != b for a, b in zip(self.ours[view], self.port[view])) if view in self.ours else 0

    def keep(self, folder: str, views: Sequence[int]) -> None:
        """Keeps the rows and both frames of some views."""
        os.makedirs(folder, exist_ok=True)
        self.write_path(views)
        os.replace(self.at('path.csv'), os.path.join(folder, 'path.csv'))
        for name, frames in (('ours.bin', self.ours), ('port.bin', self.port)):
            with open(os.path.join(folder, name), 'wb') as file:
                file.writelines(frames[view] for view in views)
