"""Installed ports, and true frames of them: by a demo that pauses, or by savegames of chosen viewpoints.

The ports are those of Debian, unchanged. Each draws 320 by 200 without what the original has not: no interpolation, no
smooth light, no wide screen, no messages. chocolate-doom, crispy-doom and woof are played on a screen of Xvfb and
photographed by their own key; dsda-doom writes a video without a screen."""
import contextlib
import itertools
import os
import re
import shutil
import struct
import subprocess
import time
from collections.abc import Iterator, Mapping

import screens
from doomview_tools import game_at_rest, paths
from doomview_tools.files import write_whole
from doomview_tools.levels import EYE_HEIGHT, UNIT
from doomview_tools.trouble import Trouble

EVERY = 0.22  # seconds from one screenshot of a savegame to the next
SHOTS_A_VIEW, TICS_A_SECOND = 6, 35  # of a demo; chocolate-doom takes at most 100 screenshots
LONGEST = 120  # seconds of a run
FIRST_SHOT = 1.5  # seconds until a game is drawn
SAVED = 'doomsav0.dsg'
ANGLE_AT = 20  # bytes behind x in a thing of a savegame
SHOTS = re.compile(r'(?i)(doom|woof)\d+\.(pcx|png)')

ALL = 'screenblocks 11\nshow_messages 0\n'
CHOCOLATE = ALL + 'usegamma 0\ndetaillevel 0\n'
CHOCOLATE_EXTRA = '''fullscreen 0
window_width 320
window_height 200
aspect_ratio_correct 0
png_screenshots 0
startup_delay 0
show_endoom 0
use_mouse 0
grabmouse 0
key_menu_screenshot 88
'''
CRISPY_OFF = ['hires', 'widescreen', 'uncapped', 'smoothscaling', 'smoothlight', 'brightmaps', 'translucency',
              'bobfactor', 'pitch', 'flipcorpses', 'coloredblood', 'crosshair', 'demobar', 'demotimer', 'leveltime']
CRISPY_EXTRA = CHOCOLATE_EXTRA + ''.join(f'crispy_{name} 0\n' for name in CRISPY_OFF)
WOOF_OFF = ['hires', 'correct_aspect_ratio', 'widescreen', 'uncapped', 'fullscreen', 'hud_displayed', 'smoothlight',
            'stretchsky', 'brightmaps', 'translucency', 'hud_crosshair', 'flipcorpses', 'hud_msg_timer']
WOOF = ALL + ''.join(f'{name} 0\n' for name in WOOF_OFF) + 'gamma2 9\n'
DSDA_OFF = ['use_fullscreen', 'render_aspect', 'hudadd_demoprogressbar', 'hud_displayed', 'usegamma',
            'uncapped_framerate', 'render_wipescreen', 'cap_wipescreen', 'cap_remove_tempfiles']
DSDA = ALL + ''.join(f'{name} 0\n' for name in DSDA_OFF) + '''videomode "8bit"
screen_resolution "320x200"
cap_fps 35
cap_soundcommand "cat > /dev/null"
cap_muxcommand "true"
cap_videocommand "echo %w %h > video.txt && cat > video.rgb"
'''
PORTS = {  # of each its files of settings, its further words, and the key of a screenshot
    'chocolate-doom': ({'port.cfg': CHOCOLATE, 'extra.cfg': CHOCOLATE_EXTRA},
                       ['-config', 'port.cfg', '-extraconfig', 'extra.cfg', '-nogui', '-savedir', '.'], 'F12'),
    'crispy-doom': ({'port.cfg': CHOCOLATE, 'extra.cfg': CRISPY_EXTRA},
                    ['-config', 'port.cfg', '-extraconfig', 'extra.cfg', '-nogui', '-savedir', '.'], 'F12'),
    'woof': ({'port.cfg': WOOF},
             ['-config', 'port.cfg', '-1', '-window', '-nohires', '-shotdir', '.', '-save', '.'], 'Print'),
    'dsda-doom': ({'port.cfg': DSDA}, ['-config', 'port.cfg', '-nomusic', '-window', '-geom', '320x200w'], ''),
}
BY_SAVEGAMES = ['chocolate-doom']
LEAST_WIDTHS = {'crispy-doom': 2}  # of the sprites that a port draws, in columns


class Missed(Trouble):
    """A view that no two screenshots show: the machine was too slow."""


def missing(port: str, environment: Mapping[str, str] = os.environ) -> list[str]:
    """What is not installed of what a port needs."""
    path = environment.get('PATH', '') + ':/usr/games'
    wanted = [port] + ([] if port == 'dsda-doom' else ['Xvfb', 'xdotool'])
    return [name for name in wanted if not shutil.which(name, path=path)]


@contextlib.contextmanager
def screen() -> Iterator[str]:
    """A screen of Xvfb; its name."""
    read, write = os.pipe()
    server = subprocess.Popen(['Xvfb', '-displayfd', str(write), '-screen', '0', '640x480x24', '-nolisten', 'tcp'],
                              pass_fds=[write], stdout=subprocess.DEVNULL, stderr=subprocess.DEVNULL)
    os.close(write)
    try:
        number = os.read(read, 20).decode().strip()
        if not number:
            raise Trouble('Xvfb gives no screen')
        yield f':{number}'
    finally:
        os.close(read)
        server.terminate()
        server.wait()


class Game:
    """A port with a map at rest, in a folder that has still.wad and still.deh."""

    def __init__(self, port: str, folder: str, wad: str) -> None:
        self.port, self.folder = port, folder
        settings, words, self.key = PORTS[port]
        for name, text in settings.items():
            write_whole(self.at(name), text.encode())
        path = os.environ.get('PATH', '') + ':/usr/games'
        self.environment = {**os.environ, 'HOME': folder, 'SDL_AUDIODRIVER': 'dummy', 'PATH': path}
        self.words = [port, '-iwad', wad, '-file', 'still.wad', '-deh', 'still.deh', '-nosound', *words]

    def at(self, name: str) -> str:
        return os.path.join(self.folder, name)

    @contextlib.contextmanager
    def running(self, *words: str) -> Iterator[subprocess.Popen[bytes]]:
        """The port while it runs."""
        with open(self.at('port.log'), 'a') as log:
            game = subprocess.Popen([*self.words, *words], cwd=self.folder, env=self.environment, stdout=log,
                                    stderr=log, stdin=subprocess.DEVNULL)
        try:
            yield game
        finally:
            if game.poll() is None:
                game.kill()
            game.wait()

    def run_to_end(self, *words: str) -> None:
        with self.running(*words) as game:
            try:
                game.wait(LONGEST)
            except subprocess.TimeoutExpired as error:
                raise Missed(f'{self.port} does not come to the end of the demo') from error

    def press(self, *words: str) -> list[str]:
        """What xdotool says."""
        done = subprocess.run(['xdotool', *words], env=self.environment, stdout=subprocess.PIPE,
                              stderr=subprocess.DEVNULL, text=True)
        return done.stdout.split()

    def focus(self) -> bool:
        """Lets the port's newest window have the keys; whether there is one."""
        windows = self.press('search', '--name', '.')
        if windows:
            self.press('windowfocus', windows[-1])
        return bool(windows)

    def shots(self) -> list[bytes]:
        """The screenshots so far, in their order."""
        found = []
        for name in sorted(filter(SHOTS.fullmatch, os.listdir(self.folder))):
            with open(self.at(name), 'rb') as file:
                found.append(file.read())
        return found

    def clear(self) -> None:
        for name in filter(SHOTS.fullmatch, os.listdir(self.folder)):
            os.remove(self.at(name))

    def pixels(self, shot: bytes) -> bytes:
        """The pixels of a screenshot: indices, or bytes red, green, blue."""
        return screens.sampled(*screens.png_pixels(shot)) if shot[:4] == b'\x89PNG' else screens.pcx_indices(shot)

    def demo_frames(self, views: int, tics: int) -> list[bytes]:
        """The views of the demo still.lmp, which pauses for so many tics at each."""
        if self.port == 'dsda-doom':
            return self.video_frames(views)
        self.clear()
        with screen() as display:
            self.environment['DISPLAY'] = display
            with self.running('-playdemo', 'still') as game:
                self.photograph(game, tics / TICS_A_SECOND / SHOTS_A_VIEW)
        return [self.pixels(shot) for shot in still_ones(self.shots(), views, 2)]

    def photograph(self, game: subprocess.Popen[bytes], seconds: float) -> None:
        """Presses the key of a screenshot again and again, at this distance, until the game ends."""
        end = time.time() + LONGEST
        while game.poll() is None:
            if time.time() > end:
                raise Missed(f'{self.port} does not come to the end of the demo')
            if self.focus():
                self.press('key', self.key)
            time.sleep(seconds)

    def video_frames(self, views: int) -> list[bytes]:
        """The views of the demo in the video that dsda-doom writes."""
        self.environment['SDL_VIDEODRIVER'] = 'dummy'
        self.run_to_end('-timedemo', 'still.lmp', '-viddump', 'video')
        try:
            with open(self.at('video.txt')) as file:
                width, height = map(int, file.read().split())
            with open(self.at('video.rgb'), 'rb') as file:
                shots = list(iter(lambda: file.read(3 * width * height), b''))
        except (OSError, ValueError) as error:
            raise Trouble(f'dsda-doom wrote no video; {self.at("port.log")} has what it said') from error
        os.remove(self.at('video.rgb'))
        return [screens.sampled(width, height, shot) for shot in still_ones(shots, views, 3)]

    def row_frames(self, still: game_at_rest.MapAtRest, rows: list[paths.Row], skill: int) -> list[bytes]:
        """The views of rows, each by a savegame of the map at rest with another place of the player."""
        write_whole(self.at('still.lmp'), game_at_rest.saving_demo(still.level.name, skill))
        with screen() as display:
            self.environment['DISPLAY'] = display
            self.run_to_end('-playdemo', 'still')
            with open(self.at(SAVED), 'rb') as file:
                saved = file.read()
            return [self.row_frame(moved(saved, still.row(), row)) for row in rows]

    def row_frame(self, saved: bytes) -> bytes:
        """The view of a savegame: the game is paused once it runs, and photographed until two are the same."""
        self.clear()
        write_whole(self.at(SAVED), saved)
        with self.running('-loadgame', '0') as game:
            begun, paused = time.time(), 0
            while game.poll() is None and time.time() < begun + LONGEST:
                shots = self.shots()
                if len(shots) > 3 and shots[-1] == shots[-2]:
                    return self.pixels(shots[-1])
                if time.time() > begun + FIRST_SHOT and self.focus():
                    if len(shots) >= paused + 4 and len({*shots[-3:]}) == 3:
                        paused = len(shots)
                        self.press('key', 'Pause')
                    self.press('key', self.key)
                time.sleep(EVERY)
        raise Missed(f'{self.port} shows no still view of a savegame')


def still_ones(shots: list[bytes], views: int, least: int) -> list[bytes]:
    """The last views of at least so many equal screenshots one after the other."""
    runs = [list(run) for _, run in itertools.groupby(shots)]
    kept = [run[0] for run in runs if len(run) >= least]
    if len(kept) < views:
        raise Missed(f'{len(shots)} screenshots have {len(kept)} still views, and {views} are wanted')
    return kept[-views:]


def moved(saved: bytes, start: paths.Row, row: paths.Row) -> bytes:
    """A savegame of a player at the start, with the player at a row. The player is the last thing of the map."""
    at = saved.rfind(struct.pack('<ii', start.x, start.y))
    if at < 0:
        raise Trouble('the savegame has no player at the start')
    place = struct.pack('<iii', row.x, row.y, row.z - EYE_HEIGHT * UNIT)
    angle = struct.pack('<I', row.angle)
    return saved[:at] + place + saved[at + len(place):at + ANGLE_AT] + angle + saved[at + ANGLE_AT + len(angle):]
