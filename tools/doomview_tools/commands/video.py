"""doomview video: the views of a camera path as a video."""
import argparse
import shutil
import subprocess
import tempfile

from .. import cli, program
from ..explanations import end_of
from ..files import Output, Source, WholeFile, check_source
from ..trouble import Trouble

WITHOUT = ('--tables', '--things', '--path', '--format')  # options of render that the tool gives itself
RATE, SCALE = 35, '960:720'
PAGE = cli.Page(
    'video', 'the views of a camera path as a video', f'''
Draws the views of a camera path as a video by ffmpeg: {RATE} views a second, 960 by 720 pixels. The frames go to ffmpeg
as they are drawn, since those of 10,000 views have 1.9 GB.
''', '''
$ doomview turn freedoom2.wad MAP01 140 > turn.csv
$ doomview video freedoom2.wad MAP01 turn.csv turn.mp4
''', 'the program, and ffmpeg (package: ffmpeg)', '''
 0  the video is made
 2  the tool could not begin, or ffmpeg failed
 other statuses are those of doomview render, and no video is written
''')


def add_words(parser: argparse.ArgumentParser) -> None:
    cli.add_level(parser)
    parser.add_argument('path', metavar='PATH', type=Source, help='the camera path')
    parser.add_argument('video', metavar='OUT.mp4', type=Output, help='the video, whose name ends in .mp4')
    cli.add_job_options(parser, 'render', WITHOUT)


def check(options: argparse.Namespace) -> None:
    """A Trouble where the video could not be made, before anything is drawn."""
    check_source(options.path)
    if not options.video.endswith('.mp4'):
        raise Trouble(f'the name of the video has to end in .mp4, and {options.video} does not')
    if not shutil.which('ffmpeg'):
        raise Trouble('ffmpeg is not installed (package: ffmpeg)')


def count_views(words: list[str]) -> int:
    """Ends with what is wrong where the views cannot be drawn; the limits tell it before ffmpeg is called."""
    done = program.run(words)
    if done.status:
        raise end_of(words, done)
    return len(done.output.splitlines())


def ffmpeg_words(video: str) -> list[str]:
    return ['ffmpeg', '-y', '-loglevel', 'error', '-f', 'image2pipe', '-c:v', 'ppm', '-framerate', str(RATE), '-i',
            'pipe:0', '-vf', f'scale={SCALE}:flags=neighbor', '-pix_fmt', 'yuv420p', '-f', 'mp4', video]


def draw_into(words: list[str], video: str) -> program.Run:
    """Draws the frames into ffmpeg, which writes the video: how the program ended; a Trouble where ffmpeg failed."""
    with tempfile.TemporaryFile() as said, \
            program.start(words, stdout=subprocess.PIPE, stderr=said) as drawing, \
            subprocess.Popen(ffmpeg_words(video), stdin=drawing.stdout, stdout=subprocess.DEVNULL,
                             stderr=subprocess.PIPE) as made:
        try:
            if drawing.stdout:
                drawing.stdout.close()
            said_by_ffmpeg = made.communicate()[1].decode(errors='replace').strip()
            status = drawing.wait()
        except BaseException:
            made.kill()
            drawing.kill()
            raise
        said.seek(0)
        done = program.run_of(status, b'', said.read())
    if made.returncode and not done.line.startswith('doomview: limit'):
        raise Trouble(f'{said_by_ffmpeg}\nffmpeg could not make the video')
    return done


def run(options: argparse.Namespace) -> None:
    check(options)
    words = [options.map, *cli.wads_of(options), '--path', options.path, *cli.job_words(options)]
    if not count_views(['limits', *words]):
        raise Trouble(f'{options.path} has no rows, so there is nothing to show; doomview turn makes a path')
    words = ['render', *words, '--format', 'ppm']
    with WholeFile(options.video) as part:
        done = draw_into(words, part.name)
        if done.status:
            raise end_of(words, done)
