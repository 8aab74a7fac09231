"""What the tests of the tools share: made files, stand-ins for doomview, and a way to run a tool."""
import atexit
import os
import shutil
import struct
import subprocess
import sys
import tempfile
import unittest
import zlib

HERE = os.path.dirname(os.path.abspath(__file__))
TOOLS = os.path.dirname(HERE)
TOP = os.path.dirname(TOOLS)
sys.dont_write_bytecode = True
sys.path.insert(0, TOOLS)
from doomview_tools import wads  # noqa: E402

COMMAND = os.path.join(TOP, 'doomview')
COMPILED = {'PYTHONPYCACHEPREFIX': tempfile.mkdtemp()}  # of modules, not beside them
atexit.register(shutil.rmtree, COMPILED['PYTHONPYCACHEPREFIX'])
# All that the command and the stand-ins may call besides Python, doomview and the tools that draw.
COMMANDS = ['sh', 'basename', 'cat', 'dirname', 'env', 'readlink']
ROOM = [(-256, 256), (256, 256), (256, -256), (-256, -256)]
FRAME = b'P6\n320 200\n255\n' + bytes(192000)


# Reads the files of an audit, and refuses MAP02; takes no words of another job.
DOOMVIEW = '''#!/bin/sh
job=$1 words=" $* "
while [ $# -gt 0 ]; do
    case $1 in
        --tables | --things | --path) cat "$2" >/dev/null || exit 3; shift ;;
        */*) cat "$1" >/dev/null || exit 3 ;;
    esac
    shift
done
case $job$words in
    audit*' MAP02 '*) echo 'doomview: refused 901 3' >&2; exit 2 ;;
    audit*) echo 'accepted enough 1 roomy 2' ;;
    *) echo 'doomview: usage' >&2; exit 1 ;;
esac
'''
# Draws the frame beside it, and writes its words down.
DRAWING = '''#!/bin/sh
[ "$1" = render ] || exit 0
echo "$@" >"$(dirname "$0")/words"
cat "$(dirname "$0")/frame"
'''


def name(text):
    return text.encode().ljust(8, b'\0')


def room(floors, starts, nodes):
    """The lumps of a square room of four lines, with one or two sectors, each with its floor and one leaf.
    A leaf has one seg, the second on the back of its line."""
    count = len(floors)
    things = b''.join(struct.pack('<hhhHH', x, y, angle, kind, 7) for x, y, angle, kind in starts)
    lines = b''.join(struct.pack('<7H', i, (i + 1) % 4, 4, 0, 0, 0, i % count) for i in range(4))
    sides = b''.join(struct.pack('<hh8s8s8sH', 0, 0, name('-'), name('-'), name('WALL1'), i)
                     for i in range(count))
    return [('THINGS', things), ('LINEDEFS', lines), ('SIDEDEFS', sides),
            ('VERTEXES', b''.join(struct.pack('<hh', *corner) for corner in ROOM)),
            ('SEGS', b''.join(struct.pack('<6H', i, (i + 1) % 4, 0, i, i, 0) for i in range(count))),
            ('SSECTORS', b''.join(struct.pack('<HH', 1, i) for i in range(count))),
            ('NODES', b''.join(struct.pack('<12h2H', *node) for node in nodes)),
            ('SECTORS', b''.join(struct.pack('<hh8s8shhh', floor, 128, name('FLAT1'), name('FLAT1'), 160, 0, 0)
                                 for floor in floors))]


def wad(lumps):
    return wads.wad_of(lumps)


def made_wad():
    """MAP01 and MAP02 have two sectors, the east one in front of their node. MAP03 has no player, the node
    of MAP04 names itself, MAP05 is of another format, MAP06 a bare label, and MAP07 has no node. The last
    has a name that no file can have."""
    box = [256, -256, -256, 256]
    split = [0, 0, 0, 256, *box, *box, 0x8000, 0x8001]
    return wad([('PLAYPAL', bytes(768)), ('COLORMAP', bytes(8192)),
                ('MAP01', b''), *room([24, -8], [(-64, 0, 0, 1), (64, -32, 100, 1), (0, 0, 0, 3001)], [split]),
                ('map02', b''), *room([24, -16], [(-10, 20, -100, 1)], [split]),
                ('MAP03', b''), *room([0], [(0, 0, 0, 3001)], []),
                ('MAP04', b''), *room([0], [(0, 0, 0, 1)], [[0, 0, 0, 256, *box, *box, 0, 0]]),
                ('MAP05', b''), *room([0], [], []), ('REJECT', b''), ('BLOCKMAP', b''), ('BEHAVIOR', b''),
                ('MAP06', b''), ('MAP07', b''), *room([5], [(1, 2, 45, 1)], []),
                ('A/B', b''), *room([0], [], [])])


def pixels_of(path):
    """The bytes of the pixels of a PNG of three bytes a pixel, without filters."""
    with open(path, 'rb') as file:
        data = file.read()
    width, height = struct.unpack_from('>II', data, 16)
    at, parts = 8, b''
    while at < len(data):
        size, kind = struct.unpack_from('>I4s', data, at)
        parts += data[at + 8:at + 8 + size] if kind == b'IDAT' else b''
        at += 12 + size
    lines = zlib.decompress(parts)
    return b''.join(lines[(3 * width + 1) * row + 1:(3 * width + 1) * (row + 1)] for row in range(height))


class Tools(unittest.TestCase):
    """Runs tools in a folder of its own, with nothing on the PATH but COMMANDS and stand-ins."""

    def setUp(self):
        self.folder = tempfile.mkdtemp(prefix='two words ')
        self.addCleanup(shutil.rmtree, self.folder)
        self.bin = self.at('bin')
        os.mkdir(self.bin)
        for command in COMMANDS:
            os.symlink(shutil.which(command), os.path.join(self.bin, command))
        self.stand_in('bin/python3', f'#!/bin/sh\nexec "{sys.executable}" "$@"\n')
        self.wad = self.write('made.wad', made_wad())

    def at(self, *parts):
        return os.path.join(self.folder, *parts)

    def write(self, place, data):
        with open(self.at(place), 'wb') as file:
            file.write(data)
        return self.at(place)

    def stand_in(self, place, text):
        os.chmod(self.write(place, text.encode()), 0o755)
        return self.at(place)

    def read(self, place):
        with open(self.at(place), encoding='latin-1') as file:
            return file.read()

    def clone(self):
        """A copy of the command, its tools and the page that they read, without the program: its command."""
        left_out = shutil.ignore_patterns('still*', 'source', '__pycache__', 'tests')
        shutil.copytree(TOOLS, self.at('clone/tools'), ignore=left_out)
        shutil.copy(COMMAND, self.at('clone'))
        os.makedirs(self.at('clone/crates/doomview'))
        os.mkdir(self.at('clone/docs'))
        shutil.copy(os.path.join(TOP, 'docs', 'REFUSALS.md'), self.at('clone/docs'))
        self.write('clone/crates.txt', b'doomview:\n')
        return self.at('clone/doomview')

    def surroundings(self, doomview=None, **more):
        return {'PATH': self.bin, 'HOME': self.folder, 'XDG_CACHE_HOME': self.at('cache'), **COMPILED,
                'DOOMVIEW': self.at('absent') if doomview is None else doomview, **more}

    def run_command(self, command, *words, input=None, stdout=subprocess.PIPE, **more):
        """Status, standard output and standard error of a command; `doomview` stands for the program."""
        given = {'stdin': subprocess.DEVNULL} if input is None else {'input': input}
        done = subprocess.run([command, *words], stdout=stdout, stderr=subprocess.PIPE, cwd=self.folder,
                              env=self.surroundings(**more), **given)
        return done.returncode, done.stdout, done.stderr.decode()

    def run_tool(self, tool, *words, **more):
        return self.run_command(COMMAND, tool, *words, **more)

    def refuses(self, part, tool, *words, command=COMMAND, ends=None, **more):
        """The tool ends with a status other than 0, or with the one that is named, writes nothing, and says in a sentence what
        is wrong."""
        status, output, error = self.run_command(command, tool, *words, **more)
        if ends is None:
            self.assertNotEqual(status, 0)
        else:
            self.assertEqual(status, ends, error)
        self.assertEqual(output, b'')
        self.assertIn(part, error)
        self.assertNotIn('Traceback', error)
