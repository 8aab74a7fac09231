"""The jobs of the proved program, with the texts of their pages, and its statuses, which stand here once. tools/page_tables
makes the tables of the pages and of the manual of them."""
import typing

MOST_WADS = 16
# Statuses of the program, and where there is none of it.
USAGE, REFUSED, READ_FAULT, WRITE_FAULT, LIMIT, ZONE_FULL, OUT_OF_MEMORY = 1, 2, 3, 4, 5, 6, 7
NO_SUCH_WORD, NO_PROGRAM = 64, 70  # EX_USAGE and EX_SOFTWARE of sysexits.h


class Job(typing.NamedTuple):
    """A job of the proved program: its words with what each is, and the parts of its page."""

    name: str
    words: list[tuple[str, str]]
    summary: str
    is_binary: bool
    text: str
    examples: str

    @property
    def form(self) -> str:
        """The job with its words."""
        return ' '.join([self.name, *(word for word, _ in self.words)])


class Status(typing.NamedTuple):
    """How a run ends: the line that the program writes, if it writes one, and when."""

    line: str
    when: str


MAP = ('MAP', 'the name of a map, such as MAP01 or E1M1')
WADS = ('WAD..', f'up to {MOST_WADS} WADs, read as one list of lumps: the IWAD first, then PWADs')
EYE = '''
A row of the path is x,y,z,angle: x, y and z in 16.16 map units (65536 a unit), the angle with 2^32 a turn,
counterclockwise from east. z is the height of the eye, not of the feet: a player who stands has it 41
units above the floor. doomview places and doomview turn write paths.'''

JOBS = {job.name: job for job in [
    Job('render', [MAP, WADS], 'the frames of a camera path', True, f'''
Draws a frame for each row of a camera path, and writes them one after the other, each as soon as it is
drawn: 320 by 200 palette indices row by row from the top, 64,000 bytes a frame; or 192,015 bytes a frame
as PPM pictures, with --format ppm. With --spans packed floors and ceilings are stepped as in the DOS
program and in Chocolate Doom; without it as in the Linux sources.
{EYE}
''', '''
$ doomview render MAP01 freedoom2.wad --path path.csv -o frames.bin
$ doomview render MAP01 freedoom2.wad mymap.wad --path path.csv --format ppm > frames.ppm
'''),
    Job('trace', [MAP, WADS], 'what painted each pixel of the frames', True, '''
Writes a record of eight bytes for each pixel of the frames of a camera path, 512,000 bytes a view: the
kind of painter (wall, plane, sky, middle texture, sprite, weapon), its number in the view, the lump or
texture that was read, and the colour. docs/FORMATS.md has the record. doomview compare and doomview pixel
read it.
''', '''
$ doomview trace MAP01 freedoom2.wad --path path.csv -o trace.bin
$ doomview pixel 0 160 100 trace.bin freedoom2.wad
'''),
    Job('limits', [MAP, WADS], 'what each view of a camera path counts', False, '''
Prints a line for each row of a camera path: how many planes, openings, fragments and sprites its view
has, or which limit it passes. Draws nothing. The original ends at 128 planes and 20,480 openings; it
stops drawing walls at 256 fragments, and sprites at 128, without a word, and here they are counted no further.
''', '''
$ doomview limits MAP01 freedoom2.wad --path path.csv
$ doomview limits MAP01 freedoom2.wad --path path.csv --planes 1024 -o counts.txt
'''),
    Job('list', [MAP, WADS], 'what each view of a camera path is made of, item by item', False, '''
Prints a line for each wall fragment, each plane and each sprite of a view, in the order of the numbers by
which a trace names them, and then a line of sums. A fragment has its seg and its columns; a plane its
height, flat and light, what made it (the leaf that found no such plane, or the fragment whose columns were
taken in the one that was there) and in how many columns it has rows; a sprite its thing, its picture and
its columns. The sums say how many fragments and sprites there would be without the limits of 256 and 128.
A view that is over a limit has one line, as limits prints it. docs/FORMATS.md has the lines.
''', '''
$ doomview list MAP01 freedoom2.wad --path path.csv
$ doomview list MAP12 freedoom2.wad --path path.csv --planes 1024 -o list.txt
'''),
    Job('audit', [MAP, WADS], 'that the level is sound, and how large a zone it needs', False, '''
Reads all that a picture of the level can need, and accepts it or names the first thing for which it
cannot be drawn. The two numbers are sizes of a zone in bytes: one that is never full, and one that holds
all lumps and composed textures at once.

audit is no map check: a level is accepted where each of its views can be drawn. It says nothing of walls
without a texture, sectors that are not closed, the tutti-frutti effect, or things outside the level:
doomview lint does. doomview explain audit, with the same words, says in sentences why a level is refused.
''', '''
$ doomview audit MAP01 freedoom2.wad --path path.csv
$ doomview explain audit MAP01 freedoom2.wad mymap.wad --path path.csv
'''),
    Job('trim', [MAP, WADS], 'one WAD with only the lumps that the frames of a level need', True, '''
Writes one WAD that has only what the frames of a level need, at one skill, with one thing table and these
weapon layers. render draws the same frames from it, which is proved. So a fault can be sent with a small
file in the place of a game's WAD. The art in it is still the game's, under the game's licence.

The file is for doomview alone: it starts no port, since ports want all patches of TEXTURE1, whole
animations and all frames of each sprite.
''', '''
$ doomview trim MAP01 freedoom2.wad mymap.wad --path path.csv -o case.wad
$ doomview picture case.wad case.png
'''),
    Job('flat', [('NAME', 'the name of a flat, such as FLOOR0_1'), ('WAD', 'one WAD, which has the palette too')],
        'one flat, laid over the frame again and again, as a PPM', True, '''
Writes a picture of one flat, laid over the frame again and again, as a PPM of 192,015 bytes, in the
colours of the WAD's own palette.
''', '''
$ doomview flat FLOOR0_1 freedoom2.wad -o flat.ppm
'''),
    Job('make', [('WHAT', 'wad N, path N, things or tables; N from 1 to 32')],
        'a made file: wad N, path N, things or tables', True, '''
Writes a file that needs no game: a WAD with one level, MAP01, which grows with the number, a camera path
through it, its thing table, and tables of angles. They serve tests of doomview: the tables are not the
original's (doomview tables writes those), and the things are one type alone.
''', '''
$ doomview make wad 10 -o made.wad
$ doomview make path 10 > made_path.csv
'''),
    Job('exercise', [('N', 'the number of the made files, 1 to 32')],
        'the sum of the frames of a made level', False, '''
Makes the files of a number in memory, renders them, and prints the number and the sum of the frames'
bytes. It reads no file, so it shows on any machine whether the program draws what it should.
''', '''
$ doomview exercise 10
sectors 400 views 30 frames 30 bytes 1920000 sum 110342962
'''),
]}
LEVEL_JOBS = [job.name for job in JOBS.values() if job.words[0] == MAP]
STATUSES = {
    0: Status('', 'the whole output was written'),
    USAGE: Status('usage', 'the arguments are invalid'),
    REFUSED: Status('refused CODE A B ..', 'the bytes of a file are refused'),
    READ_FAULT: Status('read fault', 'a file is absent, or could not be read'),
    WRITE_FAULT: Status('write fault', 'the output could not be written'),
    LIMIT: Status('limit view V planes N', 'view V, counted from 0, has more planes (or openings N) than its limit'),
    ZONE_FULL: Status('zone full wanted W widest X', 'the zone has no room for a block of W bytes; every gap is smaller'),
    OUT_OF_MEMORY: Status('out of memory', 'memory ran out'),
    NO_SUCH_WORD: Status('usage', 'the first word is no job and no tool, so nothing was done'),
    NO_PROGRAM: Status('', 'the program could not be built or is not there'),
}
