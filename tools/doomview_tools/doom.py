"""Facts of Doom that several tools need, each said once: lumps of a map and their records, flags, types of things, art,
limits. The tables of specials, things and limits are data/game.json, which the page for a browser reads too."""
import json
import typing

from . import installation

with open(installation.data('game.json'), encoding='utf-8') as file:
    GAME: dict[str, typing.Any] = json.load(file)
LINES, SECTORS, THINGS = GAME['lines'], GAME['sectors'], GAME['things']  # specials of lines and sectors; types of things

# The lumps of a map behind its label, in their order; those that a builder of nodes makes; and the two behind them.
MAP_LUMPS = ['THINGS', 'LINEDEFS', 'SIDEDEFS', 'VERTEXES', 'SEGS', 'SSECTORS', 'NODES', 'SECTORS']
BUILT_LUMPS = ['SEGS', 'SSECTORS', 'NODES']
TABLES = ['REJECT', 'BLOCKMAP']
LAYOUTS = {'THINGS': '<hhhHH', 'LINEDEFS': '<7H', 'SIDEDEFS': '<hh8s8s8sH', 'VERTEXES': '<hh', 'SEGS': '<6H',
           'SSECTORS': '<HH', 'NODES': '<12h2H', 'SECTORS': '<hh8s8shhh'}  # of the records of a lump
LEAF = 0x8000  # the bit of a child of a node that is a leaf
NO_SIDE = 0xffff  # where a line has no side
FRONT_AND_BACK = ('front', 'back')  # the sides of a line
BLOCKS, TWO_SIDED, UPPER_UNPEGGED, LOWER_UNPEGGED = 1, 4, 8, 16  # flags of a line; BLOCKS: nobody passes
TELEPORTS = set(LINES['teleports'])  # specials of lines
EVERY_SKILL: int = THINGS['every_skill']  # the bits of a thing's options that say in which skills it is

# Types of things.
PLAYER_1, SPECTRE, DEMON = (THINGS[name] for name in ('player_1', 'spectre', 'demon'))
STARTS = set(THINGS['starts'])  # of players and of a deathmatch
DESTINATION: int = THINGS['destination']  # the end of a teleport
PLACES = {*STARTS, DESTINATION}  # they have no picture

SKY = 'F_SKY1'  # the flat of the sky
PALETTE_SIZE, COLORMAP_SIZE = 768, 256  # bytes
COLORMAPS = 32  # of lights, from bright to dark

# What a view has at most: MAXVISPLANES, MAXOPENINGS, MAXDRAWSEGS, MAXVISSPRITES, MAXSEGS.
LIMITS: dict[str, int] = {name: of['limit'] for name, of in GAME['limits'].items()}
