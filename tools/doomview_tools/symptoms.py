"""From a symptom to the function of the original where one looks: the table that docs/PORT.md has (tools/page_tables makes it
of this), and which of its rows fits what a comparison found. A row is named where the shape of what differs is certain;
where none is, there is none."""
import typing
from collections.abc import Callable

from . import shapes
from .doom import COLORMAP_SIZE
from .lights import Lights
from .paths import Row
from .shapes import Sample
from .texels import Texels
from .traces import KINDS, MIDDLE, PLANE, SKY, SPRITE, WALL, WEAPON

SAMPLES = 8  # views that are looked at
ALONE = 0.9  # the share of a kind that differs alone
COLUMN_HEIGHT = 128
ORDERED = 3  # times as many pixels that differ of the planes behind, or of those in front
MOST_ITEMS = 6  # of a view


class Symptom(typing.NamedTuple):
    """A row of the table: its name, what the pixels that differ have in common, the functions, and what to look at."""

    name: str
    sign: str
    functions: str
    thought: str


TABLE = [
    Symptom('fixed colormap', 'the views that differ are those whose rows have a colormap or extra light', 'R_SetupFrame, '
            'R_MapPlane, R_ProjectSprite, R_DrawPSprite', 'player->fixedcolormap and extralight count for walls, planes, sprites '
            'and psprites each by itself; the sky has neither'),
    Symptom('column count', 'the last pixel of columns alone', 'R_DrawColumn', 'count is dc_yh - dc_yl, and count + 1 pixels '
            'are painted: dc_yh too'),
    Symptom('wall edges', 'planes and skies alone, and most of it single pixels above or below something else',
            'R_RenderSegLoop', 'yl is (topfrac + HEIGHTUNIT - 1) >> HEIGHTBITS, and yh is bottomfrac >> HEIGHTBITS'),
    Symptom('texture height', 'walls alone, and none of textures 128 high', 'R_DrawColumn', 'the texel is (frac >> FRACBITS) & '
            '127, whatever the height of the texture: past its end comes what is next in memory'),
    Symptom('texture width', 'walls alone, and none of textures whose width is a power of two', 'R_GetColumn, R_InitTextures',
            'the column is taken by texturewidthmask, of the largest power of two that is no wider than the texture'),
    Symptom('wall light', 'walls alone: the same texels under another colormap', 'R_StoreWallRange, R_RenderSegLoop',
            'lightnum is one less where both ends of a seg have one y, and one more where they have one x; scalelight is taken by '
            'rw_scale >> LIGHTSCALESHIFT'),
    Symptom('texture middle', 'walls alone: the same columns, higher or lower', 'R_StoreWallRange', 'dc_texturemid: '
            'ML_DONTPEGTOP, ML_DONTPEGBOTTOM, rowoffset, and the ceiling that both sides have under sky'),
    Symptom('texture column', 'walls alone: other columns of the same texture', 'R_StoreWallRange, R_RenderSegLoop, R_GetColumn',
            'rw_offset (textureoffset of the side and offset of the seg), rw_centerangle'),
    Symptom('texture place', 'walls alone: other texels of the same texture, higher or lower, or to a side', 'R_StoreWallRange, '
            'R_DrawColumn', 'both of the rows above: dc_texturemid and rw_offset; (frac >> FRACBITS) & 127'),
    Symptom('split planes', 'planes alone, and none but those of which a view has several', 'R_CheckPlane', 'a plane whose '
            'columns are taken is followed by a new one of the same height, flat and light'),
    Symptom('planes as one', 'planes alone, and of those that are alike but for height or light the ones behind',
            'R_FindPlane', 'planes are one where height, flat and light all are the same'),
    Symptom('plane edges', 'planes alone, and of those that are alike but for height or light the ones in front',
            'R_StoreWallRange', 'markfloor and markceiling: a plane ends at a line behind which height, flat or light is another'),
    Symptom('plane light', 'planes alone: the same texels under another colormap', 'R_DrawPlanes, R_MapPlane, '
            'R_InitLightTables', 'planezlight by the light of the sector and extralight, and in it distance >> LIGHTZSHIFT'),
    Symptom('yslope', 'planes alone: other texels of the same flat', 'R_ExecuteSetViewSize, R_MapPlane, R_DrawSpan',
            'yslope and distscale, basexscale and baseyscale, ds_xfrac and ds_yfrac; or the other spans (--spans)'),
    Symptom('walls in the sky', 'the sky alone, where the port has something else', 'R_StoreWallRange', 'worldtop is worldhigh '
            'where the ceilings of both sides are sky'),
    Symptom('sky', 'the sky alone: higher or lower, to a side, or under a colormap', 'R_DrawPlanes', 'skytexturemid, '
            'ANGLETOSKYSHIFT, and colormaps, the first of all'),
    Symptom('middle textures', 'middle textures, and all else in their columns alone', 'R_RenderMaskedSegRange, R_DrawMaskedColumn', 'dc_texturemid by the '
            'higher floor or the lower ceiling, mfloorclip and mceilingclip, the order with sprites'),
    Symptom('sprite light', 'sprites alone: the same texels under another colormap', 'R_AddSprites, R_ProjectSprite',
            'spritelights by the light of the sector and extralight; FF_FULLBRIGHT is colormaps'),
    Symptom('sprite offset', 'sprites alone, which are moved', 'R_ProjectSprite, R_InitSpriteLumps', 'spriteoffset and '
            'spritetopoffset, thing->z; what hangs is at the ceiling'),
    Symptom('sprite mirrored', 'sprites alone, which are mirrored', 'R_InstallSpriteLump, R_ProjectSprite', 'flip of the '
            'rotation: vis->startfrac and vis->xiscale'),
    Symptom('sprites missing', 'whole sprites alone, and nothing beside them', 'R_AddSprites, R_ProjectSprite, R_DrawSprite',
            'tz < MINZ, abs(tx) > tz << 2, x1 > viewwidth, x2 < 0; validcount of the sector; the things of the skill'),
    Symptom('sprite clip', 'parts of sprites alone, and nothing beside them', 'R_DrawSprite', 'clipbot and cliptop by the '
            'drawsegs that are nearer: scale, R_PointOnSegSide, silhouette, bsilheight and tsilheight'),
    Symptom('sprite rotation', 'sprites and what is behind them: other pictures', 'R_ProjectSprite', 'rot is (ang - '
            'thing->angle + 9 * (ANG45 / 2)) >> 29; frame and state of the thing'),
    Symptom('psprites', 'weapons alone: moved, or under another colormap', 'R_DrawPSprite, R_DrawPlayerSprites', 'BASEYCENTER, '
            'sx and sy of the layer, pspritescale; spritelights[MAXLIGHTSCALE - 1] of the sector in which the player is'),
    Symptom('holes', 'the port has 0 there, as where nothing is painted', 'R_MakeSpans, R_StoreWallRange, R_ClipSolidWallSegment, '
            'R_GenerateComposite', 'markfloor and markceiling, the columns of a plane, solidsegs, worldtop under sky; where walls '
            'alone differ, the places of the patches of a texture'),
]
BY_NAME = {symptom.name: symptom for symptom in TABLE}


class Evidence(typing.NamedTuple):
    """What a comparison found: some views that differ, the shares of kinds by their words, which views differ, the rows of
    the path where it is known, and texels, lights and colormaps of the WADs."""

    samples: list[Sample]
    shares: dict[str, float]
    views: list[int]
    rows: list[Row]
    texels: Texels
    lights: Lights
    colormaps: bytes

    def is_alone(self, *kinds: int) -> bool:
        return sum(self.shares.get(KINDS[kind][0], 0) for kind in kinds) >= ALONE

    def steps(self, kind: int) -> list[typing.Optional[shapes.Step]]:
        """How far items of a kind are moved."""
        return [shapes.moved(sample, shapes.places_of(sample, *item)) for sample in self.samples
                for item in shapes.differing_items(sample, kind)[:MOST_ITEMS]]


def by_light_of_rows(evidence: Evidence) -> str:
    """Whether the views that differ are those with light in their rows, but for one in ten, and there are others."""
    lit = {view for view, row in enumerate(evidence.rows) if row.extralight or row.colormap}
    own = [view for view in evidence.views if view in lit]
    is_own = evidence.views and len(own) == len(evidence.views) and len(lit) < len(evidence.rows)
    return f'{len(own)} of the {len(lit)} views with light in their rows' if is_own else ''


def of_walls(evidence: Evidence) -> tuple[str, str]:
    samples, texels = evidence.samples, evidence.texels
    if shapes.differ_by(samples, texels, lambda texture: texture.height == COLUMN_HEIGHT):
        return 'texture height', ''
    if shapes.differ_by(samples, texels, lambda texture: not texture.width & texture.width - 1):
        return 'texture width', ''
    if shapes.is_lit(samples, (WALL,), evidence.lights):
        return 'wall light', ''
    return (of_columns(evidence), '') if has_same(evidence, WALL) else ('', '')


def of_columns(evidence: Evidence) -> str:
    """The name of the row for walls with other texels of their textures."""
    counts = [shapes.directions_of_columns(sample, item) for sample in evidence.samples
              for item in shapes.differing_items(sample, WALL)[:MOST_ITEMS]]
    whole, rows, sides = map(sum, zip(*counts)) if counts else (0, 0, 0)
    if 3 * rows >= whole > 0 and rows > 2 * sides:
        return 'texture middle'
    return 'texture column' if 3 * sides >= whole > 0 and sides > 2 * rows else 'texture place'


def has_same(evidence: Evidence, kind: int) -> bool:
    return shapes.has_same_texels(evidence.samples, (kind,), evidence.texels, evidence.colormaps)


def by_list(evidence: Evidence) -> str:
    """The name of the row on planes, skies among them, that the lists tell, or an empty text."""
    samples = evidence.samples
    if not all(sample.items for sample in samples) or not evidence.is_alone(PLANE, SKY) or evidence.is_alone(SKY):
        return ''
    if shapes.differ_where(samples, shapes.split_planes):
        return 'split planes'
    if not shapes.differ_where(samples, shapes.like_planes):
        return ''
    first, last = shapes.pixels_by_order(samples)
    return 'planes as one' if last > ORDERED * first else 'plane edges' if first > ORDERED * last else ''


def of_planes(evidence: Evidence) -> tuple[str, str]:
    if shapes.is_lit(evidence.samples, (PLANE,), evidence.lights):
        return 'plane light', ''
    # An edge that is left out has a plane go on under another light, and where that has another flat, other texels too.
    is_mixed = shapes.has_lit_view(evidence.samples, (PLANE,), evidence.lights)
    return ('yslope', '') if not is_mixed and has_same(evidence, PLANE) else ('', '')


def of_sprites(evidence: Evidence) -> tuple[str, str]:
    samples = evidence.samples
    if shapes.is_lit(samples, (SPRITE,), evidence.lights):
        return 'sprite light', ''
    direction = shapes.directions(evidence.steps(SPRITE))
    if direction:
        return 'sprite offset', direction
    mirrored = [shapes.is_mirrored(sample, shapes.places_of(sample, *item), item[1]) for sample in samples
                for item in shapes.differing_items(sample, SPRITE)[:MOST_ITEMS]]
    if mirrored and sum(mirrored) >= shapes.MOST * len(mirrored):
        return 'sprite mirrored', ''
    beside = sum(sum(numbers.values()) for sample in samples for painter, numbers in sample.pixels.items()
                 if painter.kind != SPRITE)
    if beside:
        return 'sprite rotation', ''
    whole = [is_whole for sample in samples for is_whole in shapes.wholly_differing(sample, SPRITE)]
    return ('sprites missing' if whole and sum(whole) >= shapes.MOST * len(whole) else 'sprite clip'), ''


def of_sky(evidence: Evidence) -> tuple[str, str]:
    places = [(sample, shapes.places_of(sample, SKY)) for sample in evidence.samples]
    direction = shapes.directions([shapes.moved(*pair) for pair in places])
    first = evidence.colormaps[:COLORMAP_SIZE]
    if direction or shapes.is_recoloured(evidence.samples, SKY) or \
            shapes.has_same_texels(evidence.samples, (SKY,), evidence.texels, first):
        return 'sky', direction
    return 'walls in the sky', ''


def of_weapons(evidence: Evidence) -> tuple[str, str]:
    steps = [shapes.moved(sample, shapes.places_of(sample, WEAPON)) for sample in evidence.samples]
    return 'psprites', shapes.directions(steps)


KNOWN_BY_KIND: list[tuple[int, Callable[[Evidence], tuple[str, str]]]] = [
    (WALL, of_walls), (PLANE, of_planes), (SPRITE, of_sprites), (SKY, of_sky), (WEAPON, of_weapons),
    (MIDDLE, lambda evidence: ('middle textures', ''))]


def name_of(evidence: Evidence) -> tuple[str, str]:
    """The name of the row that fits, and what is known more; an empty name where none is certain."""
    by_rows = by_light_of_rows(evidence)
    if by_rows:
        return 'fixed colormap', by_rows
    if shapes.is_end_of_columns(evidence.samples):
        return 'column count', ''
    if evidence.is_alone(PLANE, SKY) and shapes.is_edge_of_planes(evidence.samples):
        return 'wall edges', ''
    if by_list(evidence):
        return by_list(evidence), ''
    if shapes.is_unpainted(evidence.samples):
        return 'holes', ''
    name, more = next((find(evidence) for kind, find in KNOWN_BY_KIND if evidence.is_alone(kind)), ('', ''))
    return (name, more) if name or not shapes.is_of_middles(evidence.samples) else ('middle textures', '')


def sentences(evidence: Evidence) -> list[str]:
    """The line of the row that fits, or none."""
    if not evidence.samples:
        return []
    name, more = name_of(evidence)
    if not name:
        return []
    symptom = BY_NAME[name]
    return [f'symptom {name}: {symptom.sign}{f" ({more})" if more else ""}; look at {symptom.functions}']
