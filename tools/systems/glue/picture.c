/* `doomview.exe picture`: one view of a map as a PNG, as the tool picture of ./doomview draws it. Nothing here is proved. */
#include <math.h>
#include <stdio.h>
#include <stdlib.h>
#include <string.h>
#include "exe.h"

enum { TROUBLE = 2, WIDTH = 320, HEIGHT = 200, HEAD_SIZE = 15, PLAYER_1 = 1, LEAF = 0x8000, EYE_HEIGHT = 41 };
static const double UNIT = 65536, TURN = 4294967296.;

/* What is to be drawn: the WADs in their order, of which `own` has the map, its name, the file, the place, and options. */
struct drawing {
    const char *wads[MOST_WADS], *own, *map, *file, *place;
    int wad_count;
    struct words words;
};

static int fails(void) { return end_sentence("doomview picture: "), TROUBLE; }

static int ends_in(const char *text, const char *ending) {
    size_t length = strlen(text), size = strlen(ending);
    return length > size && !_stricmp(text + length - size, ending);
}

int is_wad_name(const char *word) { return ends_in(word, ".wad"); }

/* Takes the words; 0, or says what is wrong with them. */
static int take_words(struct drawing *drawing) {
    struct words *words = &drawing->words;
    char **plain = words->plain;
    int count = words->plain_count;
    if (count < 2 || count > 4) return put("the words are [WAD [MAP]] OUT.png; doomview picture --help shows them"), fails();
    drawing->file = plain[count - 1];
    if (!ends_in(drawing->file, ".png")) return put("the name of the picture has to end in .png, and %s does not", drawing->file), fails();
    int is_turned = count == 4 && is_wad_name(plain[2]) && !is_wad_name(plain[1]);
    drawing->own = count > 2 ? plain[is_turned ? 2 : 1] : "<room>";
    drawing->map = count > 3 ? plain[is_turned ? 1 : 2] : NULL;
    drawing->place = value_of(words, "--at");
    return 0;
}

static int is_iwad(const char *path) {
    struct bytes data = bytes_of(path);
    int found = data.size >= 4 && !memcmp(data.at, "IWAD", 4);
    free(data.at);
    return found;
}

/* Puts the WADs into their order: the game's first, then those of --file, then the one of the words. */
static void take_wads(struct drawing *drawing) {
    const wchar_t *variable = _wgetenv(L"IWAD");
    const char *option = value_of(&drawing->words, "--iwad"), *base = option ? option : variable && *variable ? utf8_of(variable) : NULL;
    int is_first = !base && is_iwad(drawing->own), count = 0;
    if (base) drawing->wads[count++] = base;
    if (is_first) drawing->wads[count++] = drawing->own;
    for (int i = 0; i < drawing->words.given_count && count < MOST_WADS - 1; i++) {
        const struct given *given = &drawing->words.given[i];
        if (given->length == 6 && !strncmp(given->name, "--file", 6) && given->value) drawing->wads[count++] = given->value;
    }
    if (!is_first) drawing->wads[count++] = drawing->own;
    drawing->wad_count = count;
}

/* The name of the first map of the scene's last WAD by the alphabet, or NULL. */
static const char *first_map(const struct scene *scene, const struct drawing *drawing) {
    const char *found = NULL;
    for (int i = 0; i < scene->lump_count; i++) {
        const char *name = scene->lumps[i].name;
        if (scene->wads[scene->lumps[i].wad] != drawing->own || !is_map(scene, i)) continue;
        if (!found || strcmp(name, found) < 0) found = name;
    }
    return found;
}

/* Whether a point is on the back of a node's line (R_PointOnSide). */
static int is_behind(const unsigned char *node, double x, double y) {
    double node_x = number_at(node, 2), node_y = number_at(node + 2, 2), dx = number_at(node + 4, 2), dy = number_at(node + 6, 2);
    if (dx == 0) return x <= node_x ? dy > 0 : dy < 0;
    if (dy == 0) return y <= node_y ? dx < 0 : dx > 0;
    if (x == node_x && y == node_y) return !(dx < 0 && 0 < dy);
    return dy * (x - node_x) <= dx * (y - node_y);
}

/* The leaf of a point; -1 where nodes lead nowhere. */
static int leaf_at(const struct scene *scene, double x, double y) {
    int count = scene->lumps[scene->label + 1 + NODES].size / 28, child = count ? count - 1 : LEAF;
    for (int i = 0; i < count && !(child & LEAF); i++) {
        const unsigned char *node = record_of(scene, NODES, child);
        if (!node) return -1;
        child = word_at(node + (is_behind(node, x, y) ? 26 : 24));
    }
    return child & LEAF ? child & ~LEAF : -1;
}

/* The sector at a point, that in front of the first seg of its leaf; or NULL. */
static const unsigned char *sector_at(const struct scene *scene, double x, double y) {
    int number = leaf_at(scene, x, y);
    const unsigned char *leaf = number < 0 ? NULL : record_of(scene, SSECTORS, number);
    const unsigned char *seg = leaf ? record_of(scene, SEGS, word_at(leaf + 2)) : NULL;
    const unsigned char *line = seg ? record_of(scene, LINEDEFS, word_at(seg + 6)) : NULL;
    const unsigned char *side = line && word_at(seg + 8) < 2 ? record_of(scene, SIDEDEFS, word_at(line + 10 + 2 * word_at(seg + 8))) : NULL;
    return side ? record_of(scene, SECTORS, word_at(side + 28)) : NULL;
}

/* Where the picture is seen from: x, y, the height of the eye, and degrees; z is NAN for an eye over the floor. */
struct place {
    double x, y, z, degrees;
};

/* The place of --at; whether it is one. */
static int read_place(const char *text, struct place *place) {
    unsigned angle, x, y;
    char rest;
    place->z = NAN;
    if (sscanf(text, " ang=%x;x,y=(%x,%x)", &angle, &x, &y) == 3)
        return *place = (struct place){(int32_t)x / UNIT, (int32_t)y / UNIT, NAN, 360. * angle / TURN}, 1;
    int count = sscanf(text, "%lf,%lf,%lf,%lf%c", &place->x, &place->y, &place->degrees, &place->z, &rest);
    int is_near = fabs(place->x) <= 32767 && fabs(place->y) <= 32767 && fabs(place->degrees) < TURN;
    return (count == 3 || count == 4) && is_near && !(count == 4 && fabs(place->z) > 32767);
}

/* The place of the player start: the last thing of type 1, as in the original; whether there is one. */
static int start_of(const struct scene *scene, struct place *place) {
    const unsigned char *thing, *found = NULL;
    for (unsigned i = 0; (thing = record_of(scene, THINGS, i)); i++)
        if (word_at(thing + 6) == PLAYER_1) found = thing;
    if (found) *place = (struct place){number_at(found, 2), number_at(found + 2, 2), NAN, number_at(found + 4, 2) / 45 * 45};
    return found != NULL;
}

struct built_in path_file = {"<path>", NULL, 0};

/* Makes the camera path of the one view; 0, or says why there is none. */
static int make_path(const struct scene *scene, const struct drawing *drawing) {
    static char text[128];
    struct place place;
    const char *where = scene->wads[scene->lumps[scene->label].wad];
    if (drawing->place && !read_place(drawing->place, &place))
        return put("%s is no place: X,Y,DEGREES in map units, or X,Y,DEGREES,Z, or the line of idmypos", drawing->place), fails();
    if (!drawing->place && !start_of(scene, &place))
        return put("%s of %s has no player start (thing of type 1); name a place by --at", scene->map, where), fails();
    const unsigned char *sector = sector_at(scene, place.x, place.y);
    if (isnan(place.z) && !sector)
        return put("%s of %s has no nodes, or damaged ones; build plain ones. doomview audit says where", scene->map, where), fails();
    double z = isnan(place.z) ? number_at(sector, 2) + EYE_HEIGHT : place.z, turned = fmod(nearbyint(place.degrees * TURN / 360), TURN);
    double x = nearbyint(place.x * UNIT), y = nearbyint(place.y * UNIT), angle = turned < 0 ? turned + TURN : turned;
    snprintf(text, sizeof text, "x,y,z,angle\n%.0f,%.0f,%.0f,%.0f\n", x, y, nearbyint(z * UNIT), angle);
    path_file = (struct built_in){"<path>", (const unsigned char *)text, strlen(text)};
    return 0;
}

/* The words of the job that draws it. */
static struct words job_of(const struct drawing *drawing, const char *map) {
    const struct words *words = &drawing->words;
    char **all = calloc(2 * words->given_count + MOST_WADS + 8, sizeof *all);
    int count = 0;
    static const char *const head[] = {"render", "--path", "<path>", "--format", "ppm"};
    if (!all) exit(OUT_OF_MEMORY);
    for (int i = 0; i < 5; i++) all[count++] = (char *)head[i];
    for (int i = 0; i < words->given_count; i++) {
        const struct given *given = &words->given[i];
        char *name = calloc(given->length + 1, 1);
        if (!name) exit(OUT_OF_MEMORY);
        memcpy(name, given->name, given->length);
        if (!strcmp(name, "--iwad") || !strcmp(name, "--file") || !strcmp(name, "--at")) continue;
        all[count++] = name;
        if (given->value) all[count++] = (char *)given->value;
    }
    all[count++] = "--", all[count++] = (char *)map;
    for (int i = 0; i < drawing->wad_count; i++) all[count++] = (char *)drawing->wads[i];
    return words_of(count, all);
}

static int write_bytes(HANDLE handle, void *what) {
    const struct bytes *data = what;
    DWORD moved;
    return WriteFile(handle, data->at, data->size, &moved, NULL) && moved == data->size ? 0 : WRITE_FAULT;
}

/* Draws the view of a scene; the status. */
static int draw(const struct scene *scene, const struct drawing *drawing) {
    struct bytes frame = {0};
    int status = make_path(scene, drawing);
    if (status) return status;
    keep_stream(1, &frame);
    status = run_program(job_of(drawing, scene->map));
    if (status) return status;
    if (frame.size < HEAD_SIZE + 3 * WIDTH * HEIGHT) return put("what was drawn is no frame of 320 by 200"), fails();
    struct bytes png = png_of(WIDTH, HEIGHT, frame.at + HEAD_SIZE);
    return write_by(drawing->file, write_bytes, &png);
}

int picture(struct words words) {
    struct drawing drawing = {.words = words};
    struct scene scene = {0};
    if (take_words(&drawing)) return TROUBLE;
    take_wads(&drawing);
    const char *weapon = value_of(&words, "--weapon");
    if (check_output(drawing.file, drawing.wads, drawing.wad_count) || (weapon && check_output(drawing.file, &weapon, 1))) return TROUBLE;
    for (int i = 0; i < drawing.wad_count; i++)
        if (say_unreadable_file("doomview picture: ", drawing.wads[i])) return TROUBLE;
    scene = scene_over(drawing.wads, drawing.wad_count);
    const char *map = drawing.map ? drawing.map : first_map(&scene, &drawing);
    if (!map) return put("%s has no map", drawing.own), fails();
    if (!is_iwad(drawing.wads[0]) && !last_lump(&scene, "PLAYPAL"))
        return put("%s is a PWAD, and needs the WAD of its game; name that by --iwad, as in --iwad freedoom2.wad", drawing.own), fails();
    find_map(&scene, map);
    if (scene.label < 0) return put_no_map(&scene), fails();
    return draw(&scene, &drawing);
}
