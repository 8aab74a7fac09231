/* What more is known of some refusals, as tools/doomview_tools/refusals.py says it. Nothing here is proved. */
#include <string.h>
#include "exe.h"

enum { EXTENDED_LETTERS = 4, BEHIND_MAP = 12 };
static const char *const parts[] = {"upper", "lower", "middle"}, *const lists[] = {"TEXTURE1", "TEXTURE2"};
static const int places[] = {4, 12, 20}; /* of these parts in a side */

static void say_hint(void) { end_sentence("explain: "); }

static void say_packed(const struct scene *scene) {
    for (int i = 0; i < scene->wad_count; i++) {
        const struct bytes *data = &scene->data[i];
        const char *kind = data->size < 4 ? NULL
            : !memcmp(data->at, "PK", 2) ? "a zip, as a PK3 is" : !memcmp(data->at, "7z\xbc\xaf", 4) ? "a 7z file, as a PK7 is"
            : !memcmp(data->at, "\x1f\x8b", 2) ? "a gzip file" : NULL;
        if (kind) put("%s is %s; unpack it, and name the WAD in it.", scene->wads[i], kind), say_hint();
    }
}

static int is_extended(const struct lump *lump) {
    static const char letters[] = "XNOD ZNOD XGLN ZGLN XGL2 ZGL2 XGL3 ZGL3 gNd2 gNd5";
    for (size_t i = 0; i < sizeof letters && lump->size >= EXTENDED_LETTERS; i += EXTENDED_LETTERS + 1)
        if (!memcmp(lump->bytes, letters + i, EXTENDED_LETTERS)) return 1;
    return 0;
}

static void say_odd_nodes(const struct scene *scene) {
    const struct lump *of_map = scene->lumps + scene->label + 1;
    for (int i = NODES; i >= SEGS; i--) {
        if (!is_extended(&of_map[i])) continue;
        put("%s has extended nodes (%.4s); build plain ones (zdbsp without -X, -x and -z; in an editor a builder named normal or "
            "vanilla).", map_lumps[i], (const char *)of_map[i].bytes);
        say_hint();
        return;
    }
    for (int i = scene->label + 1 + MAP_LUMP_COUNT; i < scene->lump_count && i < scene->label + 1 + MAP_LUMP_COUNT + BEHIND_MAP; i++)
        if (!strncmp(scene->lumps[i].name, "GL_", 3)) {
            put("%s has GL nodes alone (GL_SEGS, GL_SSECT, GL_NODES), which are not read; build plain ones too.", scene->map);
            say_hint();
            return;
        }
}

/* Whether a list has a texture of a name. */
static int list_has(const struct lump *list, const char *name) {
    char other[NAME_SIZE];
    size_t count = list && list->size >= 4 ? (unsigned)number_at(list->bytes, 4) : 0;
    for (size_t i = 0; i < count && 8 + 4 * i <= list->size; i++) {
        size_t at = (unsigned)number_at(list->bytes + 4 + 4 * i, 4);
        if (at + 8 > list->size) continue;
        clean_name(other, list->bytes + at);
        if (!strcmp(name, other)) return 1;
    }
    return 0;
}

/* The last list of textures of a WAD, of a name; or NULL. */
static const struct lump *list_of(const struct scene *scene, int wad, const char *name) {
    for (int i = scene->lump_count - 1; i >= 0; i--)
        if (scene->lumps[i].wad == wad && !strcmp(scene->lumps[i].name, name)) return &scene->lumps[i];
    return NULL;
}

/* A WAD whose list of textures has a name, and is hidden by that of another WAD. */
static void say_hidden(const struct scene *scene, const char *name) {
    const struct lump *last = last_lump(scene, lists[0]);
    for (int wad = 0; last && wad < last->wad; wad++) {
        if (!list_has(list_of(scene, wad, lists[0]), name) && !list_has(list_of(scene, wad, lists[1]), name)) continue;
        put("%s is in the TEXTURE1 of %s, which that of %s hides; put it into the list there.", name, scene->wads[wad],
            scene->wads[last->wad]);
        say_hint();
    }
}

/* Which of the textures of a side is in no list, and why. */
static void say_no_texture(const struct scene *scene, unsigned number) {
    const unsigned char *side = record_of(scene, SIDEDEFS, number);
    char names[3][NAME_SIZE], missing[3] = {0};
    int count = 0, told = 0;
    for (int i = 0; side && i < 3; i++) {
        clean_name(names[i], side + places[i]);
        int is_known = list_has(last_lump(scene, lists[0]), names[i]) || list_has(last_lump(scene, lists[1]), names[i]);
        missing[i] = names[i][0] != '-' && !is_known;
        count += missing[i];
    }
    if (!count) return;
    put("in no list: ");
    for (int i = 0; i < 3; i++)
        if (missing[i]) put("%s%s %s", !told ? "" : told + 1 == count ? " and " : ", ", parts[i], names[i]), told++;
    put("."), say_hint();
    for (int i = 0; i < 3; i++)
        if (missing[i] && (!i || strcmp(names[i], names[i - 1])) && (i < 2 || strcmp(names[2], names[0]))) say_hidden(scene, names[i]);
}

/* Whether a flat of a name is between the marks of its WAD. */
static int has_flat(const struct scene *scene, const char *name) {
    int is_within = 0, wad = -1;
    for (int i = 0; i < scene->lump_count; i++) {
        const struct lump *lump = &scene->lumps[i];
        if (lump->wad != wad) wad = lump->wad, is_within = 0;
        if (!strcmp(lump->name, "F_START") || !strcmp(lump->name, "FF_START")) is_within = 1;
        else if (!strcmp(lump->name, "F_END") || !strcmp(lump->name, "FF_END")) is_within = 0;
        else if (is_within && !strcmp(lump->name, name)) return 1;
    }
    return 0;
}

/* Which flat of a sector there is not, and why. */
static void say_no_flat(const struct scene *scene, unsigned number) {
    static const char *const kinds[] = {"floor", "ceiling"};
    const unsigned char *sector = record_of(scene, SECTORS, number);
    char name[NAME_SIZE];
    for (int i = 0; sector && i < 2; i++) {
        clean_name(name, sector + 4 + 8 * i);
        if (!strcmp(name, "F_SKY1") || has_flat(scene, name)) continue;
        put("no flat: %s %s%s.", kinds[i], name,
            last_lump(scene, name) ? ": there is a lump of that name, but not between F_START and F_END" : "");
        say_hint();
    }
}

void say_hints(const struct scene *scene, int code, unsigned number) {
    if (code == 401 || code == 402) say_packed(scene);
    if (code >= 603 && code <= 606 && scene->label >= 0) say_odd_nodes(scene);
    if (code == 901) say_no_texture(scene, number);
    if (code == 903) say_no_flat(scene, number);
    if (code == 905) put("%s", medusa), say_hint();
}
