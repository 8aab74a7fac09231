/* The WADs of a call and the level that it names, as far as they can be read, to name what a refusal is about. What they are
   is said in docs/FORMATS.md. Nothing here is proved. */
#include <ctype.h>
#include <stdlib.h>
#include <string.h>
#include "exe.h"

enum { HEADER = 12, ENTRY = 16, BEHIND_LABEL = 12 };
static const int record_sizes[MAP_LUMP_COUNT] = {10, 14, 30, 4, 12, 4, 28, 26};

int number_at(const unsigned char *bytes, int size) {
    unsigned number = bytes[0] | bytes[1] << 8;
    return size == 2 ? (int16_t)number : (int32_t)(number | bytes[2] << 16 | (unsigned)bytes[3] << 24);
}

unsigned word_at(const unsigned char *bytes) { return bytes[0] | bytes[1] << 8; }

void clean_name(char *to, const unsigned char *from) {
    for (int i = 0; i < 8 && from[i]; i++)
        if (from[i] < 0x80) *to++ = toupper(from[i]);
        else *to++ = 0xc0 | from[i] >> 6, *to++ = 0x80 | (from[i] & 63);
    *to = 0;
}

struct bytes bytes_of(const char *path) {
    struct bytes found = {0};
    LARGE_INTEGER size;
    const struct built_in *built_in = built_in_named(path);
    HANDLE handle = built_in ? INVALID_HANDLE_VALUE : opened(path, GENERIC_READ);
    if (built_in) add_bytes(&found, built_in->bytes, built_in->size);
    if (handle == INVALID_HANDLE_VALUE) return found;
    if (GetFileSizeEx(handle, &size) && size.QuadPart < INT32_MAX) found.at = malloc(size.QuadPart + 1);
    for (DWORD moved = 1; found.at && moved; found.size += moved)
        if (!ReadFile(handle, found.at + found.size, size.QuadPart - found.size, &moved, NULL)) moved = 0;
    CloseHandle(handle);
    return found;
}

/* How many lumps a WAD has; 0 where it is none, or is cut short. */
static int lump_count_of(const struct bytes *wad) {
    if (wad->size < HEADER || (memcmp(wad->at, "IWAD", 4) && memcmp(wad->at, "PWAD", 4))) return 0;
    uint64_t count = (unsigned)number_at(wad->at + 4, 4), directory = (unsigned)number_at(wad->at + 8, 4);
    return directory + ENTRY * count <= wad->size ? count : 0;
}

/* Puts the lumps of a WAD behind the others; none of a WAD that ends within a lump. */
static void add_lumps(struct scene *scene, int wad) {
    const struct bytes *data = &scene->data[wad];
    int count = lump_count_of(data);
    const unsigned char *entry = count ? data->at + (unsigned)number_at(data->at + 8, 4) : NULL;
    struct lump *lumps = count ? realloc(scene->lumps, (scene->lump_count + count) * sizeof *lumps) : NULL;
    if (!lumps) return;
    scene->lumps = lumps, lumps += scene->lump_count;
    for (int i = 0; i < count; i++, entry += ENTRY) {
        uint64_t at = (unsigned)number_at(entry, 4), size = (unsigned)number_at(entry + 4, 4);
        if (size && at + size > data->size) return;
        lumps[i] = (struct lump){.bytes = data->at + at, .size = size, .wad = wad};
        clean_name(lumps[i].name, entry + 8);
    }
    scene->lump_count += count;
}

int is_map(const struct scene *scene, int label) {
    const struct lump *behind = scene->lumps + label + 1;
    int left = scene->lump_count - label - 1;
    if (left < MAP_LUMP_COUNT) return 0;
    for (int i = 0; i < MAP_LUMP_COUNT; i++)
        if (strcmp(behind[i].name, map_lumps[i])) return 0;
    return left < BEHIND_LABEL - 1 || strcmp(behind[BEHIND_LABEL - 2].name, "BEHAVIOR");
}

const struct lump *last_lump(const struct scene *scene, const char *name) {
    for (int i = scene->lump_count - 1; i >= 0; i--)
        if (!strcmp(scene->lumps[i].name, name)) return &scene->lumps[i];
    return NULL;
}

void find_map(struct scene *scene, const char *name) {
    size_t length = strlen(name);
    memset(scene->map, 0, sizeof scene->map);
    for (size_t i = 0; i < length && i < sizeof scene->map - 1; i++) scene->map[i] = toupper((unsigned char)name[i]);
    const struct lump *label = last_lump(scene, scene->map);
    scene->label = label && is_map(scene, label - scene->lumps) ? (int)(label - scene->lumps) : -1;
}

struct scene scene_over(const char **wads, int count) {
    struct scene scene = {.wad_count = count, .label = -1};
    for (int i = 0; i < count; i++) {
        scene.wads[i] = wads[i];
        scene.data[i] = bytes_of(wads[i]);
        add_lumps(&scene, i);
    }
    return scene;
}

struct scene scene_of(const struct words *words) {
    const char *wads[MOST_WADS];
    struct scene scene = scene_over(wads, wads_of(words, wads));
    find_map(&scene, map_of(words));
    return scene;
}

const unsigned char *record_of(const struct scene *scene, int lump, unsigned number) {
    if (scene->label < 0 || lump < 0 || lump >= MAP_LUMP_COUNT) return NULL;
    const struct lump *found = &scene->lumps[scene->label + 1 + lump];
    return number < found->size / record_sizes[lump] ? found->bytes + record_sizes[lump] * number : NULL;
}
