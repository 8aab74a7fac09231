/* Why a run of the proved program ended as it did, in the sentences of tools/doomview_tools/explanations.py and refusals.py,
   whose tables are in built_in.c. Nothing here is proved. */
#include <stdio.h>
#include <stdlib.h>
#include <string.h>
#include "exe.h"

enum { MOST_NUMBERS = 8, NO_MAP = 601, OF_MAP_FIRST = 602, OF_MAP_LAST = 999, LINE_SIZE = 14, SIDE_OF_LINE = 4, BEHIND_MAP = 12 };
static const char *const parts_of_side[] = {"upper", "lower", "middle"};
static const int places_of_side[] = {4, 12, 20};

/* A refusal, of a call. */
struct refused {
    const struct words *words;
    struct scene scene;
    int code, count;
    uint64_t numbers[MOST_NUMBERS];
};

static const char *place_of(const struct scene *scene, int lump) { return scene->wads[scene->lumps[lump].wad]; }

static void put_lines_of_side(const struct scene *scene, unsigned side) {
    const char *between = "";
    const unsigned char *line;
    for (unsigned i = 0; (line = record_of(scene, LINEDEFS, i)); i++) {
        if (word_at(line + 10) != side && word_at(line + 12) != side) continue;
        put("%sline %u", between, i);
        between = " and ";
    }
    if (!*between) put("no line");
}

static void put_side(const struct scene *scene, unsigned number) {
    const unsigned char *side = record_of(scene, SIDEDEFS, number);
    char name[NAME_SIZE];
    put("side %u", number);
    if (!side) return;
    put(", of "), put_lines_of_side(scene, number);
    put(", in sector %u:", word_at(side + 28));
    for (int i = 0; i < 3; i++) clean_name(name, side + places_of_side[i]), put("%s %s %s", i ? "," : "", parts_of_side[i], name);
}

static void put_sector(const struct scene *scene, unsigned number) {
    const unsigned char *sector = record_of(scene, SECTORS, number);
    char floor[NAME_SIZE], ceiling[NAME_SIZE];
    put("sector %u", number);
    if (!sector) return;
    clean_name(floor, sector + 4), clean_name(ceiling, sector + 12);
    put(": floor %s, ceiling %s", floor, ceiling);
}

static void put_thing(const struct scene *scene, unsigned number) {
    const unsigned char *thing = record_of(scene, THINGS, number);
    put("thing %u", number);
    if (thing) put(": type %u at %d, %d", word_at(thing + 6), number_at(thing, 2), number_at(thing + 2, 2));
}

static unsigned count_of(const struct lump *list) { return list && list->size >= 4 ? (unsigned)number_at(list->bytes, 4) : 0; }

/* The name of a texture of a list, or an empty text. */
static void name_texture(char *name, const struct lump *list, unsigned number) {
    size_t entry = 4 + 4 * (size_t)number, at = entry + 4 <= list->size ? (unsigned)number_at(list->bytes + entry, 4) : list->size;
    name[0] = 0;
    if (at + 8 <= list->size) clean_name(name, list->bytes + at);
}

static void put_texture(const struct scene *scene, unsigned number) {
    static const char *const names[] = {"TEXTURE1", "TEXTURE2"};
    char name[NAME_SIZE];
    for (int i = 0; i < 2; i++) {
        const struct lump *list = last_lump(scene, names[i]);
        if (number < count_of(list)) {
            name_texture(name, list, number);
            put("texture %s (%s, number %u)", name, names[i], number);
            return;
        }
        number -= count_of(list);
    }
    put("a texture");
}

static void put_field(const struct refused *one) {
    unsigned lump = one->numbers[0], record = one->numbers[1], field = one->numbers[2];
    const unsigned char *seg = record_of(&one->scene, SEGS, record);
    if (one->count < 3 || lump >= MAP_LUMP_COUNT || field >= 14) return;
    put("%s record %u, %s", map_lumps[lump], record, fields[lump][field]);
    if (lump == SIDEDEFS) put(" ("), put_side(&one->scene, record), put(")");
    if (lump != SEGS || field != SIDE_OF_LINE || !seg) return;
    unsigned side = word_at(seg + 8);
    put(" (of line %u%s)", word_at(seg + 6), side == 0 ? ", which has no front side" : side == 1 ? ", which has no back side" : "");
}

static void put_part(const struct refused *one, const char *part, int length) {
    const struct scene *scene = &one->scene;
    unsigned number = one->numbers[0];
#define IS(name) (length == sizeof name - 1 && !memcmp(part, name, length))
    if (IS("number")) put("%I64u", one->numbers[0]);
    if (IS("second")) put("%I64u", one->numbers[1]);
    if (IS("wad") && number < (unsigned)scene->wad_count) put("%s", scene->wads[number]);
    if (IS("map lump") && number < MAP_LUMP_COUNT) put("%s", map_lumps[number]);
    if (IS("field")) put_field(one);
    if (IS("texture")) put_texture(scene, number);
    if (IS("thing")) put_thing(scene, number);
    if (IS("lump") && number < (unsigned)scene->lump_count) put("lump %s of %s", scene->lumps[number].name, place_of(scene, number));
    if (IS("side")) put_side(scene, number);
    if (IS("sector")) put_sector(scene, number);
#undef IS
}

static void put_names(const struct refused *one, const char *form) {
    for (const char *at = form; *at;) {
        const char *end = *at == '{' ? strchr(at, '}') : NULL;
        if (end) put_part(one, at + 1, end - at - 1), at = end + 1;
        else put("%c", *at++);
    }
}

/* The text of a row of a table that is no blank line, 0 for the header, and the number of its line; or NULL. */
static const char *row_of(const struct bytes *table, unsigned row, int *line) {
    const char *at = (const char *)table->at, *end = at + table->size;
    for (*line = 1; at < end; (*line)++) {
        const char *next = memchr(at, '\n', end - at);
        int is_blank = at == next || (*at == '\r' && at + 1 == next);
        if (!is_blank && !row--) return at;
        at = next ? next + 1 : end;
    }
    return NULL;
}

/* The option that names the table which a code is about, or NULL. */
static const char *table_option(int code) { return code / 100 < TABLE_COUNT ? table_options[code / 100] : NULL; }

/* Whether the first number of a code is the row of a table. */
static int is_of_row(int code) {
    int kind = code % 100;
    return table_option(code) && ((kind >= 3 && kind <= 6) || kind == 11 || kind == 12);
}

/* The row of a table, its column, and its line in the file. */
static void put_row(const struct refused *one) {
    int kind = one->code % 100, group = one->code / 100, line;
    const char *path = value_of(one->words, table_options[group]);
    put(": row %I64u under the header of %s", one->numbers[0], table_options[group]);
    for (int i = 0; i < column_count && (kind == 4 || kind == 5); i++)
        if (columns[i].group == group && columns[i].number == (int)one->numbers[1]) put(", %s (%s)", columns[i].name, columns[i].what);
    struct bytes table = path && kind <= 6 ? bytes_of(path) : (struct bytes){0};
    if (row_of(&table, one->numbers[0], &line)) put(", line %d of %s", line, path);
    free(table.at);
}

/* What a spreadsheet may have done to a table. */
static void say_odd_text(const char *path) {
    struct bytes table = bytes_of(path);
    const char *end = table.size ? memchr(table.at, '\n', table.size) : NULL, *head = (const char *)table.at;
    size_t length = end ? (size_t)(end - head) : table.size;
    int is_wide = length >= 2 && (!memcmp(head, "\xff\xfe", 2) || !memcmp(head, "\xfe\xff", 2) || memchr(head, 0, length));
    int has_comma = length && memchr(head, ',', length);
    if (is_wide) put("%s is in UTF-16; save it as UTF-8 or plain text.", path), end_sentence("explain: ");
    else if (length && !has_comma && (memchr(head, ';', length) || memchr(head, '\t', length)))
        put("%s has semicolons or tabs between its fields; export it with commas.", path), end_sentence("explain: ");
    free(table.at);
}

static void put_maps(const struct scene *scene) {
    int count = 0;
    for (int i = 0; i < scene->lump_count; i++) {
        if (!is_map(scene, i) || last_lump(scene, scene->lumps[i].name) != &scene->lumps[i]) continue;
        put(" %s", scene->lumps[i].name);
        count++;
    }
    if (!count) put(" none");
}

/* How many of some lumps have a name, or begin with it. */
static int count_named(const struct lump *lumps, int count, const char *name, size_t length) {
    int found = 0;
    for (int i = 0; i < count; i++) found += !strncmp(lumps[i].name, name, length);
    return found;
}

/* Whether of the lumps of a map those alone are missing that a builder of nodes makes. */
static int lacks_nodes(const struct lump *behind, int count) {
    int missing = 0;
    if (count < 2 || strcmp(behind[0].name, map_lumps[0]) || strcmp(behind[1].name, map_lumps[1])) return 0;
    for (int i = 0; i < MAP_LUMP_COUNT; i++) {
        if (count_named(behind, count < MAP_LUMP_COUNT ? count : MAP_LUMP_COUNT, map_lumps[i], NAME_SIZE)) continue;
        if (i < SEGS || i > NODES) return 0;
        missing++;
    }
    return missing > 0;
}

/* Why a label is that of no map here. */
static void put_why_no_map(const struct scene *scene, int label) {
    int left = scene->lump_count - label - 1, count = left < BEHIND_MAP ? left : BEHIND_MAP;
    const struct lump *behind = scene->lumps + label + 1;
    if (count && !strcmp(behind[0].name, "TEXTMAP")) put("is a UDMF map; save it in Doom format");
    else if (count_named(behind, count, "BEHAVIOR", NAME_SIZE)) put("is in Hexen format (it has a BEHAVIOR); save it in Doom format");
    else if (lacks_nodes(behind, count))
        put("has no nodes (SEGS, SSECTORS, NODES)%s; build them",
            count_named(behind, count, "GL_", 3) ? " (it has GL nodes alone, which are not read)" : "");
    else {
        put(count ? "is no map: behind it are" : "is no map: behind it are no lumps");
        for (int i = 0; i < count && i < MAP_LUMP_COUNT; i++) put("%s %s", i ? "," : "", behind[i].name);
    }
}

void put_no_map(const struct scene *scene) {
    const struct lump *label = last_lump(scene, scene->map);
    if (label) {
        put("%s of %s ", scene->map, scene->wads[label->wad]);
        put_why_no_map(scene, label - scene->lumps);
    } else {
        for (int i = 0; i < scene->wad_count; i++) put("%s%s", i ? " and " : "", scene->wads[i]);
        put(" %s no map %s; the maps there:", scene->wad_count > 1 ? "have" : "has", scene->map);
        put_maps(scene);
    }
}

static void put_numbers(const struct refused *one) {
    for (int i = 0; i < one->count; i++) put(i ? " %I64u" : ": %I64u", one->numbers[i]);
}

static void say_refusal(const struct refused *one, const struct refusal *known) {
    const char *option = table_option(one->code), *table = option ? value_of(one->words, option) : NULL;
    if (table && one->code % 100 != 1 && !built_in_named(table)) say_odd_text(table);
    put("%d: %s", one->code, known->wrong);
    if (*known->form && one->count) put(": "), put_names(one, known->form);
    else if (one->count && is_of_row(one->code)) put_row(one);
    else put_numbers(one);
    if (one->scene.label >= 0 && one->code >= OF_MAP_FIRST && one->code <= OF_MAP_LAST)
        put(" (map of %s)", place_of(&one->scene, one->scene.label));
    put(*known->mend ? ". To mend it: %s." : ".", known->mend);
    end_sentence("explain: ");
}

static void say_refused(const struct words *words, const char *numbers) {
    struct refused one = {.words = words, .scene = scene_of(words)};
    char *end;
    one.code = strtol(numbers, &end, 10);
    while (*end == ' ' && one.count < MOST_NUMBERS) one.numbers[one.count++] = _strtoui64(end, &end, 10);
    if (one.code == NO_MAP && one.scene.lump_count && one.scene.label < 0) {
        put("%d: ", one.code), put_no_map(&one.scene), put("."), end_sentence("explain: ");
        return;
    }
    for (int i = 0; i < refusal_count; i++)
        if (refusals[i].code == one.code) {
            say_refusal(&one, &refusals[i]);
            say_hints(&one.scene, one.code, one.numbers[0]);
        }
}

static void put_number(double value) {
    char text[64];
    int length = snprintf(text, sizeof text, "%.3f", value);
    while (text[length - 1] == '0') length--;
    put("%.*s", text[length - 1] == '.' ? length - 1 : length, text);
}

/* Where a view of the path is: as an editor shows it, and as its row. */
static void put_place(const struct words *words, unsigned view) {
    static const char *const heads[] = {" (x ", " y ", " eye ", " angle "};
    const char *path = value_of(words, "--path");
    int line;
    double numbers[4];
    struct bytes table = path ? bytes_of(path) : (struct bytes){0};
    if (table.size && add_bytes(&table, "", 1)) {
        const char *row = row_of(&table, view + 1, &line);
        if (row && sscanf(row, "%lf,%lf,%lf,%lf", numbers, numbers + 1, numbers + 2, numbers + 3) == 4) {
            for (int i = 0; i < 4; i++) put("%s", heads[i]), put_number(i < 3 ? numbers[i] / 65536 : numbers[i] * 360 / 4294967296.);
            put(", row %.0f,%.0f,%.0f,%.0f)", numbers[0], numbers[1], numbers[2], numbers[3]);
        }
    }
    free(table.at);
}

static void say_limit(const struct words *words, unsigned view, const char *what, int count) {
    put("view %u, row %u under the header of the path", view, view + 1);
    put_place(words, view);
    put(", needs more than %d %s, the limit. --%s N raises it; the job limits names all such views.", count - 1, what, what);
    end_sentence("explain: ");
}

/* Why a file cannot be read to its end, or NULL. */
static const char *read_error(const char *path) {
    static char rest[1 << 16];
    DWORD moved = 1, kind = GetFileAttributesW(wide_path(path) ? wide_path(path) : L"");
    if (built_in_named(path)) return NULL;
    if (kind != INVALID_FILE_ATTRIBUTES && kind & FILE_ATTRIBUTE_DIRECTORY) return "is no plain file (a folder or a pipe cannot be read)";
    HANDLE handle = opened(path, GENERIC_READ);
    DWORD last = handle == INVALID_HANDLE_VALUE ? GetLastError() : 0;
    for (int reads = 1; !last && reads && moved;)
        if (!(reads = ReadFile(handle, rest, sizeof rest, &moved, NULL))) last = GetLastError();
    if (handle != INVALID_HANDLE_VALUE) CloseHandle(handle);
    if (!last) return NULL;
    if (last == ERROR_FILE_NOT_FOUND) return "cannot be read: there is no such file";
    if (last == ERROR_PATH_NOT_FOUND || last == ERROR_INVALID_NAME) return "cannot be read: there is no such file or folder";
    return last == ERROR_ACCESS_DENIED ? "cannot be read: you may not read it"
         : last == ERROR_SHARING_VIOLATION ? "cannot be read: another program has it open" : "cannot be read to its end";
}

int say_unreadable_file(const char *head, const char *path) {
    const char *why = read_error(path);
    if (why) put("%s %s.", path, why), end_sentence(head);
    return why != NULL;
}

static int say_unreadable(const struct words *words) {
    const char *files[MOST_WADS + 4];
    int count = files_of(words, files), found = 0;
    for (int i = 0; i < count; i++) found += say_unreadable_file("explain: ", files[i]);
    return found;
}

static void say_read_fault(const struct words *words) {
    const char *files[MOST_WADS + 4];
    int count = files_of(words, files);
    if (say_unreadable(words)) return;
    put("a file could not be read to its end; look at the disk that has it:");
    for (int i = 0; i < count; i++) put("%s %s", i ? "," : "", files[i]);
    put("."), end_sentence("explain: ");
}

static void say_usage(const struct words *words) {
    const char *first = words->plain_count ? words->plain[0] : words->count ? words->all[0] : "";
    if (!words->plain_count || !job_named(first)) put("there is no job %s; doomview --help has them all", first), end_sentence("explain: ");
    else if (!say_wrong_words(words, 1)) put("doomview --help has the jobs and their words."), end_sentence("explain: ");
}

void explain(const struct words *words, const char *line) {
    unsigned view, count;
    char what[16];
    if (!strncmp(line, "refused ", 8)) say_refused(words, line + 8), say_unreadable(words);
    else if (sscanf(line, "limit view %u %15s %u", &view, what, &count) == 3) say_limit(words, view, what, count);
    else if (!strcmp(line, "usage")) say_usage(words);
    else if (!strcmp(line, "read fault")) say_read_fault(words);
    for (int i = 0; i < told_count; i++)
        if (!strncmp(line, told[i].line, strlen(told[i].line))) put("%s", told[i].sentence), end_sentence("explain: ");
    int is_cut = !strcmp(line, "read fault") || !strcmp(line, "write fault") || !strncmp(line, "zone full", 9);
    if (words->plain_count && !strcmp(words->plain[0], "trim") && !words->output && is_cut)
        put("what was written is no whole WAD; throw it away."), end_sentence("explain: ");
}
