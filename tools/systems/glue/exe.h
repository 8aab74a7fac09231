/* What the parts of doomview.exe share. */
#define WIN32_LEAN_AND_MEAN
#include <windows.h>
#include <stdint.h>

enum { USAGE = 1, REFUSED, READ_FAULT, WRITE_FAULT, LIMIT, ZONE_FULL, OUT_OF_MEMORY }; /* statuses of the proved program */
enum { MOST_WADS = 16, NAME_SIZE = 17, TABLE_COUNT = 11 }; /* NAME_SIZE: eight letters of Latin-1 as UTF-8, and the end */

/* windows.c: what the proved program asks of its system. */

/* A file that the program has in it, under a name that no file of Windows can have. */
struct built_in {
    const char *name;
    const unsigned char *bytes;
    uint64_t size;
};
const struct built_in *built_in_named(const char *name); /* NULL where there is none */

/* built_in.c, which targets.py makes of the tables and texts of the tools in Python. */
struct job {
    const char *name;
    int has_level, writes_bytes, has_options;
    const char *page;
};
struct option {
    const char *name;
    unsigned jobs;                      /* a bit for each job that takes it */
    int64_t least, greatest;            /* greatest: -1 where its value is no number */
    int step;
    const char *choices, *choices_told; /* each choice between blanks, and in words; empty where there are none */
};
struct refusal {
    int code;
    const char *form, *wrong, *mend;    /* form: how its numbers are named, with parts in braces */
};
struct column {
    int group, number;
    const char *name, *what;
};
struct told {
    const char *line, *sentence;
};
extern const struct job jobs[];
extern const struct option options[];
extern const struct refusal refusals[];
extern const struct column columns[];   /* of tables of rows */
extern const struct told told[];        /* sentences on lines without numbers */
extern const char *const map_lumps[], *const fields[][14], *const table_options[], *const other_tools[];
extern const struct built_in built_ins[];
extern const int built_in_count, job_count, option_count, refusal_count, column_count, told_count, other_tool_count;
extern const char picture_page[], overview[], version[], medusa[]; /* medusa: a sentence on such a texture */
const struct job *job_named(const char *name); /* NULL where there is none */

/* Bytes that grow. */
struct bytes {
    unsigned char *at;
    size_t size, room;
};
int add_bytes(struct bytes *to, const void *from, size_t count); /* 0 where there is no memory for them */

int run_command(int count, char **words);           /* runs the words of the command line; the status */
int run_proved(int count, char **words);            /* runs the proved program */
void set_output(HANDLE handle);                     /* the file that the program writes to */
void keep_stream(int number, struct bytes *to);     /* what the program writes to a stream goes into memory */
wchar_t *wide_path(const char *path);               /* a path as Windows takes it, or NULL */
char *utf8_of(const wchar_t *text);                 /* a text as UTF-8, in new memory, or NULL */
HANDLE opened(const char *path, DWORD access);      /* a file that is there, opened; or INVALID_HANDLE_VALUE */

/* says.c: text for the user. */
void say(DWORD stream, const char *text);  /* writes a text in UTF-8 to STD_OUTPUT_HANDLE or STD_ERROR_HANDLE */
void put(const char *form, ...) __attribute__((format(printf, 1, 2))); /* adds to the sentence that is being made */
void end_sentence(const char *head);       /* says the sentence on standard error, behind a head, and begins another one */
void drop_sentence(void);                  /* begins another one */
int is_console(DWORD stream);              /* whether a stream is a console */
void wait_for_key(void);                   /* waits where the console ends with this program, and would take its text along */

/* words.c: the words of a call. */
struct given {
    const char *name, *value; /* value: NULL where it is missing */
    size_t length;            /* of the name */
};
struct words {
    int count, plain_count, given_count;
    char **all, **plain;     /* plain: those that are no options */
    struct given *given;     /* options */
    const char *output;      /* what -o names, or NULL; it is not among `all` */
    int is_output_wrong;
};
struct words words_of(int count, char **words);
const char *value_of(const struct words *words, const char *option); /* its first value, or NULL */
int has_option(const struct words *words, const char *option);
const char *map_of(const struct words *words);   /* the name of the map, or an empty text */
int wads_of(const struct words *words, const char **wads);  /* how many WADs there are, MOST_WADS at the most, and which */
int files_of(const struct words *words, const char **files); /* the same of all files of the call; room for MOST_WADS + 4 */
int say_wrong_words(const struct words *words, int is_said); /* says what is wrong with the words of a job; how much it is */

/* outputs.c: files that are written. */
int check_output(const char *path, const char **files, int count); /* 0, or says that a file is read and gives a status */
int write_by(const char *path, int (*writes)(HANDLE, void *), void *what); /* writes a whole file, or none; the status */

/* wads.c: the WADs of a call, and the level that it names, as far as they can be read. */
struct lump {
    char name[NAME_SIZE];
    const unsigned char *bytes;
    size_t size;
    int wad;
};
struct scene {
    int wad_count;
    const char *wads[MOST_WADS];
    struct bytes data[MOST_WADS];
    struct lump *lumps;
    int lump_count, label;  /* label: the lump of the map, or -1 */
    char map[64];
};
struct bytes bytes_of(const char *path);       /* what is in a file; nothing where it cannot be read */
struct scene scene_of(const struct words *words);
struct scene scene_over(const char **wads, int count);
void find_map(struct scene *scene, const char *name);
int is_map(const struct scene *scene, int label);
int number_at(const unsigned char *bytes, int size);  /* 2 bytes with sign, or 4 */
unsigned word_at(const unsigned char *bytes);         /* 2 bytes without */
const unsigned char *record_of(const struct scene *scene, int lump, unsigned number); /* or NULL */
const struct lump *last_lump(const struct scene *scene, const char *name);             /* or NULL */
void clean_name(char *to, const unsigned char *from); /* eight bytes as a name in capitals, in NAME_SIZE bytes */
enum { THINGS, LINEDEFS, SIDEDEFS, VERTEXES, SEGS, SSECTORS, NODES, SECTORS, MAP_LUMP_COUNT };

/* hints.c: what more is known of some refusals. */
void say_hints(const struct scene *scene, int code, unsigned number);

/* sentences.c: why a run ended as it did. */
void explain(const struct words *words, const char *line);
void put_no_map(const struct scene *scene);                       /* puts why a scene has not its map */
int say_unreadable_file(const char *head, const char *path);      /* says why a file cannot be read to its end; whether that is so */

/* picture.c: one view as a PNG; png.c: the form. */
int picture(struct words words);
int is_wad_name(const char *word);
extern struct built_in path_file; /* the camera path of the picture */
struct bytes png_of(int width, int height, const unsigned char *rgb);

/* command.c */
int run_program(struct words words); /* runs a job with its output where it goes now, and says why it failed; the status */
