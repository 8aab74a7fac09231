/* What the proved program asks of its system, on Windows: words, files, streams, memory. The names are the module's with
   `port_` before them (ir.py). Only kernel32 and the C run-time that the compiler brings are called. Nothing here is proved. */
#include <cpuid.h>
#include <stdlib.h>
#include <string.h>
#include "exe.h"

enum { OPEN_MOST = 64, PATH_MOST = 4096, MOVE_MOST = 1 << 30 };
enum { NONE = 2, OTHER = 5, BAD_NUMBER = 9, BROKEN_PIPE = 32 }; /* Linux's numbers of errors */
enum { START, HERE, END };                                      /* ways of a seek, of both systems */

/* An open file: of the system, or of bytes in this program, which are read or kept. */
struct file {
    HANDLE handle;
    const struct built_in *built_in;
    struct bytes *kept;
    uint64_t at; /* of a built-in file */
    int is_open;
};
static struct file files[OPEN_MOST];
static int error;
static char **words;
static int word_count;

extern int proved_main(void);

int port_rattle_errno(void) { return error; }
void port_rattle_set_errno(int number) { error = number; }

static int64_t fails(int number) {
    error = number;
    return -1;
}

static int64_t fails_by_system(void) {
    DWORD last = GetLastError();
    int pipe = last == ERROR_BROKEN_PIPE || last == ERROR_NO_DATA;
    int none = last == ERROR_FILE_NOT_FOUND || last == ERROR_PATH_NOT_FOUND;
    return fails(pipe ? BROKEN_PIPE : none ? NONE : OTHER);
}

static struct file *known(int number) {
    return number >= 0 && number < OPEN_MOST && files[number].is_open ? &files[number] : NULL;
}

static size_t put_letter(unsigned char *to, uint32_t letter) {
    if (letter < 0x80) return to[0] = letter, 1;
    if (letter < 0x800) return to[0] = 0xC0 | letter >> 6, to[1] = 0x80 | (letter & 63), 2;
    if (letter < 0x10000)
        return to[0] = 0xE0 | letter >> 12, to[1] = 0x80 | (letter >> 6 & 63), to[2] = 0x80 | (letter & 63), 3;
    to[0] = 0xF0 | letter >> 18, to[1] = 0x80 | (letter >> 12 & 63);
    return to[2] = 0x80 | (letter >> 6 & 63), to[3] = 0x80 | (letter & 63), 4;
}

/* Words: UTF-16 of the command line as UTF-8. Half a pair of surrogates becomes three bytes that are no UTF-8, so that the
   program refuses the word, as it refuses such bytes elsewhere. */
char *utf8_of(const wchar_t *text) {
    size_t length = wcslen(text), at = 0;
    unsigned char *bytes = malloc(3 * length + 1);
    if (!bytes) return NULL;
    for (size_t i = 0; i < length; i++) {
        uint32_t letter = text[i];
        if (letter >= 0xD800 && letter < 0xDC00 && text[i + 1] >= 0xDC00 && text[i + 1] < 0xE000)
            letter = 0x10000 + ((letter - 0xD800) << 10) + (text[++i] - 0xDC00);
        at += put_letter(bytes + at, letter);
    }
    bytes[at] = 0;
    return (char *)bytes;
}

uint64_t port_rattle_arg_count(void) { return word_count; }

int64_t port_rattle_arg(uint64_t number, char *to, uint64_t room) {
    if (!words || number >= (uint64_t)word_count || !words[number]) return -1;
    uint64_t length = strlen(words[number]), taken = length < room ? length : room;
    memcpy(to, words[number], taken);
    return length <= room ? (int64_t)length : -2;
}

/* The module can ask for the environment, and makes nothing of it here. */
int64_t port_rattle_env(const char *name, char *to, uint64_t room) { (void)name, (void)to, (void)room; return -1; }
int64_t port_rattle_env_at(uint64_t number, char *to, uint64_t room) { (void)number, (void)to, (void)room; return -1; }

wchar_t *wide_path(const char *path) {
    static wchar_t wide[PATH_MOST];
    return MultiByteToWideChar(CP_UTF8, MB_ERR_INVALID_CHARS, path, -1, wide, PATH_MOST) ? wide : NULL;
}

HANDLE opened(const char *path, DWORD access) {
    wchar_t *wide = wide_path(path);
    DWORD share = FILE_SHARE_READ | FILE_SHARE_WRITE | FILE_SHARE_DELETE;
    return wide ? CreateFileW(wide, access, share, NULL, OPEN_EXISTING, FILE_ATTRIBUTE_NORMAL, NULL) : INVALID_HANDLE_VALUE;
}

int add_bytes(struct bytes *to, const void *from, size_t count) {
    if (to->size + count > to->room) {
        size_t room = 2 * to->room + count + 256;
        unsigned char *at = realloc(to->at, room);
        if (!at) return 0;
        to->at = at, to->room = room;
    }
    memcpy(to->at + to->size, from, count);
    to->size += count;
    return 1;
}

/* Files: the module opens to read alone. */
int port_open(const char *path, int flags, ...) {
    int number = 3;
    if (flags & 3) return fails(BAD_NUMBER);
    while (number < OPEN_MOST && files[number].is_open) number++;
    if (number == OPEN_MOST) return fails(BAD_NUMBER);
    struct file file = {.built_in = built_in_named(path), .is_open = 1};
    if (!file.built_in) {
        if (!wide_path(path)) return fails(NONE);
        file.handle = opened(path, GENERIC_READ);
        if (file.handle == INVALID_HANDLE_VALUE) return fails_by_system();
    }
    files[number] = file;
    return number;
}

int port_close(int number) {
    struct file *file = known(number);
    if (!file) return fails(BAD_NUMBER);
    file->is_open = 0;
    return file->built_in || CloseHandle(file->handle) ? 0 : fails_by_system();
}

static int64_t read_built_in(struct file *file, void *to, uint64_t count) {
    uint64_t left = file->at < file->built_in->size ? file->built_in->size - file->at : 0, taken = count < left ? count : left;
    memcpy(to, file->built_in->bytes + file->at, taken);
    file->at += taken;
    return taken;
}

int64_t port_read(int number, void *to, uint64_t count) {
    DWORD moved;
    struct file *file = known(number);
    if (!file) return fails(BAD_NUMBER);
    if (file->built_in) return read_built_in(file, to, count);
    if (ReadFile(file->handle, to, count < MOVE_MOST ? count : MOVE_MOST, &moved, NULL)) return moved;
    return GetLastError() == ERROR_BROKEN_PIPE ? 0 : fails_by_system();
}

int64_t port_write(int number, const void *from, uint64_t count) {
    DWORD moved;
    struct file *file = known(number);
    if (!file || file->built_in) return fails(BAD_NUMBER);
    if (file->kept) return add_bytes(file->kept, from, count) ? (int64_t)count : fails(OTHER);
    if (WriteFile(file->handle, from, count < MOVE_MOST ? count : MOVE_MOST, &moved, NULL)) return moved;
    return fails_by_system();
}

int64_t port___write(int number, const void *from, uint64_t count) { return port_write(number, from, count); }

int64_t port_lseek(int number, int64_t offset, int way) {
    LARGE_INTEGER to = {.QuadPart = offset}, at;
    struct file *file = known(number);
    if (!file) return fails(BAD_NUMBER);
    if (!file->built_in) return SetFilePointerEx(file->handle, to, &at, way) ? at.QuadPart : fails_by_system();
    file->at = offset + (way == HERE ? file->at : way == END ? file->built_in->size : 0);
    return file->at;
}

/* Linux's struct statx: the places that the program reads. */
int port_statx(int number, const char *path, int flags, unsigned mask, unsigned char *found) {
    LARGE_INTEGER size;
    unsigned filled = 0x203; /* type, mode, size */
    unsigned short mode = 0100444;
    struct file *file = known(number);
    (void)flags, (void)mask;
    if (path[0] || !file) return fails(BAD_NUMBER);
    if (file->built_in) size.QuadPart = file->built_in->size;
    else if (!GetFileSizeEx(file->handle, &size)) return fails_by_system();
    memset(found, 0, 256);
    memcpy(found, &filled, 4);
    memcpy(found + 28, &mode, 2);
    memcpy(found + 40, &size.QuadPart, 8);
    return 0;
}

int port___xpg_strerror_r(int number, char *to, uint64_t room) {
    (void)number;
    if (room) to[0] = 0;
    return 0;
}

/* Windows has no SIGPIPE: a write to a closed pipe fails. */
int64_t port___sysv_signal(int signal, int64_t action) { (void)signal, (void)action; return 0; }

/* glibc's struct of a leaf: four registers as cpuid gives them, and those that are active. */
const void *port___x86_get_cpuid_feature_leaf(unsigned leaf) {
    static unsigned both[8];
    memset(both, 0, sizeof both);
    if (leaf == 0) __get_cpuid(1, both, both + 1, both + 2, both + 3);
    if (leaf == 2) __get_cpuid(0x80000001, both, both + 1, both + 2, both + 3);
    memcpy(both + 4, both, 16);
    return both;
}

void *port_alloc(uint64_t bytes) { return malloc(bytes); }
void *port_realloc(void *old, uint64_t bytes) { return realloc(old, bytes); }
void port_free(void *old) { free(old); }

int run_proved(int count, char **given) {
    word_count = count, words = given;
    return proved_main();
}

void set_output(HANDLE handle) { files[1].handle = handle, files[1].is_open = 1; }

void keep_stream(int number, struct bytes *to) { files[number].kept = to, files[number].is_open = 1; }

int _dowildcard = 0; /* words stay as they are: the C run-time of MinGW would look for files behind a * */

int wmain(int count, wchar_t **wide) {
    static const DWORD streams[3] = {STD_INPUT_HANDLE, STD_OUTPUT_HANDLE, STD_ERROR_HANDLE};
    char **given = calloc(count + 1, sizeof *given);
    for (int i = 0; given && i < count; i++) given[i] = utf8_of(wide[i]);
    for (int i = 0; i < 3; i++) {
        files[i].handle = GetStdHandle(streams[i]);
        files[i].is_open = files[i].handle && files[i].handle != INVALID_HANDLE_VALUE;
    }
    return run_command(given ? count : 0, given);
}
