/* The functions that the kit defines in C for x86-64 alone, for Linux on another processor: what the kit's sources say of
   them in libc/src/heap.rt and os/src/c.rt. Nothing here is proved. */
#include <errno.h>
#include <stdint.h>
#include <stdlib.h>
#include <string.h>

extern char **environ;
static char **words;
static int word_count;

/* Whether there is memory, and where. */
struct tried {
    uint64_t is_there;
    void *place;
};

static struct tried tried(void *place) {
    static char nothing[16] __attribute__((aligned(16)));
    return (struct tried){place != NULL, place ? place : nothing};
}

struct tried rattle_alloc(uint64_t size, uint64_t align) { return tried(malloc(size ? size : align)); }

struct tried rattle_realloc(void *old, uint64_t kept, uint64_t size, uint64_t align) {
    (void)kept;
    return tried(realloc(old, size ? size : align));
}

void rattle_dealloc(void *old) { free(old); }

int rattle_errno(void) { return errno; }
void rattle_set_errno(int number) { errno = number; }

/* A text at the start of some bytes: its length, -1 where there is none, -2 where it does not fit. */
static int64_t put(const char *text, char *to, uint64_t room) {
    if (!text) return -1;
    uint64_t length = strlen(text), taken = length < room ? length : room;
    memcpy(to, text, taken);
    return length <= room ? (int64_t)length : -2;
}

__attribute__((constructor)) static void take_words(int count, char **given) { word_count = count, words = given; }

uint64_t rattle_arg_count(void) { return word_count; }
int64_t rattle_arg(uint64_t number, char *to, uint64_t room) {
    return put(number < (uint64_t)word_count ? words[number] : NULL, to, room);
}
int64_t rattle_env(const char *name, char *to, uint64_t room) { return put(getenv(name), to, room); }
int64_t rattle_env_at(uint64_t number, char *to, uint64_t room) {
    for (uint64_t i = 0; i < number && environ[i]; i++)
        if (!environ[i + 1]) return -1;
    return put(environ[number], to, room);
}
