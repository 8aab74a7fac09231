// Stands between a program, into which it is loaded by LD_PRELOAD, and the memory of the C library. It refuses one
// request: that of the number in REFUSE_NUMBER, counted from 1 on once main has begun. When it does, it makes the file
// REFUSE_MARK. When main has ended it writes into the file REFUSE_COUNTS how many blocks main took and did not give
// back, how many bytes these have, and the bytes of main's greatest request.
#define _GNU_SOURCE
#include <dlfcn.h>
#include <errno.h>
#include <fcntl.h>
#include <malloc.h>
#include <stdio.h>
#include <stdlib.h>
#include <unistd.h>

typedef int Main(int, char **, char **);
typedef int Start(Main *, int, char **, void (*)(void), void (*)(void), void (*)(void), void *);

void *__libc_malloc(size_t);
void *__libc_calloc(size_t, size_t);
void *__libc_realloc(void *, size_t);
void *__libc_memalign(size_t, size_t);
void __libc_free(void *);

static unsigned long left;  // requests up to the one that is refused, itself counted; at 0 none is
static long blocks, bytes;  // taken and not given back
static size_t greatest;
static int is_counting;
static Main *program;

static int is_refused(size_t size) {
    if (is_counting && size > greatest)
        greatest = size;
    if (left == 0 || --left != 0)
        return 0;
    close(open(getenv("REFUSE_MARK"), O_CREAT | O_WRONLY, 0600));
    errno = ENOMEM;
    return 1;
}

static void *taken(void *block) {
    if (is_counting && block) {
        blocks += 1;
        bytes += malloc_usable_size(block);
    }
    return block;
}

static void given_back(void *block, long size) {
    if (is_counting && block) {
        blocks -= 1;
        bytes -= size;
    }
}

void *malloc(size_t size) {
    return is_refused(size) ? NULL : taken(__libc_malloc(size));
}

void *calloc(size_t count, size_t size) {
    return is_refused(count * size) ? NULL : taken(__libc_calloc(count, size));
}

void *realloc(void *block, size_t size) {
    long before = malloc_usable_size(block);
    if (is_refused(size))
        return NULL;
    void *moved = __libc_realloc(block, size);
    if (moved || size == 0)
        given_back(block, before);
    return taken(moved);
}

void *memalign(size_t alignment, size_t size) {
    return is_refused(size) ? NULL : taken(__libc_memalign(alignment, size));
}

void *aligned_alloc(size_t alignment, size_t size) {
    return memalign(alignment, size);
}

int posix_memalign(void **block, size_t alignment, size_t size) {
    *block = memalign(alignment, size);
    return *block ? 0 : ENOMEM;
}

void free(void *block) {
    given_back(block, malloc_usable_size(block));
    __libc_free(block);
}

static void write_counts(const char *path) {
    char text[80];
    int length = snprintf(text, sizeof text, "%ld %ld %zu\n", blocks, bytes, greatest);
    int file = open(path, O_CREAT | O_TRUNC | O_WRONLY, 0600);
    if (write(file, text, length) != length)
        abort();
    close(file);
}

static int begin(int count, char **words, char **environment) {
    const char *number = getenv("REFUSE_NUMBER"), *path = getenv("REFUSE_COUNTS");
    left = number ? strtoul(number, NULL, 10) : 0;
    is_counting = 1;
    int status = program(count, words, environment);
    is_counting = 0;
    left = 0;
    if (path)
        write_counts(path);
    return status;
}

int __libc_start_main(Main *main, int count, char **words, void (*init)(void), void (*fini)(void),
                      void (*rtld_fini)(void), void *stack) {
    Start *start = (Start *)dlsym(RTLD_NEXT, "__libc_start_main");
    program = main;
    return start(begin, count, words, init, fini, rtld_fini, stack);
}
