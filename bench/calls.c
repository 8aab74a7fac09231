// Stands between a program, into which it is loaded by LD_PRELOAD, and the files of the C library. It writes a line for
// each call into the file CALLS_LOG: `open FILE PATH`, `read FILE PLACE COUNT`, `write FILE COUNT`, FILE being the number
// that the system gave, or below 0 where it failed.
#define _GNU_SOURCE
#include <fcntl.h>
#include <stdarg.h>
#include <stdio.h>
#include <stdlib.h>
#include <sys/syscall.h>
#include <unistd.h>

enum { LONGEST_LINE = 5000, FIRST_LOG = 900 };  // above every number that a program's own files have

static int log_file = -1;

__attribute__((constructor)) static void begin(void) {
    int file = syscall(SYS_openat, AT_FDCWD, getenv("CALLS_LOG"), O_CREAT | O_APPEND | O_WRONLY, 0600);
    log_file = fcntl(file, F_DUPFD_CLOEXEC, FIRST_LOG);
    close(file);
}

static void note(const char *format, ...) {
    char line[LONGEST_LINE];
    va_list parts;
    va_start(parts, format);
    int length = vsnprintf(line, sizeof line, format, parts);
    va_end(parts);
    if (length >= LONGEST_LINE || syscall(SYS_write, log_file, line, length) != length)
        abort();
}

static int opened(int folder, const char *path, int flags, mode_t mode) {
    int file = syscall(SYS_openat, folder, path, flags, mode);
    note("open %d %s\n", file, path);
    return file;
}

int open(const char *path, int flags, ...) {
    va_list more;
    va_start(more, flags);
    mode_t mode = flags & O_CREAT ? va_arg(more, mode_t) : 0;
    va_end(more);
    return opened(AT_FDCWD, path, flags, mode);
}

int openat(int folder, const char *path, int flags, ...) {
    va_list more;
    va_start(more, flags);
    mode_t mode = flags & O_CREAT ? va_arg(more, mode_t) : 0;
    va_end(more);
    return opened(folder, path, flags, mode);
}

ssize_t pread(int file, void *bytes, size_t count, off_t place) {
    note("read %d %ld %zu\n", file, (long)place, count);
    return syscall(SYS_pread64, file, bytes, count, place);
}

ssize_t read(int file, void *bytes, size_t count) {
    note("read %d %ld %zu\n", file, syscall(SYS_lseek, file, 0, SEEK_CUR), count);
    return syscall(SYS_read, file, bytes, count);
}

ssize_t write(int file, const void *bytes, size_t count) {
    note("write %d %zu\n", file, count);
    return syscall(SYS_write, file, bytes, count);
}

ssize_t __write(int file, const void *bytes, size_t count) {
    return write(file, bytes, count);
}
