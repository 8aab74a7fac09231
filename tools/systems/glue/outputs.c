/* Files that doomview.exe writes: each is whole or not there, and none is a file that is read. Nothing here is proved. */
#include <stdio.h>
#include <string.h>
#include <wchar.h>
#include "exe.h"

enum { MOST_PATH = 4096, MOST_TRIES = 1000 };

/* Which file a path names: the number of its disk, and its own there. Whether there is one. */
static int identity_of(const char *path, BY_HANDLE_FILE_INFORMATION *found) {
    HANDLE handle = built_in_named(path) ? INVALID_HANDLE_VALUE : opened(path, FILE_READ_ATTRIBUTES);
    if (handle == INVALID_HANDLE_VALUE) return 0;
    int is_known = GetFileInformationByHandle(handle, found) != 0;
    CloseHandle(handle);
    return is_known;
}

static int is_same(const BY_HANDLE_FILE_INFORMATION *one, const BY_HANDLE_FILE_INFORMATION *other) {
    return one->dwVolumeSerialNumber == other->dwVolumeSerialNumber && one->nFileIndexHigh == other->nFileIndexHigh &&
           one->nFileIndexLow == other->nFileIndexLow;
}

int check_output(const char *path, const char **files, int count) {
    BY_HANDLE_FILE_INFORMATION output, other;
    if (!identity_of(path, &output)) return 0;
    for (int i = 0; i < count; i++) {
        if (!identity_of(files[i], &other) || !is_same(&output, &other)) continue;
        if (!strcmp(path, files[i])) put("%s is a file that is read; name another one to write", path);
        else put("%s is the same file as %s, which is read; name another one to write", path, files[i]);
        return end_sentence("doomview: "), WRITE_FAULT;
    }
    return 0;
}

static int fails(const char *path) {
    DWORD last = GetLastError();
    const char *why = last == ERROR_PATH_NOT_FOUND ? "; there is no such folder"
                    : last == ERROR_ACCESS_DENIED  ? "; it is a folder, or you may not write it"
                    : last == ERROR_SHARING_VIOLATION ? "; another program has it open"
                    : last == ERROR_DISK_FULL ? "; the disk is full" : "";
    put("cannot write %s%s", path, why);
    return end_sentence("doomview: "), WRITE_FAULT;
}

/* A new file beside the one of a path, for its bytes until they are whole. */
static HANDLE new_part(const wchar_t *path, wchar_t *part) {
    HANDLE handle = INVALID_HANDLE_VALUE;
    for (int i = 0; i < MOST_TRIES && handle == INVALID_HANDLE_VALUE; i++) {
        swprintf(part, MOST_PATH, L"%ls.%lu-%d.part", path, (unsigned long)GetCurrentProcessId(), i);
        handle = CreateFileW(part, GENERIC_WRITE, 0, NULL, CREATE_NEW, FILE_ATTRIBUTE_NORMAL, NULL);
        if (handle == INVALID_HANDLE_VALUE && GetLastError() != ERROR_FILE_EXISTS) break;
    }
    return handle;
}

int write_by(const char *path, int (*writes)(HANDLE, void *), void *what) {
    static wchar_t target[MOST_PATH], part[MOST_PATH];
    wchar_t *wide = wide_path(path);
    if (!wide || wcslen(wide) > MOST_PATH - 64) return SetLastError(ERROR_PATH_NOT_FOUND), fails(path);
    wcscpy(target, wide);
    DWORD kind = GetFileAttributesW(target);
    if (kind != INVALID_FILE_ATTRIBUTES && kind & FILE_ATTRIBUTE_DIRECTORY) return SetLastError(ERROR_ACCESS_DENIED), fails(path);
    HANDLE handle = new_part(target, part);
    if (handle == INVALID_HANDLE_VALUE) return fails(path);
    int status = writes(handle, what);
    CloseHandle(handle);
    if (!status && MoveFileExW(part, target, MOVEFILE_REPLACE_EXISTING)) return 0;
    DWORD last = GetLastError();
    DeleteFileW(part);
    SetLastError(last);
    return status ? status : fails(path);
}
