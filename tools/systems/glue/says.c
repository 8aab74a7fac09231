/* Text of doomview.exe for the user, in UTF-8. To a console it goes as UTF-16, so that it is right in any code page; to a
   file or a pipe as it is. Nothing here is proved. */
#include <stdarg.h>
#include <stdio.h>
#include <stdlib.h>
#include <string.h>
#include "exe.h"

enum { MOST_SENTENCE = 16384, MOST_PART = 4096 }; /* MOST_PART: UTF-16 that a console takes at a time */
static char sentence[MOST_SENTENCE];
static size_t length;

int is_console(DWORD stream) {
    DWORD mode;
    return GetConsoleMode(GetStdHandle(stream), &mode) != 0;
}

static void say_to_console(HANDLE handle, const char *text) {
    int count = MultiByteToWideChar(CP_UTF8, 0, text, -1, NULL, 0), at = 0;
    wchar_t *wide = malloc(count * sizeof *wide);
    if (!wide) return;
    MultiByteToWideChar(CP_UTF8, 0, text, -1, wide, count);
    for (DWORD moved = 1; at < count - 1 && moved; at += moved) {
        int part = count - 1 - at < MOST_PART ? count - 1 - at : MOST_PART;
        if (!WriteConsoleW(handle, wide + at, part, &moved, NULL)) break;
    }
    free(wide);
}

void say(DWORD stream, const char *text) {
    HANDLE handle = GetStdHandle(stream);
    size_t left = strlen(text);
    if (is_console(stream)) {
        say_to_console(handle, text);
        return;
    }
    for (DWORD moved; left && WriteFile(handle, text, left, &moved, NULL) && moved; left -= moved) text += moved;
}

void put(const char *form, ...) {
    va_list list;
    va_start(list, form);
    int more = vsnprintf(sentence + length, MOST_SENTENCE - length, form, list);
    va_end(list);
    length = more < 0 || length + more >= MOST_SENTENCE ? MOST_SENTENCE - 1 : length + more;
}

void end_sentence(const char *head) {
    sentence[length] = 0, length = 0;
    say(STD_ERROR_HANDLE, head);
    say(STD_ERROR_HANDLE, sentence);
    say(STD_ERROR_HANDLE, "\n");
}

void drop_sentence(void) { length = 0; }

void wait_for_key(void) {
    DWORD processes[2], count;
    HANDLE keys = GetStdHandle(STD_INPUT_HANDLE);
    INPUT_RECORD event;
    if (GetConsoleProcessList(processes, 2) != 1 || !is_console(STD_INPUT_HANDLE) || !is_console(STD_ERROR_HANDLE)) return;
    say(STD_ERROR_HANDLE, "\nPress a key to close this window.");
    FlushConsoleInputBuffer(keys);
    do
        if (!ReadConsoleInputW(keys, &event, 1, &count)) break;
    while (event.EventType != KEY_EVENT || !event.Event.KeyEvent.bKeyDown);
    say(STD_ERROR_HANDLE, "\n");
}
