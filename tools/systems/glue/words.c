/* The words of a call, as the proved program and the command doomview take them; and what is wrong with them. Nothing here
   is proved. */
#include <stdio.h>
#include <stdlib.h>
#include <string.h>
#include "exe.h"

/* Takes `-o FILE` out of the words of a job. */
static void take_output(struct words *words) {
    for (int i = 0; i < words->count && strcmp(words->all[i], "--"); i++) {
        if (strcmp(words->all[i], "-o")) continue;
        words->is_output_wrong |= words->output || i + 1 == words->count;
        if (words->is_output_wrong) return;
        words->output = words->all[i + 1];
        memmove(words->all + i, words->all + i + 2, (words->count - i - 2) * sizeof *words->all);
        words->count -= 2, i--;
    }
}

/* Takes the option at a place; how many words it has. */
static int take_option(struct words *words, int at) {
    char *word = words->all[at], *equal = strchr(word, '=');
    const char *next = at + 1 < words->count ? words->all[at + 1] : NULL;
    size_t length = equal ? (size_t)(equal - word) : strlen(word);
    words->given[words->given_count++] = (struct given){.name = word, .value = equal ? equal + 1 : next, .length = length};
    return equal ? 1 : 2;
}

struct words words_of(int count, char **all) {
    size_t room = count + 8; /* more words may be put before them */
    struct words words = {.count = count, .all = calloc(room, sizeof *all), .plain = calloc(room, sizeof *all),
                          .given = calloc(room, sizeof *words.given)};
    if (!words.all || !words.plain || !words.given) exit(OUT_OF_MEMORY);
    memcpy(words.all, all, count * sizeof *all);
    for (int i = 0; i < count; i++)
        if (job_named(all[i])) {
            take_output(&words);
            break;
        }
    int are_plain = 0;
    for (int at = 0; at < words.count;) {
        char *word = words.all[at];
        if (!are_plain && !strcmp(word, "--")) are_plain = 1, at++;
        else if (!are_plain && !strncmp(word, "--", 2)) at += take_option(&words, at);
        else words.plain[words.plain_count++] = word, at++;
    }
    return words;
}

static int is_named(const struct given *given, const char *option) {
    return strlen(option) == given->length && !strncmp(given->name, option, given->length);
}

int has_option(const struct words *words, const char *option) {
    for (int i = 0; i < words->given_count; i++)
        if (is_named(&words->given[i], option)) return 1;
    return 0;
}

const char *value_of(const struct words *words, const char *option) {
    for (int i = 0; i < words->given_count; i++)
        if (is_named(&words->given[i], option)) return words->given[i].value;
    return NULL;
}

static int is_over_level(const struct words *words) {
    const struct job *job = words->plain_count ? job_named(words->plain[0]) : NULL;
    return job && job->has_level;
}

const char *map_of(const struct words *words) { return is_over_level(words) && words->plain_count > 1 ? words->plain[1] : ""; }

int wads_of(const struct words *words, const char **wads) {
    int count = 0, is_flat = words->plain_count && !strcmp(words->plain[0], "flat");
    if (!is_over_level(words) && !is_flat) return 0;
    for (int i = 2; i < words->plain_count && count < MOST_WADS; i++) wads[count++] = words->plain[i];
    return count;
}

int files_of(const struct words *words, const char **files) {
    static const char *const named[] = {"--tables", "--things", "--path", "--weapon"};
    int count = 0;
    for (size_t i = 0; i < sizeof named / sizeof *named; i++)
        if (value_of(words, named[i])) files[count++] = value_of(words, named[i]);
    return count + wads_of(words, files + count);
}

/* Whether a text is a number of a range; the number, or -1. */
static int64_t number_of(const char *text) {
    size_t length = strlen(text);
    return length && length <= 10 && strspn(text, "0123456789") == length ? _strtoi64(text, NULL, 10) : -1;
}

static void put_options(int job) {
    for (int i = 0; i < option_count; i++)
        if (options[i].jobs >> job & 1) put(" %s", options[i].name);
}

/* Puts what is wrong with a value; whether something is. */
static int put_wrong_value(const struct option *option, const char *value) {
    if (option->choices[0]) {
        char padded[64];
        snprintf(padded, sizeof padded, " %s ", value);
        if (strstr(option->choices, padded)) return 0;
        return put("%s is %s, and not %s", option->name, option->choices_told, value), 1;
    }
    if (option->greatest < 0) return 0;
    int64_t number = number_of(value);
    if (number < option->least || number > option->greatest)
        return put("%s is a number from %I64d to %I64d, and not %s", option->name, option->least, option->greatest, value), 1;
    if (option->step && number % option->step)
        return put("%s is a multiple of %d, and %s is none", option->name, option->step, value), 1;
    return 0;
}

/* The option of a name that a job takes, or NULL. */
static const struct option *option_of(int job, const struct given *given) {
    for (int i = 0; i < option_count; i++)
        if (is_named(given, options[i].name) && options[i].jobs >> job & 1) return &options[i];
    return NULL;
}

/* Puts what is wrong with an option; whether something is. An option that comes twice is told of once. */
static int put_wrong_option(const struct words *words, int job, int place) {
    const struct given *given = &words->given[place];
    const struct option *option = option_of(job, given);
    int count = 0, length = given->length;
    for (int i = 0; i < words->given_count; i++) {
        if (words->given[i].length != given->length || strncmp(words->given[i].name, given->name, length)) continue;
        if (i < place) return 0;
        count++;
    }
    if (!option) {
        put("%s takes no %.*s", jobs[job].name, length, given->name);
        if (jobs[job].has_options) put("; its options are"), put_options(job);
        return 1;
    }
    if (count > 1) return put("%s may come only once", option->name), 1;
    if (!given->value) return put("%s needs a value behind it", option->name), 1;
    return put_wrong_value(option, given->value);
}

/* The same of the words of a job over a level, of which the number is that of a test. */
static int put_wrong_level(const struct words *words, const char *job, int test) {
    size_t length = words->plain_count > 1 ? strlen(words->plain[1]) : 1;
    switch (test) {
    case 0: return has_option(words, "--path") ? 0 : (put("%s needs --path too", job), 1);
    case 1: return words->plain_count >= 3 ? 0 : (put("%s needs a map and a WAD, as in %s MAP01 game.wad", job, job), 1);
    case 2: return words->plain_count - 2 <= MOST_WADS ? 0 : (put("%s takes at most %d WADs", job, MOST_WADS), 1);
    default: return length >= 1 && length <= 8 ? 0 : (put("the name of a map has 1 to 8 letters, and '%s' has not; the map "
                                                           "comes before its WADs", words->plain[1]), 1);
    }
}

int say_wrong_words(const struct words *words, int is_said) {
    const struct job *job = words->plain_count ? job_named(words->plain[0]) : NULL;
    int found = 0;
    for (int i = 0; job && i < words->given_count + (job->has_level ? 4 : 0); i++) {
        int is_option = i < words->given_count;
        if (is_option ? !put_wrong_option(words, job - jobs, i) : !put_wrong_level(words, job->name, i - words->given_count)) continue;
        found++;
        if (is_said) put("."), end_sentence("explain: ");
        else drop_sentence();
    }
    return found;
}
