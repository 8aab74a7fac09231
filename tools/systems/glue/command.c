/* The command of doomview.exe: the words of the proved program, to which it adds as ./doomview does elsewhere. A job over a
   level that names no --tables or --things gets those that are built in; `-o FILE` writes the output to a file that is whole
   or not there; bytes go to no console; `--help` prints a page; sentences say why a job failed. Nothing here is proved. */
#include <stdio.h>
#include <stdlib.h>
#include <string.h>
#include "exe.h"

const struct built_in *built_in_named(const char *name) {
    if (path_file.bytes && !strcmp(name, path_file.name)) return &path_file;
    for (int i = 0; i < built_in_count; i++)
        if (!strcmp(built_ins[i].name, name)) return &built_ins[i];
    return NULL;
}

const struct job *job_named(const char *name) {
    for (int i = 0; i < job_count; i++)
        if (!strcmp(jobs[i].name, name)) return &jobs[i];
    return NULL;
}

static int is_help(const char *word) {
    return !strcmp(word, "--help") || !strcmp(word, "-h") || !strcmp(word, "/?") || !strcmp(word, "help");
}

static int is_other_tool(const char *word) {
    for (int i = 0; i < other_tool_count; i++)
        if (!strcmp(other_tools[i], word)) return 1;
    return 0;
}

/* Puts the files that are built in behind the name of the job, where a job over a level names no others. */
static struct words with_built_in(struct words words) {
    static const char *const own[][2] = {{"--tables", "<tables>"}, {"--things", "<things>"}};
    const struct job *job = words.plain_count ? job_named(words.plain[0]) : NULL;
    for (int i = 0; job && job->has_level && i < 2; i++) {
        int at = !strcmp(words.all[0], words.plain[0]);
        if (has_option(&words, own[i][0])) continue;
        memmove(words.all + at + 2, words.all + at, (words.count - at) * sizeof *words.all);
        words.all[at] = (char *)own[i][0], words.all[at + 1] = (char *)own[i][1];
        words.count += 2;
    }
    return words;
}

int run_program(struct words words) {
    struct words whole = with_built_in(words_of(words.count, words.all));
    char **given = calloc(whole.count + 2, sizeof *given);
    struct bytes said = {0};
    if (!given) return OUT_OF_MEMORY;
    given[0] = "doomview";
    memcpy(given + 1, whole.all, whole.count * sizeof *given);
    keep_stream(2, &said);
    int status = run_proved(whole.count + 1, given);
    if (!add_bytes(&said, "", 1)) return status;
    char *line = (char *)said.at;
    say(STD_ERROR_HANDLE, line);
    line[strcspn(line, "\n")] = 0;
    if (status && !strncmp(line, "doomview: ", 10)) explain(&words, line + 10);
    return status;
}

static int run_into(HANDLE handle, void *words) {
    set_output(handle);
    return run_program(*(struct words *)words);
}

static int run_job(struct words words) {
    const char *files[MOST_WADS + 4];
    const struct job *job = words.plain_count ? job_named(words.plain[0]) : NULL;
    if (words.is_output_wrong) return say(STD_ERROR_HANDLE, "doomview: -o comes once, with the name of a file behind it\n"), USAGE;
    if (words.output) {
        int status = check_output(words.output, files, files_of(&words, files));
        return status ? status : write_by(words.output, run_into, &words);
    }
    int is_made_text = job && words.plain_count > 1 && !strcmp(job->name, "make") &&
                       (!strcmp(words.plain[1], "path") || !strcmp(words.plain[1], "things"));
    if (job && job->writes_bytes && !is_made_text && is_console(STD_OUTPUT_HANDLE) && !say_wrong_words(&words, 0)) {
        put("what %s writes is no text, and the output is a console; name a file by -o FILE", job->name);
        return end_sentence("doomview: "), USAGE;
    }
    return run_program(words);
}

/* The page of the program, or of a job or of picture. */
static int help(const char *name) {
    const struct job *job = name ? job_named(name) : NULL;
    if (!name || job || !strcmp(name, "picture")) return say(STD_OUTPUT_HANDLE, job ? job->page : name ? picture_page : overview), 0;
    put(is_other_tool(name) ? "%s is a tool in Python, of the release, and not in this program; doomview --help has what is"
                            : "there is no job %s; doomview --help has them all", name);
    return end_sentence("doomview: "), USAGE;
}

/* Whether all words are files that are there, as where they were dropped on the icon; a job or a tool has no such name. */
static int are_dropped(int count, char **words) {
    for (int i = 0; i < count; i++) {
        wchar_t *wide = strpbrk(words[i], "\\/.") ? wide_path(words[i]) : NULL;
        if (!wide || GetFileAttributesW(wide) == INVALID_FILE_ATTRIBUTES) return 0;
    }
    return 1;
}

/* What is said where there are no words, or files alone: the program was started by its icon, mostly. */
static int welcome(int count, char **words) {
    say(STD_ERROR_HANDLE, count ? "doomview: a file alone says not what to do with it; this is what can be done\n\n" : "doomview: usage\n");
    say(STD_ERROR_HANDLE, overview);
    for (int i = 0; i < count; i++) {
        if (!is_wad_name(words[i])) continue;
        put("doomview picture \"%s\" picture.png", words[i]);
        end_sentence("\nThis draws the first map of that WAD:\n\n  ");
        break;
    }
    wait_for_key();
    return USAGE;
}

int run_command(int count, char **given) {
    char **words = given + 1;
    count--;
    if (count <= 0 || are_dropped(count, words)) return welcome(count > 0 ? count : 0, words);
    if (is_help(words[0])) {
        int status = help(count > 1 ? words[1] : NULL);
        if (count == 1) wait_for_key();
        return status;
    }
    if (!strcmp(words[0], "--version")) return say(STD_OUTPUT_HANDLE, version), 0;
    for (int i = 1; i < count; i++)
        if (is_help(words[i]) && strcmp(words[i], "help")) return help(words[0]);
    if (is_other_tool(words[0])) return help(words[0]);
    struct words all = words_of(count, words);
    return !strcmp(words[0], "picture") ? picture(all) : run_job(all);
}
