/* gate test: requests with the answers that are expected, asked of a station. */
#include <stdio.h>
#include <string.h>
#include "line.h"
#include "message.h"
#include "question.h"

enum { QUIET, TABLES, PRINT };

static const struct option options[] = {{"quiet", 'q', NULL}, {"tables", 0, "FOLDER"}, {"print", 'p', NULL}, {NULL, 0, NULL}};

static const char help[] =
    "STATION is a sheet, a folder with the four texts, or - for a sheet on standard\n"
    "input. REQUESTS is a file with a request and its expected answer on each line:\n"
    "the words of match, byuid or portacl without the station, =>, and the answer.\n"
    "Empty lines, and lines that begin with #, are passed over.\n"
    "\n"
    "  match sshd 10.20.30.40 --name van7.vans.example => granted hosts.allow:2\n"
    "  byuid 432 10.21.1.2,80 => no line\n"
    "  portacl 432 tcp:80 => granted portacl entry 1\n"
    "\n"
    "The answer is a word: granted, denied, ask, no line, not ruled or exempt. Behind\n"
    "it may stand where it comes from, or `no rule`; and behind that, of match, a colon\n"
    "and the command as it would be run, or a colon alone where there is none. What is\n"
    "left out is not compared. Each answer that differs is shown on standard error,\n"
    "as REQUESTS:LINE: message.\n"
    "\n"
    "  --tables FOLDER   the tables of a folder's rules; without it STATION/tables\n"
    "  -p, --print   compare nothing; print the requests with the answers they get\n"
    "  -q, --quiet   print nothing; the exit status tells\n"
    "\n"
    "Exit status: 0 all as expected, 1 not so, 2 an error or a refused station.\n"
    "\n"
    "For example:\n"
    "  gate test sample sample/requests\n";

#define REQUESTS_MOST 1048576
#define REQUEST_MOST 4096
#define WORDS_MOST 32
#define ANSWER_ROOM (GATE_EXPANSION_ROOM + 100)

struct run {
    const struct station *station;
    const char *path;
    bool print, quiet;
    size_t requests, different, errors;
};

/* A line of requests, parted. */
struct entry {
    char text[REQUEST_MOST]; /* with a zero behind each word */
    char *words[WORDS_MOST];
    size_t count;
    const char *expected; /* NULL where there is no => */
};

/* Parts a line into words, up to =>. False where there are too many. */
static bool part_words(struct entry *entry) {
    char *at = entry->text + strspn(entry->text, " \t");
    entry->count = 0;
    entry->expected = NULL;
    while (*at && !entry->expected) {
        char *end = at + strcspn(at, " \t"), *next = end + strspn(end, " \t");
        if (end - at == 2 && !memcmp(at, "=>", 2))
            entry->expected = next;
        else if (entry->count == WORDS_MOST)
            return false;
        else
            entry->words[entry->count++] = at;
        *end = 0;
        at = next;
    }
    return true;
}

static void trim_end(char *text) {
    size_t len = strlen(text);
    while (len && strchr(" \t", text[len - 1]))
        text[--len] = 0;
}

static bool begins_with_word(const char *answer) {
    static const uint32_t words[] = {GATE_GRANTED, GATE_DENIED, GATE_ASK, GATE_NO_LINE, GATE_NOT_RULED, GATE_EXEMPT};
    for (size_t i = 0; i < sizeof words / sizeof *words; i++) {
        size_t len = strlen(gate_word_text(words[i]));
        if (!strncmp(answer, gate_word_text(words[i]), len) && (!answer[len] || answer[len] == ' '))
            return true;
    }
    return false;
}

/* Whether an option is given that is for the command line alone. */
static bool has_station_option(const struct query *query, const struct arguments *arguments) {
    for (size_t i = 0; i < query->station_options; i++) {
        if (arguments->option[i])
            return true;
    }
    return false;
}

static bool read_question(const struct query **query, struct question *question, const char *where, const struct entry *entry) {
    struct arguments arguments;
    *query = find_query(entry->words[0]);
    if (!*query) {
        complain(where, "%s: not a request: it begins with match, byuid or portacl", shown(entry->words[0]));
        return false;
    }
    if (!read_arguments(&arguments, (*query)->options, where, entry->count - 1, entry->words + 1))
        return false;
    if (arguments.operands != (*query)->operands || has_station_option(*query, &arguments)) {
        complain(where, "%s: wrong arguments: as of gate %s --help, without the station, --tables, --index and -q", (*query)->name, (*query)->name);
        return false;
    }
    return (*query)->read(question, where, arguments.operand, &arguments);
}

/* The whole answer, and how long it is without the command, and the word alone. */
struct answer {
    char text[ANSWER_ROOM];
    size_t word_len, source_len;
};

static void write_answer(struct answer *answer, const struct query *query, const struct reply *reply) {
    char source[64];
    write_source(source, sizeof source, reply);
    if (query == &match_query && !reply->section)
        strcpy(source, "no rule");
    answer->word_len = (size_t)sprintf(answer->text, "%s", gate_word_text(reply->word));
    answer->source_len = answer->word_len;
    if (*source)
        answer->source_len += (size_t)sprintf(answer->text + answer->word_len, " %s", source);
    if (query == &match_query && reply->section && reply->word != GATE_ASK)
        sprintf(answer->text + answer->source_len, ":%s%.*s", reply->expanded_len ? " " : "", (int)reply->expanded_len,
                (const char *)reply->expanded);
}

/* What is left out is not compared. */
static bool is_expected(const struct answer *answer, const char *expected) {
    size_t len = strlen(expected);
    bool whole_part = len == answer->word_len || len == answer->source_len || len == strlen(answer->text);
    return whole_part && !strncmp(answer->text, expected, len);
}

static void write_words(FILE *out, const struct entry *entry) {
    for (size_t i = 0; i < entry->count; i++)
        fprintf(out, "%s%s", i ? " " : "", entry->words[i]);
}

static void compare(struct run *run, const char *where, const struct entry *entry, const struct answer *answer) {
    if (is_expected(answer, entry->expected))
        return;
    run->different++;
    if (run->quiet)
        return;
    fprintf(stderr, "%s: not as expected: ", where);
    write_words(stderr, entry);
    fprintf(stderr, "\n    expected  %s\n    answered  %s\n", entry->expected, answer->text);
}

static void print_answered(const struct entry *entry, const struct answer *answer) {
    write_words(stdout, entry);
    printf(" => %s\n", answer->text);
}

static bool answer_entry(struct run *run, const char *where, const char *request, const struct entry *entry) {
    static struct reply reply;
    static struct answer answer;
    struct question question;
    const struct query *query;
    if (!read_question(&query, &question, where, entry))
        return false;
    if (!run->print && (!entry->expected || !begins_with_word(entry->expected))) {
        complain(where, "%s: not an answer to expect: write => and granted, denied, ask, no line, not ruled or exempt",
                 entry->expected ? shown(entry->expected) : shown(request));
        return false;
    }
    query->ask(&reply, run->station, &question);
    write_answer(&answer, query, &reply);
    if (!run->print)
        compare(run, where, entry, &answer);
    else if (!run->quiet)
        print_answered(entry, &answer);
    return true;
}

/* A line that holds no request is printed as it is. */
static void pass_over(const struct run *run, const char *line) {
    if (run->print && !run->quiet)
        printf("%s\n", line);
}

/* A line as a string; false where it is none. */
static bool copy_line(char *out, const char *where, const uint8_t *bytes, size_t len) {
    if (len >= REQUEST_MOST || memchr(bytes, 0, len)) {
        complain(where, "not a request: it is over %d bytes, or holds a zero byte", REQUEST_MOST - 1);
        return false;
    }
    memcpy(out, bytes, len);
    out[len] = 0;
    trim_end(out);
    return true;
}

static bool answer_line(struct run *run, const char *where, const uint8_t *bytes, size_t len) {
    static char request[REQUEST_MOST];
    static struct entry entry;
    if (!copy_line(request, where, bytes, len))
        return false;
    strcpy(entry.text, request);
    if (!part_words(&entry)) {
        complain(where, "not a request: it has over %d words", WORDS_MOST);
        return false;
    }
    if (request[0] == '#' || (!entry.count && !entry.expected)) {
        pass_over(run, request);
        return true;
    }
    run->requests++;
    if (entry.count)
        return answer_entry(run, where, request, &entry);
    complain(where, "no request before =>");
    return false;
}

static void answer_lines(struct run *run, const struct text *requests) {
    struct line line;
    char where[PATH_ROOM + 32];
    for (bool more = first_plain_line(requests, &line); more; more = next_plain_line(requests, &line)) {
        snprintf(where, sizeof where, "%s:%llu", run->path, (unsigned long long)line.number);
        if (!answer_line(run, where, requests->bytes + line.place, line.len))
            run->errors++;
    }
}

static void show_summary(const struct run *run) {
    printf("%s: %zu %s, ", run->path, run->requests, plural(run->requests, "request", "requests"));
    if (run->different + run->errors == 0)
        printf("all as expected\n");
    else
        printf("%zu not as expected", run->different);
    if (run->errors)
        printf(", %zu not read", run->errors);
    if (run->different + run->errors)
        printf("\n");
}

static enum status finish(const struct run *run) {
    if (!run->requests && !run->errors) {
        complain("gate", "%s: holds no request", shown(run->path));
        return STATUS_FAILED;
    }
    if (!run->print && !run->quiet)
        show_summary(run);
    return run->errors ? STATUS_FAILED : run->different ? STATUS_NO : STATUS_YES;
}

static enum status run_test(const struct arguments *arguments) {
    static struct station station;
    struct run run = {.station = &station, .path = arguments->operand[1]};
    struct text requests;
    run.quiet = arguments->option[QUIET] != NULL;
    run.print = arguments->option[PRINT] != NULL;
    if (!strcmp(arguments->operand[0], "-") && !strcmp(run.path, "-")) {
        complain("gate", "-: the sheet and the requests can't both come from standard input");
        return STATUS_FAILED;
    }
    if (!read_file(run.path, REQUESTS_MOST, &requests) || !read_sound_station(&station, arguments->operand[0], arguments->option[TABLES]))
        return STATUS_FAILED;
    if (requests.len > REQUESTS_MOST) {
        complain("gate", "%s: over %d bytes: part it", shown(run.path), REQUESTS_MOST);
        return STATUS_FAILED;
    }
    answer_lines(&run, &requests);
    return finish(&run);
}

const struct command test_command = {
    "test", "STATION REQUESTS [--tables FOLDER] [-p] [-q]", "a file of requests with their expected answers", help, options, 2, 2, run_test};
