/* gate byuid: may an account bind a port, by the station's byuid text, which is the plain file, and by a marked file. */
#include <stdlib.h>
#include <string.h>
#include "line.h"
#include "message.h"
#include "question.h"
#include "reading.h"
#include "retired.h"

enum { QUIET, TABLES, MARKED };

static const struct option options[] = {{"quiet", 'q', NULL}, {"tables", 0, "FOLDER"}, {"marked", 0, "FILE"}, {NULL, 0, NULL}};

static const char help[] =
    "STATION is a sheet, a folder with the four texts, or - for a sheet on standard\n"
    "input. Prints the word, and the first line of byuid that grants. The byuid text of\n"
    "a station is the plain file, which grants ports 1 to 511 only; ports 512 to 1023\n"
    "are granted by the marked file only, the one with a ! before its name.\n"
    "\n"
    "UID           the account, as a number.\n"
    "ADDRESS,PORT  what it binds, as byuid writes it: 10.20.1.2,80 or ::1,80.\n"
    "\n"
    "  --tables FOLDER   the tables of a folder's rules; without it STATION/tables\n"
    "  --marked FILE   the account's marked file, asked where the station has no line\n"
    "  -q, --quiet     print nothing; the exit status tells\n"
    "\n"
    "Exit status: 0 granted, 1 no line, 4 not ruled, 2 an error or a refused station.\n"
    "\n"
    "For example:\n"
    "  gate byuid sample 432 10.20.1.2,80\n"
    "  gate byuid sample 432 10.20.1.2,600 --marked '/etc/authbind/byuid/!432'\n";

/* The last port that the plain file grants. */
#define PLAIN_LAST 511

/* Reads a marked file; the one read before is dropped. */
static bool read_marked(struct question *question, const char *where, const char *path) {
    static struct text text;
    free(text.bytes);
    text.bytes = NULL;
    if (!strcmp(path, "-")) {
        complain(where, "--marked: give the marked file by its name");
        return false;
    }
    if (!read_file(path, GATE_BYUID_LIMIT, &text))
        return false;
    if (text.len > GATE_BYUID_LIMIT) {
        complain(where, "%s: refused: %s [%d]", shown(path), gate_number_text(GATE_OVER_LIMIT), GATE_OVER_LIMIT);
        return false;
    }
    if (complain_of_retired(where, path, &text))
        return false;
    question->marked_path = path;
    question->marked = text;
    return true;
}

static bool read_byuid(struct question *question, const char *where, char const *const *operand, const struct arguments *arguments) {
    const char *comma = strchr(operand[1], ',');
    question->marked_path = NULL;
    if (!read_id(where, "uid", operand[0], &question->bind.uid))
        return false;
    if (!comma) {
        complain(where, "%s: not an address and a port: write ADDRESS,PORT with a comma between", shown(operand[1]));
        return false;
    }
    return read_known_address(where, operand[1], (size_t)(comma - operand[1]), &question->at) &&
           read_number(where, "port", comma + 1, 65535, &question->bind.port) &&
           (!arguments->option[MARKED] || read_marked(question, where, arguments->option[MARKED]));
}

static struct gate_answer ask_text(const uint8_t *text, size_t len, enum gate_mark mark, const struct question *question) {
    return gate_byuid_for(text, len, mark, &question->at, question->bind.port, question->bind.uid);
}

/* The first line that grants by itself. */
static void find_line(struct reply *reply, const struct text *text, enum gate_mark mark, const struct question *question) {
    struct line line;
    bool more = first_plain_line(text, &line);
    while (more && ask_text(text->bytes + line.place, line.len, mark, question).word != GATE_GRANTED)
        more = next_plain_line(text, &line);
    if (!more)
        return;
    reply->section = GATE_BYUID;
    reply->line = line.number;
    reply->place = line.place;
    reply->len = line.len;
}

static void ask_byuid(struct reply *reply, const struct station *station, const struct question *question) {
    struct gate_answer answer =
        gate_sheet_byuid_for(station->sheet.bytes, station->sheet.len, &question->at, question->bind.port, question->bind.uid);
    enum gate_mark mark = GATE_PLAIN_FILE;
    if (answer.word == GATE_NO_LINE && question->marked_path) {
        mark = GATE_MARKED_FILE;
        answer = ask_text(question->marked.bytes, question->marked.len, mark, question);
    }
    *reply = (struct reply){.number = answer.number, .word = answer.word};
    reply->wants_marked = answer.word == GATE_NO_LINE && !question->marked_path && question->bind.port > PLAIN_LAST;
    if (answer.word != GATE_GRANTED)
        return;
    if (mark == GATE_MARKED_FILE) {
        reply->marked_path = question->marked_path;
        reply->marked = question->marked;
    }
    find_line(reply, mark == GATE_MARKED_FILE ? &question->marked : section_text(station, GATE_BYUID), mark, question);
}

static const char *why_byuid(const struct reply *reply) {
    if (reply->wants_marked)
        return "the plain file grants ports 1 to 511; give the marked one, for 512 to 1023, with --marked FILE";
    return reply->word == GATE_NOT_RULED ? "byuid rules ports 1 to 1023, and every account but root (uid 0)" : NULL;
}

const struct query byuid_query = {"byuid", options, 2, 2, read_byuid, ask_byuid, why_byuid};

static enum status run(const struct arguments *arguments) {
    return run_query(&byuid_query, arguments);
}

const struct command byuid_command = {
    "byuid", "STATION UID ADDRESS,PORT [--marked FILE] [-q]", "may an account bind a port: by the byuid text of authbind", help, options, 3, 3, run};
