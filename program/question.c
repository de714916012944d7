#include <stdio.h>
#include <string.h>
#include "line.h"
#include "message.h"
#include "question.h"

static const struct query *const queries[] = {&match_query, &byuid_query, &portacl_query};

const struct query *find_query(const char *name) {
    for (size_t i = 0; i < sizeof queries / sizeof *queries; i++) {
        if (!strcmp(queries[i]->name, name))
            return queries[i];
    }
    return NULL;
}

enum status reply_status(const struct reply *reply) {
    if (reply->number != GATE_ANSWERED)
        return STATUS_FAILED;
    switch (reply->word) {
    case GATE_GRANTED:
    case GATE_EXEMPT: return STATUS_YES;
    case GATE_ASK: return STATUS_ASK;
    case GATE_NOT_RULED: return STATUS_NOT_RULED;
    default: return STATUS_NO;
    }
}

void write_source(char *text, size_t room, const struct reply *reply) {
    unsigned long long line = reply->line;
    if (reply->section == GATE_PORTACL)
        snprintf(text, room, "portacl entry %llu", line);
    else if (reply->section)
        snprintf(text, room, "%s:%llu", reply->marked_path ? "marked" : section_file(reply->section), line);
    else
        snprintf(text, room, "%s", "");
}

/* A rule's text, its further physical lines set in. */
static void show_text(const uint8_t *bytes, size_t len) {
    printf("text      ");
    for (size_t i = 0; i < len; i++) {
        putchar(bytes[i]);
        if (bytes[i] == '\n')
            printf("          ");
    }
    putchar('\n');
}

static void show_rule(const struct station *station, const struct reply *reply) {
    const char *path = reply->marked_path ? reply->marked_path : section_path(station, reply->section);
    const struct text *text = reply->marked_path ? &reply->marked : section_text(station, reply->section);
    if (reply->section == GATE_PORTACL)
        printf("rule      %s entry %llu\n", path, (unsigned long long)reply->line);
    else
        printf("rule      %s:%llu\n", path, (unsigned long long)reply->line);
    show_text(text->bytes + reply->place, reply->len);
}

static void show_command(const struct station *station, const struct reply *reply) {
    static struct joined joined;
    struct line whole = {.place = reply->command_place, .len = reply->command_len};
    join_line(&joined, &station->sheet, &whole);
    struct span command = trimmed(&joined, (struct span){0, joined.len});
    printf("command   %.*s\n", (int)(command.to - command.from), (const char *)joined.bytes + command.from);
    printf("expanded  %.*s\n", (int)reply->expanded_len, (const char *)reply->expanded);
}

/* Whether the user's name matters, and if not what every user gets. */
static void show_name(const struct station *station, const struct reply *reply) {
    if (reply->name_word == GATE_NAME_MATTERS)
        printf("name      matters: not every user gets the same answer\n");
    else if (reply->name_section)
        printf("name      does not matter: every user is %s, by %s:%llu\n", gate_word_text(reply->name_word),
               section_path(station, reply->name_section), (unsigned long long)reply->name_line);
    else
        printf("name      does not matter: every user is %s, by no rule\n", gate_word_text(reply->name_word));
}

static void show_reply(const struct query *query, const struct station *station, const struct reply *reply) {
    printf("%s\n", gate_word_text(reply->word));
    if (reply->section)
        show_rule(station, reply);
    if (reply->command_len)
        show_command(station, reply);
    const char *why = query->why(reply);
    if (why)
        printf("why       %s\n", why);
    if (reply->name_word)
        show_name(station, reply);
    if (reply->counts)
        printf("looked at %llu element%s\n", (unsigned long long)reply->looked, reply->looked == 1 ? "" : "s");
}

enum status run_query(const struct query *query, const struct arguments *arguments) {
    static struct station station;
    static struct reply reply;
    struct question question;
    if (!query->read(&question, "gate", arguments->operand + 1, arguments) ||
        !read_sound_station(&station, arguments->operand[0], arguments->option[1]))
        return STATUS_FAILED;
    query->ask(&reply, &station, &question);
    if (reply.number == GATE_WRONG_INDEX)
        complain("gate", "%s: not the index of %s [%u]: gate index writes it", shown(question.index_path), shown(station.path), (unsigned)reply.number);
    else if (reply.number != GATE_ANSWERED)
        complain("gate", "refused: %s [%u]", gate_number_text(reply.number), (unsigned)reply.number);
    else if (!arguments->option[0])
        show_reply(query, &station, &reply);
    return reply_status(&reply);
}
