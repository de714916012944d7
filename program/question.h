/* What can be asked of a station: a verdict, a bind by byuid, a bind by portacl. Of the command line, or of a line of requests. */
#ifndef QUESTION_H
#define QUESTION_H

#include "arguments.h"
#include "command.h"
#include "station.h"

struct question {
    struct gate_request request; /* of match */
    uint32_t process;
    const char *index_path;      /* of match: the station's index, or NULL where none is given */
    struct text index;
    struct gate_host at;         /* of byuid; the rest is of both */
    struct gate_settings settings;
    uint32_t groups[GATE_GROUPS_LIMIT];
    struct gate_bind bind;
    const char *marked_path;     /* of byuid: the marked file, or NULL where none is given */
    struct text marked;
};

/* The rule, line or entry that decided: section 0 where there is none. */
struct reply {
    uint32_t number, word; /* of the answer */
    uint32_t section;
    uint64_t line;         /* of the rule, or of byuid; the entry of portacl */
    size_t place, len;     /* in the section's text: the line without its newline, or the entry */
    const char *marked_path; /* of byuid: the marked file where its text is the one that granted, else NULL */
    struct text marked;
    bool wants_marked;     /* of byuid: no file for this port was given */
    size_t command_place, command_len; /* in the sheet, raw */
    uint8_t expanded[GATE_EXPANSION_ROOM];
    size_t expanded_len;
    bool counts;           /* of match: how many elements were looked at is told */
    uint64_t looked;
    uint32_t name_word;    /* of match, where it asks: GATE_NAME_MATTERS, or the verdict that every user gets; else GATE_NO_WORD */
    uint32_t name_section; /* the rule of that verdict, or 0 where no rule decides */
    uint64_t name_line;
};

struct query {
    const char *name;
    const struct option *options; /* the first is quiet, the second tables */
    size_t station_options;       /* so many of them are for the command line alone, and not for a line of requests */
    size_t operands;              /* behind the station */
    bool (*read)(struct question *question, const char *where, char const *const *operand, const struct arguments *arguments);
    void (*ask)(struct reply *reply, const struct station *station, const struct question *question);
    const char *(*why)(const struct reply *reply); /* what an answer without a rule, or one that is no end, means; or NULL */
};

extern const struct query match_query, byuid_query, portacl_query;

/* The query of this name, or NULL. */
const struct query *find_query(const char *name);

/* Reads a station and a question, asks, and shows the answer: what match, byuid and portacl do. */
enum status run_query(const struct query *query, const struct arguments *arguments);

/* The exit status of an answer. */
enum status reply_status(const struct reply *reply);

/* Where an answer comes from: `hosts.allow:3`, `byuid:1`, `marked:1`, `portacl entry 2`; empty where no rule decided. */
void write_source(char *text, size_t room, const struct reply *reply);

#endif
