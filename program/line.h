/* Lines of hosts.allow and hosts.deny, parted as the gate parts them: to show them, to mark places in them, to ask by a part of one. */
#ifndef LINE_H
#define LINE_H

#include "file.h"
#include "station.h"

/* A logical line. */
struct line {
    uint64_t number;   /* of its first physical line, from 1 */
    size_t place, len; /* in the text, without its ending newline */
    bool ended;
    uint64_t next_number;
    size_t next_place;
};

/* The first line, or false where the text is empty; the line after it, or false where it was the last. */
bool first_line(const struct text *text, struct line *line);
bool next_line(const struct text *text, struct line *line);

/* The same for physical lines, as byuid has them. */
bool first_plain_line(const struct text *text, struct line *line);
bool next_plain_line(const struct text *text, struct line *line);

/* A line with its backslashes before newlines and these newlines dropped, and where each byte of it, and its end, stand in the text. */
struct joined {
    size_t len;
    uint8_t bytes[TEXT_MOST + 1];
    size_t place[TEXT_MOST + 1];
};
void join_line(struct joined *joined, const struct text *text, const struct line *line);

/* A part of a joined line. */
struct span {
    size_t from, to;
};

/* A part without the blanks and tabs at its ends. */
struct span trimmed(const struct joined *joined, struct span part);

/* A rule: its separators, at most two, and its parts. A part behind a missing separator is empty, at the line's end. */
struct rule {
    size_t separators;
    struct span daemons, clients, command; /* the command is trimmed */
};

/* False for a comment and a blank line. */
bool read_rule(const struct joined *joined, struct rule *rule);

/* The next element or EXCEPT of a list: begins behind word, which is first {list.from, list.from}. */
bool next_word(const struct joined *joined, struct span list, struct span *word);
bool word_is(const struct joined *joined, struct span word, const char *text);

/* The part of an element that names a table: a client itself, or what follows an @. False where it names none. */
bool table_part(const struct joined *joined, struct span word, bool is_daemon, struct span *part);

/* An IPv6 address without brackets that a separator of the rule stands in, if there is one. */
bool bare_address(const struct joined *joined, const struct rule *rule, struct span *found);

#endif
