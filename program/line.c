#include <ctype.h>
#include <string.h>
#include <strings.h>
#include "line.h"

static bool is_dropped_pair(const uint8_t *bytes, size_t len, size_t at) {
    return bytes[at] == '\\' && at + 1 < len && bytes[at + 1] == '\n';
}

bool next_line(const struct text *text, struct line *line) {
    size_t at = line->next_place;
    uint64_t number = line->next_number;
    if (at >= text->len)
        return false;
    *line = (struct line){.number = number, .place = at};
    while (at < text->len && text->bytes[at] != '\n') {
        bool pair = is_dropped_pair(text->bytes, text->len, at);
        number += pair;
        at += pair ? 2 : 1;
    }
    line->len = at - line->place;
    line->ended = at < text->len;
    line->next_number = number + 1;
    line->next_place = at + 1;
    return true;
}

bool first_line(const struct text *text, struct line *line) {
    *line = (struct line){.next_number = 1};
    return next_line(text, line);
}

bool next_plain_line(const struct text *text, struct line *line) {
    size_t at = line->next_place;
    if (at >= text->len)
        return false;
    const uint8_t *newline = memchr(text->bytes + at, '\n', text->len - at);
    size_t end = newline ? (size_t)(newline - text->bytes) : text->len;
    *line = (struct line){line->next_number, at, end - at, newline != NULL, line->next_number + 1, end + 1};
    return true;
}

bool first_plain_line(const struct text *text, struct line *line) {
    *line = (struct line){.next_number = 1};
    return next_plain_line(text, line);
}

void join_line(struct joined *joined, const struct text *text, const struct line *line) {
    const uint8_t *bytes = text->bytes + line->place;
    size_t at = 0;
    joined->len = 0;
    while (at < line->len) {
        bool pair = is_dropped_pair(bytes, line->len, at);
        if (!pair) {
            joined->bytes[joined->len] = bytes[at];
            joined->place[joined->len++] = line->place + at;
        }
        at += pair ? 2 : 1;
    }
    joined->place[joined->len] = line->place + line->len;
}

static bool is_blank(uint8_t byte) {
    return byte == ' ' || byte == '\t';
}

static bool parts_elements(uint8_t byte) {
    return is_blank(byte) || byte == ',';
}

/* The first byte of a span for which `such` is `wanted`, or its end. */
static size_t first_such(const struct joined *joined, struct span span, bool (*such)(uint8_t), bool wanted) {
    size_t at = span.from;
    while (at < span.to && such(joined->bytes[at]) != wanted)
        at++;
    return at;
}

struct span trimmed(const struct joined *joined, struct span span) {
    span.from = first_such(joined, span, is_blank, false);
    while (span.from < span.to && is_blank(joined->bytes[span.to - 1]))
        span.to--;
    return span;
}

/* The first separator at or behind `from`, which is outside brackets; else the line's end. */
static size_t separator(const struct joined *joined, size_t from) {
    bool inside = false;
    size_t at = from;
    while (at < joined->len && (inside || joined->bytes[at] != ':')) {
        inside = inside ? joined->bytes[at] != ']' : joined->bytes[at] == '[';
        at++;
    }
    return at;
}

static size_t behind(const struct joined *joined, size_t at) {
    return at < joined->len ? at + 1 : at;
}

bool read_rule(const struct joined *joined, struct rule *rule) {
    struct span all = trimmed(joined, (struct span){0, joined->len});
    if (all.from == all.to || joined->bytes[0] == '#')
        return false;
    size_t first = separator(joined, 0), clients = behind(joined, first), second = separator(joined, clients);
    rule->separators = (size_t)(first < joined->len) + (size_t)(second < joined->len);
    rule->daemons = (struct span){0, first};
    rule->clients = (struct span){clients, second};
    rule->command = trimmed(joined, (struct span){behind(joined, second), joined->len});
    return true;
}

bool next_word(const struct joined *joined, struct span list, struct span *word) {
    word->from = first_such(joined, (struct span){word->to, list.to}, parts_elements, false);
    word->to = first_such(joined, (struct span){word->from, list.to}, parts_elements, true);
    return word->from < word->to;
}

bool word_is(const struct joined *joined, struct span word, const char *text) {
    size_t len = strlen(text);
    return word.to - word.from == len && !strncasecmp((const char *)joined->bytes + word.from, text, len);
}

bool table_part(const struct joined *joined, struct span word, bool is_daemon, struct span *part) {
    const uint8_t *bytes = joined->bytes;
    const uint8_t *at = memchr(bytes + word.from + 1, '@', word.to - word.from - 1);
    *part = (struct span){at ? (size_t)(at - bytes) + 1 : word.from, word.to};
    return (at || !is_daemon) && names_table(bytes + part->from, part->to - part->from);
}

static bool is_address_byte(uint8_t byte) {
    return isxdigit(byte) || byte == ':' || byte == '.';
}

/* The bytes round a separator that an address may have, from behind a blank, a comma or an @. */
static bool address_bytes(const struct joined *joined, size_t least, size_t at, struct span *found) {
    *found = (struct span){at, first_such(joined, (struct span){at, joined->len}, is_address_byte, false)};
    while (found->from > least && is_address_byte(joined->bytes[found->from - 1]))
        found->from--;
    return found->from == least || strchr(" \t,@", joined->bytes[found->from - 1]);
}

static bool is_address(const struct joined *joined, struct span part) {
    struct gate_host host;
    return gate_host_read(&host, (const char *)joined->bytes + part.from, part.to - part.from) == GATE_ANSWERED;
}

/* Whether these are an address, with or without a last colon, which is then the separator behind it. */
static bool address_round(const struct joined *joined, size_t least, size_t at, struct span *found) {
    if (at == joined->len || !address_bytes(joined, least, at, found))
        return false;
    if (!is_address(joined, *found) && joined->bytes[found->to - 1] == ':')
        found->to--;
    return is_address(joined, *found);
}

bool bare_address(const struct joined *joined, const struct rule *rule, struct span *found) {
    bool server = memchr(joined->bytes, '@', rule->daemons.to) != NULL;
    return (server && address_round(joined, 0, rule->daemons.to, found)) || address_round(joined, rule->clients.from, rule->clients.to, found);
}
