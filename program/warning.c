/* Warnings of hosts.allow and hosts.deny. */
#include <ctype.h>
#include <stdarg.h>
#include <stdio.h>
#include <string.h>
#include <strings.h>
#include "excerpt.h"
#include "fault.h"
#include "message.h"
#include "reading.h"
#include "warning.h"

/* A rule that is looked at, and the last line before it, if any, that leaves nothing over. */
struct scene {
    const struct station *station;
    uint32_t section;
    struct line line;
    struct joined joined;
    struct rule rule;
    uint32_t all_section; /* 0 where there is none */
    uint64_t all_line;
    bool told;            /* that this file's rules are out of reach */
    size_t warnings;
};

static void warn(struct scene *s, struct span part, const char *format, ...) LIKE_PRINTF(3, 4);

static void warn(struct scene *s, struct span part, const char *format, ...) {
    struct marks marks = {.count = 0};
    va_list values;
    va_start(values, format);
    fprintf(stderr, "%s:%llu: warning: ", section_path(s->station, s->section), (unsigned long long)s->line.number);
    vfprintf(stderr, format, values);
    fputc('\n', stderr);
    va_end(values);
    add_joined_mark(&marks, &s->joined, part);
    show_excerpt(section_text(s->station, s->section), &s->line, &marks);
    s->warnings++;
}

/* Words of hosts_options(5). Those that are also commands of a shell are meant as options where nothing or a number follows. */
static const struct {
    const char *word;
    bool is_command_too;
} hosts_options[] = {{"allow", false},   {"deny", false},   {"spawn", false},   {"twist", false}, {"severity", false}, {"keepalive", false},
                     {"linger", false},  {"rfc931", false}, {"banners", false}, {"nice", true},   {"setenv", false},   {"umask", true},
                     {"aclexec", false}, {"user", false},   {"group", false}};

static bool parts_option(uint8_t byte) {
    return byte == ' ' || byte == '\t' || byte == ':' || byte == '=';
}

/* Whether nothing but digits and what parts options stands there. */
static bool has_no_program(const struct joined *joined, struct span rest) {
    while (rest.from < rest.to && (parts_option(joined->bytes[rest.from]) || isdigit(joined->bytes[rest.from])))
        rest.from++;
    return rest.from == rest.to;
}

/* The command's first word. */
static struct span first_word(const struct joined *joined, struct span command) {
    struct span word = {command.from, command.from};
    while (word.to < command.to && !parts_option(joined->bytes[word.to]))
        word.to++;
    return word;
}

static void warn_of_option(struct scene *s) {
    struct span word = first_word(&s->joined, s->rule.command);
    for (size_t i = 0; i < sizeof hosts_options / sizeof *hosts_options; i++) {
        bool fits = word_is(&s->joined, word, hosts_options[i].word);
        if (fits && hosts_options[i].is_command_too)
            fits = has_no_program(&s->joined, (struct span){word.to, s->rule.command.to});
        if (fits)
            warn(s, word, "%s is a word of hosts_options(5), and no option here: the rule %s, and this is its command", hosts_options[i].word,
                 s->section == GATE_ALLOW ? "grants" : "denies");
    }
}

static void warn_of_colons(struct scene *s) {
    struct span found;
    if (bare_address(&s->joined, &s->rule, &found))
        warn(s, found, "an IPv6 address without brackets: the colon ends the list; write [%s]",
             shown_bytes(s->joined.bytes + found.from, found.to - found.from));
}

/* A mask as an address or by its length. */
static bool read_mask(const char *text, size_t len, uint32_t *mask) {
    struct gate_host host;
    uint32_t ones;
    if (read_decimal(text, len, 32, &ones)) {
        *mask = ones ? UINT32_MAX << (32 - ones) : 0;
        return true;
    }
    if (gate_host_read(&host, text, len))
        return false;
    *mask = (uint32_t)host.low;
    return true;
}

/* The half of an element that is a host pattern. */
static struct span pattern_of(struct scene *s, struct span word) {
    const uint8_t *text = s->joined.bytes + word.from, *at = memchr(text, '@', word.to - word.from);
    return (struct span){at ? word.from + (size_t)(at + 1 - text) : word.from, word.to};
}

#define MAPPED_WARNING "matches no address: ::ffff:n.n.n.n is held as IPv4; write %s/%u"

/* The IPv4 net, and the length of its mask, of [address] or [address]/length of addresses that begin with 80 zero bits and 16 ones: a
 * request has none, they are held as IPv4. Else NULL. */
static const char *mapped_net(const char *host, size_t len, uint32_t *ones) {
    const char *end = host + len, *closed = memchr(host, ']', len);
    struct gate_host net;
    uint32_t length = 128;
    uint8_t written[GATE_ADDRESS_ROOM];
    if (!closed || *host != '[' || gate_host_read(&net, host + 1, (size_t)(closed - host - 1)) ||
        (closed + 1 < end && (closed[1] != '/' || !read_decimal(closed + 2, (size_t)(end - closed - 2), 128, &length))))
        return NULL;
    if (net.high != 0 || net.low >> 32 != 0xffff || length < 96)
        return NULL;
    net.kind = GATE_IPV4;
    net.low &= length == 96 ? 0 : UINT32_MAX << (128 - length);
    *ones = length - 96;
    struct gate_written count = gate_host_write(written, sizeof written, &net);
    return shown_bytes(written, (size_t)count.count);
}

static void warn_of_mapped(struct scene *s, struct span word) {
    struct span host = pattern_of(s, word);
    uint32_t length;
    const char *net = mapped_net((const char *)s->joined.bytes + host.from, host.to - host.from, &length);
    if (net)
        warn(s, word, MAPPED_WARNING, net, length);
}

#define MASK_WARNING "matches no address: the net has bits outside its mask; the net of this mask is %s"

/* The net that net/mask should have, where a bit of net is outside mask; else NULL. */
static const char *masked_net(const char *host, size_t len) {
    const char *slash = memchr(host, '/', len);
    struct gate_host net;
    uint32_t mask;
    uint8_t written[GATE_ADDRESS_ROOM];
    if (!slash || gate_host_read(&net, host, (size_t)(slash - host)) || !read_mask(slash + 1, len - (size_t)(slash - host) - 1, &mask))
        return NULL;
    if (!(net.low & ~(uint64_t)mask))
        return NULL;
    net.low &= mask;
    struct gate_written count = gate_host_write(written, sizeof written, &net);
    return shown_bytes(written, (size_t)count.count);
}

static void warn_of_mask(struct scene *s, struct span word) {
    struct span host = pattern_of(s, word);
    const char *net = masked_net((const char *)s->joined.bytes + host.from, host.to - host.from);
    if (net)
        warn(s, word, MASK_WARNING, net);
}

static void warn_of_nets(struct scene *s, struct span list) {
    struct span word = {list.from, list.from};
    while (next_word(&s->joined, list, &word)) {
        warn_of_mask(s, word);
        warn_of_mapped(s, word);
    }
}

/* Whether a list matches everything and never asks: ALL before any element with @, and no EXCEPT. */
static bool matches_all(const struct joined *joined, struct span list) {
    struct span word = {list.from, list.from};
    bool all = false;
    while (next_word(joined, list, &word)) {
        if (word_is(joined, word, "EXCEPT") || (!all && memchr(joined->bytes + word.from, '@', word.to - word.from)))
            return false;
        all = all || word_is(joined, word, "ALL");
    }
    return all;
}

static void warn_of_reach(struct scene *s) {
    struct span whole = {s->rule.daemons.from, s->rule.clients.to};
    if (s->all_section && !s->told) {
        warn(s, whole, "never reached, nor any rule behind it: line %llu of %s matches every request", (unsigned long long)s->all_line,
             section_file(s->all_section));
        s->told = true;
    }
    if (!s->all_section && matches_all(&s->joined, s->rule.daemons) && matches_all(&s->joined, s->rule.clients)) {
        s->all_section = s->section;
        s->all_line = s->line.number;
    }
}

static void warn_of_line(struct scene *s) {
    const struct text *text = section_text(s->station, s->section);
    join_line(&s->joined, text, &s->line);
    if (!read_rule(&s->joined, &s->rule) || line_number(text, &s->line) != GATE_ANSWERED)
        return;
    warn_of_option(s);
    warn_of_colons(s);
    warn_of_nets(s, s->rule.daemons);
    warn_of_nets(s, s->rule.clients);
    warn_of_reach(s);
}

/* Whether a text was read, and is not over its limit. */
static bool is_within(const struct station *station, uint32_t section) {
    return section <= station->texts && section_text(station, section)->len <= section_limit(section);
}

static void warn_of_file(struct scene *s, uint32_t section) {
    const struct text *text = section_text(s->station, section);
    s->section = section;
    s->told = false;
    for (bool more = first_line(text, &s->line); more; more = next_line(text, &s->line))
        warn_of_line(s);
}

/* Tables */

static void mark_table(const struct tables *tables, size_t place, bool *used, size_t most) {
    size_t from = 0, to = 0;
    if (place == NO_TABLE || place >= most || used[place])
        return;
    used[place] = true;
    const struct text *text = &tables->table[place].text;
    while (next_pattern(text, &from, &to))
        mark_table(tables, find_named(text->bytes + from, to - from), used, most);
}

static void mark_list(const struct station *station, const struct joined *joined, struct span list, bool is_daemon, bool *used, size_t most) {
    struct span word = {list.from, list.from}, part;
    while (next_word(joined, list, &word)) {
        if (table_part(joined, word, is_daemon, &part))
            mark_table(&station->tables, find_named(joined->bytes + part.from, part.to - part.from), used, most);
    }
}

void mark_used_tables(const struct station *station, bool *used, size_t most) {
    static struct joined joined;
    struct line line;
    struct rule rule;
    for (uint32_t section = GATE_ALLOW; section <= GATE_DENY; section++) {
        const struct text *text = section_text(station, section);
        for (bool more = is_within(station, section) && first_line(text, &line); more; more = next_line(text, &line)) {
            join_line(&joined, text, &line);
            if (!read_rule(&joined, &rule))
                continue;
            mark_list(station, &joined, rule.daemons, true, used, most);
            mark_list(station, &joined, rule.clients, false, used, most);
        }
    }
}

/* Only where no other station can have the table. */
static size_t warn_of_unused(const struct station *station) {
    bool used[GATE_TABLES_COUNT] = {false};
    size_t warnings = 0;
    mark_used_tables(station, used, GATE_TABLES_COUNT);
    for (size_t i = 0; i < station->tables.count && i < GATE_TABLES_COUNT; i++) {
        if (used[i])
            continue;
        fprintf(stderr, "%s: warning: no rule leads to this table\n", table_path(station, i));
        warnings++;
    }
    return warnings;
}

static size_t warn_of_table_line(const struct station *station, size_t place, const struct line *line) {
    const struct text *text = &station->tables.table[place].text;
    struct text part = {text->bytes + line->place, line->len};
    size_t from = 0, to = 0, warnings = 0;
    while (next_pattern(&part, &from, &to)) {
        uint32_t length;
        const char *pattern = (const char *)part.bytes + from, *net = masked_net(pattern, to - from);
        const char *mapped = net ? NULL : mapped_net(pattern, to - from, &length);
        struct marks marks = {.count = 0};
        if (!net && !mapped)
            continue;
        fprintf(stderr, "%s:%llu: warning: ", table_path(station, place), (unsigned long long)line->number);
        if (net)
            fprintf(stderr, MASK_WARNING "\n", net);
        else
            fprintf(stderr, MAPPED_WARNING "\n", mapped, length);
        add_mark(&marks, line->place + from, line->place + to);
        show_excerpt(text, line, &marks);
        warnings++;
    }
    return warnings;
}

size_t show_table_warnings(const struct station *station) {
    size_t warnings = 0;
    for (size_t i = 0; i < station->tables.count && i < GATE_TABLES_COUNT; i++) {
        const struct text *text = &station->tables.table[i].text;
        struct line line;
        for (bool more = first_plain_line(text, &line); more; more = next_plain_line(text, &line))
            warnings += warn_of_table_line(station, i, &line);
    }
    return warnings + (station->has_own_tables ? warn_of_unused(station) : 0);
}

size_t show_warnings(const struct station *station) {
    static struct scene scene;
    scene = (struct scene){.station = station};
    for (uint32_t section = GATE_ALLOW; section <= GATE_DENY; section++) {
        if (is_within(station, section))
            warn_of_file(&scene, section);
    }
    return scene.warnings + (is_within(station, GATE_BYUID) ? show_byuid_warnings(station) : 0);
}
