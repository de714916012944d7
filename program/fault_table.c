/* Faults of tables, and of rules that name them: 15, 16 and 17. */
#include <stdio.h>
#include <string.h>
#include "excerpt.h"
#include "fault.h"
#include "hint.h"
#include "message.h"

/* How deep a rule may lead. */
#define DEEPEST 4

/* Rules */

static bool is_fault(const struct joined *joined, struct span part, uint32_t number) {
    size_t place = find_named(joined->bytes + part.from, part.to - part.from);
    return number == GATE_TABLE_NAME ? place == NO_TABLE : place != NO_TABLE && leads_past(place, DEEPEST);
}

/* A line, and the parts of it that are at fault. */
struct naming {
    struct joined joined;
    struct span part[MARKS_MOST];
    struct marks marks;
};

static void find_in_list(struct naming *naming, struct span list, bool is_daemon, uint32_t number) {
    struct span word = {list.from, list.from}, part;
    while (next_word(&naming->joined, list, &word)) {
        if (!table_part(&naming->joined, word, is_daemon, &part) || !is_fault(&naming->joined, part, number))
            continue;
        if (naming->marks.count < MARKS_MOST)
            naming->part[naming->marks.count] = part;
        add_joined_mark(&naming->marks, &naming->joined, part);
    }
}

static bool find_in_rule(struct naming *naming, uint32_t number) {
    struct rule rule;
    naming->marks.count = 0;
    if (!read_rule(&naming->joined, &rule))
        return false;
    find_in_list(naming, rule.daemons, true, number);
    find_in_list(naming, rule.clients, false, number);
    return naming->marks.count > 0;
}

/* Where to put a table that is missing. */
static void show_missing_hint(const struct station *station, const char *name) {
    if (!station->is_folder)
        fprintf(stderr, "      = there is no table %s in this sheet\n", name);
    else if (!station->tables_path)
        fprintf(stderr, "      = there is no table %s: this station has no folder of tables; give it with --tables FOLDER\n", name);
    else
        fprintf(stderr, "      = there is no table %s: name one that is there, or write its hosts into %s/%s\n", name, station->tables_path, name);
}

/* The first table that a table names and that leads past what is left. */
static size_t next_of_chain(const struct tables *tables, size_t place, size_t depth) {
    const struct text *text = &tables->table[place].text;
    size_t from = 0, to = 0;
    while (next_pattern(text, &from, &to)) {
        size_t named = find_named(text->bytes + from, to - from);
        if (named != NO_TABLE && leads_past(named, depth))
            return named;
    }
    return NO_TABLE;
}

static void show_chain(const struct station *station, size_t place) {
    fprintf(stderr, "      =");
    for (size_t depth = DEEPEST; place != NO_TABLE; depth--) {
        const struct text *name = &station->tables.table[place].name;
        fprintf(stderr, " /%s", shown_bytes(name->bytes, name->len));
        place = depth ? next_of_chain(&station->tables, place, depth - 1) : NO_TABLE;
    }
    fprintf(stderr, ": the table that a rule names is the first, and the fourth may name none\n");
}

static void show_naming_hints(const struct station *station, const struct naming *naming, uint32_t number) {
    size_t last = NO_TABLE;
    for (size_t i = 0; i < naming->marks.count; i++) {
        const uint8_t *bytes = naming->joined.bytes + naming->part[i].from;
        size_t len = naming->part[i].to - naming->part[i].from, place = find_named(bytes, len);
        if (number == GATE_TABLE_NAME)
            show_missing_hint(station, shown_bytes(bytes + 1, len - 1));
        else if (place != last)
            show_chain(station, place);
        last = place;
    }
}

static void show_naming_fault(const struct station *station, uint32_t section, const struct line *line, const struct naming *naming,
                              uint32_t number) {
    fprintf(stderr, "%s:%llu: %s [%u]\n", section_path(station, section), (unsigned long long)line->number,
            number == GATE_TABLE_NAME ? "no table of this name" : gate_number_text(number), (unsigned)number);
    show_excerpt(section_text(station, section), line, &naming->marks);
    show_naming_hints(station, naming, number);
}

/* Of a rule that is sound but for what it names; where a name is missing too, 15 is what it is refused by. */
static size_t show_rule_fault(const struct station *station, uint32_t section, const struct line *line, uint32_t number) {
    static struct naming naming;
    const struct text *text = section_text(station, section);
    if (!memchr(text->bytes + line->place, '/', line->len) || line_number(text, line) != GATE_ANSWERED)
        return 0;
    join_line(&naming.joined, text, line);
    if (number == GATE_TOO_DEEP && find_in_rule(&naming, GATE_TABLE_NAME))
        return 0;
    if (!find_in_rule(&naming, number))
        return 0;
    show_naming_fault(station, section, line, &naming, number);
    return 1;
}

size_t show_naming_faults(const struct station *station, uint32_t number) {
    size_t faults = 0;
    for (uint32_t section = GATE_ALLOW; section <= GATE_DENY; section++) {
        const struct text *text = section_text(station, section);
        struct line line;
        for (bool more = text->len <= TEXT_MOST && first_line(text, &line); more; more = next_line(text, &line))
            faults += show_rule_fault(station, section, &line, number);
    }
    return faults;
}

/* Tables */

/* Whether the gate takes it for a pattern of a table: asked by a table of its own, which names nothing that is there. */
static bool is_bad_pattern(const uint8_t *bytes, size_t len) {
    static const struct gate_request nobody;
    uint8_t five[GATE_NAME_LIMIT + 8] = {0, 1, 1, 'x', 0, 0, 0, (uint8_t)len};
    if (len > GATE_NAME_LIMIT)
        return true;
    memcpy(five + 8, bytes, len);
    return gate_tables_verdict_for(NULL, 0, NULL, 0, five, len + 8, &nobody).number == GATE_BAD_TABLE;
}

static bool is_missing(const uint8_t *bytes, size_t len) {
    return names_table(bytes, len) && find_named(bytes, len) == NO_TABLE;
}

static bool is_word_fault(const uint8_t *bytes, size_t len, uint32_t number) {
    return number == GATE_TABLE_NAME ? is_missing(bytes, len) : is_bad_pattern(bytes, len);
}

/* Marks the patterns of a line that are at fault. */
static void mark_patterns(const struct text *text, const struct line *line, uint32_t number, struct marks *marks) {
    struct text part = {text->bytes + line->place, line->len};
    size_t from = 0, to = 0;
    while (next_pattern(&part, &from, &to)) {
        if (is_word_fault(part.bytes + from, to - from, number))
            add_mark(marks, line->place + from, line->place + to);
    }
}

static void show_missing_hints(const struct station *station, const struct text *text, const struct marks *marks) {
    for (size_t i = 0; i < marks->count; i++)
        show_missing_hint(station, shown_bytes(text->bytes + marks->mark[i].from + 1, marks->mark[i].to - marks->mark[i].from - 1));
}

/* A table is shown with its number, which is what the gate gives for a line. */
static size_t show_pattern_faults(const struct station *station, size_t place, uint32_t number) {
    const struct text *text = &station->tables.table[place].text;
    struct line line;
    size_t faults = 0;
    for (bool more = first_plain_line(text, &line); more; more = next_plain_line(text, &line)) {
        struct marks marks = {.count = 0};
        mark_patterns(text, &line, number, &marks);
        if (!marks.count)
            continue;
        fprintf(stderr, "%s:%llu: table %zu: %s [%u]\n", table_path(station, place), (unsigned long long)line.number, place + 1,
                number == GATE_TABLE_NAME ? "no table of this name" : "no host pattern", (unsigned)number);
        show_excerpt(text, &line, &marks);
        if (number == GATE_TABLE_NAME)
            show_missing_hints(station, text, &marks);
        else
            show_hints(number, text, &marks);
        faults++;
    }
    return faults;
}

static size_t show_second_name(const struct station *station, size_t place) {
    const struct text *name = &station->tables.table[place].name;
    size_t first = find_table(name->bytes, name->len);
    if (first == place)
        return 0;
    fprintf(stderr, "%s: table %zu: a second table of this name [%u]\n", table_path(station, place), place + 1, (unsigned)GATE_TABLE_NAME);
    fprintf(stderr, "      = names are compared without case, and %s is table %zu: rename one, or put all their hosts into one\n",
            table_path(station, first), first + 1);
    return 1;
}

size_t show_misnamed_tables(const struct station *station) {
    size_t faults = 0;
    for (size_t i = 0; i < station->tables.count; i++) {
        faults += show_second_name(station, i);
        faults += show_pattern_faults(station, i, GATE_TABLE_NAME);
    }
    return faults;
}

static size_t show_limit(const struct station *station, size_t found, size_t most, const char *what) {
    if (found <= most)
        return 0;
    fprintf(stderr, "%s: %zu %s, and the most is %zu [%u]\n", section_path(station, GATE_TABLES), found, what, most, (unsigned)GATE_BAD_TABLE);
    return 1;
}

static size_t show_bad_name(const struct station *station, size_t place) {
    const struct text *name = &station->tables.table[place].name;
    if (is_table_name(name->bytes, name->len))
        return 0;
    fprintf(stderr, "%s: table %zu: its name is not of 1 to 64 letters, digits, - _ . [%u]\n", table_path(station, place), place + 1,
            (unsigned)GATE_BAD_TABLE);
    if (station->is_folder)
        fprintf(stderr, "      = every file in a folder of tables is one, but for those that begin with a dot: rename it, or take it out\n");
    return 1;
}

size_t show_bad_tables(const struct station *station) {
    size_t faults = show_limit(station, station->tables.count, GATE_TABLES_COUNT, "tables");
    faults += show_limit(station, section_text(station, GATE_TABLES)->len, GATE_TABLES_LIMIT, "bytes with their names and counts");
    for (size_t i = 0; i < station->tables.count; i++) {
        faults += show_bad_name(station, i);
        faults += show_pattern_faults(station, i, GATE_BAD_TABLE);
    }
    return faults;
}
