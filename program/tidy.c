/* gate tidy: the rules of a hosts file that never fire, and the file without them. */
#include <libgen.h>
#include <stdio.h>
#include <string.h>
#include "command.h"
#include "fault.h"
#include "message.h"
#include "output.h"
#include "reading.h"
#include "witness.h"

enum { QUIET, TABLES, AS, LINES };

static const struct option options[] = {{"quiet", 'q', NULL}, {"tables", 0, "FOLDER"}, {"as", 0, "allow or deny"}, {"lines", 0, "NUMBERS"}, {NULL, 0, NULL}};

static const char help[] =
    "Shows the rules of FILE, a hosts.allow or a hosts.deny, that never fire: an earlier\n"
    "rule has the same elements and EXCEPTs in the same order in both lists, capitals or\n"
    "not, or is ALL: ALL. Commands and what parts the elements play no part. With NEW the\n"
    "file is written there without these rules, each with its continuations, and every\n"
    "other byte stays; every request is then answered as before, by the same rule.\n"
    "\n"
    "FILE may be - for standard input, NEW may be - for standard output, or FILE itself.\n"
    "NEW appears whole or not at all, as by gate pack, and may be no other text or table\n"
    "of the station; without NEW nothing is written.\n"
    "\n"
    "  --as WHICH    what FILE is, allow or deny; without it FILE is named hosts.allow or\n"
    "                hosts.deny\n"
    "  --lines NUMBERS   drop these rules alone, by the lines that they begin at, as in\n"
    "                4,9; refused where one of them may fire when they are gone\n"
    "  --tables FOLDER   the tables of FILE's rules; without it those of the folder tables\n"
    "                beside FILE, where that is there, else none\n"
    "  -q, --quiet   print nothing; the exit status tells\n"
    "\n"
    "Exit status: 0 written, or no such rule; 1 there are some, and no NEW was given; 2 an\n"
    "error, or FILE or NUMBERS are refused.\n"
    "\n"
    "For example:\n"
    "  gate tidy sample/hosts.deny\n"
    "  gate tidy sample/hosts.deny sample/hosts.deny\n";

/* A file, and the lines of it that are to be dropped, written as the gate takes them. */
struct tidying {
    struct station station;
    uint32_t section;
    struct known_rules rules;
    uint8_t proposal[GATE_TIDY_ROOM];
    size_t len;
};

static const struct text *text_of(const struct tidying *t) {
    return section_text(&t->station, t->section);
}

static const char *path_of(const struct tidying *t) {
    return section_path(&t->station, t->section);
}

static size_t count_lines(const struct tidying *t) {
    return t->len / 4;
}

static uint64_t line_at(const struct tidying *t, size_t place) {
    return gate_wire_number(t->proposal + 4 * place, 4);
}

/* Which file it is, by the option or by its name. */
static bool find_section(const char *file, const char *as, uint32_t *section) {
    char leaf[PATH_ROOM];
    snprintf(leaf, sizeof leaf, "%s", file);
    const char *name = as ? as : basename(leaf);
    *section = !strcmp(name, as ? "allow" : "hosts.allow") ? GATE_ALLOW : !strcmp(name, as ? "deny" : "hosts.deny") ? GATE_DENY : GATE_NO_SECTION;
    if (*section == GATE_NO_SECTION && as)
        complain("gate", "--as: %s: write allow or deny", shown(as));
    else if (*section == GATE_NO_SECTION)
        complain("gate", "%s: is this a hosts.allow or a hosts.deny? --as allow or --as deny tells", strcmp(file, "-") ? shown(file) : "standard input");
    return *section != GATE_NO_SECTION;
}

static bool add_line(struct tidying *t, uint32_t number) {
    if (t->len == sizeof t->proposal) {
        complain("gate", "--lines: over %zu numbers: no file has so many rules", sizeof t->proposal / 4);
        return false;
    }
    for (int i = 0; i < 4; i++)
        t->proposal[t->len++] = (uint8_t)(number >> 8 * (3 - i));
    return true;
}

/* Numbers parted by commas, in any order. */
static bool read_lines(struct tidying *t, const char *list) {
    for (const char *at = list;; at++) {
        size_t len = strcspn(at, ",");
        uint32_t number;
        if (!read_decimal(at, len, UINT32_MAX, &number)) {
            complain("gate", "--lines: %s: not a line: write numbers, in fewest digits, with a comma between",
                     len ? shown_bytes((const uint8_t *)at, len) : "(empty)");
            return false;
        }
        if (!add_line(t, number))
            return false;
        at += len;
        if (!*at)
            return true;
    }
}

/* What the gate says of a file that was found sound. */
static bool is_answered(const struct tidying *t, struct gate_written written) {
    if (written.number == GATE_ANSWERED)
        return true;
    complain("gate", "%s: refused: %s, section %u line %llu [%u]", path_of(t), gate_number_text(written.number), (unsigned)written.section,
             (unsigned long long)written.line, (unsigned)written.number);
    return false;
}

static bool propose(struct tidying *t) {
    const struct text *text = text_of(t), *tables = section_text(&t->station, GATE_TABLES);
    struct gate_written written = gate_propose(t->proposal, sizeof t->proposal, text->bytes, text->len, tables->bytes, tables->len, t->section);
    t->len = (size_t)written.count;
    return is_answered(t, written);
}

static void mark_dropped(struct tidying *t) {
    t->rules = read_rules(text_of(t));
    for (size_t i = 0; i < count_lines(t); i++) {
        struct known_rule *rule = find_rule(&t->rules, line_at(t, i));
        if (rule)
            rule->dropped = true;
    }
}

/* The first physical line of a rule. */
static void show_rule(const struct tidying *t, const struct known_rule *rule) {
    const uint8_t *from = text_of(t)->bytes + rule->line.place;
    const uint8_t *newline = memchr(from, '\n', rule->line.len);
    printf("%5llu | %s\n", (unsigned long long)rule->line.number, shown_bytes(from, newline ? (size_t)(newline - from) : rule->line.len));
}

static void show_dropped(const struct tidying *t, const struct known_rule *rule) {
    const struct known_rule *witness = find_witness(&t->rules, rule);
    if (!witness)
        return;
    unsigned long long number = (unsigned long long)witness->line.number;
    printf("%s:%llu: never fires: line %llu %s\n", path_of(t), (unsigned long long)rule->line.number, number,
           is_for_all(witness) ? "is ALL: ALL" : "has the same lists");
    show_rule(t, rule);
    show_rule(t, witness);
}

static void show_needless(const struct tidying *t) {
    for (size_t i = 0; i < t->rules.count; i++) {
        if (t->rules.rule[i].dropped)
            show_dropped(t, &t->rules.rule[i]);
    }
}

/* Why lines may not be dropped. */
static void complain_of_lines(const struct tidying *t) {
    for (size_t i = 0; i < count_lines(t); i++) {
        const struct known_rule *rule = find_rule(&t->rules, line_at(t, i));
        if (!rule)
            fprintf(stderr, "%s:%llu: no rule begins at this line [%u]\n", path_of(t), (unsigned long long)line_at(t, i), (unsigned)GATE_BAD_PROPOSAL);
        else if (!find_witness(&t->rules, rule))
            fprintf(stderr, "%s:%llu: may fire: no earlier rule that stays has the same lists, or is ALL: ALL [%u]\n", path_of(t),
                    (unsigned long long)rule->line.number, (unsigned)GATE_BAD_PROPOSAL);
    }
    complain("gate", "%s: refused: %s; nothing was written; without --lines every rule is shown that may be dropped", path_of(t),
             gate_number_text(GATE_BAD_PROPOSAL));
}

static size_t count_dropped(const struct tidying *t) {
    size_t dropped = 0;
    for (size_t i = 0; i < t->rules.count; i++)
        dropped += t->rules.rule[i].dropped;
    return dropped;
}

static enum status show_found(const struct tidying *t, bool quiet) {
    size_t found = count_dropped(t);
    if (!quiet) {
        show_needless(t);
        printf("%s: %zu of %zu %s never %s\n", path_of(t), found, t->rules.count, plural(t->rules.count, "rule", "rules"), plural(found, "fires", "fire"));
    }
    return found ? STATUS_NO : STATUS_YES;
}

/* Whether the new file would take the place of a table, or of another text of the station that stands beside the file. */
static bool is_other_text(const struct tidying *t, const char *file, const char *new) {
    char folder[PATH_ROOM], beside[PATH_ROOM];
    bool same = false;
    snprintf(folder, sizeof folder, "%s", file);
    const char *within = strcmp(file, "-") ? dirname(folder) : NULL;
    for (uint32_t section = GATE_ALLOW; section <= GATE_PORTACL && within && !same; section++)
        same = section != t->section && join_path(beside, within, section_file(section)) && is_same_file(beside, new);
    for (size_t i = 0; i < t->station.tables.count && !same; i++)
        same = is_same_file(table_path(&t->station, i), new);
    if (same)
        complain("gate", "%s: is another text of the station: give another name for the new file", shown(new));
    return same;
}

/* Makes the file without the lines, where they may be dropped. */
static bool drop_lines(const struct tidying *t, uint8_t *tidied, size_t *len) {
    const struct text *text = text_of(t), *tables = section_text(&t->station, GATE_TABLES);
    struct gate_written written =
        gate_drop(tidied, GATE_TIDY_ROOM, text->bytes, text->len, tables->bytes, tables->len, t->section, t->proposal, t->len);
    *len = (size_t)written.count;
    if (written.number != GATE_BAD_PROPOSAL)
        return is_answered(t, written);
    complain_of_lines(t);
    return false;
}

static enum status write_new(const struct tidying *t, const char *new, bool quiet) {
    static uint8_t tidied[GATE_TIDY_ROOM];
    bool standard = !strcmp(new, "-");
    size_t len;
    if (!drop_lines(t, tidied, &len) || (!standard && !write_file(new, tidied, len)))
        return STATUS_FAILED;
    if (standard) {
        fwrite(tidied, 1, len, stdout);
    } else if (!quiet) {
        show_needless(t);
        printf("%s: %zu bytes, %zu of %zu %s dropped\n", new, len, count_dropped(t), t->rules.count, plural(t->rules.count, "rule", "rules"));
    }
    return STATUS_YES;
}

static bool read_proposal(struct tidying *t, const char *lines) {
    if (!is_sound(&t->station)) {
        refuse_station(&t->station);
        return false;
    }
    return lines || propose(t);
}

static enum status run(const struct arguments *arguments) {
    static struct tidying t;
    const char *file = arguments->operand[0], *new = arguments->operands > 1 ? arguments->operand[1] : NULL, *lines = arguments->option[LINES];
    bool quiet = arguments->option[QUIET];
    if (lines && !new) {
        complain("gate", "--lines: give NEW too: the file that is written without them");
        return STATUS_FAILED;
    }
    if (!find_section(file, arguments->option[AS], &t.section) || (lines && !read_lines(&t, lines)) || (new && strcmp(new, "-") && !may_write(new)) ||
        !read_station_text(&t.station, file, t.section, arguments->option[TABLES]) || (new && is_other_text(&t, file, new)) || !read_proposal(&t, lines))
        return STATUS_FAILED;
    mark_dropped(&t);
    return new ? write_new(&t, new, quiet) : show_found(&t, quiet);
}

const struct command tidy_command = {
    "tidy", "FILE [NEW] [--as WHICH] [--lines NUMBERS] [--tables FOLDER] [-q]", "the rules of a hosts file that never fire, and the file without them", help,
    options, 1, 2, run};
