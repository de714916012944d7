#include <stdio.h>
#include <string.h>
#include "excerpt.h"
#include "fault.h"
#include "hint.h"
#include "mark.h"
#include "message.h"
#include "retired.h"

/* A request of nobody is refused behind all checks of the texts, so nothing is searched. */
static const struct gate_request nobody;

uint32_t hosts_number(const uint8_t *text, size_t len) {
    struct gate_answer answer = gate_verdict_for(text, len, NULL, 0, &nobody);
    return answer.number == GATE_BAD_REQUEST || answer.number == GATE_TABLE_NAME ? (uint32_t)GATE_ANSWERED : answer.number;
}

uint32_t line_number(const struct text *text, const struct line *line) {
    static uint8_t ended[TEXT_MOST + 2];
    memcpy(ended, text->bytes + line->place, line->len);
    ended[line->len] = '\n';
    return hosts_number(ended, line->len + 1);
}

void show_hints(uint32_t number, const struct text *text, const struct marks *marks) {
    char last[HINT_ROOM] = "";
    for (size_t i = 0; i < marks->count; i++) {
        struct span mark = marks->mark[i];
        const char *hint = hint_for(number, text->bytes + mark.from, mark.to - mark.from);
        if (!strcmp(hint, last))
            continue;
        fprintf(stderr, "      = %s\n", hint);
        snprintf(last, sizeof last, "%s", hint);
    }
}

/* Where a colon of an IPv6 address was taken for a separator, that is the fault; else what the marked bytes tell. */
static void show_line_hints(const struct joined *joined, uint32_t number, const struct text *text, const struct marks *marks) {
    struct rule rule;
    struct span found;
    if ((number == GATE_NO_ELEMENT || number == GATE_UNKNOWN_ELEMENT) && read_rule(joined, &rule) && bare_address(joined, &rule, &found))
        fprintf(stderr, "      = an IPv6 address stands in brackets: [%s]\n",
                shown_bytes(joined->bytes + found.from, found.to - found.from));
    else
        show_hints(number, text, marks);
}

static void show_line_fault(const struct station *station, uint32_t section, const struct line *line, uint32_t number) {
    static struct joined joined;
    const struct text *text = section_text(station, section);
    struct marks marks = {.count = 0};
    join_line(&joined, text, line);
    mark_fault(&joined, number, &marks);
    fprintf(stderr, "%s:%llu: %s [%u]\n", section_path(station, section), (unsigned long long)line->number, gate_number_text(number),
            (unsigned)number);
    show_excerpt(text, line, &marks);
    show_line_hints(&joined, number, text, &marks);
}

/* A line that is over a text's limit by itself has no number of its own: its text has. */
static size_t show_line_faults(const struct station *station, uint32_t section, const struct line *line) {
    uint32_t number = line_number(section_text(station, section), line);
    bool faulty = number != GATE_ANSWERED && number != GATE_OVER_LIMIT && number != GATE_UNENDED;
    if (!line->ended)
        show_line_fault(station, section, line, GATE_UNENDED);
    if (faulty)
        show_line_fault(station, section, line, number);
    return (size_t)!line->ended + (size_t)faulty;
}

static size_t show_hosts_faults(const struct station *station, uint32_t section) {
    const struct text *text = section_text(station, section);
    struct line line;
    size_t faults = 0;
    for (bool more = first_line(text, &line); more; more = next_line(text, &line))
        faults += show_line_faults(station, section, &line);
    return faults;
}

/* In a text that is not empty, an empty entry is one, and a bad one: as between two commas. */
static bool is_bad_entry(const uint8_t *entry, size_t len) {
    static const struct gate_settings settings;
    static const struct gate_bind bind;
    struct gate_answer answer = len ? gate_portacl_for(entry, len, &settings, &bind) : gate_portacl_for(",", 1, &settings, &bind);
    return answer.number == GATE_BAD_ENTRY;
}

/* line is the physical line that the entry begins in. */
static void show_entry_fault(const struct station *station, size_t entry, struct span place, const struct line *line) {
    const struct text *text = section_text(station, GATE_PORTACL);
    struct marks marks = {.count = 0};
    add_mark(&marks, place.from, place.to);
    fprintf(stderr, "%s:%llu: entry %zu: %s [%u]\n", section_path(station, GATE_PORTACL), (unsigned long long)line->number, entry,
            gate_number_text(GATE_BAD_ENTRY), (unsigned)GATE_BAD_ENTRY);
    show_excerpt(text, line, &marks);
    show_hints(GATE_BAD_ENTRY, text, &marks);
}

/* Goes on to the physical line of a place. */
static void follow_lines(const struct text *text, struct line *line, size_t place) {
    struct line next = *line;
    while (next_plain_line(text, &next) && next.place <= place)
        *line = next;
}

static size_t show_portacl_faults(const struct station *station) {
    const struct text *text = section_text(station, GATE_PORTACL);
    struct line line;
    size_t faults = 0, entry = 1, from = 0;
    first_plain_line(text, &line);
    while (text->len && from <= text->len) {
        const uint8_t *comma = memchr(text->bytes + from, ',', text->len - from);
        size_t to = comma ? (size_t)(comma - text->bytes) : text->len;
        follow_lines(text, &line, from);
        if (is_bad_entry(text->bytes + from, to - from)) {
            show_entry_fault(station, entry, (struct span){from, to}, &line);
            faults++;
        }
        entry++;
        from = to + 1;
    }
    return faults;
}

/* A text over its limit, and whether its lines are looked at all the same. */
static size_t show_over_limit(const struct station *station, uint32_t section, bool *readable) {
    const struct text *text = section_text(station, section);
    *readable = text->len <= TEXT_MOST;
    if (text->len <= section_limit(section))
        return 0;
    fprintf(stderr, "%s: %s: %s%zu bytes, and the most is %zu [%u]\n", section_path(station, section), gate_number_text(GATE_OVER_LIMIT),
            *readable ? "" : "over ", *readable ? text->len : (size_t)TEXT_MOST, section_limit(section), (unsigned)GATE_OVER_LIMIT);
    return 1;
}

static size_t show_text_faults(const struct station *station, uint32_t section) {
    bool readable;
    size_t faults = show_over_limit(station, section, &readable);
    if (!readable || section == GATE_BYUID)
        return faults;
    return faults + (section == GATE_PORTACL ? show_portacl_faults(station) : show_hosts_faults(station, section));
}

/* What a sheet has of the tables that it does not have whole, which begin at a place. */
static const char *tables_detail(const struct station *station, size_t at) {
    static char text[96];
    if (station->sheet.len - at < 2)
        return "the count of its tables, of two bytes, is not there whole";
    snprintf(text, sizeof text, "its count is %zu tables, and table %zu is not there whole",
             (size_t)gate_wire_number(station->sheet.bytes + at, 2), station->tables.count + 1);
    return text;
}

/* What a sheet has of a section that it does not have whole. */
static const char *frame_detail(const struct station *station) {
    static char text[96];
    size_t at = 0;
    for (size_t i = 0; i < station->texts; i++)
        at += 4 + station->text[i].len;
    size_t left = station->sheet.len - at;
    if (station->refusal.section == GATE_TABLES)
        return tables_detail(station, at);
    if (left < 4)
        return "its count, of four bytes, is not there whole";
    size_t count = (size_t)gate_wire_number(station->sheet.bytes + at, 4), most = section_limit(station->refusal.section);
    if (count > most)
        snprintf(text, sizeof text, "its count is %zu bytes, and the most is %zu", count, most);
    else
        snprintf(text, sizeof text, "its count is %zu bytes, and %zu follow", count, left - 4);
    return text;
}

/* Where a sheet of four sections ends. */
static bool lacks_tables(const struct station *station) {
    size_t at = 0;
    for (size_t i = 0; i < station->texts; i++)
        at += 4 + station->text[i].len;
    return station->refusal.section == GATE_TABLES && at == station->sheet.len;
}

size_t show_frame_fault(const struct station *station) {
    struct gate_checked refusal = station->refusal;
    const struct text *sheet = &station->sheet;
    if (sheet->len > SHEET_MOST) {
        fprintf(stderr, "%s: over %d bytes, and the longest sheet has %d: it is not looked at\n", station->path, SHEET_MOST, GATE_SHEET_LIMIT);
        return 1;
    }
    if (refusal.number == GATE_TRAILING_BYTES)
        fprintf(stderr, "%s: %s [%u]\n", station->path, gate_number_text(refusal.number), (unsigned)refusal.number);
    else if (refusal.number == GATE_CUT_SHORT || refusal.number == GATE_OVER_LIMIT)
        fprintf(stderr, "%s: %s: %s [%u]\n", section_path(station, refusal.section), gate_number_text(refusal.number),
                frame_detail(station), (unsigned)refusal.number);
    else
        return 0;
    if (sheet->len && sheet->bytes[0])
        fprintf(stderr, "      = a sheet begins with a zero byte, and this does not: to check texts, give the folder that holds all four\n");
    else if (refusal.number == GATE_CUT_SHORT && lacks_tables(station))
        fprintf(stderr, "      = a sheet of four sections, from before there were tables: gate upgrade OLD NEW appends an empty fifth\n");
    return 1;
}

/* Of the four texts. */
static size_t show_texts_faults(const struct station *station) {
    size_t faults = 0;
    for (uint32_t section = GATE_ALLOW; section <= GATE_PORTACL && section <= station->texts; section++)
        faults += show_text_faults(station, section);
    return faults;
}

size_t show_own_faults(const struct station *station) {
    size_t faults = show_texts_faults(station);
    faults += show_naming_faults(station, GATE_TABLE_NAME);
    faults += show_naming_faults(station, GATE_TOO_DEEP);
    return faults + show_retired_lines(station);
}

size_t show_tables_faults(const struct station *station) {
    size_t faults = show_misnamed_tables(station);
    return faults + show_bad_tables(station);
}

/* In the order of the gate: the first that is shown is the one that it answers with. */
static size_t show_named_faults(const struct station *station) {
    size_t faults = show_naming_faults(station, GATE_TABLE_NAME);
    faults += show_misnamed_tables(station);
    faults += show_naming_faults(station, GATE_TOO_DEEP);
    faults += show_bad_tables(station);
    return faults + show_retired_lines(station);
}

size_t show_refusal(const struct station *station) {
    if (is_sound(station))
        return 0;
    complain(station->path, "refused, section %u line %llu [%u]", (unsigned)station->refusal.section, (unsigned long long)station->refusal.line,
             (unsigned)station->refusal.number);
    return 1;
}

size_t show_faults(const struct station *station) {
    size_t faults = station->is_folder ? 0 : show_frame_fault(station);
    faults += show_texts_faults(station);
    if (station->texts == SECTIONS)
        faults += show_named_faults(station);
    return faults ? faults : show_refusal(station);
}

void refuse_station(const struct station *station) {
    size_t faults = show_faults(station);
    complain("gate", "%s: refused: %zu %s; gate explain NUMBER tells what a number means",
             shown(station->only ? section_path(station, station->only) : station->path), faults, plural(faults, "fault", "faults"));
}
