/* gate salvage: a damaged sheet into one that is accepted, and what was changed for it. */
#include <stdio.h>
#include <string.h>
#include "command.h"
#include "fault.h"
#include "message.h"
#include "output.h"

enum { QUIET };

static const struct option options[] = {{"quiet", 'q', NULL}, {NULL, 0, NULL}};

static const char help[] =
    "Writes the damaged sheet SHEET to NEW so that the gate accepts it: each bad line of\n"
    "hosts.allow becomes an empty line, each bad line of hosts.deny becomes ALL: ALL, bad\n"
    "entries of portacl are dropped, and lines of byuid in the retired form are rewritten\n"
    "as by gate convert. Every other byte stays as it is. SHEET may be - for standard\n"
    "input; NEW may be - for standard output, and then the changes are printed on standard\n"
    "error. NEW may not be SHEET: the damaged sheet is kept.\n"
    "\n"
    "Each change is printed: its place in SHEET, what was done, the number of the fault\n"
    "and what stood there, as in\n"
    "  hosts.allow:7: dropped [10] sshd: 10.20.30.400\n"
    "  hosts.deny:3: now ALL: ALL [7] telnet\n"
    "  byuid:2: rewritten [22] 10.0.0.0/8:80,90\n"
    "  portacl entry 4: dropped [12] uid:www-data:tcp:80\n"
    "A bad line is one that is refused: also a rule that names a missing table or leads\n"
    "too deep, and the last line where it has no ending newline, be it a comment.\n"
    "\n"
    "The frame and the tables of SHEET must be sound; else it is an error, as where\n"
    "hosts.deny grows past its limit. NEW appears whole or not at all, as by gate pack.\n"
    "\n"
    "  -q, --quiet   print nothing; the exit status tells\n"
    "\n"
    "Exit status: 0 written and nothing was changed, 1 written with changes, 2 an error.\n"
    "\n"
    "For example:\n"
    "  gate salvage damaged.sheet mended.sheet\n";

/* The list of changes, and how far it was shown. */
struct changes {
    const uint8_t *list;
    size_t count, next;
};

static bool is_next(const struct changes *changes, uint32_t section, uint64_t line) {
    const uint8_t *change = changes->list + 8 * changes->next;
    return changes->next < changes->count && gate_wire_number(change, 4) == section && gate_wire_number(change + 4, 4) == line;
}

static void show_change(FILE *to, uint32_t section, uint64_t line, uint32_t number, const struct text *was) {
    static const char *const done[] = {[GATE_ALLOW] = "dropped", [GATE_DENY] = "now ALL: ALL", [GATE_BYUID] = "rewritten", [GATE_PORTACL] = "dropped"};
    fprintf(to, "%s%s%llu: %s [%u] %s\n", section_file(section), section == GATE_PORTACL ? " entry " : ":", (unsigned long long)line, done[section],
            (unsigned)number, was->len ? shown_bytes(was->bytes, was->len) : "(empty)");
}

/* The lowest number of a bad line: without its newline 4; else that of the line alone, without its tables and then with them. */
static uint32_t bad_line_number(const struct station *station, uint32_t section, const struct line *line) {
    static const struct gate_request nobody;
    const struct text *five = section_text(station, GATE_TABLES);
    const uint8_t *bytes = section_text(station, section)->bytes + line->place;
    if (!line->ended)
        return GATE_UNENDED;
    uint32_t number = hosts_number(bytes, line->len + 1);
    return number != GATE_ANSWERED ? number : gate_tables_verdict_for(bytes, line->len + 1, NULL, 0, five->bytes, five->len, &nobody).number;
}

static void show_line_changes(FILE *to, const struct station *station, uint32_t section, struct changes *changes) {
    bool plain = section == GATE_BYUID;
    const struct text *text = section_text(station, section);
    struct line line;
    for (bool more = plain ? first_plain_line(text, &line) : first_line(text, &line); more;
         more = plain ? next_plain_line(text, &line) : next_line(text, &line)) {
        if (!is_next(changes, section, line.number))
            continue;
        struct text was = {text->bytes + line.place, line.len};
        show_change(to, section, line.number, plain ? (uint32_t)GATE_RETIRED_FORM : bad_line_number(station, section, &line), &was);
        changes->next++;
    }
}

static void show_entry_changes(FILE *to, const struct station *station, struct changes *changes) {
    struct text rest = *section_text(station, GATE_PORTACL);
    for (uint64_t entry = 1; changes->next < changes->count; entry++) {
        const uint8_t *comma = memchr(rest.bytes, ',', rest.len);
        struct text was = {rest.bytes, comma ? (size_t)(comma - rest.bytes) : rest.len};
        if (is_next(changes, GATE_PORTACL, entry)) {
            show_change(to, GATE_PORTACL, entry, GATE_BAD_ENTRY, &was);
            changes->next++;
        }
        if (!comma)
            return;
        rest.bytes += was.len + 1;
        rest.len -= was.len + 1;
    }
}

static void show_changes(FILE *to, const struct station *station, struct changes changes) {
    for (uint32_t section = GATE_ALLOW; section <= GATE_BYUID; section++)
        show_line_changes(to, station, section, &changes);
    show_entry_changes(to, station, &changes);
}

static void show_written(const char *path, size_t len, size_t changes) {
    printf("%s: %zu bytes, ", path, len);
    if (changes)
        printf("%zu %s\n", changes, plural(changes, "change", "changes"));
    else
        printf("nothing was changed\n");
}

/* Whether the new sheet would take the place of the damaged one. */
static bool is_own_sheet(const char *sheet, const char *new) {
    bool same = is_input(new, sheet);
    if (same)
        complain("gate", "%s: is the sheet to be salvaged: give another name, so that the damaged one is kept", shown(new));
    return same;
}

static void refuse_salvage(const struct station *station, struct gate_written_two refused) {
    const char *name = strcmp(station->path, "-") ? shown(station->path) : "standard input";
    if (refused.number == GATE_OVER_LIMIT && station->texts == SECTIONS) {
        complain("gate", "%s: not salvaged: hosts.deny with ALL: ALL for its bad lines is over %d bytes [2]; gate check shows them", name, GATE_DENY_LIMIT);
        return;
    }
    size_t faults = refused.section == GATE_TABLES && refused.number != GATE_CUT_SHORT ? show_tables_faults(station) : show_frame_fault(station);
    complain("gate", "%s: not salvaged: %zu %s of its %s, which must be sound; gate explain NUMBER tells what a number means", name, faults,
             plural(faults, "fault", "faults"), refused.section == GATE_TABLES && refused.number != GATE_CUT_SHORT ? "tables" : "frame");
}

static enum status run(const struct arguments *arguments) {
    static uint8_t sheet[GATE_SHEET_LIMIT], list[GATE_CHANGES_ROOM];
    static struct station station;
    const char *old = arguments->operand[0], *new = arguments->operand[1];
    bool standard = !strcmp(new, "-");
    if (!read_station_sheet(&station, old) || (!standard && (!may_write(new) || is_own_sheet(old, new))))
        return STATUS_FAILED;
    struct gate_written_two written = gate_salvage(sheet, sizeof sheet, list, sizeof list, station.sheet.bytes, station.sheet.len);
    if (written.number != GATE_ANSWERED) {
        refuse_salvage(&station, written);
        return STATUS_FAILED;
    }
    if (standard)
        fwrite(sheet, 1, (size_t)written.count, stdout);
    else if (!write_file(new, sheet, (size_t)written.count))
        return STATUS_FAILED;
    struct changes changes = {list, (size_t)written.other_count / 8, 0};
    if (!arguments->option[QUIET])
        show_changes(standard ? stderr : stdout, &station, changes);
    if (!standard && !arguments->option[QUIET])
        show_written(new, (size_t)written.count, changes.count);
    return changes.count ? STATUS_NO : STATUS_YES;
}

const struct command salvage_command = {
    "salvage", "SHEET NEW [-q]", "a damaged sheet into one that is accepted, with a list of changes", help, options, 2, 2, run};
