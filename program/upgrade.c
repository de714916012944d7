/* gate upgrade: a sheet of four sections, from before there were tables, into one of five. */
#include <stdio.h>
#include <string.h>
#include "command.h"
#include "message.h"
#include "output.h"
#include "station.h"

enum { QUIET };

static const struct option options[] = {{"quiet", 'q', NULL}, {NULL, 0, NULL}};

static const char help[] =
    "Writes the sheet OLD, which has the four sections that sheets had before there were\n"
    "tables, to NEW with the two zero bytes of no tables behind it. OLD may be - for\n"
    "standard input, NEW may be - for standard output, or OLD itself.\n"
    "\n"
    "Only the frame is looked at: OLD is four sections within their limits, and nothing\n"
    "else. Rules and entries may be at fault; gate check NEW shows it then as it did of\n"
    "OLD. NEW appears whole or not at all, as by gate pack.\n"
    "\n"
    "  -q, --quiet   print nothing; the exit status tells\n"
    "\n"
    "Exit status: 0 written, 2 an error, or OLD is no such sheet.\n"
    "\n"
    "For example:\n"
    "  gate upgrade old.sheet new.sheet\n";

/* The most of four sections with their counts. */
#define OLD_LIMIT (GATE_SHEET_LIMIT - GATE_TABLES_LIMIT)

/* Whether what follows the four sections is a section five, and nothing behind it. */
static bool has_tables(const struct text *sheet) {
    struct tables tables;
    size_t at = 0, len;
    for (uint32_t section = GATE_ALLOW; section <= GATE_PORTACL; section++)
        at += 4 + (size_t)gate_wire_number(sheet->bytes + at, 4);
    struct text rest = {sheet->bytes + at, sheet->len - at};
    return read_tables(&tables, &rest, &len) && len == rest.len;
}

static void complain_of(const char *path, const struct text *sheet, struct gate_written refused) {
    const char *name = strcmp(path, "-") ? shown(path) : "standard input";
    if (sheet->len > SHEET_MOST)
        complain("gate", "%s: over %d bytes, and the longest sheet has %d", name, SHEET_MOST, GATE_SHEET_LIMIT);
    else if (refused.number == GATE_TRAILING_BYTES && has_tables(sheet))
        complain("gate", "%s: has its tables already: it is a sheet of five sections, and needs no upgrade", name);
    else if (refused.number == GATE_TRAILING_BYTES)
        complain("gate", "%s: bytes follow the fourth section, and are no tables: it is no sheet of four sections [3]", name);
    else
        complain("gate", "%s: %s: section %u, %s: it is no sheet of four sections [%u]", name, gate_number_text(refused.number),
                 (unsigned)refused.section, gate_section_text(refused.section), (unsigned)refused.number);
}

/* Nothing is promised of its rules. */
static void warn_of_faults(const char *path, const uint8_t *sheet, size_t len) {
    if (gate_check(sheet, len).number != GATE_ANSWERED)
        complain("gate", "%s: its frame is sound and it is written, but it has faults: gate check shows them", shown(path));
}

static enum status run(const struct arguments *arguments) {
    static uint8_t sheet[OLD_LIMIT + 2];
    const char *old = arguments->operand[0], *new = arguments->operand[1];
    bool standard = !strcmp(new, "-");
    struct text text;
    if (!read_file(old, SHEET_MOST, &text) || (!standard && !may_write(new)))
        return STATUS_FAILED;
    struct gate_written written = gate_upgrade(sheet, sizeof sheet, text.bytes, text.len);
    if (written.number != GATE_ANSWERED) {
        complain_of(old, &text, written);
        return STATUS_FAILED;
    }
    if (standard)
        fwrite(sheet, 1, (size_t)written.count, stdout);
    else if (!write_file(new, sheet, (size_t)written.count))
        return STATUS_FAILED;
    warn_of_faults(standard ? "standard output" : new, sheet, (size_t)written.count);
    if (!standard && !arguments->option[QUIET])
        printf("%s: %zu bytes, with no tables\n", new, (size_t)written.count);
    return STATUS_YES;
}

const struct command upgrade_command = {
    "upgrade", "OLD NEW [-q]", "a sheet from before there were tables into one of today", help, options, 2, 2, run};
