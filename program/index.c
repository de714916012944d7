/* gate index: the index of a sheet's rules, which gate match --index and a caller of gate_verdicts use. */
#include <stdio.h>
#include <string.h>
#include "command.h"
#include "fault.h"
#include "message.h"
#include "output.h"

enum { QUIET };

static const struct option options[] = {{"quiet", 'q', NULL}, {NULL, 0, NULL}};

static const char help[] =
    "Writes the index of SHEET to INDEX: for each rule of hosts.allow and of hosts.deny\n"
    "its lines, and where it and its two lists begin and end, so that a burst of requests\n"
    "is answered without looking for the rules again. SHEET may be - for standard input;\n"
    "INDEX may be - for standard output, and may not be SHEET.\n"
    "\n"
    "An index belongs to one sheet: where the sheet changes, write it again, or it is\n"
    "refused [21]. A sheet with a fault is refused, with all faults. INDEX appears whole\n"
    "or not at all, as by gate pack.\n"
    "\n"
    "  -q, --quiet   print nothing; the exit status tells\n"
    "\n"
    "Exit status: 0 written, 2 an error or a refusal.\n"
    "\n"
    "For example:\n"
    "  gate index station.sheet station.index\n"
    "  gate match station.sheet sshd 10.20.30.40 --index station.index\n";

/* Whether the index would take the place of its sheet. */
static bool is_own_sheet(const char *sheet, const char *index) {
    bool same = is_input(index, sheet);
    if (same)
        complain("gate", "%s: is the sheet: give another name for its index", shown(index));
    return same;
}

static enum status run(const struct arguments *arguments) {
    static struct station station;
    static uint8_t bytes[GATE_INDEX_ROOM];
    const char *sheet = arguments->operand[0], *index = arguments->operand[1];
    bool standard = !strcmp(index, "-");
    if (!read_station_sheet(&station, sheet) || (!standard && (!may_write(index) || is_own_sheet(sheet, index))))
        return STATUS_FAILED;
    struct gate_written written = gate_index(bytes, sizeof bytes, station.sheet.bytes, station.sheet.len);
    if (written.number != GATE_ANSWERED) {
        refuse_station(&station);
        return STATUS_FAILED;
    }
    size_t len = (size_t)written.count, rules = (len - 8) / 32;
    if (standard)
        fwrite(bytes, 1, len, stdout);
    else if (!write_file(index, bytes, len))
        return STATUS_FAILED;
    else if (!arguments->option[QUIET])
        printf("%s: %zu bytes, %zu %s\n", index, len, rules, plural(rules, "rule", "rules"));
    return STATUS_YES;
}

const struct command index_command = {"index", "SHEET INDEX [-q]", "the index of a sheet's rules, for requests that come in a burst", help, options, 2, 2, run};
