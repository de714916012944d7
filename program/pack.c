/* gate pack: a station's four texts and its tables into a sheet. */
#include <stdio.h>
#include <string.h>
#include "command.h"
#include "fault.h"
#include "message.h"
#include "output.h"

enum { QUIET, TABLES };

static const struct option options[] = {{"quiet", 'q', NULL}, {"tables", 0, "FOLDER"}, {NULL, 0, NULL}};

static const char help[] =
    "Packs hosts.allow, hosts.deny, byuid and portacl of FOLDER, and tables, into SHEET;\n"
    "- writes the sheet to standard output. Texts with a fault are refused, with all\n"
    "faults.\n"
    "\n"
    "The tables are the files of another folder: a file's name is the table's, and its\n"
    "bytes are the hosts; names that begin with a dot are passed over. They are packed\n"
    "in the order of their names' bytes. gate fleet packs many stations with the same.\n"
    "\n"
    "SHEET appears whole or not at all: it is written to a temporary file beside it,\n"
    "synced, and renamed. A sheet that was there keeps its mode, and stays as it was\n"
    "at any error, refusal or signal. SHEET may not be a symbolic link.\n"
    "\n"
    "  --tables FOLDER   the tables; without it those of FOLDER/tables, where that is\n"
    "                there, else none\n"
    "  -q, --quiet   print nothing; the exit status tells\n"
    "\n"
    "Exit status: 0 packed, 2 an error or a refusal.\n"
    "\n"
    "For example:\n"
    "  gate pack sample station.sheet\n"
    "  gate pack sample/fleet/north north.sheet --tables sample/fleet/tables\n";

/* Whether the sheet would take the place of a text or a table that it is made of. */
static bool is_own_text(const struct station *station, const char *sheet) {
    bool same = false;
    for (uint32_t section = GATE_ALLOW; section <= GATE_PORTACL && !same; section++)
        same = is_same_file(section_path(station, section), sheet);
    for (size_t i = 0; i < station->tables.count && !same; i++)
        same = is_same_file(table_path(station, i), sheet);
    if (same)
        complain("gate", "%s: is one of the texts to be packed", shown(sheet));
    return same;
}

static enum status run(const struct arguments *arguments) {
    static struct station station;
    const char *folder = arguments->operand[0], *sheet = arguments->operand[1];
    bool standard = !strcmp(sheet, "-");
    if (!read_station_folder(&station, folder, arguments->option[TABLES]) ||
        (!standard && (!may_write(sheet) || is_own_text(&station, sheet))))
        return STATUS_FAILED;
    if (!is_sound(&station)) {
        refuse_station(&station);
        return STATUS_FAILED;
    }
    if (standard)
        fwrite(station.sheet.bytes, 1, station.sheet.len, stdout);
    else if (!write_file(sheet, station.sheet.bytes, station.sheet.len))
        return STATUS_FAILED;
    else if (!arguments->option[QUIET])
        printf("%s: %zu bytes\n", sheet, station.sheet.len);
    return STATUS_YES;
}

const struct command pack_command = {
    "pack", "FOLDER SHEET [--tables FOLDER] [-q]", "a station's texts and tables into a sheet", help, options, 2, 2, run};
