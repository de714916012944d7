/* gate check: all faults of a station. */
#include <stdio.h>
#include "command.h"
#include "fault.h"
#include "message.h"
#include "warning.h"

enum { QUIET, TABLES, WARN };

static const struct option options[] = {{"quiet", 'q', NULL}, {"tables", 0, "FOLDER"}, {"warn", 'W', NULL}, {NULL, 0, NULL}};

static const char help[] =
    "STATION is a sheet, a folder with the four texts hosts.allow, hosts.deny, byuid\n"
    "and portacl and perhaps a folder tables, or - for a sheet on standard input. Every\n"
    "fault is shown on standard error as FILE:LINE: message [number], with the line and\n"
    "a mark under the place; gate explain NUMBER tells more.\n"
    "\n"
    "  --tables FOLDER   the tables of a folder's rules, a file for each; without it\n"
    "                those of STATION/tables, where that is there\n"
    "  -W, --warn    warn too of what is accepted and surely not meant: words of\n"
    "                hosts_options(5) as a command, IPv6 addresses without brackets,\n"
    "                nets with bits outside their mask, IPv4 in IPv6 patterns, rules\n"
    "                out of reach, lines of byuid that grant nothing, and tables of\n"
    "                STATION/tables that no rule leads to\n"
    "  -q, --quiet   print nothing; the exit status tells\n"
    "\n"
    "Exit status: 0 sound, with or without warnings; 1 faults found; 2 an error.\n"
    "\n"
    "For example:\n"
    "  gate check -W sample\n";

static enum status run(const struct arguments *arguments) {
    static struct station station;
    if (!read_station(&station, arguments->operand[0], arguments->option[TABLES]))
        return STATUS_FAILED;
    enum status status = is_sound(&station) ? STATUS_YES : STATUS_NO;
    if (arguments->option[QUIET])
        return status;
    size_t faults = show_faults(&station), warnings = 0;
    if (arguments->option[WARN]) {
        warnings = show_warnings(&station);
        warnings += show_table_warnings(&station);
    }
    printf("%s: ", station.path);
    if (faults)
        printf("%zu %s", faults, plural(faults, "fault", "faults"));
    else
        printf("sound, %zu bytes%s", station.sheet.len, station.is_folder ? " as a sheet" : "");
    if (warnings)
        printf(", %zu %s", warnings, plural(warnings, "warning", "warnings"));
    printf("\n");
    return status;
}

const struct command check_command = {
    "check", "STATION [--tables FOLDER] [-W] [-q]", "all faults of a station's texts or sheet", help, options, 1, 1, run};
