/* gate fleet: every station under a folder into its sheet, with one folder of tables. */
#include <dirent.h>
#include <errno.h>
#include <stdio.h>
#include <stdlib.h>
#include <string.h>
#include <sys/stat.h>
#include "command.h"
#include "fault.h"
#include "message.h"
#include "output.h"
#include "warning.h"

enum { QUIET, WARN };

static const struct option options[] = {{"quiet", 'q', NULL}, {"warn", 'W', NULL}, {NULL, 0, NULL}};

static const char help[] =
    "Packs each station, a folder in STATIONS, into the sheet of its name beside it:\n"
    "STATIONS/north into STATIONS/north.sheet. All of them get the tables of the folder\n"
    "TABLES, which may be one of those in STATIONS. Names that begin with a dot are\n"
    "passed over; every other folder has to be a station.\n"
    "\n"
    "Prints a line for each station: its sheet, or how many faults it has, or that there\n"
    "was an error. What was wrong is shown on standard error, as FILE:LINE: message\n"
    "[number] of each fault; faults of the tables, which all share, are shown once.\n"
    "\n"
    "Each sheet appears whole or not at all, as by gate pack, and one whose station has\n"
    "a fault, or can't be read or written, stays as it was; the others are written.\n"
    "\n"
    "  -W, --warn    warn too, as gate check does, and of tables that no station uses\n"
    "  -q, --quiet   print no lines for stations; faults and errors are still shown\n"
    "\n"
    "Exit status: 0 all sheets written; 1 a station, or the tables, with faults; 2 an\n"
    "error.\n"
    "\n"
    "For example:\n"
    "  gate fleet sample/fleet sample/fleet/tables\n";

#define STATIONS_MOST 65536

struct fleet {
    const char *folder, *tables;
    struct text five;
    bool quiet, warn;
    size_t stations, written, refused, failed; /* failed: what could not be read or written */
    size_t tables_faults, warned;              /* warned: the warnings of the tables were shown, once */
    bool used[GATE_TABLES_COUNT];              /* tables that some station's rules lead to */
};

static int compare_names(const void *a, const void *b) {
    return strcmp(*(char *const *)a, *(char *const *)b);
}

/* Whether an entry is to be a station: a folder, but for that of the tables. */
static bool is_station(const struct fleet *fleet, const char *name) {
    char path[PATH_ROOM];
    struct stat there, tables;
    if (name[0] == '.' || !join_path(path, fleet->folder, name) || stat(path, &there) || !S_ISDIR(there.st_mode))
        return false;
    return stat(fleet->tables, &tables) || tables.st_dev != there.st_dev || tables.st_ino != there.st_ino;
}

/* The stations' names; false where the folder can't be read. */
static bool list_stations(struct fleet *fleet, char **names) {
    DIR *open = opendir(fleet->folder);
    const struct dirent *entry;
    if (!open) {
        complain_errno(fleet->folder);
        return false;
    }
    bool good = true;
    for (errno = 0; good && fleet->stations < STATIONS_MOST && (entry = readdir(open)); errno = good ? 0 : errno) {
        if (is_station(fleet, entry->d_name))
            good = (names[fleet->stations++] = strdup(entry->d_name)) != NULL;
    }
    good = good && !errno && fleet->stations < STATIONS_MOST;
    if (!good)
        complain("gate", "%s: %s", shown(fleet->folder), errno ? strerror(errno) : "holds too many folders");
    closedir(open);
    if (!good)
        return false;
    qsort(names, fleet->stations, sizeof *names, compare_names);
    return true;
}

/* Faults of the tables are shown with the first station that is read, and refuse all. */
static void show_station_faults(struct fleet *fleet, const struct station *station, const char *sheet) {
    size_t faults = show_own_faults(station);
    if (!fleet->tables_faults)
        fleet->tables_faults = show_tables_faults(station);
    if (!faults && !fleet->tables_faults)
        faults = show_refusal(station);
    fleet->refused++;
    if (fleet->quiet)
        return;
    printf("%s: ", station->path);
    if (faults)
        printf("%zu %s", faults, plural(faults, "fault", "faults"));
    if (fleet->tables_faults)
        printf("%s%zu %s of the tables", faults ? ", " : "", fleet->tables_faults, plural(fleet->tables_faults, "fault", "faults"));
    printf("; %s is as it was\n", sheet);
}

/* What went wrong was told, and whether anything was written. */
static void fail_one(struct fleet *fleet, const char *what) {
    fleet->failed++;
    if (!fleet->quiet)
        printf("%s: an error\n", what);
}

static void write_sheet(struct fleet *fleet, const struct station *station, const char *sheet) {
    if (!may_write(sheet) || !write_file(sheet, station->sheet.bytes, station->sheet.len)) {
        fail_one(fleet, sheet);
        return;
    }
    fleet->written++;
    if (!fleet->quiet)
        printf("%s: %zu bytes\n", sheet, station->sheet.len);
}

/* The answer comes behind its messages, station by station. */
static void flush_both(void) {
    fflush(stderr);
    fflush(stdout);
}

static void pack_read(struct fleet *fleet, const struct station *station) {
    char sheet[PATH_ROOM + 8];
    snprintf(sheet, sizeof sheet, "%s.sheet", station->path);
    mark_used_tables(station, fleet->used, GATE_TABLES_COUNT);
    if (fleet->warn) {
        show_warnings(station);
        fleet->warned += fleet->warned ? 0 : 1 + show_table_warnings(station);
    }
    if (is_sound(station))
        write_sheet(fleet, station, sheet);
    else
        show_station_faults(fleet, station, sheet);
}

static void pack_one(struct fleet *fleet, const char *name) {
    static struct station station;
    char path[PATH_ROOM];
    if (join_path(path, fleet->folder, name) && read_fleet_station(&station, path, fleet->tables, &fleet->five))
        pack_read(fleet, &station);
    else
        fail_one(fleet, path);
    free_texts(&station);
    flush_both();
}

/* Of tables without a fault. */
static void warn_of_unused(const struct fleet *fleet) {
    struct tables tables;
    size_t len;
    read_tables(&tables, &fleet->five, &len);
    for (size_t i = 0; i < tables.count && i < GATE_TABLES_COUNT; i++) {
        if (!fleet->used[i])
            fprintf(stderr, "%s/%s: warning: no rule of any station leads to this table\n", fleet->tables,
                    shown_bytes(tables.table[i].name.bytes, tables.table[i].name.len));
    }
}

static enum status finish(const struct fleet *fleet) {
    if (!fleet->stations) {
        complain("gate", "%s: holds no station: a station is a folder in it", shown(fleet->folder));
        return STATUS_FAILED;
    }
    if (fleet->warn && !fleet->tables_faults)
        warn_of_unused(fleet);
    if (!fleet->quiet)
        printf("%s: %zu %s, %zu %s written\n", fleet->folder, fleet->stations, plural(fleet->stations, "station", "stations"), fleet->written,
               plural(fleet->written, "sheet", "sheets"));
    return fleet->failed ? STATUS_FAILED : fleet->refused ? STATUS_NO : STATUS_YES;
}

static enum status run(const struct arguments *arguments) {
    static char *names[STATIONS_MOST];
    static struct fleet fleet;
    fleet.folder = arguments->operand[0];
    fleet.tables = arguments->operand[1];
    fleet.quiet = arguments->option[QUIET] != NULL;
    fleet.warn = arguments->option[WARN] != NULL;
    if (!read_tables_folder(fleet.tables, &fleet.five) || !list_stations(&fleet, names))
        return STATUS_FAILED;
    for (size_t i = 0; i < fleet.stations; i++)
        pack_one(&fleet, names[i]);
    return finish(&fleet);
}

const struct command fleet_command = {
    "fleet", "STATIONS TABLES [-W] [-q]", "every station under a folder into its sheet, with shared tables", help, options, 2, 2, run};
