/* gate unpack: a sheet into the station's texts and tables. */
#include <dirent.h>
#include <errno.h>
#include <stdio.h>
#include <string.h>
#include <sys/stat.h>
#include "command.h"
#include "fault.h"
#include "message.h"
#include "output.h"

enum { QUIET, FORCE };

static const struct option options[] = {{"quiet", 'q', NULL}, {"force", 'f', NULL}, {NULL, 0, NULL}};

static const char help[] =
    "Writes the four texts of SHEET to FOLDER as hosts.allow, hosts.deny, byuid and\n"
    "portacl, and its tables, if it has any, to FOLDER/tables, a file for each; a SHEET\n"
    "of - is read from standard input. A sheet with a fault is refused, with all faults.\n"
    "\n"
    "A FOLDER that is not there appears with all its files at once, or not at all. In\n"
    "one that is there, each file appears whole or not at all, and none before all are\n"
    "on disk; files that are there already are replaced only with --force. A file in\n"
    "FOLDER/tables that is no table of the sheet is never deleted: it is an error.\n"
    "\n"
    "  -f, --force   replace texts and tables that are there\n"
    "  -q, --quiet   print nothing; the exit status tells\n"
    "\n"
    "Exit status: 0 unpacked, 2 an error or a refusal.\n"
    "\n"
    "For example:\n"
    "  gate unpack station.sheet station\n";

/* Whether a file may be written, over one that is there only by force. */
static bool may_replace(const char *path, bool force) {
    struct stat there;
    if (!force && !lstat(path, &there)) {
        complain("gate", "%s: is there already: give another folder, or --force to replace the texts", shown(path));
        return false;
    }
    return may_write(path);
}

static bool may_replace_all(const char *folder, const struct file *files, size_t count, bool force) {
    char within[PATH_ROOM], path[PATH_ROOM];
    bool good = true;
    for (size_t i = 0; good && i < count; i++) {
        const char *where = folder;
        if (files[i].within && (good = join_path(within, folder, files[i].within)))
            where = within;
        good = good && join_path(path, where, files[i].name) && may_replace(path, force);
    }
    return good;
}

/* A file in the folder of tables that the sheet does not have would be packed with the others the next time. */
static bool is_expected(const char *folder, const struct tables *tables, const char *name) {
    size_t len = strlen(name), place = find_table((const uint8_t *)name, len);
    if (name[0] == '.' || (place != NO_TABLE && !memcmp(tables->table[place].name.bytes, name, len)))
        return true;
    complain("gate", "%s/%s: is no table of this sheet: move it away first", shown(folder), shown(name));
    return false;
}

static bool has_no_others(const char *folder, const struct tables *tables) {
    char path[PATH_ROOM];
    struct stat there;
    const struct dirent *entry;
    bool good = join_path(path, folder, section_file(GATE_TABLES));
    if (good && !lstat(path, &there) && S_ISLNK(there.st_mode)) {
        complain("gate", "%s: is a symbolic link, and others may have these tables too: move it away first", shown(path));
        return false;
    }
    DIR *open = good ? opendir(path) : NULL;
    if (!open && good && errno != ENOENT) {
        complain_errno(path);
        return false;
    }
    while (good && open && (entry = readdir(open)))
        good = is_expected(path, tables, entry->d_name);
    if (open)
        closedir(open);
    return good;
}

/* A folder that is there, or a name for one that is not. */
static bool may_unpack(const char *folder, const struct tables *tables, const struct file *files, size_t count, bool force) {
    struct stat there;
    const char *what = "is no folder";
    bool found = !stat(folder, &there);
    if (found && S_ISDIR(there.st_mode))
        return has_no_others(folder, tables) && may_replace_all(folder, files, count, force);
    if (!*folder || !strcmp(folder, "-"))
        what = "give a folder for the four texts";
    else if (!found && errno != ENOENT)
        what = strerror(errno);
    else if (!found && lstat(folder, &there))
        return true;
    else if (!found)
        what = "is a symbolic link that leads nowhere";
    complain("gate", "%s: %s", shown(folder), what);
    return false;
}

/* The path without slashes at its end. */
static bool read_folder(char *folder, const char *path) {
    size_t len = strlen(path);
    while (len > 1 && path[len - 1] == '/')
        len--;
    if (len >= PATH_ROOM) {
        complain("gate", "%s: the path is too long", shown(path));
        return false;
    }
    memcpy(folder, path, len);
    folder[len] = 0;
    return true;
}

/* A file for each table. A name that begins with a dot is one, but no file that is read back as a table. */
static bool add_tables(struct file *files, size_t *count, const struct tables *tables) {
    static char names[GATE_TABLES_COUNT][GATE_TABLE_NAME_LIMIT + 1];
    for (size_t i = 0; i < tables->count; i++) {
        const struct table *table = &tables->table[i];
        memcpy(names[i], table->name.bytes, table->name.len);
        names[i][table->name.len] = 0;
        if (names[i][0] == '.') {
            complain("gate", "table %zu is called %s: a folder of tables has no file whose name begins with a dot", i + 1, names[i]);
            return false;
        }
        files[(*count)++] = (struct file){section_file(GATE_TABLES), names[i], table->text.bytes, table->text.len};
    }
    return true;
}

static bool list_files(struct file *files, size_t *count, const struct station *station) {
    for (uint32_t section = GATE_ALLOW; section <= GATE_PORTACL; section++) {
        const struct text *text = section_text(station, section);
        files[(*count)++] = (struct file){NULL, section_file(section), text->bytes, text->len};
    }
    return add_tables(files, count, &station->tables);
}

static void show_written(const char *folder, size_t tables) {
    printf("%s: hosts.allow, hosts.deny, byuid, portacl", folder);
    if (tables)
        printf(", %zu %s", tables, plural(tables, "table", "tables"));
    printf("\n");
}

static enum status run(const struct arguments *arguments) {
    static struct station station;
    static struct file files[FILES_MOST];
    char folder[PATH_ROOM];
    size_t count = 0;
    if (!read_folder(folder, arguments->operand[1]) || !read_station_sheet(&station, arguments->operand[0]))
        return STATUS_FAILED;
    if (!is_sound(&station)) {
        refuse_station(&station);
        return STATUS_FAILED;
    }
    if (!list_files(files, &count, &station) || !may_unpack(folder, &station.tables, files, count, arguments->option[FORCE] != NULL) ||
        !write_folder(folder, files, count))
        return STATUS_FAILED;
    if (!arguments->option[QUIET])
        show_written(folder, station.tables.count);
    return STATUS_YES;
}

const struct command unpack_command = {
    "unpack", "SHEET FOLDER [-f] [-q]", "a sheet into the station's texts and tables", help, options, 2, 2, run};
