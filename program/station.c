#include <errno.h>
#include <libgen.h>
#include <stdio.h>
#include <stdlib.h>
#include <string.h>
#include <sys/stat.h>
#include "fault.h"
#include "message.h"
#include "station.h"

static const struct {
    const char *file;
    size_t limit;
} sections[SECTIONS] = {{"hosts.allow", GATE_ALLOW_LIMIT},
                        {"hosts.deny", GATE_DENY_LIMIT},
                        {"byuid", GATE_BYUID_LIMIT},
                        {"portacl", GATE_PORTACL_LIMIT},
                        {"tables", GATE_TABLES_LIMIT}};

const char *section_file(uint32_t section) {
    return sections[section - 1].file;
}

size_t section_limit(uint32_t section) {
    return sections[section - 1].limit;
}

const struct text *section_text(const struct station *station, uint32_t section) {
    return &station->text[section - 1];
}

const char *section_path(const struct station *station, uint32_t section) {
    static char path[PATH_ROOM + 16];
    if (!station->is_folder)
        snprintf(path, sizeof path, "%s(%s)", station->path, section_file(section));
    else if (section == GATE_TABLES && station->tables_path)
        return station->tables_path;
    else if (station->only)
        return strcmp(station->path, "-") ? station->path : "standard input";
    else if (!join_path(path, station->path, section_file(section)))
        return section_file(section);
    return path;
}

const char *table_path(const struct station *station, size_t place) {
    static char path[PATH_ROOM + 300];
    const struct text *name = &station->tables.table[place].name;
    const char *shown_name = shown_bytes(name->bytes, name->len);
    if (!station->is_folder)
        snprintf(path, sizeof path, "%s(tables/%s)", station->path, shown_name);
    else if (!join_path(path, section_path(station, GATE_TABLES), shown_name))
        return shown_name;
    return path;
}

/* What follows the four texts of a sheet: its tables, without what follows them. */
static void part_tables(struct station *station, struct text rest) {
    size_t len;
    if (!read_tables(&station->tables, &rest, &len))
        return;
    station->text[station->texts++] = (struct text){rest.bytes, len};
}

/* The texts of a sheet, as far as its counts and their bytes go. */
static void part_sheet(struct station *station) {
    struct text rest = station->sheet;
    while (station->texts < GATE_PORTACL) {
        if (rest.len < 4)
            return;
        size_t count = (size_t)gate_wire_number(rest.bytes, 4);
        if (count > sections[station->texts].limit || count > rest.len - 4)
            return;
        station->text[station->texts++] = (struct text){rest.bytes + 4, count};
        rest.bytes += 4 + count;
        rest.len -= 4 + count;
    }
    part_tables(station, rest);
}

bool read_station_sheet(struct station *station, const char *path) {
    memset(station, 0, sizeof *station);
    station->path = path;
    if (!read_file(path, SHEET_MOST, &station->sheet))
        return false;
    station->refusal = gate_check(station->sheet.bytes, station->sheet.len);
    if (station->sheet.len <= SHEET_MOST)
        part_sheet(station);
    return true;
}

static void pack_station(struct station *station) {
    static uint8_t sheet[GATE_SHEET_LIMIT];
    const struct text *text = station->text;
    size_t len;
    read_tables(&station->tables, &text[4], &len);
    struct gate_written packed = gate_pack(sheet, sizeof sheet, text[0].bytes, text[0].len, text[1].bytes, text[1].len, text[2].bytes,
                                           text[2].len, text[3].bytes, text[3].len, text[4].bytes, text[4].len);
    station->refusal = (struct gate_checked){packed.number, packed.section, packed.line};
    station->sheet = (struct text){sheet, (size_t)packed.count};
}

/* A station has all four texts: a missing one is no empty one. */
static bool is_there(const char *file) {
    struct stat there;
    if (!stat(file, &there) || errno != ENOENT)
        return true;
    complain("gate", "%s: No such file: a station has hosts.allow, hosts.deny, byuid and portacl, and an empty file for no rules", shown(file));
    return false;
}

static bool read_texts(struct station *station) {
    char file[PATH_ROOM];
    while (station->texts < GATE_PORTACL) {
        struct text *text = &station->text[station->texts];
        if (!join_path(file, station->path, sections[station->texts].file) || !is_there(file) || !read_file(file, TEXT_MOST, text))
            return false;
        station->texts++;
    }
    return true;
}

void free_texts(struct station *station) {
    for (size_t i = 0; i < GATE_PORTACL; i++) {
        free(station->text[i].bytes);
        station->text[i].bytes = NULL;
    }
}

static bool is_folder(const char *path) {
    struct stat there;
    if (stat(path, &there)) {
        complain_errno(path);
        return false;
    }
    if (!S_ISDIR(there.st_mode))
        complain("gate", "%s: is no folder: give the one that holds the four texts", shown(path));
    return S_ISDIR(there.st_mode);
}

/* The station's own folder of tables in `own`; empty where it has none. */
static bool find_own_tables(char *own, const char *path) {
    struct stat there;
    if (!join_path(own, path, section_file(GATE_TABLES)))
        return false;
    if (stat(own, &there) && errno == ENOENT)
        *own = 0;
    return true;
}

/* Two folders of tables are one too many: whichever is taken, rules might be read with tables that were not meant. */
static bool is_only(const char *own, const char *tables) {
    if (!*own || !tables || is_same_file(own, tables))
        return true;
    complain("gate", "%s: this station has tables of its own, and is given those of %s too: take the one, or move the other away", shown(own),
             shown(tables));
    return false;
}

/* Reads the tables of a station in a folder, which is NULL where it is in none; where it has no tables, the two bytes of an empty count. */
static bool read_folder_tables(struct station *station, const char *folder, const char *tables) {
    static char own[PATH_ROOM];
    static uint8_t none[2];
    *own = 0;
    if ((folder && !find_own_tables(own, folder)) || !is_only(own, tables))
        return false;
    station->tables_path = tables ? tables : *own ? own : NULL;
    station->has_own_tables = *own;
    station->text[4] = (struct text){none, sizeof none};
    return !station->tables_path || read_tables_folder(station->tables_path, &station->text[4]);
}

bool read_station_folder(struct station *station, const char *path, const char *tables) {
    memset(station, 0, sizeof *station);
    station->path = path;
    station->is_folder = true;
    if (!is_folder(path) || !read_texts(station) || !read_folder_tables(station, station->path, tables))
        return false;
    station->texts++;
    pack_station(station);
    return true;
}

bool read_station_text(struct station *station, const char *path, uint32_t section, const char *tables) {
    char folder[PATH_ROOM];
    memset(station, 0, sizeof *station);
    station->path = path;
    station->is_folder = true;
    station->only = section;
    station->texts = SECTIONS;
    snprintf(folder, sizeof folder, "%s", path);
    if (!read_file(path, TEXT_MOST, &station->text[section - 1]) || !read_folder_tables(station, strcmp(path, "-") ? dirname(folder) : NULL, tables))
        return false;
    pack_station(station);
    return true;
}

bool read_fleet_station(struct station *station, const char *path, const char *tables, const struct text *five) {
    char own[PATH_ROOM];
    memset(station, 0, sizeof *station);
    station->path = path;
    station->is_folder = true;
    station->tables_path = tables;
    if (!is_folder(path) || !find_own_tables(own, path) || !is_only(own, tables) || !read_texts(station))
        return false;
    station->text[station->texts++] = *five;
    pack_station(station);
    return true;
}

bool read_station(struct station *station, const char *path, const char *tables) {
    struct stat there;
    if (strcmp(path, "-") && stat(path, &there)) {
        complain_errno(path);
        return false;
    }
    if (strcmp(path, "-") && S_ISDIR(there.st_mode))
        return read_station_folder(station, path, tables);
    if (!tables)
        return read_station_sheet(station, path);
    complain("gate", "--tables: %s is a sheet, and has its tables with it; give a station's folder", shown(path));
    return false;
}

bool is_sound(const struct station *station) {
    return station->refusal.number == GATE_ANSWERED;
}

bool read_sound_station(struct station *station, const char *path, const char *tables) {
    if (!read_station(station, path, tables))
        return false;
    if (is_sound(station))
        return true;
    refuse_station(station);
    return false;
}
