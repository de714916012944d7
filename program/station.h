/* A station: its five texts, from a folder or out of a sheet. */
#ifndef STATION_H
#define STATION_H

#include "file.h"
#include "gate.h"
#include "table.h"

#define SECTIONS 5

/* The most bytes that are read of a text, so that the lines of one over its limit can be looked at; and of a sheet, as by the checker. */
#define TEXT_MOST 65536
#define SHEET_MOST 1048576

struct station {
    const char *path;
    bool is_folder;
    uint32_t only;               /* the section of a text that was read alone, from the file at path; else 0 */
    const char *tables_path;     /* of a folder: that of its tables, or NULL where it has none */
    bool has_own_tables;         /* that folder is within this one: no other station has them */
    struct text text[SECTIONS];  /* the last is the bytes of section five */
    size_t texts;                /* so many of them can be told apart: all of a folder's and of a sheet's whose frame is sound */
    struct tables tables;        /* of the fifth: where that can't be told apart, those before its cut */
    struct text sheet;           /* a folder's once it is packed, unless it is refused */
    struct gate_checked refusal; /* what the gate says of the sheet or of packing the folder; number 0 where it is sound */
};

/* By section, GATE_ALLOW to GATE_TABLES. */
const char *section_file(uint32_t section);
size_t section_limit(uint32_t section);
const struct text *section_text(const struct station *station, uint32_t section);

/* What a section is called in messages: FOLDER/hosts.allow or SHEET(hosts.allow). Holds until the next call. */
const char *section_path(const struct station *station, uint32_t section);

/* The same of a table: TABLES/vans or SHEET(tables/vans). */
const char *table_path(const struct station *station, size_t place);

/* Reads a folder, a sheet, or a sheet on standard input where the path is -. A station that is refused is read too. The tables of a folder
 * are those of the folder `tables`, or where that is NULL of its own folder of that name, if it has one. */
bool read_station(struct station *station, const char *path, const char *tables);

/* One text alone, as if all others were empty. Its tables are those of the folder `tables`, or where that is NULL of the folder of that name
 * beside it, if there is one. */
bool read_station_text(struct station *station, const char *path, uint32_t section, const char *tables);

/* The same from a folder alone, or from a sheet alone. */
bool read_station_folder(struct station *station, const char *path, const char *tables);
bool read_station_sheet(struct station *station, const char *path);

/* The same from a folder that has no tables of its own, with the section five that was read from the folder `tables`. */
bool read_fleet_station(struct station *station, const char *path, const char *tables, const struct text *five);
void free_texts(struct station *station);

/* The same, and complains with all its faults where it is refused. */
bool read_sound_station(struct station *station, const char *path, const char *tables);
bool is_sound(const struct station *station);

#endif
