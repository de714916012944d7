/* The tables of a section five, parted as the gate parts them: to show them, to mark places in them, to write them to files. */
#ifndef TABLE_H
#define TABLE_H

#include "file.h"

struct table {
    struct text name, text;
};

/* In the order of the section: so many as its count of two bytes can tell of. */
#define TABLES_MOST 65535
#define NO_TABLE SIZE_MAX
struct tables {
    size_t count;
    const struct table *table;
};

/* Reads the section; false where it is cut short, and then the tables are those before the cut. *len is where the last of them ends. The
 * tables hold until the next call, and so do all answers about them. */
bool read_tables(struct tables *tables, const struct text *five, size_t *len);

/* The place of the first table of a name, compared without case, or NO_TABLE. */
size_t find_table(const uint8_t *name, size_t len);

/* The same for a pattern /name; NO_TABLE too where it is of another form. */
size_t find_named(const uint8_t *pattern, size_t len);
bool is_table_name(const uint8_t *name, size_t len);
bool names_table(const uint8_t *pattern, size_t len);

/* Whether a table leads more than so deep, itself being the first, by what the tables name. */
bool leads_past(size_t place, size_t depth);

/* The next pattern of a text, behind *from up to *to, which are first 0. */
bool next_pattern(const struct text *text, size_t *from, size_t *to);

/* Reads a folder of tables as a section five: a table for each file, whose name is the table's and whose bytes are its text, in the order
 * of the names' bytes. Names that begin with a dot are passed over. */
bool read_tables_folder(const char *folder, struct text *five);

#endif
