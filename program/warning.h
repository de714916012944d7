/* What the gate accepts and surely no one means. */
#ifndef WARNING_H
#define WARNING_H

#include "station.h"

/* Shows each, and answers how many there are. Lines that the gate refuses are passed over, and
 * texts over their limits. Of a station's texts; of the tables, which others may have too. */
size_t show_warnings(const struct station *station);
size_t show_table_warnings(const struct station *station);

/* Marks the tables, up to so many, that the rules of a station lead to. */
void mark_used_tables(const struct station *station, bool *used, size_t most);

/* Of the byuid text alone. */
size_t show_byuid_warnings(const struct station *station);

#endif
