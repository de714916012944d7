/* Faults of a station, as the gate finds them: all of them. */
#ifndef FAULT_H
#define FAULT_H

#include "line.h"

/* Shows every fault: of a sheet's frame, of each line of hosts.allow and hosts.deny (its lowest number; 4 besides), of each entry of
 * portacl, of the tables. Answers how many there are. */
size_t show_faults(const struct station *station);

/* The same in two parts, for stations that share their tables: of all but the tables themselves, and of these, 15 and 17. */
size_t show_own_faults(const struct station *station);
size_t show_tables_faults(const struct station *station);

/* The fault of a sheet's frame, where it has one: nothing can be read from there on. */
size_t show_frame_fault(const struct station *station);

/* The refusal that the gate gave, where no fault was found to show: 1, else 0. */
size_t show_refusal(const struct station *station);

/* Of rules that name tables, sound but for that: 15, then 16. */
size_t show_naming_faults(const struct station *station, uint32_t number);
size_t show_misnamed_tables(const struct station *station);
size_t show_bad_tables(const struct station *station);

/* Shows every fault of a station that is refused, and that it is. */
void refuse_station(const struct station *station);

/* The number that the gate has for a text of hosts.allow or hosts.deny; 0 where it is sound, whatever tables it names. */
uint32_t hosts_number(const uint8_t *text, size_t len);

/* The same for one line with an ending newline. */
uint32_t line_number(const struct text *text, const struct line *line);

/* A hint for each mark, once. */
struct marks;
void show_hints(uint32_t number, const struct text *text, const struct marks *marks);

#endif
