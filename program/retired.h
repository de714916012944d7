/* Lines of byuid in the retired form addr4/len:pmin,pmax. */
#ifndef RETIRED_H
#define RETIRED_H

#include <stdbool.h>
#include "station.h"

/* Whether a line is one that the form used to accept. */
bool is_retired(const uint8_t *line, size_t len);

/* Shows each such line of a station's byuid text, and what to do: 22. */
size_t show_retired_lines(const struct station *station);

/* Complains of the first such line of a byuid file, where there is one. */
bool complain_of_retired(const char *where, const char *path, const struct text *text);

#endif
