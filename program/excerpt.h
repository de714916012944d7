/* The text of a line with marks under the places that a message is about. */
#ifndef EXCERPT_H
#define EXCERPT_H

#include "line.h"

/* Places in a text; one of no bytes is marked by a caret. Further ones are left out. */
#define MARKS_MOST 16
struct marks {
    size_t count;
    struct span mark[MARKS_MOST];
};
void add_mark(struct marks *marks, size_t from, size_t to);

/* The same for a part of a joined line. */
void add_joined_mark(struct marks *marks, const struct joined *joined, struct span part);

/* Writes the physical line of the first mark, with its number, and the marks on it; of a logical line without marks its first one. */
void show_excerpt(const struct text *text, const struct line *line, const struct marks *marks);

#endif
