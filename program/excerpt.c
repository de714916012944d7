#include <stdio.h>
#include <string.h>
#include "excerpt.h"
#include "message.h"

/* The most bytes of a line that are shown, and how many of them before the first mark. */
#define COLUMNS 110
#define COLUMNS_BEFORE 60

void add_mark(struct marks *marks, size_t from, size_t to) {
    if (marks->count < MARKS_MOST)
        marks->mark[marks->count++] = (struct span){from, to};
}

void add_joined_mark(struct marks *marks, const struct joined *joined, struct span part) {
    size_t to = part.to > part.from ? joined->place[part.to - 1] + 1 : joined->place[part.from];
    add_mark(marks, joined->place[part.from], to);
}

/* The physical line that holds a place; *number goes on from the line's own. */
static struct span physical_line(const struct text *text, const struct line *line, size_t place, uint64_t *number) {
    struct span found = {line->place, text->len};
    const uint8_t *newline = memchr(text->bytes + found.from, '\n', place - found.from);
    *number = line->number;
    while (newline) {
        found.from = (size_t)(newline - text->bytes) + 1;
        (*number)++;
        newline = memchr(text->bytes + found.from, '\n', place - found.from);
    }
    newline = memchr(text->bytes + place, '\n', text->len - place);
    if (newline)
        found.to = (size_t)(newline - text->bytes);
    return found;
}

/* The part of a physical line that is shown. */
static struct span window(struct span line, size_t place) {
    if (line.to - line.from <= COLUMNS)
        return line;
    if (place - line.from > COLUMNS_BEFORE)
        line.from = place - COLUMNS_BEFORE;
    if (line.to - line.from > COLUMNS)
        line.to = line.from + COLUMNS;
    return line;
}

static size_t clipped(size_t place, struct span seen) {
    return place < seen.from ? seen.from : place > seen.to ? seen.to : place;
}

/* A row of blanks with the marks that lie in the part shown. */
static void show_marks(struct span seen, const struct marks *marks) {
    char row[COLUMNS + 2];
    size_t len = 0;
    memset(row, ' ', sizeof row);
    for (size_t i = 0; i < marks->count; i++) {
        struct span mark = marks->mark[i];
        if (mark.from < seen.from || mark.from > seen.to)
            continue;
        size_t from = mark.from - seen.from, to = clipped(mark.to, seen) - seen.from;
        if (to <= from)
            to = from + 1;
        memset(row + from, '~', to - from);
        row[from] = '^';
        len = to > len ? to : len;
    }
    if (len)
        fprintf(stderr, "      | %.*s\n", (int)len, row);
}

void show_excerpt(const struct text *text, const struct line *line, const struct marks *marks) {
    uint64_t number;
    size_t place = marks->count ? marks->mark[0].from : line->place;
    struct span whole = physical_line(text, line, place, &number), seen = window(whole, place);
    fprintf(stderr, "%5llu | %s\n", (unsigned long long)number, shown_bytes(text->bytes + seen.from, seen.to - seen.from));
    show_marks(seen, marks);
}
