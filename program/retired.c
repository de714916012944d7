#include <stdio.h>
#include "excerpt.h"
#include "message.h"
#include "retired.h"

/* A bind at no address is refused behind all checks of the text, so no line is searched for. */
static struct gate_answer check_byuid(const uint8_t *text, size_t len) {
    static const struct gate_host nowhere;
    return gate_byuid_for(text, len, GATE_PLAIN_FILE, &nowhere, 0, 0);
}

bool is_retired(const uint8_t *line, size_t len) {
    return check_byuid(line, len).number == GATE_RETIRED_FORM;
}

static void show_retired_line(const struct station *station, const struct line *line) {
    static uint8_t renewed[GATE_BYUID_LIMIT];
    const struct text *text = section_text(station, GATE_BYUID);
    struct marks marks = {.count = 0};
    size_t len = (size_t)gate_convert(renewed, sizeof renewed, text->bytes + line->place, line->len).count;
    add_mark(&marks, line->place, line->place + line->len);
    fprintf(stderr, "%s:%llu: %s [%u]\n", section_path(station, GATE_BYUID), (unsigned long long)line->number,
            gate_number_text(GATE_RETIRED_FORM), (unsigned)GATE_RETIRED_FORM);
    show_excerpt(text, line, &marks);
    fprintf(stderr, "      = write %s, which grants the same; gate convert %s\n", shown_bytes(renewed, len),
            station->is_folder ? "does it for all such lines of the file" : "does it for the text that gate unpack writes");
}

size_t show_retired_lines(const struct station *station) {
    const struct text *text = section_text(station, GATE_BYUID);
    struct line line;
    size_t faults = 0;
    for (bool more = first_plain_line(text, &line); more; more = next_plain_line(text, &line)) {
        if (is_retired(text->bytes + line.place, line.len)) {
            show_retired_line(station, &line);
            faults++;
        }
    }
    return faults;
}

bool complain_of_retired(const char *where, const char *path, const struct text *text) {
    struct gate_answer answer = check_byuid(text->bytes, text->len);
    if (answer.number != GATE_RETIRED_FORM)
        return false;
    complain(where, "%s:%llu: refused: %s [%u]; gate convert OLD NEW rewrites such lines", shown(path), (unsigned long long)answer.line,
             gate_number_text(answer.number), (unsigned)answer.number);
    return true;
}
