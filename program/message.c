#include <errno.h>
#include <stdarg.h>
#include <stdio.h>
#include <string.h>
#include "message.h"

void complain(const char *where, const char *format, ...) {
    va_list values;
    va_start(values, format);
    fprintf(stderr, "%s: ", where);
    vfprintf(stderr, format, values);
    fputc('\n', stderr);
    va_end(values);
}

void complain_errno(const char *where) {
    complain("gate", "%s: %s", shown(where), strerror(errno));
}

const char *shown_bytes(const uint8_t *bytes, size_t len) {
    static char texts[4][204];
    static size_t turn;
    char *text = texts[turn++ % 4];
    bool cut = len > 200;
    size_t kept = cut ? 197 : len;
    for (size_t i = 0; i < kept; i++)
        text[i] = bytes[i] >= 32 && bytes[i] < 127 ? (char)bytes[i] : '?';
    strcpy(text + kept, cut ? "..." : "");
    return text;
}

const char *shown(const char *text) {
    return *text ? shown_bytes((const uint8_t *)text, strlen(text)) : "(empty)";
}

const char *plural(uint64_t count, const char *singular, const char *many) {
    return count == 1 ? singular : many;
}
