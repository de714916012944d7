/* Messages on standard error, and texts made fit to be shown. */
#ifndef MESSAGE_H
#define MESSAGE_H

#include <stdbool.h>
#include <stddef.h>
#include <stdint.h>

#if defined(__GNUC__)
#define LIKE_PRINTF(text, first) __attribute__((format(printf, text, first)))
#else
#define LIKE_PRINTF(text, first)
#endif

/* Writes `where: message` and a newline. */
void complain(const char *where, const char *format, ...) LIKE_PRINTF(2, 3);

/* The same for what the system said last: `where: why`. */
void complain_errno(const char *where);

/* A text in which every byte outside printable ASCII is a question mark, cut where it is long. Holds until the fourth call after it. */
const char *shown(const char *text);
const char *shown_bytes(const uint8_t *bytes, size_t len);

/* `singular` for 1, else `plural`. */
const char *plural(uint64_t count, const char *singular, const char *plural);

#endif
