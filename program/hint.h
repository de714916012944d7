/* What to do about a fault, where the marked bytes tell it. */
#ifndef HINT_H
#define HINT_H

#include <stddef.h>
#include <stdint.h>

/* Of a number from 4 to 12, or 17; holds until the next call. */
#define HINT_ROOM 160
const char *hint_for(uint32_t number, const uint8_t *marked, size_t len);

#endif
