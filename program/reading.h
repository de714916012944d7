/* Strict reading: a value is read whole or it is complained of, and the answer is false. Nothing is guessed. */
#ifndef READING_H
#define READING_H

#include <stdbool.h>
#include <stdint.h>
#include "gate.h"

/* A decimal number in fewest digits, up to most. False without a complaint. */
bool read_decimal(const char *text, size_t len, uint32_t most, uint32_t *number);

/* The same, with a complaint that calls it `what`. */
bool read_number(const char *where, const char *what, const char *text, uint32_t most, uint32_t *number);
bool read_id(const char *where, const char *what, const char *text, uint32_t *id);

/* An address of the len bytes at text. */
bool read_known_address(const char *where, const char *text, size_t len, struct gate_host *host);

/* An address, or the word unknown. */
bool read_address(const char *where, const char *text, struct gate_host *host);

/* A name of 1 to most bytes, other than the words unknown and paranoid, of which `instead` says how they are written. */
bool read_name(const char *where, const char *what, const char *text, size_t len, size_t most, const char *instead);

#endif
