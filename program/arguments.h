/* Options and operands, of the command line or of a line of requests. */
#ifndef ARGUMENTS_H
#define ARGUMENTS_H

#include <stdbool.h>
#include <stddef.h>

#define OPTIONS_MOST 10
#define OPERANDS_MOST 4

struct option {
    const char *name;  /* after -- */
    char letter;       /* after -, or 0 */
    const char *value; /* what its value is called; NULL where it takes none */
};

struct arguments {
    const char *operand[OPERANDS_MOST];
    size_t operands;
    const char *option[OPTIONS_MOST]; /* in the order of the table: NULL where it is not given, "" where it takes no value */
};

/* Options may stand before and behind operands; -- ends them. Whatever is not understood is complained of, and the answer is false.
 * Operands behind the first OPERANDS_MOST are counted only. */
bool read_arguments(struct arguments *arguments, const struct option *table, const char *where, size_t count, char *const *words);

#endif
