/* A subcommand: a row of the table in main.c, and a file of its own. */
#ifndef COMMAND_H
#define COMMAND_H

#include "arguments.h"

/* Exit statuses, the same for every subcommand. */
enum status {
    STATUS_YES = 0,      /* sound, granted, exempt, as expected */
    STATUS_NO = 1,       /* faults or needless rules found, denied, no line, not as expected */
    STATUS_FAILED = 2,   /* wrong usage, unreadable input, failed output, a station that is refused */
    STATUS_ASK = 3,      /* the user must be fetched first */
    STATUS_NOT_RULED = 4
};

struct command {
    const char *name;
    const char *synopsis; /* what follows the name */
    const char *summary;
    const char *help;
    const struct option *options; /* ended by a row without a name */
    size_t least, most;           /* operands */
    enum status (*run)(const struct arguments *);
};

extern const struct command check_command, match_command, byuid_command, portacl_command, authbind_command, pack_command, unpack_command,
    fleet_command, upgrade_command, convert_command, carry_command, salvage_command, tidy_command, index_command, explain_command, test_command;

#endif
