/* gate carry: the byuid texts that grant an account what a portacl list grants it. */
#include <libgen.h>
#include <stdio.h>
#include <string.h>
#include <sys/stat.h>
#include "command.h"
#include "message.h"
#include "output.h"
#include "reading.h"
#include "station.h"

enum { QUIET };

static const struct option options[] = {{"quiet", 'q', NULL}, {NULL, 0, NULL}};

static const char help[] =
    "Reads a portacl list and writes the byuid texts of authbind(1) that grant the account\n"
    "UID what the list grants it: ports 1 to 511 to PLAIN, the account's plain file, and\n"
    "ports 512 to 1023 to MARKED, the one with a ! before its name. LIST may be - for\n"
    "standard input.\n"
    "\n"
    "A port is carried over only if the list has both a tcp and a udp entry for that UID,\n"
    "as authbind knows no protocols. Entries of groups, port 0 and ports from 1024 up have\n"
    "no lines. Both files appear whole, or neither is changed; one without a port to grant\n"
    "is empty. Root (UID 0) is never ruled by byuid, and is an error.\n"
    "\n"
    "  -q, --quiet   print nothing; the exit status tells\n"
    "\n"
    "Exit status: 0 written, 2 an error, or the list is refused.\n"
    "\n"
    "For example:\n"
    "  gate carry sample/portacl 432 432 '!432'\n";

/* Two names of one place in one folder. */
static bool are_one_file(const char *path, const char *other) {
    char folder[PATH_ROOM], other_folder[PATH_ROOM], leaf[PATH_ROOM], other_leaf[PATH_ROOM];
    struct stat there, other_there;
    snprintf(folder, sizeof folder, "%s", path), snprintf(leaf, sizeof leaf, "%s", path);
    snprintf(other_folder, sizeof other_folder, "%s", other), snprintf(other_leaf, sizeof other_leaf, "%s", other);
    return !strcmp(basename(leaf), basename(other_leaf)) && !stat(dirname(folder), &there) && !stat(dirname(other_folder), &other_there) &&
           there.st_dev == other_there.st_dev && there.st_ino == other_there.st_ino;
}

static bool may_write_both(const char *plain, const char *marked) {
    if (!may_write(plain) || !may_write(marked))
        return false;
    if (!are_one_file(plain, marked))
        return true;
    complain("gate", "%s: is given for both texts: give a file for each", shown(plain));
    return false;
}

static void complain_of(const char *list, const struct text *text, struct gate_written_two refused) {
    const char *name = strcmp(list, "-") ? shown(list) : "standard input";
    if (refused.number == GATE_OVER_LIMIT)
        complain("gate", "%s: %s%zu bytes, and the most is %d [2]", name, text->len > TEXT_MOST ? "over " : "",
                 text->len > TEXT_MOST ? (size_t)TEXT_MOST : text->len, GATE_PORTACL_LIMIT);
    else if (refused.number == GATE_BAD_ENTRY)
        complain("gate", "%s: entry %llu: %s [12]", name, (unsigned long long)refused.line, gate_number_text(refused.number));
    else
        complain("gate", "uid 0: byuid never rules root, so there is nothing to write [%u]", (unsigned)refused.number);
}

static void show_written(const char *plain, const char *marked, struct gate_written_two written) {
    printf("%s: %zu bytes\n%s: %zu bytes\n", plain, (size_t)written.count, marked, (size_t)written.other_count);
}

static enum status run(const struct arguments *arguments) {
    static uint8_t plain[GATE_CARRY_ROOM], marked[GATE_CARRY_ROOM];
    const char *list = arguments->operand[0], *plain_path = arguments->operand[2], *marked_path = arguments->operand[3];
    struct text text;
    uint32_t uid;
    if (!read_id("gate", "uid", arguments->operand[1], &uid) || !may_write_both(plain_path, marked_path) || !read_file(list, TEXT_MOST, &text))
        return STATUS_FAILED;
    struct gate_written_two written = gate_carry(plain, sizeof plain, marked, sizeof marked, text.bytes, text.len, uid);
    if (written.number != GATE_ANSWERED) {
        complain_of(list, &text, written);
        return STATUS_FAILED;
    }
    if (!write_two(plain_path, plain, (size_t)written.count, marked_path, marked, (size_t)written.other_count))
        return STATUS_FAILED;
    if (!arguments->option[QUIET])
        show_written(plain_path, marked_path, written);
    return STATUS_YES;
}

const struct command carry_command = {
    "carry", "LIST UID PLAIN MARKED [-q]", "a portacl list into the byuid texts of an account", help, options, 4, 4, run};
