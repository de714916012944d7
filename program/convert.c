/* gate convert: a byuid text with its lines of the retired form in their new one. */
#include <stdio.h>
#include <string.h>
#include "command.h"
#include "line.h"
#include "message.h"
#include "output.h"
#include "retired.h"

enum { QUIET };

static const struct option options[] = {{"quiet", 'q', NULL}, {NULL, 0, NULL}};

static const char help[] =
    "Writes the byuid text OLD to NEW with every line ADDRESS/LENGTH:PORT,PORT that used\n"
    "to grant rewritten as ADDRESS/LENGTH,PORT-PORT, which grants the same. Every other\n"
    "byte stays as it is, and NEW is as long as OLD. OLD may be - for standard input, NEW\n"
    "may be - for standard output, or OLD itself.\n"
    "\n"
    "Lines that granted nothing stay too, also such as look like the old form: bits set\n"
    "beyond the length, a first port over the last. The marked file is converted in the\n"
    "same way. NEW appears whole or not at all, as by gate pack.\n"
    "\n"
    "  -q, --quiet   print nothing; the exit status tells\n"
    "\n"
    "Exit status: 0 written, 2 an error, or OLD is over 8192 bytes.\n"
    "\n"
    "For example:\n"
    "  gate convert byuid byuid\n";

static size_t count_retired(const struct text *text) {
    struct line line;
    size_t count = 0;
    for (bool more = first_plain_line(text, &line); more; more = next_plain_line(text, &line))
        count += is_retired(text->bytes + line.place, line.len);
    return count;
}

static enum status run(const struct arguments *arguments) {
    static uint8_t renewed[GATE_BYUID_LIMIT];
    const char *old = arguments->operand[0], *new = arguments->operand[1];
    bool standard = !strcmp(new, "-");
    struct text text;
    if (!read_file(old, GATE_BYUID_LIMIT, &text) || (!standard && !may_write(new)))
        return STATUS_FAILED;
    struct gate_written written = gate_convert(renewed, sizeof renewed, text.bytes, text.len);
    if (written.number != GATE_ANSWERED) {
        complain("gate", "%s: refused: %s: the most is %d bytes [%u]", strcmp(old, "-") ? shown(old) : "standard input",
                 gate_number_text(written.number), GATE_BYUID_LIMIT, (unsigned)written.number);
        return STATUS_FAILED;
    }
    if (standard)
        fwrite(renewed, 1, (size_t)written.count, stdout);
    else if (!write_file(new, renewed, (size_t)written.count))
        return STATUS_FAILED;
    size_t lines = count_retired(&text);
    if (!standard && !arguments->option[QUIET])
        printf("%s: %zu bytes, %zu %s rewritten\n", new, (size_t)written.count, lines, plural(lines, "line", "lines"));
    return STATUS_YES;
}

const struct command convert_command = {
    "convert", "OLD NEW [-q]", "a byuid text with its lines of the retired form rewritten", help, options, 2, 2, run};
