/* gate explain: what the gate's numbers mean. */
#include <stdio.h>
#include <string.h>
#include "command.h"
#include "gate.h"
#include "message.h"
#include "reading.h"

enum { QUIET };

static const struct option options[] = {{"quiet", 'q', NULL}, {NULL, 0, NULL}};

static const char help[] =
    "Tells what a number of the gate means, with an example of it and what to do.\n"
    "Without NUMBER lists all of them.\n"
    "\n"
    "  -q, --quiet   print nothing; the exit status tells whether there is such a number\n"
    "\n"
    "Exit status: 0, or 2 where there is no such number.\n"
    "\n"
    "For example:\n"
    "  gate explain 10\n";

/* By number: when it is given; an example, which stands in `file`; what to do. */
static const struct {
    const char *meaning, *file, *example, *remedy;
} numbers[] = {
    {"The gate answered. This is no fault.", NULL, NULL, "Nothing."},
    {"A count of the sheet, or the bytes that it counts, run past the end of the sheet. Section tells which.", "a sheet",
     "seventeen zero bytes: the fifth count, of two bytes, is cut",
     "The sheet was cut on its way, or is no sheet: fetch it again, and compare its size; gate pack writes sheets whole or not at all. "
     "A sheet from before there were tables ends where section 5 should begin: gate upgrade OLD NEW appends it."},
    {"A section is longer than it may be: hosts.allow and hosts.deny 16384 bytes, byuid 8192, portacl 4096. The limits of the tables are 17's.",
     "byuid", "8193 bytes",
     "Shorten the text: leave out comments, join rules that differ in one element, drop rules that never fire (gate tidy)."},
    {"Bytes follow the last section of the sheet.", "a sheet", "nineteen zero bytes: one behind the fifth section",
     "The sheet was written over a longer one, or two were joined: pack it anew."},
    {"The last line has no ending newline. Comments and blank lines count as lines, and a backslash before the last newline takes it away.",
     "hosts.allow", "sshd: 10.20.30.40 (and no newline)", "End the file with a newline."},
    {"A line other than a comment holds a byte that is neither printable ASCII nor a tab.", "hosts.allow",
     "sshd: 10.20.30.40\\r (a carriage return, of CR LF line ends)", "Save the file with LF line ends and in ASCII; tr -d '\\r' takes carriage returns out."},
    {"A line is over 2047 bytes, counted after lines that end in a backslash are joined. Comments count too.", "hosts.allow",
     "sshd: 10.20.30.40, and so on for 2048 bytes", "Make two rules of it: the first that matches decides."},
    {"A rule has no colon outside brackets, or no element before or behind its first one. EXCEPT is no element.", "hosts.allow",
     "sshd 10.20.30.40", "Write DAEMONS : CLIENTS, or DAEMONS : CLIENTS : COMMAND."},
    {"EXCEPT does not stand directly between two elements.", "hosts.allow", "sshd: ALL EXCEPT", "Write what is excepted behind it: ALL EXCEPT .x.example."},
    {"An element, or what follows its @, begins with @, or a daemon begins with /. Netgroups are not read here, and a table holds hosts, not "
     "daemons.",
     "hosts.allow", "sshd: @vans", "Write the hosts themselves, or put them into a table and name it: sshd: /vans."},
    {"An element is none of these: /name (a table), ALL, LOCAL, KNOWN, UNKNOWN, PARANOID, a name, .domain, an IPv4 address, the first fields of one with a "
     "dot behind each (10.20.), net/mask with four fields each, net/length with a length of 0 to 32, [IPv6] or [IPv6]/length; or one of them behind user@ (of a client) or "
     "daemon@ (of a daemon). A daemon alone is ALL or a name.",
     "hosts.allow", "sshd: 10.20.30.400", "Write it as one of these."},
    {"In a command, % is last or stands before a byte that it does not take.", "hosts.allow", "sshd: ALL: /usr/bin/logger 100%",
     "Write one of a A n N h H u c d s p behind it, or %% for a percent sign."},
    {"An entry of portacl is not uid:NUMBER:tcp:PORT (or gid, or udp), in lower case and fewest digits, with nothing but a comma to the next. "
     "The line is the number of the entry.",
     "portacl", "uid:www-data:tcp:80", "Write numbers of accounts and ports; leave out blanks and newlines, also at the end."},
    {"A field of a request is outside its size or its kinds. This is a fault of the caller, not of the station.", "a request",
     "a daemon of 65 bytes; port 65536; an address that can't be read",
     "Correct the program that asks; gate reads its arguments so that this does not come up."},
    {"The whole output is longer than the room that the caller lent. Nothing is written.", "a call of the library",
     "gate_expand with 10 bytes of room for a command of 11", "Lend more: GATE_EXPANSION_ROOM, GATE_SHEET_LIMIT and GATE_ADDRESS_ROOM are always enough."},
    {"A /name, in a rule or in a table, for which there is no table; or two tables of one name. Capitals and small letters are the same. Of "
     "section 5 the line is the number of the table: of the one that names, or of the later of the two.",
     "hosts.allow", "sshd: /vans (and no table vans)",
     "Write the table, or name one that is there; a folder of tables is given with --tables. Of two tables of one name, rename one."},
    {"A rule leads more than four tables deep: the table that it names is the first, one that this names the second, and so on. Tables that "
     "name each other in a ring lead on without end. It does not matter what matches.",
     "the tables a to e", "/b in a, /c in b, /d in c, /e in d; and a rule that names /a", "Put the hosts of the last table into the one before it."},
    {"A table is at fault: its name is not of 1 to 64 letters, digits, - _ . or a word of its text is no host pattern; or there are over 64 "
     "tables, or over 12288 bytes of them, with their names and counts. Section is 5, and the line is the number of the table, 0 of the limits. A "
     "table has no EXCEPT, no users, no commas and no comments.",
     "a table", "van7.example, van8.example", "Write hosts alone, parted by blanks, tabs and newlines."},
    [18] = {"In authbind's order an IPv6 address is left out whose text may have dots: its first 80 bits are zero and the next 16 ones, or its first "
            "96 are zero and its seventh group is not. Nobody can say which name authbind tests for it.",
            "a bind", "::ffff:10.20.1.2, port 80", "Ask for the IPv4 address itself: 10.20.1.2."},
    [19] = {"In authbind's order an answer was given after the one that settled the matter, or after the last test before byuid.", "a call of the library",
            "gate_authbind with the answers allowed, absent", "Stop at the first answer that is not absent, and read the byuid file after the last test."},
    [20] = {"Rules were to be dropped from a hosts file that may not be: a line that was named is not the first of a rule, or no earlier rule that stays "
            "has the same elements and EXCEPTs in the same order in both lists, nor is any ALL: ALL. Section and line are 0.",
            "a call of gate", "gate tidy hosts.deny new --lines 1", "Leave --lines out: gate tidy FILE shows every rule that may be dropped."},
    [21] = {"An index was given with a sheet that is not its own: the sheet changed since the index was written, or either was damaged on its way, by as "
            "little as a byte. Section and line are 0.",
            "a call of gate", "gate match new.sheet sshd 10.20.30.40 --index old.index",
            "Write it again: gate index SHEET INDEX. It takes little longer than a check."},
    [22] = {"A line of byuid is of the form ADDRESS/LENGTH:PORT,PORT, by which nothing is granted any more. Only a line that used to grant is "
            "refused: one with bits set beyond its length, or with its first port over the last, is ignored as before. The line is the first such one.",
            "byuid", "10.0.0.0/8:80,90",
            "Write 10.0.0.0/8,80-90, which grants the same. gate convert OLD NEW does it for all such lines of a file, and leaves every other byte."},
};

/* Whether the gate gives this number. */
static bool is_number(uint32_t number) {
    return number < sizeof numbers / sizeof *numbers && numbers[number].meaning;
}

#define NUMBERS ((uint32_t)(sizeof numbers / sizeof *numbers))

/* Words, parted at blanks into lines of at most 78 bytes. */
static void show_wrapped(const char *text) {
    size_t column = 0;
    while (*text) {
        size_t len = strcspn(text, " ");
        const char *before = !column ? "" : column + 1 + len > 78 ? "\n" : " ";
        column = *before == ' ' ? column + 1 + len : len;
        printf("%s%.*s", before, (int)len, text);
        text += len + (text[len] == ' ');
    }
    printf("\n");
}

static void show_number(uint32_t number) {
    printf("%u: %s\n\n", (unsigned)number, gate_number_text(number));
    show_wrapped(numbers[number].meaning);
    if (numbers[number].example)
        printf("\nExample, in %s:\n    %s\n", numbers[number].file, numbers[number].example);
    printf("\nWhat to do:\n");
    show_wrapped(numbers[number].remedy);
}

static void show_all(void) {
    for (uint32_t number = 0; number < NUMBERS; number++) {
        if (is_number(number))
            printf("%2u  %s\n", (unsigned)number, gate_number_text(number));
    }
}

static enum status run(const struct arguments *arguments) {
    uint32_t number = 0;
    if (arguments->operands && !read_number("gate", "number of the gate", arguments->operand[0], NUMBERS - 1, &number))
        return STATUS_FAILED;
    if (!is_number(number)) {
        complain("gate", "%u: not a number of the gate: gate explain lists them", (unsigned)number);
        return STATUS_FAILED;
    }
    if (arguments->option[QUIET])
        return STATUS_YES;
    if (arguments->operands)
        show_number(number);
    else
        show_all();
    return STATUS_YES;
}

const struct command explain_command = {"explain", "[NUMBER]", "what a number of the gate means, and what to do", help, options, 0, 1, run};
