/* Every export, called as the inetd calls it, with an answer and with refusals. All memory that a call is lent stands in one struct,
 * which is compared whole with what it should hold after the call. */
#define _GNU_SOURCE
#include <stdio.h>
#include <string.h>
#include <sys/mman.h>
#include "gate.h"

struct text {
    uint8_t bytes[200];
    size_t len;
};

static struct lent {
    struct text allow, deny, byuid, portacl, tables, sheet, old_sheet, command, address, daemon, client_name, server_name, user_name, answers, proposal, index, requests;
    uint32_t groups[2];
    uint8_t out[160], marked[80];
} m, expected, after;

static int failed;

static void expect(const char *what, int holds) {
    if (!holds) {
        printf("calls: failed: %s\n", what);
        failed = 1;
    }
}

static void set(struct text *t, const char *s, size_t len) {
    memcpy(t->bytes, s, len);
    t->len = len;
}

#define SET(field, s) set(&m.field, s, sizeof s - 1)
#define TEXT(field) m.field.bytes, m.field.len
#define OUT(room) m.out, room
/* sshd asked by van7 at 10.0.0.1, of no known user, at a server of an unknown name at ::1:0:0:0:2 */
#define HOSTS(client_kind, server_kind) \
    TEXT(daemon), GATE_NAME_KNOWN, client_kind, 0, 0x0a000001, TEXT(client_name), GATE_NAME_UNKNOWN, server_kind, 1, 2, TEXT(server_name)
#define REQUEST(user) HOSTS(GATE_IPV4, GATE_IPV6), user, TEXT(user_name)
/* the same by a client without a name at ::ffff:10.1.2.3, at a server at ::ffff:192.0.2.1 */
#define MAPPED(address) GATE_NAME_UNKNOWN, GATE_IPV6, 0, 0xffff00000000 | (address)
#define MAPPED_REQUEST TEXT(daemon), MAPPED(0x0a010203), TEXT(client_name), MAPPED(0xc0000201), TEXT(server_name), 1, TEXT(user_name)
#define BIND(protocol, port) 1, 1023, 1, 1, 80, m.groups, 2, protocol, port

/* Vans, which name the depot, and the depot, which is 10.0.0.1. */
#define VANS_AND_DEPOT "\0\2\4vans\0\0\0\x0c" "van8 /Depot\n\5depot\0\0\0\x08" "10.0.0.1"
#define FOUR_SECTIONS "\0\0\0\x15\nsshd: LOCAL: log %h\n\0\0\0\x09" "ALL: ALL\n\0\0\0\x0d" "10.0.0.0/8,80\0\0\0\x1buid:80:tcp:80,gid:20:udp:53"

/* The index of that sheet: a rule of allow in line 2, one of deny in line 1. */
#define INDEX \
    "\0\0\0\1\0\0\0\1" "\0\0\0\2\0\0\0\2\0\0\0\5\0\0\0\x18\0\0\0\5\0\0\0\x09\0\0\0\x0a\0\0\0\x10" \
    "\0\0\0\1\0\0\0\1\0\0\0\x1d\0\0\0\x25\0\0\0\x1d\0\0\0\x20\0\0\0\x21\0\0\0\x25"
/* REQUEST(1) in bytes, but for the daemon and the state of the user. */
#define ENDS "\2\4\0\0\0\0\0\0\0\0\0\0\0\0\x0a\0\0\1\4van7" "\0\6\0\0\0\0\0\0\0\1\0\0\0\0\0\0\0\2\0"
#define ASKED "\4sshd" ENDS "\1\0"
#define ASKED_X "\1x" ENDS "\1\0"
#define ASKED_BADLY "\4sshd" ENDS "\3\0"
/* Their answers: by line 2 of allow with its command, by line 1 of deny with none, and 13. */
#define GRANTED_ANSWER "\0\0\0\0\0\0\0\0\0\0\0\2\0\0\0\1\0\0\0\1\0\0\0\x11\0\0\0\7\0\0\0\0\0\0\0\2"
#define DENIED_ANSWER "\0\0\0\0\0\0\0\0\0\0\0\1\0\0\0\2\0\0\0\2\0\0\0\x25\0\0\0\0\0\0\0\0\0\0\0\3"
#define BAD_ANSWER "\0\0\0\x0d\0\0\0\0\0\0\0\0\0\0\0\0\0\0\0\0\0\0\0\0\0\0\0\0\0\0\0\0\0\0\0\0"

static void begin(void) {
    memset(&m, 0xa5, sizeof m);
    SET(allow, "\nsshd: LOCAL: log %h\n");
    SET(deny, "ALL: ALL\n");
    SET(byuid, "10.0.0.0/8,80");
    SET(portacl, "uid:80:tcp:80,gid:20:udp:53");
    SET(tables, VANS_AND_DEPOT);
    SET(sheet, FOUR_SECTIONS VANS_AND_DEPOT);
    SET(old_sheet, FOUR_SECTIONS);
    SET(command, " /bin/log %u ");
    SET(address, "2620:106:e002:f00f:0:0:0:21");
    SET(daemon, "sshd");
    SET(client_name, "van7");
    SET(server_name, "");
    SET(user_name, "a;b");
    SET(answers, "\0\0");
    SET(proposal, "\0\0\0\2");
    SET(index, INDEX);
    SET(requests, ASKED);
    m.groups[0] = 20;
    m.groups[1] = 21;
}

/* All that was lent, before a call. */
static void lend(void) {
    expected = m;
}

/* All that was lent is as it was, but for n bytes at the front of out. */
static int holds(const void *written, size_t n) {
    memcpy(expected.out, written, n);
    return !memcmp(&m, &expected, sizeof m);
}

static int untouched(void) {
    return holds("", 0);
}

static int word(struct gate_answer a, uint32_t w) {
    return a.number == GATE_ANSWERED && a.section == 0 && a.word == w && untouched();
}

static int decided(struct gate_answer a, uint32_t w, uint32_t file, uint64_t line, uint64_t place, uint64_t len) {
    return word(a, w) && a.file == file && a.line == line && a.len == len && (len == 0 || a.place == place);
}

static int refused(struct gate_answer a, uint32_t number, uint32_t section, uint64_t line) {
    return a.number == number && a.section == section && a.line == line && a.word == GATE_NO_WORD && a.file == 0 && a.place == 0 &&
           a.len == 0 && a.looked == 0 && untouched();
}

/* How many elements were looked at. */
static int looked(struct gate_answer a, uint64_t n) {
    return a.number == GATE_ANSWERED && a.looked == n && untouched();
}

static int wrote(struct gate_written w, const void *bytes, size_t n) {
    return w.number == GATE_ANSWERED && w.section == 0 && w.line == 0 && w.count == n && holds(bytes, n);
}

static int unwritten(struct gate_written w, uint32_t number, uint32_t section, uint64_t line) {
    return w.number == number && w.section == section && w.line == line && w.count == 0 && untouched();
}

/* Decided as a verdict is, and n bytes written. */
static int commanded(struct gate_command_answer a, struct gate_answer verdict, const void *bytes, size_t n) {
    return a.number == GATE_ANSWERED && a.section == 0 && a.word == verdict.word && a.file == verdict.file && a.line == verdict.line &&
           a.len == verdict.len && a.place == verdict.place && a.count == n && a.looked == verdict.looked && holds(bytes, n);
}

static int command_refused(struct gate_command_answer a, uint32_t number, uint32_t section, uint64_t line) {
    return a.number == number && a.section == section && a.line == line && a.word == GATE_NO_WORD && a.file == 0 && a.place == 0 &&
           a.len == 0 && a.count == 0 && a.looked == 0 && untouched();
}

static void verdicts(void) {
    begin(), lend();
    expect("a verdict with its command", decided(gate_verdict(TEXT(allow), TEXT(deny), REQUEST(1)), GATE_GRANTED, GATE_ALLOW, 2, 13, 7));
    expect("the elements of its rule", looked(gate_verdict(TEXT(allow), TEXT(deny), REQUEST(1)), 2));
    expect("a verdict for a user of no state", refused(gate_verdict(TEXT(allow), TEXT(deny), REQUEST(3)), GATE_BAD_REQUEST, 0, 0));
    SET(allow, "ALL: ALL@ALL\n"), lend();
    expect("a user not fetched", decided(gate_verdict(TEXT(allow), TEXT(deny), REQUEST(0)), GATE_ASK, GATE_ALLOW, 1, 0, 0));
    expect("the element that asks is counted", looked(gate_verdict(TEXT(allow), TEXT(deny), REQUEST(0)), 2));
    SET(allow, "ftpd sshd: 11. LOCAL 12. EXCEPT 13. 14.\n"), lend();
    expect("EXCEPT and what stands before it after a match are not", looked(gate_verdict(TEXT(allow), TEXT(deny), REQUEST(1)), 6));
    SET(allow, "ftpd: LOCAL\n"), lend();
    expect("nor the clients of a rule for another daemon", looked(gate_verdict(TEXT(allow), TEXT(deny), REQUEST(1)), 3));
    SET(allow, "ALL: /vans ALL\n"), lend();
    expect("what is tried in tables is", looked(gate_tables_verdict(TEXT(allow), TEXT(deny), TEXT(tables), REQUEST(1)), 5));
    SET(allow, "ALL: ALL\nx\n"), lend();
    expect("a text's fault comes first", refused(gate_verdict(TEXT(allow), TEXT(deny), REQUEST(3)), GATE_NO_ELEMENT, GATE_ALLOW, 2));
    SET(allow, ""), lend();
    expect("no allow", decided(gate_verdict(TEXT(allow), TEXT(deny), REQUEST(1)), GATE_DENIED, GATE_DENY, 1, 0, 0));
    SET(deny, ""), lend();
    expect("no rule", decided(gate_verdict(TEXT(allow), TEXT(deny), REQUEST(1)), GATE_GRANTED, GATE_NO_SECTION, 0, 0, 0));
    expect("no element", looked(gate_verdict(TEXT(allow), TEXT(deny), REQUEST(1)), 0));
}

/* An IPv4 client on an IPv6 socket: one definition, so every call that decides or expands makes the same of it. */
static void mapped(void) {
    begin();
    SET(allow, "ALL@192.0.2.1: 10.: %a %A\n");
    SET(sheet, "\0\0\0\x1a" "ALL@192.0.2.1: 10.: %a %A\n\0\0\0\x09" "ALL: ALL\n\0\0\0\0\0\0\0\0\0\0");
    SET(command, "%h"), lend();
    struct gate_answer verdict = gate_verdict(TEXT(allow), TEXT(deny), MAPPED_REQUEST);
    expect("a mapped client", decided(verdict, GATE_GRANTED, GATE_ALLOW, 1, 19, 6));
    expect("a mapped client, by a sheet", decided(gate_sheet_verdict(TEXT(sheet), MAPPED_REQUEST), GATE_GRANTED, GATE_ALLOW, 1, 23, 6));
    expect("its command", commanded(gate_command(OUT(18), TEXT(allow), TEXT(deny), MAPPED_REQUEST, 7), verdict, "10.1.2.3 192.0.2.1", 18));
    expect("whether its name matters", gate_name_matters(TEXT(allow), TEXT(deny), MAPPED_REQUEST).file == GATE_ALLOW &&
           gate_tables_name_matters(TEXT(allow), TEXT(deny), TEXT(tables), MAPPED_REQUEST).file == GATE_ALLOW &&
           gate_sheet_name_matters(TEXT(sheet), MAPPED_REQUEST).file == GATE_ALLOW);
    verdict = gate_sheet_verdict(TEXT(sheet), MAPPED_REQUEST), lend();
    expect("its command, by a sheet", commanded(gate_sheet_command(OUT(18), TEXT(sheet), MAPPED_REQUEST, 7), verdict, "10.1.2.3 192.0.2.1", 18));
    lend();
    expect("its expansion", wrote(gate_expand(OUT(8), TEXT(command), MAPPED_REQUEST, 7), "10.1.2.3", 8));
    lend();
    expect("a bind at its address", word(gate_byuid(TEXT(byuid), GATE_PLAIN_FILE, 80, GATE_IPV6, 0, 0xffff0a010203, 432), GATE_NO_LINE));
    expect("its address", wrote(gate_write_address(OUT(16), GATE_IPV6, 0, 0xffff0a010203), "::ffff:a01:203", 14));
}

#define TABLES_VERDICT(user) gate_tables_verdict(TEXT(allow), TEXT(deny), TEXT(tables), REQUEST(user))

/* With tables: an answer by each way to name one, and each refusal that tables bring, in its order. */
static void tables(void) {
    begin(), lend();
    expect("rules that name no table", decided(TABLES_VERDICT(1), GATE_GRANTED, GATE_ALLOW, 2, 13, 7));
    SET(allow, "sshd: x\nsshd: /VANS: log\n"), lend();
    expect("a table that names another", decided(TABLES_VERDICT(1), GATE_GRANTED, GATE_ALLOW, 2, 20, 4));
    expect("without tables the name is missing", refused(gate_verdict(TEXT(allow), TEXT(deny), REQUEST(3)), GATE_TABLE_NAME, GATE_ALLOW, 2));
    expect("and its command", command_refused(gate_command(OUT(0), TEXT(allow), TEXT(deny), REQUEST(3), 7), GATE_TABLE_NAME, GATE_ALLOW, 2));
    expect("13 behind the tables", refused(TABLES_VERDICT(3), GATE_BAD_REQUEST, 0, 0));
    SET(allow, "ALL: KNOWN@/vans\n"), lend();
    expect("a user not fetched asks when the table matches", decided(TABLES_VERDICT(0), GATE_ASK, GATE_ALLOW, 1, 0, 0));
    SET(allow, "sshd@/vans: ALL\n"), lend();
    expect("the server's host in a table", decided(TABLES_VERDICT(1), GATE_DENIED, GATE_DENY, 1, 0, 0));
    SET(allow, "ALL: /gone\n"), lend();
    expect("15 in a rule", refused(TABLES_VERDICT(3), GATE_TABLE_NAME, GATE_ALLOW, 1));
    SET(allow, ""), SET(tables, "\0\2\1a\0\0\0\0\1A\0\0\0\0"), lend();
    expect("15 for the later of two", refused(TABLES_VERDICT(3), GATE_TABLE_NAME, GATE_TABLES, 2));
    SET(deny, "\nALL: /a\n"), SET(tables, "\0\1\1a\0\0\0\2/A"), lend();
    expect("16 for a ring", refused(TABLES_VERDICT(3), GATE_TOO_DEEP, GATE_DENY, 2));
    SET(deny, ""), SET(tables, "\0\2\1a\0\0\0\0\1b\0\0\0\6EXCEPT"), lend();
    expect("17 for EXCEPT in a table", refused(TABLES_VERDICT(3), GATE_BAD_TABLE, GATE_TABLES, 2));
    m.tables.len--, lend();
    expect("1 for a cut", refused(TABLES_VERDICT(3), GATE_CUT_SHORT, GATE_TABLES, 0));
    SET(tables, "\0\0x"), lend();
    expect("3 for a byte behind", refused(TABLES_VERDICT(3), GATE_TRAILING_BYTES, 0, 0));
    SET(tables, ""), lend();
    expect("no bytes are a cut", refused(TABLES_VERDICT(3), GATE_CUT_SHORT, GATE_TABLES, 0));
    SET(tables, "\0\0"), lend();
    expect("no tables", decided(TABLES_VERDICT(1), GATE_GRANTED, 0, 0, 0, 0));
}

/* The verdict, file and line that every user gets, and nothing else. */
static int settled(struct gate_answer a, uint32_t w, uint32_t file, uint64_t line) {
    return word(a, w) && a.file == file && a.line == line && a.place == 0 && a.len == 0 && a.looked == 0;
}

static int matters(struct gate_answer a) {
    return settled(a, GATE_NAME_MATTERS, 0, 0);
}

#define NAME_MATTERS(user) gate_name_matters(TEXT(allow), TEXT(deny), REQUEST(user))
#define TABLES_NAME_MATTERS(user) gate_tables_name_matters(TEXT(allow), TEXT(deny), TEXT(tables), REQUEST(user))
#define SHEET_NAME_MATTERS(user) gate_sheet_name_matters(TEXT(sheet), REQUEST(user))

/* Does the name matter: each answer, whatever the request's own user is, and refusals as of the verdict. */
static void names_matter(void) {
    begin();
    SET(allow, "\nALL: KNOWN@LOCAL: log %h\n"), lend();
    for (uint32_t user = GATE_USER_NOT_FETCHED; user <= GATE_USER_KNOWN; user++)
        expect("a name matters", matters(NAME_MATTERS(user)) && matters(TABLES_NAME_MATTERS(user)));
    SET(allow, "\nALL: KNOWN@LOCAL UNKNOWN@LOCAL: log %h\n"), lend();
    for (uint32_t user = GATE_USER_NOT_FETCHED; user <= GATE_USER_KNOWN; user++)
        expect("each user by the same rule", settled(NAME_MATTERS(user), GATE_GRANTED, GATE_ALLOW, 2) && settled(TABLES_NAME_MATTERS(user), GATE_GRANTED, GATE_ALLOW, 2));
    expect("where the verdict asks", gate_verdict(TEXT(allow), TEXT(deny), REQUEST(0)).word == GATE_ASK && untouched());
    SET(allow, "ALL: a@LOCAL EXCEPT A@LOCAL\n"), lend();
    expect("a name that is taken out again", settled(NAME_MATTERS(0), GATE_DENIED, GATE_DENY, 1));
    SET(allow, "ALL: ab@LOCAL AB@LOCAL A@LOCAL EXCEPT ab@LOCAL\n"), lend();
    expect("a name that only begins like one that was tried", matters(NAME_MATTERS(0)));
    SET(allow, "ALL: ab@LOCAL AB@LOCAL aB@LOCAL EXCEPT ab@LOCAL\n"), lend();
    expect("names that are equal but for case", settled(NAME_MATTERS(0), GATE_DENIED, GATE_DENY, 1));
    SET(deny, ""), lend();
    expect("no rule for any user", settled(NAME_MATTERS(2), GATE_GRANTED, 0, 0));
    SET(allow, "ALL: a@LOCAL\nALL: ALL\n"), lend();
    expect("the same word by another line", matters(NAME_MATTERS(1)));
    expect("a user of no state", refused(NAME_MATTERS(3), GATE_BAD_REQUEST, 0, 0) && refused(TABLES_NAME_MATTERS(3), GATE_BAD_REQUEST, 0, 0));
    SET(user_name, ""), lend();
    expect("a known user of no bytes", refused(NAME_MATTERS(2), GATE_BAD_REQUEST, 0, 0) && matters(NAME_MATTERS(0)));
    SET(allow, "ALL: a@/vans\n"), lend();
    expect("a user before a table", matters(TABLES_NAME_MATTERS(0)));
    expect("without tables its name is missing", refused(NAME_MATTERS(3), GATE_TABLE_NAME, GATE_ALLOW, 1));
    m.tables.len--, lend();
    expect("a cut of the tables comes first", refused(TABLES_NAME_MATTERS(3), GATE_CUT_SHORT, GATE_TABLES, 0));
    SET(allow, "ALL: a@LOCAL\nx\n"), lend();
    expect("a text's fault comes first", refused(NAME_MATTERS(3), GATE_NO_ELEMENT, GATE_ALLOW, 2));
}

static void names_matter_by_sheet(void) {
    begin(), lend();
    expect("by a sheet without users", settled(SHEET_NAME_MATTERS(0), GATE_GRANTED, GATE_ALLOW, 2));
    expect("by a sheet, a user of no state", refused(SHEET_NAME_MATTERS(3), GATE_BAD_REQUEST, 0, 0));
    m.sheet.len--, lend();
    expect("by a cut sheet", refused(SHEET_NAME_MATTERS(3), GATE_CUT_SHORT, GATE_TABLES, 0));
    SET(sheet, "\0\0\0\x0d" "ALL: a@/vans\n\0\0\0\x09" "ALL: ALL\n\0\0\0\0\0\0\0\0" VANS_AND_DEPOT), lend();
    expect("by a sheet with users", matters(SHEET_NAME_MATTERS(0)) && matters(SHEET_NAME_MATTERS(1)) && matters(SHEET_NAME_MATTERS(2)));
    SET(daemon, ""), lend();
    expect("by a sheet, no daemon", refused(SHEET_NAME_MATTERS(0), GATE_BAD_REQUEST, 0, 0));
}

static void upgrades(void) {
    begin();
    memcpy(m.sheet.bytes + m.old_sheet.len, "\0\0", 2), m.sheet.len = m.old_sheet.len + 2, lend();
    expect("an upgrade in exact room", wrote(gate_upgrade(OUT(m.sheet.len), TEXT(old_sheet)), TEXT(sheet)));
    expect("is a sheet", gate_check(TEXT(sheet)).number == GATE_ANSWERED);
    begin(), lend();
    expect("an upgrade in less room", unwritten(gate_upgrade(OUT(m.old_sheet.len + 1), TEXT(old_sheet)), GATE_NO_ROOM, 0, 0));
    expect("a sheet that has its tables", unwritten(gate_upgrade(OUT(sizeof m.out), TEXT(sheet)), GATE_TRAILING_BYTES, 0, 0));
    m.old_sheet.len--, lend();
    expect("a cut one", unwritten(gate_upgrade(OUT(sizeof m.out), TEXT(old_sheet)), GATE_CUT_SHORT, GATE_PORTACL, 0));
    SET(old_sheet, "\0\0\x40\1"), lend();
    expect("one over a limit", unwritten(gate_upgrade(OUT(0), TEXT(old_sheet)), GATE_OVER_LIMIT, GATE_ALLOW, 0));
    SET(old_sheet, "\0\0\0\1x\0\0\0\0\0\0\0\0\0\0\0\1,"), lend();
    expect("its lines need not be sound", wrote(gate_upgrade(OUT(sizeof m.out), TEXT(old_sheet)), "\0\0\0\1x\0\0\0\0\0\0\0\0\0\0\0\1,\0\0", 20));
}

/* A text with two lines that are not of the retired form: the second has a bit set beyond its length. */
#define CONVERTED "# x\n10.0.0.0/8,80-90\n10.0.0.1/8:80,90"

static void conversions(void) {
    begin();
    SET(byuid, "# x\n10.0.0.0/8:80,90\n10.0.0.1/8:80,90"), lend();
    expect("a conversion in exact room", wrote(gate_convert(OUT(m.byuid.len), TEXT(byuid)), CONVERTED, sizeof CONVERTED - 1));
    begin();
    SET(byuid, "# x\n10.0.0.0/8:80,90\n10.0.0.1/8:80,90"), lend();
    expect("a conversion in less room", unwritten(gate_convert(OUT(m.byuid.len - 1), TEXT(byuid)), GATE_NO_ROOM, 0, 0));
    expect("22 for a line of the retired form", refused(gate_byuid(TEXT(byuid), GATE_PLAIN_FILE, 80, GATE_IPV4, 0, 0x0aff0001, 432), GATE_RETIRED_FORM, GATE_BYUID, 2));
    expect("22 before 13", refused(gate_byuid(TEXT(byuid), 2, 65536, GATE_ADDRESS_UNKNOWN, 0, 0, 0), GATE_RETIRED_FORM, GATE_BYUID, 2));
    expect("packing refuses it too", unwritten(gate_pack(OUT(sizeof m.out), TEXT(allow), TEXT(deny), TEXT(byuid), TEXT(portacl), TEXT(tables)), GATE_RETIRED_FORM, GATE_BYUID, 2));
    SET(byuid, CONVERTED), lend();
    expect("what was converted grants", word(gate_byuid(TEXT(byuid), GATE_PLAIN_FILE, 80, GATE_IPV4, 0, 0x0aff0001, 432), GATE_GRANTED));
    expect("and stays", wrote(gate_convert(OUT(sizeof m.out), TEXT(byuid)), CONVERTED, sizeof CONVERTED - 1));
    static uint8_t over[GATE_BYUID_LIMIT + 1];
    begin(), lend();
    expect("2 over the limit, before 14", unwritten(gate_convert(OUT(0), over, sizeof over), GATE_OVER_LIMIT, GATE_BYUID, 0));
    SET(sheet, "\0\0\0\0\0\0\0\0\0\0\0\x10" "10.0.0.0/8:80,90\0\0\0\0\0\0"), lend();
    expect("22 of a sheet", gate_check(TEXT(sheet)).number == GATE_RETIRED_FORM && gate_unpack(TEXT(sheet)).line == 1);
    expect("and of a verdict by it", refused(gate_sheet_verdict(TEXT(sheet), REQUEST(3)), GATE_RETIRED_FORM, GATE_BYUID, 1));
}

#define VERDICT(user) gate_verdict(TEXT(allow), TEXT(deny), REQUEST(user))
#define COMMAND(room, user) gate_command(OUT(room), TEXT(allow), TEXT(deny), REQUEST(user), 7)
#define SHEET_COMMAND(room, user) gate_sheet_command(OUT(room), TEXT(sheet), REQUEST(user), 7)

static void commands(void) {
    begin(), lend();
    expect("a verdict and its command, in exact room", commanded(COMMAND(8, 1), VERDICT(1), "log van7", 8));
    begin(), lend();
    expect("one byte less is no verdict", command_refused(COMMAND(7, 1), GATE_NO_ROOM, 0, 0));
    expect("13 before 14", command_refused(COMMAND(0, 3), GATE_BAD_REQUEST, 0, 0));
    SET(allow, "ALL: ALL: %p:%u\n"), lend();
    expect("process and user", commanded(COMMAND(100, 2), VERDICT(2), "7:a_b", 5));
    begin();
    SET(allow, "ALL: ALL@ALL: log\n"), lend();
    expect("ask writes nothing", commanded(COMMAND(0, 0), VERDICT(0), "", 0));
    SET(allow, "ALL: ALL: %\n"), lend();
    expect("11 before 13", command_refused(COMMAND(0, 3), GATE_BAD_PERCENT, GATE_ALLOW, 1));
    SET(allow, "ALL: ALL: \t \n"), lend();
    expect("a command of blanks", commanded(COMMAND(0, 1), VERDICT(1), "", 0));
    SET(allow, ""), lend();
    expect("a rule without command", commanded(COMMAND(0, 1), VERDICT(1), "", 0));
    SET(deny, ""), lend();
    expect("no rule", commanded(COMMAND(0, 1), VERDICT(1), "", 0));
}

static void sheet_commands(void) {
    begin(), lend();
    expect("a command by a sheet, in exact room", commanded(SHEET_COMMAND(8, 1), gate_sheet_verdict(TEXT(sheet), REQUEST(1)), "log van7", 8));
    begin(), lend();
    expect("one byte less by a sheet", command_refused(SHEET_COMMAND(7, 1), GATE_NO_ROOM, 0, 0));
    expect("13 before 14 by a sheet", command_refused(SHEET_COMMAND(0, 3), GATE_BAD_REQUEST, 0, 0));
    SET(daemon, "x"), lend();
    expect("no command by a sheet", commanded(SHEET_COMMAND(0, 1), gate_sheet_verdict(TEXT(sheet), REQUEST(1)), "", 0));
    m.sheet.len--, lend();
    expect("a command by a cut sheet", command_refused(SHEET_COMMAND(0, 3), GATE_CUT_SHORT, GATE_TABLES, 0));
}

static void byuid(void) {
    begin(), lend();
    expect("byuid grants", word(gate_byuid(TEXT(byuid), GATE_PLAIN_FILE, 80, GATE_IPV4, 0, 0x0aff0001, 432), GATE_GRANTED));
    expect("byuid, another port", word(gate_byuid(TEXT(byuid), GATE_PLAIN_FILE, 81, GATE_IPV4, 0, 0x0aff0001, 432), GATE_NO_LINE));
    expect("byuid, port 1024", word(gate_byuid(TEXT(byuid), GATE_PLAIN_FILE, 1024, GATE_IPV4, 0, 0x0aff0001, 432), GATE_NOT_RULED));
    expect("byuid, unknown address", refused(gate_byuid(TEXT(byuid), GATE_PLAIN_FILE, 80, GATE_ADDRESS_UNKNOWN, 0, 0, 432), GATE_BAD_REQUEST, 0, 0));
    expect("byuid, IPv4 over 32 bits", refused(gate_byuid(TEXT(byuid), GATE_PLAIN_FILE, 80, GATE_IPV4, 0, 1ULL << 32, 432), GATE_BAD_REQUEST, 0, 0));
    expect("byuid, port over 16 bits", refused(gate_byuid(TEXT(byuid), GATE_PLAIN_FILE, 65536, GATE_IPV4, 0, 1, 432), GATE_BAD_REQUEST, 0, 0));
}

/* Each file grants its own span, root and other ports are not ruled, and a mark is one of two. */
static void files(void) {
    static const uint32_t ports[] = {0, 1, 511, 512, 1023, 1024};
    static const uint32_t words[][2] = {{GATE_NOT_RULED, GATE_NOT_RULED}, {GATE_GRANTED, GATE_NO_LINE}, {GATE_GRANTED, GATE_NO_LINE},
                                        {GATE_NO_LINE, GATE_GRANTED},     {GATE_NO_LINE, GATE_GRANTED}, {GATE_NOT_RULED, GATE_NOT_RULED}};
    begin();
    SET(byuid, "0.0.0.0/0,0-65535\n"), lend();
    for (size_t i = 0; i < sizeof ports / sizeof *ports; i++) {
        for (uint32_t mark = GATE_PLAIN_FILE; mark <= GATE_MARKED_FILE; mark++) {
            expect("byuid, a file's span", word(gate_byuid(TEXT(byuid), mark, ports[i], GATE_IPV4, 0, 1, 432), words[i][mark]));
            expect("byuid, root", word(gate_byuid(TEXT(byuid), mark, ports[i], GATE_IPV4, 0, 1, 0), GATE_NOT_RULED));
        }
        expect("byuid, neither file", refused(gate_byuid(TEXT(byuid), 2, ports[i], GATE_IPV4, 0, 1, 432), GATE_BAD_REQUEST, 0, 0));
        expect("byuid, no file at all", refused(gate_byuid(TEXT(byuid), UINT32_MAX, ports[i], GATE_IPV6, 1, 1, 0), GATE_BAD_REQUEST, 0, 0));
    }
}

static void portacl(void) {
    begin(), lend();
    expect("portacl grants", word(gate_portacl(TEXT(portacl), BIND(GATE_TCP, 80)), GATE_GRANTED));
    expect("portacl grants a group", word(gate_portacl(TEXT(portacl), BIND(GATE_UDP, 53)), GATE_GRANTED));
    expect("portacl denies", word(gate_portacl(TEXT(portacl), BIND(GATE_UDP, 80)), GATE_DENIED));
    expect("portacl, port 0", word(gate_portacl(TEXT(portacl), BIND(GATE_TCP, 0)), GATE_EXEMPT));
    expect("portacl, another protocol", refused(gate_portacl(TEXT(portacl), BIND(1, 80)), GATE_BAD_REQUEST, 0, 0));
    SET(portacl, "uid:80:tcp:80,x"), lend();
    expect("portacl, a bad entry comes first", refused(gate_portacl(TEXT(portacl), BIND(1, 80)), GATE_BAD_ENTRY, GATE_PORTACL, 2));
}

static void by_sheet(void) {
    begin(), lend();
    expect("verdict by a sheet", decided(gate_sheet_verdict(TEXT(sheet), REQUEST(1)), GATE_GRANTED, GATE_ALLOW, 2, 17, 7));
    expect("verdict by a sheet, no user", refused(gate_sheet_verdict(TEXT(sheet), REQUEST(3)), GATE_BAD_REQUEST, 0, 0));
    expect("byuid by a sheet", word(gate_sheet_byuid(TEXT(sheet), 80, GATE_IPV4, 0, 0x0aff0001, 432), GATE_GRANTED));
    expect("byuid by a sheet, address of no kind", refused(gate_sheet_byuid(TEXT(sheet), 80, 5, 0, 1, 432), GATE_BAD_REQUEST, 0, 0));
    expect("portacl by a sheet", word(gate_sheet_portacl(TEXT(sheet), BIND(GATE_TCP, 80)), GATE_GRANTED));
    expect("portacl by a sheet, no protocol", refused(gate_sheet_portacl(TEXT(sheet), BIND(0, 80)), GATE_BAD_REQUEST, 0, 0));
    m.sheet.len--, lend();
    expect("verdict by a cut sheet", refused(gate_sheet_verdict(TEXT(sheet), REQUEST(3)), GATE_CUT_SHORT, GATE_TABLES, 0));
    expect("byuid by a cut sheet", refused(gate_sheet_byuid(TEXT(sheet), 80, 5, 0, 1, 432), GATE_CUT_SHORT, GATE_TABLES, 0));
    expect("portacl by a cut sheet", refused(gate_sheet_portacl(TEXT(sheet), BIND(0, 80)), GATE_CUT_SHORT, GATE_TABLES, 0));
    expect("verdict by a sheet of four sections", refused(gate_sheet_verdict(TEXT(old_sheet), REQUEST(3)), GATE_CUT_SHORT, GATE_TABLES, 0));
}

#define PACK(room) gate_pack(OUT(room), TEXT(allow), TEXT(deny), TEXT(byuid), TEXT(portacl), TEXT(tables))

static int zero_parts(struct gate_parts p) {
    return !(p.allow_place | p.allow_len | p.deny_place | p.deny_len | p.byuid_place | p.byuid_len | p.portacl_place | p.portacl_len |
             p.tables_place | p.tables_len);
}

static void sheets(void) {
    begin(), lend();
    struct gate_checked c = gate_check(TEXT(sheet));
    expect("a sound sheet", c.number == GATE_ANSWERED && c.section == 0 && c.line == 0 && untouched());
    struct gate_parts p = gate_unpack(TEXT(sheet));
    expect("its texts", p.number == GATE_ANSWERED && p.allow_place == 4 && p.allow_len == 21 && p.deny_place == 29 && p.deny_len == 9 &&
           p.byuid_place == 42 && p.byuid_len == 13 && p.portacl_place == 59 && p.portacl_len == 27 && p.tables_place == 86 &&
           p.tables_len == m.tables.len && untouched());
    expect("packing in exact room", wrote(PACK(m.sheet.len), TEXT(sheet)));
    begin(), lend();
    expect("packing in less room", unwritten(PACK(m.sheet.len - 1), GATE_NO_ROOM, 0, 0));
    SET(tables, ""), lend();
    expect("packing no fifth text", unwritten(PACK(0), GATE_CUT_SHORT, GATE_TABLES, 0));
    SET(tables, "\0\0\0"), lend();
    expect("packing a byte behind the last table", unwritten(PACK(0), GATE_TRAILING_BYTES, 0, 0));
    SET(tables, "\0\1\1a\0\0\0\2/b"), lend();
    expect("packing a table that names none", unwritten(PACK(0), GATE_TABLE_NAME, GATE_TABLES, 1));
    SET(tables, "\0\1\1a\0\0\0\2a,"), lend();
    expect("packing a bad table", unwritten(PACK(0), GATE_BAD_TABLE, GATE_TABLES, 1));
    SET(deny, "ALL"), lend();
    expect("packing a bad text", unwritten(PACK(0), GATE_UNENDED, GATE_DENY, 1));
    m.sheet.bytes[m.sheet.len++] = 0, lend();
    c = gate_check(TEXT(sheet));
    expect("a byte too many", c.number == GATE_TRAILING_BYTES && c.section == 0 && c.line == 0 && untouched());
    p = gate_unpack(TEXT(sheet));
    expect("no texts", p.number == GATE_TRAILING_BYTES && p.section == 0 && p.line == 0 && zero_parts(p) && untouched());
}

static void expansion(void) {
    begin(), lend();
    expect("P9 in exact room", wrote(gate_expand(OUT(12), TEXT(command), REQUEST(2), 7), "/bin/log a_b", 12));
    begin(), lend();
    expect("one byte less", unwritten(gate_expand(OUT(11), TEXT(command), REQUEST(2), 7), GATE_NO_ROOM, 0, 0));
    expect("13 before 14", unwritten(gate_expand(OUT(0), TEXT(command), REQUEST(3), 7), GATE_BAD_REQUEST, 0, 0));
    SET(command, "%d[%p] %s"), lend();
    expect("daemon, process, server", wrote(gate_expand(OUT(100), TEXT(command), REQUEST(0), 4294967295u), "sshd[4294967295] sshd@::1:0:0:0:2", 33));
    begin();
    SET(command, "%U"), lend();
    expect("11 before 13", unwritten(gate_expand(OUT(0), TEXT(command), REQUEST(3), 7), GATE_BAD_PERCENT, 0, 0));
}

static void addresses(void) {
    begin(), lend();
    struct gate_address a = gate_read_address(TEXT(address));
    expect("an address read", a.number == GATE_ANSWERED && a.kind == GATE_IPV6 && a.high == 0x26200106e002f00f && a.low == 0x21 && untouched());
    expect("P10 in exact room", wrote(gate_write_address(OUT(22), a.kind, a.high, a.low), "2620:106:e002:f00f::21", 22));
    begin(), lend();
    expect("one byte less", unwritten(gate_write_address(OUT(21), a.kind, a.high, a.low), GATE_NO_ROOM, 0, 0));
    expect("13 before 14", unwritten(gate_write_address(OUT(0), GATE_IPV4, 0, 1ULL << 32), GATE_BAD_REQUEST, 0, 0));
    SET(address, "10.0.0.256"), lend();
    a = gate_read_address(TEXT(address));
    expect("no address", a.number == GATE_BAD_REQUEST && a.section == 0 && a.line == 0 && a.kind == GATE_NO_ADDRESS && !(a.high | a.low) && untouched());
}

/* A word, and the name written. */
static int next_is(struct gate_next n, uint32_t w, const char *name) {
    return n.number == GATE_ANSWERED && n.section == 0 && n.line == 0 && n.word == w && n.count == strlen(name) && holds(name, strlen(name));
}

static int next_refused(struct gate_next n, uint32_t number) {
    return n.number == number && n.section == 0 && n.line == 0 && n.word == GATE_NO_WORD && n.count == 0 && untouched();
}

/* uid 432 at authbind(1)'s address */
#define AUTHBIND(room, port) gate_authbind(OUT(room), port, GATE_IPV6, 0x26200106e002f00f, 0x21, 432, TEXT(answers))

static void authbind(void) {
    begin(), lend();
    expect("the third test in exact room", next_is(AUTHBIND(51, 80), GATE_TEST, "/etc/authbind/byaddr/2620:106:e002:f00f:0:0:0:21,80"));
    begin(), lend();
    expect("one byte less for it", next_refused(AUTHBIND(50, 80), GATE_NO_ROOM));
    expect("a port that is not ruled", next_is(AUTHBIND(0, 1024), GATE_NOT_RULED, ""));
    expect("a port over 65535", next_refused(AUTHBIND(100, 65536), GATE_BAD_REQUEST));
    expect("an unknown address", next_refused(gate_authbind(OUT(100), 80, 0, 0, 0, 432, TEXT(answers)), GATE_BAD_REQUEST));
    expect("an address with dots", next_refused(gate_authbind(OUT(0), 80, GATE_IPV6, 0, 0xffff0a000001, 432, TEXT(answers)), GATE_DOTTED_ADDRESS));
    SET(answers, "\0\0\0"), lend();
    expect("byuid with its mark", next_is(AUTHBIND(100, 512), GATE_READ, "/etc/authbind/byuid/!432"));
    begin();
    SET(answers, "\0\0\0\0"), lend();
    expect("an answer after the last test", next_refused(AUTHBIND(0, 80), GATE_LATE_ANSWER));
    SET(answers, "\0\1"), lend();
    expect("allowed, in no room", next_is(AUTHBIND(0, 80), GATE_GRANTED, ""));
    SET(answers, "\2"), lend();
    expect("other", next_is(AUTHBIND(100, 80), GATE_DENIED, ""));
    SET(answers, "\2\0"), lend();
    expect("an answer after the one that settles", next_refused(AUTHBIND(100, 80), GATE_LATE_ANSWER));
    SET(answers, "\2\3"), lend();
    expect("an answer of no kind", next_refused(AUTHBIND(0, 1024), GATE_BAD_REQUEST));
}

/* Both texts were written, and nothing else was changed. */
static int carried(struct gate_written_two w, const char *plain, const char *marked) {
    memcpy(expected.marked, marked, strlen(marked));
    return w.number == GATE_ANSWERED && w.section == 0 && w.line == 0 && w.count == strlen(plain) && w.other_count == strlen(marked) &&
           holds(plain, strlen(plain));
}

static int neither_written(struct gate_written_two w, uint32_t number, uint32_t section, uint64_t line) {
    return w.number == number && w.section == section && w.line == line && w.count == 0 && w.other_count == 0 && untouched();
}

#define CARRY(room, other, uid) gate_carry(OUT(room), m.marked, other, TEXT(portacl), uid)

static void carry(void) {
    begin();
    SET(portacl, "uid:432:udp:512,uid:432:tcp:512,uid:432:tcp:80,uid:432:tcp:9,uid:432:udp:80,gid:432:udp:9,uid:432:tcp:80"), lend();
    expect("a list carried over, in exact room", carried(CARRY(21, 23, 432), "0.0.0.0/0,80\n::/0,80\n", "0.0.0.0/0,512\n::/0,512\n"));
    m = expected, memset(m.out, 0xa5, sizeof m.out), memset(m.marked, 0xa5, sizeof m.marked), lend();
    expect("one byte less for the plain text", neither_written(CARRY(20, 80, 432), GATE_NO_ROOM, 0, 0));
    expect("one byte less for the marked text", neither_written(CARRY(160, 22, 432), GATE_NO_ROOM, 0, 0));
    expect("root, before room", neither_written(CARRY(0, 0, 0), GATE_BAD_REQUEST, 0, 0));
    expect("another uid has nothing", carried(CARRY(0, 0, 433), "", ""));
    SET(portacl, "uid:432:tcp:80,x"), lend();
    expect("a bad entry, before root", neither_written(CARRY(0, 0, 0), GATE_BAD_ENTRY, GATE_PORTACL, 2));
    m.portacl.len = 0, lend();
    expect("an empty list", carried(CARRY(0, 0, 432), "", ""));
    expect("root, of an empty list", neither_written(CARRY(160, 80, 0), GATE_BAD_REQUEST, 0, 0));
    static uint8_t longer[GATE_PORTACL_LIMIT + 1];
    memset(longer, ',', sizeof longer);
    expect("a list over its limit", neither_written(gate_carry(OUT(160), m.marked, 80, longer, sizeof longer, 0), GATE_OVER_LIMIT, GATE_PORTACL, 0));
    expect("a list of commas at it", neither_written(gate_carry(OUT(160), m.marked, 80, longer, sizeof longer - 1, 0), GATE_BAD_ENTRY, GATE_PORTACL, 1));
}

/* A line of allow of no colon, one of deny without its newline, one of byuid in the retired form, an empty entry of portacl. */
#define DAMAGED \
    "\0\0\0\x0e" "x\nsshd: LOCAL\n" "\0\0\0\x08" "ALL: ALL" "\0\0\0\x10" "10.0.0.0/8:80,90" "\0\0\0\x0e" ",uid:80:tcp:80" "\0\0"
#define MENDED \
    "\0\0\0\x0d" "\nsshd: LOCAL\n" "\0\0\0\x09" "ALL: ALL\n" "\0\0\0\x10" "10.0.0.0/8,80-90" "\0\0\0\x0d" "uid:80:tcp:80" "\0\0"
#define CHANGES "\0\0\0\1\0\0\0\1" "\0\0\0\2\0\0\0\1" "\0\0\0\3\0\0\0\1" "\0\0\0\4\0\0\0\1"

/* The new sheet and the list were written, and nothing else was changed. */
static int salvaged(struct gate_written_two w, const void *sheet, size_t sheet_len, const void *list, size_t list_len) {
    memcpy(expected.marked, list, list_len);
    return w.number == GATE_ANSWERED && w.section == 0 && w.line == 0 && w.count == sheet_len && w.other_count == list_len && holds(sheet, sheet_len);
}

#define SALVAGE(room, other) gate_salvage(OUT(room), m.marked, other, TEXT(sheet))
#define REFUSES(what, sheet_bytes, number, section, line) \
    (SET(sheet, sheet_bytes), lend(), expect(what, neither_written(SALVAGE(160, 80), number, section, line)))

static void salvage(void) {
    begin(), lend();
    expect("an accepted sheet, and no room for a list", salvaged(SALVAGE(m.sheet.len, 0), m.sheet.bytes, m.sheet.len, "", 0));
    begin();
    SET(sheet, DAMAGED), lend();
    expect("a damaged sheet in exact room", salvaged(SALVAGE(sizeof MENDED - 1, 32), MENDED, sizeof MENDED - 1, CHANGES, 32));
    begin();
    SET(sheet, DAMAGED), lend();
    expect("one byte less for the sheet", neither_written(SALVAGE(sizeof MENDED - 2, 80), GATE_NO_ROOM, 0, 0));
    expect("one byte less for the list", neither_written(SALVAGE(160, 31), GATE_NO_ROOM, 0, 0));
    SET(sheet, MENDED), lend();
    expect("what was salvaged is accepted", gate_check(TEXT(sheet)).number == GATE_ANSWERED && untouched());
    expect("and stays", salvaged(SALVAGE(160, 0), MENDED, sizeof MENDED - 1, "", 0));
    begin();
    REFUSES("a cut sheet", "\0\0\0\1", GATE_CUT_SHORT, GATE_ALLOW, 0);
    REFUSES("a sheet without its tables", "\0\0\0\0\0\0\0\0\0\0\0\0\0\0\0\0", GATE_CUT_SHORT, GATE_TABLES, 0);
    REFUSES("a count over its limit", "\0\0\0\0\0\0\x40\1", GATE_OVER_LIMIT, GATE_DENY, 0);
    REFUSES("a byte behind the sheet", DAMAGED "x", GATE_TRAILING_BYTES, 0, 0);
    REFUSES("a name given twice", "\0\0\0\1x\0\0\0\0\0\0\0\0\0\0\0\0\0\2\1a\0\0\0\0\1A\0\0\0\0", GATE_TABLE_NAME, GATE_TABLES, 2);
    REFUSES("a bad pattern", "\0\0\0\1x\0\0\0\0\0\0\0\0\0\0\0\0\0\1\1a\0\0\0\1,", GATE_BAD_TABLE, GATE_TABLES, 1);
    begin();
    SET(sheet, "\0\0\0\x08" "ALL: /a\n" "\0\0\0\x08" "ALL: /b\n" "\0\0\0\0\0\0\0\0\0\1\1a\0\0\0\2/A"), lend();
    expect("rules refused by 16 and by 15", salvaged(SALVAGE(160, 80), "\0\0\0\1" "\n" "\0\0\0\x09" "ALL: ALL\n" "\0\0\0\0\0\0\0\0\0\1\1a\0\0\0\2/A", 36,
                                                     "\0\0\0\1\0\0\0\1\0\0\0\2\0\0\0\1", 16));
}

/* A section of a text again and again. */
static size_t add_section(uint8_t *sheet, size_t at, const char *text, size_t times) {
    size_t len = strlen(text) * times;
    for (int i = 0; i < 4; i++)
        sheet[at++] = (uint8_t)(len >> 8 * (3 - i));
    for (size_t i = 0; i < len; i++)
        sheet[at++] = (uint8_t)text[i % strlen(text)];
    return at;
}

/* Room that is always enough is enough for the longest list; one bad line more in deny, and it grows past its limit. */
static void most_changes(void) {
    static uint8_t sheet[GATE_SHEET_LIMIT], out[GATE_SHEET_LIMIT], list[GATE_CHANGES_ROOM];
    for (size_t more = 0; more < 2; more++) {
        size_t len = add_section(sheet, 0, "x\n", GATE_ALLOW_LIMIT / 2);
        len = add_section(sheet, len, "x\n", GATE_DENY_LIMIT / 9 + more);
        len = add_section(sheet, len, "0.0.0.0/0:0,0\n", GATE_BYUID_LIMIT / 14);
        len = add_section(sheet, len, ",", GATE_PORTACL_LIMIT);
        sheet[len++] = 0, sheet[len++] = 0;
        struct gate_written_two most = gate_salvage(out, sizeof out, list, sizeof list, sheet, len);
        struct gate_written_two less = gate_salvage(out, sizeof out, list, sizeof list - 1, sheet, len);
        expect("the longest list", more || (most.other_count == sizeof list && less.number == GATE_NO_ROOM && gate_check(out, (size_t)most.count).number == 0));
        expect("deny grown past its limit, before 14", !more || (most.number == GATE_OVER_LIMIT && most.section == GATE_DENY && most.line == 0 && most.count == 0 &&
                                                               most.other_count == 0 && less.number == GATE_OVER_LIMIT));
    }
}

/* Line 4 is line 2 in other case, continued in line 5, and line 7 stands behind ALL: ALL. */
#define REPEATS "# x\nsshd: /vans EXCEPT van7\nall: 10.\nSSHD: /VANS\\\n\texcept,van7: log\nALL: ALL: %a\nftpd: van7\n"
#define TIDIED "# x\nsshd: /vans EXCEPT van7\nall: 10.\nALL: ALL: %a\n"
#define PROPOSE(room, section) gate_propose(OUT(room), TEXT(deny), TEXT(tables), section)
#define DROP(room, section) gate_drop(OUT(room), TEXT(deny), TEXT(tables), section, TEXT(proposal))

static void repeats(void) {
    begin();
    SET(deny, REPEATS);
}

static void proposals(void) {
    repeats(), lend();
    expect("a proposal in exact room", wrote(PROPOSE(8, GATE_DENY), "\0\0\0\4\0\0\0\7", 8));
    repeats(), lend();
    expect("one byte less for it", unwritten(PROPOSE(7, GATE_DENY), GATE_NO_ROOM, 0, 0));
    expect("a section of neither file", unwritten(PROPOSE(160, GATE_BYUID), GATE_BAD_REQUEST, 0, 0));
    expect("no section", unwritten(PROPOSE(160, GATE_NO_SECTION), GATE_BAD_REQUEST, 0, 0));
    SET(deny, TIDIED), lend();
    expect("nothing to propose, in no room", wrote(PROPOSE(0, GATE_ALLOW), "", 0));
    m.deny.len = 0, lend();
    expect("an empty file", wrote(PROPOSE(0, GATE_ALLOW), "", 0));
}

static void dropping(void) {
    repeats(), SET(proposal, "\0\0\0\4\0\0\0\7"), lend();
    expect("a tidied file in exact room", wrote(DROP(sizeof TIDIED - 1, GATE_DENY), TIDIED, sizeof TIDIED - 1));
    repeats(), SET(proposal, "\0\0\0\4\0\0\0\7"), lend();
    expect("one byte less for it", unwritten(DROP(sizeof TIDIED - 2, GATE_DENY), GATE_NO_ROOM, 0, 0));
    SET(proposal, "\0\0\0\7\0\0\0\4\0\0\0\7"), lend();
    expect("in any order, and repeated", wrote(DROP(160, GATE_DENY), TIDIED, sizeof TIDIED - 1));
    repeats(), SET(proposal, ""), lend();
    expect("no line", wrote(DROP(sizeof REPEATS - 1, GATE_ALLOW), REPEATS, sizeof REPEATS - 1));
    repeats(), SET(proposal, "\0\0\0\7"), lend();
    expect("one of two", wrote(DROP(160, GATE_ALLOW), REPEATS, sizeof REPEATS - 1 - 11));
}

/* Each proposal of lines is not accepted, and that comes before room. */
static void not_accepted(void) {
    static const uint8_t lines[] = {0, 1, 2, 3, 5, 6, 8, 255};
    repeats();
    for (size_t i = 0; i < sizeof lines; i++) {
        SET(proposal, "\0\0\0\4\0\0\0\0"), m.proposal.bytes[7] = lines[i], lend();
        expect("20 for a line of no rule, or of one that may fire", unwritten(DROP(0, GATE_DENY), GATE_BAD_PROPOSAL, 0, 0));
    }
    SET(proposal, "\0\0\0\4\0\0\0\7\0"), lend();
    expect("20 for a byte more", unwritten(DROP(160, GATE_DENY), GATE_BAD_PROPOSAL, 0, 0));
    SET(proposal, "\0\0\0\4\0\0\7"), lend();
    expect("20 for a byte less", unwritten(DROP(160, GATE_DENY), GATE_BAD_PROPOSAL, 0, 0));
    SET(proposal, "\1\0\0\4"), lend();
    expect("20 for a number of four bytes", unwritten(DROP(160, GATE_DENY), GATE_BAD_PROPOSAL, 0, 0));
    SET(proposal, "\0\0\0\6\0\0\0\7"), lend();
    expect("20 where the rule that covers goes too", unwritten(DROP(160, GATE_DENY), GATE_BAD_PROPOSAL, 0, 0));
}

static int both_refused(uint32_t given_section, uint32_t number, uint32_t section, uint64_t line) {
    lend();
    return unwritten(PROPOSE(0, given_section), number, section, line) && unwritten(DROP(0, given_section), number, section, line);
}

/* The file's own checks, in their order, before 20 and 14; 13 for the section before all. */
static void tidy_refusals(void) {
    static uint8_t over[GATE_DENY_LIMIT + 1];
    repeats();
    SET(deny, "ALL: ALL\nALL: /vans\nx\n");
    expect("7 in hosts.deny", both_refused(GATE_DENY, GATE_NO_ELEMENT, GATE_DENY, 3));
    expect("7 in hosts.allow", both_refused(GATE_ALLOW, GATE_NO_ELEMENT, GATE_ALLOW, 3));
    SET(deny, "x\nALL: /gone\nALL: /a");
    SET(tables, "\0\1\1a\0\0\0\2/A");
    m.tables.len--;
    expect("1 for cut tables, before the lines", both_refused(GATE_DENY, GATE_CUT_SHORT, GATE_TABLES, 0));
    expect("13 before all", both_refused(GATE_TABLES, GATE_BAD_REQUEST, 0, 0));
    lend();
    expect("2 before the tables", unwritten(gate_propose(OUT(0), over, sizeof over, TEXT(tables), GATE_DENY), GATE_OVER_LIMIT, GATE_DENY, 0));
    expect("the same of dropping", unwritten(gate_drop(OUT(0), over, sizeof over, TEXT(tables), GATE_ALLOW, TEXT(proposal)), GATE_OVER_LIMIT, GATE_ALLOW, 0));
    m.tables.len += 2;
    expect("3 for a byte behind", both_refused(GATE_DENY, GATE_TRAILING_BYTES, 0, 0));
    m.tables.len--;
    expect("the lines before 15", both_refused(GATE_DENY, GATE_NO_ELEMENT, GATE_DENY, 1));
    SET(deny, "\nALL: /a\nALL: /gone\n");
    expect("15 before 16", both_refused(GATE_ALLOW, GATE_TABLE_NAME, GATE_ALLOW, 3));
    m.deny.len -= 11;
    expect("16", both_refused(GATE_DENY, GATE_TOO_DEEP, GATE_DENY, 2));
    SET(deny, "");
    SET(tables, "\0\1\1a\0\0\0\6EXCEPT");
    expect("17, of an empty file too", both_refused(GATE_DENY, GATE_BAD_TABLE, GATE_TABLES, 1));
    SET(tables, "");
    expect("no bytes of tables are a cut", both_refused(GATE_DENY, GATE_CUT_SHORT, GATE_TABLES, 0));
}

/* By the tidied file the same word, file and command as by the file; the line is less by the two that went above it. */
static void tidied_verdicts(void) {
    repeats(), SET(allow, ""), SET(daemon, "x"), SET(client_name, "van9"), m.tables.len = 2, m.tables.bytes[1] = 0;
    SET(deny, "sshd: van8\nSSHD:\\\n VAN8: log\nx: KNOWN: %a\nsshd: van8\n"), lend();
    expect("a verdict by a file", decided(gate_tables_verdict(TEXT(allow), TEXT(deny), TEXT(tables), REQUEST(1)), GATE_DENIED, GATE_DENY, 4, 38, 3));
    SET(proposal, "\0\0\0\2\0\0\0\5"), lend();
    expect("the file tidied", wrote(DROP(160, GATE_DENY), "sshd: van8\nx: KNOWN: %a\n", 24));
    SET(deny, "sshd: van8\nx: KNOWN: %a\n"), lend();
    expect("a verdict by it", decided(gate_tables_verdict(TEXT(allow), TEXT(deny), TEXT(tables), REQUEST(1)), GATE_DENIED, GATE_DENY, 2, 20, 3));
}

/* An index of rules: what is written for a sheet, and each refusal of it. */
static void indexes(void) {
    begin(), lend();
    expect("an index in exact room", wrote(gate_index(OUT(72), TEXT(sheet)), TEXT(index)));
    begin(), lend();
    expect("one byte less for it", unwritten(gate_index(OUT(71), TEXT(sheet)), GATE_NO_ROOM, 0, 0));
    expect("more room than that", wrote(gate_index(OUT(160), TEXT(sheet)), TEXT(index)));
    begin(), m.sheet.len--, lend();
    expect("of a cut sheet, before room", unwritten(gate_index(OUT(0), TEXT(sheet)), GATE_CUT_SHORT, GATE_TABLES, 0));
    SET(sheet, "\0\0\0\4a:b\n\0\0\0\3a:b\0\0\0\0\0\0\0\0\0\0"), lend();
    expect("of a sheet with a bad line", unwritten(gate_index(OUT(160), TEXT(sheet)), GATE_UNENDED, GATE_DENY, 1));
    SET(sheet, "\0\0\0\2#\n\0\0\0\0\0\0\0\0\0\0\0\0\0\0"), lend();
    expect("of a sheet without rules", wrote(gate_index(OUT(8), TEXT(sheet)), "\0\0\0\0\0\0\0\0", 8));
    begin(), SET(sheet, "\0\0\0\0\0\0\0\x0a\na\\\n:b: c\n\0\0\0\0\0\0\0\0\0\0"), lend();
    SET(index, "\0\0\0\0\0\0\0\1\0\0\0\2\0\0\0\3\0\0\0\x09\0\0\0\x11\0\0\0\x09\0\0\0\x0c\0\0\0\x0d\0\0\0\x0e"), lend();
    expect("of a rule over two lines", wrote(gate_index(OUT(40), TEXT(sheet)), TEXT(index)));
}

#define VERDICTS(room) gate_verdicts(OUT(room), TEXT(sheet), TEXT(index), TEXT(requests))

/* Requests by a sheet and its index, in their order; a bad one in its place. */
static void many_verdicts(void) {
    begin(), lend();
    expect("one request in exact room", wrote(VERDICTS(36), GRANTED_ANSWER, 36));
    begin(), SET(requests, ASKED ASKED_X ASKED), lend();
    expect("three, in their order", wrote(VERDICTS(160), GRANTED_ANSWER DENIED_ANSWER GRANTED_ANSWER, 108));
    begin(), SET(requests, ASKED_X ASKED_BADLY ASKED), lend();
    expect("a bad one among good", wrote(VERDICTS(108), DENIED_ANSWER BAD_ANSWER GRANTED_ANSWER, 108));
    begin(), SET(requests, "\0" ENDS "\1\0"), lend();
    expect("a bad one alone", wrote(VERDICTS(36), BAD_ANSWER, 36));
    begin(), SET(requests, "\4sshd" ENDS "\1\3van"), lend();
    expect("the bytes of a user who is not known", wrote(VERDICTS(36), GRANTED_ANSWER, 36));
    begin(), m.requests.len = 0, lend();
    expect("no request, in no room", wrote(VERDICTS(0), "", 0));
}

/* The sheet's own refusal, then 21, then 13, then 14, each before all that follow. */
static void verdict_refusals(void) {
    begin(), SET(requests, ASKED ASKED), lend();
    expect("one byte less for two answers", unwritten(VERDICTS(71), GATE_NO_ROOM, 0, 0));
    expect("no room", unwritten(VERDICTS(0), GATE_NO_ROOM, 0, 0));
    SET(requests, ASKED_BADLY), lend();
    expect("no room for a refused one", unwritten(VERDICTS(35), GATE_NO_ROOM, 0, 0));
    SET(requests, ASKED ASKED), m.requests.len--, lend();
    expect("cut requests", unwritten(VERDICTS(0), GATE_BAD_REQUEST, 0, 0));
    for (size_t i = 0; i < m.index.len; i++) {
        m.index.bytes[i] ^= 1, lend();
        expect("a byte of the index changed", unwritten(VERDICTS(160), GATE_WRONG_INDEX, 0, 0));
        m.index.bytes[i] ^= 1;
    }
    m.index.len--, lend();
    expect("a cut index", unwritten(VERDICTS(0), GATE_WRONG_INDEX, 0, 0));
    m.index.len += 2, m.index.bytes[72] = 0, lend();
    expect("an index and a byte", unwritten(VERDICTS(0), GATE_WRONG_INDEX, 0, 0));
    m.index.len = 0, lend();
    expect("no index", unwritten(VERDICTS(160), GATE_WRONG_INDEX, 0, 0));
    m.sheet.len--, lend();
    expect("a cut sheet", unwritten(VERDICTS(0), GATE_CUT_SHORT, GATE_TABLES, 0));
    begin(), SET(sheet, "\0\0\0\2x\n\0\0\0\0\0\0\0\0\0\0\0\0\0\0"), lend();
    expect("a sheet with a bad line", unwritten(VERDICTS(160), GATE_NO_ELEMENT, GATE_ALLOW, 1));
}

/* What gate_sheet_verdict answers, as bytes. */
static void put_answer(uint8_t *out, struct gate_answer a) {
    const uint64_t numbers[7] = {a.number, a.section, a.line, a.word, a.file, a.place, a.len};
    for (size_t i = 0; i < 7; i++)
        gate_wire_write(out + 4 * i, 4, numbers[i]);
    gate_wire_write(out + 28, 8, a.looked);
}

/* As many as may be, one more, and the longest: each answer is that of the lone call. */
static void most_requests(void) {
    static uint8_t requests[(GATE_REQUESTS + 1) * GATE_REQUEST_ROOM], out[GATE_REQUESTS * GATE_ANSWER_BYTES + 1], alone[GATE_ANSWER_BYTES];
    size_t len = 0, one = sizeof ASKED - 1;
    begin();
    for (size_t i = 0; i <= GATE_REQUESTS; i++)
        memcpy(requests + i * one, ASKED, one);
    struct gate_written w = gate_verdicts(out, sizeof out, TEXT(sheet), TEXT(index), requests, GATE_REQUESTS * one);
    expect("32 requests", w.number == GATE_ANSWERED && w.count == GATE_REQUESTS * GATE_ANSWER_BYTES);
    put_answer(alone, gate_sheet_verdict(TEXT(sheet), REQUEST(1)));
    for (size_t i = 0; i < GATE_REQUESTS; i++)
        expect("each as alone", !memcmp(out + i * GATE_ANSWER_BYTES, alone, sizeof alone) && !memcmp(alone, GRANTED_ANSWER, sizeof alone));
    expect("33", gate_verdicts(out, sizeof out, TEXT(sheet), TEXT(index), requests, (GATE_REQUESTS + 1) * one).number == GATE_BAD_REQUEST);
    expect("32 and a byte", gate_verdicts(out, sizeof out, TEXT(sheet), TEXT(index), requests, GATE_REQUESTS * one + 1).number == GATE_BAD_REQUEST);
    expect("32 in less room", gate_verdicts(out, sizeof out - 2, TEXT(sheet), TEXT(index), requests, GATE_REQUESTS * one).number == GATE_NO_ROOM);
    memset(requests, 255, sizeof requests);
    for (; len < GATE_REQUESTS * GATE_REQUEST_ROOM; len += GATE_REQUEST_ROOM)
        requests[len + 256] = 2, requests[len + 257] = GATE_IPV6, requests[len + 530] = 2, requests[len + 531] = GATE_IPV4, requests[len + 804] = 1;
    w = gate_verdicts(out, sizeof out, TEXT(sheet), TEXT(index), requests, len);
    expect("32 of the longest", w.number == GATE_ANSWERED && w.count == GATE_REQUESTS * GATE_ANSWER_BYTES && !memcmp(out + 31 * 36, BAD_ANSWER, 36));
    expect("and one more", gate_verdicts(out, sizeof out, TEXT(sheet), TEXT(index), requests, len + GATE_REQUEST_ROOM).number == GATE_BAD_REQUEST);
}

/* The index of the most rules: GATE_INDEX_ROOM is enough, and no more than is needed. */
static void longest_index(void) {
    static uint8_t sheet[GATE_SHEET_LIMIT], index[GATE_INDEX_ROOM];
    size_t len = add_section(sheet, 0, "a:b\n", GATE_ALLOW_LIMIT / 4);
    len = add_section(sheet, len, "a:b\n", GATE_DENY_LIMIT / 4);
    len = add_section(sheet, add_section(sheet, len, "", 0), "", 0);
    sheet[len++] = 0, sheet[len++] = 0;
    begin();
    expect("one byte less than the longest index", gate_index(index, sizeof index - 1, sheet, len).number == GATE_NO_ROOM && index[3] == 0);
    struct gate_written w = gate_index(index, sizeof index, sheet, len);
    expect("the longest index", w.number == GATE_ANSWERED && w.count == sizeof index && gate_wire_number(index, 4) == 4096 &&
           gate_wire_number(index + sizeof index - 4, 4) == 32775);
    w = gate_verdicts(OUT(36), sheet, len, index, sizeof index, TEXT(requests));
    expect("an answer by it", w.count == 36 && gate_answer_read(m.out).looked == 8192 && gate_answer_read(m.out).word == GATE_GRANTED);
    index[sizeof index - 1] ^= 1;
    expect("its last byte changed", gate_verdicts(OUT(36), sheet, len, index, sizeof index, TEXT(requests)).number == GATE_WRONG_INDEX);
}

/* What a refused text is read as is refused wherever an address is taken. */
static void no_address(void) {
    begin(), lend();
    expect("no address for authbind", next_refused(gate_authbind(OUT(100), 80, GATE_NO_ADDRESS, 0, 0, 432, TEXT(answers)), GATE_BAD_REQUEST));
    expect("no address to write", unwritten(gate_write_address(OUT(100), GATE_NO_ADDRESS, 0, 0), GATE_BAD_REQUEST, 0, 0));
    expect("no address to bind", refused(gate_byuid(TEXT(byuid), GATE_PLAIN_FILE, 80, GATE_NO_ADDRESS, 0, 0, 432), GATE_BAD_REQUEST, 0, 0));
    expect("the same by a sheet", refused(gate_sheet_byuid(TEXT(sheet), 80, GATE_NO_ADDRESS, 0, 0, 432), GATE_BAD_REQUEST, 0, 0));
    for (int end = 0; end < 2; end++) {
        uint32_t client = end ? GATE_IPV4 : GATE_NO_ADDRESS, server = end ? GATE_NO_ADDRESS : GATE_IPV6;
#define NO_ADDRESS HOSTS(client, server), 1, TEXT(user_name)
        expect("a verdict on no address", refused(gate_verdict(TEXT(allow), TEXT(deny), NO_ADDRESS), GATE_BAD_REQUEST, 0, 0));
        expect("the same with tables", refused(gate_tables_verdict(TEXT(allow), TEXT(deny), TEXT(tables), NO_ADDRESS), GATE_BAD_REQUEST, 0, 0));
        expect("the same by a sheet", refused(gate_sheet_verdict(TEXT(sheet), NO_ADDRESS), GATE_BAD_REQUEST, 0, 0));
        expect("whether its name matters", refused(gate_name_matters(TEXT(allow), TEXT(deny), NO_ADDRESS), GATE_BAD_REQUEST, 0, 0));
        expect("the same with tables", refused(gate_tables_name_matters(TEXT(allow), TEXT(deny), TEXT(tables), NO_ADDRESS), GATE_BAD_REQUEST, 0, 0));
        expect("the same by a sheet", refused(gate_sheet_name_matters(TEXT(sheet), NO_ADDRESS), GATE_BAD_REQUEST, 0, 0));
        expect("its command", command_refused(gate_command(OUT(100), TEXT(allow), TEXT(deny), NO_ADDRESS, 7), GATE_BAD_REQUEST, 0, 0));
        expect("its command by a sheet", command_refused(gate_sheet_command(OUT(100), TEXT(sheet), NO_ADDRESS, 7), GATE_BAD_REQUEST, 0, 0));
        expect("its expansion", unwritten(gate_expand(OUT(100), TEXT(command), NO_ADDRESS, 7), GATE_BAD_REQUEST, 0, 0));
    }
}

/* What is handed over in each position that takes bytes or groups. */
enum position { ALLOW, DENY, BYUID, PORTACL, TABLES, SHEET, OLD_SHEET, GIVEN_COMMAND, ADDRESS, DAEMON, CLIENT_NAME, SERVER_NAME, USER_NAME, ANSWERS, PROPOSAL, GIVEN_INDEX, REQUESTS, LENT_OUT, LENT_MARKED, LENT_GROUPS, POSITIONS };
static struct {
    const void *start;
    size_t len;
} given[POSITIONS];

static struct answers {
    struct gate_answer verdict, tables_verdict, sheet_verdict, matters, tables_matters, sheet_matters, byuid, sheet_byuid, portacl, sheet_portacl;
    struct gate_command_answer command, sheet_command;
    struct gate_checked check;
    struct gate_parts parts;
    struct gate_written packed, upgraded, converted, expanded, written, proposed, dropped, indexed, decided;
    struct gate_written_two carried, salvaged;
    struct gate_next next;
    uint64_t address[3];
} here, null;

static void give_all(void) {
    const struct text *t[] = {&m.allow, &m.deny, &m.byuid, &m.portacl, &m.tables, &m.sheet, &m.old_sheet, &m.command, &m.address, &m.daemon,
                              &m.client_name, &m.server_name, &m.user_name, &m.answers, &m.proposal, &m.index, &m.requests};
    begin();
    SET(server_name, "station");
    for (int i = ALLOW; i <= REQUESTS; i++)
        given[i].start = t[i]->bytes, given[i].len = t[i]->len;
    given[LENT_OUT].start = m.out, given[LENT_OUT].len = sizeof m.out;
    given[LENT_MARKED].start = m.marked, given[LENT_MARKED].len = sizeof m.marked;
    given[LENT_GROUPS].start = m.groups, given[LENT_GROUPS].len = 2;
}

#define GIVEN(position) given[position].start, given[position].len
#define GIVEN_OUT (uint8_t *)given[LENT_OUT].start, given[LENT_OUT].len
#define GIVEN_REQUEST(state) \
    GIVEN(DAEMON), state, GATE_IPV4, 0, 0x0a000001, GIVEN(CLIENT_NAME), state, GATE_IPV6, 1, 2, GIVEN(SERVER_NAME), state, GIVEN(USER_NAME)
#define GIVEN_BIND 1, 1023, 1, 1, 81, GIVEN(LENT_GROUPS), GATE_UDP, 53

/* Every export with what is given; names and user of one state. */
static void call_all(struct answers *a, uint32_t state) {
    struct gate_address read = gate_read_address(GIVEN(ADDRESS));
    a->verdict = gate_verdict(GIVEN(ALLOW), GIVEN(DENY), GIVEN_REQUEST(state));
    a->tables_verdict = gate_tables_verdict(GIVEN(ALLOW), GIVEN(DENY), GIVEN(TABLES), GIVEN_REQUEST(state));
    a->sheet_verdict = gate_sheet_verdict(GIVEN(SHEET), GIVEN_REQUEST(state));
    a->matters = gate_name_matters(GIVEN(ALLOW), GIVEN(DENY), GIVEN_REQUEST(state));
    a->tables_matters = gate_tables_name_matters(GIVEN(ALLOW), GIVEN(DENY), GIVEN(TABLES), GIVEN_REQUEST(state));
    a->sheet_matters = gate_sheet_name_matters(GIVEN(SHEET), GIVEN_REQUEST(state));
    a->command = gate_command(GIVEN_OUT, GIVEN(ALLOW), GIVEN(DENY), GIVEN_REQUEST(state), 7);
    a->sheet_command = gate_sheet_command(GIVEN_OUT, GIVEN(SHEET), GIVEN_REQUEST(state), 7);
    a->byuid = gate_byuid(GIVEN(BYUID), GATE_PLAIN_FILE, 80, GATE_IPV4, 0, 0x0aff0001, 432);
    a->sheet_byuid = gate_sheet_byuid(GIVEN(SHEET), 80, GATE_IPV4, 0, 0x0aff0001, 432);
    a->portacl = gate_portacl(GIVEN(PORTACL), GIVEN_BIND);
    a->sheet_portacl = gate_sheet_portacl(GIVEN(SHEET), GIVEN_BIND);
    a->check = gate_check(GIVEN(SHEET));
    a->parts = gate_unpack(GIVEN(SHEET));
    a->packed = gate_pack(GIVEN_OUT, GIVEN(ALLOW), GIVEN(DENY), GIVEN(BYUID), GIVEN(PORTACL), GIVEN(TABLES));
    a->upgraded = gate_upgrade(GIVEN_OUT, GIVEN(OLD_SHEET));
    a->converted = gate_convert(GIVEN_OUT, GIVEN(BYUID));
    a->expanded = gate_expand(GIVEN_OUT, GIVEN(GIVEN_COMMAND), GIVEN_REQUEST(state), 7);
    a->written = gate_write_address(GIVEN_OUT, read.kind, read.high, read.low);
    a->next = gate_authbind(GIVEN_OUT, 80, read.kind, read.high, read.low, 432, GIVEN(ANSWERS));
    a->proposed = gate_propose(GIVEN_OUT, GIVEN(DENY), GIVEN(TABLES), GATE_DENY);
    a->dropped = gate_drop(GIVEN_OUT, GIVEN(DENY), GIVEN(TABLES), GATE_DENY, GIVEN(PROPOSAL));
    a->indexed = gate_index(GIVEN_OUT, GIVEN(SHEET));
    a->decided = gate_verdicts(GIVEN_OUT, GIVEN(SHEET), GIVEN(GIVEN_INDEX), GIVEN(REQUESTS));
    a->carried = gate_carry(GIVEN_OUT, (uint8_t *)given[LENT_MARKED].start, given[LENT_MARKED].len, GIVEN(PORTACL), 80);
    a->salvaged = gate_salvage(GIVEN_OUT, (uint8_t *)given[LENT_MARKED].start, given[LENT_MARKED].len, GIVEN(SHEET));
    a->address[0] = read.number, a->address[1] = read.high, a->address[2] = read.low;
}

/* No bytes at a null pointer are answered as no bytes elsewhere, in each position and beside names of each state. */
static void nulls(void) {
    for (int position = 0; position < POSITIONS; position++)
        for (uint32_t state = 0; state <= 2; state++) {
            char what[40];
            snprintf(what, sizeof what, "null in position %d, state %u", position, state);
            give_all();
            given[position].len = 0;
            call_all(&here, state);
            after = m;
            give_all();
            given[position].start = NULL, given[position].len = 0;
            call_all(&null, state);
            expect(what, !memcmp(&here, &null, sizeof here) && !memcmp(&m, &after, sizeof m));
        }
}

/* What no bytes are answered with, by the last call of all: a null pointer in one position, a name or user of one state. */
static const struct answers *without(int position, uint32_t state) {
    give_all();
    given[position].start = NULL, given[position].len = 0;
    call_all(&null, state);
    return &null;
}

static void null_answers(void) {
    expect("no allow text", without(ALLOW, 1)->verdict.word == GATE_DENIED && null.command.word == GATE_DENIED &&
           null.tables_verdict.word == GATE_DENIED && null.matters.word == GATE_DENIED && null.tables_matters.word == GATE_DENIED);
    expect("no texts to pack", without(BYUID, 1)->packed.count == m.sheet.len - 13 && without(PORTACL, 1)->packed.count == m.sheet.len - 27);
    expect("no fifth text", without(TABLES, 1)->packed.number == GATE_CUT_SHORT && null.packed.section == GATE_TABLES &&
           null.tables_verdict.number == GATE_CUT_SHORT && null.tables_matters.number == GATE_CUT_SHORT && null.verdict.number == GATE_ANSWERED);
    expect("no text to convert", without(BYUID, 1)->converted.number == GATE_ANSWERED && null.converted.count == 0);
    expect("no sheet to upgrade", without(OLD_SHEET, 1)->upgraded.number == GATE_CUT_SHORT && null.upgraded.section == GATE_ALLOW);
    expect("no sheet", without(SHEET, 1)->check.number == GATE_CUT_SHORT && null.check.section == GATE_ALLOW && null.sheet_verdict.number == GATE_CUT_SHORT &&
           null.sheet_command.number == GATE_CUT_SHORT && null.sheet_matters.number == GATE_CUT_SHORT);
    expect("no daemon", without(DAEMON, 1)->verdict.number == GATE_BAD_REQUEST && null.tables_verdict.number == GATE_BAD_REQUEST && null.expanded.number == GATE_BAD_REQUEST &&
           null.command.number == GATE_BAD_REQUEST && null.sheet_command.number == GATE_BAD_REQUEST);
    expect("no name", without(CLIENT_NAME, 0)->verdict.number == GATE_ANSWERED && without(CLIENT_NAME, 2)->verdict.number == GATE_BAD_REQUEST &&
           null.command.number == GATE_BAD_REQUEST && null.sheet_command.number == GATE_BAD_REQUEST);
    expect("no server's name", without(SERVER_NAME, 0)->verdict.number == GATE_ANSWERED && without(SERVER_NAME, 2)->verdict.number == GATE_BAD_REQUEST &&
           null.command.number == GATE_BAD_REQUEST && null.sheet_command.number == GATE_BAD_REQUEST);
    expect("no user whose name could matter", without(USER_NAME, 0)->matters.number == GATE_ANSWERED && without(USER_NAME, 2)->matters.number == GATE_BAD_REQUEST &&
           null.tables_matters.number == GATE_BAD_REQUEST && null.sheet_matters.number == GATE_BAD_REQUEST);
    expect("no user", without(USER_NAME, 0)->verdict.number == GATE_ANSWERED && without(USER_NAME, 2)->verdict.number == GATE_BAD_REQUEST &&
           null.command.number == GATE_BAD_REQUEST && null.sheet_command.number == GATE_BAD_REQUEST);
    expect("no groups", without(LENT_GROUPS, 1)->portacl.word == GATE_DENIED && null.byuid.word == GATE_GRANTED);
    expect("no room", without(LENT_OUT, 1)->packed.number == GATE_NO_ROOM && null.upgraded.number == GATE_NO_ROOM && null.converted.number == GATE_NO_ROOM && null.expanded.number == GATE_NO_ROOM && null.written.number == GATE_NO_ROOM);
    expect("no room for a rule's command", without(LENT_OUT, 2)->command.number == GATE_NO_ROOM && null.sheet_command.number == GATE_NO_ROOM &&
           null.verdict.word == GATE_GRANTED);
    expect("no room is enough for none", without(LENT_OUT, 1)->command.word == GATE_DENIED && null.sheet_command.word == GATE_DENIED);
    expect("no answers", without(ANSWERS, 1)->next.word == GATE_TEST && null.next.count == 23 && without(LENT_OUT, 1)->next.number == GATE_NO_ROOM);
    expect("no list to carry over, and no room", without(PORTACL, 1)->carried.number == GATE_ANSWERED && without(LENT_MARKED, 1)->carried.number == GATE_ANSWERED);
    expect("no sheet to salvage, and no room", without(SHEET, 1)->salvaged.number == GATE_CUT_SHORT && without(LENT_OUT, 1)->salvaged.number == GATE_NO_ROOM);
    expect("no room is enough for no changes", without(LENT_MARKED, 1)->salvaged.number == GATE_ANSWERED && null.salvaged.count == m.sheet.len);
    expect("no proposal", without(PROPOSAL, 1)->dropped.number == GATE_ANSWERED && null.dropped.count == m.deny.len && null.proposed.number == GATE_ANSWERED);
    expect("no file to tidy", without(DENY, 1)->dropped.number == GATE_BAD_PROPOSAL && null.proposed.number == GATE_ANSWERED && null.proposed.count == 0);
    expect("no tables to tidy by", without(TABLES, 1)->dropped.number == GATE_CUT_SHORT && null.proposed.number == GATE_CUT_SHORT && null.proposed.section == GATE_TABLES);
    expect("no index", without(GIVEN_INDEX, 1)->decided.number == GATE_WRONG_INDEX && null.indexed.number == GATE_ANSWERED);
    expect("no requests", without(REQUESTS, 1)->decided.number == GATE_ANSWERED && null.decided.count == 0);
    expect("no room for an index and for answers", without(LENT_OUT, 1)->indexed.number == GATE_NO_ROOM && null.decided.number == GATE_NO_ROOM);
    expect("no sheet of which to write an index", without(SHEET, 1)->indexed.number == GATE_CUT_SHORT && null.decided.number == GATE_CUT_SHORT);
    expect("no command", without(GIVEN_COMMAND, 1)->expanded.number == GATE_ANSWERED && null.expanded.count == 0);
    expect("no address", without(ADDRESS, 1)->address[0] == GATE_BAD_REQUEST && null.written.number == GATE_BAD_REQUEST);
}

/* Room that is always enough is enough, and no more than is needed. */
static void rooms(void) {
    static uint8_t out[GATE_EXPANSION_ROOM];
    uint8_t command[GATE_LINE_LIMIT], name[GATE_NAME_LIMIT], user[GATE_USER_LIMIT];
    memset(name, 'n', sizeof name), memset(user, 'u', sizeof user);
    for (size_t i = 0; i < sizeof command; i++)
        command[i] = (uint8_t)"%c"[i % 2];
    command[sizeof command - 1] = 'x';
#define LONGEST(room) gate_expand(out, room, command, sizeof command, user, sizeof user, GATE_NAME_KNOWN, GATE_IPV4, 0, 1, name, sizeof name, \
                                  GATE_NAME_UNKNOWN, GATE_ADDRESS_UNKNOWN, 0, 0, NULL, 0, GATE_USER_KNOWN, user, sizeof user, 7)
    expect("the longest expansion", LONGEST(sizeof out).count == sizeof out && out[0] == 'u' && out[sizeof out - 1] == 'x');
    expect("one byte less", LONGEST(sizeof out - 1).number == GATE_NO_ROOM);
#undef LONGEST
    uint8_t absent[3] = {0};
    expect("the longest name of authbind", gate_authbind(out, GATE_AUTHBIND_ROOM, 1023, GATE_IPV6, UINT64_MAX, UINT64_MAX, UINT32_MAX, absent, 1).count
           == GATE_AUTHBIND_ROOM);
    expect("the longest address", gate_write_address(out, GATE_ADDRESS_ROOM, GATE_IPV6, UINT64_MAX, UINT64_MAX).count == GATE_ADDRESS_ROOM);
}

/* The same for a file of the most rules, and for one of which none goes. */
static void tidy_rooms(void) {
    static uint8_t file[GATE_DENY_LIMIT], proposal[GATE_TIDY_ROOM], out[GATE_TIDY_ROOM];
    const uint8_t *none = (const uint8_t *)"\0\0";
    for (size_t i = 0; i < sizeof file; i++)
        file[i] = (uint8_t)"a:b\n"[i % 4];
    struct gate_written proposed = gate_propose(proposal, sizeof proposal, file, sizeof file, none, 2, GATE_DENY);
    expect("the longest proposal", proposed.number == GATE_ANSWERED && proposed.count == 4 * 4095 && proposal[3] == 2 && proposal[16378] == 16 && proposal[16379] == 0);
    struct gate_written dropped = gate_drop(out, sizeof out, file, sizeof file, none, 2, GATE_DENY, proposal, (size_t)proposed.count);
    expect("one rule is left of it", dropped.number == GATE_ANSWERED && dropped.count == 4 && !memcmp(out, "a:b\n", 4));
    dropped = gate_drop(out, sizeof out, file, sizeof file, none, 2, GATE_DENY, NULL, 0);
    expect("the longest file", dropped.number == GATE_ANSWERED && dropped.count == GATE_TIDY_ROOM && !memcmp(out, file, sizeof out));
    expect("one byte less", gate_drop(out, sizeof out - 1, file, sizeof file, none, 2, GATE_DENY, NULL, 0).number == GATE_NO_ROOM);
}

/* The same for the command of a rule, which shares its line with the shortest lists that fit: a daemon a, a client in 1. */
static void command_rooms(void) {
    static uint8_t out[GATE_EXPANSION_ROOM], sheet[GATE_SHEET_LIMIT];
    uint8_t allow[GATE_LINE_LIMIT + 1], name[GATE_NAME_LIMIT], user[GATE_USER_LIMIT];
    const size_t most = (GATE_LINE_LIMIT - 5) / 2 * (GATE_USER_LIMIT + 1 + GATE_NAME_LIMIT);
    memset(name, 'n', sizeof name), memset(user, 'u', sizeof user);
    for (size_t i = 0; i < sizeof allow; i++)
        allow[i] = (uint8_t)(i < 5 ? "a:1.:"[i] : i < sizeof allow - 1 ? "%c"[(i - 5) % 2] : '\n');
    size_t len = (size_t)gate_pack(sheet, sizeof sheet, allow, sizeof allow, NULL, 0, NULL, 0, NULL, 0, (const uint8_t *)"\0\0", 2).count;
#define LONGEST allow, 1, GATE_NAME_KNOWN, GATE_IPV4, 0, 0x01000000, name, sizeof name, GATE_NAME_UNKNOWN, GATE_ADDRESS_UNKNOWN, 0, 0, NULL, 0, \
                GATE_USER_KNOWN, user, sizeof user, 7
    expect("a rule's longest command", gate_command(out, sizeof out, allow, sizeof allow, NULL, 0, LONGEST).count == most);
    expect("the same by a sheet", gate_sheet_command(out, sizeof out, sheet, len, LONGEST).count == most && out[most - 1] == 'n');
    expect("one byte less", gate_command(out, most - 1, allow, sizeof allow, NULL, 0, LONGEST).number == GATE_NO_ROOM);
    expect("one byte less by a sheet", gate_sheet_command(out, most - 1, sheet, len, LONGEST).number == GATE_NO_ROOM);
}

/* A name that is not known is not read: its bytes may be on a page that can't be. */
static void unread(void) {
    void *page = mmap(NULL, 4096, PROT_NONE, MAP_PRIVATE | MAP_ANONYMOUS, -1, 0);
    if (page == MAP_FAILED) {
        expect("a page that can't be read", 0);
        return;
    }
    const uint8_t *name = page;
#define NAMING (const uint8_t *)"ALL@/a: ALL\nALL: /a, a@/A\n", 26
#define UNREAD(state, user) TEXT(daemon), state, GATE_IPV4, 0, 0x0a000001, name, 64, state, GATE_IPV6, 1, 2, name, 64, user, name, 64
    begin();
    SET(allow, "sshd@LOCAL, sshd@.x, sshd@x: ALL\nsshd: LOCAL, .x.example, van7, x@.x, a@LOCAL: log\n");
    SET(deny, "ALL: ALL: %n%N%h%H%u%c%s\n");
    SET(command, "%n%N%h%H%u%c%s");
    SET(tables, "\0\1\1a\0\0\0\x15LOCAL .x.example van7");
    m.sheet.len = (size_t)gate_pack(m.sheet.bytes, sizeof m.sheet.bytes, TEXT(allow), TEXT(deny), TEXT(byuid), TEXT(portacl), TEXT(tables)).count;
    for (uint32_t state = GATE_NAME_UNKNOWN; state < GATE_NAME_KNOWN; state++) {
        for (uint32_t user = GATE_USER_NOT_FETCHED; user < GATE_USER_KNOWN; user++) {
            expect("a verdict on names that are not known", gate_verdict(TEXT(allow), TEXT(deny), UNREAD(state, user)).word == GATE_DENIED);
            expect("the same with tables", gate_tables_verdict(NAMING, TEXT(deny), TEXT(tables), UNREAD(state, user)).word == GATE_DENIED);
            expect("the same by a sheet", gate_sheet_verdict(TEXT(sheet), UNREAD(state, user)).word == GATE_DENIED);
            expect("whether the user's matters", gate_name_matters(TEXT(allow), TEXT(deny), UNREAD(state, user)).word == GATE_DENIED);
            expect("the same with tables", gate_tables_name_matters(NAMING, TEXT(deny), TEXT(tables), UNREAD(state, user)).word == GATE_DENIED);
            expect("the same by a sheet", gate_sheet_name_matters(TEXT(sheet), UNREAD(state, user)).word == GATE_DENIED);
            uint64_t count = gate_expand(OUT(sizeof m.out), TEXT(command), UNREAD(state, user), 7).count;
            expect("their expansion", count > 0);
            expect("a verdict and its command", gate_command(OUT(sizeof m.out), TEXT(allow), TEXT(deny), UNREAD(state, user), 7).count == count);
            expect("the same by a sheet", gate_sheet_command(OUT(sizeof m.out), TEXT(sheet), UNREAD(state, user), 7).count == count);
        }
    }
    munmap(page, 4096);
}

int main(void) {
    verdicts();
    mapped();
    tables();
    names_matter();
    names_matter_by_sheet();
    upgrades();
    conversions();
    commands();
    sheet_commands();
    byuid();
    files();
    portacl();
    by_sheet();
    sheets();
    expansion();
    addresses();
    authbind();
    carry();
    salvage();
    most_changes();
    proposals();
    dropping();
    not_accepted();
    tidy_refusals();
    tidied_verdicts();
    indexes();
    many_verdicts();
    verdict_refusals();
    most_requests();
    longest_index();
    no_address();
    nulls();
    null_answers();
    rooms();
    tidy_rooms();
    command_rooms();
    unread();
    if (!failed)
        printf("calls: all as expected\n");
    return failed;
}
