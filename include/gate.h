/* The access gate for C: verdicts, one or many at once, port decisions, authbind's order, station sheets and their indexes, rules that never
 * fire, command expansion and addresses.
 *
 * Linking: libgate.a is a static archive; there is no shared library. From the C library it needs memcpy, memmove and memset, and nothing
 * else. It allocates nothing and keeps nothing between calls, so any thread may call any function at any time, with GATE_STACK bytes
 * of stack.
 *
 * This file has two parts. The exports, below, take bytes and numbers. The calls behind them, whose names end in _for, are inline
 * and take a struct gate_request or its like, so that every field is set by its name; use these.
 *
 * Bytes. A text (`const uint8_t *x, size_t x_len`) is any x_len bytes, with no ending zero. Where the length is 0 the pointer may be
 * null: no name, no text, no groups, no room. (This rests on the compiled code, which follows no pointer to nothing, and on tests/calls.c,
 * which hands over null in every position.) Nothing is read beyond the length. Inputs may overlap each other.
 *
 * Output (`uint8_t *out, size_t out_len`). What a function writes stands at the front of out; the bytes behind it stay as they are.
 * out must overlap no input. A refusal writes nothing.
 *
 * Refusals. Every answer begins with number, section and line. Number 0 is an answer; any other number is a refusal, and then all
 * members but these three are 0, and the kind of an address is GATE_NO_ADDRESS: nothing of it can be taken for an answer. Where several
 * refusals hold, the one given is the first in the order of the papers: those of the sheet, of the texts or of the command, 15 to 17 behind
 * 12 and 22 behind these, then 13, then 14; gate_propose and gate_drop have 13 first, and gate_verdicts has 21 before it.
 *
 * Requests. The same seventeen arguments describe a request to gate_verdict, gate_tables_verdict, gate_sheet_verdict, gate_name_matters,
 * gate_tables_name_matters, gate_sheet_name_matters, gate_command, gate_sheet_command and gate_expand:
 *   daemon         1 to 64 bytes
 *   client_state   enum gate_name; client_name is 1 to 255 bytes where it is known, and not looked at otherwise
 *   client_kind    enum gate_kind, with client_high and client_low (see there)
 *   server_..      the same for the server's end of the connection; both addresses are held as IPv4 where they are IPv6 ones of 80 zero
 *                  bits and then 16 ones (::ffff:10.1.2.3 as 10.1.2.3), so an IPv4 client may come on an IPv6 socket
 *   user           enum gate_user; user_name is 1 to 64 bytes where it is known, and not looked at otherwise
 * Names may hold any bytes. What is not among these sizes and numbers is refused by GATE_BAD_REQUEST. */
#ifndef GATE_H
#define GATE_H

#include <stddef.h>
#include <stdint.h>

#ifdef __cplusplus
extern "C" {
#endif

#define GATE_VERSION "4.4.0"

/* Numbers: of an answer, or of a refusal. */
enum gate_number {
    GATE_ANSWERED = 0,
    GATE_CUT_SHORT = 1,        /* a count or its bytes run past the end of the sheet */
    GATE_OVER_LIMIT = 2,       /* a section's count, or a text handed in directly, is over its limit */
    GATE_TRAILING_BYTES = 3,   /* bytes follow the last section */
    GATE_UNENDED = 4,          /* the last logical line of allow or deny has no ending newline */
    GATE_BAD_BYTE = 5,         /* a line other than a comment holds a byte outside 9 and 32 to 126 */
    GATE_LONG_LINE = 6,        /* a logical line is over 2,047 bytes after joining */
    GATE_NO_ELEMENT = 7,       /* no first separator, or a list with no element */
    GATE_MISPLACED_EXCEPT = 8, /* EXCEPT not directly between two elements */
    GATE_RESERVED_START = 9,   /* an element, or the half after its @, begins with @; or a daemon element begins with / */
    GATE_UNKNOWN_ELEMENT = 10, /* any other element of no known kind */
    GATE_BAD_PERCENT = 11,     /* % at the command's end or before any byte not listed */
    GATE_BAD_ENTRY = 12,       /* a portacl entry not of its form */
    GATE_BAD_REQUEST = 13,     /* a request field outside its size or its kinds */
    GATE_NO_ROOM = 14,         /* the whole output is longer than out_len */
    GATE_TABLE_NAME = 15,      /* a table's name is missing, in a rule or in a table, or given twice */
    GATE_TOO_DEEP = 16,        /* a rule leads more than four tables deep */
    GATE_BAD_TABLE = 17,       /* any other fault of the tables, their limits included */
    GATE_DOTTED_ADDRESS = 18,  /* an IPv6 address that inet_ntop may write with dots; by gate_authbind */
    GATE_LATE_ANSWER = 19,     /* an answer after the one that settles the matter, or after the last test; by gate_authbind */
    GATE_BAD_PROPOSAL = 20,    /* a proposal that is not accepted; by gate_drop */
    GATE_WRONG_INDEX = 21,     /* an index that is not the one of the sheet; by gate_verdicts */
    GATE_RETIRED_FORM = 22     /* a byuid line of the form addr4/len:pmin,pmax that used to grant */
};

/* Sections. A sheet has the five in this order: four texts, each behind its count of bytes in four bytes, and the tables, whose own counts
 * say where they end: how many there are, in two bytes, and for each its name behind a count in one byte and its text behind one in four. */
enum gate_section {
    GATE_NO_SECTION = 0, /* of 3, 13, 14 and 18 to 21, and of a command's refusals */
    GATE_ALLOW = 1,
    GATE_DENY = 2,
    GATE_BYUID = 3,
    GATE_PORTACL = 4,
    GATE_TABLES = 5
};

/* The most bytes of each section, the tables with all their counts, and of a sheet. */
#define GATE_ALLOW_LIMIT 16384
#define GATE_DENY_LIMIT 16384
#define GATE_BYUID_LIMIT 8192
#define GATE_PORTACL_LIMIT 4096
#define GATE_TABLES_LIMIT 12288
#define GATE_SHEET_LIMIT 57360

/* The most tables, and the most bytes of a table's name. */
#define GATE_TABLES_COUNT 64
#define GATE_TABLE_NAME_LIMIT 64

/* The most bytes of a request's names, and the most groups. */
#define GATE_DAEMON_LIMIT 64
#define GATE_NAME_LIMIT 255 /* of a host */
#define GATE_USER_LIMIT 64
#define GATE_GROUPS_LIMIT 16

/* The most bytes of a logical line, and of a command, after joining. */
#define GATE_LINE_LIMIT 2047

/* Room that is always enough: for an address (eight groups of four digits and seven colons), and for an expanded command. Of the
 * directives, each of two bytes, none writes more than %c (user@name) and %s (daemon@name): so 1,023 times 64 + 1 + 255, and the one
 * byte left over. */
#define GATE_ADDRESS_ROOM 39
#define GATE_AUTHBIND_ROOM 66 /* for a name of gate_authbind: /etc/authbind/byaddr/!, an address, a comma and a port of four digits */
#define GATE_CARRY_ROOM GATE_PORTACL_LIMIT /* for each text of gate_carry: both together are never longer than the list */
/* For the list of gate_salvage, eight bytes for each change: as many lines `x` as allow has room for, as many `ALL: ALL` as deny has, as many
 * lines 0.0.0.0/0:0,0 as byuid has, and the entries of a portacl text of commas alone. */
#define GATE_CHANGES_ROOM (8 * (GATE_ALLOW_LIMIT / 2 + GATE_DENY_LIMIT / 9 + (GATE_BYUID_LIMIT + 1) / 14 + GATE_PORTACL_LIMIT + 1))
#define GATE_TIDY_ROOM GATE_ALLOW_LIMIT /* for what gate_propose and gate_drop write: neither is longer than the file that they are given */
/* For the index of a sheet: two numbers, and eight for each rule, of four bytes each. No rule is shorter than `a:b` and its newline. */
#define GATE_INDEX_ROOM (8 + 32 * (GATE_ALLOW_LIMIT / 4 + GATE_DENY_LIMIT / 4))
/* The most requests of gate_verdicts; the most bytes of one, 41 and four texts behind counts of one byte; and the bytes of an answer. */
#define GATE_REQUESTS 32
#define GATE_REQUEST_ROOM (41 + 4 * 255)
#define GATE_ANSWER_BYTES 36
#define GATE_EXPANSION_ROOM (GATE_LINE_LIMIT / 2 * (GATE_USER_LIMIT + 1 + GATE_NAME_LIMIT) + GATE_LINE_LIMIT % 2)

/* The stack that any call needs, in bytes, with a margin; the caller's own frames come on top. On x86-64 the most is some 50,000, by
 * gate_drop and gate_propose: a mark for each line of a file, in 16,500, above the search for rules that an earlier one covers, 33,400. The
 * others take less; most of theirs are the notes on how deep each of up to 65,535 tables leads, or the walk through
 * them. Only that walk calls itself, to a depth of five; a line may have as many EXCEPTs as it will, as the sides of EXCEPT call each other last,
 * in a loop. The calls for a byuid or portacl text, an upgrade, a conversion, an expansion or an address stay under 5,000. It was found in two
 * ways: tests/stack.py adds up the frames of the archive's functions along the deepest path of calls, for any input, and tests/stack.c paints
 * the stack of a thread whose whole stack is this, and makes every call on the worst inputs known; some 50,100 by these. The margin also
 * covers the first call of memcpy through a dynamic linker (some 3,000). */
#define GATE_STACK 65536

/* Words of a decision. */
enum gate_word {
    GATE_NO_WORD = 0, /* refused */
    GATE_GRANTED = 1, /* by all three decisions, by gate_authbind, and by gate_name_matters where every user is granted */
    GATE_DENIED = 2,  /* by a verdict, by portacl and by gate_authbind, and by gate_name_matters where every user is denied */
    GATE_ASK = 3,     /* by a verdict: fetch the user, then call again */
    GATE_NO_LINE = 4, /* by byuid: no line grants */
    GATE_NOT_RULED = 5, /* by byuid and portacl, and by gate_authbind */
    GATE_EXEMPT = 6,  /* by portacl */
    GATE_TEST = 7,    /* by gate_authbind: test the file whose name was written */
    GATE_READ = 8,    /* by gate_authbind: read the byuid file whose name was written */
    GATE_NAME_MATTERS = 9 /* by gate_name_matters and its like: two users get different answers */
};

/* What is known of a host's name. */
enum gate_name {
    GATE_NAME_UNKNOWN = 0,
    GATE_NAME_PARANOID = 1, /* name and address disagree */
    GATE_NAME_KNOWN = 2
};

/* What is known of the client's user. */
enum gate_user {
    GATE_USER_NOT_FETCHED = 0, /* a verdict may answer GATE_ASK */
    GATE_USER_UNKNOWN = 1,
    GATE_USER_KNOWN = 2
};

/* Addresses are numbers: the first byte on the wire is the most significant. */
enum gate_kind {
    GATE_ADDRESS_UNKNOWN = 0, /* high and low are not looked at */
    GATE_IPV4 = 4,            /* the 32 bits in low; high is not looked at */
    GATE_IPV6 = 6,            /* the first 64 bits in high, the last 64 in low */
    GATE_NO_ADDRESS = 255     /* what a text that is no address is read as; every call that takes an address refuses it by 13 */
};

/* The byuid file that a text comes from: authbind has two for an account, byuid/432 and byuid/!432. */
enum gate_mark {
    GATE_PLAIN_FILE = 0, /* grants ports 1 to 511 only; the byuid section of a sheet is this one */
    GATE_MARKED_FILE = 1 /* with a ! before its leaf name: grants ports 512 to 1023 only */
};

/* What an access test found: a byte of gate_authbind's answers. */
enum gate_access {
    GATE_ABSENT = 0,  /* the file does not exist: ENOENT */
    GATE_ALLOWED = 1, /* access(2) allows it to be executed */
    GATE_OTHER = 2    /* anything else: authbind refuses the bind */
};

/* Protocols of a bind, as IP numbers them. */
enum gate_protocol {
    GATE_TCP = 6,
    GATE_UDP = 17
};

/* A decision. */
struct gate_answer {
    uint32_t number;  /* enum gate_number */
    uint32_t section; /* of a refusal: enum gate_section; else 0 */
    uint64_t line;    /* of a refusal: the line, the entry for 12, or the table for section 5, from 1, or 0; of a verdict: of its rule, or 0 */
    uint32_t word;    /* enum gate_word */
    uint32_t file;    /* of a verdict: the file of the deciding rule, GATE_ALLOW or GATE_DENY; else 0 */
    uint64_t place;   /* where the rule's raw command begins: in that file's text, by texts; in the sheet, by a sheet */
    uint64_t len;     /* its length; 0 where there is no command, and then place says nothing */
    uint64_t looked;  /* of a verdict: how many elements were looked at for it, those tried in tables too; 2^64 - 1 where there were more */
};

/* A verdict, and its rule's command written for the request. As struct gate_answer, and: */
struct gate_command_answer {
    uint32_t number, section;
    uint64_t line;
    uint32_t word, file;
    uint64_t place, len;
    uint64_t count; /* bytes written; 0 where there is no command: at GATE_ASK too, and where no rule decided */
    uint64_t looked;
};

/* What a check alone answers. */
struct gate_checked {
    uint32_t number, section;
    uint64_t line;
};

/* What a call that writes answers. */
struct gate_written {
    uint32_t number, section;
    uint64_t line;
    uint64_t count; /* bytes written */
};

/* What a call that writes into two outputs answers. */
struct gate_written_two {
    uint32_t number, section;
    uint64_t line;
    uint64_t count, other_count; /* bytes written into the first and into the second */
};

/* What comes next in authbind's order. */
struct gate_next {
    uint32_t number, section;
    uint64_t line;
    uint32_t word;  /* GATE_TEST, GATE_READ, GATE_GRANTED, GATE_DENIED or GATE_NOT_RULED */
    uint64_t count; /* bytes of the name written; 0 at an outcome */
};

/* Where the five texts stand in an accepted sheet; the fifth is the whole section of the tables, its count included. */
struct gate_parts {
    uint32_t number, section;
    uint64_t line;
    uint64_t allow_place, allow_len;
    uint64_t deny_place, deny_len;
    uint64_t byuid_place, byuid_len;
    uint64_t portacl_place, portacl_len;
    uint64_t tables_place, tables_len;
};

/* An address that was read. */
struct gate_address {
    uint32_t number, section;
    uint64_t line;
    uint32_t kind; /* GATE_IPV4 or GATE_IPV6; of a refused text GATE_NO_ADDRESS, which is not that of an unknown address */
    uint64_t high, low;
};

/* The verdict of hosts_access(5): by the texts of hosts.allow and hosts.deny. It has no tables: any /name in a rule is refused by 15. */
struct gate_answer gate_verdict(const uint8_t *allow, size_t allow_len, const uint8_t *deny, size_t deny_len,
                                const uint8_t *daemon, size_t daemon_len,
                                uint32_t client_state, uint32_t client_kind, uint64_t client_high, uint64_t client_low,
                                const uint8_t *client_name, size_t client_name_len,
                                uint32_t server_state, uint32_t server_kind, uint64_t server_high, uint64_t server_low,
                                const uint8_t *server_name, size_t server_name_len,
                                uint32_t user, const uint8_t *user_name, size_t user_name_len);

/* The same with tables: the bytes of a section five, two zero bytes where there are none. They are checked as in a sheet. */
struct gate_answer gate_tables_verdict(const uint8_t *allow, size_t allow_len, const uint8_t *deny, size_t deny_len,
                                       const uint8_t *tables, size_t tables_len,
                                       const uint8_t *daemon, size_t daemon_len,
                                       uint32_t client_state, uint32_t client_kind, uint64_t client_high, uint64_t client_low,
                                       const uint8_t *client_name, size_t client_name_len,
                                       uint32_t server_state, uint32_t server_kind, uint64_t server_high, uint64_t server_low,
                                       const uint8_t *server_name, size_t server_name_len,
                                       uint32_t user, const uint8_t *user_name, size_t user_name_len);

/* The same by a sheet, with its tables. The whole sheet is checked, as gate_check does. */
struct gate_answer gate_sheet_verdict(const uint8_t *sheet, size_t sheet_len,
                                      const uint8_t *daemon, size_t daemon_len,
                                      uint32_t client_state, uint32_t client_kind, uint64_t client_high, uint64_t client_low,
                                      const uint8_t *client_name, size_t client_name_len,
                                      uint32_t server_state, uint32_t server_kind, uint64_t server_high, uint64_t server_low,
                                      const uint8_t *server_name, size_t server_name_len,
                                      uint32_t user, const uint8_t *user_name, size_t user_name_len);

/* Can the client's user change the verdict: for use before an ident lookup, which makes the client wait. GATE_NAME_MATTERS exactly if two
 * users, unknown or any name of 1 to 64 bytes, get a different verdict, file or line; then fetch the user and ask gate_verdict. Else the word,
 * the file and the line are those that every user gets, GATE_GRANTED or GATE_DENIED, and no lookup is needed: gate_verdict may still answer
 * GATE_ASK there, as it asks at the first element with an @ whose host matches. place, len and looked are 0: for the command, call
 * gate_verdict with GATE_USER_UNKNOWN. The request's own user is checked, as every field, and otherwise without effect. What gate_verdict
 * refuses is refused in the same way. */
struct gate_answer gate_name_matters(const uint8_t *allow, size_t allow_len, const uint8_t *deny, size_t deny_len,
                                     const uint8_t *daemon, size_t daemon_len,
                                     uint32_t client_state, uint32_t client_kind, uint64_t client_high, uint64_t client_low,
                                     const uint8_t *client_name, size_t client_name_len,
                                     uint32_t server_state, uint32_t server_kind, uint64_t server_high, uint64_t server_low,
                                     const uint8_t *server_name, size_t server_name_len,
                                     uint32_t user, const uint8_t *user_name, size_t user_name_len);

/* The same with tables, as gate_tables_verdict. */
struct gate_answer gate_tables_name_matters(const uint8_t *allow, size_t allow_len, const uint8_t *deny, size_t deny_len,
                                            const uint8_t *tables, size_t tables_len,
                                            const uint8_t *daemon, size_t daemon_len,
                                            uint32_t client_state, uint32_t client_kind, uint64_t client_high, uint64_t client_low,
                                            const uint8_t *client_name, size_t client_name_len,
                                            uint32_t server_state, uint32_t server_kind, uint64_t server_high, uint64_t server_low,
                                            const uint8_t *server_name, size_t server_name_len,
                                            uint32_t user, const uint8_t *user_name, size_t user_name_len);

/* The same by a sheet, as gate_sheet_verdict. */
struct gate_answer gate_sheet_name_matters(const uint8_t *sheet, size_t sheet_len,
                                           const uint8_t *daemon, size_t daemon_len,
                                           uint32_t client_state, uint32_t client_kind, uint64_t client_high, uint64_t client_low,
                                           const uint8_t *client_name, size_t client_name_len,
                                           uint32_t server_state, uint32_t server_kind, uint64_t server_high, uint64_t server_low,
                                           const uint8_t *server_name, size_t server_name_len,
                                           uint32_t user, const uint8_t *user_name, size_t user_name_len);

/* gate_verdict, and the command of the rule that decided, written to out as gate_expand writes it for the same request, process being its
 * %p: one call decides and expands. Where the verdict is refused, that is the answer. Where the command has no room in out it is 14, and
 * there is no verdict; GATE_EXPANSION_ROOM bytes are always room enough. */
struct gate_command_answer gate_command(uint8_t *out, size_t out_len, const uint8_t *allow, size_t allow_len, const uint8_t *deny,
                                        size_t deny_len, const uint8_t *daemon, size_t daemon_len,
                                        uint32_t client_state, uint32_t client_kind, uint64_t client_high, uint64_t client_low,
                                        const uint8_t *client_name, size_t client_name_len,
                                        uint32_t server_state, uint32_t server_kind, uint64_t server_high, uint64_t server_low,
                                        const uint8_t *server_name, size_t server_name_len,
                                        uint32_t user, const uint8_t *user_name, size_t user_name_len, uint32_t process);

/* The same by a sheet, as gate_sheet_verdict. */
struct gate_command_answer gate_sheet_command(uint8_t *out, size_t out_len, const uint8_t *sheet, size_t sheet_len,
                                              const uint8_t *daemon, size_t daemon_len,
                                              uint32_t client_state, uint32_t client_kind, uint64_t client_high, uint64_t client_low,
                                              const uint8_t *client_name, size_t client_name_len,
                                              uint32_t server_state, uint32_t server_kind, uint64_t server_high, uint64_t server_low,
                                              const uint8_t *server_name, size_t server_name_len,
                                              uint32_t user, const uint8_t *user_name, size_t user_name_len, uint32_t process);

/* May uid bind this port (0 to 65535) at this address, by authbind(1)'s byuid file: GATE_GRANTED, GATE_NO_LINE, or GATE_NOT_RULED,
 * which is what root and ports outside 1 to 1023 get by either file. mark says which file the text comes from (enum gate_mark); a port of
 * the other file's span gets GATE_NO_LINE. An unknown address is refused by 13, and so is a mark of neither kind; before that, a text with a
 * line of the form addr4/len:pmin,pmax that used to grant by 22, at the first such line: gate_convert rewrites them. The address stays as it
 * is given: ::ffff:10.1.2.3 is IPv6 here. */
struct gate_answer gate_byuid(const uint8_t *text, size_t text_len, uint32_t mark, uint32_t port, uint32_t kind, uint64_t high,
                              uint64_t low, uint32_t uid);

/* The same by a sheet, whose byuid section is the plain file: it grants no port over 511. */
struct gate_answer gate_sheet_byuid(const uint8_t *sheet, size_t sheet_len, uint32_t port, uint32_t kind, uint64_t high,
                                    uint64_t low, uint32_t uid);

/* Which file authbind(1) looks at next, where uid binds this port (0 to 65535) at this address: answers has a byte for each access test so
 * far (enum gate_access), none at first. GATE_TEST: test the file whose name is written to out, by access(2) for X_OK, and call again with
 * its answer behind the others. GATE_READ: no test settled it; read the byuid file whose name is written, and ask gate_byuid, which takes
 * GATE_MARKED_FILE for ports 512 to 1023. GATE_GRANTED and GATE_DENIED: the last answer settled it. GATE_NOT_RULED: root, or a port outside 1
 * to 1023. An unknown address or an answer of no kind is refused by 13; then 18, 19 and 14. GATE_AUTHBIND_ROOM bytes are always room
 * enough; an outcome needs none. */
struct gate_next gate_authbind(uint8_t *out, size_t out_len, uint32_t port, uint32_t kind, uint64_t high, uint64_t low, uint32_t uid,
                               const uint8_t *answers, size_t answers_len);

/* May uid, with at most 16 groups, bind this port (0 to 65535), by mac_portacl(4)'s rules and its four settings: GATE_GRANTED,
 * GATE_DENIED, GATE_EXEMPT or GATE_NOT_RULED. groups_len counts groups, not bytes. */
struct gate_answer gate_portacl(const uint8_t *text, size_t text_len,
                                uint32_t enabled, uint32_t port_high, uint32_t suser_exempt, uint32_t autoport_exempt,
                                uint32_t uid, const uint32_t *groups, size_t groups_len, uint32_t protocol, uint32_t port);

/* Writes the byuid lines that grant uid what a portacl list grants it: a port for which the list has both a tcp and a udp entry of that uid
 * is granted to every address. Those from 1 to 511 go to plain, the text of the plain file, those from 512 to 1023 to marked; entries of
 * groups and all other ports are left out. Refused by 2 and 12 for the list, then by 13 for uid 0, which authbind never rules, then by 14
 * where either text has no room: then neither is written. GATE_CARRY_ROOM bytes are room enough for each. plain and marked do not overlap. */
struct gate_written_two gate_carry(uint8_t *plain, size_t plain_len, uint8_t *marked, size_t marked_len, const uint8_t *text, size_t text_len,
                                   uint32_t uid);

struct gate_answer gate_sheet_portacl(const uint8_t *sheet, size_t sheet_len,
                                      uint32_t enabled, uint32_t port_high, uint32_t suser_exempt, uint32_t autoport_exempt,
                                      uint32_t uid, const uint32_t *groups, size_t groups_len, uint32_t protocol, uint32_t port);

/* Is this a sound sheet: its frame, the lines and entries of its texts, and its tables. */
struct gate_checked gate_check(const uint8_t *sheet, size_t sheet_len);

/* The same, and where its texts stand. */
struct gate_parts gate_unpack(const uint8_t *sheet, size_t sheet_len);

/* Packs five texts into a sheet; GATE_SHEET_LIMIT bytes are always room enough. tables is a section five, as gate_unpack hands it back: two
 * zero bytes where there are no tables; none at all is a section cut short, refused by 1. */
struct gate_written gate_pack(uint8_t *out, size_t out_len, const uint8_t *allow, size_t allow_len, const uint8_t *deny,
                              size_t deny_len, const uint8_t *byuid, size_t byuid_len, const uint8_t *portacl,
                              size_t portacl_len, const uint8_t *tables, size_t tables_len);

/* Makes a sheet of five sections out of one of four, as sheets were before there were tables: writes its bytes and the two zero bytes of no
 * tables. Only the frame of the four sections is looked at, and refused by 1, 2 or 3, a sheet that has tables by 3; their lines may be at
 * fault, and gate_check says so afterwards. sheet_len + 2 bytes are room enough. */
struct gate_written gate_upgrade(uint8_t *out, size_t out_len, const uint8_t *sheet, size_t sheet_len);

/* Writes a byuid text, from the plain or the marked file, with every line addr4/len:pmin,pmax that used to grant as addr4/len,pmin-pmax,
 * which grants the same; all other bytes stay. Refused by 2 where the text is over its limit, then by 14. text_len bytes are room enough. */
struct gate_written gate_convert(uint8_t *out, size_t out_len, const uint8_t *text, size_t text_len);

/* Writes a sheet with its bad lines and entries made harmless, so that it is accepted: every logical line of allow that is refused becomes an
 * empty line and every one of deny `ALL: ALL`, portacl entries that are refused go, and byuid lines of the retired form are rewritten as by
 * gate_convert; all other bytes and their order stay, the tables too. A rule whose tables are refused by 15 or 16 is such a line, and so is
 * a last line without its newline, be it a comment. list gets eight bytes for each change: its section and its line (the entry's number for
 * section 4), four bytes each, the most significant first, as the given sheet numbers them and in its order; none where the sheet was
 * accepted, and then the bytes written are its own. gate_wire_number reads such a number. count is the sheet's length, other_count the list's.
 *
 * The frame and section five must be sound: refused by 1, 2 and 3, then by 15 and 17 for the tables; then by 2 with section 2 where deny grows
 * past its limit, then by 14 where sheet or list has no room: then neither is written. GATE_SHEET_LIMIT and GATE_CHANGES_ROOM bytes are always
 * room enough. out and list do not overlap. */
struct gate_written_two gate_salvage(uint8_t *out, size_t out_len, uint8_t *list, size_t list_len, const uint8_t *sheet, size_t sheet_len);

/* Which rules of a hosts file never fire, as far as that is seen without knowing a request: writes the line numbers of the longest
 * proposal that gate_drop accepts, four bytes each, most significant first, ascending. section says which file the text is, GATE_ALLOW or
 * GATE_DENY; tables is a section five, two zero bytes where there are none. A section of neither is refused by 13 at once; then the text by 2,
 * the tables by 1 and 3, and both as in a sheet; then 14. text_len bytes are room enough, and so are GATE_TIDY_ROOM. */
struct gate_written gate_propose(uint8_t *out, size_t out_len, const uint8_t *text, size_t text_len, const uint8_t *tables, size_t tables_len,
                                 uint32_t section);

/* Writes the file without the rules that a proposal names by their lines, written as gate_propose writes them, in any order, repeats among
 * them: each with its continuations and its ending newline. The proposal is accepted where each named line is the first of a rule, and an
 * earlier rule that is not named either has the same elements and EXCEPTs in the same order in both lists, but for case, or is ALL: ALL. By
 * the new file every request gets the same word, file and command; the line is less by the lines that went above it, and looked may be
 * less. Refused as gate_propose is; then by 20 where the proposal is not accepted, as where its bytes can't be parted in fours; then by 14.
 * text_len bytes are room enough, and so are GATE_TIDY_ROOM. */
struct gate_written gate_drop(uint8_t *out, size_t out_len, const uint8_t *text, size_t text_len, const uint8_t *tables, size_t tables_len,
                              uint32_t section, const uint8_t *proposal, size_t proposal_len);

/* Writes the index of a sheet: for each rule of allow, then of deny, its lines, and where it and its two lists begin and end in the sheet.
 * docs/FORMATS.md fixes its bytes. It is the sheet's while the sheet stays as it is, to the byte. A sheet that gate_check refuses is refused in
 * the same way; then 14. GATE_INDEX_ROOM bytes are always room enough. */
struct gate_written gate_index(uint8_t *out, size_t out_len, const uint8_t *sheet, size_t sheet_len);

/* Answers up to GATE_REQUESTS requests by a sheet and its index: sheet and index are checked once for all of them, and the rules are found by
 * the index. requests has them one after the other, as docs/FORMATS.md fixes and gate_request_write writes them; out gets GATE_ANSWER_BYTES for each, in their order, as gate_answer_read reads them: what gate_sheet_verdict answers to that
 * request, its looked too. A request with a bad field gets its own 13 in its place, and the others are answered. None are answered by nothing.
 *
 * The whole call is refused by what gate_check says of the sheet, then by 21 where the index is not the one that gate_index writes for it, to
 * the byte, then by 13 where there are more than GATE_REQUESTS or the bytes end within a request, then by 14 where the answers have no room. */
struct gate_written gate_verdicts(uint8_t *out, size_t out_len, const uint8_t *sheet, size_t sheet_len, const uint8_t *index, size_t index_len,
                                  const uint8_t *requests, size_t requests_len);

/* Writes a rule's command with its %a, %A, %n, %N, %h, %H, %u, %c, %d, %s, %p and %% replaced for a request: the command as a verdict
 * hands it back, or any other. It is joined and trimmed first. GATE_EXPANSION_ROOM bytes are always room enough. */
struct gate_written gate_expand(uint8_t *out, size_t out_len, const uint8_t *command, size_t command_len,
                                const uint8_t *daemon, size_t daemon_len,
                                uint32_t client_state, uint32_t client_kind, uint64_t client_high, uint64_t client_low,
                                const uint8_t *client_name, size_t client_name_len,
                                uint32_t server_state, uint32_t server_kind, uint64_t server_high, uint64_t server_low,
                                const uint8_t *server_name, size_t server_name_len,
                                uint32_t user, const uint8_t *user_name, size_t user_name_len, uint32_t process);

/* Reads an address: n.n.n.n, or IPv6 as inet_pton reads it, ::ffff:10.1.2.3 too. Any other text is refused by 13. */
struct gate_address gate_read_address(const uint8_t *text, size_t text_len);

/* Writes an address: n.n.n.n, IPv6 by RFC 5952 section 4 in hex groups, or `unknown`; GATE_ADDRESS_ROOM bytes are always enough. */
struct gate_written gate_write_address(uint8_t *out, size_t out_len, uint32_t kind, uint64_t high, uint64_t low);

/* Requests as structs. A struct of zeros has no name, no address and no user fetched, and its pointers are null.
 * Names are lent: a struct holds pointers to the caller's bytes. */

/* One end of a connection. */
struct gate_host {
    uint32_t name_state; /* enum gate_name */
    const char *name;    /* looked at only where it is known */
    size_t name_len;
    uint32_t kind;       /* enum gate_kind */
    uint64_t high, low;
};

/* Who asks for what. */
struct gate_request {
    const char *daemon;
    size_t daemon_len;
    struct gate_host client, server;
    uint32_t user;         /* enum gate_user */
    const char *user_name; /* looked at only where it is known */
    size_t user_name_len;
};

/* mac_portacl(4)'s settings. */
struct gate_settings {
    uint32_t enabled, port_high, suser_exempt, autoport_exempt;
};

/* Who binds a port. */
struct gate_bind {
    uint32_t uid;
    const uint32_t *groups; /* at most GATE_GROUPS_LIMIT */
    size_t groups_len;
    uint32_t protocol;      /* enum gate_protocol */
    uint32_t port;          /* 0 to 65535 */
};

#if defined(__GNUC__)
#define GATE_MUST_LOOK __attribute__((warn_unused_result))
#else
#define GATE_MUST_LOOK
#endif

/* A host of unknown name and address. */
static inline struct gate_host gate_host_unknown(void) {
    struct gate_host host;
    host.name_state = GATE_NAME_UNKNOWN;
    host.name = NULL;
    host.name_len = 0;
    host.kind = GATE_ADDRESS_UNKNOWN;
    host.high = 0;
    host.low = 0;
    return host;
}

/* count bytes, the most significant first, as a number. */
static inline uint64_t gate_wire_number(const uint8_t *bytes, size_t count) {
    uint64_t number = 0;
    size_t i;
    for (i = 0; i < count; i++)
        number = number << 8 | bytes[i];
    return number;
}

/* The same written. */
static inline void gate_wire_write(uint8_t *bytes, size_t count, uint64_t number) {
    while (count > 0) {
        bytes[--count] = (uint8_t)(number & 255);
        number >>= 8;
    }
}

/* A host of unknown name, by the four bytes of its address as they are on the wire: &sockaddr_in.sin_addr. */
static inline struct gate_host gate_host_ipv4(const void *address) {
    struct gate_host host = gate_host_unknown();
    host.kind = GATE_IPV4;
    host.low = gate_wire_number((const uint8_t *)address, 4);
    return host;
}

/* The same by sixteen bytes: &sockaddr_in6.sin6_addr. */
static inline struct gate_host gate_host_ipv6(const void *address) {
    struct gate_host host = gate_host_unknown();
    host.kind = GATE_IPV6;
    host.high = gate_wire_number((const uint8_t *)address, 8);
    host.low = gate_wire_number((const uint8_t *)address + 8, 8);
    return host;
}

/* Null with length 0 becomes a pointer to no bytes. */
static inline const uint8_t *gate_bytes(const void *bytes, size_t len) {
    return bytes || len ? (const uint8_t *)bytes : (const uint8_t *)"";
}

/* A host of unknown name, by its address as text. GATE_ANSWERED, or the number of the refusal, and then *host stays as it was. */
GATE_MUST_LOOK static inline uint32_t gate_host_read(struct gate_host *host, const char *text, size_t text_len) {
    struct gate_address read = gate_read_address(gate_bytes(text, text_len), text_len);
    if (read.number != GATE_ANSWERED)
        return read.number;
    *host = gate_host_unknown();
    host->kind = read.kind;
    host->high = read.high;
    host->low = read.low;
    return GATE_ANSWERED;
}

/* Writes a host's address, as gate_write_address. */
static inline struct gate_written gate_host_write(void *out, size_t out_len, const struct gate_host *host) {
    return gate_write_address((uint8_t *)out, out_len, host->kind, host->high, host->low);
}

/* Names a host: a name, or null with length 0 where none is known. Its address stays. */
static inline void gate_host_set_name(struct gate_host *host, const char *name, size_t name_len) {
    host->name_state = name ? GATE_NAME_KNOWN : GATE_NAME_UNKNOWN;
    host->name = name;
    host->name_len = name_len;
}

/* Name and address of a host disagree; its address stays. */
static inline void gate_host_set_paranoid(struct gate_host *host) {
    host->name_state = GATE_NAME_PARANOID;
    host->name = NULL;
    host->name_len = 0;
}

/* A request to a daemon. Its ends are unknown and its user is not fetched until they are set: request.client = .., request.server = .. */
static inline struct gate_request gate_request_to(const char *daemon, size_t daemon_len) {
    struct gate_request request;
    request.daemon = daemon;
    request.daemon_len = daemon_len;
    request.client = gate_host_unknown();
    request.server = gate_host_unknown();
    request.user = GATE_USER_NOT_FETCHED;
    request.user_name = NULL;
    request.user_name_len = 0;
    return request;
}

/* The user was fetched: a name, or null with length 0 where none came. */
static inline void gate_request_set_user(struct gate_request *request, const char *name, size_t name_len) {
    request->user = name ? GATE_USER_KNOWN : GATE_USER_UNKNOWN;
    request->user_name = name;
    request->user_name_len = name_len;
}

/* The bytes of a name, and how many: none where it is not known. */
static inline const uint8_t *gate_known_name(const char *name, size_t len, int known) {
    return known ? gate_bytes(name, len) : gate_bytes(NULL, 0);
}
static inline size_t gate_known_len(size_t len, int known) {
    return known ? len : 0;
}

/* The seventeen arguments of a request, in their order. */
#define GATE_HOST_ARGUMENTS(host) \
    (host).name_state, (host).kind, (host).high, (host).low, \
        gate_known_name((host).name, (host).name_len, (host).name_state == GATE_NAME_KNOWN), \
        gate_known_len((host).name_len, (host).name_state == GATE_NAME_KNOWN)
#define GATE_REQUEST_ARGUMENTS(request) \
    gate_bytes((request)->daemon, (request)->daemon_len), (request)->daemon_len, GATE_HOST_ARGUMENTS((request)->client), \
        GATE_HOST_ARGUMENTS((request)->server), (request)->user, \
        gate_known_name((request)->user_name, (request)->user_name_len, (request)->user == GATE_USER_KNOWN), \
        gate_known_len((request)->user_name_len, (request)->user == GATE_USER_KNOWN)

/* gate_verdict for a request. */
static inline struct gate_answer gate_verdict_for(const void *allow, size_t allow_len, const void *deny, size_t deny_len,
                                                  const struct gate_request *request) {
    return gate_verdict(gate_bytes(allow, allow_len), allow_len, gate_bytes(deny, deny_len), deny_len, GATE_REQUEST_ARGUMENTS(request));
}

/* gate_tables_verdict for a request. */
static inline struct gate_answer gate_tables_verdict_for(const void *allow, size_t allow_len, const void *deny, size_t deny_len,
                                                         const void *tables, size_t tables_len, const struct gate_request *request) {
    return gate_tables_verdict(gate_bytes(allow, allow_len), allow_len, gate_bytes(deny, deny_len), deny_len,
                               gate_bytes(tables, tables_len), tables_len, GATE_REQUEST_ARGUMENTS(request));
}

/* gate_sheet_verdict for a request. */
static inline struct gate_answer gate_sheet_verdict_for(const void *sheet, size_t sheet_len, const struct gate_request *request) {
    return gate_sheet_verdict(gate_bytes(sheet, sheet_len), sheet_len, GATE_REQUEST_ARGUMENTS(request));
}

/* A number in one byte; what is over a byte is of no kind, and stays so. */
static inline uint8_t gate_one_byte(uint32_t number) {
    return (uint8_t)(number < 255 ? number : 255);
}

/* A text behind its count, and how many bytes that makes. One over 255 bytes is written as none: either is refused by 13 in its place. */
static inline size_t gate_text_write(uint8_t *out, const uint8_t *text, size_t len) {
    size_t i, count = len < 256 ? len : 0;
    out[0] = (uint8_t)count;
    for (i = 0; i < count; i++)
        out[1 + i] = text[i];
    return 1 + count;
}
static inline size_t gate_text_size(size_t len) {
    return 1 + (len < 256 ? len : 0);
}

/* A host as requests have it, and how many bytes that makes. */
static inline size_t gate_end_write(uint8_t *out, const struct gate_host *host) {
    int known = host->name_state == GATE_NAME_KNOWN;
    out[0] = gate_one_byte(host->name_state);
    out[1] = gate_one_byte(host->kind);
    gate_wire_write(out + 2, 8, host->high);
    gate_wire_write(out + 10, 8, host->low);
    return 18 + gate_text_write(out + 18, gate_known_name(host->name, host->name_len, known), gate_known_len(host->name_len, known));
}

/* Writes a request as gate_verdicts takes it; the bytes of a name that is not known are left out. Refused by 14 alone, whatever its fields are:
 * a bad field is refused in the request's place. GATE_REQUEST_ROOM bytes are always room enough. */
static inline struct gate_written gate_request_write(void *out, size_t out_len, const struct gate_request *request) {
    struct gate_written written = {GATE_NO_ROOM, 0, 0, 0};
    int known = request->user == GATE_USER_KNOWN;
    size_t user_len = gate_known_len(request->user_name_len, known);
    size_t size = gate_text_size(request->daemon_len) + 37 + gate_text_size(user_len) +
                  gate_text_size(gate_known_len(request->client.name_len, request->client.name_state == GATE_NAME_KNOWN)) +
                  gate_text_size(gate_known_len(request->server.name_len, request->server.name_state == GATE_NAME_KNOWN));
    uint8_t *at = (uint8_t *)out;
    if (out_len < size)
        return written;
    at += gate_text_write(at, gate_bytes(request->daemon, request->daemon_len), request->daemon_len);
    at += gate_end_write(at, &request->client);
    at += gate_end_write(at, &request->server);
    *at++ = gate_one_byte(request->user);
    gate_text_write(at, gate_known_name(request->user_name, request->user_name_len, known), user_len);
    written.number = GATE_ANSWERED;
    written.count = size;
    return written;
}

/* Reads one answer of gate_verdicts, of GATE_ANSWER_BYTES. */
static inline struct gate_answer gate_answer_read(const void *bytes) {
    const uint8_t *at = (const uint8_t *)bytes;
    struct gate_answer answer;
    answer.number = (uint32_t)gate_wire_number(at, 4);
    answer.section = (uint32_t)gate_wire_number(at + 4, 4);
    answer.line = gate_wire_number(at + 8, 4);
    answer.word = (uint32_t)gate_wire_number(at + 12, 4);
    answer.file = (uint32_t)gate_wire_number(at + 16, 4);
    answer.place = gate_wire_number(at + 20, 4);
    answer.len = gate_wire_number(at + 24, 4);
    answer.looked = gate_wire_number(at + 28, 8);
    return answer;
}

/* gate_verdicts for requests, at most GATE_REQUESTS: answers gets one for each, and stays as it was at a refusal of the whole call. Takes some
 * 35,000 bytes of stack besides GATE_STACK: those of the requests and of the answers. */
static inline struct gate_checked gate_verdicts_for(struct gate_answer *answers, const void *sheet, size_t sheet_len, const void *index,
                                                    size_t index_len, const struct gate_request *requests, size_t count) {
    uint8_t bytes[GATE_REQUESTS * GATE_REQUEST_ROOM], out[GATE_REQUESTS * GATE_ANSWER_BYTES];
    size_t i, len = 0;
    struct gate_written written;
    struct gate_checked checked;
    bytes[0] = 0;
    for (i = 0; i < count && count <= GATE_REQUESTS; i++)
        len += (size_t)gate_request_write(bytes + len, sizeof bytes - len, &requests[i]).count;
    written = gate_verdicts(out, sizeof out, gate_bytes(sheet, sheet_len), sheet_len, gate_bytes(index, index_len), index_len, bytes,
                            count <= GATE_REQUESTS ? len : 1);
    for (i = 0; written.number == GATE_ANSWERED && i < count; i++)
        answers[i] = gate_answer_read(out + i * GATE_ANSWER_BYTES);
    checked.number = written.number;
    checked.section = written.section;
    checked.line = written.line;
    return checked;
}

/* gate_name_matters, gate_tables_name_matters and gate_sheet_name_matters for a request. */
static inline struct gate_answer gate_name_matters_for(const void *allow, size_t allow_len, const void *deny, size_t deny_len,
                                                       const struct gate_request *request) {
    return gate_name_matters(gate_bytes(allow, allow_len), allow_len, gate_bytes(deny, deny_len), deny_len, GATE_REQUEST_ARGUMENTS(request));
}
static inline struct gate_answer gate_tables_name_matters_for(const void *allow, size_t allow_len, const void *deny, size_t deny_len,
                                                              const void *tables, size_t tables_len, const struct gate_request *request) {
    return gate_tables_name_matters(gate_bytes(allow, allow_len), allow_len, gate_bytes(deny, deny_len), deny_len,
                                    gate_bytes(tables, tables_len), tables_len, GATE_REQUEST_ARGUMENTS(request));
}
static inline struct gate_answer gate_sheet_name_matters_for(const void *sheet, size_t sheet_len, const struct gate_request *request) {
    return gate_sheet_name_matters(gate_bytes(sheet, sheet_len), sheet_len, GATE_REQUEST_ARGUMENTS(request));
}

/* gate_command and gate_sheet_command for a request. */
static inline struct gate_command_answer gate_command_for(void *out, size_t out_len, const void *allow, size_t allow_len,
                                                          const void *deny, size_t deny_len, const struct gate_request *request,
                                                          uint32_t process) {
    return gate_command((uint8_t *)out, out_len, gate_bytes(allow, allow_len), allow_len, gate_bytes(deny, deny_len), deny_len,
                        GATE_REQUEST_ARGUMENTS(request), process);
}
static inline struct gate_command_answer gate_sheet_command_for(void *out, size_t out_len, const void *sheet, size_t sheet_len,
                                                                const struct gate_request *request, uint32_t process) {
    return gate_sheet_command((uint8_t *)out, out_len, gate_bytes(sheet, sheet_len), sheet_len, GATE_REQUEST_ARGUMENTS(request), process);
}

/* gate_expand for a request. */
static inline struct gate_written gate_expand_for(void *out, size_t out_len, const void *command, size_t command_len,
                                                  const struct gate_request *request, uint32_t process) {
    return gate_expand((uint8_t *)out, out_len, gate_bytes(command, command_len), command_len, GATE_REQUEST_ARGUMENTS(request), process);
}

/* gate_byuid and gate_sheet_byuid at a host's address; its name is not looked at. */
static inline struct gate_answer gate_byuid_for(const void *text, size_t text_len, uint32_t mark, const struct gate_host *at,
                                                uint32_t port, uint32_t uid) {
    return gate_byuid(gate_bytes(text, text_len), text_len, mark, port, at->kind, at->high, at->low, uid);
}
static inline struct gate_answer gate_sheet_byuid_for(const void *sheet, size_t sheet_len, const struct gate_host *at, uint32_t port,
                                                      uint32_t uid) {
    return gate_sheet_byuid(gate_bytes(sheet, sheet_len), sheet_len, port, at->kind, at->high, at->low, uid);
}

/* gate_authbind at a host's address; its name is not looked at. */
static inline struct gate_next gate_authbind_for(void *out, size_t out_len, const struct gate_host *at, uint32_t port, uint32_t uid,
                                                 const uint8_t *answers, size_t answers_len) {
    return gate_authbind((uint8_t *)out, out_len, port, at->kind, at->high, at->low, uid, gate_bytes(answers, answers_len), answers_len);
}

/* The settings that mac_portacl(4) starts with. */
static inline struct gate_settings gate_settings_default(void) {
    struct gate_settings settings;
    settings.enabled = 1;
    settings.port_high = 1023;
    settings.suser_exempt = 1;
    settings.autoport_exempt = 1;
    return settings;
}

/* Null with length 0 becomes a pointer to no groups. */
static inline const uint32_t *gate_groups(const uint32_t *groups, size_t len) {
    static const uint32_t none = 0;
    return groups || len ? groups : &none;
}

#define GATE_BIND_ARGUMENTS(settings, bind) \
    (settings)->enabled, (settings)->port_high, (settings)->suser_exempt, (settings)->autoport_exempt, (bind)->uid, \
        gate_groups((bind)->groups, (bind)->groups_len), (bind)->groups_len, (bind)->protocol, (bind)->port

/* gate_portacl and gate_sheet_portacl for a bind. */
static inline struct gate_answer gate_portacl_for(const void *text, size_t text_len, const struct gate_settings *settings,
                                                  const struct gate_bind *bind) {
    return gate_portacl(gate_bytes(text, text_len), text_len, GATE_BIND_ARGUMENTS(settings, bind));
}
static inline struct gate_answer gate_sheet_portacl_for(const void *sheet, size_t sheet_len, const struct gate_settings *settings,
                                                        const struct gate_bind *bind) {
    return gate_sheet_portacl(gate_bytes(sheet, sheet_len), sheet_len, GATE_BIND_ARGUMENTS(settings, bind));
}

/* What a number says, in a few words, to stand behind a file and a line. */
static inline const char *gate_number_text(uint32_t number) {
    switch (number) {
    case GATE_ANSWERED: return "answered";
    case GATE_CUT_SHORT: return "the sheet ends within a section";
    case GATE_OVER_LIMIT: return "longer than its section may be";
    case GATE_TRAILING_BYTES: return "bytes follow the last section";
    case GATE_UNENDED: return "the last line has no ending newline";
    case GATE_BAD_BYTE: return "a byte that is not printable ASCII, blank or tab";
    case GATE_LONG_LINE: return "a line over 2047 bytes";
    case GATE_NO_ELEMENT: return "no colon, or a list with no element";
    case GATE_MISPLACED_EXCEPT: return "EXCEPT not between two elements";
    case GATE_RESERVED_START: return "an element begins with @, or a daemon with /";
    case GATE_UNKNOWN_ELEMENT: return "no element kind fits";
    case GATE_BAD_PERCENT: return "% at the end or before a letter that it does not take";
    case GATE_BAD_ENTRY: return "not a portacl entry";
    case GATE_BAD_REQUEST: return "a request field outside its size or its kinds";
    case GATE_NO_ROOM: return "the output is longer than its room";
    case GATE_TABLE_NAME: return "no table of this name, or two";
    case GATE_TOO_DEEP: return "a rule leads more than four tables deep";
    case GATE_BAD_TABLE: return "a table at fault, or the tables over their limits";
    case GATE_DOTTED_ADDRESS: return "an IPv6 address that may be written with dots";
    case GATE_LATE_ANSWER: return "an answer after the matter was settled";
    case GATE_BAD_PROPOSAL: return "a proposal that is not accepted";
    case GATE_WRONG_INDEX: return "not the index of this sheet";
    case GATE_RETIRED_FORM: return "a line of the retired form that used to grant";
    default: return "no such number";
    }
}

/* A decision's word. */
static inline const char *gate_word_text(uint32_t word) {
    switch (word) {
    case GATE_NO_WORD: return "refused";
    case GATE_GRANTED: return "granted";
    case GATE_DENIED: return "denied";
    case GATE_ASK: return "ask";
    case GATE_NO_LINE: return "no line";
    case GATE_NOT_RULED: return "not ruled";
    case GATE_EXEMPT: return "exempt";
    case GATE_TEST: return "test";
    case GATE_READ: return "read";
    case GATE_NAME_MATTERS: return "name matters";
    default: return "no such word";
    }
}

/* A section's name. */
static inline const char *gate_section_text(uint32_t section) {
    switch (section) {
    case GATE_NO_SECTION: return "no section";
    case GATE_ALLOW: return "allow";
    case GATE_DENY: return "deny";
    case GATE_BYUID: return "byuid";
    case GATE_PORTACL: return "portacl";
    case GATE_TABLES: return "tables";
    default: return "no such section";
    }
}

#ifdef __cplusplus
}
#endif

#endif
