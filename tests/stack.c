/* The stack that the exports need, on the worst inputs known: every call in a thread whose whole stack is GATE_STACK bytes, above a
 * page that must not be touched. The stack is painted first, so that how far a call went is seen afterwards.
 *   stack            one line; status 1 where a call goes beyond
 *   stack --figures  a line for each export: the most bytes that it went below its caller, and the input that made it
 * A second run in a child, on the whole pages of the most that was seen, must end at the page that must not be touched. */
#define _GNU_SOURCE
#include <pthread.h>
#include <signal.h>
#include <stdio.h>
#include <stdlib.h>
#include <string.h>
#include <sys/mman.h>
#include <sys/wait.h>
#include <unistd.h>
#include "gate.h"

enum { PAGE = 4096, PAINT = 0xa5, BEYOND = 3 };

/* In the order of `exports`; NOTHING is no call at all, and its bytes are not counted. */
enum export { VERDICT, TABLES_VERDICT, SHEET_VERDICT, NAME_MATTERS, TABLES_NAME_MATTERS, SHEET_NAME_MATTERS, COMMAND, SHEET_COMMAND, BYUID,
              SHEET_BYUID, PORTACL, SHEET_PORTACL, CHECK, UNPACK, PACK, UPGRADE, CONVERT, EXPAND, READ_ADDRESS, WRITE_ADDRESS, AUTHBIND, CARRY,
              SALVAGE, PROPOSE, DROP, INDEX, VERDICTS, NOTHING };

/* For tables over all limits too. */
enum { TABLES_ROOM = 1 << 20 };

struct text {
    uint8_t bytes[GATE_ALLOW_LIMIT];
    size_t len;
};

/* What the calls are given. */
static struct text allow, deny, byuid, portacl, command, address;
static struct {
    uint8_t bytes[TABLES_ROOM];
    size_t len;
} tables = {{0}, 2};
static uint8_t sheet[GATE_SHEET_LIMIT + TABLES_ROOM], out[GATE_EXPANSION_ROOM];
static size_t sheet_len;
static struct gate_request request;
static struct gate_settings settings;
static struct gate_bind bound = {1, NULL, 0, GATE_UDP, 1};
static struct gate_host at;
static uint32_t groups[GATE_GROUPS_LIMIT];
static char long_name[GATE_NAME_LIMIT], long_user[GATE_USER_LIMIT];

/* What was seen. */
static const char *input;
static size_t most[NOTHING + 1];
static const char *worst[NOTHING + 1];

static uint8_t *stack;
static size_t stack_len;
static enum export running;
static uint32_t answered;

/* Inputs */

static void add(struct text *t, const char *s) {
    memcpy(t->bytes + t->len, s, strlen(s));
    t->len += strlen(s);
}

/* s again and again, while it fits in len bytes. */
static void fill(struct text *t, const char *s, size_t len) {
    while (*s && t->len + strlen(s) <= len)
        add(t, s);
}

/* One line of 2,047 bytes: begin, then s again and again, then last. */
static void line(struct text *t, const char *begin, const char *s, const char *last) {
    t->len = 0;
    add(t, begin);
    fill(t, s, GATE_LINE_LIMIT - strlen(last));
    add(t, last);
    add(t, "\n");
}

/* The five texts, and the sheet of them. A text that can't be packed is put into a sheet by hand. */
static void pack_by_hand(void) {
    const struct text *texts[] = {&allow, &deny, &byuid, &portacl};
    sheet_len = 0;
    for (int i = 0; i < 4; i++) {
        size_t n = texts[i]->len;
        const uint8_t count[4] = {0, 0, (uint8_t)(n >> 8), (uint8_t)n};
        memcpy(sheet + sheet_len, count, 4);
        memcpy(sheet + sheet_len + 4, texts[i]->bytes, n);
        sheet_len += 4 + n;
    }
    memcpy(sheet + sheet_len, tables.bytes, tables.len);
    sheet_len += tables.len;
}

static void named(struct gate_host *host, const char *name, const char *address_text) {
    if (gate_host_read(host, address_text, strlen(address_text)) != GATE_ANSWERED)
        exit(2);
    gate_host_set_name(host, name, strlen(name));
}

/* The calls. Their numbers are kept, so that none is left out. */
static uint32_t verdict(void) { return gate_verdict_for(allow.bytes, allow.len, deny.bytes, deny.len, &request).number; }
static uint32_t tables_verdict(void) {
    return gate_tables_verdict_for(allow.bytes, allow.len, deny.bytes, deny.len, tables.bytes, tables.len, &request).number;
}
static uint32_t sheet_verdict(void) { return gate_sheet_verdict_for(sheet, sheet_len, &request).number; }
static uint32_t name_matters(void) { return gate_name_matters_for(allow.bytes, allow.len, deny.bytes, deny.len, &request).number; }
static uint32_t tables_name_matters(void) {
    return gate_tables_name_matters_for(allow.bytes, allow.len, deny.bytes, deny.len, tables.bytes, tables.len, &request).number;
}
static uint32_t sheet_name_matters(void) { return gate_sheet_name_matters_for(sheet, sheet_len, &request).number; }
static uint32_t with_command(void) {
    return gate_command_for(out, sizeof out, allow.bytes, allow.len, deny.bytes, deny.len, &request, 4294967295u).number;
}
static uint32_t sheet_command(void) { return gate_sheet_command_for(out, sizeof out, sheet, sheet_len, &request, 4294967295u).number; }
static uint32_t by_uid(void) { return gate_byuid_for(byuid.bytes, byuid.len, GATE_PLAIN_FILE, &at, 511, 432).number; }
static uint32_t sheet_byuid(void) { return gate_sheet_byuid_for(sheet, sheet_len, &at, 511, 432).number; }
static uint32_t port_acl(void) { return gate_portacl_for(portacl.bytes, portacl.len, &settings, &bound).number; }
static uint32_t sheet_portacl(void) { return gate_sheet_portacl_for(sheet, sheet_len, &settings, &bound).number; }
static uint32_t check(void) { return gate_check(sheet, sheet_len).number; }
static uint32_t unpack(void) { return gate_unpack(sheet, sheet_len).number; }
static uint32_t pack(void) {
    return gate_pack(out, sizeof out, allow.bytes, allow.len, deny.bytes, deny.len, byuid.bytes, byuid.len, portacl.bytes, portacl.len, tables.bytes,
                     tables.len)
        .number;
}
static uint32_t upgrade(void) { return gate_upgrade(out, sizeof out, sheet, sheet_len - tables.len).number; }
static uint32_t convert(void) { return gate_convert(out, sizeof out, byuid.bytes, byuid.len).number; }
static uint32_t expand(void) { return gate_expand_for(out, sizeof out, command.bytes, command.len, &request, 4294967295u).number; }
static uint32_t read_address(void) { return gate_read_address(address.bytes, address.len).number; }
static uint32_t write_address(void) { return gate_host_write(out, sizeof out, &at).number; }
static uint32_t authbind(void) {
    static const uint8_t absent[2] = {GATE_ABSENT, GATE_ABSENT};
    return gate_authbind_for(out, sizeof out, &at, 1023, 4294967295u, absent, at.kind == GATE_IPV4 ? 2 : 1).number;
}
static uint32_t carry(void) {
    static uint8_t marked[GATE_CARRY_ROOM];
    return gate_carry(out, GATE_CARRY_ROOM, marked, sizeof marked, portacl.bytes, portacl.len, 1).number;
}
static uint32_t salvage(void) {
    static uint8_t list[GATE_CHANGES_ROOM];
    return gate_salvage(out, GATE_SHEET_LIMIT, list, sizeof list, sheet, sheet_len).number;
}
/* What is proposed is what is dropped next. */
static uint8_t proposal[GATE_TIDY_ROOM];
static size_t proposal_len;
static uint32_t propose(void) {
    struct gate_written written = gate_propose(proposal, sizeof proposal, deny.bytes, deny.len, tables.bytes, tables.len, GATE_DENY);
    proposal_len = (size_t)written.count;
    return written.number;
}
static uint32_t drop(void) {
    return gate_drop(out, sizeof out, deny.bytes, deny.len, tables.bytes, tables.len, GATE_DENY, proposal, proposal_len).number;
}
/* The index that is written is the one that is used next. */
static uint8_t index_bytes[GATE_INDEX_ROOM];
static size_t index_len;
static uint32_t write_index(void) {
    struct gate_written written = gate_index(index_bytes, sizeof index_bytes, sheet, sheet_len);
    index_len = (size_t)written.count;
    return written.number;
}
/* Two requests: no stack is kept from one to the next. */
static uint32_t verdicts(void) {
    static uint8_t requests[2 * GATE_REQUEST_ROOM];
    size_t len = (size_t)gate_request_write(requests, sizeof requests, &request).count;
    len += (size_t)gate_request_write(requests + len, sizeof requests - len, &request).count;
    return gate_verdicts(out, sizeof out, sheet, sheet_len, index_bytes, index_len, requests, len).number;
}
static uint32_t nothing(void) { return 0; }

static const struct {
    const char *name;
    uint32_t (*call)(void);
} exports[] = {{"gate_verdict", verdict}, {"gate_tables_verdict", tables_verdict}, {"gate_sheet_verdict", sheet_verdict},
               {"gate_name_matters", name_matters}, {"gate_tables_name_matters", tables_name_matters}, {"gate_sheet_name_matters", sheet_name_matters},
               {"gate_command", with_command}, {"gate_sheet_command", sheet_command},
               {"gate_byuid", by_uid}, {"gate_sheet_byuid", sheet_byuid}, {"gate_portacl", port_acl}, {"gate_sheet_portacl", sheet_portacl},
               {"gate_check", check}, {"gate_unpack", unpack}, {"gate_pack", pack}, {"gate_upgrade", upgrade}, {"gate_convert", convert}, {"gate_expand", expand}, {"gate_read_address", read_address},
               {"gate_write_address", write_address}, {"gate_authbind", authbind}, {"gate_carry", carry}, {"gate_salvage", salvage},
               {"gate_propose", propose}, {"gate_drop", drop}, {"gate_index", write_index}, {"gate_verdicts", verdicts}, {"nothing", nothing}};

/* In the thread. */

static void beyond(int signal) {
    (void)signal;
    static const char what[] = "stack: a call needs more than its stack: ";
    if (write(1, what, sizeof what - 1) < 0 || write(1, exports[running].name, strlen(exports[running].name)) < 0 || write(1, "\n", 1) < 0)
        _exit(2);
    _exit(BEYOND);
}

static void watch(void) {
    static uint8_t other[65536];
    stack_t away = {.ss_sp = other, .ss_size = sizeof other};
    struct sigaction action = {.sa_handler = beyond, .sa_flags = SA_ONSTACK};
    if (sigaltstack(&away, NULL) || sigaction(SIGSEGV, &action, NULL))
        exit(2);
}

static void *run(void *unused) {
    watch();
    uint8_t *top = __builtin_frame_address(0), *lowest = stack;
    for (uint8_t *p = stack; p < top - 256; p++)
        *(volatile uint8_t *)p = PAINT;
    answered = exports[running].call();
    while (lowest < top && *lowest == PAINT)
        lowest++;
    size_t used = (size_t)(top - lowest) - most[NOTHING];
    if (used > most[running]) {
        most[running] = used;
        worst[running] = input;
    }
    return unused;
}

static void in_thread(enum export e) {
    pthread_attr_t attributes;
    pthread_t thread;
    running = e;
    if (pthread_attr_init(&attributes) || pthread_attr_setstack(&attributes, stack, stack_len) || pthread_create(&thread, &attributes, run, NULL) ||
        pthread_join(thread, NULL)) {
        printf("stack: no thread\n");
        exit(2);
    }
    pthread_attr_destroy(&attributes);
}

static void every_call(const char *what) {
    input = what;
    for (enum export e = 0; e < NOTHING; e++)
        in_thread(e);
}

/* Verdicts: lines at their longest, in both files. The chains go as deep as they can: each EXCEPT is reached by a match. */

/* Asks by allow and deny as they stand; the verdict must have this number, so that the input is what it is meant to be. */
static void ask(const char *what, uint32_t number) {
    pack_by_hand();
    every_call(what);
    in_thread(VERDICT);
    if (answered != number) {
        printf("stack: %s: answered %u\n", what, answered);
        exit(1);
    }
}

static void rules(const char *what, const char *begin, const char *s, const char *last, uint32_t number) {
    line(&allow, begin, s, last);
    deny = allow;
    ask(what, number);
}

static void chains(void) {
    rules("ALL EXCEPT ALL .., clients", "ALL:", "ALL EXCEPT ", "ALL", 0);
    rules("ALL EXCEPT ALL .., daemons", "", "ALL EXCEPT ", "ALL:ALL", 0);
    rules("a EXCEPT a .., clients", "a:", "a EXCEPT ", "a", 0);
    rules("a EXCEPT a .., daemons", "", "a EXCEPT ", "a:a", 0);
    rules("a EXCEPT a .., clients, then a user", "a:", "a EXCEPT ", "a@a", 0);
    rules("a EXCEPT a .., daemons, then a server", "", "a EXCEPT ", "a@a:a", 0);
    rules("a EXCEPT a .., clients, then an IPv6 net", "a:", "a EXCEPT ", "a@[1:2:3:4:5:6:1.2.3.4]/127", 0);
    rules("a EXCEPT a .., daemons, then an IPv6 net", "", "a EXCEPT ", "a@[1:2:3:4:5:6:1.2.3.4]/127:a", 0);
    rules("a EXCEPT a .., clients, then an IPv4 net", "a:", "a EXCEPT ", "255.255.255.255/255.255.255.255", 0);
    rules("a EXCEPT a .., clients, then a domain", "a:", "a EXCEPT ", ".example", 0);
    rules("a@a EXCEPT a@a .., clients", "a:", "a@a EXCEPT ", "a@a", 0);
    rules("a@a EXCEPT a@a .., daemons", "", "a@a EXCEPT ", "a@a:a", 0);
    rules("ALL@a EXCEPT ALL@a .., clients, then a user and an IPv6 net", "a:", "ALL@a EXCEPT ", "b@[1:2:3:4:5:6:1.2.3.4]/127", 0);
    rules("b@a c@a .., clients", "a:", "b@a c@a EXCEPT ", "b@a", 0);
    rules("two chains", "a EXCEPT a EXCEPT a:", "a EXCEPT ", "a:%c", 0);
    rules("a chain that matches, and its command", "a:", "a EXCEPT b EXCEPT ", "a:%c%s%p", 0);
}

static void lists(void) {
    rules("a:b b b ..", "a:", "b ", "b", 0);
    rules("b b b .. :a", "", "b ", "b:a", 0);
    rules("EXCEPT EXCEPT ..", "a:", "EXCEPT ", "a", GATE_MISPLACED_EXCEPT);
    rules("the last element of no kind", "a:", "a EXCEPT ", "[1:2:3:4:5:6:1.2.3.4]/129", GATE_UNKNOWN_ELEMENT);
    rules("brackets", "a:", "[::]/0 ", "[::]/0", 0);
    rules("a long element", "a:", "x", "x", GATE_UNKNOWN_ELEMENT);
    rules("a long command", "a:a:", "%c", "%s", 0);
    rules("no colon", "", "a ", "a", GATE_NO_ELEMENT);
}

/* Files, sheets, ports, expansions and addresses at their fullest. */

static void hosts_files(const char *what, const char *s, uint32_t number) {
    allow.len = deny.len = 0;
    fill(&allow, s, GATE_ALLOW_LIMIT);
    fill(&deny, s, GATE_DENY_LIMIT);
    ask(what, number);
}

/* No two of them have the same lists. */
static void differing_rules(void) {
    static const char letters[] = "abcdefghijklmnopqrstuvwxyz";
    char rule[8];
    deny.len = 0;
    for (size_t i = 0; i < GATE_DENY_LIMIT / 5; i++) {
        sprintf(rule, "%c%c:%c\n", letters[i / 676], letters[i / 26 % 26], letters[i % 26]);
        add(&deny, rule);
    }
    allow = deny;
    ask("files of rules that all differ", 0);
}

static void files(void) {
    hosts_files("files of short rules", "b:b\n", 0);
    hosts_files("files of repeats over two lines", "b:\\\nB\n", 0);
    differing_rules();
    hosts_files("files of empty lines", "\n", 0);
    hosts_files("files of comments", "#\n", 0);
    hosts_files("files of dropped pairs", "\\\n", GATE_UNENDED);
    hosts_files("files of one line", "a", GATE_UNENDED);
    line(&command, "a:", "b ", "");
    command.bytes[command.len] = 0;
    hosts_files("files of long lines", (const char *)command.bytes, 0);
    line(&command, "a:a:", "x", "");
    strcpy((char *)command.bytes + command.len - 1, "x\n");
    hosts_files("files of lines too long", (const char *)command.bytes, GATE_LONG_LINE);
}

static void port_texts(const char *what, const char *b, const char *p) {
    byuid.len = portacl.len = 0;
    fill(&byuid, b, GATE_BYUID_LIMIT);
    fill(&portacl, p, GATE_PORTACL_LIMIT);
    if (portacl.len && portacl.bytes[portacl.len - 1] == ',')
        portacl.len--;
    pack_by_hand();
    every_call(what);
}

static void ports(void) {
    hosts_files("full sheet", "b:b\n", 0);
    port_texts("full ports", "::1-ffff:ffff:ffff:ffff:ffff:ffff:255.255.255.255,1-65535\n", "gid:4294967295:udp:65535,");
    port_texts("full ports, short lines", "::,0\n", "uid:0:tcp:0,");
    port_texts("full ports, carried over", "0.0.0.0/0,80\n", "uid:1:udp:80,uid:1:tcp:80,");
    port_texts("full ports, IPv4", "255.255.255.255/32,1023-1023\n", "uid:1:udp:1,");
    port_texts("full ports, ignored", "255.255.255.254/31:1023,1022\n", "uid:1:udp:1,");
    port_texts("full ports, retired", "255.255.255.255/32:1023,1023\n", "uid:1:udp:1,");
    port_texts("full ports, ranges", "0.0.0.0-255.255.255.255,0-65535\n", "uid:1:udp:1,x,");
    port_texts("full ports, one line", "1", "1");
    port_texts("no ports", "", "");
}

/* An expansion, and a verdict with the same command behind the shortest lists. */
static void expand_all(const char *directive) {
    input = directive;
    command.len = 0;
    fill(&command, directive, GATE_LINE_LIMIT);
    in_thread(EXPAND);
    line(&allow, "ALL:ALL:", directive, "");
    pack_by_hand();
    in_thread(COMMAND);
    in_thread(SHEET_COMMAND);
}

static void expansions(void) {
    const char *directives[] = {"%c", "%s", "%h", "%H", "%a", "%A", "%n", "%N", "%u", "%d", "%p", "%%", "x", "%", "\\\n"};
    memset(long_name, 'n', sizeof long_name);
    memset(long_user, ';', sizeof long_user);
    gate_host_set_name(&request.client, long_name, sizeof long_name);
    gate_host_set_name(&request.server, long_name, sizeof long_name);
    gate_request_set_user(&request, long_user, sizeof long_user);
    request.daemon = long_user;
    request.daemon_len = sizeof long_user;
    for (size_t i = 0; i < sizeof directives / sizeof *directives; i++) {
        expand_all(directives[i]);
        gate_host_set_name(&request.client, NULL, 0);
        gate_host_set_name(&request.server, NULL, 0);
        expand_all(directives[i]);
        gate_host_set_name(&request.client, long_name, sizeof long_name);
        gate_host_set_name(&request.server, long_name, sizeof long_name);
    }
}

static void addresses(void) {
    const char *texts[] = {"::", "1:2:3:4:5:6:7:8", "ffff:ffff:ffff:ffff:ffff:ffff:255.255.255.255", "::255.255.255.255", "1::8", "255.255.255.255",
                           "1:2:3:4:5:6:7::", "1:2:3:4:5:6:7:8:9", ":::", "1.2.3.4.5", "", "x"};
    for (size_t i = 0; i < sizeof texts / sizeof *texts; i++) {
        address.len = 0;
        add(&address, texts[i]);
        input = texts[i];
        in_thread(READ_ADDRESS);
        if (answered == GATE_ANSWERED && gate_host_read(&at, texts[i], strlen(texts[i])) == GATE_ANSWERED)
            every_call(texts[i]);
    }
    address.len = 0;
    fill(&address, "1:", GATE_ALLOW_LIMIT);
    input = "a long text";
    in_thread(READ_ADDRESS);
}

/* Tables: the deepest that a rule may lead, rings, names without end, and the most of all; each after the deepest lists. */

static void add_table(const char *name, const char *words, size_t times) {
    size_t name_len = strlen(name), len = strlen(words) * times;
    uint8_t *at = tables.bytes + tables.len;
    *at++ = (uint8_t)name_len;
    memcpy(at, name, name_len);
    at += name_len;
    for (int i = 0; i < 4; i++)
        *at++ = (uint8_t)(len >> 8 * (3 - i));
    for (size_t i = 0; i < times; i++, at += strlen(words))
        memcpy(at, words, strlen(words));
    tables.len = (size_t)(at - tables.bytes);
    if (++tables.bytes[1] == 0)
        tables.bytes[0]++;
}

static void no_tables(void) {
    tables.len = 2;
    tables.bytes[0] = tables.bytes[1] = 0;
}

/* Rules of the deepest lists with a table at their ends. */
static void ask_tables(const char *what, uint32_t number) {
    line(&allow, "a:", "a EXCEPT ", "a@/a");
    line(&deny, "", "a EXCEPT ", "a@/a:a");
    pack_by_hand();
    every_call(what);
    in_thread(TABLES_VERDICT);
    if (answered != number) {
        printf("stack: %s: answered %u\n", what, answered);
        exit(1);
    }
    no_tables();
}

static void many_tables(const char *what, size_t count, const char *words, uint32_t number) {
    char name[16];
    add_table("a", words, 1);
    for (size_t i = 1; i < count; i++) {
        sprintf(name, "t%zx", i);
        add_table(name, words, 1);
    }
    ask_tables(what, number);
}

static void table_inputs(void) {
    add_table("a", "/b ", 1021);
    add_table("b", "/c ", 1021);
    add_table("c", "/d ", 1021);
    add_table("d", "x ", 1533);
    ask_tables("a full nest", 0);
    add_table("a", "/a ", 4000);
    ask_tables("a ring", GATE_TOO_DEEP);
    add_table("a", "/b", 1);
    add_table("b", "/c", 1);
    add_table("c", "/d", 1);
    add_table("d", "[1:2:3:4:5:6:1.2.3.4]/127", 1);
    ask_tables("four deep, then an IPv6 net", 0);
    many_tables("64 tables", 64, "255.255.255.255/255.255.255.255 .example a", 0);
    many_tables("65 tables", 65, "a", GATE_BAD_TABLE);
    many_tables("a thousand tables", 1000, "a", GATE_BAD_TABLE);
    many_tables("60,000 tables", 60000, "/a", GATE_TOO_DEEP);
    add_table("a", "/missing ", 1000);
    ask_tables("names that are missing", GATE_TABLE_NAME);
    add_table("a", "x", 1);
    tables.len--;
    ask_tables("a cut table", GATE_CUT_SHORT);
}

/* Damaged sheets: with the most changes that can be listed, with one more in deny, and with lines that are bad by their tables alone. */
static void damaged(const char *what, uint32_t number) {
    pack_by_hand();
    every_call(what);
    in_thread(SALVAGE);
    if (answered != number) {
        printf("stack: %s: answered %u\n", what, answered);
        exit(1);
    }
}

static void damages(void) {
    byuid.len = portacl.len = allow.len = deny.len = 0;
    fill(&allow, "x\n", GATE_ALLOW_LIMIT);
    fill(&deny, "x\n", GATE_DENY_LIMIT / 9 * 2);
    fill(&byuid, "0.0.0.0/0:0,0\n", GATE_BYUID_LIMIT);
    fill(&portacl, ",", GATE_PORTACL_LIMIT);
    damaged("the most changes", 0);
    add(&deny, "x\n");
    damaged("deny grown past its limit", GATE_OVER_LIMIT);
    line(&allow, "a:", "a EXCEPT ", "a@/a");
    line(&deny, "", "a EXCEPT ", "a@/gone:a");
    add_table("a", "/a ", 4000);
    damaged("rules that lead too deep, or nowhere", 0);
    no_tables();
    byuid.len = portacl.len = allow.len = deny.len = 0;
    damaged("an empty sheet", 0);
}

static void every_input(void) {
    request = gate_request_to("a", 1);
    named(&request.client, "a", "1:2:3:4:5:6:102:304");
    named(&request.server, "a", "1:2:3:4:5:6:102:304");
    gate_request_set_user(&request, "a", 1);
    in_thread(NOTHING);
    settings = gate_settings_default();
    bound.groups = groups;
    bound.groups_len = GATE_GROUPS_LIMIT;
    at = request.client;
    chains();
    lists();
    files();
    ports();
    addresses();
    table_inputs();
    damages();
    expansions();
}

/* A stack of so many bytes, with pages below it that must not be touched. */
static void make_stack(size_t len) {
    enum { BELOW = 1 << 20 };
    uint8_t *whole = mmap(NULL, BELOW + len, PROT_NONE, MAP_PRIVATE | MAP_ANONYMOUS, -1, 0);
    if (whole == MAP_FAILED || mprotect(whole + BELOW, len, PROT_READ | PROT_WRITE)) {
        printf("stack: no memory\n");
        exit(2);
    }
    stack = whole + BELOW;
    stack_len = len;
}

/* Does a run on so few bytes end beyond them? */
static int goes_beyond(size_t len) {
    int status = 0;
    fflush(stdout);
    pid_t child = fork();
    if (child == 0) {
        if (!freopen("/dev/null", "w", stdout))
            _exit(2);
        make_stack(len);
        every_input();
        _exit(0);
    }
    return child > 0 && waitpid(child, &status, 0) == child && WIFEXITED(status) && WEXITSTATUS(status) == BEYOND;
}

int main(int argc, char **argv) {
    enum export top = 0;
    make_stack(GATE_STACK);
    every_input();
    for (enum export e = 0; e < NOTHING; e++) {
        if (most[e] > most[top])
            top = e;
        if (argc > 1 && !strcmp(argv[1], "--figures"))
            printf("%-20s %6zu  %s\n", exports[e].name, most[e], worst[e]);
    }
    if (!goes_beyond(most[top] / PAGE * PAGE)) {
        printf("stack: less is enough too\n");
        return 1;
    }
    printf("stack: at most %zu bytes by %s (%s), of %d\n", most[top], exports[top].name, worst[top], GATE_STACK);
    return 0;
}
