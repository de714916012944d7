/* compare time|count DIR GATE.so [BEFORE.so]: the calls of the gate on each case of the table below, beside
 *   before        the same calls of another build of the gate; one without tables gets sheets of four sections, and no case with tables, and
 *                 one that does not tidy or has no index no case of that
 *   tcp_wrappers  the same question put to it; its two files stand in DIR, which should be in memory, and it does not check them
 *   files         opening and reading those two files whole, as the gate's caller does
 *   sum           adding up the bytes that the call is handed, one at a time: the floor of what reads each byte
 * A line for each case and each of these, parted by tabs: case, bytes handed to the call, who, nanoseconds a call. Times are minima
 * over many rounds, each of which takes them in turn, spread over the run. Every answer is compared with the table's.
 * `count` makes one call of each in a function of its own, `counted`, for a tool that counts instructions, and writes 0 for the time. */
#include <dlfcn.h>
#include <stdbool.h>
#include <stdio.h>
#include <stdlib.h>
#include <string.h>
#include <tcpd.h>
#include <time.h>
#include "gate.h"

extern char *hosts_allow_table, *hosts_deny_table;
int allow_severity, deny_severity; /* libwrap wants them */

/* How a text is made: a first line, then lines of a form, numbered from `from`: so many, or as many as fill `size` bytes. */
struct recipe {
    const char *first, *form;
    unsigned from, lines;
    size_t size;
};

#define PLAIN "sshd: .depot%u.example, van%u.x.example, 10.%u.%u.\n"
#define BRACKETED "sshd: [2001:db8:%x::]/48, [2001:db8:1:%x::2], [fe80::%x:0:%x]/64\n"
#define PREFIXES "sshd: [2001:db8:ffff:%x::]/64, [2001:db8:ffff::%x]/127, [2001:db8:ffff:0:1:%x::]/96\n" /* each differs in its last word */
#define DAEMONS "d%u: .depot%u.example, van%u.x.example, 10.%u.\n" /* as PLAIN, each for another daemon */
#define BYUID_FORMS "10.%u.0.0/16,80\n10.1.0.0-10.1.%u.255,1-1023\n10.0.%u.0/24,1-1023\n2001:db8:%x::/48,80\n"
#define PORTACL_ENTRY "gid:%u:tcp:10001,"
#define NAMING "sshd: /a, /a, /a, /a, /a, /a, /a, /a, /a, /a, /a, /a, /a, /a, /a, /a, /a, /a, /a, /a\n"
#define USERS "sshd: u%u@pump.example EXCEPT u%u@pump.example\n" /* passes every user on, but asks */
#define TEN_USERS "ua@ALL ub@ALL uc@ALL ud@ALL ue@ALL uf@ALL ug@ALL uh@ALL ui@ALL uj@ALL "
#define FIFTY_USERS TEN_USERS TEN_USERS TEN_USERS TEN_USERS TEN_USERS
#define USER_LIST "sshd: " FIFTY_USERS FIFTY_USERS FIFTY_USERS FIFTY_USERS FIFTY_USERS "EXCEPT ALL\n" /* the same, in one long list */

static const struct recipe rules = {.form = PLAIN, .lines = 300};
static const struct recipe rules_after_fault = {.first = "sshd: a*b\n", .form = PLAIN, .lines = 299};
static const struct recipe plain_2 = {.form = PLAIN, .from = 100, .size = 2048};
static const struct recipe plain_4 = {.form = PLAIN, .from = 100, .size = 4096};
static const struct recipe plain_8 = {.form = PLAIN, .from = 100, .size = 8192};
static const struct recipe plain = {.form = PLAIN, .from = 100, .size = GATE_DENY_LIMIT};
static const struct recipe plain_after_match = {.first = "sshd: pump.example\n", .form = PLAIN, .from = 100, .size = GATE_ALLOW_LIMIT};
static const struct recipe bracketed = {.form = BRACKETED, .from = 0x100, .size = GATE_DENY_LIMIT};
static const struct recipe prefixes = {.form = PREFIXES, .from = 0x100, .size = GATE_DENY_LIMIT};
static const struct recipe users = {.form = USERS, .from = 100, .size = GATE_DENY_LIMIT};
static const struct recipe user_lists = {.form = USER_LIST, .size = GATE_DENY_LIMIT};
static const struct recipe all = {.first = "ALL: ALL\n"};
static const struct recipe byuid_lines = {.form = BYUID_FORMS, .from = 100, .size = GATE_BYUID_LIMIT};
static const struct recipe portacl_entries = {.form = PORTACL_ENTRY, .from = 1000000000, .lines = 41};
static const struct recipe expanded = {.first = "/usr/bin/logger -t gate %d %p: %c (%a, %n) to %s (%A), %u at %h is 100%% known"};

/* The most rules: all the same, and none like another. */
static const struct recipe repeats = {.form = "a:b\n", .lines = 4096};
static const struct recipe differing = {.form = "%x:b\n", .from = 1, .size = GATE_DENY_LIMIT};

/* 299 rules of allow that a burst of requests goes past, to one of deny: every element of each is looked at, or its daemon alone. */
static const struct recipe passed = {.form = PLAIN, .lines = 299};
static const struct recipe passed_daemons = {.form = DAEMONS, .lines = 299};

static const struct recipe naming = {.form = NAMING, .size = GATE_ALLOW_LIMIT};
static const struct recipe naming_once = {.first = "sshd: /a\n"};
static const struct recipe naming_shortly = {.form = "a:/d\n", .size = GATE_ALLOW_LIMIT};
static const struct recipe naming_last = {.form = "a:/_\n", .size = GATE_ALLOW_LIMIT};
static const struct recipe naming_last_once = {.first = "sshd: /_\n"};
static const struct recipe naming_alike = {.form = "a:/aaaahhaaa\n", .size = GATE_ALLOW_LIMIT};

enum call { VERDICT, TABLES_VERDICT, SHEET_VERDICT, NAME_MATTERS, BYUID, PORTACL, CHECK, EXPAND, PROPOSE, DROP, LONE_CALLS, ONE_CALL };

/* Tables by their kind: none; the four of 12,288 bytes that make most patterns to try; 64 that each name the last; as many full of the last's
 * name, which is of one byte, or of nine, where the names differ in their midst alone; those that are refused only when all are read: a ring of
 * 20,000, and 65,535 that hold nothing. */
enum tables { NO_TABLES, NEST, STAR, LAST, ALIKE, RING, SMALL };

enum client { V4, V6 };

/* Of an answer: its number and word; the line of a rule or of a fault, or how many bytes were written; of a burst: the lines and the elements
 * looked at of all its answers together. */
struct outcome {
    uint32_t number, word;
    uint64_t detail;
};

struct test_case {
    const char *name;
    enum call call;
    const struct recipe *allow, *deny, *byuid, *portacl, *command;
    enum client client;
    uint32_t user; /* enum gate_user */
    struct outcome expected;
    bool wrappers; /* tcp_wrappers answers the same question */
    enum tables tables;
    bool slow;     /* timed once, and its instructions not counted */
    size_t requests; /* of a burst */
};

#define NONE_MATCHES .expected = {0, GATE_GRANTED, 0}, .wrappers = true

static const struct test_case cases[] = {
    {"300 rules, none matches", VERDICT, .deny = &rules, NONE_MATCHES},
    {"300 rules, by sheet", SHEET_VERDICT, .deny = &rules, NONE_MATCHES},
    {"both files full", VERDICT, .allow = &plain, .deny = &plain, NONE_MATCHES},
    {"both files full, IPv6", VERDICT, .allow = &bracketed, .deny = &bracketed, .client = V6, NONE_MATCHES},
    {"both full, IPv6 prefixes", VERDICT, .allow = &prefixes, .deny = &prefixes, .client = V6, NONE_MATCHES},
    {"growth: 2 KiB", VERDICT, .deny = &plain_2, NONE_MATCHES},
    {"growth: 4 KiB", VERDICT, .deny = &plain_4, NONE_MATCHES},
    {"growth: 8 KiB", VERDICT, .deny = &plain_8, NONE_MATCHES},
    {"growth: 16 KiB", VERDICT, .deny = &plain, NONE_MATCHES},
    {"first of 16 KiB matches", VERDICT, .allow = &plain_after_match, .expected = {0, GATE_GRANTED, 1}, .wrappers = true},
    {"users: the verdict", VERDICT, .allow = &users, .deny = &users, .expected = {0, GATE_ASK, 1}},
    {"users: do they matter", NAME_MATTERS, .allow = &users, .deny = &users, .expected = {0, GATE_GRANTED, 0}},
    {"long lists: the verdict", VERDICT, .allow = &user_lists, .deny = &user_lists, .expected = {0, GATE_ASK, 1}},
    {"long lists: do they matter", NAME_MATTERS, .allow = &user_lists, .deny = &user_lists, .expected = {0, GATE_GRANTED, 0}},
    {"no users: do they matter", NAME_MATTERS, .deny = &rules, .expected = {0, GATE_GRANTED, 0}},
    {"no rules", VERDICT, NONE_MATCHES},
    {"deny ALL: ALL", VERDICT, .deny = &all, .expected = {0, GATE_DENIED, 1}, .wrappers = true},
    {"refused 13, no rules", VERDICT, .user = 3, .expected = {GATE_BAD_REQUEST, 0, 0}},
    {"refused 13, 300 rules", VERDICT, .deny = &rules, .user = 3, .expected = {GATE_BAD_REQUEST, 0, 0}},
    {"fault in line 1 of 300", VERDICT, .deny = &rules_after_fault, .expected = {GATE_UNKNOWN_ELEMENT, 0, 1}},
    {"full sheet", SHEET_VERDICT, .allow = &plain, .deny = &plain, .byuid = &byuid_lines, .portacl = &portacl_entries,
     .expected = {0, GATE_GRANTED, 0}},
    {"full sheet, shortest rules", SHEET_VERDICT, .allow = &repeats, .deny = &repeats, .byuid = &byuid_lines, .portacl = &portacl_entries,
     .expected = {0, GATE_GRANTED, 0}},
    {"nest: one rule", TABLES_VERDICT, .allow = &naming_once, .tables = NEST, .expected = {0, GATE_GRANTED, 0}},
    {"nest: files full of it", TABLES_VERDICT, .allow = &naming, .deny = &naming, .tables = NEST, .expected = {0, GATE_GRANTED, 0}},
    {"nest: full sheet", SHEET_VERDICT, .allow = &naming, .deny = &naming, .byuid = &byuid_lines, .portacl = &portacl_entries, .tables = NEST,
     .expected = {0, GATE_GRANTED, 0}},
    {"nest: short rules", TABLES_VERDICT, .allow = &naming_shortly, .deny = &naming_shortly, .tables = NEST, .expected = {0, GATE_GRANTED, 0}},
    {"nest: last of 64, one rule", TABLES_VERDICT, .allow = &naming_last_once, .tables = LAST, .expected = {0, GATE_GRANTED, 0}},
    {"nest: last of 64", TABLES_VERDICT, .allow = &naming_last, .deny = &naming_last, .tables = LAST, .expected = {0, GATE_GRANTED, 0}},
    {"nest: last of 64 alike", TABLES_VERDICT, .allow = &naming_alike, .deny = &naming_alike, .tables = ALIKE, .expected = {0, GATE_GRANTED, 0}},
    {"64 tables, one rule", TABLES_VERDICT, .allow = &naming_once, .tables = STAR, .expected = {0, GATE_GRANTED, 0}},
    {"64 tables, files full", TABLES_VERDICT, .allow = &naming, .deny = &naming, .tables = STAR, .expected = {0, GATE_GRANTED, 0}},
    {"tables, and plain rules", TABLES_VERDICT, .deny = &rules, .tables = NEST, .expected = {0, GATE_GRANTED, 0}},
    {"refused 16: a long ring", TABLES_VERDICT, .allow = &naming_once, .tables = RING, .expected = {GATE_TOO_DEEP, 0, 1}, .slow = true},
    {"refused 17: 65,535 tables", TABLES_VERDICT, .allow = &naming_once, .tables = SMALL, .expected = {GATE_BAD_TABLE, 0, 0}, .slow = true},
    {"byuid full", BYUID, .byuid = &byuid_lines, .expected = {0, GATE_NO_LINE, 0}},
    {"portacl full", PORTACL, .portacl = &portacl_entries, .expected = {0, GATE_DENIED, 0}},
    {"checking a full sheet", CHECK, .allow = &plain, .deny = &plain, .byuid = &byuid_lines, .portacl = &portacl_entries},
    {"burst: 32 lone calls", LONE_CALLS, .allow = &passed, .deny = &all, .requests = 32, .expected = {0, GATE_DENIED, 32 * (1 + 299 * 4 + 2)}},
    {"burst: one call", ONE_CALL, .allow = &passed, .deny = &all, .requests = 32, .expected = {0, GATE_DENIED, 32 * (1 + 299 * 4 + 2)}},
    {"burst: of none", ONE_CALL, .allow = &passed, .deny = &all},
    {"burst: the sheet's check", CHECK, .allow = &passed, .deny = &all},
    {"daemons: 32 lone calls", LONE_CALLS, .allow = &passed_daemons, .deny = &all, .requests = 32, .expected = {0, GATE_DENIED, 32 * (1 + 299 + 2)}},
    {"daemons: one call", ONE_CALL, .allow = &passed_daemons, .deny = &all, .requests = 32, .expected = {0, GATE_DENIED, 32 * (1 + 299 + 2)}},
    {"daemons: of none", ONE_CALL, .allow = &passed_daemons, .deny = &all},
    {"daemons: the sheet's check", CHECK, .allow = &passed_daemons, .deny = &all},
    {"repeats: verdict", VERDICT, .deny = &repeats, NONE_MATCHES},
    {"repeats: propose", PROPOSE, .deny = &repeats, .expected = {0, 0, 4 * 4095}},
    {"repeats: drop", DROP, .deny = &repeats, .expected = {0, 0, 4}},
    {"differing: verdict", VERDICT, .deny = &differing, NONE_MATCHES},
    {"differing: propose", PROPOSE, .deny = &differing, .expected = {0, 0, 0}},
    {"differing: drop", DROP, .deny = &differing, .expected = {0, 0, GATE_DENY_LIMIT}},
    {"expansion", EXPAND, .command = &expanded, .user = GATE_USER_KNOWN, .expected = {0, 0, 148}, .wrappers = true},
};

struct text {
    uint8_t bytes[1 << 20]; /* with one for the zero that sprintf adds */
    size_t len;
};

static struct text allow, deny, byuid, portacl, command, tables, sheet, proposal, index_bytes, requests, out;
static struct gate_request burst[GATE_REQUESTS];
static const struct test_case *current;
static const struct text *handed[3]; /* what the current case's call is handed, in one to three texts */
static size_t handed_len;
static uint64_t handed_sum;
static char allow_path[4096], deny_path[4096];

/* The exports of a build. */
struct library {
    __typeof__(gate_verdict) *verdict;
    __typeof__(gate_sheet_verdict) *sheet_verdict;
    __typeof__(gate_byuid) *byuid;
    __typeof__(gate_portacl) *portacl;
    __typeof__(gate_check) *check;
    __typeof__(gate_expand) *expand;
    __typeof__(gate_pack) *pack;
    __typeof__(gate_tables_verdict) *tables_verdict; /* null in a build without tables */
    __typeof__(gate_name_matters) *name_matters;     /* null in one that cannot tell */
    __typeof__(gate_propose) *propose;               /* null in one that does not tidy, and so is the next */
    __typeof__(gate_drop) *drop;
    __typeof__(gate_index) *index;                   /* null in one that has no index, and so is the next */
    __typeof__(gate_verdicts) *verdicts;
};

static struct library libraries[2];
static int builds;

static void fail(const char *what, const char *why) {
    fprintf(stderr, "compare: %s: %s\n", what, why);
    exit(1);
}

static void load(struct library *build, const char *path) {
    static const char *const names[] = {"gate_verdict", "gate_sheet_verdict", "gate_byuid", "gate_portacl", "gate_check", "gate_expand", "gate_pack",
                                        "gate_tables_verdict", "gate_name_matters", "gate_propose", "gate_drop", "gate_index", "gate_verdicts"};
    enum { always = 7 }; /* the others are missing in earlier builds */
    void *symbols[sizeof names / sizeof *names], *handle = dlopen(path, RTLD_NOW | RTLD_LOCAL);
    _Static_assert(sizeof symbols == sizeof *build, "a name for each export");
    if (!handle)
        fail(path, dlerror());
    for (size_t i = 0; i < sizeof names / sizeof *names; i++)
        if (!(symbols[i] = dlsym(handle, names[i])) && i < always)
            fail(path, dlerror());
    memcpy(build, symbols, sizeof symbols);
}

/* The request of every case, as the exports take it. */
#define BYTES(literal) (const uint8_t *)(literal), sizeof(literal) - 1
#define TEXT(text) (text).bytes, (text).len
#define SHEET_FOR(build) sheet.bytes, (build)->tables_verdict ? sheet.len : sheet.len - 2
#define CLIENT_V4 GATE_IPV4, 0, 0xc0000201
#define CLIENT_V6 GATE_IPV6, 0x20010db8ffff0000, 1
#define FROM(client) BYTES("sshd"), GATE_NAME_KNOWN, client, BYTES("pump.example"), \
    GATE_NAME_UNKNOWN, GATE_IPV4, 0, 0xc0000202, BYTES(""), current->user, BYTES("fitter")
static const char *const client_texts[] = {[V4] = "192.0.2.1", [V6] = "2001:db8:ffff::1"};

static struct outcome outcome_of(struct gate_answer a) {
    return (struct outcome){a.number, a.word, a.line};
}

/* One more answer of a burst. */
static void add_answer(struct outcome *all, const struct gate_answer *a) {
    all->number |= a->number;
    all->word |= a->word;
    all->detail += a->line + a->looked;
}

/* A burst by lone calls, one after the other. */
static struct outcome by_lone_calls(const struct library *g) {
    struct outcome all = {0, 0, 0};
    for (size_t i = 0; i < current->requests; i++) {
        struct gate_answer a = g->sheet_verdict(SHEET_FOR(g), GATE_REQUEST_ARGUMENTS(&burst[i]));
        add_answer(&all, &a);
    }
    return all;
}

/* The same by one call, with its answers read. */
static struct outcome by_one_call(const struct library *g) {
    struct gate_written written = g->verdicts(out.bytes, GATE_SHEET_LIMIT, TEXT(sheet), TEXT(index_bytes), TEXT(requests));
    struct outcome all = {written.number, 0, 0};
    for (size_t at = 0; at < written.count; at += GATE_ANSWER_BYTES) {
        struct gate_answer a = gate_answer_read(out.bytes + at);
        add_answer(&all, &a);
    }
    return all;
}

static struct outcome by_gate(const struct library *g) {
    static const uint32_t groups[16] = {1, 2, 3, 4, 5, 6, 7, 8, 9, 10, 11, 12, 13, 14, 15, 16};
    struct gate_written written;
    switch (current->call) {
    case VERDICT:
        return outcome_of(current->client == V4 ? g->verdict(TEXT(allow), TEXT(deny), FROM(CLIENT_V4))
                                                : g->verdict(TEXT(allow), TEXT(deny), FROM(CLIENT_V6)));
    case TABLES_VERDICT:
        return outcome_of(g->tables_verdict(TEXT(allow), TEXT(deny), TEXT(tables), FROM(CLIENT_V4)));
    case SHEET_VERDICT:
        return outcome_of(g->sheet_verdict(SHEET_FOR(g), FROM(CLIENT_V4)));
    case NAME_MATTERS:
        return outcome_of(g->name_matters(TEXT(allow), TEXT(deny), FROM(CLIENT_V4)));
    case BYUID:
        return outcome_of(g->byuid(TEXT(byuid), GATE_PLAIN_FILE, 80, CLIENT_V4, 1000));
    case PORTACL:
        return outcome_of(g->portacl(TEXT(portacl), 1, 65535, 1, 1, 1000, groups, 16, GATE_TCP, 10001));
    case CHECK:
        return (struct outcome){g->check(SHEET_FOR(g)).number, 0, 0};
    case EXPAND:
        written = g->expand(out.bytes, GATE_SHEET_LIMIT, TEXT(command), FROM(CLIENT_V4), 4711);
        return (struct outcome){written.number, 0, written.count};
    case PROPOSE:
        written = g->propose(out.bytes, GATE_TIDY_ROOM, TEXT(deny), TEXT(tables), GATE_DENY);
        return (struct outcome){written.number, 0, written.count};
    case DROP:
        written = g->drop(out.bytes, GATE_TIDY_ROOM, TEXT(deny), TEXT(tables), GATE_DENY, TEXT(proposal));
        return (struct outcome){written.number, 0, written.count};
    case LONE_CALLS:
        return by_lone_calls(g);
    case ONE_CALL:
        return by_one_call(g);
    }
    return (struct outcome){0, 0, 0};
}

static bool by_wrappers(void) {
    struct request_info r;
    request_init(&r, RQ_DAEMON, "sshd", RQ_CLIENT_NAME, "pump.example", RQ_CLIENT_ADDR, client_texts[current->client],
                 RQ_SERVER_ADDR, "192.0.2.2", RQ_USER, current->user == GATE_USER_KNOWN ? "fitter" : "unknown", 0);
    if (current->call == EXPAND)
        return percent_x((char *)out.bytes, GATE_SHEET_LIMIT, (char *)command.bytes, &r) != NULL;
    return hosts_access(&r) == (current->expected.word == GATE_GRANTED);
}

static bool read_file(const char *path, size_t len) {
    FILE *file = fopen(path, "r");
    bool whole = file && fread(out.bytes, 1, sizeof out.bytes, file) == len;
    return file && !fclose(file) && whole;
}

static uint64_t sum_of(const struct text *t) {
    const uint8_t *bytes = t->bytes, *end = bytes + t->len;
    uint64_t sum = 0;
    while (bytes < end)
        sum += *bytes++;
    return sum;
}

static uint64_t sum_handed(void) {
    uint64_t sum = 0;
    for (int i = 0; i < 3; i++)
        sum += handed[i] ? sum_of(handed[i]) : 0;
    return sum;
}

enum who { GATE, BEFORE, WRAPPERS, FILES, SUM, WHO_COUNT };
static const char *const who_names[] = {"gate", "before", "tcp_wrappers", "files", "sum"};

static bool takes_part(enum who who) {
    switch (who) {
    case WRAPPERS:
        return current->wrappers;
    case FILES:
        return current->wrappers && current->call != EXPAND;
    case SUM:
        return handed_len > 0;
    default:
        return (int)who < builds && (current->tables == NO_TABLES || libraries[who].tables_verdict) &&
               (current->call != NAME_MATTERS || libraries[who].name_matters) &&
               ((current->call != PROPOSE && current->call != DROP) || libraries[who].propose) && (current->call != ONE_CALL || libraries[who].verdicts);
    }
}

/* One call; whether its answer is the expected one. */
static bool call(enum who who) {
    switch (who) {
    case WRAPPERS:
        return by_wrappers();
    case FILES:
        return read_file(allow_path, allow.len) && read_file(deny_path, deny.len);
    case SUM:
        return sum_handed() == handed_sum;
    default: {
        struct outcome answer = by_gate(&libraries[who]), expected = current->expected;
        return answer.number == expected.number && answer.word == expected.word && answer.detail == expected.detail;
    }
    }
}

static void fail_unless(bool expected, enum who who) {
    if (expected)
        return;
    fprintf(stderr, "compare: %s: not the expected answer by %s\n", current->name, who_names[who]);
    exit(1);
}

__attribute__((noinline)) bool counted(enum who who) {
    return call(who);
}

static double now(void) {
    struct timespec t;
    clock_gettime(CLOCK_MONOTONIC, &t);
    return (double)t.tv_sec * 1e9 + (double)t.tv_nsec;
}

/* Nanoseconds of so many calls, after one that finds the caches as whoever came before left them. */
static double timed(enum who who, unsigned calls) {
    bool sound = call(who);
    double start = now();
    for (unsigned i = 0; i < calls; i++)
        sound &= call(who);
    double taken = now() - start;
    fail_unless(sound, who);
    return taken;
}

/* Lowers `best` to the least nanoseconds of a call by each. Short calls are timed together, so that the clock's own time does not show. */
static void time_current(double best[WHO_COUNT]) {
    enum { rounds = 300, least = 5000, budget = 60000000 };
    unsigned together[WHO_COUNT];
    double end = now() + budget;
    for (enum who who = 0; who < WHO_COUNT; who++)
        for (together[who] = 1; takes_part(who) && timed(who, together[who]) < least;)
            together[who] *= 2;
    for (int round = 0; round == 0 || (!current->slow && (round < rounds || now() < end)); round++)
        for (enum who who = 0; who < WHO_COUNT; who++) {
            double taken = takes_part(who) ? timed(who, together[who]) / together[who] : 0;
            if (best[who] == 0 || taken < best[who])
                best[who] = taken;
        }
}

static void add(struct text *t, const char *form, unsigned i) {
    t->len += (size_t)sprintf((char *)t->bytes + t->len, form, i, i, i % 256, i / 2 % 256);
}

/* Makes a text by its recipe. Where it has a size, the line that does not fit becomes a comment; a comma at the end is dropped. */
static void make(struct text *t, const struct recipe *r) {
    size_t fits = t->len = 0;
    if (r && r->first)
        t->len = fits = strlen(strcpy((char *)t->bytes, r->first));
    for (unsigned i = 0; r && r->form && (i < r->lines || t->len < r->size); i++) {
        fits = t->len;
        add(t, r->form, r->from + i);
    }
    if (r && r->size) {
        memset(t->bytes + fits, '#', r->size - fits);
        t->bytes[r->size - 1] = '\n';
        t->len = r->size;
    }
    if (t->len && t->bytes[t->len - 1] == ',')
        t->len--;
    t->bytes[t->len] = 0;
}

static void add_number(size_t number, int width) {
    while (width--)
        tables.bytes[tables.len++] = (uint8_t)(number >> 8 * width);
}

/* A table of a word again and again, with a blank between. */
static void add_table(const char *name, const char *word, size_t times) {
    add_number(strlen(name), 1);
    tables.len += (size_t)sprintf((char *)tables.bytes + tables.len, "%s", name);
    add_number(times ? (strlen(word) + 1) * times - 1 : 0, 4);
    for (size_t i = 0; i < times; i++)
        tables.len += (size_t)sprintf((char *)tables.bytes + tables.len, "%s%s", i ? " " : "", word);
}

/* So many tables, of which each names one: the next in a ring, or the last; or none. */
static void add_tables(unsigned count, enum tables kind) {
    char name[16], word[16];
    for (unsigned i = 0; i < count; i++) {
        unsigned named = kind == RING ? (i + 1) % count : count - 1;
        sprintf(name, i ? "t%x" : "a", i);
        sprintf(word, named ? "/t%x" : "/a", named);
        add_table(name, word, kind == SMALL || (kind == STAR && i == named) ? 0 : kind == STAR ? 30 : 1);
    }
}

/* The name of one of 64 tables: of two bytes, then of one; or of nine, two of them its own. */
static void name_table(char *name, unsigned i, enum tables kind) {
    static const char own[] = "abcdefghijklmnopqrstuvwxyz0123456789-._";
    enum { single = sizeof own - 1, pairs = 64 - single };
    if (kind == ALIKE)
        sprintf(name, "aaaa%c%caaa", own[i / 8], own[i % 8]);
    else if (i < pairs)
        sprintf(name, "a%c", own[i]);
    else
        sprintf(name, "%c", own[i - pairs]);
}

/* 64 tables, all but the last as full of its name as fits. */
static void add_full_tables(enum tables kind) {
    enum { last = 63 };
    char name[16], word[16] = "/";
    size_t room = GATE_TABLES_LIMIT - 2;
    for (unsigned i = 0; i <= last; i++) {
        name_table(name, i, kind);
        room -= strlen(name) + 5;
    }
    strcat(word, name);
    for (unsigned i = 0; i <= last; i++) {
        name_table(name, i, kind);
        add_table(name, word, i < last ? room / last / (strlen(word) + 1) : 0);
    }
}

static void make_tables(enum tables kind) {
    static const unsigned counts[] = {[NO_TABLES] = 0, [NEST] = 4, [STAR] = 64, [LAST] = 64, [ALIKE] = 64, [RING] = 20000, [SMALL] = 65535};
    tables.len = 0;
    add_number(counts[kind], 2);
    if (kind == LAST || kind == ALIKE) {
        add_full_tables(kind);
        return;
    }
    if (kind != NEST) {
        add_tables(counts[kind], kind);
        return;
    }
    add_table("a", "/b", 1022);
    add_table("b", "/c", 1022);
    add_table("c", "/d", 1022);
    add_table("d", "x", 1534);
    if (tables.len != GATE_TABLES_LIMIT)
        fail("nest", "not as long as the tables may be");
}

static void write_file(const char *path, const struct text *t) {
    FILE *file = fopen(path, "w");
    if (!file || fwrite(t->bytes, 1, t->len, file) != t->len || fclose(file))
        fail(path, "cannot be written");
}

/* Requests of a burst, each of another client, and their bytes; the sheet's index. */
static void make_burst(size_t count) {
    static char names[GATE_REQUESTS][32];
    requests.len = 0;
    for (size_t i = 0; i < count; i++) {
        burst[i] = gate_request_to("sshd", 4);
        burst[i].client.kind = burst[i].server.kind = GATE_IPV4;
        burst[i].client.low = 0xc0000200 + i;
        burst[i].server.low = 0xc0000301;
        gate_host_set_name(&burst[i].client, names[i], (size_t)sprintf(names[i], "pump%zu.example", i));
        gate_request_set_user(&burst[i], "fitter", 6);
        requests.len += gate_request_write(requests.bytes + requests.len, GATE_REQUEST_ROOM, &burst[i]).count;
    }
    index_bytes.len = libraries[0].index(index_bytes.bytes, GATE_INDEX_ROOM, TEXT(sheet)).count;
}

static void prepare(const struct test_case *c) {
    static const struct text *const first[] = {&allow, &allow, &sheet, &allow, &byuid, &portacl, &sheet, &command, &deny, &deny, &sheet, &sheet};
    static const struct text *const second[] = {
        [VERDICT] = &deny, [TABLES_VERDICT] = &deny, [NAME_MATTERS] = &deny, [DROP] = &proposal, [ONE_CALL] = &index_bytes};
    current = c;
    make(&allow, c->allow);
    make(&deny, c->deny);
    make(&byuid, c->byuid);
    make(&portacl, c->portacl);
    make(&command, c->command);
    make_tables(c->tables);
    sheet.len = libraries[0].pack(sheet.bytes, GATE_SHEET_LIMIT, TEXT(allow), TEXT(deny), TEXT(byuid), TEXT(portacl), TEXT(tables)).count;
    proposal.len = c->call == DROP ? libraries[0].propose(proposal.bytes, GATE_TIDY_ROOM, TEXT(deny), TEXT(tables), GATE_DENY).count : 0;
    if (c->call == LONE_CALLS || c->call == ONE_CALL)
        make_burst(c->requests);
    write_file(allow_path, &allow);
    write_file(deny_path, &deny);
    handed[0] = first[c->call];
    handed[1] = second[c->call];
    handed[2] = c->call == TABLES_VERDICT ? &tables : c->call == ONE_CALL ? &requests : NULL;
    handed_len = handed[0]->len + (handed[1] ? handed[1]->len : 0) + (handed[2] ? handed[2]->len : 0);
    handed_sum = sum_handed();
}

enum { case_count = sizeof cases / sizeof *cases };
static double best[case_count][WHO_COUNT];

/* All cases several times over, so that other work on the machine for a while spoils none. */
static void time_cases(void) {
    enum { sweeps = 6 };
    for (int i = 0; i < sweeps * case_count; i++) {
        const struct test_case *c = &cases[i % case_count];
        if (c->slow && i >= case_count)
            continue;
        prepare(c);
        time_current(best[i % case_count]);
    }
}

/* The current case's lines. */
static void show(bool count, const double times[WHO_COUNT]) {
    for (enum who who = 0; who < WHO_COUNT; who++) {
        if (!takes_part(who))
            continue;
        if (count)
            fail_unless(call(who) && counted(who), who);
        printf("%s\t%zu\t%s\t%.2f\n", current->name, handed_len, who_names[who], times[who]);
    }
}

int main(int argc, char **argv) {
    bool count = argc > 1 && !strcmp(argv[1], "count");
    if (argc < 4 || argc > 5 || (!count && strcmp(argv[1], "time")))
        fail("usage", "compare time|count DIR GATE.so [BEFORE.so]");
    snprintf(hosts_allow_table = allow_path, sizeof allow_path, "%s/hosts.allow", argv[2]);
    snprintf(hosts_deny_table = deny_path, sizeof deny_path, "%s/hosts.deny", argv[2]);
    for (builds = 0; builds < argc - 3; builds++)
        load(&libraries[builds], argv[builds + 3]);
    if (!count)
        time_cases();
    for (int i = 0; i < case_count; i++) {
        if (count && cases[i].slow)
            continue;
        prepare(&cases[i]);
        show(count, best[i]);
    }
    return 0;
}
