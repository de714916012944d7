/* The inline calls of the header: each answers as its export does, reads no name that is not known, and takes null for nothing.
 * Compiles as C and as C++. */
#if !defined(_DEFAULT_SOURCE)
#define _DEFAULT_SOURCE
#endif
#include <stdio.h>
#include <string.h>
#include <sys/mman.h>
#include "gate.h"

static const char allow[] = "sshd: .vans.example: log %h\nconsole: fitter@10.0.0.1\nweb@192.0.2.1: ALL\nlock: PARANOID\n";
static const char deny[] = "ALL: ALL\n";
static const char byuid[] = "10.0.0.0/8,80\n";
static const char upper[] = "10.0.0.0/8,600\n";
static const char portacl[] = "uid:80:tcp:80,gid:20:udp:53";
static const char naming[] = "sshd: /vans EXCEPT fitter@/Depot\nweb@/depot: ALL\n";
static const char tables[] = "\0\2\4vans\0\0\0\x07" "/depot\n\5depot\0\0\0\x13" "10.0.0.1 192.0.2.1\n";
static uint8_t sheet[GATE_SHEET_LIMIT];
static size_t sheet_len;
static const char *unreadable;
static int failed;

static void expect(const char *what, int holds) {
    if (!holds) {
        printf("header: failed: %s\n", what);
        failed = 1;
    }
}

static void prepare(void) {
    void *page = mmap(NULL, 4096, PROT_NONE, MAP_PRIVATE | MAP_ANONYMOUS, -1, 0);
    struct gate_written w = gate_pack(sheet, sizeof sheet, gate_bytes(allow, 1), sizeof allow - 1, gate_bytes(deny, 1), sizeof deny - 1,
                                      gate_bytes(byuid, 1), sizeof byuid - 1, gate_bytes(portacl, 1), sizeof portacl - 1,
                                      gate_bytes(tables, 1), sizeof tables - 1);
    expect("the sheet is packed", w.number == GATE_ANSWERED && page != MAP_FAILED);
    sheet_len = (size_t)w.count;
    unreadable = (const char *)page;
}

/* Client 10.0.0.1, server 192.0.2.1. */
static struct gate_request request_to(const char *daemon) {
    struct gate_request r = gate_request_to(daemon, strlen(daemon));
    const uint8_t client[4] = {10, 0, 0, 1}, server[4] = {192, 0, 2, 1};
    r.client = gate_host_ipv4(client);
    r.server = gate_host_ipv4(server);
    return r;
}

/* With the command written, as without. */
static int commanded(const struct gate_command_answer *c, const struct gate_answer *a) {
    return c->number == GATE_ANSWERED && c->word == a->word && c->file == a->file && c->line == a->line && c->len == a->len &&
           c->place == a->place && c->looked == a->looked;
}

/* The same word, file, line and number of elements by texts, with tables that no rule names, and by the sheet. */
static int decided(const struct gate_request *r, uint32_t word, uint32_t file, uint64_t line) {
    struct gate_answer t = gate_verdict_for(allow, sizeof allow - 1, deny, sizeof deny - 1, r);
    struct gate_answer w = gate_tables_verdict_for(allow, sizeof allow - 1, deny, sizeof deny - 1, tables, sizeof tables - 1, r);
    struct gate_answer s = gate_sheet_verdict_for(sheet, sheet_len, r);
    uint8_t out[64];
    struct gate_command_answer tc = gate_command_for(out, sizeof out, allow, sizeof allow - 1, deny, sizeof deny - 1, r, 7);
    struct gate_command_answer sc = gate_sheet_command_for(out, sizeof out, sheet, sheet_len, r, 7);
    return t.number == GATE_ANSWERED && t.word == word && t.file == file && t.line == line && s.number == GATE_ANSWERED &&
           w.number == GATE_ANSWERED && w.word == word && w.file == file && w.line == line && w.place == t.place && w.len == t.len &&
           t.looked > 0 && w.looked == t.looked && s.looked == t.looked && s.word == word && s.file == file && s.line == line && s.len == t.len && commanded(&tc, &t) && commanded(&sc, &s);
}

static int refused(const struct gate_request *r) {
    return gate_command_for(NULL, 0, allow, sizeof allow - 1, deny, sizeof deny - 1, r, 7).number == GATE_BAD_REQUEST &&
           gate_sheet_command_for(NULL, 0, sheet, sheet_len, r, 7).number == GATE_BAD_REQUEST &&
           gate_verdict_for(allow, sizeof allow - 1, deny, sizeof deny - 1, r).number == GATE_BAD_REQUEST &&
           gate_tables_verdict_for(allow, sizeof allow - 1, deny, sizeof deny - 1, tables, sizeof tables - 1, r).number == GATE_BAD_REQUEST &&
           gate_sheet_verdict_for(sheet, sheet_len, r).number == GATE_BAD_REQUEST &&
           gate_name_matters_for(allow, sizeof allow - 1, deny, sizeof deny - 1, r).number == GATE_BAD_REQUEST &&
           gate_tables_name_matters_for(allow, sizeof allow - 1, deny, sizeof deny - 1, tables, sizeof tables - 1, r).number == GATE_BAD_REQUEST &&
           gate_sheet_name_matters_for(sheet, sheet_len, r).number == GATE_BAD_REQUEST;
}

/* Whether the name matters: the same by texts, with tables that no rule names, and by the sheet. */
static int told(const struct gate_request *r, uint32_t word, uint32_t file, uint64_t line) {
    struct gate_answer t = gate_name_matters_for(allow, sizeof allow - 1, deny, sizeof deny - 1, r);
    struct gate_answer w = gate_tables_name_matters_for(allow, sizeof allow - 1, deny, sizeof deny - 1, tables, sizeof tables - 1, r);
    struct gate_answer s = gate_sheet_name_matters_for(sheet, sheet_len, r);
    return t.number == GATE_ANSWERED && t.word == word && t.file == file && t.line == line && w.number == GATE_ANSWERED && w.word == word &&
           w.file == file && w.line == line && s.number == GATE_ANSWERED && s.word == word && s.file == file && s.line == line &&
           !(t.place | t.len | t.looked | w.place | w.len | w.looked | s.place | s.len | s.looked);
}

static void hosts(void) {
    const uint8_t six[16] = {0x26, 0x20, 1, 6, 0xe0, 2, 0xf0, 0x0f, 0, 0, 0, 0, 0, 0, 0, 0x21};
    const uint8_t highest[4] = {255, 254, 253, 252};
    const char *wrong[] = {"10.0.0.01", "10.20.30.400", "", "unknown", "::1%lo", "0", "10.0.0.1 "};
    struct gate_host host = gate_host_ipv4(highest), before = host, read = host;
    uint8_t out[GATE_ADDRESS_ROOM];
    size_t i;
    expect("an IPv4 address by its bytes", host.kind == GATE_IPV4 && host.high == 0 && host.low == 0xfffefdfc && !host.name && !host.name_len);
    expect("its text", gate_host_write(out, sizeof out, &host).count == 15 && !memcmp(out, "255.254.253.252", 15));
    host = gate_host_ipv6(six);
    expect("an IPv6 address by its bytes", host.kind == GATE_IPV6 && gate_host_write(out, sizeof out, &host).count == 22 &&
           !memcmp(out, "2620:106:e002:f00f::21", 22));
    expect("an address read", gate_host_read(&read, "2620:106:e002:f00f::21", 22) == GATE_ANSWERED && read.kind == host.kind &&
           read.high == host.high && read.low == host.low && read.name_state == GATE_NAME_UNKNOWN);
    for (i = 0; i < sizeof wrong / sizeof *wrong; i++) {
        read = before;
        expect(wrong[i], gate_host_read(&read, wrong[i], strlen(wrong[i])) == GATE_BAD_REQUEST && read.kind == before.kind && read.low == before.low);
    }
    expect("no text", gate_host_read(&read, NULL, 0) == GATE_BAD_REQUEST);
    read.kind = gate_read_address(gate_bytes("10.0.0.01", 9), 9).kind;
    expect("what is no address is not written", read.kind == GATE_NO_ADDRESS && gate_host_write(out, sizeof out, &read).number == GATE_BAD_REQUEST);
    host = gate_host_unknown();
    expect("an unknown address", gate_host_write(out, sizeof out, &host).count == 7 && !memcmp(out, "unknown", 7));
    expect("no room", gate_host_write(NULL, 0, &host).number == GATE_NO_ROOM);
}

static void verdicts(void) {
    struct gate_request r = request_to("sshd");
    expect("no name", decided(&r, GATE_DENIED, GATE_DENY, 1));
    gate_host_set_name(&r.client, "van7.vans.example", 17);
    expect("a name", decided(&r, GATE_GRANTED, GATE_ALLOW, 1));
    gate_host_set_paranoid(&r.client);
    expect("no longer a name", decided(&r, GATE_DENIED, GATE_DENY, 1) && !r.client.name);
    gate_host_set_name(&r.client, NULL, 0);
    expect("null is no name", decided(&r, GATE_DENIED, GATE_DENY, 1) && r.client.name_state == GATE_NAME_UNKNOWN);
    gate_host_set_name(&r.client, "", 0);
    expect("a known name of no bytes", refused(&r));
    r = request_to("web");
    expect("the server's end", decided(&r, GATE_GRANTED, GATE_ALLOW, 3));
    r.client = r.server;
    r.server = gate_host_unknown();
    expect("not the client's", decided(&r, GATE_DENIED, GATE_DENY, 1));
    r = request_to("lock");
    expect("an unknown name", decided(&r, GATE_DENIED, GATE_DENY, 1));
    gate_host_set_paranoid(&r.client);
    expect("a paranoid name", decided(&r, GATE_GRANTED, GATE_ALLOW, 4));
    r = gate_request_to(NULL, 0);
    expect("no daemon", refused(&r));
    memset(&r, 0, sizeof r);
    expect("zeros have no daemon", refused(&r));
}

/* Rules that name tables, by texts. */
static int named(const struct gate_request *r, uint32_t word, uint64_t line) {
    struct gate_answer a = gate_tables_verdict_for(naming, sizeof naming - 1, deny, sizeof deny - 1, tables, sizeof tables - 1, r);
    return a.number == GATE_ANSWERED && a.word == word && a.line == line;
}

static void with_tables(void) {
    struct gate_request r = request_to("sshd");
    expect("a table that matches asks for the user behind it", named(&r, GATE_ASK, 1));
    gate_request_set_user(&r, NULL, 0);
    expect("a table that names another", named(&r, GATE_GRANTED, 1));
    gate_request_set_user(&r, "fitter", 6);
    expect("a user and a table", named(&r, GATE_DENIED, 1));
    r.daemon = "web", r.daemon_len = 3;
    expect("the server's end in a table", named(&r, GATE_GRANTED, 2));
    r.server = gate_host_unknown();
    expect("not in it", named(&r, GATE_DENIED, 1));
    expect("a call without tables", gate_verdict_for(naming, sizeof naming - 1, NULL, 0, &r).number == GATE_TABLE_NAME);
    expect("a fifth text of no bytes", gate_tables_verdict_for(NULL, 0, NULL, 0, NULL, 0, &r).number == GATE_CUT_SHORT);
    expect("a fifth text of no tables", gate_tables_verdict_for(NULL, 0, NULL, 0, "\0\0", 2, &r).word == GATE_GRANTED);
}

static void users(void) {
    struct gate_request r = request_to("console");
    expect("a user not fetched", decided(&r, GATE_ASK, GATE_ALLOW, 2));
    gate_request_set_user(&r, "fitter", 6);
    expect("a user", decided(&r, GATE_GRANTED, GATE_ALLOW, 2));
    gate_request_set_user(&r, NULL, 0);
    expect("null is no user", decided(&r, GATE_DENIED, GATE_DENY, 1) && r.user == GATE_USER_UNKNOWN);
    gate_request_set_user(&r, "", 0);
    expect("a known user of no bytes", refused(&r));
}

static void names_matter(void) {
    struct gate_request r = request_to("console");
    expect("a name matters", told(&r, GATE_NAME_MATTERS, 0, 0));
    gate_request_set_user(&r, "fitter", 6);
    expect("whatever the user is", told(&r, GATE_NAME_MATTERS, 0, 0));
    r.user = GATE_USER_UNKNOWN, r.user_name = unreadable;
    expect("who is not read where he is not known", told(&r, GATE_NAME_MATTERS, 0, 0));
    r = request_to("web");
    expect("no name matters", told(&r, GATE_GRANTED, GATE_ALLOW, 3));
    r = request_to("sshd");
    expect("nor to one who is denied", told(&r, GATE_DENIED, GATE_DENY, 1));
    expect("a user before a table", gate_tables_name_matters_for(naming, sizeof naming - 1, NULL, 0, tables, sizeof tables - 1, &r).word == GATE_NAME_MATTERS);
    expect("without tables", gate_name_matters_for(naming, sizeof naming - 1, NULL, 0, &r).number == GATE_TABLE_NAME);
    expect("no texts", gate_name_matters_for(NULL, 0, NULL, 0, &r).word == GATE_GRANTED);
    expect("no fifth text", gate_tables_name_matters_for(NULL, 0, NULL, 0, NULL, 0, &r).number == GATE_CUT_SHORT);
    expect("no sheet", gate_sheet_name_matters_for(NULL, 0, &r).number == GATE_CUT_SHORT);
    expect("the word", !strcmp(gate_word_text(GATE_NAME_MATTERS), "name matters"));
}

/* Each request by the sheet and its index as by the sheet alone, all at once and one by one. */
static int all_as_alone(const struct gate_request *requests, size_t count) {
    static uint8_t index[GATE_INDEX_ROOM];
    struct gate_answer answers[GATE_REQUESTS];
    struct gate_written w = gate_index(index, sizeof index, sheet, sheet_len);
    struct gate_checked c = gate_verdicts_for(answers, sheet, sheet_len, index, (size_t)w.count, requests, count);
    size_t i;
    if (w.number != GATE_ANSWERED || c.number != GATE_ANSWERED || c.section || c.line)
        return 0;
    for (i = 0; i < count; i++) {
        struct gate_answer a = gate_sheet_verdict_for(sheet, sheet_len, &requests[i]);
        const struct gate_answer *b = &answers[i];
        if (a.number != b->number || a.section != b->section || a.line != b->line || a.word != b->word || a.file != b->file || a.place != b->place ||
            a.len != b->len || a.looked != b->looked)
            return 0;
    }
    return 1;
}

static void together(void) {
    static char over[300];
    struct gate_request r[GATE_REQUESTS + 1];
    struct gate_answer answers[1];
    uint8_t index[8 + 32 * 8], out[GATE_REQUEST_ROOM];
    size_t i, len = (size_t)gate_index(index, sizeof index, sheet, sheet_len).count;
    memset(over, 'n', sizeof over);
    expect("no requests", all_as_alone(r, 0));
    for (i = 0; i <= GATE_REQUESTS; i++) {
        r[i] = request_to(i % 3 ? "sshd" : "console");
        if (i % 4 == 1)
            gate_host_set_name(&r[i].client, i % 8 == 1 ? "van7.vans.example" : over, i % 8 == 1 ? 17 : 255);
        if (i % 5 == 2)
            gate_request_set_user(&r[i], "fitter", 6);
    }
    gate_host_set_paranoid(&r[3].client), r[3].daemon = "lock", r[3].daemon_len = 4;
    r[4].client.name = r[4].server.name = r[4].user_name = unreadable, r[4].client.name_len = r[4].user_name_len = 40;
    r[6].daemon = NULL, r[6].daemon_len = 0;
    r[7].daemon = over, r[7].daemon_len = 65;
    r[8].daemon = over, r[8].daemon_len = 300;
    gate_host_set_name(&r[9].client, over, 256);
    gate_host_set_name(&r[10].server, "", 0);
    r[11].client.name_state = 258, r[12].server.name_state = 256, r[13].client.kind = 260, r[14].server.kind = 0x10000, r[15].user = 257, r[16].user = 3;
    r[17].client.low = (uint64_t)1 << 32;
    gate_request_set_user(&r[18], over, 65);
    gate_request_set_user(&r[19], over, 300);
    gate_request_set_user(&r[20], "", 0);
    r[21].client.kind = GATE_NO_ADDRESS;
    r[22].client = gate_host_unknown(), r[22].server.kind = GATE_IPV6, r[22].server.high = (uint64_t)-1, r[22].server.low = 1;
    expect("32 requests, bad ones among them", all_as_alone(r, GATE_REQUESTS));
    expect("each alone", all_as_alone(r, 1) && all_as_alone(r + 31, 1));
    expect("33", gate_verdicts_for(answers, sheet, sheet_len, index, len, r, GATE_REQUESTS + 1).number == GATE_BAD_REQUEST);
    expect("the index before that", gate_verdicts_for(answers, sheet, sheet_len, index, len - 1, r, GATE_REQUESTS + 1).number == GATE_WRONG_INDEX);
    expect("no index", gate_verdicts_for(answers, sheet, sheet_len, NULL, 0, r, 1).number == GATE_WRONG_INDEX);
    expect("no sheet", gate_verdicts_for(answers, NULL, 0, NULL, 0, NULL, 0).number == GATE_CUT_SHORT &&
           gate_verdicts_for(answers, NULL, 0, NULL, 0, NULL, 0).section == GATE_ALLOW);
    r[0].daemon = over, r[0].daemon_len = 255, r[0].user = GATE_USER_KNOWN, r[0].user_name = over, r[0].user_name_len = 255;
    gate_host_set_name(&r[0].client, over, 255), gate_host_set_name(&r[0].server, over, 255);
    expect("the longest request", gate_request_write(out, sizeof out, &r[0]).count == GATE_REQUEST_ROOM);
    expect("in less room", gate_request_write(out, sizeof out - 1, &r[0]).number == GATE_NO_ROOM && gate_request_write(NULL, 0, &r[0]).number == GATE_NO_ROOM);
    r[0] = gate_request_to(NULL, 0);
    expect("the shortest", gate_request_write(out, 41, &r[0]).count == 41 && gate_request_write(out, 40, &r[0]).number == GATE_NO_ROOM);
}

/* Names that are not known are not read, whatever stands beside them. */
static void unread(void) {
    struct gate_request r = request_to("console");
    uint8_t out[64];
    uint32_t state;
    for (state = GATE_NAME_UNKNOWN; state < GATE_NAME_KNOWN; state++) {
        r.client.name_state = r.server.name_state = state;
        r.client.name = r.server.name = r.user_name = unreadable;
        r.client.name_len = r.server.name_len = r.user_name_len = 40;
        r.user = GATE_USER_NOT_FETCHED;
        r.daemon = "sshd", r.daemon_len = 4;
        expect("an unreadable name at a domain", decided(&r, GATE_DENIED, GATE_DENY, 1));
        r.daemon = "console", r.daemon_len = 7;
        expect("unreadable names", decided(&r, GATE_ASK, GATE_ALLOW, 2));
        r.user = GATE_USER_UNKNOWN;
        expect("an unreadable user", decided(&r, GATE_DENIED, GATE_DENY, 1));
        expect("expanded", gate_expand_for(out, sizeof out, "%h %H %u", 8, &r, 7).count == 26 && !memcmp(out, "10.0.0.1 192.0.2.1 unknown", 26));
    }
    r.client.name_state = 3;
    expect("a name of no state", refused(&r));
}

static void commands(void) {
    struct gate_request r = request_to("sshd");
    struct gate_answer a;
    uint8_t out[64];
    gate_host_set_name(&r.client, "van7.vans.example", 17);
    a = gate_sheet_verdict_for(sheet, sheet_len, &r);
    expect("the rule's command", a.len == 7 && !memcmp(sheet + a.place, " log %h", 7));
    expect("expanded", gate_expand_for(out, sizeof out, sheet + a.place, (size_t)a.len, &r, 7).count == 21 && !memcmp(out, "log van7.vans.example", 21));
    expect("decided and expanded", gate_sheet_command_for(out, sizeof out, sheet, sheet_len, &r, 7).count == 21 &&
           !memcmp(out, "log van7.vans.example", 21));
    memset(out, 0, sizeof out);
    expect("the same by texts", gate_command_for(out, sizeof out, allow, sizeof allow - 1, deny, sizeof deny - 1, &r, 7).count == 21 &&
           !memcmp(out, "log van7.vans.example", 21));
    expect("process", gate_command_for(out, sizeof out, "ALL: ALL: %p\n", 13, NULL, 0, &r, 7).count == 1 && out[0] == '7');
    expect("no room to decide", gate_sheet_command_for(NULL, 0, sheet, sheet_len, &r, 7).number == GATE_NO_ROOM &&
           gate_command_for(NULL, 0, allow, sizeof allow - 1, NULL, 0, &r, 7).number == GATE_NO_ROOM);
    expect("no texts", gate_command_for(NULL, 0, NULL, 0, NULL, 0, &r, 7).word == GATE_GRANTED &&
           gate_sheet_command_for(NULL, 0, NULL, 0, &r, 7).number == GATE_CUT_SHORT);
    expect("client and server", gate_expand_for(out, sizeof out, "%a %A %p", 8, &r, 7).count == 20 && !memcmp(out, "10.0.0.1 192.0.2.1 7", 20));
    expect("no command", gate_expand_for(NULL, 0, NULL, 0, &r, 7).number == GATE_ANSWERED);
    expect("no room", gate_expand_for(NULL, 0, "x", 1, &r, 7).number == GATE_NO_ROOM);
}

static void ports(void) {
    struct gate_host at = request_to("x").client;
    struct gate_settings settings = gate_settings_default();
    struct gate_bind bind;
    const uint32_t groups[1] = {20};
    memset(&bind, 0, sizeof bind);
    bind.uid = 80;
    bind.protocol = GATE_TCP;
    bind.port = 80;
    expect("byuid", gate_byuid_for(byuid, sizeof byuid - 1, GATE_PLAIN_FILE, &at, 80, 432).word == GATE_GRANTED &&
           gate_sheet_byuid_for(sheet, sheet_len, &at, 80, 432).word == GATE_GRANTED &&
           gate_byuid_for(NULL, 0, GATE_PLAIN_FILE, &at, 80, 432).word == GATE_NO_LINE);
    expect("the other file", gate_byuid_for(byuid, sizeof byuid - 1, GATE_MARKED_FILE, &at, 80, 432).word == GATE_NO_LINE &&
           gate_byuid_for(upper, sizeof upper - 1, GATE_MARKED_FILE, &at, 600, 432).word == GATE_GRANTED &&
           gate_byuid_for(upper, sizeof upper - 1, GATE_PLAIN_FILE, &at, 600, 432).word == GATE_NO_LINE &&
           gate_byuid_for(upper, sizeof upper - 1, 2, &at, 600, 432).number == GATE_BAD_REQUEST);
    uint8_t name[GATE_AUTHBIND_ROOM];
    expect("authbind", gate_authbind_for(name, sizeof name, &at, 80, 432, NULL, 0).word == GATE_TEST &&
           gate_authbind_for(NULL, 0, &at, 80, 432, NULL, 0).number == GATE_NO_ROOM && !memcmp(name, "/etc/authbind/byport/80", 23));
    expect("portacl", gate_portacl_for(portacl, sizeof portacl - 1, &settings, &bind).word == GATE_GRANTED &&
           gate_sheet_portacl_for(sheet, sheet_len, &settings, &bind).word == GATE_GRANTED &&
           gate_portacl_for(NULL, 0, &settings, &bind).word == GATE_DENIED);
    bind.protocol = GATE_UDP;
    bind.port = 53;
    expect("no groups", gate_sheet_portacl_for(sheet, sheet_len, &settings, &bind).word == GATE_DENIED);
    bind.groups = groups;
    bind.groups_len = 1;
    expect("a group", gate_sheet_portacl_for(sheet, sheet_len, &settings, &bind).word == GATE_GRANTED);
    settings.enabled = 0;
    expect("not enabled", gate_sheet_portacl_for(sheet, sheet_len, &settings, &bind).word == GATE_NOT_RULED);
}

/* The settings, each by a bind that it decides. */
static int bind_word(const struct gate_settings *settings, uint32_t uid, uint32_t port, uint32_t word) {
    struct gate_bind bind;
    memset(&bind, 0, sizeof bind);
    bind.uid = uid;
    bind.protocol = GATE_UDP;
    bind.port = port;
    return gate_portacl_for(NULL, 0, settings, &bind).word == word && gate_sheet_portacl_for(sheet, sheet_len, settings, &bind).word == word;
}

static void settings(void) {
    struct gate_settings s = gate_settings_default();
    expect("port_high", bind_word(&s, 1, 1023, GATE_DENIED) && bind_word(&s, 1, 1024, GATE_NOT_RULED));
    expect("exempt", bind_word(&s, 0, 1, GATE_EXEMPT) && bind_word(&s, 1, 0, GATE_EXEMPT));
    s.suser_exempt = 0;
    expect("suser_exempt", bind_word(&s, 0, 1, GATE_DENIED) && bind_word(&s, 1, 0, GATE_EXEMPT));
    s = gate_settings_default();
    s.autoport_exempt = 0;
    expect("autoport_exempt", bind_word(&s, 0, 1, GATE_EXEMPT) && bind_word(&s, 1, 0, GATE_DENIED));
}

/* Each of first to last has a text of its own; the next has none. */
static int texts(const char *(*text)(uint32_t), uint32_t last) {
    uint32_t i, k;
    for (i = 0; i <= last + 1; i++)
        for (k = 0; k < i; k++)
            if (!strcmp(text(i), text(k)))
                return 0;
    return !strcmp(text(last + 1), text(0xfffffffe)) && !strcmp(text(last + 1), text(0xffffffff));
}

int main(void) {
    prepare();
    hosts();
    verdicts();
    with_tables();
    users();
    names_matter();
    together();
    unread();
    commands();
    ports();
    settings();
    expect("texts of the numbers", texts(gate_number_text, GATE_RETIRED_FORM) && !strcmp(gate_number_text(10), "no element kind fits"));
    expect("texts of the words", texts(gate_word_text, GATE_NAME_MATTERS) && !strcmp(gate_word_text(GATE_NOT_RULED), "not ruled"));
    expect("texts of the sections", texts(gate_section_text, GATE_TABLES) && !strcmp(gate_section_text(GATE_BYUID), "byuid"));
    if (!failed)
        printf("header: inline calls as expected\n");
    return failed;
}
