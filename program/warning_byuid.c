/* Warnings of byuid: lines that grant nothing, and what they would be if they did. */
#include <stdio.h>
#include <string.h>
#include "excerpt.h"
#include "message.h"
#include "reading.h"
#include "retired.h"
#include "warning.h"

/* A line as it is, or repaired. */
#define ATTEMPT_ROOM 256
struct attempt {
    char text[ATTEMPT_ROOM];
    size_t len;
};

/* A part of an attempt: where it begins and ends. */
struct piece {
    size_t from, to;
};

/* Up to the first byte of a set at or behind `from`, or to the end. */
static struct piece until(const struct attempt *a, size_t from, const char *set) {
    struct piece piece = {from, from};
    while (piece.to < a->len && !strchr(set, a->text[piece.to]))
        piece.to++;
    return piece;
}

static bool read_piece(const struct attempt *a, struct piece piece, uint32_t *port) {
    return read_decimal(a->text + piece.from, piece.to - piece.from, 65535, port);
}

/* The ports of a line: behind its comma, or round it in the retired form addr4/len:pmin,pmax. */
static struct piece first_port(const struct attempt *a) {
    struct piece head = until(a, 0, ","), net = until(a, 0, "/,"), length = until(a, net.to, ":,");
    if (net.to < head.to && length.to < head.to)
        return until(a, length.to + 1, ",");
    return until(a, head.to < a->len ? head.to + 1 : a->len, "-");
}

static struct piece last_port(const struct attempt *a) {
    struct piece first = first_port(a);
    return first.to < a->len ? (struct piece){first.to + 1, a->len} : first;
}

/* A line that grants anything grants its first address and its first port; port 0 is never ruled. A station's file is the plain one. */
static bool grants(const struct attempt *a) {
    struct piece address = until(a, 0, "-/,"), port_text = first_port(a);
    struct gate_host host;
    uint32_t port;
    if (gate_host_read(&host, a->text, address.to) != GATE_ANSWERED || !read_piece(a, port_text, &port))
        return false;
    return gate_byuid_for(a->text, a->len, GATE_PLAIN_FILE, &host, port ? port : 1, 1).word == GATE_GRANTED;
}

/* Repairs: each changes the attempt, or leaves it as it is where it has no such fault */

static void drop_bytes(struct attempt *a, const char *set) {
    size_t kept = 0;
    for (size_t i = 0; i < a->len; i++) {
        if (!strchr(set, a->text[i]))
            a->text[kept++] = a->text[i];
    }
    a->len = kept;
}

static void drop_returns(struct attempt *a) {
    drop_bytes(a, "\r");
}

static void drop_blanks(struct attempt *a) {
    drop_bytes(a, " \t");
}

/* Puts a text in the place of a piece. */
static void replace(struct attempt *a, struct piece piece, const char *text, size_t len) {
    struct attempt before = *a;
    size_t rest = before.len - piece.to;
    if (piece.from + len + rest > ATTEMPT_ROOM)
        return;
    memcpy(a->text + piece.from, text, len);
    memcpy(a->text + piece.from + len, before.text + piece.to, rest);
    a->len = piece.from + len + rest;
}

static uint64_t cleared(uint64_t word, uint32_t bits) {
    return bits >= 64 ? word : bits ? word & UINT64_MAX << (64 - bits) : 0;
}

static void clear_bits(struct attempt *a) {
    struct piece address = until(a, 0, "/"), length = until(a, address.to + 1, ",:");
    struct gate_host host;
    uint32_t bits;
    if (address.to == a->len || gate_host_read(&host, a->text, address.to) != GATE_ANSWERED ||
        !read_decimal(a->text + length.from, length.to - length.from, 128, &bits))
        return;
    struct gate_host given = host;
    if (host.kind == GATE_IPV4)
        host.low = bits > 32 ? host.low : cleared(host.low << 32, bits) >> 32;
    else {
        host.high = cleared(host.high, bits);
        host.low = cleared(host.low, bits > 64 ? bits - 64 : 0);
    }
    char net[GATE_ADDRESS_ROOM];
    if (host.high != given.high || host.low != given.low)
        replace(a, address, net, (size_t)gate_host_write(net, sizeof net, &host).count);
}

/* Two neighbours change places: `one`, a byte, `other`. */
static void exchange(struct attempt *a, struct piece one, struct piece other) {
    struct attempt before = *a;
    char text[ATTEMPT_ROOM];
    size_t one_len = one.to - one.from, other_len = other.to - other.from;
    memcpy(text, before.text + other.from, other_len);
    text[other_len] = before.text[one.to];
    memcpy(text + other_len + 1, before.text + one.from, one_len);
    replace(a, (struct piece){one.from, other.to}, text, one_len + 1 + other_len);
}

static bool is_over(const struct gate_host *one, const struct gate_host *other) {
    return one->high > other->high || (one->high == other->high && one->low > other->low);
}

static void exchange_addresses(struct attempt *a) {
    struct piece one = until(a, 0, "-"), other = until(a, one.to + 1, ",");
    struct gate_host min, max;
    if (other.to < a->len && !gate_host_read(&min, a->text, one.to) && !gate_host_read(&max, a->text + other.from, other.to - other.from) &&
        is_over(&min, &max))
        exchange(a, one, other);
}

static void exchange_ports(struct attempt *a) {
    struct piece one = first_port(a), other = last_port(a);
    uint32_t min, max;
    if (other.from > one.from && read_piece(a, one, &min) && read_piece(a, other, &max) && min > max)
        exchange(a, one, other);
}

/* A line that the retired form used to accept, into its new form. */
static void renew_form(struct attempt *a) {
    struct attempt before = *a;
    gate_convert((uint8_t *)a->text, a->len, (const uint8_t *)before.text, before.len);
}

static const struct {
    void (*repair)(struct attempt *);
    const char *reason;
} repairs[] = {
    {drop_returns, "it ends with a carriage return"},
    {drop_blanks, "it holds a blank"},
    {clear_bits, "its address has bits set beyond its length"},
    {exchange_addresses, "its first address is over its last"},
    {exchange_ports, "its first port is over its last"},
    {renew_form, "it is of the retired form"},
};

/* Why a line of this form, or of none, grants nothing. */
static const char *plain_reason(const struct attempt *a) {
    uint32_t port, last;
    bool first_read = read_piece(a, first_port(a), &port), last_read = read_piece(a, last_port(a), &last);
    if (until(a, 0, ",").to == a->len)
        return "it has no comma before its port";
    if (!first_read || !last_read)
        return "its port is no number from 0 to 65535 in fewest digits; names of services are not looked up";
    if (port > 1023)
        return "ports from 1024 up are not ruled";
    if (last == 0)
        return "port 0 is not ruled";
    if (port > 511)
        return "ports 512 to 1023 are granted by the marked file only, and a station has the plain one";
    return "it is not of the form ADDRESS[/LENGTH],PORT[-PORT] or ADDRESS-ADDRESS,PORT[-PORT]";
}

/* The first repair behind which the line grants something, all before it made too. */
static const char *reason_of(struct attempt *a, bool *repaired) {
    const char *reason = NULL;
    for (size_t i = 0; i < sizeof repairs / sizeof *repairs; i++) {
        struct attempt before = *a;
        repairs[i].repair(a);
        bool changed = before.len != a->len || memcmp(before.text, a->text, a->len);
        if (changed && !reason)
            reason = repairs[i].reason;
        *repaired = grants(a);
        if (*repaired)
            return reason;
    }
    return reason ? reason : plain_reason(a);
}

static void show_byuid_warning(const struct station *station, const struct line *line) {
    const struct text *text = section_text(station, GATE_BYUID);
    struct attempt a = {.len = line->len < ATTEMPT_ROOM ? line->len : ATTEMPT_ROOM};
    struct marks marks = {.count = 0};
    bool repaired = false;
    memcpy(a.text, text->bytes + line->place, a.len);
    const char *reason = reason_of(&a, &repaired);
    fprintf(stderr, "%s:%llu: warning: grants nothing: %s\n", section_path(station, GATE_BYUID), (unsigned long long)line->number, reason);
    add_mark(&marks, line->place, line->place + line->len);
    show_excerpt(text, line, &marks);
    if (repaired)
        fprintf(stderr, "      = perhaps: %s\n", shown_bytes((const uint8_t *)a.text, a.len));
}

/* Nothing but blanks, or a comment: no one takes that for a grant. A line of the retired form is a fault, and shown as one. */
static bool is_idle(const struct attempt *a) {
    struct attempt rest = *a;
    drop_bytes(&rest, " \t\r");
    return rest.len == 0 || rest.text[0] == '#' || is_retired((const uint8_t *)a->text, a->len);
}

size_t show_byuid_warnings(const struct station *station) {
    const struct text *text = section_text(station, GATE_BYUID);
    struct line line;
    size_t warnings = 0;
    for (bool more = first_plain_line(text, &line); more; more = next_plain_line(text, &line)) {
        struct attempt a = {.len = line.len < ATTEMPT_ROOM ? line.len : ATTEMPT_ROOM};
        memcpy(a.text, text->bytes + line.place, a.len);
        if (!is_idle(&a) && !grants(&a)) {
            show_byuid_warning(station, &line);
            warnings++;
        }
    }
    return warnings;
}
