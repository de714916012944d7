#include <stdbool.h>
#include <stdio.h>
#include <string.h>
#include <strings.h>
#include "gate.h"
#include "hint.h"
#include "reading.h"

#define RULE_FORM "a rule is DAEMONS : CLIENTS, or DAEMONS : CLIENTS : COMMAND"

static bool has(const uint8_t *bytes, size_t len, char byte) {
    return memchr(bytes, byte, len) != NULL;
}

static bool only(const uint8_t *bytes, size_t len, const char *set) {
    for (size_t i = 0; i < len; i++) {
        if (!strchr(set, bytes[i]) || !bytes[i])
            return false;
    }
    return len > 0;
}

static bool is(const uint8_t *bytes, size_t len, const char *word) {
    return len == strlen(word) && !strncasecmp((const char *)bytes, word, len);
}

static const char *byte_hint(const uint8_t *bytes, size_t len) {
    static char text[64];
    if (len && bytes[0] == '\r')
        return "a carriage return: the file has CR LF line ends, and needs LF alone (tr -d '\\r')";
    if (len && bytes[0] > 126)
        return "only ASCII is read outside comments";
    snprintf(text, sizeof text, "byte %u, a control character", len ? (unsigned)bytes[0] : 0u);
    return text;
}

static const char *dotted_hint(const uint8_t *bytes, size_t len) {
    if (has(bytes, len, '/'))
        return "write a net of four fields, each 0 to 255 in fewest digits, and behind the slash a mask of four fields or a length of 0 to 32";
    return "write four fields of 0 to 255 in fewest digits, or one to three, each followed by a dot";
}

#define TABLE_FORM "a table is named by / and 1 to 64 letters, digits, - _ ."

static const char *element_hint(const uint8_t *bytes, size_t len) {
    if (len && bytes[0] == '/' && !has(bytes, len, '@'))
        return TABLE_FORM;
    if (only(bytes, len, "0123456789./"))
        return dotted_hint(bytes, len);
    if (has(bytes, len, '*') || has(bytes, len, '?'))
        return "there are no * and ? here: .x.example is every name that ends so, 10.20. every IPv4 address that begins so";
    if (len && bytes[0] == '#')
        return "a comment has a line of its own, with # first";
    if (len && bytes[0] == '[')
        return "write [address] or [address]/length, with an IPv6 address and 0 to 128, and no blanks";
    if (is(bytes, len, "KNOWN") || is(bytes, len, "UNKNOWN") || is(bytes, len, "LOCAL") || is(bytes, len, "PARANOID"))
        return "of the wildcards only ALL may be a daemon";
    if (has(bytes, len, '@'))
        return "before @ stands ALL or a name (of clients KNOWN and UNKNOWN too), behind it one pattern of a host";
    return "a name has letters, digits, - _ . alone, and does not end in a dot";
}

static const char *entry_hint(const uint8_t *bytes, size_t len) {
    if (len && bytes[len - 1] == '\n')
        return "the list has no newline, not at its end either (truncate -s -1 takes the last byte away)";
    if (!len)
        return "an empty entry: a comma too many";
    if (has(bytes, len, ' ') || has(bytes, len, '\t') || has(bytes, len, '\n'))
        return "the list has no blanks and no newlines";
    return "write uid:NUMBER:tcp:PORT, in lower case and fewest digits (or gid, or udp)";
}

static const char *reserved_hint(const uint8_t *bytes, size_t len) {
    if (len && bytes[0] == '/')
        return "a table (/name) holds hosts: it stands among the clients, or behind a daemon and @";
    return "netgroups (@name) are not read here: write the hosts themselves, or a table of them (/name)";
}

/* Of what is no pattern of a table. */
static const char *pattern_hint(const uint8_t *bytes, size_t len) {
    if (has(bytes, len, '\r'))
        return "a carriage return: the file has CR LF line ends, and needs LF alone (tr -d '\\r')";
    if (is(bytes, len, "EXCEPT"))
        return "a table has no EXCEPT: it stands in the rule, as in /name EXCEPT host";
    if (len && bytes[0] == '#')
        return "a table has no comments: it holds hosts, and nothing else";
    if (has(bytes, len, ','))
        return "the hosts of a table are parted by blanks, tabs and newlines, not by commas";
    if (has(bytes, len, '@'))
        return "a table has no users and no netgroups: a user stands in the rule, as in user@/name";
    if (has(bytes, len, '\\'))
        return "the lines of a table are not joined: leave the backslash out";
    if (has(bytes, len, ':') && !has(bytes, len, '['))
        return "an IPv6 address stands in brackets, and a table has no commands";
    return element_hint(bytes, len);
}

const char *hint_for(uint32_t number, const uint8_t *marked, size_t len) {
    switch (number) {
    case GATE_UNENDED: return "end it with a newline";
    case GATE_BAD_BYTE: return byte_hint(marked, len);
    case GATE_LONG_LINE: return "make two rules of it";
    case GATE_NO_ELEMENT: return len ? "this bracket is not closed, and no colon behind it counts" : RULE_FORM;
    case GATE_MISPLACED_EXCEPT: return "EXCEPT stands between two elements, as in ALL EXCEPT .x.example";
    case GATE_RESERVED_START: return reserved_hint(marked, len);
    case GATE_UNKNOWN_ELEMENT: return element_hint(marked, len);
    case GATE_BAD_PERCENT: return "behind % stands one of a A n N h H u c d s p, or %, which writes one percent sign";
    case GATE_BAD_ENTRY: return entry_hint(marked, len);
    case GATE_BAD_TABLE: return pattern_hint(marked, len);
    default: return "gate explain tells more";
    }
}
