#include <ctype.h>
#include <string.h>
#include <strings.h>
#include "message.h"
#include "reading.h"

bool read_decimal(const char *text, size_t len, uint32_t most, uint32_t *number) {
    uint64_t value = 0;
    if (len == 0 || len > 10 || (len > 1 && text[0] == '0'))
        return false;
    for (size_t i = 0; i < len; i++) {
        if (text[i] < '0' || text[i] > '9')
            return false;
        value = value * 10 + (uint64_t)(text[i] - '0');
    }
    if (value > most)
        return false;
    *number = (uint32_t)value;
    return true;
}

bool read_number(const char *where, const char *what, const char *text, uint32_t most, uint32_t *number) {
    if (read_decimal(text, strlen(text), most, number))
        return true;
    complain(where, "%s: not a %s: write a number from 0 to %u, in fewest digits", shown(text), what, (unsigned)most);
    return false;
}

bool read_id(const char *where, const char *what, const char *text, uint32_t *id) {
    if (!isalpha((unsigned char)text[0]))
        return read_number(where, what, text, UINT32_MAX, id);
    complain(where, "%s: not a %s: write the number; names of accounts are not looked up (the command id tells their numbers)", shown(text), what);
    return false;
}

/* What is wrong with a text that is no address; `otherwise` where it looks like none at all. */
static const char *address_hint(const char *text, size_t len, const char *otherwise) {
    if (memchr(text, ' ', len))
        return "take the blank out";
    if (len && text[0] == '[')
        return "write an IPv6 address without brackets";
    if (memchr(text, '/', len))
        return "write one address, not a net";
    if (len && strspn(text, "0123456789.") >= len)
        return "write four fields of 0 to 255, in fewest digits";
    if (memchr(text, ':', len))
        return "write eight groups of hex digits, or fewer with ::";
    return otherwise;
}

static bool read_part(const char *where, const char *text, size_t len, const char *otherwise, struct gate_host *host) {
    if (gate_host_read(host, text, len) == GATE_ANSWERED)
        return true;
    complain(where, "%s: not an address: %s", len ? shown_bytes((const uint8_t *)text, len) : "(empty)", address_hint(text, len, otherwise));
    return false;
}

bool read_known_address(const char *where, const char *text, size_t len, struct gate_host *host) {
    return read_part(where, text, len, "write the address; names are not looked up", host);
}

bool read_address(const char *where, const char *text, struct gate_host *host) {
    if (strcmp(text, "unknown"))
        return read_part(where, text, strlen(text),
                         "write the address, or unknown; names are not looked up, and are given by --name and --server-name", host);
    *host = gate_host_unknown();
    return true;
}

static bool is_word(const char *text, size_t len, const char *word) {
    return len == strlen(word) && !strncasecmp(text, word, len);
}

bool read_name(const char *where, const char *what, const char *text, size_t len, size_t most, const char *instead) {
    if (len == 0 || len > most) {
        complain(where, "%s: not a %s: it has %zu bytes, and 1 to %zu are allowed", len ? shown_bytes((const uint8_t *)text, len) : "(empty)", what,
                 len, most);
        return false;
    }
    if (instead && (is_word(text, len, "unknown") || is_word(text, len, "paranoid"))) {
        complain(where, "%s: not a %s: %s", shown_bytes((const uint8_t *)text, len), what, instead);
        return false;
    }
    return true;
}
