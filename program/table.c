#include <stdlib.h>
#include <string.h>
#include <strings.h>
#include "gate.h"
#include "table.h"

/* The tables read last; their places by name; what is known of how deep each leads: a bit for each depth that was asked for, and one for
 * each that it leads past. */
static struct table table[TABLES_MOST];
static size_t count, by_name[TABLES_MOST];
static uint8_t asked[TABLES_MOST], past[TABLES_MOST];

static uint8_t folded(uint8_t byte) {
    return byte >= 'A' && byte <= 'Z' ? (uint8_t)(byte + 32) : byte;
}

static int compare_names(const uint8_t *a, size_t a_len, const uint8_t *b, size_t b_len) {
    size_t at = 0;
    while (at < a_len && at < b_len && folded(a[at]) == folded(b[at]))
        at++;
    if (at < a_len && at < b_len)
        return folded(a[at]) - folded(b[at]);
    return (a_len > b_len) - (a_len < b_len);
}

/* By name, and tables of one name by place. */
static int compare_places(const void *a, const void *b) {
    size_t one = *(const size_t *)a, other = *(const size_t *)b;
    int names = compare_names(table[one].name.bytes, table[one].name.len, table[other].name.bytes, table[other].name.len);
    return names ? names : (one > other) - (one < other);
}

/* Bytes that follow their count of `width` bytes; false where they are not there whole. */
static bool read_counted(const struct text *five, size_t *at, size_t width, struct text *found) {
    if (five->len - *at < width)
        return false;
    size_t len = (size_t)gate_wire_number(five->bytes + *at, width);
    if (five->len - *at - width < len)
        return false;
    *found = (struct text){five->bytes + *at + width, len};
    *at += width + len;
    return true;
}

static bool read_each(const struct text *five, size_t *len) {
    size_t wanted = five->len < 2 ? 0 : (size_t)gate_wire_number(five->bytes, 2), at = 2;
    *len = five->len < 2 ? 0 : at;
    count = 0;
    if (five->len < 2)
        return false;
    while (count < wanted) {
        if (!read_counted(five, &at, 1, &table[count].name) || !read_counted(five, &at, 4, &table[count].text))
            return false;
        *len = at;
        count++;
    }
    return true;
}

bool read_tables(struct tables *tables, const struct text *five, size_t *len) {
    bool whole = read_each(five, len);
    for (size_t i = 0; i < count; i++)
        by_name[i] = i;
    qsort(by_name, count, sizeof *by_name, compare_places);
    memset(asked, 0, count);
    memset(past, 0, count);
    *tables = (struct tables){count, table};
    return whole;
}

size_t find_table(const uint8_t *name, size_t len) {
    size_t from = 0, to = count;
    while (from < to) {
        size_t middle = from + (to - from) / 2;
        const struct text *there = &table[by_name[middle]].name;
        if (compare_names(there->bytes, there->len, name, len) < 0)
            from = middle + 1;
        else
            to = middle;
    }
    if (from == count || compare_names(table[by_name[from]].name.bytes, table[by_name[from]].name.len, name, len))
        return NO_TABLE;
    return by_name[from];
}

static bool is_name_byte(uint8_t byte) {
    byte = folded(byte);
    return (byte >= 'a' && byte <= 'z') || (byte >= '0' && byte <= '9') || byte == '-' || byte == '_' || byte == '.';
}

bool is_table_name(const uint8_t *name, size_t len) {
    for (size_t i = 0; i < len; i++) {
        if (!is_name_byte(name[i]))
            return false;
    }
    return len >= 1 && len <= GATE_TABLE_NAME_LIMIT;
}

bool names_table(const uint8_t *pattern, size_t len) {
    return len && pattern[0] == '/' && is_table_name(pattern + 1, len - 1);
}

size_t find_named(const uint8_t *pattern, size_t len) {
    return names_table(pattern, len) ? find_table(pattern + 1, len - 1) : NO_TABLE;
}

static bool parts_patterns(uint8_t byte) {
    return byte == ' ' || byte == '\t' || byte == '\n';
}

bool next_pattern(const struct text *text, size_t *from, size_t *to) {
    *from = *to;
    while (*from < text->len && parts_patterns(text->bytes[*from]))
        ++*from;
    *to = *from;
    while (*to < text->len && !parts_patterns(text->bytes[*to]))
        ++*to;
    return *from < *to;
}

static bool names_past(size_t place, size_t depth) {
    const struct text *text = &table[place].text;
    size_t from = 0, to = 0;
    bool found = false;
    while (!found && next_pattern(text, &from, &to)) {
        size_t named = find_named(text->bytes + from, to - from);
        found = named != NO_TABLE && leads_past(named, depth - 1);
    }
    return found;
}

/* What a table leads to does not change, so each text is gone over once for each depth. */
bool leads_past(size_t place, size_t depth) {
    if (depth == 0)
        return true;
    uint8_t bit = (uint8_t)(1u << (depth - 1));
    if (!(asked[place] & bit)) {
        bool found = names_past(place, depth);
        asked[place] |= bit;
        past[place] |= found ? bit : 0;
    }
    return past[place] & bit;
}
