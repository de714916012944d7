#include <string.h>
#include "fault.h"
#include "mark.h"

static void mark_bytes(const struct joined *joined, struct marks *marks) {
    for (size_t i = 0; i < joined->len; i++) {
        uint8_t byte = joined->bytes[i];
        if (byte != '\t' && (byte < 32 || byte > 126))
            add_joined_mark(marks, joined, (struct span){i, i + 1});
    }
}

/* Whether a list has an element; EXCEPT is none. */
static bool has_element(const struct joined *joined, struct span list) {
    struct span word = {list.from, list.from};
    while (next_word(joined, list, &word)) {
        if (!word_is(joined, word, "EXCEPT"))
            return true;
    }
    return false;
}

/* Without a separator the bracket that hides it, if there is one; else where the list that is empty ends. */
static void mark_empty_list(const struct joined *joined, const struct rule *rule, struct marks *marks) {
    bool daemons = rule->separators && !has_element(joined, rule->daemons);
    size_t end = daemons ? rule->daemons.to : rule->clients.to, open = joined->len;
    while (!rule->separators && open && joined->bytes[open - 1] != ']' && joined->bytes[open - 1] != '[')
        open--;
    if (!rule->separators && open && joined->bytes[open - 1] == '[')
        add_joined_mark(marks, joined, (struct span){open - 1, open});
    else
        add_joined_mark(marks, joined, (struct span){end, end});
}

/* Each EXCEPT that is first, last or beside another. */
static void mark_misplaced(const struct joined *joined, struct span list, struct marks *marks) {
    struct span word = {list.from, list.from}, except = word;
    bool after_element = false, pending = false;
    while (next_word(joined, list, &word)) {
        bool is_except = word_is(joined, word, "EXCEPT");
        if (pending && is_except)
            add_joined_mark(marks, joined, except);
        if (is_except && !after_element)
            add_joined_mark(marks, joined, word);
        pending = is_except && after_element;
        after_element = !is_except;
        except = word;
    }
    if (pending)
        add_joined_mark(marks, joined, except);
}

/* The number of one element, by itself in a rule. A bracket that hides the separator makes 7 of a daemon. */
static uint32_t element_number(const struct joined *joined, struct span word, bool is_daemon) {
    static uint8_t text[TEXT_MOST + 8];
    size_t len = word.to - word.from, before = is_daemon ? 0 : 4;
    memcpy(text, "ALL:", 4);
    memcpy(text + before, joined->bytes + word.from, len);
    memcpy(text + before + len, ":ALL\n", 5);
    if (!is_daemon)
        text[before + len] = '\n';
    uint32_t number = hosts_number(text, before + len + (is_daemon ? 5 : 1));
    return number == GATE_NO_ELEMENT ? (uint32_t)GATE_UNKNOWN_ELEMENT : number;
}

static void mark_elements(const struct joined *joined, struct span list, bool is_daemon, uint32_t number, struct marks *marks) {
    struct span word = {list.from, list.from};
    while (next_word(joined, list, &word)) {
        if (!word_is(joined, word, "EXCEPT") && element_number(joined, word, is_daemon) == number)
            add_joined_mark(marks, joined, word);
    }
}

/* A request of nobody: a bad percent is refused before it. */
static void mark_percents(const struct joined *joined, struct span command, struct marks *marks) {
    static const struct gate_request nobody;
    size_t at = command.from;
    while (at < command.to) {
        bool percent = joined->bytes[at] == '%';
        size_t next = at + 1 + (percent && at + 1 < command.to);
        if (percent && gate_expand_for(NULL, 0, joined->bytes + at, next - at, &nobody, 0).number == GATE_BAD_PERCENT)
            add_joined_mark(marks, joined, (struct span){at, next});
        at = next;
    }
}

void mark_fault(const struct joined *joined, uint32_t number, struct marks *marks) {
    struct rule rule;
    if (number == GATE_UNENDED)
        add_joined_mark(marks, joined, (struct span){joined->len, joined->len});
    else if (number == GATE_BAD_BYTE)
        mark_bytes(joined, marks);
    else if (number == GATE_LONG_LINE)
        add_joined_mark(marks, joined, (struct span){GATE_LINE_LIMIT, joined->len});
    else if (!read_rule(joined, &rule))
        return;
    else if (number == GATE_NO_ELEMENT)
        mark_empty_list(joined, &rule, marks);
    else if (number == GATE_MISPLACED_EXCEPT) {
        mark_misplaced(joined, rule.daemons, marks);
        mark_misplaced(joined, rule.clients, marks);
    } else if (number == GATE_BAD_PERCENT)
        mark_percents(joined, rule.command, marks);
    else {
        mark_elements(joined, rule.daemons, true, number, marks);
        mark_elements(joined, rule.clients, false, number, marks);
    }
}
