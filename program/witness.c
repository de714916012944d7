#include <ctype.h>
#include <string.h>
#include "witness.h"

/* The shortest rule is a:b and a newline. A list has a byte more than its words and what parts them, and a newline: so a rule's lists have at
 * most four bytes more than its line. */
#define RULES_MOST (GATE_ALLOW_LIMIT / 4)

static struct known_rule known[RULES_MOST];
static uint8_t lists[GATE_ALLOW_LIMIT + 4 * RULES_MOST];
static size_t lists_len;

static void add_list(const struct joined *joined, struct span list) {
    struct span word = {list.from, list.from};
    while (next_word(joined, list, &word)) {
        for (size_t at = word.from; at < word.to; at++)
            lists[lists_len++] = (uint8_t)tolower(joined->bytes[at]);
        lists[lists_len++] = ' ';
    }
    lists[lists_len++] = '\n';
}

static bool read_known(const struct text *text, const struct line *line, struct known_rule *found) {
    static struct joined joined;
    struct rule rule;
    join_line(&joined, text, line);
    if (!read_rule(&joined, &rule))
        return false;
    *found = (struct known_rule){.line = *line, .lists = lists_len};
    add_list(&joined, rule.daemons);
    add_list(&joined, rule.clients);
    found->lists_len = lists_len - found->lists;
    return true;
}

struct known_rules read_rules(const struct text *text) {
    struct known_rules rules = {0, known};
    struct line line;
    lists_len = 0;
    for (bool more = first_line(text, &line); more && rules.count < RULES_MOST; more = next_line(text, &line))
        rules.count += read_known(text, &line, &known[rules.count]);
    return rules;
}

struct known_rule *find_rule(const struct known_rules *rules, uint64_t number) {
    for (size_t i = 0; i < rules->count; i++) {
        if (rules->rule[i].line.number == number)
            return &rules->rule[i];
    }
    return NULL;
}

static bool has_lists(const struct known_rule *rule, const void *bytes, size_t len) {
    return rule->lists_len == len && !memcmp(lists + rule->lists, bytes, len);
}

bool is_for_all(const struct known_rule *rule) {
    return has_lists(rule, "all \nall \n", 10);
}

const struct known_rule *find_witness(const struct known_rules *rules, const struct known_rule *rule) {
    for (const struct known_rule *earlier = rules->rule; earlier < rule; earlier++) {
        if (!earlier->dropped && (is_for_all(earlier) || has_lists(earlier, lists + rule->lists, rule->lists_len)))
            return earlier;
    }
    return NULL;
}
