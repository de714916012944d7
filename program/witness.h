/* Rules of a hosts file, and the earlier one that makes a rule needless: to show it beside what the gate proposes. */
#ifndef WITNESS_H
#define WITNESS_H

#include "line.h"

struct known_rule {
    struct line line;
    size_t lists, lists_len; /* where its lists stand among those read: words in lower case, a blank behind each, a newline behind each list */
    bool dropped;            /* set by the caller */
};

/* The rules of a text that the gate accepts, in their order. They hold until the next call. */
struct known_rules {
    size_t count;
    struct known_rule *rule;
};
struct known_rules read_rules(const struct text *text);

/* The rule whose first line this is, or NULL. */
struct known_rule *find_rule(const struct known_rules *rules, uint64_t number);

/* The first rule before it that is not dropped and has the same elements and EXCEPTs in the same order in both lists, but for case, or is
 * ALL: ALL; NULL where there is none. */
const struct known_rule *find_witness(const struct known_rules *rules, const struct known_rule *rule);
bool is_for_all(const struct known_rule *rule);

#endif
