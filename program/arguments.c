#include <string.h>
#include "arguments.h"
#include "message.h"

struct reader {
    struct arguments *arguments;
    const struct option *table;
    const char *where;
    char *const *words;
    size_t count, next;
};

/* The place in the table, or where the table ends. */
static size_t by_name(const struct option *table, const char *name, size_t len) {
    size_t i = 0;
    while (table[i].name && (strlen(table[i].name) != len || memcmp(table[i].name, name, len)))
        i++;
    return i;
}

static size_t by_letter(const struct option *table, char letter) {
    size_t i = 0;
    while (table[i].name && table[i].letter != letter)
        i++;
    return i;
}

static bool give(struct reader *r, size_t i, const char *value) {
    if (r->arguments->option[i]) {
        complain(r->where, "--%s: given twice", r->table[i].name);
        return false;
    }
    r->arguments->option[i] = value;
    return true;
}

static bool long_option(struct reader *r, const char *word) {
    const char *name = word + 2, *equals = strchr(name, '=');
    size_t i = by_name(r->table, name, equals ? (size_t)(equals - name) : strlen(name));
    const struct option *option = &r->table[i];
    if (!option->name) {
        complain(r->where, "%s: no such option; --help lists them", shown(word));
        return false;
    }
    if (!option->value && equals) {
        complain(r->where, "%s: --%s takes no value", shown(word), option->name);
        return false;
    }
    if (!option->value)
        return give(r, i, "");
    if (equals)
        return give(r, i, equals + 1);
    if (r->next == r->count) {
        complain(r->where, "--%s: %s is missing behind it", option->name, option->value);
        return false;
    }
    return give(r, i, r->words[r->next++]);
}

static bool letters(struct reader *r, const char *word) {
    for (const char *letter = word + 1; *letter; letter++) {
        size_t i = by_letter(r->table, *letter);
        if (!r->table[i].name) {
            complain(r->where, "%s: no such option; --help lists them", shown(word));
            return false;
        }
        if (!give(r, i, ""))
            return false;
    }
    return true;
}

static bool operand(struct reader *r, const char *word) {
    if (r->arguments->operands < OPERANDS_MOST)
        r->arguments->operand[r->arguments->operands] = word;
    r->arguments->operands++;
    return true;
}

bool read_arguments(struct arguments *arguments, const struct option *table, const char *where, size_t count, char *const *words) {
    struct reader r = {arguments, table, where, words, count, 0};
    bool options = true, good = true;
    memset(arguments, 0, sizeof *arguments);
    while (good && r.next < count) {
        const char *word = words[r.next++];
        if (!options || word[0] != '-' || !word[1])
            good = operand(&r, word);
        else if (!strcmp(word, "--"))
            options = false;
        else
            good = word[1] == '-' ? long_option(&r, word) : letters(&r, word);
    }
    return good;
}
