/* gate portacl: may an account bind a port, by the station's portacl list. */
#include <string.h>
#include "message.h"
#include "question.h"
#include "reading.h"

enum { QUIET, TABLES, GROUPS, ENABLED, PORT_HIGH, SUSER_EXEMPT, AUTOPORT_EXEMPT };

static const struct option options[] = {{"quiet", 'q', NULL},         {"tables", 0, "FOLDER"},          {"groups", 0, "GID[,GID..]"},
                                        {"enabled", 0, "NUMBER"},     {"port-high", 0, "NUMBER"},       {"suser-exempt", 0, "NUMBER"},
                                        {"autoport-exempt", 0, "NUMBER"}, {NULL, 0, NULL}};

static const char help[] =
    "STATION is a sheet, a folder with the four texts, or - for a sheet on standard\n"
    "input. Prints the word, and the first entry of portacl that grants.\n"
    "\n"
    "UID            the account, as a number.\n"
    "PROTOCOL:PORT  what it binds: tcp:80 or udp:123.\n"
    "\n"
    "  --tables FOLDER            the tables of a folder's rules; without it\n"
    "                             STATION/tables\n"
    "  --groups GID[,GID..]       the account's groups, as numbers, at most 16\n"
    "  --enabled NUMBER           the settings of mac_portacl(4); without them\n"
    "  --port-high NUMBER         1, 1023, 1 and 1, as mac_portacl starts\n"
    "  --suser-exempt NUMBER\n"
    "  --autoport-exempt NUMBER\n"
    "  -q, --quiet                print nothing; the exit status tells\n"
    "\n"
    "Exit status: 0 granted or exempt, 1 denied, 4 not ruled, 2 an error or a refused\n"
    "station.\n"
    "\n"
    "For example:\n"
    "  gate portacl sample 432 tcp:80 --groups 20,21\n";

static bool read_protocol_port(struct gate_bind *bind, const char *where, const char *text) {
    bool tcp = !strncmp(text, "tcp:", 4), udp = !strncmp(text, "udp:", 4);
    bind->protocol = tcp ? GATE_TCP : GATE_UDP;
    if (tcp || udp)
        return read_number(where, "port", text + 4, 65535, &bind->port);
    complain(where, "%s: not a protocol and a port: write tcp:PORT or udp:PORT", shown(text));
    return false;
}

static bool read_groups(struct question *question, const char *where, const char *text) {
    size_t count = 0;
    const char *comma = "";
    while (comma) {
        char group[16];
        comma = strchr(text, ',');
        size_t len = comma ? (size_t)(comma - text) : strlen(text);
        if (count == GATE_GROUPS_LIMIT || len >= sizeof group) {
            complain(where, "--groups: at most %d numbers of at most ten digits, with commas between", GATE_GROUPS_LIMIT);
            return false;
        }
        memcpy(group, text, len);
        group[len] = 0;
        if (!read_id(where, "gid", group, &question->groups[count++]))
            return false;
        text += len + 1;
    }
    question->bind.groups = question->groups;
    question->bind.groups_len = count;
    return true;
}

static bool read_setting(uint32_t *setting, const char *where, const char *text) {
    return !text || read_number(where, "setting", text, UINT32_MAX, setting);
}

static bool read_portacl(struct question *question, const char *where, char const *const *operand, const struct arguments *arguments) {
    const char *const *given = arguments->option;
    memset(&question->bind, 0, sizeof question->bind);
    question->settings = gate_settings_default();
    return read_id(where, "uid", operand[0], &question->bind.uid) && read_protocol_port(&question->bind, where, operand[1]) &&
           (!given[GROUPS] || read_groups(question, where, given[GROUPS])) &&
           read_setting(&question->settings.enabled, where, given[ENABLED]) &&
           read_setting(&question->settings.port_high, where, given[PORT_HIGH]) &&
           read_setting(&question->settings.suser_exempt, where, given[SUSER_EXEMPT]) &&
           read_setting(&question->settings.autoport_exempt, where, given[AUTOPORT_EXEMPT]);
}

/* The first entry that grants by itself. */
static void find_entry(struct reply *reply, const struct station *station, const struct question *question) {
    const struct text *text = section_text(station, GATE_PORTACL);
    size_t from = 0, to = 0;
    bool grants = false;
    while (!grants && from < text->len) {
        const uint8_t *comma = memchr(text->bytes + from, ',', text->len - from);
        to = comma ? (size_t)(comma - text->bytes) : text->len;
        grants = gate_portacl_for(text->bytes + from, to - from, &question->settings, &question->bind).word == GATE_GRANTED;
        reply->line++;
        reply->place = from;
        from = to + 1;
    }
    reply->section = GATE_PORTACL;
    reply->len = to - reply->place;
}

static void ask_portacl(struct reply *reply, const struct station *station, const struct question *question) {
    struct gate_answer answer = gate_sheet_portacl_for(station->sheet.bytes, station->sheet.len, &question->settings, &question->bind);
    *reply = (struct reply){.number = answer.number, .word = answer.word};
    if (answer.word == GATE_GRANTED)
        find_entry(reply, station, question);
}

static const char *why_portacl(const struct reply *reply) {
    if (reply->word == GATE_EXEMPT)
        return "by the settings: port 0 (autoport_exempt), or root (suser_exempt)";
    if (reply->word == GATE_NOT_RULED)
        return "by the settings: portacl is not enabled, or the port is over port_high";
    return reply->word == GATE_DENIED ? "no entry grants" : NULL;
}

const struct query portacl_query = {"portacl", options, 2, 2, read_portacl, ask_portacl, why_portacl};

static enum status run(const struct arguments *arguments) {
    return run_query(&portacl_query, arguments);
}

const struct command portacl_command = {
    "portacl", "STATION UID PROTOCOL:PORT [OPTION..]", "may an account bind a port: by the list of mac_portacl", help, options, 3, 3, run};
