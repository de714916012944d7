/* gate match: the verdict of hosts_access(5), in the spirit of tcpdmatch(8). */
#include <string.h>
#include "line.h"
#include "message.h"
#include "question.h"
#include "reading.h"

enum { QUIET, TABLES, INDEX, NAME, PARANOID, UNKNOWN_USER, SERVER_NAME, SERVER_PARANOID, PROCESS };

static const struct option options[] = {
    {"quiet", 'q', NULL},         {"tables", 0, "FOLDER"},    {"index", 0, "INDEX"},        {"name", 0, "NAME"},      {"paranoid", 0, NULL},
    {"unknown-user", 0, NULL},    {"server-name", 0, "NAME"}, {"server-paranoid", 0, NULL}, {"process", 0, "NUMBER"}, {NULL, 0, NULL}};

static const char help[] =
    "STATION is a sheet, a folder with the four texts, or - for a sheet on standard\n"
    "input. Prints the verdict, the rule's place and text, its command as it stands\n"
    "and as it would be run, and how many elements of rules and tables were looked\n"
    "at. Where the verdict is ask, prints also whether the user's name matters, and if\n"
    "not the verdict and the rule that every user gets. Nothing is looked up and\n"
    "nothing is run.\n"
    "\n"
    "DAEMON   the service's name, 1 to 64 bytes.\n"
    "SERVER   the server's address, or unknown. Left out, it is unknown.\n"
    "USER     the client's user, 1 to 64 bytes. Left out, the user is not fetched\n"
    "         yet, and the verdict may be ask.\n"
    "CLIENT   the client's address, or unknown.\n"
    "\n"
    "  --tables FOLDER       the tables of a folder's rules; without it STATION/tables\n"
    "  --index INDEX         find the rules by the station's index, which gate index\n"
    "                        wrote; the answer is the same, and another index an error\n"
    "  --name NAME           the client's name; without it the name is unknown\n"
    "  --paranoid            the client's name and address disagree\n"
    "  --unknown-user        the user was asked for, and no name came\n"
    "  --server-name NAME    the server's name; without it the name is unknown\n"
    "  --server-paranoid     the server's name and address disagree\n"
    "  --process NUMBER      what %p writes; without it 0\n"
    "  -q, --quiet           print nothing; the exit status tells\n"
    "\n"
    "Exit status: 0 granted, 1 denied, 3 ask, 2 an error or a refused station.\n"
    "\n"
    "For example:\n"
    "  gate match sample sshd 10.20.30.40 --name van7.vans.example\n"
    "  gate match sample sshd@192.0.2.1 fitter@10.20.30.41\n"
    "  gate match station.sheet sshd 10.20.30.40 --index station.index\n";

/* The first @ that is not in first place, as in the rules; NULL where there is none. */
static const char *parting_at(const char *text) {
    return *text ? strchr(text + 1, '@') : NULL;
}

/* A host's name, or that its name and address disagree. */
static bool read_host_name(struct gate_host *host, const char *where, const char *name, const char *paranoid, const char *option) {
    if (name && paranoid) {
        complain(where, "--%s: not with a name: the two say different things", option);
        return false;
    }
    if (paranoid)
        gate_host_set_paranoid(host);
    if (!name)
        return true;
    if (!read_name(where, "name", name, strlen(name), GATE_NAME_LIMIT, "where the name is unknown, leave it out; for paranoid there is an option"))
        return false;
    gate_host_set_name(host, name, strlen(name));
    return true;
}

static bool read_daemon(struct gate_request *request, const char *where, const char *text, const struct arguments *arguments) {
    const char *at = parting_at(text);
    size_t len = at ? (size_t)(at - text) : strlen(text);
    if (!read_name(where, "daemon", text, len, GATE_DAEMON_LIMIT, NULL))
        return false;
    if (text[0] == '@') {
        complain(where, "%s: the daemon before @ is empty", shown(text));
        return false;
    }
    *request = gate_request_to(text, len);
    return (!at || read_address(where, at + 1, &request->server)) &&
           read_host_name(&request->server, where, arguments->option[SERVER_NAME], arguments->option[SERVER_PARANOID], "server-paranoid");
}

static bool read_user(struct gate_request *request, const char *where, const char *text, size_t len, const struct arguments *arguments) {
    if (arguments->option[UNKNOWN_USER]) {
        complain(where, "--unknown-user: not with a user before @: the two say different things");
        return false;
    }
    if (!read_name(where, "user", text, len, GATE_USER_LIMIT, "where the user was asked for and no name came, say --unknown-user"))
        return false;
    gate_request_set_user(request, text, len);
    return true;
}

/* The address holds no @, so the last one parts them: a user may hold any bytes. */
static bool read_client(struct gate_request *request, const char *where, const char *text, const struct arguments *arguments) {
    const char *at = strrchr(text, '@');
    if (at && !read_user(request, where, text, (size_t)(at - text), arguments))
        return false;
    if (arguments->option[UNKNOWN_USER])
        gate_request_set_user(request, NULL, 0);
    return read_address(where, at ? at + 1 : text, &request->client) &&
           read_host_name(&request->client, where, arguments->option[NAME], arguments->option[PARANOID], "paranoid");
}

static bool read_match(struct question *question, const char *where, char const *const *operand, const struct arguments *arguments) {
    const char *process = arguments->option[PROCESS];
    question->process = 0;
    question->index_path = arguments->option[INDEX];
    return read_daemon(&question->request, where, operand[0], arguments) && read_client(&question->request, where, operand[1], arguments) &&
           (!process || read_number(where, "process number", process, UINT32_MAX, &question->process)) &&
           (!question->index_path || read_file(question->index_path, GATE_INDEX_ROOM, &question->index));
}

static void find_rule(struct reply *reply, const struct station *station) {
    const struct text *text = section_text(station, reply->section);
    struct line line;
    bool more = first_line(text, &line);
    while (more && line.number != reply->line)
        more = next_line(text, &line);
    reply->place = line.place;
    reply->len = line.len;
}

/* Whether the user can change what the answer is, where the gate asks for him. */
static void ask_name(struct reply *reply, const struct text *sheet, const struct gate_request *request) {
    struct gate_answer told = gate_sheet_name_matters_for(sheet->bytes, sheet->len, request);
    reply->name_word = told.word;
    reply->name_section = told.file;
    reply->name_line = told.line;
}

/* The verdict and its command, by the index of the station. */
static struct gate_command_answer ask_by_index(uint8_t *out, size_t out_len, const struct text *sheet, const struct question *question) {
    struct gate_answer found = {0};
    struct gate_checked whole = gate_verdicts_for(&found, sheet->bytes, sheet->len, question->index.bytes, question->index.len, &question->request, 1);
    struct gate_written written = {0};
    if (whole.number == GATE_ANSWERED && found.len)
        written = gate_expand_for(out, out_len, sheet->bytes + found.place, (size_t)found.len, &question->request, question->process);
    return (struct gate_command_answer){.number = whole.number ? whole.number : found.number ? found.number : written.number, .word = found.word,
                                        .file = found.file, .line = found.line, .place = found.place, .len = found.len, .count = written.count,
                                        .looked = found.looked};
}

static struct gate_command_answer ask_gate(uint8_t *out, size_t out_len, const struct text *sheet, const struct question *question) {
    if (question->index_path)
        return ask_by_index(out, out_len, sheet, question);
    return gate_sheet_command_for(out, out_len, sheet->bytes, sheet->len, &question->request, question->process);
}

static void ask_match(struct reply *reply, const struct station *station, const struct question *question) {
    const struct text *sheet = &station->sheet;
    struct gate_command_answer answer = ask_gate(reply->expanded, sizeof reply->expanded, sheet, question);
    reply->number = answer.number;
    reply->word = answer.word;
    reply->section = answer.file;
    reply->line = answer.line;
    reply->command_place = (size_t)answer.place;
    reply->command_len = (size_t)answer.len;
    reply->expanded_len = (size_t)answer.count;
    reply->counts = true;
    reply->looked = answer.looked;
    reply->name_word = GATE_NO_WORD;
    if (answer.word == GATE_ASK)
        ask_name(reply, sheet, &question->request);
    if (answer.file)
        find_rule(reply, station);
}

static const char *why_match(const struct reply *reply) {
    if (reply->word == GATE_ASK)
        return "this rule looks at the user, who is not fetched: ask again with USER@ or --unknown-user";
    return reply->section ? NULL : "no rule of hosts.allow and none of hosts.deny matches";
}

const struct query match_query = {"match", options, 3, 2, read_match, ask_match, why_match};

static enum status run(const struct arguments *arguments) {
    const char *index = arguments->option[INDEX];
    if (index && !strcmp(index, "-") && !strcmp(arguments->operand[0], "-")) {
        complain("gate", "-: the sheet and its index can't both come from standard input");
        return STATUS_FAILED;
    }
    return run_query(&match_query, arguments);
}

const struct command match_command = {
    "match", "STATION DAEMON[@SERVER] [USER@]CLIENT [OPTION..]", "who may reach a daemon: the verdict of hosts.allow and hosts.deny",
    help, options, 3, 3, run};
