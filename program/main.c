/* gate: a station's rules, checked, asked, packed and tested. */
#include <errno.h>
#include <stdio.h>
#include <string.h>
#include "command.h"
#include "gate.h"
#include "message.h"

/* To add a subcommand: a row here, a line in command.h, and a file that defines it. */
static const struct command *const commands[] = {&check_command,  &match_command, &byuid_command,   &portacl_command, &authbind_command, &pack_command,
                                                 &unpack_command, &fleet_command, &upgrade_command, &convert_command, &carry_command,    &salvage_command,
                                                 &tidy_command,   &index_command, &explain_command, &test_command};
#define COMMANDS (sizeof commands / sizeof *commands)

static void show_overview(void) {
    printf("usage: gate COMMAND ..\n\nCommands:\n");
    for (size_t i = 0; i < COMMANDS; i++)
        printf("  %-8s  %s\n", commands[i]->name, commands[i]->summary);
    printf("\n"
           "  gate COMMAND --help   tells a command's arguments\n"
           "  gate --version        tells the version\n"
           "\n"
           "Exit status: 0 sound, granted or exempt; 1 faults or needless rules found, denied\n"
           "or no line; 2 wrong usage, an input or output error, or refused; 3 ask; 4 not ruled.\n");
}

static void show_help(const struct command *command) {
    printf("usage: gate %s %s\n\n%s", command->name, command->synopsis, command->help);
}

static const struct command *find_command(const char *name) {
    for (size_t i = 0; i < COMMANDS; i++) {
        if (!strcmp(commands[i]->name, name))
            return commands[i];
    }
    return NULL;
}

/* Whether --help is among the options, wherever it stands. */
static bool asks_for_help(size_t count, char *const *words) {
    for (size_t i = 0; i < count && strcmp(words[i], "--"); i++) {
        if (!strcmp(words[i], "--help"))
            return true;
    }
    return false;
}

static enum status run_command(const struct command *command, size_t count, char *const *words) {
    struct arguments arguments;
    if (asks_for_help(count, words)) {
        show_help(command);
        return STATUS_YES;
    }
    if (!read_arguments(&arguments, command->options, "gate", count, words))
        return STATUS_FAILED;
    if (arguments.operands >= command->least && arguments.operands <= command->most)
        return command->run(&arguments);
    complain("gate", "%s: too %s arguments", command->name, arguments.operands < command->least ? "few" : "many");
    fprintf(stderr, "usage: gate %s %s\n", command->name, command->synopsis);
    return STATUS_FAILED;
}

static enum status run(size_t count, char *const *words) {
    if (count == 0) {
        complain("gate", "which command? gate --help lists them");
        return STATUS_FAILED;
    }
    const struct command *command = find_command(words[0]);
    if (command)
        return run_command(command, count - 1, words + 1);
    if (count == 1 && !strcmp(words[0], "--help"))
        show_overview();
    else if (count == 1 && !strcmp(words[0], "--version"))
        printf("gate %s\n", GATE_VERSION);
    else {
        complain("gate", "%s: no such command; gate --help lists them", shown(words[0]));
        return STATUS_FAILED;
    }
    return STATUS_YES;
}

/* Messages come first, then the answer, wherever the two go. */
int main(int argc, char **argv) {
    static char errors[BUFSIZ], answers[BUFSIZ];
    setvbuf(stderr, errors, _IOFBF, sizeof errors);
    setvbuf(stdout, answers, _IOFBF, sizeof answers);
    enum status status = run(argc > 0 ? (size_t)argc - 1 : 0, argv + 1);
    fflush(stderr);
    errno = 0;
    if (fflush(stdout) || ferror(stdout)) {
        complain("gate", "standard output: %s", errno ? strerror(errno) : "a write failed");
        status = STATUS_FAILED;
    }
    fflush(stderr);
    return (int)status;
}
