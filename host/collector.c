/*
 * The collector: replicas in folders, and the files that their servers send one another. It reads files, calls the engine (sync.h) and
 * writes files. Here are the table of commands and the reading of options.
 */

#include <fcntl.h>
#include <stdio.h>
#include <stdlib.h>
#include <string.h>
#include <unistd.h>

#include "commands.h"
#include "help.h"
#include "messages.h"
#include "options.h"
#include "replica.h"

struct options options;

enum option { FULL = 1, LIST = 2, JSON = 4, RUN = 8, WAIT = 16, BARE_FILES = 32, KEY = 64, DRY_RUN = 128, ID = 256, EMPTY = 512 };

static const struct {
    const char *name;
    enum option option;
    int *set;           /* becomes 1, or */
    const char **value; /* becomes what follows the option */
} option_table[] = {{"--full", FULL, &full_ids, NULL},
                    {"--list", LIST, &options.list, NULL},
                    {"--json", JSON, &options.json, NULL},
                    {"--dry-run", DRY_RUN, &options.dry_run, NULL},
                    {"--empty", EMPTY, &options.empty, NULL},
                    {"--bare", BARE_FILES, &options.bare, NULL},
                    {"--run", RUN, NULL, &options.run},
                    {"--key", KEY, NULL, &options.key},
                    {"--id", ID, NULL, &options.id},
                    {"--wait", WAIT, NULL, NULL}};
#define OPTIONS (sizeof option_table / sizeof *option_table)

/* A command takes from least to most arguments; the first of them may be folders; options end behind the first one for exchange. */
#define ANY 1000000
static const struct command {
    const char *name, *help;
    int least, most, folders;
    int (*run)(char **arguments);
    int options;
} commands[] = {
    {"new", help_new, 1, 2, 0, command_new, FULL | WAIT | KEY},
    {"edit", help_edit, 3, 3, 1, command_edit, FULL | WAIT},
    {"delete", help_delete, 2, 2, 1, command_delete, FULL | WAIT},
    {"scan", help_scan, 2, 2, 1, command_scan, FULL | LIST | JSON | WAIT | DRY_RUN | EMPTY},
    {"status", help_status, 1, 1, 1, command_status, FULL | JSON},
    {"renew", help_renew, 2, ANY, ANY, command_renew, FULL | JSON | WAIT | KEY | ID},
    {"seal", help_seal, 1, 1, 0, command_seal, WAIT | KEY},
    {"knowledge", help_knowledge, 2, 2, 1, command_knowledge, FULL | BARE_FILES | KEY},
    {"make", help_make, 3, 5, 2, command_make, FULL | WAIT | BARE_FILES | KEY},
    {"apply", help_apply, 2, 2, 1, command_apply, FULL | LIST | JSON | RUN | WAIT | BARE_FILES | KEY},
    {"answer", help_answer, 1, 3, 1, command_answer, WAIT | BARE_FILES | KEY},
    {"exchange", help_exchange, 2, ANY, 1, command_exchange, FULL | LIST | JSON | RUN | WAIT | BARE_FILES | KEY},
    {"check", help_check, 1, 1, 1, command_check, FULL | JSON | BARE_FILES | KEY},
    {"show", help_show, 1, 1, 1, command_show, FULL | LIST | JSON | BARE_FILES | KEY},
    {"why", help_why, 2, 3, 1, command_why, FULL | JSON | BARE_FILES | KEY},
    {"compare", help_compare, 2, 4, 2, command_compare, FULL | JSON | BARE_FILES | KEY},
    {"coverage", help_coverage, 2, 2, 2, command_coverage, JSON | BARE_FILES | KEY},
    {"unpack", help_unpack, 2, 2, 1, command_unpack, KEY},
    {"pack", help_pack, 2, 2, 0, command_pack, KEY}};
#define COMMANDS (sizeof commands / sizeof *commands)

static const struct command *find_command(const char *name)
{
    size_t at;
    for (at = 0; at < COMMANDS; at++)
        if (strcmp(commands[at].name, name) == 0)
            return &commands[at];
    wrong_usage("%s: no such command; collector --help lists them", name);
}

/* The first line of a command's help, which is how to use it. */
static _Noreturn void wrong_arguments(const struct command *command)
{
    wrong_usage("%.*s", (int)strcspn(command->help, "\n"), command->help);
}

static void read_wait(const char *text)
{
    char *end;
    unsigned long seconds = strtoul(text, &end, 10);
    if (*text < '0' || *text > '9' || *end != 0 || seconds > 1000000)
        wrong_usage("%s: --wait takes a number of seconds", text);
    wait_seconds = (unsigned)seconds;
}

/* Takes one option with its value, which stands behind = or is the next argument. How many arguments it took. */
static int take_option(const struct command *command, char **arguments)
{
    size_t at, length = strcspn(arguments[0], "=");
    const char *value = arguments[0][length] ? arguments[0] + length + 1 : NULL;
    for (at = 0; at < OPTIONS; at++)
        if (strlen(option_table[at].name) == length && strncmp(option_table[at].name, arguments[0], length) == 0)
            break;
    if (at == OPTIONS || !(command->options & (int)option_table[at].option) || (value && option_table[at].set))
        wrong_usage("%s: no such option; collector %s --help lists them", arguments[0], command->name);
    if (option_table[at].set) {
        *option_table[at].set = 1;
        return 1;
    }
    if (!value && !arguments[1])
        wrong_usage("%s: something must follow; collector %s --help says what", arguments[0], command->name);
    if (option_table[at].option == WAIT)
        read_wait(value ? value : arguments[1]);
    else
        *option_table[at].value = value ? value : arguments[1];
    return value ? 1 : 2;
}

static int is_help(const char *argument)
{
    return strcmp(argument, "--help") == 0 || strcmp(argument, "-h") == 0;
}

/*
 * Takes options out of the arguments; how many arguments are left, or -1 if help is asked for. Options end at --, and behind the folder
 * of exchange: what follows is another program's.
 */
static int take_options(const struct command *command, char **arguments)
{
    int at = 0, kept = 0;
    while (arguments[at] && strcmp(arguments[at], "--") != 0 && !(command->run == command_exchange && kept == 1)) {
        if (is_help(arguments[at]))
            return -1;
        if (strncmp(arguments[at], "--", 2) == 0)
            at += take_option(command, arguments + at);
        else
            arguments[kept++] = arguments[at++];
    }
    if (arguments[at] && strcmp(arguments[at], "--") == 0)
        at++;
    while (arguments[at])
        arguments[kept++] = arguments[at++];
    arguments[kept] = NULL;
    return kept;
}

static int run(char **arguments)
{
    const struct command *command = find_command(arguments[0]);
    int count = take_options(command, arguments + 1);
    if (count < 0) {
        fputs(command->help, stdout);
        return 0;
    }
    if (count < command->least || count > command->most)
        wrong_arguments(command);
    choose_key(arguments + 1, count < command->folders ? count : command->folders);
    return command->run(arguments + 1);
}

/*
 * Takes the places of standard descriptors that are closed, so that no file gets one of them, and messages with it. What is put there
 * cannot be read or written in its turn, so that this is still noticed.
 */
static void take_closed_places(void)
{
    int at;
    for (at = STDIN_FILENO; at <= STDERR_FILENO; at++)
        if (fcntl(at, F_GETFD) < 0 && open("/dev/null", at == STDIN_FILENO ? O_WRONLY : O_RDONLY) != at)
            _exit(STATUS_FILES);
}

int main(int count, char **arguments)
{
    int status = 0;
    take_closed_places();
    if (count < 2) {
        fputs(help_collector, stderr);
        return STATUS_USAGE;
    }
    if (is_help(arguments[1]))
        fputs(help_collector, stdout);
    else if (strcmp(arguments[1], "--version") == 0)
        puts("collector " SYNC_VERSION);
    else
        status = run(arguments + 1);
    flush_output();
    return status;
}
