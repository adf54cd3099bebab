/* The commands. Each takes its arguments, with a null behind them, and gives the program's status, or ends the program. */

#ifndef COMMANDS_H
#define COMMANDS_H

#include "ids.h"

/* Replicas (changing.c, scan.c, renew.c). */
int command_new(char **arguments);
int command_edit(char **arguments);
int command_delete(char **arguments);
int command_scan(char **arguments);
int command_renew(char **arguments);
int command_seal(char **arguments);

/* Trading (trading.c). */
int command_knowledge(char **arguments);
int command_make(char **arguments);
int command_apply(char **arguments);
int command_answer(char **arguments);
int command_exchange(char **arguments);
int command_pack(char **arguments);
int command_unpack(char **arguments);

/* Questions (asking.c, status.c). */
int command_check(char **arguments);
int command_show(char **arguments);
int command_why(char **arguments);
int command_compare(char **arguments);
int command_coverage(char **arguments);
int command_status(char **arguments);

/* A span of items, and the one of the two arguments, or all items if there are none. */
struct span {
    uint8_t first[SYNC_ITEM], last[SYNC_ITEM];
};
struct span read_span(char **arguments);

#endif
