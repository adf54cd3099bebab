/* Files in words and columns. */

#ifndef SHOW_H
#define SHOW_H

#include "replica.h"

/* The records of a store or batch that is valid, as one table. */
struct part records_of(const struct file *file);

/* The record of an item in a table, or null. */
const uint8_t *find_record(struct part table, const uint8_t *item);

/* Lets the ids of a valid file be told apart when they are shown. */
void add_ids(const struct file *file);

/* One line on a valid file: what it is, its sizes. */
void show_kind(const struct file *file);

/* All of a valid file. */
void show(const struct file *file);

/* The live items with their tags, all digits, for scripts. */
void show_list(struct part table);

/* One record in words, without an end of the line: "live, changed by a1 at tick 2, created by a1 at tick 1, tag 9". */
void show_record(const uint8_t *record);

/* The same in JSON, as members of the object that is open: one record, what a file is, all of a file. */
void json_record(const uint8_t *record);
void json_kind(const struct file *file);
void json_show(const struct file *file);

/* A count with its noun. */
void show_count(uint64_t count, const char *one, const char *many);

#endif
