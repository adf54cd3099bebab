/* Answers in JSON: one object on standard output, whose members are written one after the other. */

#ifndef JSON_H
#define JSON_H

#include <stddef.h>
#include <stdint.h>
#include <stdio.h>

/*
 * Where JSON is written; standard output at first. Each function takes the name of the member, or null inside a list. Ids and tags are
 * strings of all their hexadecimal digits, ticks and counts are numbers. A byte of a name that is no UTF-8 is written as the lone
 * surrogate U+DC80 to U+DCFF, as Python reads such names.
 */
extern FILE *json_out;

void json_open(const char *name, char bracket); /* { or [ */
void json_close(char bracket);                  /* } or ] */
void json_text(const char *name, const char *text);
void json_digits(const char *name, const uint8_t *bytes, size_t n);
void json_number(const char *name, uint64_t number);
void json_truth(const char *name, int truth);
void json_null(const char *name);
void json_end(void); /* the line feed behind the outermost object */

#endif
