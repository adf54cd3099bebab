/* Other programs, started with something to read and, if wanted, with their output read. */

#ifndef START_H
#define START_H

#include <stddef.h>
#include <stdint.h>

/*
 * Starts a program, writes the bytes to its standard input, and reads what it prints, if there is room for that (NULL: it prints where
 * this program does). Waits for its end. *n is how many bytes it printed, the room and one more if it printed more. Its status, or
 * 128 and more if a signal ended it; 127 if there is no such program.
 */
int start(char *const *command, const void *input, size_t input_n, uint8_t *output, size_t room, size_t *n);

#endif
