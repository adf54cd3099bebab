/* How the program ends where it does not do what it was asked for: a message, and a status that says which kind it is. */

#ifndef MESSAGES_H
#define MESSAGES_H

#include <stdint.h>

/* The commands that take what a copy, or another folder, holds into a replica under a new id. */
#define INTO_FRESH(from) \
    "    collector new FRESH                      a replica under a new id; with a key: new --key KEY FRESH\n" \
    "    collector knowledge FRESH asked\n" \
    "    collector make " from "\n" \
    "    collector apply FRESH answer"
#define FROM_COPY INTO_FRESH("COPY asked answer         COPY: the copy, or another server's folder")

enum status {
    STATUS_REFUSED = 1, /* the engine refuses; the message has its number */
    STATUS_NO = 1,      /* the answer to a question is no */
    STATUS_USAGE = 2,   /* the program was called in a wrong way */
    STATUS_FILES = 3,   /* a file cannot be read or written, or is not the one that should be there */
    STATUS_AFTER = 4    /* the change was made, and what was to follow it failed */
};

/*
 * If set, a file that the engine refuses is trouble with a file: 1 then only means that the answer is no. Set by commands that answer a
 * question in this way.
 */
extern int refusals_are_trouble;

/* What a number means and what to do, in one line; and more lines, or an empty text. */
const char *words_of(uint32_t number);
const char *more_words_of(uint32_t number);

/* Ends with the engine's number for what the name says, what it means and what to do. The note may be null. */
_Noreturn void refused(const char *name, uint32_t number, const char *note);

/* The second half of 18, in words: others know later edits by this replica than its store has. */
extern const char behind_words[], behind_more[];

__attribute__((format(printf, 1, 2)))
_Noreturn void wrong_usage(const char *format, ...);

/* Ends because of the file or folder of this name. */
__attribute__((format(printf, 2, 3)))
_Noreturn void trouble(const char *name, const char *format, ...);

/* The memory that was asked for; ends the program if there is none. */
void *need_memory(void *memory);

/* Says something on standard error, and goes on. */
__attribute__((format(printf, 2, 3)))
void warn(const char *name, const char *format, ...);

/* From here on the change is made: what fails now is said to come after it, with a status of its own. */
void change_is_made(void);

/* What a message about trouble begins with from here on, for trouble that means more than a file which cannot be written. */
void trouble_means(const char *words);

/* Brings all that was printed out; ends the program if that cannot be done. */
void flush_output(void);

#endif
