/* What was said by options. */

#ifndef OPTIONS_H
#define OPTIONS_H

struct options {
    int json, list, bare, dry_run, empty;
    const char *key, *run, *id;
};
extern struct options options;

#endif
