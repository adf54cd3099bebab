/* How far a store is from its limits. */

#ifndef STATUS_H
#define STATUS_H

#include "replica.h"

/* Warns on standard error of each limit that a store is near. */
void warn_limits(const struct file *store);

#endif
