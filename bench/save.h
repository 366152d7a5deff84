/* An answer, written whole or not at all. */
#ifndef SAVE_H
#define SAVE_H

#include "load.h"

/* Writes an answer to a path, or to standard output if it is NULL or "-". A regular file is written beside its place and renamed once
 * all bytes are on the disk, so that it is never half written; anything else is written directly. An output that is one of the
 * files read, and one that cannot be written, end the program. */
void save(const char *path, const char *bytes, size_t length, const struct file *read, int count);

#endif
