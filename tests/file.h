/* A file in memory. */
#ifndef FILE_H
#define FILE_H

#include <stddef.h>
#include <stdint.h>

enum { FILE_ROOM = 400000, NOTE_TAG = 128 };

struct file {
    size_t length;
    uint8_t bytes[FILE_ROOM];
};

#endif
