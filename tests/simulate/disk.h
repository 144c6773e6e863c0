/*
 * A disk in memory: files by name, each with a part that is synced and a part that is not. A crash
 * loses some or all of what was not synced and can tear what is left of it.
 */
#ifndef DISK_H
#define DISK_H

#include "chance.h"

#include <stddef.h>

#define DISK_FILES 80
#define DISK_NAME 24

struct file {
    char name[DISK_NAME];
    uint8_t *data;
    size_t len, room;
    size_t synced; /* so much of data is on disk */
    uint8_t *was;  /* what is on disk in its place, where it was made shorter since; or null */
    size_t was_len;
    bool made; /* the name itself is on disk */
};

struct disk {
    struct file files[DISK_FILES];
    unsigned count;
};

struct file *disk_find(struct disk *disk, const char *name);
void disk_append(struct disk *disk, const char *name, const void *bytes, size_t n);
void disk_truncate(struct disk *disk, const char *name, size_t n);
void disk_sync(struct disk *disk, const char *name);
/* At once and on disk. */
void disk_replace(struct disk *disk, const char *name, const void *bytes, size_t n);
void disk_remove(struct disk *disk, const char *name);
/* What is left after the machine has stopped. `torn` counts the files that lost or changed bytes. */
unsigned disk_crash(struct disk *disk, struct chance *chance);
void disk_empty(struct disk *disk);
void disk_copy(struct disk *to, const struct disk *from);
uint64_t disk_sum(const struct disk *disk);

#endif
