#include "disk.h"

#include <stdio.h>
#include <stdlib.h>
#include <string.h>

static void *room_for(void *old, size_t bytes)
{
    void *room = realloc(old, bytes ? bytes : 1);
    if (!room) {
        fputs("simulate: no memory\n", stderr);
        exit(2);
    }
    return room;
}

struct file *disk_find(struct disk *disk, const char *name)
{
    for (unsigned i = 0; i < disk->count; i++)
        if (!strcmp(disk->files[i].name, name))
            return &disk->files[i];
    return NULL;
}

static struct file *found_or_made(struct disk *disk, const char *name)
{
    struct file *file = disk_find(disk, name);
    if (file)
        return file;
    if (disk->count == DISK_FILES || strlen(name) >= DISK_NAME) {
        fprintf(stderr, "simulate: no room for file %s\n", name);
        exit(2);
    }
    file = &disk->files[disk->count++];
    memset(file, 0, sizeof *file);
    strcpy(file->name, name);
    return file;
}

static void reserve(struct file *file, size_t len)
{
    if (len > file->room) {
        file->room = len * 2 + 64;
        file->data = room_for(file->data, file->room);
    }
}

static void forget_was(struct file *file)
{
    free(file->was);
    file->was = NULL;
    file->was_len = 0;
}

void disk_append(struct disk *disk, const char *name, const void *bytes, size_t n)
{
    struct file *file = found_or_made(disk, name);
    reserve(file, file->len + n);
    if (n)
        memcpy(file->data + file->len, bytes, n);
    file->len += n;
}

void disk_truncate(struct disk *disk, const char *name, size_t n)
{
    struct file *file = disk_find(disk, name);
    if (!file || n >= file->len)
        return;
    if (n < file->synced) {
        if (!file->was) {
            file->was_len = file->synced;
            file->was = room_for(NULL, file->synced);
            memcpy(file->was, file->data, file->synced);
        }
        file->synced = n;
    }
    file->len = n;
}

void disk_sync(struct disk *disk, const char *name)
{
    struct file *file = disk_find(disk, name);
    if (!file)
        return;
    file->synced = file->len;
    file->made = true;
    forget_was(file);
}

void disk_replace(struct disk *disk, const char *name, const void *bytes, size_t n)
{
    struct file *file = found_or_made(disk, name);
    reserve(file, n);
    if (n)
        memcpy(file->data, bytes, n);
    file->len = n;
    disk_sync(disk, name);
}

void disk_remove(struct disk *disk, const char *name)
{
    struct file *file = disk_find(disk, name);
    if (!file)
        return;
    free(file->data);
    forget_was(file);
    *file = disk->files[--disk->count];
}

unsigned disk_crash(struct disk *disk, struct chance *chance)
{
    unsigned hurt = 0;
    for (unsigned i = disk->count; i-- > 0;) {
        struct file *file = &disk->files[i];
        if (file->was && below(chance, 2)) {
            /* it was never made shorter */
            reserve(file, file->was_len);
            memcpy(file->data, file->was, file->was_len);
            file->len = file->synced = file->was_len;
            hurt++;
        } else if (file->len > file->synced) {
            size_t lost = file->len - file->synced;
            size_t left = below(chance, 4) ? below(chance, (uint32_t)lost + 1) : 0;
            /* the end of what is left may be anything */
            if (left && below(chance, 2))
                for (size_t b = 0, torn = 1 + below(chance, (uint32_t)left); b < torn; b++)
                    file->data[file->synced + left - 1 - b] =
                        (uint8_t)(below(chance, 2) ? 0 : any(chance));
            file->len = file->synced + left;
            hurt++;
        }
        forget_was(file);
        if (!file->made && (file->len == 0 || below(chance, 2))) {
            disk_remove(disk, file->name);
            continue;
        }
        file->synced = file->len;
        file->made = true;
    }
    return hurt;
}

void disk_empty(struct disk *disk)
{
    while (disk->count)
        disk_remove(disk, disk->files[0].name);
}

void disk_copy(struct disk *to, const struct disk *from)
{
    disk_empty(to);
    for (unsigned i = 0; i < from->count; i++)
        disk_replace(to, from->files[i].name, from->files[i].data, from->files[i].len);
}

uint64_t disk_sum(const struct disk *disk)
{
    uint64_t sum = disk->count;
    for (unsigned i = 0; i < disk->count; i++) {
        uint64_t one = 0;
        for (const char *c = disk->files[i].name; *c; c++)
            one = mixed(one ^ (uint8_t)*c);
        for (size_t b = 0; b < disk->files[i].len; b++)
            one = one * 31 + disk->files[i].data[b];
        sum += mixed(one);
    }
    return sum;
}
