/*
 * Put before a program by LD_PRELOAD: a disk that can lose power. It watches what the program does to
 * the files of the folder POWER_FOLDER and notes in the folder POWER_BEFORE what a power cut could
 * take away or bring back; disk.py carries the cut out once the program is dead.
 *
 * With POWER_AT=n it kills the program at its n-th step on these files (create, write, sync, rename,
 * remove, truncate), before the step is done; of a write half is done. With POWER_SYNC=n it does so at
 * the n-th sync of a file.
 */
#define _GNU_SOURCE
#include <fcntl.h>
#include <limits.h>
#include <signal.h>
#include <stdarg.h>
#include <stdint.h>
#include <stdio.h>
#include <stdlib.h>
#include <string.h>
#include <sys/mman.h>
#include <sys/stat.h>
#include <sys/syscall.h>
#include <unistd.h>

enum { ROWS = 96, NAME = 40, ALL = INT32_MAX };

/* A name of which not everything is on disk. */
struct row {
    char name[NAME]; /* empty: the row is free */
    int64_t synced;  /* bytes of the file's beginning that are on disk */
    int32_t
        named; /* 1 if the folder on disk has the name with this file, or has it not if it is gone */
    int32_t was; /* 1 if it may still have the file POWER_BEFORE/NAME.was */
};

struct table {
    int64_t steps;
    struct row rows[ROWS];
};

static struct table *table; /* POWER_BEFORE/table; null: nothing is watched */
static char folder[PATH_MAX], before[PATH_MAX];

static void must(int good, const char *what)
{
    if (good)
        return;
    perror(what);
    _exit(3);
}

__attribute__((constructor)) static void begin(void)
{
    char path[PATH_MAX + 8];
    const char *watched = getenv("POWER_FOLDER"), *kept = getenv("POWER_BEFORE");
    if (watched == NULL || kept == NULL)
        return;
    must(realpath(watched, folder) && realpath(kept, before), "power: folders");
    snprintf(path, sizeof path, "%s/table", before);
    int file = (int)syscall(SYS_openat, AT_FDCWD, path, O_RDWR | O_CREAT, 0600);
    must(file >= 0 && syscall(SYS_ftruncate, file, sizeof *table) == 0, "power: table");
    void *found = mmap(NULL, sizeof *table, PROT_READ | PROT_WRITE, MAP_SHARED, file, 0);
    must(found != MAP_FAILED, "power: table");
    table = (struct table *)found;
    table->steps = 0;
    syscall(SYS_close, file);
}

/* ---- Steps ---- */

/* Counts a step; whether it is the last. */
static int last(void)
{
    const char *at = getenv("POWER_AT");
    return ++table->steps == (at != NULL ? atol(at) : 0);
}

static void step(void)
{
    if (last())
        raise(SIGKILL);
}

/* Counts a sync of a file. */
static void sync_step(void)
{
    static long syncs;
    const char *at = getenv("POWER_SYNC");
    if (++syncs == (at != NULL ? atol(at) : 0))
        raise(SIGKILL);
}

/* ---- Which file: a name of the folder, or null ---- */

static const char *name_in(const char *path)
{
    size_t length = strlen(folder);
    if (strncmp(path, folder, length) != 0 || path[length] != '/')
        return NULL;
    return strlen(path + length + 1) < NAME ? path + length + 1 : NULL;
}

static const char *link_target(const char *link, char *path)
{
    ssize_t length = readlink(link, path, PATH_MAX - 1);
    path[length < 0 ? 0 : length] = '\0';
    return path;
}

static const char *name_of_file(int file, char *path)
{
    char link[32];
    if (table == NULL)
        return NULL;
    snprintf(link, sizeof link, "/proc/self/fd/%d", file);
    return name_in(link_target(link, path));
}

static int is_folder(int file)
{
    char link[32], path[PATH_MAX];
    if (table == NULL)
        return 0;
    snprintf(link, sizeof link, "/proc/self/fd/%d", file);
    return strcmp(link_target(link, path), folder) == 0;
}

/* Of a path seen from the folder `at`, which is open or AT_FDCWD. */
static const char *name_of_path(int at, const char *given, char *path)
{
    char link[32], base[PATH_MAX], joined[2 * PATH_MAX], real[PATH_MAX];
    if (table == NULL)
        return NULL;
    if (at == AT_FDCWD)
        strcpy(link, "/proc/self/cwd");
    else
        snprintf(link, sizeof link, "/proc/self/fd/%d", at);
    snprintf(joined, sizeof joined, "%s/%s", given[0] == '/' ? "" : link_target(link, base), given);
    char *end = strrchr(joined, '/');
    *end = '\0';
    if (realpath(end == joined ? "/" : joined, real) == NULL)
        return NULL;
    snprintf(path, PATH_MAX, "%.2000s/%.2000s", real, end + 1);
    return name_in(path);
}

/* ---- The table ---- */

static struct row *row_named(const char *name)
{
    for (struct row *row = table->rows; row < table->rows + ROWS; row++)
        if (strcmp(row->name, name) == 0)
            return row;
    return NULL;
}

/* The name's row; where it has none all of it was on disk, up to this length. */
static struct row *row_of(const char *name, int64_t synced)
{
    struct row *row = row_named(name);
    if (row != NULL)
        return row;
    row = row_named("");
    must(row != NULL, "power: too many files");
    row->synced = synced;
    row->named = 1;
    row->was = 0;
    strcpy(row->name, name);
    return row;
}

static int64_t size_at(const char *path)
{
    struct stat found;
    return stat(path, &found) == 0 ? (int64_t)found.st_size : -1;
}

static void was_path(char *path, const char *name)
{
    snprintf(path, 2 * PATH_MAX, "%s/%.39s.was", before, name);
}

/* The name gets another file, or none; a cut may bring the present one back if the disk has it. */
static struct row *leaves(const char *name, const char *path)
{
    char was[2 * PATH_MAX];
    struct row *row = row_of(name, ALL);
    if (row->named && !row->was && size_at(path) >= 0) {
        was_path(was, name);
        unlink(was);
        must(link(path, was) == 0, "power: link");
        row->was = 1;
    }
    row->named = 0;
    return row;
}

static void folder_synced(void)
{
    char path[2 * PATH_MAX];
    for (struct row *row = table->rows; row < table->rows + ROWS; row++) {
        if (row->name[0] == '\0')
            continue;
        was_path(path, row->name);
        if (row->was)
            syscall(SYS_unlink, path);
        row->named = 1;
        row->was = 0;
        snprintf(path, sizeof path, "%s/%.39s", folder, row->name);
        if (size_at(path) <= row->synced)
            memset(row, 0, sizeof *row);
    }
}

/* ---- The calls ---- */

static int opens(int at, const char *given, int flags, int mode)
{
    char path[PATH_MAX];
    const char *name = flags & (O_CREAT | O_TRUNC) ? name_of_path(at, given, path) : NULL;
    if (name != NULL && (size_at(path) < 0 || (flags & O_TRUNC))) {
        step();
        struct row *row = size_at(path) < 0 ? leaves(name, path) : row_of(name, 0);
        row->synced = 0;
    }
    return (int)syscall(SYS_openat, at, given, flags, mode);
}

int open(const char *path, int flags, ...)
{
    va_list rest;
    va_start(rest, flags);
    int mode = flags & O_CREAT ? va_arg(rest, int) : 0;
    va_end(rest);
    return opens(AT_FDCWD, path, flags, mode);
}

int openat(int at, const char *path, int flags, ...)
{
    va_list rest;
    va_start(rest, flags);
    int mode = flags & O_CREAT ? va_arg(rest, int) : 0;
    va_end(rest);
    return opens(at, path, flags, mode);
}

ssize_t write(int file, const void *bytes, size_t length)
{
    char path[PATH_MAX];
    const char *name = name_of_file(file, path);
    if (name != NULL) {
        row_of(name, size_at(path));
        if (last()) {
            syscall(SYS_write, file, bytes, length / 2);
            raise(SIGKILL);
        }
    }
    return (ssize_t)syscall(SYS_write, file, bytes, length);
}

int ftruncate(int file, off_t length)
{
    char path[PATH_MAX];
    const char *name = name_of_file(file, path);
    if (name != NULL) {
        step();
        struct row *row = row_of(name, size_at(path));
        row->synced = row->synced < length ? row->synced : length;
    }
    return (int)syscall(SYS_ftruncate, file, length);
}

static int syncs(int file)
{
    char path[PATH_MAX];
    const char *name = name_of_file(file, path);
    int whole = is_folder(file);
    if (name != NULL || whole)
        step();
    if (name != NULL)
        sync_step();
    int answer = (int)syscall(SYS_fsync, file);
    struct row *row = name != NULL ? row_named(name) : NULL;
    if (whole)
        folder_synced();
    if (row != NULL) {
        row->synced = ALL;
        if (row->named && !row->was)
            memset(row, 0, sizeof *row);
    }
    return answer;
}

int fsync(int file)
{
    return syncs(file);
}

int fdatasync(int file)
{
    return syncs(file);
}

static int renames(int from_at, const char *from, int to_at, const char *to)
{
    char from_path[PATH_MAX], to_path[PATH_MAX];
    const char *source = name_of_path(from_at, from, from_path);
    const char *target = name_of_path(to_at, to, to_path);
    if (source != NULL && target != NULL) {
        step();
        struct row *moved = row_named(source), *row = leaves(target, to_path);
        row->synced = moved != NULL ? moved->synced : ALL;
        if (moved != NULL)
            memset(moved, 0, sizeof *moved);
    }
    return (int)syscall(SYS_renameat, from_at, from, to_at, to);
}

int rename(const char *from, const char *to)
{
    return renames(AT_FDCWD, from, AT_FDCWD, to);
}

int renameat(int from_at, const char *from, int to_at, const char *to)
{
    return renames(from_at, from, to_at, to);
}

static int removes(int at, const char *given)
{
    char path[PATH_MAX];
    const char *name = name_of_path(at, given, path);
    if (name != NULL && size_at(path) >= 0) {
        step();
        struct row *row = leaves(name, path);
        row->synced = ALL;
        if (!row->was) /* the disk never had it */
            memset(row, 0, sizeof *row);
    }
    return (int)syscall(SYS_unlinkat, at, given, 0);
}

int unlink(const char *path)
{
    return removes(AT_FDCWD, path);
}

int unlinkat(int at, const char *path, int flags)
{
    return flags == 0 ? removes(at, path) : (int)syscall(SYS_unlinkat, at, path, flags);
}

int remove(const char *path)
{
    return removes(AT_FDCWD, path);
}
