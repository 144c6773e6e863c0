/* The world of real processes: a folder is the disk, UNIX sockets are the network. */
#define _GNU_SOURCE
#include "process.h"

#include <errno.h>
#include <fcntl.h>
#include <inttypes.h>
#include <poll.h>
#include <signal.h>
#include <stdio.h>
#include <stdlib.h>
#include <string.h>
#include <sys/file.h>
#include <sys/random.h>
#include <sys/socket.h>
#include <sys/un.h>
#include <time.h>
#include <unistd.h>

void stop(const char *what, const char *name)
{
    fflush(stdout);
    fprintf(stderr, "restart-cluster: %s %s%s%s\n", what, name, errno ? ": " : "",
            errno ? strerror(errno) : "");
    exit(2);
}

/* ---- Disk ---- */

static void sync_names(const struct process *p)
{
    if (fsync(p->disk) != 0)
        stop("cannot sync", "the folder");
}

static void write_all(int file, const char *name, const uint8_t *bytes, size_t length)
{
    while (length > 0) {
        ssize_t count = write(file, bytes, length);
        if (count < 0 && errno != EINTR)
            stop("cannot write", name);
        if (count > 0) {
            bytes += count;
            length -= (size_t)count;
        }
    }
}

static long disk_read(void *self, const char *name, uint64_t at, uint8_t *bytes, size_t most)
{
    const struct process *p = self;
    size_t length = 0;
    int file = openat(p->disk, name, O_RDONLY);
    if (file < 0 && errno == ENOENT)
        return -1;
    if (file < 0)
        stop("cannot open", name);
    while (length < most) {
        ssize_t count = pread(file, bytes + length, most - length, (off_t)(at + length));
        if (count == 0)
            break;
        if (count < 0 && errno != EINTR)
            stop("cannot read", name);
        length += count > 0 ? (size_t)count : 0;
    }
    close(file);
    return (long)length;
}

static void disk_append(void *self, const char *name, const uint8_t *bytes, size_t length)
{
    const struct process *p = self;
    int file = openat(p->disk, name, O_WRONLY | O_APPEND);
    if (file < 0 && errno == ENOENT) {
        file = openat(p->disk, name, O_WRONLY | O_APPEND | O_CREAT, 0600);
        sync_names(p);
    }
    if (file < 0)
        stop("cannot write", name);
    write_all(file, name, bytes, length);
    close(file);
}

static void disk_sync(void *self, const char *name)
{
    const struct process *p = self;
    int file = openat(p->disk, name, O_WRONLY);
    if (file < 0 || fsync(file) != 0)
        stop("cannot sync", name);
    close(file);
}

static void disk_replace(void *self, const char *name, const uint8_t *bytes, size_t length)
{
    const struct process *p = self;
    char fresh[64];
    snprintf(fresh, sizeof fresh, "%s.new", name);
    int file = openat(p->disk, fresh, O_WRONLY | O_CREAT | O_TRUNC, 0600);
    if (file < 0)
        stop("cannot write", fresh);
    write_all(file, fresh, bytes, length);
    if (fsync(file) != 0 || close(file) != 0 || renameat(p->disk, fresh, p->disk, name) != 0)
        stop("cannot write", name);
    sync_names(p);
}

static void disk_truncate(void *self, const char *name, uint64_t length)
{
    const struct process *p = self;
    int file = openat(p->disk, name, O_WRONLY);
    if (file < 0 || ftruncate(file, (off_t)length) != 0)
        stop("cannot cut", name);
    close(file);
}

static void disk_remove(void *self, const char *name)
{
    const struct process *p = self;
    if (unlinkat(p->disk, name, 0) != 0 && errno != ENOENT)
        stop("cannot remove", name);
    sync_names(p);
}

/* ---- Messages: datagrams, each to the socket that has the address as its name ---- */

static struct sockaddr_un socket_of(uint32_t address)
{
    struct sockaddr_un name;
    memset(&name, 0, sizeof name);
    name.sun_family = AF_UNIX;
    snprintf(name.sun_path, sizeof name.sun_path, "%" PRIu32, address);
    return name;
}

/* What cannot be sent is lost; whoever needs it asks again. */
static void send_message(void *self, uint32_t to, const uint8_t *bytes, size_t length)
{
    const struct process *p = self;
    struct sockaddr_un name = socket_of(to);
    (void)!sendto(p->socket, bytes, length, MSG_DONTWAIT, (struct sockaddr *)&name, sizeof name);
}

/* The next message: its length, or -1 if there is none. Who sent it is known by the socket. */
long next_message(const struct process *p, uint8_t *bytes, size_t most, uint32_t *from)
{
    struct sockaddr_un name;
    socklen_t name_length = sizeof name;
    char *end;
    memset(&name, 0, sizeof name);
    ssize_t length =
        recvfrom(p->socket, bytes, most, MSG_DONTWAIT, (struct sockaddr *)&name, &name_length);
    unsigned long address = strtoul(name.sun_path, &end, 10);
    *from = end != name.sun_path && *end == '\0' && address < CLIENTS_AT + CLIENTS
                ? (uint32_t)address
                : UINT32_MAX;
    return length;
}

/* ---- The rest of the world ---- */

static uint64_t clock_now(void *self)
{
    struct timespec time;
    (void)self;
    clock_gettime(CLOCK_MONOTONIC, &time);
    return (uint64_t)time.tv_sec * 1000 + (uint64_t)time.tv_nsec / 1000000;
}

static uint64_t random_number(void *self)
{
    uint64_t number;
    (void)self;
    if (getrandom(&number, sizeof number, 0) != (ssize_t)sizeof number)
        stop("no random numbers", "here");
    return number;
}

static void say_line(void *self, const char *line)
{
    const struct process *p = self;
    printf("%s %" PRIu32 ": %s\n", p->what, p->address, line);
    fflush(stdout);
}

/* For tests: with CLUSTER_AT=PLACE:N in its environment the process dies, as by kill -9, when it is at
 * this step (a number of enum place) the Nth time; with :stop behind it, it stands still there. */
static void reach(void *self, int place)
{
    struct process *p = self;
    if (p->count > 0 && place == p->place && --p->count == 0)
        raise(p->signal);
}

static void read_place(struct process *p)
{
    const char *text = getenv("CLUSTER_AT");
    if (text != NULL && sscanf(text, "%d:%d", &p->place, &p->count) == 2)
        p->signal = strstr(text, ":stop") != NULL ? SIGSTOP : SIGKILL;
}

static uint64_t left_out(void)
{
#ifdef CLUSTER_SWITCHES
    const char *text = getenv("CLUSTER_LEAVE_OUT");
    return text != NULL ? strtoull(text, NULL, 0) : 0;
#else
    return 0;
#endif
}

struct world world_of(struct process *p)
{
    return (struct world){.self = p,
                          .read = disk_read,
                          .append = disk_append,
                          .sync = disk_sync,
                          .replace = disk_replace,
                          .truncate = disk_truncate,
                          .remove = disk_remove,
                          .send = send_message,
                          .now = clock_now,
                          .random = random_number,
                          .say = say_line,
                          .at = reach,
                          .leave_out = left_out()};
}

/* ---- Starting ---- */

/* Opens the folder, which one process has at a time, and the socket. */
void process_open(struct process *p, const char *what, uint32_t address, const char *folder,
                  const char *room)
{
    p->what = what;
    p->address = address;
    read_place(p);
    p->disk = open(folder, O_RDONLY | O_DIRECTORY);
    if (p->disk < 0 || flock(p->disk, LOCK_EX | LOCK_NB) != 0)
        stop("cannot use", folder);
    if (room == NULL)
        return;
    struct sockaddr_un name = socket_of(address);
    p->socket = socket(AF_UNIX, SOCK_DGRAM, 0);
    if (chdir(room) != 0)
        stop("cannot use", room);
    unlink(name.sun_path);
    if (p->socket < 0 || bind(p->socket, (struct sockaddr *)&name, sizeof name) != 0)
        stop("no socket in", room);
}

/* Waits for a message, or a little while. */
void process_wait(const struct process *p, uint32_t time)
{
    struct pollfd wanted = {p->socket, POLLIN, 0};
    poll(&wanted, 1, (int)time);
}
