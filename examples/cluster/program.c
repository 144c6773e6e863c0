/* The program restart-cluster: README.md shows how to use it. */
#define _GNU_SOURCE
#include "process.h"

#include <errno.h>
#include <getopt.h>
#include <inttypes.h>
#include <signal.h>
#include <stdio.h>
#include <stdlib.h>
#include <string.h>

struct options {
    const char *room, *folder;
    uint8_t settings[RESTART_SETTINGS_BYTES + 1];
    size_t settings_len;
    struct times times;
    uint32_t number;
    uint64_t updates;
    uint32_t asks, shard, player; /* READ or PAGE; 0: writes */
    struct leader_options leader;
};

static volatile sig_atomic_t change;

static void on_signal(int signal)
{
    (void)signal;
    change = 1;
}

static uint32_t number_in(const char *text)
{
    char *end;
    errno = 0;
    unsigned long number = strtoul(text, &end, 0);
    if (end == text || *end != '\0' || errno != 0 || number > UINT32_MAX)
        stop("no number:", text);
    return (uint32_t)number;
}

static void read_settings(struct options *o, const char *name)
{
    FILE *file = fopen(name, "rb");
    if (file == NULL)
        stop("cannot open", name);
    o->settings_len = fread(o->settings, 1, sizeof o->settings, file);
    fclose(file);
    errno = 0;
    if (restart_check_settings(o->settings, o->settings_len) != RESTART_ACCEPTED)
        stop("wrong settings in", name);
}

enum { AT_ONCE = 64 }; /* messages between two ticks */

static int run_machine(const struct options *o)
{
    static struct machine machine;
    static uint8_t bytes[MESSAGE_BYTES];
    struct process p = {0};
    uint32_t from;
    long length;
    process_open(&p, "machine", o->number, o->folder, o->room);
    struct world world = world_of(&p);
    if (!machine_start(&machine, &world, o->times, o->settings, o->settings_len, o->number))
        return 1;
    for (;; process_wait(&p, o->times.beat / 4 + 1)) {
        for (int i = 0; i < AT_ONCE && (length = next_message(&p, bytes, sizeof bytes, &from)) >= 0;
             i++)
            machine_message(&machine, from, bytes, (size_t)length);
        machine_tick(&machine);
    }
}

static int run_leader(const struct options *o)
{
    static struct leader leader;
    static uint8_t bytes[MESSAGE_BYTES];
    struct process p = {0};
    uint32_t from;
    long length;
    process_open(&p, "leader", LEADERS_AT + o->number, o->folder, o->room);
    struct world world = world_of(&p);
    signal(SIGHUP, on_signal);
    if (!leader_start(&leader, &world, o->times, o->settings, o->settings_len, &o->leader))
        return 1;
    for (;; process_wait(&p, o->times.beat / 4 + 1)) {
        for (int i = 0; i < AT_ONCE && (length = next_message(&p, bytes, sizeof bytes, &from)) >= 0;
             i++)
            leader_message(&leader, from, bytes, (size_t)length);
        if (change)
            leader_change(&leader);
        change = 0;
        leader_tick(&leader);
    }
}

/* A subgroup's page in words, for its publisher. */
static void print_page(const uint32_t page[RESTART_PAGE_WORDS])
{
    printf("%s, view %" PRIu32 " is kept\n", restart_phase_text(page[RESTART_PAGE_PHASE]),
           page[RESTART_PAGE_VIEW]);
    for (uint32_t s = 0; s < RESTART_SHARDS; s++) {
        if (!(page[RESTART_PAGE_SHARDS] >> s & 1))
            continue;
        printf("shard %" PRIu32 ":", s);
        for (uint32_t node = 0; node < RESTART_NODES; node++)
            if (page[RESTART_PAGE_MASKS + s] >> node & 1)
                printf(" %" PRIu32, node);
        if (page[RESTART_PAGE_KNOWN] >> s & 1)
            printf(", log of machine %" PRIu32, page[RESTART_PAGE_HOLDERS + s]);
        printf("\n");
    }
    if (page[RESTART_PAGE_FOUND])
        printf("%" PRIu32 " moves\n", page[RESTART_PAGE_MOVES]);
    else
        printf("the machines that are back cannot carry it\n");
}

/* Prints a line for each update that is stored, or what was asked for. */
static int run_client(const struct options *o)
{
    static struct client client;
    static uint8_t bytes[MESSAGE_BYTES];
    struct process p = {0};
    uint32_t from;
    long length;
    process_open(&p, "client", CLIENTS_AT + o->number, o->folder, o->room);
    struct world world = world_of(&p);
    int started = o->asks ? client_ask(&client, &world, o->times, o->settings, o->settings_len,
                                       p.address, o->asks, o->shard, o->player)
                          : client_start(&client, &world, o->times, o->settings, o->settings_len,
                                         p.address, o->updates);
    for (; started && client.waiting; process_wait(&p, o->times.beat / 4 + 1)) {
        for (int i = 0; i < AT_ONCE && (length = next_message(&p, bytes, sizeof bytes, &from)) >= 0;
             i++) {
            struct client before = client;
            client_message(&client, from, bytes, (size_t)length);
            if (client.acknowledged > before.acknowledged)
                printf("stored: shard %" PRIu32 " client %" PRIu32 " number %" PRIu32
                       " player %" PRIu32 " score %" PRIu32 "\n",
                       before.shard, o->number, before.number, before.player, before.score);
        }
        fflush(stdout);
        client_tick(&client);
    }
    if (o->asks == READ)
        printf("%" PRIu32 "\n", client.score);
    if (o->asks == PAGE && restart_is_refusal(client.answer))
        printf("refused: %s\n", restart_number_text(restart_number_of(client.answer)));
    else if (o->asks == PAGE)
        print_page(client.page);
    return !started;
}

/* Puts the first view on a machine's disk, once in its life. */
static int run_format(const struct options *o)
{
    uint32_t masks[RESTART_SHARDS];
    struct process p = {0};
    struct world world = world_of(&p);
    process_open(&p, "machine", o->number, o->folder, o->room);
    errno = 0;
    if (!first_masks(o->settings, o->settings_len, masks))
        stop("some shard has no machine by", "these settings");
    if (!machine_format(&world, o->settings, o->settings_len, o->number, masks))
        stop("a view is there already, or no such machine:", o->folder);
    return 0;
}

static void show_log(const struct world *world, const struct view *view, uint32_t shard)
{
    struct store store;
    struct log_size size;
    struct update update;
    char name[LOG_NAME];
    log_name(name, shard, view->slots >> shard & 1);
    if (!log_read(world, name, shard, view->base[shard], view->number, &store, &size)) {
        printf("  shard %" PRIu32 ": %s is damaged\n", shard, name);
        return;
    }
    printf("  shard %" PRIu32 ": %" PRIu32 " updates packed, %" PRIu32 " up to (%" PRIu32
           ", %" PRIu32 "), %" PRIu32 " of the view, sum %016" PRIx64 "\n",
           shard, size.packed, size.before, view->base[shard].view, view->base[shard].k,
           size.behind, store.sum);
    for (uint32_t i = 0; i < CLIENTS; i++)
        if (store.numbers[i] != 0)
            printf("    client %" PRIu32 " up to number %" PRIu32 "\n", i, store.numbers[i]);
    for (uint32_t i = 0; i < size.before + size.behind; i++)
        if (log_updates(world, name, shard, i, &update, 1) == 1)
            printf("    (%" PRIu32 ", %" PRIu32 ") client %" PRIu32 " number %" PRIu32
                   " player %" PRIu32 " score %" PRIu32 "\n",
                   update.at.view, update.at.k, update.client, update.number, update.player,
                   update.score);
}

/* What is on a machine's disk, for people and tests. */
static int run_show(const struct options *o)
{
    static struct view views[2];
    struct process p = {0};
    struct world world = world_of(&p);
    uint64_t tag;
    process_open(&p, "machine", o->number, o->folder, o->room);
    if (!views_read(&world, &views[0], &views[1], &tag)) {
        printf("no view\n");
        return 1;
    }
    for (int i = 0; i < 2 && views[i].number != 0; i++) {
        printf("%s view %" PRIu32 ", members %" PRIx32 ", before:", i ? "open" : "sure",
               views[i].number, views[i].members);
        for (uint32_t j = 0; j < views[i].before; j++)
            printf(" %" PRIu32 "/%" PRIx32, views[i].list[j][0], views[i].list[j][1]);
        printf("\n");
        for (uint32_t s = 0; s < RESTART_SHARDS; s++)
            if (views[i].logs >> s & 1)
                show_log(&world, &views[i], s);
    }
    return 0;
}

/* ---- Arguments ---- */

static const char help[] =
    "usage: restart-cluster WHAT --settings FILE --folder FOLDER [OPTION ..]\n"
    "\n"
    "WHAT is\n"
    "  format    put the first view on the disk of machine NUMBER, once in its life\n"
    "  machine   run machine NUMBER, 0 to 31\n"
    "  leader    run leader NUMBER of the list, 0 to 3; SIGHUP changes the view\n"
    "  client    run client NUMBER, 0 to 31; a line for each update that is stored\n"
    "  show      print what is on a machine's disk\n"
    "\n"
    "  --settings FILE     settings of the cluster, restart(7); not for show\n"
    "  --folder FOLDER     the disk of this process, a folder that is there\n"
    "  --room FOLDER       where the sockets are, the same for all processes\n"
    "  --number NUMBER     0 if it is not given\n"
    "  --updates N         client: end after so many; 0: never\n"
    "  --read SHARD:PLAYER client: print a score in place of writing\n"
    "  --page G            client: print the page of subgroup G, if it rents it\n"
    "  --leaders N         leader: how many the list has, 1 if it is not given\n"
    "  --terminate         leader: end the shards of a view that all members have reported\n"
    "  --gone MASK         leader: disks that are gone for ever, an operator's word\n"
    "  --rents CLIENT:G    leader: this client may read the page of subgroup G\n"
    "  --times B,G,P,S,T   milliseconds: beat, grace, patience, slow, takeover\n"
    "  --help, --version\n";

/* Two numbers with a mark between them. */
static void pair_in(char *text, uint32_t *first, uint32_t *second)
{
    char *mark = strchr(text, ':');
    if (mark == NULL)
        stop("no pair of numbers:", text);
    *mark = '\0';
    *first = number_in(text);
    *second = number_in(mark + 1);
}

static void take_option(struct options *o, int option, char *text)
{
    uint32_t first, second;
    switch (option) {
    case 's':
        read_settings(o, text);
        break;
    case 'f':
        o->folder = text;
        break;
    case 'r':
        o->room = text;
        break;
    case 'n':
        o->number = o->leader.number = number_in(text);
        break;
    case 'u':
        o->updates = number_in(text);
        break;
    case 'a':
        o->asks = READ;
        pair_in(text, &o->shard, &o->player);
        break;
    case 'G':
        o->asks = PAGE;
        o->shard = number_in(text);
        break;
    case 'l':
        o->leader.leaders = number_in(text);
        break;
    case 't':
        o->leader.terminates = 1;
        break;
    case 'g':
        o->leader.gone = number_in(text);
        break;
    case 'p':
        pair_in(text, &first, &second);
        if (first < CLIENTS)
            o->leader.rents[first] = second + 1;
        break;
    case 'm':
        if (sscanf(text, "%" SCNu32 ",%" SCNu32 ",%" SCNu32 ",%" SCNu32 ",%" SCNu32, &o->times.beat,
                   &o->times.grace, &o->times.patience, &o->times.slow, &o->times.takeover) != 5)
            stop("no five times:", text);
        break;
    case 'h':
        fputs(help, stdout);
        exit(0);
    case 'v':
        printf("restart-cluster %s\n", restart_version_text());
        exit(0);
    default:
        fputs(help, stderr);
        exit(2);
    }
}

int main(int count, char **arguments)
{
    static const struct option names[] = {
        {"settings", 1, 0, 's'}, {"folder", 1, 0, 'f'},  {"room", 1, 0, 'r'},
        {"number", 1, 0, 'n'},   {"updates", 1, 0, 'u'}, {"leaders", 1, 0, 'l'},
        {"read", 1, 0, 'a'},     {"page", 1, 0, 'G'},    {"terminate", 0, 0, 't'},
        {"gone", 1, 0, 'g'},     {"rents", 1, 0, 'p'},   {"times", 1, 0, 'm'},
        {"help", 0, 0, 'h'},     {"version", 0, 0, 'v'}, {0, 0, 0, 0}};
    static const struct {
        const char *name;
        int (*run)(const struct options *);
        int needs_room;
        uint32_t most;
    } kinds[] = {{"format", run_format, 0, RESTART_NODES},
                 {"machine", run_machine, 1, RESTART_NODES},
                 {"leader", run_leader, 1, LEADERS},
                 {"client", run_client, 1, CLIENTS},
                 {"show", run_show, 0, UINT32_MAX}};
    static struct options o;
    int option;
    o.times = TIMES_OF_PEOPLE;
    o.leader.leaders = 1;
    while ((option = getopt_long(count, arguments, "", names, NULL)) != -1)
        take_option(&o, option, optarg);
    for (size_t i = 0; i < sizeof kinds / sizeof *kinds; i++)
        if (optind + 1 == count && strcmp(arguments[optind], kinds[i].name) == 0 &&
            o.folder != NULL && (o.room != NULL) >= kinds[i].needs_room &&
            (o.settings_len != 0 || kinds[i].run == run_show) && o.number < kinds[i].most) {
            if (!kinds[i].needs_room)
                o.room = NULL;
            return kinds[i].run(&o);
        }
    fputs(help, stderr);
    return 2;
}
