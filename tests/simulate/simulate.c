/*
 * Stores that die again and again, by chance from a seed: README.md.
 *
 *     simulate [options]
 *       --seed N            the first course (1); each further one has the next seed
 *       --courses N         so many courses
 *       --restarts N        until so many restarts were carried out
 *       --seconds N         for so long
 *       --machines N        each store has so many
 *       --rounds N          each course has so many failures of all
 *       --skip N,N,..       without these rounds
 *       --without KIND,..   without these kinds of faults
 *       --mute N,N,..       without these faults, by their number
 *       --leave-out NAME    a duty is left out
 *       --spoil NAME        an answer of the library is spoiled
 *       --for KIND,..       only these findings count; a course that comes to another one is left
 *       --log FILE          every step of the last course
 *       --progress          a line every two seconds
 *       --sums              a line for each course: its seed and the sum of all that happened
 *       --names             what can be left out, spoiled and found
 * Ends with 0 if nothing was found, with 1 at the first finding, with 2 if it cannot run.
 */
#define _POSIX_C_SOURCE 200809L
#include "course.h"
#include "library.h"

#include <stdlib.h>
#include <string.h>
#include <time.h>

/* ---- What can be left out ---- */

static const struct {
    const char *name;
    enum leave leave;
} SWITCHES[] = {
    {"serve-late", LEAVE_SERVE_LATE},
    {"tags", LEAVE_TAGS},
    {"tag-kept", LEAVE_TAG_KEPT},
    {"report-order", LEAVE_REPORT_ORDER},
    {"fetched-sync", LEAVE_FETCHED_SYNC},
    {"prepared-sync", LEAVE_PREPARED_SYNC},
    {"no-targets", LEAVE_NO_TARGETS},
    {"torn", LEAVE_TORN},
    {"short", LEAVE_SHORT},
    {"base-target", LEAVE_BASE_TARGET},
    {"base-cut", LEAVE_BASE_CUT},
    {"pack-sure", LEAVE_PACK_SURE},
    {"holder-serves", LEAVE_HOLDER_SERVES},
    {"drop", LEAVE_DROP},
    {"view-once", LEAVE_VIEW_ONCE},
    {"desk", LEAVE_DESK},
    {"covers", LEAVE_COVERS},
    {"beside", LEAVE_BESIDE},
    {"not-carried", LEAVE_NOT_CARRIED},
    {"copy-deleted", LEAVE_COPY_DELETED},
    {"settle", LEAVE_SETTLE},
    {"lists", LEAVE_LISTS},
    {"undecided", LEAVE_UNDECIDED},
    {"all-stored", LEAVE_ALL_STORED},
    {"store-sync", LEAVE_STORE_SYNC},
    {"role", LEAVE_ROLE},
};
/* What the simulation's own world leaves out. */
static const char *const CARELESS_TEXT[CARELESS] = {
    "",
    "1: two leaders, neither of which gives way",
    "3: a report of a time when each log had an update more comes in place of the newer one",
    "6: a machine comes back with any older image of its disk",
    "6: a machine whose disk is lost begins again with the first view",
    "10: a report of a view that never was is taken, and nobody starts anew",
    "12: the leader's file is changed while it is stopped, and stays sound",
    "17: the number of shards changes",
};

enum { COUNT = sizeof SWITCHES / sizeof *SWITCHES };

static void leave_out(struct asked *asked, const char *name)
{
    for (size_t i = 0; i < COUNT; i++)
        if (!strcmp(name, SWITCHES[i].name)) {
            asked->leave_out |= UINT64_C(1) << SWITCHES[i].leave;
            return;
        }
    for (int i = 1; i < CARELESS; i++)
        if (!strcmp(name, careless_names[i])) {
            asked->careless = (enum careless)i;
            return;
        }
    fprintf(stderr, "simulate: nothing is called %s\n", name);
    exit(2);
}

static void names(void)
{
    for (size_t i = 0; i < COUNT; i++)
        printf("leave-out %s %s\n", SWITCHES[i].name, leave_text((int)SWITCHES[i].leave));
    for (int i = 1; i < CARELESS; i++)
        printf("leave-out %s %s\n", careless_names[i], CARELESS_TEXT[i]);
    for (int i = 1; i < SPOILED; i++)
        printf("spoil %s %s\n", spoiled_names[i], spoiled_texts[i]);
    for (int i = 1; i < FINDINGS; i++)
        printf("finding %s\n", found_names[i]);
    for (int i = 0; i < FAULTS; i++)
        printf("fault %s\n", fault_names[i]);
}

/* ---- Lists in options ---- */

static int by_size(const void *a, const void *b)
{
    uint32_t x = *(const uint32_t *)a, y = *(const uint32_t *)b;
    return (x > y) - (x < y);
}

static uint32_t *numbers(const char *text, size_t *count)
{
    uint32_t *list = malloc((strlen(text) + 1) * sizeof *list);
    *count = 0;
    if (!list)
        exit(2);
    while (*text) {
        char *end;
        list[(*count)++] = (uint32_t)strtoul(text, &end, 10);
        if (end == text)
            exit(2);
        text = *end == ',' ? end + 1 : end;
    }
    qsort(list, *count, sizeof *list, by_size);
    return list;
}

static uint32_t kinds(const char *text, const char *const *all, int count)
{
    uint32_t mask = 0;
    while (*text) {
        size_t length = strcspn(text, ",");
        int kind = 0;
        while (kind < count && (strlen(all[kind]) != length || strncmp(all[kind], text, length)))
            kind++;
        if (kind == count) {
            fprintf(stderr, "simulate: nothing is called %s\n", text);
            exit(2);
        }
        mask |= UINT32_C(1) << kind;
        text += length + (text[length] == ',');
    }
    return mask;
}

/* ---- Figures ---- */

static double seconds(void)
{
    struct timespec now;
    clock_gettime(CLOCK_MONOTONIC, &now);
    return (double)now.tv_sec + (double)now.tv_nsec / 1e9;
}

#define U(x) ((unsigned long long)(x))

static void progress(double began, enum found what)
{
    printf("%7.1f s  %llu restarts, %llu view changes, %llu failures of all, %llu stops of one, "
           "%llu updates acknowledged, lost %d\n",
           seconds() - began, U(counts.restarts), U(counts.changes), U(counts.cuts),
           U(counts.kills), U(counts.acked), what == LOST);
    fflush(stdout);
}

static void figures(void)
{
    printf("courses %llu, events %llu, calls to the world %llu\n", U(counts.courses),
           U(counts.events), U(counts.calls));
    printf("messages %llu: lost %llu, doubled %llu, delayed %llu, after a failure of all %llu\n",
           U(counts.messages), U(counts.lost), U(counts.doubled), U(counts.delayed),
           U(counts.late));
    printf(
        "files torn or set back by a stop %llu, older images %llu, clocks that stood still %llu, "
        "terminations %llu, other settings %llu\n",
        U(counts.torn), U(counts.images), U(counts.still), U(counts.ended), U(counts.settings));
    printf("plans %llu, made again by a second leader %llu; copies compared %llu; files read back "
           "%llu, events gone on from them %llu\n",
           U(counts.plans), U(looked_at.second_plans), U(counts.copies), U(looked_at.read_back),
           U(looked_at.gone_on));
    printf("acknowledged updates looked up %llu; all machines up again %llu times, at most %llu "
           "events for each machine\n",
           U(counts.looked_up), U(counts.heals), U(counts.heal_events));
    int least = 0, reached = 0;
    for (int place = 0; place < PLACES; place++) {
        reached += counts.places[place] > 0;
        if (counts.places[place] < counts.places[least])
            least = place;
    }
    printf("stops at %d of %d named steps, fewest %llu (%s)\n", reached, (int)PLACES,
           U(counts.places[least]), place_text(least));
}

int main(int argc, char **argv)
{
    struct asked asked = {.seed = 1, .sought = UINT32_MAX};
    uint64_t courses = 0, restarts = 0;
    double most = 0, began = seconds(), told = began;
    const char *log = NULL;
    bool shown = false, sums = false;
    for (int i = 1; i < argc; i++) {
        const char *value = i + 1 < argc ? argv[i + 1] : "";
        if (!strcmp(argv[i], "--progress")) {
            shown = true;
            continue;
        } else if (!strcmp(argv[i], "--sums")) {
            sums = true;
            continue;
        } else if (!strcmp(argv[i], "--names")) {
            names();
            return 0;
        } else if (!strcmp(argv[i], "--seed")) {
            asked.seed = strtoull(value, NULL, 10);
        } else if (!strcmp(argv[i], "--courses")) {
            courses = strtoull(value, NULL, 10);
        } else if (!strcmp(argv[i], "--restarts")) {
            restarts = strtoull(value, NULL, 10);
        } else if (!strcmp(argv[i], "--seconds")) {
            most = strtod(value, NULL);
        } else if (!strcmp(argv[i], "--machines")) {
            asked.nodes = (uint32_t)strtoul(value, NULL, 10);
        } else if (!strcmp(argv[i], "--rounds")) {
            asked.rounds = (uint32_t)strtoul(value, NULL, 10);
        } else if (!strcmp(argv[i], "--skip")) {
            size_t count;
            uint32_t *list = numbers(value, &count);
            for (size_t n = 0; n < count; n++)
                asked.skipped |= UINT64_C(1) << (list[n] & 63);
            free(list);
        } else if (!strcmp(argv[i], "--without")) {
            asked.without = kinds(value, fault_names, FAULTS);
        } else if (!strcmp(argv[i], "--for")) {
            asked.sought = kinds(value, found_names, FINDINGS);
        } else if (!strcmp(argv[i], "--mute")) {
            asked.muted = numbers(value, &asked.mutes);
        } else if (!strcmp(argv[i], "--leave-out")) {
            leave_out(&asked, value);
        } else if (!strcmp(argv[i], "--spoil")) {
            spoiled = RIGHT;
            for (int n = 1; n < SPOILED; n++)
                if (!strcmp(value, spoiled_names[n]))
                    spoiled = (enum spoiled)n;
            if (spoiled == RIGHT)
                return 2;
        } else if (!strcmp(argv[i], "--log")) {
            log = value;
        } else {
            fprintf(stderr, "simulate: what is %s?\n", argv[i]);
            return 2;
        }
        i++;
    }
    if (asked.nodes > RESTART_NODES || asked.nodes == 1 || asked.nodes == 2)
        return 2;
    if (!courses && !restarts && most == 0)
        courses = 1;
    enum found what = NOTHING;
    uint64_t first = asked.seed;
    for (;; asked.seed++) {
        if (log) {
            asked.log = fopen(log, "w");
            if (!asked.log) {
                perror(log);
                return 2;
            }
        }
        what = course(&asked);
        if (asked.log)
            fclose(asked.log);
        asked.log = NULL;
        if (sums)
            printf("%llu %016llx\n", U(asked.seed), U(course_sum));
        double now = seconds();
        if (shown && now - told >= 2) {
            progress(began, what);
            told = now;
        }
        if (what != NOTHING || (courses && asked.seed + 1 - first >= courses) ||
            (restarts && counts.restarts >= restarts) || (most > 0 && now - began >= most))
            break;
    }
    progress(began, what);
    if (what == NOTHING) {
        figures();
        return 0;
    }
    printf("seed %llu: %s: %s\n", U(asked.seed), found_names[what], found_text);
    printf("round %u, faults %u, events %llu, sum %016llx\n", course_round, course_faults,
           U(course_events), U(course_sum));
    return 1;
}
