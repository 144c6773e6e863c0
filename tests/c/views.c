/*
 * What is found of an open view: rows by hand, and every combination of masks of three machines, at
 * several places, against a walk from machine to machine.
 */
#include "world.h"

#define COUNT(array) (sizeof(array) / sizeof((array)[0]))
#define CLASS 67108864u

/* The five masks of a question, in the call's order. */
struct question {
    uint32_t members, known, have, lack, passed;
};

static uint32_t asked(const struct question *q)
{
    return restart_open_view(q->members, q->known, q->have, q->lack, q->passed);
}

/* ---- By hand: a view of nodes 0, 1 and 2; node 3 is no member ---- */

static void rows(void)
{
    static const struct {
        const char *what;
        struct question question;
        uint32_t found;
    } table[] = {
        {"a machine knows it, and be it no member", {7, 8, 0, 0, 0}, RESTART_VIEW_SURE},
        {"all members have it", {7, 0, 7, 0, 0}, RESTART_VIEW_SURE},
        {"all members and another have it", {7, 0, 15, 0, 0}, RESTART_VIEW_SURE},
        {"all members but one have it", {7, 0, 5, 0, 0}, RESTART_VIEW_UNDECIDED},
        {"another has it in that one's place", {7, 0, 13, 0, 0}, RESTART_VIEW_UNDECIDED},
        {"a member lacks it", {7, 0, 5, 2, 0}, RESTART_VIEW_NEVER},
        {"a member and another lack it", {7, 0, 5, 10, 0}, RESTART_VIEW_NEVER},
        {"another lacks it", {7, 0, 5, 8, 0}, RESTART_VIEW_UNDECIDED},
        {"a sure view has passed it by", {7, 0, 5, 0, 8}, RESTART_VIEW_NEVER},
        {"all have it, and it is passed by", {7, 0, 7, 0, 8}, RESTART_VIEW_CONTRADICTED},
        {"it is known, and a member lacks it", {7, 8, 0, 1, 0}, RESTART_VIEW_CONTRADICTED},
        {"no members, nothing known", {0, 0, 0, 0, 0}, RESTART_VIEW_UNDECIDED},
        {"no members, and all machines have it", {0, 0, 7, 0, 0}, RESTART_VIEW_UNDECIDED},
        {"32 members, and all have it", {~0u, 0, ~0u, 0, 0}, RESTART_VIEW_SURE},
        {"32 members, and machine 31 is missing", {~0u, 0, ~0u >> 1, 0, 0}, RESTART_VIEW_UNDECIDED},
        {"every bit of every mask", {~0u, ~0u, ~0u, ~0u, ~0u}, RESTART_VIEW_CONTRADICTED},
    };
    for (size_t i = 0; i < COUNT(table); i++) {
        check_word(table[i].what, asked(&table[i].question), CLASS + table[i].found);
        check_word(table[i].what, restart_view_of(asked(&table[i].question)), table[i].found);
    }
}

/* ---- Every combination, against a walk from machine to machine ---- */

/* What is known of an open view so far. */
struct walk {
    int one_knows, one_passed, a_member, a_member_without, a_member_lacks;
};

static int in(uint32_t mask, unsigned machine)
{
    for (unsigned i = 0; i < machine; i++)
        mask /= 2;
    return mask % 2 == 1;
}

static void pass(struct walk *walk, const struct question *q, unsigned machine)
{
    if (in(q->known, machine))
        walk->one_knows = 1;
    if (in(q->passed, machine))
        walk->one_passed = 1;
    if (!in(q->members, machine))
        return;
    walk->a_member = 1;
    if (!in(q->have, machine))
        walk->a_member_without = 1;
    if (in(q->lack, machine))
        walk->a_member_lacks = 1;
}

static uint32_t walked(const struct question *q)
{
    struct walk walk = {0, 0, 0, 0, 0};
    for (unsigned machine = 0; machine < RESTART_NODES; machine++)
        pass(&walk, q, machine);
    int sure = walk.one_knows;
    if (walk.a_member && !walk.a_member_without)
        sure = 1;
    if (walk.one_passed || walk.a_member_lacks)
        return CLASS + (sure ? 4 : 2);
    return CLASS + (sure ? 1 : 3);
}

/* Whether a member is in none of known, have and lack: somebody to wait for. */
static int somebody_missing(const struct question *q)
{
    for (unsigned machine = 0; machine < RESTART_NODES; machine++)
        if (in(q->members, machine) && !in(q->known, machine) && !in(q->have, machine) &&
            !in(q->lack, machine))
            return 1;
    return 0;
}

/* The mask of the machines at these places whose bits are set. */
static uint32_t spread(uint32_t bits, const unsigned *places)
{
    uint32_t mask = 0;
    for (unsigned i = 0; i < 3; i++)
        if (in(bits, i))
            mask |= UINT32_C(1) << places[i];
    return mask;
}

static void combinations(void)
{
    static const unsigned places[][3] = {{0, 1, 2}, {0, 15, 31}, {29, 30, 31}};
    for (size_t i = 0; i < COUNT(places); i++) {
        uint32_t wrong = 0, forever = 0, found[5] = {0, 0, 0, 0, 0};
        for (uint32_t code = 0; code < UINT32_C(1) << 15; code++) {
            const struct question q = {spread(code % 8, places[i]), spread(code / 8 % 8, places[i]),
                                       spread(code / 64 % 8, places[i]),
                                       spread(code / 512 % 8, places[i]),
                                       spread(code / 4096, places[i])};
            uint32_t answer = asked(&q);
            wrong += answer != walked(&q);
            found[restart_view_of(answer) % 5]++;
            forever += restart_view_of(answer) == RESTART_VIEW_UNDECIDED && q.members != 0 &&
                       !somebody_missing(&q);
        }
        check_word("answers that the walk does not give", wrong, 0);
        check_word("undecided, and nobody to wait for", forever, 0);
        check_word("answers of another class", found[0], 0);
        for (uint32_t finding = RESTART_VIEW_SURE; finding <= RESTART_VIEW_CONTRADICTED; finding++)
            check_word("every finding occurs", found[finding] != 0, 1);
    }
}

int main(void)
{
    rows();
    combinations();
    return summary();
}
