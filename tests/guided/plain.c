/* Settings, messages, flat reports, open views and pages, plainly; see plain.h. */
#include "plain.h"

#include <string.h>

enum { MEMBERS = 1, POSITION, RUN, HOLDER, CUT };
enum { ALL_BYTES = 2048, ALL_WORDS = 512, MOST_LINES = 127 };

static const uint32_t length_class = 16777216, view_class = 67108864;

/* ---- words ---- */

uint32_t word_of(const uint8_t *bytes, size_t index)
{
    uint32_t value = 0;
    for (size_t k = 4; k > 0; k--)
        value = value * 256 + bytes[4 * index + k - 1];
    return value;
}

void word_to(uint8_t *bytes, size_t index, uint32_t value)
{
    for (size_t k = 0; k < 4; k++) {
        bytes[4 * index + k] = (uint8_t)(value % 256);
        value /= 256;
    }
}

uint32_t ones(uint32_t mask)
{
    uint32_t count = 0;
    for (; mask != 0; mask /= 2)
        count += mask % 2;
    return count;
}

int is_in(uint32_t mask, uint32_t number)
{
    return number < 32 && mask >> number & 1;
}

/* ---- settings ---- */

static int within(uint32_t value, uint32_t least, uint32_t most)
{
    return value >= least && value <= most;
}

int plain_settings(struct plan_settings *to, const uint8_t *bytes, size_t length)
{
    memset(to, 0, sizeof *to);
    if (length % 4 != 0 || length < 16)
        return 0;
    to->nodes = word_of(bytes, 0);
    to->sets = word_of(bytes, 1);
    to->least = word_of(bytes, 2);
    to->shards = word_of(bytes, 3);
    if (!within(to->nodes, 1, 32) || !within(to->sets, 1, 16) || !within(to->least, 1, to->nodes) ||
        !within(to->shards, 1, 16) || length / 4 != 4 + to->nodes + to->shards)
        return 0;
    for (uint32_t n = 0; n < to->nodes; n++) {
        to->set[n] = word_of(bytes, 4 + n);
        if (to->set[n] >= to->sets)
            return 0;
    }
    for (uint32_t s = 0; s < to->shards; s++) {
        uint32_t word = word_of(bytes, 4 + to->nodes + s);
        to->need[s] = word % 256;
        to->group[s] = word / 256 % 256;
        to->cap[s] = word / 65536;
        if (to->cap[s] == 0)
            to->cap[s] = to->need[s];
        if (!within(to->need[s], 1, to->sets) || to->group[s] > 3 ||
            !within(to->cap[s], to->need[s], 16))
            return 0;
    }
    return 1;
}

/* ---- messages ---- */

static uint32_t at(uint32_t number, uint32_t index)
{
    return number + 256 * index;
}

static uint32_t kind_of(const struct line *line)
{
    return line->key / 256;
}

static uint32_t shard_of(const struct line *line)
{
    return line->key % 256;
}

static int may_have(enum form form, uint32_t kind)
{
    if (form == A_REPORT)
        return kind == MEMBERS || kind == POSITION || kind == RUN;
    return kind == MEMBERS || kind == POSITION || kind == HOLDER || kind == CUT;
}

/* The mask that a record before line `end` gives a shard; 0 if none does. */
static uint32_t mask_before(const struct letter *letter, uint32_t shard, uint32_t end)
{
    for (uint32_t k = 0; k < end; k++)
        if (kind_of(&letter->lines[k]) == MEMBERS && shard_of(&letter->lines[k]) == shard)
            return letter->lines[k].first;
    return 0;
}

static int comes_after(const struct line *line, const struct line *before)
{
    if (line->key != before->key)
        return line->key > before->key;
    return kind_of(line) == RUN && line->first > before->first;
}

static int has_line(const struct letter *letter, uint32_t kind, uint32_t shard)
{
    for (uint32_t k = 0; k < letter->count; k++)
        if (letter->lines[k].key == 256 * kind + shard)
            return 1;
    return 0;
}

/* Whether a record that must be there is not. */
static int one_is_missing(const struct letter *letter, enum form form,
                          const struct plan_settings *settings)
{
    int some = form == AN_ORDER;
    for (uint32_t s = 0; s < settings->shards; s++)
        some = some || has_line(letter, POSITION, s);
    for (uint32_t s = 0; s < settings->shards; s++) {
        if (!has_line(letter, MEMBERS, s) || (some && !has_line(letter, POSITION, s)))
            return 1;
        if (form == AN_ORDER && is_in(mask_before(letter, s, letter->count), letter->node) &&
            (!has_line(letter, HOLDER, s) || !has_line(letter, CUT, s)))
            return 1;
    }
    return 0;
}

/* Number 17. */
static uint32_t sequence(const struct letter *letter, enum form form,
                         const struct plan_settings *settings)
{
    for (uint32_t k = 0; k < letter->count; k++) {
        const struct line *line = &letter->lines[k];
        int surplus =
            kind_of(line) > RUN && !is_in(mask_before(letter, shard_of(line), k), letter->node);
        if (surplus || (k > 0 && !comes_after(line, line - 1)))
            return at(17, line->index);
    }
    if (one_is_missing(letter, form, settings))
        return at(17, letter->count == 0 ? 0 : letter->lines[letter->count - 1].index);
    return 0;
}

/* Number 10. */
static int shards_are_wrong(const struct letter *letter, const struct plan_settings *settings)
{
    for (uint32_t s = 0; s < settings->shards; s++) {
        uint32_t mask = mask_before(letter, s, letter->count);
        if (mask == 0 || (mask & ~letter->members) != 0)
            return 1;
        for (uint32_t t = 0; t < s; t++)
            if (settings->group[t] == settings->group[s] &&
                (mask_before(letter, t, letter->count) & mask) != 0)
                return 1;
    }
    return 0;
}

/* Number 11. */
static int values_are_wrong(const struct letter *letter, enum form form)
{
    for (uint32_t k = 0; k < letter->count; k++) {
        const struct line *line = &letter->lines[k];
        if (kind_of(line) == MEMBERS)
            continue;
        if (kind_of(line) == HOLDER) {
            if (!is_in(letter->members, line->first))
                return 1;
            continue;
        }
        int zero = line->first == 0 && line->second == 0;
        int proper = line->first != 0 && line->second != 0;
        if (!proper && !(zero && kind_of(line) != RUN))
            return 1;
        if (line->first > letter->view || (form == AN_ORDER && line->first == letter->view))
            return 1;
    }
    return 0;
}

/* Numbers 6 and 7. */
static uint32_t head(const struct letter *letter, enum form form,
                     const struct plan_settings *settings)
{
    if (letter->node >= settings->nodes)
        return 6;
    if (letter->view < (form == A_REPORT ? 1 : 2) || (form == A_REPORT && letter->view == ~0u))
        return 7;
    for (uint32_t n = settings->nodes; n < 32; n++)
        if (is_in(letter->members, n))
            return 7;
    return is_in(letter->members, letter->node) ? 0 : 7;
}

/* Numbers 9, 16, 17, 10 and 11. */
static uint32_t body(const struct letter *letter, enum form form,
                     const struct plan_settings *settings)
{
    for (uint32_t k = 0; k < letter->count; k++) {
        const struct line *line = &letter->lines[k];
        uint32_t kind = kind_of(line);
        if (!may_have(form, kind) || ((kind == MEMBERS || kind == HOLDER) && line->second != 0))
            return at(9, line->index);
    }
    for (uint32_t k = 0; k < letter->count; k++)
        if (shard_of(&letter->lines[k]) >= settings->shards)
            return at(16, letter->lines[k].index);
    uint32_t refusal = sequence(letter, form, settings);
    if (refusal != 0)
        return refusal;
    if (shards_are_wrong(letter, settings))
        return 10;
    return values_are_wrong(letter, form) ? 11 : 0;
}

uint32_t plain_letter(struct letter *to, enum form form, const struct plan_settings *settings,
                      const uint8_t *message, size_t length)
{
    if (length == 0 || length > ALL_BYTES || length % 16 != 0)
        return 5;
    *to = (struct letter){word_of(message, 0), word_of(message, 1), word_of(message, 2), 0, {{0}}};
    uint32_t refusal = head(to, form, settings);
    if (refusal != 0)
        return refusal;
    uint32_t here = 0, next;
    while ((next = word_of(message, 4 * (size_t)here + 3)) != 0) {
        if (next <= here || next >= length / 16)
            return at(8, here);
        here = next;
        to->lines[to->count++] = (struct line){here, word_of(message, 4 * (size_t)here),
                                               word_of(message, 4 * (size_t)here + 1),
                                               word_of(message, 4 * (size_t)here + 2)};
    }
    return body(to, form, settings);
}

/* Numbers 1 and 2. */
static uint32_t lent(struct plan_settings *to, const uint8_t *settings, size_t settings_len,
                     size_t to_len)
{
    if (to_len != ALL_BYTES)
        return 1;
    return plain_settings(to, settings, settings_len) ? 0 : 2;
}

/* Writes the words of a letter without gaps, with a next index in each record or without. */
static uint32_t put_letter(const struct letter *letter, int with_next, uint8_t *to)
{
    size_t width = with_next ? 4 : 3;
    memset(to, 0, ALL_BYTES);
    word_to(to, 0, letter->node);
    word_to(to, 1, letter->view);
    word_to(to, 2, letter->members);
    for (uint32_t k = 0; k < letter->count; k++) {
        if (with_next)
            word_to(to, 4 * k + 3, k + 1);
        word_to(to, width * (k + 1), letter->lines[k].key);
        word_to(to, width * (k + 1) + 1, letter->lines[k].first);
        word_to(to, width * (k + 1) + 2, letter->lines[k].second);
    }
    return length_class + (uint32_t)width * (letter->count + 1);
}

uint32_t plain_read(enum form form, const uint8_t *settings, size_t settings_len,
                    const uint8_t *message, size_t message_len, uint8_t *to, size_t to_len)
{
    struct plan_settings read;
    struct letter letter;
    uint32_t refusal = lent(&read, settings, settings_len, to_len);
    if (refusal == 0)
        refusal = plain_letter(&letter, form, &read, message, message_len);
    return refusal != 0 ? refusal : put_letter(&letter, 0, to);
}

/* The numbers of a letter that is to be written, or what is written. */
static uint32_t written(const struct letter *letter, enum form form,
                        const struct plan_settings *settings, uint8_t *to)
{
    uint32_t refusal = head(letter, form, settings);
    if (refusal == 0)
        refusal = body(letter, form, settings);
    return refusal != 0 ? refusal : put_letter(letter, 1, to);
}

uint32_t plain_write(enum form form, const uint8_t *settings, size_t settings_len,
                     const uint8_t *contents, size_t contents_len, uint8_t *to, size_t to_len)
{
    struct plan_settings read;
    struct letter letter;
    uint32_t refusal = lent(&read, settings, settings_len, to_len);
    if (refusal != 0)
        return refusal;
    if (contents_len == 0 || contents_len % 12 != 0 || contents_len / 12 - 1 > MOST_LINES)
        return 5;
    letter = (struct letter){word_of(contents, 0),
                             word_of(contents, 1),
                             word_of(contents, 2),
                             (uint32_t)(contents_len / 12 - 1),
                             {{0}}};
    for (uint32_t k = 0; k < letter.count; k++) {
        size_t from = 3 * ((size_t)k + 1);
        letter.lines[k] = (struct line){k + 1, word_of(contents, from), word_of(contents, from + 1),
                                        word_of(contents, from + 2)};
    }
    return written(&letter, form, &read, to);
}

/* ---- flat reports ---- */

/* A flat report's counts: its shards, positions and runs, and where its positions and runs begin. */
struct flat {
    uint64_t shards, positions, runs, positions_at, runs_at;
};

/* Whether its counts explain its length and the termination word is 0 or 1. */
static int flat_counts(struct flat *to, const uint8_t *bytes, size_t length)
{
    uint64_t words = length / 4;
    if (length % 4 != 0 || words < 6)
        return 0;
    to->shards = word_of(bytes, 3);
    if (5 + to->shards > words)
        return 0;
    uint32_t termination = word_of(bytes, (size_t)(4 + to->shards));
    if (termination > 1)
        return 0;
    to->positions = termination == 1 ? to->shards : 0;
    to->positions_at = 5 + to->shards;
    uint64_t count_at = to->positions_at + 2 * to->positions;
    if (count_at >= words)
        return 0;
    to->runs = word_of(bytes, (size_t)count_at);
    to->runs_at = count_at + 1;
    return words == to->runs_at + 3 * to->runs;
}

static void add_line(struct letter *letter, uint32_t kind, uint32_t shard, uint32_t first,
                     uint32_t second)
{
    uint32_t k = letter->count++;
    letter->lines[k] =
        (struct line){k + 1, 256 * kind + (shard > 255 ? 255 : shard), first, second};
}

uint32_t plain_from_flat(const uint8_t *settings, size_t settings_len, const uint8_t *flat,
                         size_t flat_len, uint8_t *to, size_t to_len)
{
    struct plan_settings read;
    struct letter letter;
    struct flat counts;
    uint32_t refusal = lent(&read, settings, settings_len, to_len);
    if (refusal != 0)
        return refusal;
    if (!flat_counts(&counts, flat, flat_len))
        return 19;
    for (uint64_t r = 0; r < counts.runs; r++)
        if (word_of(flat, (size_t)(counts.runs_at + 3 * r + 2)) == 0)
            return 20;
    if (1 + counts.shards + counts.positions + counts.runs > MOST_LINES + 1)
        return 21;
    letter = (struct letter){word_of(flat, 0), word_of(flat, 1), word_of(flat, 2), 0, {{0}}};
    for (uint32_t s = 0; s < counts.shards; s++)
        add_line(&letter, MEMBERS, s, word_of(flat, 4 + (size_t)s), 0);
    for (uint32_t s = 0; s < counts.positions; s++) {
        size_t from = (size_t)counts.positions_at + 2 * (size_t)s;
        add_line(&letter, POSITION, s, word_of(flat, from), word_of(flat, from + 1));
    }
    for (uint32_t r = 0; r < counts.runs; r++) {
        size_t from = (size_t)counts.runs_at + 3 * (size_t)r;
        add_line(&letter, RUN, word_of(flat, from), word_of(flat, from + 1),
                 word_of(flat, from + 2));
    }
    return written(&letter, A_REPORT, &read, to);
}

uint32_t plain_to_flat(const uint8_t *settings, size_t settings_len, const uint8_t *message,
                       size_t message_len, uint8_t *to, size_t to_len)
{
    struct plan_settings read;
    struct letter letter;
    uint32_t refusal = lent(&read, settings, settings_len, to_len), words = 0,
             counts[CUT + 1] = {0};
    if (refusal == 0)
        refusal = plain_letter(&letter, A_REPORT, &read, message, message_len);
    if (refusal != 0)
        return refusal;
    memset(to, 0, ALL_BYTES);
    for (uint32_t k = 0; k < letter.count; k++)
        counts[kind_of(&letter.lines[k])]++;
    word_to(to, words++, letter.node);
    word_to(to, words++, letter.view);
    word_to(to, words++, letter.members);
    word_to(to, words++, counts[MEMBERS]);
    for (uint32_t k = 0; k < counts[MEMBERS]; k++)
        word_to(to, words++, letter.lines[k].first);
    word_to(to, words++, counts[POSITION] != 0);
    for (uint32_t k = counts[MEMBERS]; k < counts[MEMBERS] + counts[POSITION]; k++) {
        word_to(to, words++, letter.lines[k].first);
        word_to(to, words++, letter.lines[k].second);
    }
    word_to(to, words++, counts[RUN]);
    for (uint32_t k = counts[MEMBERS] + counts[POSITION]; k < letter.count; k++) {
        word_to(to, words++, shard_of(&letter.lines[k]));
        word_to(to, words++, letter.lines[k].first);
        word_to(to, words++, letter.lines[k].second);
    }
    return length_class + words;
}

/* ---- open views ---- */

uint32_t plain_open_view(uint32_t members, uint32_t known, uint32_t have, uint32_t lack,
                         uint32_t passed)
{
    int all_have = members != 0, one_lacks = 0;
    for (uint32_t n = 0; n < 32; n++) {
        if (is_in(members, n) && !is_in(have, n))
            all_have = 0;
        if (is_in(members, n) && is_in(lack, n))
            one_lacks = 1;
    }
    int sure = known != 0 || all_have, never = one_lacks || passed != 0;
    return view_class + (uint32_t)(sure ? (never ? 4 : 1) : never ? 2 : 3);
}

/* ---- a sound state with its desk ---- */

enum { KEPT = 1, TERMINATED = 3, KEPT_MASKS = 4, TERMINATION = 20, HELD = 52 };

/* What a log is asked: its end, and whether it has a position. */
struct log {
    uint32_t view, k;
    int has;
};

static struct log log_of(const struct letter *report, uint32_t shard, uint32_t view, uint32_t k)
{
    struct log log = {0, 0, view == 0};
    for (uint32_t i = 0; i < report->count; i++) {
        const struct line *line = &report->lines[i];
        if (line->key != 256 * RUN + shard)
            continue;
        if (line->first == view && line->second >= k)
            log.has = 1;
        if (line->first > log.view) {
            log.view = line->first;
            log.k = line->second;
        }
    }
    return log;
}

int plain_holder(const struct plan_settings *settings, const uint8_t *state, const uint8_t *desk,
                 uint32_t shard, uint32_t *holder, uint32_t *view, uint32_t *k)
{
    int found = 0, terminated = word_of(state, TERMINATED) == 1;
    uint32_t to_view = word_of(state, TERMINATION + 2 * shard),
             to_k = word_of(state, TERMINATION + 2 * shard + 1), end_view = 0, end_k = 0;
    uint32_t candidates = word_of(state, HELD) & word_of(state, KEPT_MASKS + shard);
    for (uint32_t n = 0; n < settings->nodes; n++) {
        struct letter report;
        if (!is_in(candidates, n))
            continue;
        if (plain_letter(&report, A_REPORT, settings, desk + 2048 * n, 2048) != 0 ||
            report.view != word_of(state, KEPT))
            continue;
        struct log log = log_of(&report, shard, to_view, to_k);
        if (terminated && !log.has)
            continue;
        if (!found || log.view > end_view || (log.view == end_view && log.k > end_k)) {
            found = 1;
            *holder = n;
            end_view = log.view;
            end_k = log.k;
        }
    }
    *view = terminated ? to_view : end_view;
    *k = terminated ? to_k : end_k;
    return found;
}

void plain_page(const struct plan_settings *settings, const uint8_t *state, const uint8_t *desk,
                uint32_t group, int found, const uint32_t *masks, uint8_t *to)
{
    enum { PLAN_MASKS = 58 };
    uint32_t shards = 0, known = 0, moves = 0, gathering = word_of(state, 0) == 0;
    memset(to, 0, ALL_BYTES);
    for (uint32_t s = 0; s < settings->shards; s++) {
        uint32_t holder, view, k;
        if (settings->group[s] != group)
            continue;
        shards |= 1u << s;
        if (plain_holder(settings, state, desk, s, &holder, &view, &k)) {
            known |= 1u << s;
            word_to(to, 8 + s, holder);
            word_to(to, 24 + 2 * s, view);
            word_to(to, 25 + 2 * s, k);
        }
        if (found || !gathering) {
            uint32_t mask = gathering ? masks[s] : word_of(state, PLAN_MASKS + s);
            word_to(to, 56 + s, mask);
            moves += ones(mask & ~word_of(state, KEPT_MASKS + s));
        }
    }
    word_to(to, 0, word_of(state, 0));
    word_to(to, 1, word_of(state, KEPT));
    word_to(to, 2, shards);
    word_to(to, 3, known);
    word_to(to, 4, (uint32_t)(found || !gathering));
    word_to(to, 5, moves);
}

/* ---- the small functions ---- */

void plain_small(uint32_t answer, uint32_t *results)
{
    uint32_t class = answer / 16777216, rest = answer % 16777216, number = 0;
    if (class == 0 && rest != 0)
        number = rest % 256;
    uint32_t all[SMALL_FUNCTIONS] = {
        class,
        class == 0 && rest != 0,
        class == 2,
        class == 3,
        number,
        number == 8 || number == 9 || number == 16 || number == 17,
        class == 0 ? rest / 256 : 0,
        class == 3 ? rest / 256 : 0,
        class == 3 ? rest % 256 : 0,
        class == 2 ? rest : 0,
        class == 1 ? rest : 0,
        class == 4 ? rest : 0,
        (uint32_t)(class == 5) + 2 * (uint32_t)(class == 5 && rest != 0),
        class == 5 && rest != 0 ? rest % 256 : 32,
    };
    memcpy(results, all, sizeof all);
}
