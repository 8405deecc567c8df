/*
 * Makes a batch of runs from a seed:
 *
 *     makeruns SEED BATCH EXPECTED EXAMPLE...
 *
 * BATCH gets every run file after its length (4 bytes little-endian), the
 * examples last, EXPECTED what the run program prints for each, one after
 * another. Standard output gets a table of what was seen; the exit status is 1
 * if some answer, refusal, fault or reason of a no vote was never seen.
 *
 *     makeruns yardstick SEED SORT FILE
 *
 * makes one run of a sort that is timed, and prints what its steps answer.
 *
 * Steps taken blindly are nearly all refused. So each run is made while a
 * model state runs along: most steps are picked to suit that state and tried
 * on it, a share is picked blindly. The same seed gives the same bytes on
 * every machine; for that, no two draws here stand where C leaves open which
 * comes first.
 */
#include "second.h"

#include <stdlib.h>
#include <string.h>

/* ---- Drawing ------------------------------------------------------------ */

static uint64_t luck;

static uint32_t draw32(void)            /* xorshift64* */
{
    luck ^= luck >> 12;
    luck ^= luck << 25;
    luck ^= luck >> 27;
    return (uint32_t)((luck * 2685821657736338717u) >> 32);
}

static uint32_t below(uint32_t n) { return draw32() % n; }
static uint32_t between(uint32_t lo, uint32_t hi)
{
    return lo + below(hi - lo + 1);
}
static bool chance(uint32_t in100) { return below(100) < in100; }

/* ---- The sorts of runs --------------------------------------------------- */

enum counters { ZERO, SMALL, MIXED, TOP, BRIM };

struct sort {
    const char *name;
    unsigned runs;
    struct { uint16_t lo, hi; } nodes, cells, steps;
    enum counters counters;
    unsigned hot;                   /* most steps are about so many cells */
    unsigned live;                  /* transactions under way at once */
    unsigned write, ask, commit;    /* in 100 next steps when open; the rest
                                       abandons */
    unsigned update;                /* in 100 begins */
    unsigned cut, blind;            /* in 100 steps */
    unsigned late;                  /* in 100 prepares, learns and applies at
                                       the nodes that are behind */
};

static const struct sort sorts[] = {
    { "conflict", 200, {1, 3}, {1, 4}, {20, 400}, SMALL, 2, 6,
      34, 38, 26, 85, 3, 5, 50 },
    { "large", 110, {8, 8}, {32, 32}, {60, 400}, SMALL, 5, 8,
      30, 35, 33, 75, 3, 4, 50 },
    { "top", 110, {1, 8}, {1, 6}, {20, 300}, TOP, 3, 5,
      40, 25, 33, 85, 5, 5, 30 },
    { "brim", 60, {1, 2}, {1, 2}, {80, 220}, BRIM, 1, 3,
      50, 10, 39, 95, 2, 4, 20 },
    { "cuts", 150, {1, 5}, {1, 10}, {20, 400}, MIXED, 5, 7,
      30, 40, 28, 75, 35, 6, 50 },
    { "refusals", 120, {1, 8}, {1, 32}, {20, 300}, SMALL, 4, 6,
      30, 35, 30, 70, 10, 50, 40 },
    { "chains", 100, {1, 4}, {1, 3}, {60, 400}, SMALL, 1, 2,
      45, 15, 39, 95, 2, 4, 20 },
    { "waits", 150, {2, 5}, {2, 5}, {40, 400}, MIXED, 3, 8,
      16, 62, 21, 65, 3, 4, 80 },
    { "long", 10, {2, 8}, {2, 32}, {1000, 4096}, SMALL, 4, 10,
      30, 68, 2, 50, 5, 5, 60 },
    /* The rest are made otherwise; "damaged" starts from runs like these. */
    { "damaged", 420, {1, 8}, {1, 8}, {0, 40}, SMALL, 4, 4,
      30, 35, 33, 80, 10, 10, 30 },
    { .name = "prefixes" },
    { .name = "fields" },
    { .name = "places" },
    { .name = "examples" },
};
enum { SORTS = sizeof sorts / sizeof sorts[0] };
enum { LONG = 8, DAMAGED, PREFIXES, FIELDS, PLACES, EXAMPLES };

/* Runs to be timed. No step of theirs is cut: the plain program copies its
 * whole state for one, and would look slower than plain C has to be. */
static const struct sort yardsticks[] = {
    { "busy", 1, {8, 8}, {32, 32}, {4096, 4096}, SMALL, 20, 10,
      30, 69, 1, 75, 0, 0, 20 },
    { "refused", 1, {8, 8}, {32, 32}, {4096, 4096}, SMALL, 4, 6,
      30, 35, 30, 70, 0, 95, 40 },
};
enum { YARDSTICKS = sizeof yardsticks / sizeof yardsticks[0] };

/* ---- Counting, and putting out ------------------------------------------- */

/* What is counted: every code by itself, and from REASON on what the codes
 * alone don't tell. */
enum { REASON = 40, WRITERS = 45, STALE, COUNTED };

static struct tally { unsigned runs, steps, seen[COUNTED]; } tally[SORTS];

static FILE *batch, *expected;

static void count(void *with, const struct state *st, struct step x,
                  struct answer a)
{
    struct tally *t = with;

    (void)st;
    t->steps++;
    t->seen[a.code]++;
    if (a.code == 4)
        t->seen[REASON + a.number]++;
    if (a.code == 5 && x.kind == DECIDE)
        t->seen[WRITERS]++;
    if (a.code == 6 && x.kind == RETURN)
        t->seen[STALE]++;
}

static void put_out(unsigned sort, const uint8_t *bytes, size_t length)
{
    uint8_t head[4];
    int fault;

    for (unsigned i = 0; i < 4; i++)
        head[i] = (uint8_t)(length >> 8 * i);
    fwrite(head, 1, 4, batch);
    fwrite(bytes, 1, length, batch);
    tally[sort].runs++;
    fault = play(bytes, length, expected, count, &tally[sort]);
    if (fault)
        tally[sort].seen[fault]++;
}

/* ---- Sound runs ----------------------------------------------------------- */

static uint32_t some_value(void)
{
    switch (below(8)) {
    case 0: return draw32();
    case 1: return below(2) ? UINT32_MAX : below(3);
    default: return below(100000);
    }
}

static uint8_t some_mask(unsigned nodes, bool wide)
{
    uint32_t all = (1u << nodes) - 1;
    uint32_t mask = 1u << below(nodes);

    if (wide)
        mask |= draw32();
    else if (below(2))
        mask |= 1u << below(nodes);
    return (uint8_t)(mask & all);
}

static uint32_t some_counter(enum counters how)
{
    switch (how) {
    case SMALL: return below(4) ? below(30) : 0;
    case TOP: return below(5) ? UINT32_MAX - below(90) : below(30);
    case MIXED: return below(2) ? below(200) : 0;
    /* So that chains fill about when the numbers run out. */
    case BRIM: return UINT32_MAX - between(48, 72);
    default: return 0;
    }
}

static uint8_t some_cell(const struct sort *how, const struct state *st)
{
    unsigned most = how->hot < st->cells ? how->hot : st->cells;

    return (uint8_t)below(chance(75) ? most : st->cells);
}

/* Make x ask for a cell that T will have to wait for, if there is one. */
static void seek_wait(const struct state *st, const struct slot *t,
                      struct step *x)
{
    uint32_t s = t->fixed ? t->snapshot : st->node[t->origin].commit;
    unsigned from = below(SLOTS), c = below(st->cells);

    for (unsigned i = 0; i < SLOTS * st->cells; i++, c = (c + 1) % st->cells) {
        unsigned u = (from + i / st->cells) % SLOTS;

        for (unsigned n = 0; n < st->nodes; n++)
            if (unfinished(st, u, n) && st->flight[u][n].number <= s
                && (st->slot[u].writes >> c & 1) && (st->mask[c] >> n & 1)) {
                x->cell = (uint8_t)c;
                x->node = (uint8_t)n;
                return;
            }
    }
}

/* A step picked to suit the state, or kind 0 if the draw led nowhere. */
static struct step suited(const struct sort *how, const struct state *st,
                          uint32_t late, bool may_begin)
{
    struct step x = { 0, (uint8_t)below(SLOTS), 0, 0, 0 };
    const struct slot *t = &st->slot[x.slot];
    const struct flight *entry = st->flight[x.slot];
    uint32_t roll = below(100);
    unsigned n = below(st->nodes);
    bool held_back = (late >> n & 1) && chance(how->late);

    if (roll < 8 && !held_back) {
        bool busy = false;

        for (unsigned u = 0; u < SLOTS; u++)
            busy |= unfinished(st, u, n);
        return (struct step){ busy ? APPLY : ADVANCE, 0, (uint8_t)n, 0, 0 };
    }
    x.node = (uint8_t)n;
    switch (t->stage) {
    case UNUSED:
        x.kind = may_begin ? BEGIN : 0;
        x.value = chance(how->update);
        break;
    case OPEN:
        x.cell = some_cell(how, st);
        roll = below(100);
        if (roll < how->write) {
            x.kind = WRITE;
            x.value = some_value();
        } else if (roll < how->write + how->ask) {
            x.kind = ASK;               /* of the origin where it can be */
            if (chance(t->fixed ? how->late / 2 : how->late))
                seek_wait(st, t, &x);
            if (st->mask[x.cell] >> t->origin & 1)
                x.node = (uint8_t)t->origin;
        } else if (roll < how->write + how->ask + how->commit) {
            /* Seldom one that has done nothing yet. */
            x.kind = t->writes || (t->reads && !t->update) || chance(5)
                     ? COMMIT : 0;
        } else {
            x.kind = ABANDON;
        }
        break;
    case ASKING:
    case SERVED:
        roll = how->write + how->ask + how->commit;
        x.kind = chance(100 - roll) ? ABANDON
                 : t->stage == ASKING ? SERVE : RETURN;
        break;
    case VOTING:
        if (entry[n].is == SENT)
            x.kind = held_back ? 0 : PREPARE;
        else
            x.kind = chance(3) ? GIVE_UP : DECIDE;
        break;
    case COMMITTED:
    case ABORTED:
        x.kind = entry[n].is == NOTHING || held_back ? 0 : LEARN;
        break;
    }
    return x;
}

/* Zero the fields the kind doesn't use, or the file would be faulty. */
static struct step tidy(struct step x)
{
    unsigned used = uses(x.kind);

    if (!(used & USES_SLOT))
        x.slot = 0;
    if (!(used & USES_NODE))
        x.node = 0;
    if (!(used & USES_CELL))
        x.cell = 0;
    if (!(used & USES_VALUE))
        x.value = 0;
    return x;
}

/* A step picked blindly: mostly near the run's ranges, sometimes far off. */
static struct step blind(const struct sort *how, const struct state *st)
{
    struct step x;
    bool far = chance(10);

    x.kind = (uint8_t)(far ? below(256) : between(BEGIN, ABANDON));
    /* Fewer of those that use slots up. */
    if ((x.kind == BEGIN || x.kind == COMMIT || x.kind == ABANDON)
        && chance(80))
        x.kind = (uint8_t)between(WRITE, ABANDON);
    x.slot = (uint8_t)(chance(4) ? between(SLOTS - 1, SLOTS + 2)
                                 : below(SLOTS));
    x.node = (uint8_t)(chance(4) ? st->nodes + below(3) : below(st->nodes));
    x.cell = (uint8_t)(chance(4) ? st->cells + below(3) : below(st->cells));
    x.value = chance(20) ? some_value() : below(3);
    if (!far && chance(25)) {           /* most of these are out of turn */
        x.kind = below(2) ? APPLY : ADVANCE;
    } else if (!far && chance(70)) {    /* what nearly suits the slot */
        static const uint8_t open[] = { WRITE, ASK, SERVE },
                             voting[] = { DECIDE, PREPARE, ABANDON },
                             decided[] = { LEARN, PREPARE, DECIDE };
        unsigned i = below(3);

        while (chance(95) && st->slot[x.slot % SLOTS].stage == UNUSED)
            x.slot = (uint8_t)below(SLOTS);
        switch (st->slot[x.slot % SLOTS].stage) {
        case OPEN: x.kind = open[i]; break;
        case VOTING: x.kind = voting[i]; break;
        case COMMITTED:
        case ABORTED: x.kind = decided[i]; break;
        default: break;
        }
    }
    if (far && chance(30))
        x.node = (uint8_t)below(256);
    if (far && chance(30))
        x.slot = (uint8_t)below(256);
    if (far && chance(30))
        x.cell = (uint8_t)below(256);
    if (!how->cut)
        x.kind &= CUT - 1;
    return tidy(x);
}

/* A step that tells whether the cut step before it left the counter behind
 * and nothing else: a vote at that node, or an advance; kind 0 if the cut step
 * moves no counter or no vote is to be had. */
static struct step telling(const struct state *st, struct step cut)
{
    struct step x = { 0, 0, cut.node, 0, 0 };
    unsigned from = below(SLOTS);

    switch (cut.kind & (CUT - 1)) {
    case SERVE: x.node = (uint8_t)st->slot[cut.slot].asked; break;
    case RETURN: x.node = (uint8_t)st->slot[cut.slot].origin; break;
    case PREPARE:
    case LEARN: break;
    default: return x;
    }
    if (below(2)) {
        x.kind = ADVANCE;
        return x;
    }
    for (unsigned i = 0; i < SLOTS; i++) {
        unsigned t = (from + i) % SLOTS;

        if (st->slot[t].stage == VOTING && st->flight[t][x.node].is == SENT) {
            x.kind = PREPARE;
            x.slot = (uint8_t)t;
        }
    }
    return x;
}

static uint8_t steps[STEP_BYTES * STEPS];

/* Draw a run: counts, cells, then step after step along a model state. */
static struct run some_run(const struct sort *how)
{
    static struct state st;
    struct run run = { .step = steps };
    struct step x = { 0, 0, 0, 0, 0 };
    struct answer a = { 0, 0, 0 };          /* to the step before */
    bool wide = below(3) == 0;
    uint32_t late, most;

    run.nodes = between(how->nodes.lo, how->nodes.hi);
    run.cells = between(how->cells.lo, how->cells.hi);
    run.steps = between(how->steps.lo, how->steps.hi);
    for (unsigned n = 0; n < run.nodes; n++)
        run.counter[n] = some_counter(how->counters);
    for (unsigned c = 0; c < run.cells; c++) {
        run.mask[c] = some_mask(run.nodes, wide);
        run.value[c] = some_value();
    }
    late = draw32();
    most = between(1, how->live);
    fresh(&st, &run);

    for (unsigned i = 0; i < run.steps; i++) {
        unsigned used = 0, live = 0;
        bool may_begin, as_it_is = false, idle = false;

        for (unsigned t = 0; t < SLOTS; t++) {
            enum stage stage = st.slot[t].stage;

            used += stage != UNUSED;
            live += stage != UNUSED && stage != COMMITTED && stage != ABORTED;
        }
        /* A run spreads its slots over its length. */
        may_begin = live == 0
                    || (live < most && used * run.steps <= SLOTS * (i + 60));
        if (chance(3))                      /* other nodes fall behind */
            late = draw32();

        /* Some steps are taken as they come, refused or not. */
        if (a.code == 7 && chance(40)) {
            x = telling(&st, x);
            as_it_is = x.kind != 0;
        } else if (chance(how->blind)) {
            x = blind(how, &st);
            as_it_is = true;
        }
        /* The others suit: a refused step changes nothing, so try. */
        for (unsigned tries = 0; !as_it_is; tries++) {
            x = tidy(suited(how, &st, late, may_begin));
            if (chance(how->cut))
                x.kind |= CUT;
            a = step(&st, x);
            if (a.code < 16)
                break;
            if (tries == 300) {
                x = blind(how, &st);
                as_it_is = idle = true;
            }
        }
        if (idle && used == SLOTS && live == 0 && i >= how->steps.lo) {
            run.steps = i;                  /* nothing is left to be done */
            break;
        }
        if (as_it_is)
            a = step(&st, x);
        put_step(steps + STEP_BYTES * i, x);
    }
    return run;
}

static size_t to_bytes(const struct run *run, uint8_t *bytes, size_t room)
{
    size_t length = 0;

    if (write_run(run, bytes, room, &length) != 0)
        abort();                        /* runs drawn here are sound */
    return length;
}

/* ---- Damaged files --------------------------------------------------------- */

enum { ROOM = 40000 };

/* Spoil a file (sound up to now, or spoilt before) and give its length. */
static size_t damage(uint8_t *b, size_t length, const struct run *run)
{
    size_t cells = 1 + 4 * run->nodes;      /* places of the counts */
    size_t count = cells + 1 + 5 * run->cells;
    size_t mask = cells + 1 + 5 * below(run->cells);
    size_t one = count + 2;                 /* the place of some step */
    size_t sound = one + STEP_BYTES * run->steps;
    uint32_t more = between(1, 12);

    if (run->steps)
        one += STEP_BYTES * below(run->steps);
    switch (below(13)) {
    case 0:                                 /* cut short, at a seam or not */
        more = below(8);
        one = more == 0 ? cells : more == 1 ? mask : more == 2 ? count
              : more == 3 ? count + 1 : below((uint32_t)length + 1);
        return one < length ? one : length;
    case 1:                                 /* counts out of range */
        b[0] = (uint8_t)(chance(40) ? 0 : between(9, 255));
        break;
    case 2:
        b[cells] = (uint8_t)(chance(40) ? 0 : between(33, 255));
        break;
    case 3:
        more = chance(40) ? STEPS + 1 : between(STEPS + 1, 65535);
        b[count] = (uint8_t)more;
        b[count + 1] = (uint8_t)(more >> 8);
        break;
    case 4:                                 /* bad masks */
        b[mask] = 0;
        break;
    case 5:
        b[mask] |= (uint8_t)(1u << between(run->nodes - 1, 7));
        break;
    case 6:                                 /* a field set, used or not */
    case 7:
        if (run->steps)
            b[one + between(1, 7)] = (uint8_t)between(1, 255);
        break;
    case 8:                                 /* bytes left over */
        for (uint32_t i = 0; i < more; i++)
            b[length + i] = (uint8_t)draw32();
        return length + more;
    case 9:                                 /* any byte */
        if (length)
            b[below((uint32_t)length)] = (uint8_t)draw32();
        break;
    case 10:                                /* counts a little off */
        more = below(3);
        one = more == 0 ? 0 : more == 1 ? cells : count;
        if (below(2))
            b[one]++;
        else
            b[one]--;
        break;
    case 11:                                /* a bad cell, cut short itself */
        b[mask] = 0;
        return mask + between(1, 5);
    case 12:                                /* a bad step and a bad end */
        if (run->steps == 0)
            break;
        b[one] = 0;
        b[one + 1] = 1;
        more = below(3);
        return more == 0 ? one + between(2, 8)
               : more == 1 ? one + 8 + below((uint32_t)(sound - one - 7))
                           : length + between(1, 3);
    }
    return length;
}

static void damaged_files(void)
{
    static uint8_t b[ROOM];
    struct run run;
    size_t length;

    put_out(DAMAGED, b, 0);
    for (unsigned i = 0; i < sorts[DAMAGED].runs; i++) {
        run = some_run(&sorts[DAMAGED]);
        memset(b, 0, sizeof b);
        length = to_bytes(&run, b, sizeof b);
        length = damage(b, length, &run);
        /* Twice damaged shows which fault comes first. */
        if (below(2))
            length = damage(b, length, &run);
        put_out(DAMAGED, b, length);
    }
    for (unsigned i = 0; i < 20; i++) {     /* nothing but noise */
        length = below(200);
        for (size_t k = 0; k < length; k++)
            b[k] = (uint8_t)(chance(30) ? draw32() : between(1, 3));
        put_out(DAMAGED, b, length);
    }
}

/* The longest file, whole, a byte short, and with bytes left over. */
static void longest_files(void)
{
    static uint8_t b[ROOM];
    struct sort how = sorts[LONG];
    struct run run;

    how.nodes.lo = NODES;
    how.cells.lo = CELLS;
    how.steps.lo = STEPS;
    run = some_run(&how);
    if (to_bytes(&run, b, sizeof b) != LONGEST)
        abort();
    put_out(LONG, b, LONGEST);
    put_out(DAMAGED, b, LONGEST - 1);
    put_out(DAMAGED, b, LONGEST + 1);
    put_out(DAMAGED, b, ROOM);
    b[LONGEST - STEP_BYTES] = 0;            /* 35 comes before 36 */
    b[LONGEST - 1] = 1;
    put_out(DAMAGED, b, ROOM);
}

/* A short run cut at every place. */
static void prefixes(void)
{
    static uint8_t b[ROOM];
    struct sort how = sorts[0];
    struct run run;
    size_t length;

    how.nodes.lo = how.cells.lo = 2;
    how.steps.lo = how.steps.hi = 20;
    run = some_run(&how);
    length = to_bytes(&run, b, sizeof b);
    for (size_t i = 0; i <= length; i++)
        put_out(PREFIXES, b, i);
}

/* Every kind there can be, with no field set and with each byte set alone. */
static void fields(void)
{
    for (unsigned kind = 0; kind < 256; kind++)
        for (unsigned at = 0; at < STEP_BYTES; at++) {
            uint8_t b[21] = { 1, 0, 0, 0, 0, 1, 1, 5, 0, 0, 0, 1, 0 };

            if (at)
                b[13 + at] = 1;
            b[13] = (uint8_t)kind;
            put_out(FIELDS, b, sizeof b);
        }
}

/* ---- Every fault at every place -------------------------------------------- */

/* A file of plain items, as many as asked for, within the limits or not. It
 * says `count` steps and has `steps`; each is an advance of node 0. */
static size_t plain_file(uint8_t *b, unsigned nodes, unsigned cells,
                         unsigned count, unsigned steps)
{
    uint8_t *at = b;

    memset(b, 0, ROOM);
    *at = (uint8_t)nodes;
    at += 1 + 4 * nodes;
    *at++ = (uint8_t)cells;
    for (unsigned c = 0; c < cells; c++, at += 5)
        *at = 1;
    *at++ = (uint8_t)count;
    *at++ = (uint8_t)(count >> 8);
    for (unsigned i = 0; i < steps; i++, at += STEP_BYTES)
        *at = ADVANCE;
    return (size_t)(at - b);
}

/* As it is, and with one byte left over. */
static void put_both(uint8_t *b, size_t length)
{
    put_out(PLACES, b, length);
    put_out(PLACES, b, length + 1);
}

/* Each count at its limits and one beyond, with what it counts and without. */
static void count_limits(void)
{
    static const unsigned nodes[] = { 0, 1, 8, 9, 255 },
                          cells[] = { 0, 1, 32, 33, 255 },
                          steps[] = { 0, 1, 4095, 4096, 4097, 65535 };
    static uint8_t b[ROOM];

    for (unsigned i = 0; i < sizeof nodes / sizeof *nodes; i++) {
        put_both(b, plain_file(b, nodes[i], 2, 3, 3));
        put_out(PLACES, b, 1);
    }
    for (unsigned i = 0; i < sizeof cells / sizeof *cells; i++) {
        put_both(b, plain_file(b, 2, cells[i], 3, 3));
        put_out(PLACES, b, 1 + 8 + 1);
    }
    for (unsigned i = 0; i < sizeof steps / sizeof *steps; i++) {
        unsigned there = steps[i] < 4097 ? steps[i] : 4097;

        put_both(b, plain_file(b, 2, 2, steps[i], there));
        put_both(b, plain_file(b, 2, 2, steps[i], 0));
    }
}

/* A mask of 0 and each bit of no node, at each cell: few cells for every count
 * of nodes, and all the cells there can be. */
static void mask_places(void)
{
    static uint8_t b[ROOM];

    for (unsigned nodes = 1; nodes <= NODES; nodes++) {
        unsigned cells = nodes == 3 ? CELLS : 4;

        for (unsigned c = 0; c < cells; c++)
            for (unsigned n = nodes; n <= NODES; n++) {
                size_t length = plain_file(b, nodes, cells, 2, 2);

                /* the last turn is the mask that names nobody */
                b[1 + 4 * nodes + 1 + 5 * c] =
                    n < NODES ? (uint8_t)(1u << n | 1) : 0;
                put_out(PLACES, b, length);
            }
    }
}

/* A field that isn't used, at each step: alone, before an end that is missing,
 * and before a byte left over. */
static void field_places(void)
{
    static uint8_t b[ROOM];

    for (unsigned i = 0; i < 20; i++)
        for (unsigned at = 1; at < STEP_BYTES; at++) {
            size_t length = plain_file(b, 2, 2, 20, 20);

            b[length - STEP_BYTES * (20 - i) + at] = 1;
            put_both(b, length);
            put_out(PLACES, b, length - 1);
        }
}

static void places(void)
{
    count_limits();
    mask_places();
    field_places();
}

/* ---- The examples ---------------------------------------------------------- */

static void example(const char *name)
{
    static uint8_t b[ROOM];
    FILE *file = fopen(name, "rb");

    if (!file) {
        fprintf(stderr, "makeruns: can't read %s\n", name);
        exit(2);
    }
    put_out(EXAMPLES, b, fread(b, 1, sizeof b, file));
    fclose(file);
}

/* ---- The table ------------------------------------------------------------- */

static bool line(const char *name, unsigned index, unsigned which)
{
    unsigned total = 0;

    for (unsigned s = 0; s < SORTS; s++)
        total += tally[s].seen[which];
    printf("%-8s %2u %8u", name, index, total);
    for (unsigned s = 0; s < SORTS; s++)
        printf(" %8u", tally[s].seen[which]);
    printf("%s\n", total ? "" : "  NEVER SEEN");
    return total != 0;
}

static bool table(void)
{
    unsigned runs = 0, all_steps = 0;
    bool full = true;

    for (unsigned s = 0; s < SORTS; s++) {
        runs += tally[s].runs;
        all_steps += tally[s].steps;
    }
    printf("%-11s %8s", "", "all");
    for (unsigned s = 0; s < SORTS; s++)
        printf(" %8s", sorts[s].name);
    printf("\n%-11s %8u", "runs", runs);
    for (unsigned s = 0; s < SORTS; s++)
        printf(" %8u", tally[s].runs);
    printf("\n%-11s %8u", "steps", all_steps);
    for (unsigned s = 0; s < SORTS; s++)
        printf(" %8u", tally[s].steps);
    printf("\n");
    for (unsigned c = 0; c <= 7; c++)
        full &= line("answer", c, c);
    full &= line("writer", 5, WRITERS);     /* committed with a number */
    full &= line("stale", 6, STALE);        /* aborted at its return */
    for (unsigned r = 1; r <= 4; r++)
        full &= line("reason", r, REASON + r);
    for (unsigned c = 16; c <= 24; c++)
        full &= line("refusal", c, c);
    for (unsigned c = 32; c <= 36; c++)
        full &= line("fault", c, c);
    return full;
}

/* ---- A run to be timed ----------------------------------------------------- */

static void seed(const char *digits)
{
    /* Spread the seed's bits; xorshift must not start at 0. */
    luck = (strtoull(digits, NULL, 10) + 1) * 0x9e3779b97f4a7c15u;
    luck |= 1;
}

static void print_answers(const uint8_t *bytes, size_t length)
{
    static struct tally seen;
    FILE *nowhere = fopen("/dev/null", "wb");

    if (!nowhere || play(bytes, length, nowhere, count, &seen) != 0)
        exit(2);
    fclose(nowhere);
    printf("%u steps; code and how often:", seen.steps);
    for (unsigned code = 0; code <= 24; code++)
        if (seen.seen[code])
            printf(" %u: %u,", code, seen.seen[code]);
    printf(" writers committed: %u\n", seen.seen[WRITERS]);
}

static int yardstick(const char *name, const char *path)
{
    static uint8_t b[ROOM];
    FILE *file = fopen(path, "wb");

    for (unsigned y = 0; file && y < YARDSTICKS; y++)
        if (strcmp(name, yardsticks[y].name) == 0) {
            struct run run = some_run(&yardsticks[y]);
            size_t length = to_bytes(&run, b, sizeof b);

            print_answers(b, length);
            return fwrite(b, 1, length, file) != length || fclose(file);
        }
    fprintf(stderr, "makeruns: no such sort, or can't write\n");
    return 2;
}

int main(int argc, char **argv)
{
    static uint8_t b[ROOM];
    bool full;

    if (argc == 5 && strcmp(argv[1], "yardstick") == 0) {
        seed(argv[2]);
        return yardstick(argv[3], argv[4]);
    }
    if (argc < 4) {
        fprintf(stderr, "usage: makeruns SEED BATCH EXPECTED EXAMPLE...\n"
                        "       makeruns yardstick SEED SORT FILE\n");
        return 2;
    }
    seed(argv[1]);
    batch = fopen(argv[2], "wb");
    expected = fopen(argv[3], "wb");
    if (!batch || !expected) {
        fprintf(stderr, "makeruns: can't write\n");
        return 2;
    }
    for (unsigned s = 0; s <= LONG; s++)
        for (unsigned i = 0; i < sorts[s].runs; i++) {
            struct run run = some_run(&sorts[s]);

            put_out(s, b, to_bytes(&run, b, sizeof b));
        }
    longest_files();
    damaged_files();
    prefixes();
    fields();
    places();
    for (int i = 4; i < argc; i++)
        example(argv[i]);
    full = table();
    if (ferror(batch) || ferror(expected)) {
        fprintf(stderr, "makeruns: can't write\n");
        return 2;
    }
    if (fclose(batch) || fclose(expected))
        return 2;
    return full ? 0 : 1;
}
