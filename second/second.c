/*
 * The paper's rules: the state and its steps (rules A to E, Cut, answers,
 * refusals), the run file's reader and writer, and the printed lines.
 * See second.h for what this program is for.
 */
#include "second.h"

#include <assert.h>
#include <string.h>

/* ---- Steps: the table of fields, answers ------------------------------- */

unsigned uses(uint8_t kind)
{
    static const uint8_t table[] = {
        [BEGIN] = USES_SLOT | USES_NODE | USES_VALUE,
        [WRITE] = USES_SLOT | USES_CELL | USES_VALUE,
        [ASK] = USES_SLOT | USES_NODE | USES_CELL,
        [SERVE] = USES_SLOT,
        [RETURN] = USES_SLOT,
        [COMMIT] = USES_SLOT,
        [PREPARE] = USES_SLOT | USES_NODE,
        [DECIDE] = USES_SLOT,
        [GIVE_UP] = USES_SLOT,
        [LEARN] = USES_SLOT | USES_NODE,
        [APPLY] = USES_NODE,
        [ADVANCE] = USES_NODE,
        [ABANDON] = USES_SLOT,
    };
    unsigned whole = kind & (CUT - 1);

    return whole < sizeof table ? table[whole] : 0;
}

static struct answer answer(uint32_t code, uint32_t number, uint32_t value)
{
    return (struct answer){ code, number, value };
}

/* The tables' names for their codes. */
static struct answer done(uint32_t number) { return answer(0, number, 0); }
static struct answer aborted(void) { return answer(6, 0, 0); }
static struct answer refused(uint32_t code) { return answer(code, 0, 0); }

/* ---- Small questions about the state ----------------------------------- */

static uint32_t bit(unsigned i) { return (uint32_t)1 << i; }

static void rise(uint32_t *to, uint32_t least)
{
    if (*to < least)
        *to = least;
}

static bool holds(const struct state *st, unsigned n, unsigned cell)
{
    return st->mask[cell] & bit(n);
}

/* The set of cells held at n. */
static uint32_t held(const struct state *st, unsigned n)
{
    uint32_t set = 0;

    for (unsigned c = 0; c < st->cells; c++)
        if (holds(st, n, c))
            set |= bit(c);
    return set;
}

static uint32_t newest(const struct state *st, unsigned n, unsigned cell)
{
    const struct chain *chain = &st->chain[cell][n];

    return chain->at[chain->length - 1].number;
}

bool unfinished(const struct state *st, unsigned t, unsigned n)
{
    enum standing is = st->flight[t][n].is;

    return is == YES || is == TO_APPLY;
}

uint32_t proposal(unsigned node, uint32_t counter)
{
    for (uint64_t p = (uint64_t)counter + 1; p <= UINT32_MAX; p++)
        if (p % 8 == node)
            return (uint32_t)p;
    return 0;
}

/* ---- The thirteen kinds -------------------------------------------------
 *
 * Each function is entered with its used fields in range (16 to 18 passed)
 * and tests 19 and above, in ascending order, before it changes anything.
 */

static struct answer begin(struct state *st, struct step x)
{
    struct slot *t = &st->slot[x.slot];

    if (t->stage != UNUSED)
        return refused(19);
    if (x.value > 1)
        return refused(20);
    *t = (struct slot){ .stage = OPEN, .origin = x.node, .update = x.value };
    return done(0);
}

static struct answer write_cell(struct state *st, struct step x)
{
    struct slot *t = &st->slot[x.slot];

    if (t->stage != OPEN)
        return refused(19);
    if (!t->update)
        return refused(21);
    t->writes |= bit(x.cell);
    t->buffer[x.cell] = x.value;
    return done(0);
}

static struct answer ask(struct state *st, struct step x)
{
    struct slot *t = &st->slot[x.slot];

    if (t->stage != OPEN)
        return refused(19);
    /* B, end: an own write fixes no snapshot and joins nothing. */
    if (t->writes & bit(x.cell))
        return answer(1, 0, t->buffer[x.cell]);
    if (!holds(st, x.node, x.cell)
        || (holds(st, t->origin, x.cell) && x.node != t->origin))
        return refused(22);
    /* A: what the ask carries, as it stands now. */
    t->carried = t->fixed ? t->snapshot : st->node[t->origin].commit;
    t->has_s = false;
    t->asked = x.node;
    t->cell = x.cell;
    t->stage = ASKING;
    return done(0);
}

/* Rule A. */
static struct answer serve(struct state *st, struct step x)
{
    struct slot *t = &st->slot[x.slot];

    if (t->stage != ASKING)
        return refused(19);

    unsigned n = t->asked;
    struct node *holder = &st->node[n];
    const struct chain *chain = &st->chain[t->cell][n];

    if (!t->has_s) {
        t->s = t->carried;
        if (!t->fixed)
            rise(&t->s, holder->commit);
        t->has_s = true;
    }
    rise(&holder->counter, t->s);
    rise(&holder->seen, t->s);
    for (unsigned u = 0; u < SLOTS; u++)
        if (unfinished(st, u, n) && (st->slot[u].writes & bit(t->cell))
            && st->flight[u][n].number <= t->s)
            return answer(2, t->s, 0);
    /* Chains ascend from 0, so the last one that fits is the newest. */
    for (unsigned v = 0; v < chain->length; v++)
        if (chain->at[v].number <= t->s)
            t->noted = chain->at[v].value;
    t->stale = newest(st, n, t->cell) > t->s;
    t->stage = SERVED;
    return done(t->s);
}

/* Rule B; `return` is a word of C. */
static struct answer give_back(struct state *st, struct step x)
{
    struct slot *t = &st->slot[x.slot];

    if (t->stage != SERVED)
        return refused(19);
    rise(&st->node[t->origin].counter, t->s);
    rise(&st->node[t->origin].seen, t->s);
    if (t->update && t->stale) {
        t->stage = ABORTED;
        return aborted();
    }
    t->fixed = true;
    t->snapshot = t->s;
    t->reads |= bit(t->cell);
    t->stage = OPEN;
    return answer(1, t->s, t->noted);
}

static struct answer commit(struct state *st, struct step x)
{
    struct slot *t = &st->slot[x.slot];

    if (t->stage != OPEN)
        return refused(19);
    if (!t->writes) {
        t->stage = COMMITTED;
        t->final = 0;
        return answer(5, 0, 0);
    }
    for (unsigned n = 0; n < st->nodes; n++)
        if (held(st, n) & (t->reads | t->writes))
            st->flight[x.slot][n] = (struct flight){ SENT, 0 };
    t->stage = VOTING;
    return done(0);
}

/* Rule C: the first failing test, or 0. */
static uint32_t objection(const struct state *st, unsigned t, unsigned n)
{
    uint32_t here = held(st, n);
    uint32_t reads = st->slot[t].reads & here;
    uint32_t writes = st->slot[t].writes & here;

    for (unsigned u = 0; u < SLOTS; u++)
        if (u != t && unfinished(st, u, n)
            && ((writes & (st->slot[u].reads | st->slot[u].writes))
                || (reads & st->slot[u].writes)))
            return 1;
    for (unsigned c = 0; c < st->cells; c++)
        if ((reads & bit(c)) && newest(st, n, c) > st->slot[t].snapshot)
            return 2;
    for (unsigned c = 0; c < st->cells; c++)
        if ((writes & bit(c)) && st->chain[c][n].length == VERSIONS)
            return 3;
    if (proposal(n, st->node[n].counter) == 0)
        return 4;
    return 0;
}

static struct answer prepare(struct state *st, struct step x)
{
    struct flight *entry = &st->flight[x.slot][x.node];
    uint32_t *counter = &st->node[x.node].counter;

    if (st->slot[x.slot].stage != VOTING || entry->is != SENT)
        return refused(19);

    uint32_t reason = objection(st, x.slot, x.node);

    if (reason) {
        *entry = (struct flight){ NO, 0 };
        return answer(4, reason, 0);
    }
    *counter = proposal(x.node, *counter);
    *entry = (struct flight){ YES, *counter };
    return answer(3, *counter, 0);
}

static struct answer decide(struct state *st, struct step x)
{
    struct slot *t = &st->slot[x.slot];
    const struct flight *entry = st->flight[x.slot];
    bool no = false, lacking = false;
    uint32_t largest = 0;

    if (t->stage != VOTING)
        return refused(19);
    for (unsigned n = 0; n < st->nodes; n++) {
        no |= entry[n].is == NO;
        lacking |= entry[n].is == SENT;
        if (entry[n].is == YES)
            rise(&largest, entry[n].number);
    }
    if (no) {
        t->stage = ABORTED;
        return aborted();
    }
    if (lacking)
        return refused(24);
    t->stage = COMMITTED;
    t->final = largest;
    return answer(5, largest, 0);
}

static struct answer give_up(struct state *st, struct step x)
{
    if (st->slot[x.slot].stage != VOTING)
        return refused(19);
    st->slot[x.slot].stage = ABORTED;
    return aborted();
}

/* Rule D. Only a transaction that voted has entries, so an unlearned entry
 * with a decided stage says "decided after voting, n involved". */
static struct answer learn(struct state *st, struct step x)
{
    struct slot *t = &st->slot[x.slot];
    struct flight *entry = &st->flight[x.slot][x.node];

    if ((t->stage != COMMITTED && t->stage != ABORTED)
        || (entry->is != SENT && entry->is != YES && entry->is != NO))
        return refused(19);
    if (t->stage == ABORTED) {
        *entry = (struct flight){ FINISHED, 0 };
        return done(0);
    }
    *entry = (struct flight){ TO_APPLY, t->final };
    rise(&st->node[x.node].counter, t->final);
    return done(t->final);
}

/* The slot of n's unfinished entry with the least number; SLOTS if none. */
static unsigned least(const struct state *st, unsigned n)
{
    unsigned found = SLOTS;

    for (unsigned u = 0; u < SLOTS; u++)
        if (unfinished(st, u, n)
            && (found == SLOTS
                || st->flight[u][n].number < st->flight[found][n].number))
            found = u;
    return found;
}

/* Rule E. */
static struct answer apply(struct state *st, struct step x)
{
    unsigned n = x.node, u = least(st, n);

    if (u == SLOTS || st->flight[u][n].is != TO_APPLY)
        return refused(23);

    const struct slot *t = &st->slot[u];
    uint32_t number = st->flight[u][n].number;

    for (unsigned c = 0; c < st->cells; c++)
        if ((t->writes & bit(c)) && holds(st, n, c)) {
            struct chain *chain = &st->chain[c][n];

            assert(chain->length < VERSIONS);   /* whole: there is room */
            chain->at[chain->length++] =
                (struct version){ number, t->buffer[c] };
        }
    st->node[n].commit = number;
    st->flight[u][n] = (struct flight){ FINISHED, 0 };
    return done(number);
}

static struct answer advance(struct state *st, struct step x)
{
    struct node *node = &st->node[x.node];

    if (least(st, x.node) != SLOTS || node->seen <= node->commit)
        return refused(23);
    node->commit = node->seen;
    return done(0);
}

static struct answer abandon(struct state *st, struct step x)
{
    struct slot *t = &st->slot[x.slot];

    if (t->stage != OPEN && t->stage != ASKING && t->stage != SERVED)
        return refused(19);
    t->stage = ABORTED;
    return aborted();
}

static struct answer whole(struct state *st, struct step x)
{
    switch (x.kind & (CUT - 1)) {
    case BEGIN: return begin(st, x);
    case WRITE: return write_cell(st, x);
    case ASK: return ask(st, x);
    case SERVE: return serve(st, x);
    case RETURN: return give_back(st, x);
    case COMMIT: return commit(st, x);
    case PREPARE: return prepare(st, x);
    case DECIDE: return decide(st, x);
    case GIVE_UP: return give_up(st, x);
    case LEARN: return learn(st, x);
    case APPLY: return apply(st, x);
    case ADVANCE: return advance(st, x);
    case ABANDON: return abandon(st, x);
    default: return refused(16);
    }
}

struct answer step(struct state *st, struct step x)
{
    unsigned used = uses(x.kind);

    if (!used)                          /* every known kind uses a field */
        return refused(16);
    if ((used & USES_NODE) && x.node >= st->nodes)
        return refused(17);
    if (((used & USES_SLOT) && x.slot >= SLOTS)
        || ((used & USES_CELL) && x.cell >= st->cells))
        return refused(18);
    if (x.kind < CUT)
        return whole(st, x);

    /* Cut: do the whole step, keep the counters it wrote, put all else back. */
    struct state before = *st;
    struct answer a = whole(st, x);

    if (a.code >= 16)
        return a;
    for (unsigned n = 0; n < NODES; n++)
        before.node[n].counter = st->node[n].counter;
    *st = before;
    return answer(7, 0, 0);
}

void fresh(struct state *st, const struct run *run)
{
    memset(st, 0, sizeof *st);          /* slots unused, flight table idle */
    st->nodes = run->nodes;
    st->cells = run->cells;
    for (unsigned n = 0; n < run->nodes; n++)
        st->node[n].counter = run->counter[n];
    for (unsigned c = 0; c < run->cells; c++) {
        st->mask[c] = run->mask[c];
        for (unsigned n = 0; n < run->nodes; n++)
            if (holds(st, n, c)) {
                st->chain[c][n].length = 1;
                st->chain[c][n].at[0] = (struct version){ 0, run->value[c] };
            }
    }
}

/* ---- The run file ------------------------------------------------------- */

static uint32_t get32(const uint8_t *b)
{
    return b[0] | (uint32_t)b[1] << 8 | (uint32_t)b[2] << 16
           | (uint32_t)b[3] << 24;
}

static void put32(uint8_t *b, uint32_t v)
{
    for (unsigned i = 0; i < 4; i++)
        b[i] = (uint8_t)(v >> 8 * i);
}

struct step get_step(const uint8_t b[STEP_BYTES])
{
    return (struct step){ b[0], b[1], b[2], b[3], get32(b + 4) };
}

void put_step(uint8_t b[STEP_BYTES], struct step x)
{
    b[0] = x.kind;
    b[1] = x.slot;
    b[2] = x.node;
    b[3] = x.cell;
    put32(b + 4, x.value);
}

/* 34: a holder mask is never zero and names only nodes of the run. */
static bool bad_mask(uint8_t mask, unsigned nodes)
{
    return mask == 0 || mask >> nodes != 0;
}

/* 35: a field that the kind doesn't use isn't zero. */
static bool bad_fields(struct step x)
{
    unsigned used = uses(x.kind);

    return (!(used & USES_SLOT) && x.slot) || (!(used & USES_NODE) && x.node)
           || (!(used & USES_CELL) && x.cell)
           || (!(used & USES_VALUE) && x.value);
}

struct scanner { const uint8_t *bytes; size_t length, place; };

/* The next item of so many bytes, or null (32) if it isn't wholly there. */
static const uint8_t *item(struct scanner *in, size_t size)
{
    if (in->length - in->place < size)
        return NULL;
    in->place += size;
    return in->bytes + in->place - size;
}

int read_run(const uint8_t *bytes, size_t length, struct run *run)
{
    struct scanner in = { bytes, length, 0 };
    const uint8_t *b;

    if (!(b = item(&in, 1)))
        return 32;
    run->nodes = b[0];
    if (run->nodes < 1 || run->nodes > NODES)
        return 33;
    for (unsigned n = 0; n < run->nodes; n++) {
        if (!(b = item(&in, 4)))
            return 32;
        run->counter[n] = get32(b);
    }

    if (!(b = item(&in, 1)))
        return 32;
    run->cells = b[0];
    if (run->cells < 1 || run->cells > CELLS)
        return 33;
    for (unsigned c = 0; c < run->cells; c++) {
        if (!(b = item(&in, 5)))
            return 32;
        if (bad_mask(b[0], run->nodes))
            return 34;
        run->mask[c] = b[0];
        run->value[c] = get32(b + 1);
    }

    if (!(b = item(&in, 2)))
        return 32;
    run->steps = b[0] | (unsigned)b[1] << 8;
    if (run->steps > STEPS)
        return 33;
    run->step = bytes + in.place;
    for (unsigned i = 0; i < run->steps; i++) {
        if (!(b = item(&in, STEP_BYTES)))
            return 32;
        if (bad_fields(get_step(b)))
            return 35;
    }
    return in.place < in.length ? 36 : 0;
}

int write_run(const struct run *run, uint8_t *out, size_t room, size_t *length)
{
    /* All is judged before the first byte is written. */
    if (run->nodes < 1 || run->nodes > NODES)
        return 33;
    if (run->cells < 1 || run->cells > CELLS)
        return 33;
    for (unsigned c = 0; c < run->cells; c++)
        if (bad_mask(run->mask[c], run->nodes))
            return 34;
    if (run->steps > STEPS)
        return 33;
    for (unsigned i = 0; i < run->steps; i++)
        if (bad_fields(get_step(run->step + STEP_BYTES * i)))
            return 35;

    size_t need = 1 + 4 * run->nodes + 1 + 5 * run->cells + 2
                  + STEP_BYTES * run->steps;

    if (room < need)
        return 37;
    *out++ = (uint8_t)run->nodes;
    for (unsigned n = 0; n < run->nodes; n++, out += 4)
        put32(out, run->counter[n]);
    *out++ = (uint8_t)run->cells;
    for (unsigned c = 0; c < run->cells; c++, out += 4) {
        *out++ = run->mask[c];
        put32(out, run->value[c]);
    }
    *out++ = (uint8_t)run->steps;
    *out++ = (uint8_t)(run->steps >> 8);
    for (unsigned i = 0; i < run->steps; i++, out += STEP_BYTES)
        put_step(out, get_step(run->step + STEP_BYTES * i));
    *length = need;
    return 0;
}

/* ---- The run program's lines -------------------------------------------- */

/* A number in decimal and the byte after it; gives the place past both. */
static char *put_number(char *out, uint32_t x, char after)
{
    char digits[10];
    unsigned n = 0;

    do
        digits[n++] = (char)('0' + x % 10);
    while (x /= 10);
    while (n)
        *out++ = digits[--n];
    *out++ = after;
    return out;
}

static char *put_word(char *out, const char *word)
{
    while (*word)
        *out++ = *word++;
    return out;
}

/* The first line: a run's counts, or the fault. Gives its length. */
static size_t put_front(char *out, int fault, const struct run *run)
{
    char *at;

    if (fault) {
        at = put_number(put_word(out, "refused "), (uint32_t)fault, '\n');
    } else {
        at = put_number(put_word(out, "run "), run->nodes, ' ');
        at = put_number(at, run->cells, ' ');
        at = put_number(at, run->steps, '\n');
    }
    return (size_t)(at - out);
}

static size_t put_line(char *out, unsigned i, struct answer a)
{
    char *at = put_number(out, i, ' ');

    at = put_number(at, a.code, ' ');
    at = put_number(at, a.number, ' ');
    at = put_number(at, a.value, '\n');
    return (size_t)(at - out);
}

/* The lines of a run's steps, or, with no place for them, only their length. */
static size_t lines(const struct run *run, char *out)
{
    char line[LINE];
    size_t size = 0;
    struct state st;

    fresh(&st, run);
    for (unsigned i = 0; i < run->steps; i++) {
        struct answer a = step(&st, get_step(run->step + STEP_BYTES * i));

        size += put_line(out ? out + size : line, i, a);
    }
    return size;
}

size_t replay(const uint8_t *bytes, size_t length, char *out, size_t room)
{
    struct run run;
    int fault = read_run(bytes, length, &run);
    char line[LINE];
    size_t front = put_front(line, fault, &run), size = front;

    if (!fault && room < LONGEST_TEXT)
        size += lines(&run, NULL);
    if (room < size)
        return size;
    memcpy(out, line, front);
    return fault ? front : front + lines(&run, out + front);
}

int play(const uint8_t *bytes, size_t length, FILE *out, watcher *watch,
         void *with)
{
    struct run run;
    struct state st;
    char line[LINE];
    int fault = read_run(bytes, length, &run);

    fwrite(line, 1, put_front(line, fault, &run), out);
    if (fault)
        return fault;
    fresh(&st, &run);
    for (unsigned i = 0; i < run.steps; i++) {
        struct step x = get_step(run.step + STEP_BYTES * i);
        struct answer a = step(&st, x);

        fwrite(line, 1, put_line(line, i, a), out);
        if (watch)
            watch(with, &st, x, a);
    }
    return 0;
}
