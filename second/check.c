/*
 * Runs a batch (each run file after its length, 4 bytes little-endian) from
 * standard input, prints what the run program prints for each, and holds
 * demand 3 of the brief against every sound run, after every step that can
 * matter and at the end. Each sound file is also written back by the writer.
 *
 * The history is kept from steps and answers alone, as a bystander sees them;
 * the state is looked at only for the holders' newest versions.
 */
#include "second.h"

#include <string.h>

struct handed { unsigned slot, cell; uint32_t s, value; };

struct history {
    struct run run;
    uint32_t writes[SLOTS], value[SLOTS][CELLS];    /* accepted writes */
    unsigned asked[SLOTS];                          /* cell last asked for */
    bool committed[SLOTS];                          /* writers only */
    uint32_t final[SLOTS];
    struct handed handed[STEPS];
    unsigned count;
    const char *wrong;                              /* the first failure */
};

/* All of demand 3, for the run up to now; what is wrong, or null. */
static const char *serial(const struct history *h, const struct state *st)
{
    unsigned order[SLOTS], writers = 0;
    uint32_t copy[CELLS];

    for (unsigned t = 0; t < SLOTS; t++) {          /* sort by number */
        unsigned i = writers;

        if (!h->committed[t])
            continue;
        for (; i > 0 && h->final[order[i - 1]] >= h->final[t]; i--) {
            if (h->final[order[i - 1]] == h->final[t])
                return "two committed writers have one number";
            order[i] = order[i - 1];
        }
        order[i] = t;
        writers++;
    }

    memcpy(copy, h->run.value, sizeof copy);
    for (unsigned i = 0; i <= writers; i++) {
        /* The copy has run the writers before i and no other. */
        for (unsigned k = 0; k < h->count; k++) {
            const struct handed *r = &h->handed[k];

            if ((i == 0 || h->final[order[i - 1]] <= r->s)
                && (i == writers || r->s < h->final[order[i]])
                && r->value != copy[r->cell])
                return "a value handed isn't the copy's at its snapshot";
            if (i < writers && r->slot == order[i]
                && r->value != copy[r->cell])
                return "a committed writer's value isn't the one before it";
        }
        for (unsigned c = 0; i < writers && c < h->run.cells; c++)
            if (h->writes[order[i]] >> c & 1)
                copy[c] = h->value[order[i]][c];
    }

    for (unsigned c = 0; c < h->run.cells; c++)
        for (unsigned n = 0; n < h->run.nodes; n++) {
            const struct chain *chain = &st->chain[c][n];
            bool pending = false;

            if (!(h->run.mask[c] >> n & 1))
                continue;
            for (unsigned t = 0; t < SLOTS; t++)
                pending |= unfinished(st, t, n) && (h->writes[t] >> c & 1);
            if (!pending && chain->at[chain->length - 1].value != copy[c])
                return "a holder's newest isn't the copy's end value";
        }
    return NULL;
}

static void watch(void *with, const struct state *st, struct step x,
                  struct answer a)
{
    struct history *h = with;

    if (a.code >= 7)                /* cut or refused: nothing was said */
        return;
    switch (x.kind) {
    case WRITE:
        h->writes[x.slot] |= (uint32_t)1 << x.cell;
        h->value[x.slot][x.cell] = x.value;
        return;
    case ASK:
        if (a.code == 0)
            h->asked[x.slot] = x.cell;
        return;
    case RETURN:
        if (a.code == 1)
            h->handed[h->count++] = (struct handed){
                x.slot, h->asked[x.slot], a.number, a.value };
        break;
    case DECIDE:
        h->committed[x.slot] = a.code == 5;
        h->final[x.slot] = a.number;
        break;
    case LEARN:
    case APPLY:
        break;
    default:                        /* no other kind moves what is claimed */
        return;
    }
    if (!h->wrong)
        h->wrong = serial(h, st);
}

/* Each way undoes the other: the writer gives the very file back. */
static const char *round_trip(const struct run *run, const uint8_t *bytes,
                              size_t length)
{
    static uint8_t out[LONGEST];
    size_t wrote = 0;

    if (write_run(run, out, length - 1, &wrote) != 37)
        return "the writer takes an output one byte too short";
    if (write_run(run, out, length, &wrote) != 0 || wrote != length
        || memcmp(out, bytes, length) != 0)
        return "the writer doesn't give the file back";
    return NULL;
}

int main(void)
{
    static uint8_t bytes[1 << 16];
    static struct history h;
    uint8_t head[4];
    unsigned runs = 0, sound = 0, failed = 0;
    size_t got;

    while ((got = fread(head, 1, 4, stdin)) == 4) {
        size_t length = head[0] | (size_t)head[1] << 8 | (size_t)head[2] << 16
                        | (size_t)head[3] << 24;

        if (length > sizeof bytes || fread(bytes, 1, length, stdin) != length) {
            fprintf(stderr, "run %u: the batch is cut short\n", runs);
            return 2;
        }
        memset(&h, 0, sizeof h);
        if (read_run(bytes, length, &h.run) == 0) {
            struct state st;
            const char *wrong = round_trip(&h.run, bytes, length);

            fresh(&st, &h.run);
            h.wrong = wrong ? wrong : serial(&h, &st);
            sound++;
        }
        play(bytes, length, stdout, watch, &h);
        if (h.wrong) {
            fprintf(stderr, "run %u: %s\n", runs, h.wrong);
            if (failed++ == 0) {    /* one run in full is enough to go by */
                for (size_t i = 0; i < length; i++)
                    fprintf(stderr, "%02x", bytes[i]);
                fprintf(stderr, "\n");
                play(bytes, length, stderr, NULL, NULL);
            }
        }
        runs++;
    }
    fprintf(stderr, "%u runs, %u sound, %u fail demand 3\n", runs, sound,
            failed);
    return failed || got || fflush(stdout) ? 1 : 0;
}
