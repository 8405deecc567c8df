/*
 * A second program for the paper: run file, state, steps.
 *
 * It exists to be compared, byte for byte, with the proved program. It is
 * therefore written from the paper's words alone, and prefers the plain form
 * of a rule to the quick one. Nothing is allocated: a run's whole state is one
 * struct of fixed size, changed where it stands.
 */
#ifndef SECOND_H
#define SECOND_H

#include <stdbool.h>
#include <stddef.h>
#include <stdint.h>
#include <stdio.h>

enum {
    NODES = 8, CELLS = 32, SLOTS = 32, VERSIONS = 8, STEPS = 4096,
    STEP_BYTES = 8,
    LONGEST = 1 + 4 * NODES + 1 + 5 * CELLS + 2 + STEP_BYTES * STEPS,
    LINE = 30,                          /* a step's longest line */
    LONGEST_TEXT = 14 + LINE * STEPS    /* "run 8 32 4096" and its lines */
};

enum kind {
    BEGIN = 1, WRITE, ASK, SERVE, RETURN, COMMIT, PREPARE, DECIDE, GIVE_UP,
    LEARN, APPLY, ADVANCE, ABANDON, CUT = 128
};
enum stage { UNUSED, OPEN, ASKING, SERVED, VOTING, COMMITTED, ABORTED };
enum standing { NOTHING, SENT, YES, NO, TO_APPLY, FINISHED };

/* The four fields of a step that a kind may use. */
enum { USES_SLOT = 1, USES_NODE = 2, USES_CELL = 4, USES_VALUE = 8 };

struct step { uint8_t kind, slot, node, cell; uint32_t value; };
struct answer { uint32_t code, number, value; };

/* What a run file says. `step` is the steps section itself, 8 bytes a step,
 * where it stands in the caller's bytes. Counts are wide enough to be wrong. */
struct run {
    unsigned nodes, cells, steps;
    uint32_t counter[NODES];
    uint8_t mask[CELLS];
    uint32_t value[CELLS];
    const uint8_t *step;
};

struct node { uint32_t counter, commit, seen; };
struct version { uint32_t number, value; };
struct chain { unsigned length; struct version at[VERSIONS]; };
struct flight { enum standing is; uint32_t number; };

struct slot {
    enum stage stage;
    unsigned origin;
    bool update;
    bool fixed;               /* the snapshot is fixed (it may be 0) */
    uint32_t snapshot;
    uint32_t reads, writes;   /* sets of cells, bit c for cell c */
    uint32_t buffer[CELLS];   /* the last value written, where in `writes` */
    unsigned asked, cell;     /* the read under way: of whom, of what, */
    uint32_t carried;         /*   what the ask carries, */
    bool has_s;               /*   whether a first serve has chosen s, */
    uint32_t s, noted;        /*   s and the value noted, */
    bool stale;               /*   and its mark */
    uint32_t final;           /* of a committed transaction */
};

struct state {
    unsigned nodes, cells;
    uint8_t mask[CELLS];
    struct node node[NODES];
    struct chain chain[CELLS][NODES];
    struct slot slot[SLOTS];
    struct flight flight[SLOTS][NODES];
};

/* The fields that a kind, whole or cut, uses; an unknown kind uses none. */
unsigned uses(uint8_t kind);

/* The least number above the counter that leaves `node` when divided by 8;
 * 0 if there is none (0 is above no counter). */
uint32_t proposal(unsigned node, uint32_t counter);

/* Is T's entry at n unfinished: a yes vote not yet applied or dropped? */
bool unfinished(const struct state *st, unsigned t, unsigned n);

void fresh(struct state *st, const struct run *run);
struct answer step(struct state *st, struct step x);

/* 0, or the first fault by place, 32 to 36. On a fault *run is of no use. */
int read_run(const uint8_t *bytes, size_t length, struct run *run);

/* 0 and the file's length, or 33 to 35 or 37 with nothing written. */
int write_run(const struct run *run, uint8_t *out, size_t room, size_t *length);

struct step get_step(const uint8_t bytes[STEP_BYTES]);
void put_step(uint8_t bytes[STEP_BYTES], struct step x);

/* What the run program prints for a file, into `out`; gives the text's length,
 * and writes nothing where the room is less. */
size_t replay(const uint8_t *bytes, size_t length, char *out, size_t room);

/* The same, printed; gives the fault or 0. `watch`, if any, sees every step
 * with its answer and the state after it. */
typedef void watcher(void *with, const struct state *st, struct step x,
                     struct answer a);
int play(const uint8_t *bytes, size_t length, FILE *out, watcher *watch,
         void *with);

#endif
