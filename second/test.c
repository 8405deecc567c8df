/*
 * The paper's bench examples, and the writer's codes. With the argument
 * `example` it writes the two-node example's run file on standard output;
 * the Makefile compares that with example.run, and its run with example.out.
 */
#include "second.h"

#include <string.h>

static int failures;

static void expect(const char *what, uint32_t got, uint32_t want)
{
    if (got == want)
        return;
    printf("%s: %lu, not %lu\n", what, (unsigned long)got,
           (unsigned long)want);
    failures++;
}

/* Two nodes, the paper's steps. */
static const struct step example[] = {
    { BEGIN, 0, 0, 0, 1 },   { ASK, 0, 0, 0, 0 },    { SERVE, 0, 0, 0, 0 },
    { RETURN, 0, 0, 0, 0 },  { WRITE, 0, 0, 0, 11 }, { WRITE, 0, 0, 1, 21 },
    { COMMIT, 0, 0, 0, 0 },  { PREPARE, 0, 0, 0, 0 }, { PREPARE, 0, 1, 0, 0 },
    { DECIDE, 0, 0, 0, 0 },  { LEARN, 0, 0, 0, 0 },  { APPLY, 0, 0, 0, 0 },
    { BEGIN, 1, 0, 0, 0 },   { ASK, 1, 0, 0, 0 },    { SERVE, 1, 0, 0, 0 },
    { RETURN, 1, 0, 0, 0 },  { ASK, 1, 1, 1, 0 },    { SERVE, 1, 0, 0, 0 },
    { LEARN, 0, 1, 0, 0 },   { SERVE, 1, 0, 0, 0 },  { APPLY, 0, 1, 0, 0 },
    { SERVE, 1, 0, 0, 0 },   { RETURN, 1, 0, 0, 0 }, { COMMIT, 1, 0, 0, 0 },
};
enum { EXAMPLE = sizeof example / sizeof example[0] };

static uint8_t example_steps[EXAMPLE * STEP_BYTES];

static struct run example_run(void)
{
    struct run run = { .nodes = 2, .cells = 2, .steps = EXAMPLE,
                       .mask = { 3, 2 }, .value = { 10, 20 },
                       .step = example_steps };

    for (unsigned i = 0; i < EXAMPLE; i++)
        put_step(example_steps + i * STEP_BYTES, example[i]);
    return run;
}

static void proposals(void)
{
    static const uint32_t row[][3] = {      /* node, counter, result */
        { 0, 0, 8 }, { 1, 0, 1 }, { 3, 2, 3 }, { 3, 3, 11 }, { 3, 10, 11 },
        { 7, 4294967294u, 4294967295u }, { 7, 4294967295u, 0 },
        { 0, 4294967288u, 0 }, { 0, 4294967287u, 4294967288u },
    };

    for (size_t i = 0; i < sizeof row / sizeof row[0]; i++)
        expect("proposal", proposal(row[i][0], row[i][1]), row[i][2]);
}

/* Counters 5, 4, 0: two writers that meet at node 1. */
static void two_writers(void)
{
    static const struct { struct step x; uint32_t code, number; } row[] = {
        { { BEGIN, 0, 0, 0, 1 }, 0, 0 },   { { WRITE, 0, 0, 0, 7 }, 0, 0 },
        { { COMMIT, 0, 0, 0, 0 }, 0, 0 },  { { BEGIN, 1, 2, 0, 1 }, 0, 0 },
        { { WRITE, 1, 0, 1, 8 }, 0, 0 },   { { COMMIT, 1, 0, 0, 0 }, 0, 0 },
        { { PREPARE, 0, 1, 0, 0 }, 3, 9 }, { { PREPARE, 1, 1, 0, 0 }, 3, 17 },
        { { PREPARE, 0, 0, 0, 0 }, 3, 8 }, { { PREPARE, 1, 2, 0, 0 }, 3, 2 },
        { { DECIDE, 0, 0, 0, 0 }, 5, 9 },  { { DECIDE, 1, 0, 0, 0 }, 5, 17 },
    };
    struct run run = { .nodes = 3, .cells = 2, .counter = { 5, 4, 0 },
                       .mask = { 3, 6 } };
    struct state st;

    fresh(&st, &run);
    for (size_t i = 0; i < sizeof row / sizeof row[0]; i++) {
        struct answer a = step(&st, row[i].x);

        expect("two writers, code", a.code, row[i].code);
        expect("two writers, number", a.number, row[i].number);
    }
}

static void faults(void)
{
    static const uint8_t none[] = { 0 }, nine[] = { 9 };
    struct run run;

    expect("empty file", (uint32_t)read_run(none, 0, &run), 32);
    expect("0 nodes", (uint32_t)read_run(none, 1, &run), 33);
    expect("9 nodes", (uint32_t)read_run(nine, 1, &run), 33);
}

/* A refusing writer writes nothing, a willing one no byte beyond the file. */
static void writer_gives(const char *what, const struct run *run, size_t room,
                         int code, size_t fills)
{
    uint8_t out[512];
    size_t length = 0, touched = 0;

    memset(out, 0xee, sizeof out);
    expect(what, (uint32_t)write_run(run, out, room, &length), (uint32_t)code);
    for (size_t i = 0; i < sizeof out; i++)
        if (out[i] != 0xee)
            touched = i + 1;
    expect(what, (uint32_t)touched, (uint32_t)fills);
    expect(what, (uint32_t)length, (uint32_t)fills);
}

static void writer(void)
{
    const struct run good = example_run();
    const size_t length = 1 + 8 + 1 + 10 + 2 + sizeof example_steps;
    struct run bad;

    writer_gives("example", &good, 512, 0, length);
    writer_gives("just room", &good, length, 0, length);
    writer_gives("too short", &good, length - 1, 37, 0);
    bad = good, bad.nodes = 9, bad.mask[0] = 0;
    writer_gives("node count before mask", &bad, 0, 33, 0);
    bad = good, bad.cells = 0;
    writer_gives("cell count", &bad, 512, 33, 0);
    bad = good, bad.steps = STEPS + 1, bad.mask[1] = 4;
    writer_gives("mask before step count", &bad, 0, 34, 0);
    bad.mask[1] = 2;
    writer_gives("step count", &bad, 512, 33, 0);
    example_steps[EXAMPLE * STEP_BYTES - 1] = 1;
    writer_gives("fields before room", &good, 0, 35, 0);
}

/* A text that doesn't fit is not written; its length is told all the same. */
static void text_in_rooms(void)
{
    static uint8_t file[LONGEST];
    static char whole[LONGEST_TEXT], part[LONGEST_TEXT];
    struct run run = example_run();
    size_t length = 0, size;

    expect("file", (uint32_t)write_run(&run, file, sizeof file, &length), 0);
    size = replay(file, length, whole, sizeof whole);
    memset(part, 0, sizeof part);
    expect("too little room", (uint32_t)replay(file, length, part, size - 1),
           (uint32_t)size);
    expect("nothing written", (uint32_t)(part[0] != 0), 0);
    expect("just room", (uint32_t)replay(file, length, part, size),
           (uint32_t)size);
    expect("all written", (uint32_t)(memcmp(part, whole, size) != 0), 0);
    expect("nothing beyond", (uint32_t)(part[size] != 0), 0);
}

int main(int argc, char **argv)
{
    static uint8_t out[LONGEST];
    size_t length = 0;

    if (argc == 2 && strcmp(argv[1], "example") == 0) {
        struct run run = example_run();

        if (write_run(&run, out, sizeof out, &length) != 0)
            return 1;
        return fwrite(out, 1, length, stdout) != length || fflush(stdout);
    }
    proposals();
    two_writers();
    faults();
    text_in_rooms();
    writer();
    printf("examples: %d wrong\n", failures);
    return failures != 0;
}
