/*
 * The yardstick: the proved library and the plain program in one process, on
 * the same files, compiled by the same compiler at the same level.
 *
 *     bench EXAMPLE BUSY REFUSED
 *
 * Both are first held to give the same bytes. Then each is timed in turns, by
 * the process's own time, and the least time of its turns counts: whatever else
 * the machine does only adds.
 */
#include "cilumbara.h"
#include "second.h"

#include <pthread.h>
#include <stdlib.h>
#include <string.h>
#include <time.h>

struct file { const char *name; size_t length, steps; uint8_t bytes[LONGEST]; };

static struct file example, busy, refused, part;
static uint8_t text[LONGEST_TEXT], other[LONGEST_TEXT];

static void fail(const char *what, const char *name)
{
    fprintf(stderr, "bench: %s: %s\n", what, name);
    exit(1);
}

/* ---- The same work, twice ------------------------------------------------ */

typedef size_t work(const struct file *file);

static size_t proved_replay(const struct file *file)
{
    return cilumbara_replay(file->bytes, file->length, text, sizeof text);
}

static size_t plain_replay(const struct file *file)
{
    return replay(file->bytes, file->length, (char *)text, sizeof text);
}

static size_t proved_check(const struct file *file)
{
    return cilumbara_check(file->bytes, file->length);
}

static size_t plain_check(const struct file *file)
{
    struct run run;

    return (size_t)read_run(file->bytes, file->length, &run);
}

static size_t proved_rewrite(const struct file *file)
{
    return cilumbara_rewrite(file->bytes, file->length, text, sizeof text);
}

static size_t plain_rewrite(const struct file *file)
{
    struct run run;
    size_t length;
    int fault = read_run(file->bytes, file->length, &run);

    return (size_t)(fault ? fault
                          : write_run(&run, text, sizeof text, &length));
}

/* ---- The files ------------------------------------------------------------ */

/* Where the count of steps stands. */
static size_t count_place(const struct file *file)
{
    size_t cells = 1 + 4 * (size_t)file->bytes[0];

    return cells + 1 + 5 * (size_t)file->bytes[cells];
}

static void load(struct file *file, const char *name)
{
    FILE *in = fopen(name, "rb");
    size_t at;

    if (!in)
        fail("can't read", name);
    file->name = name;
    file->length = fread(file->bytes, 1, sizeof file->bytes, in);
    fclose(in);
    if (cilumbara_check(file->bytes, file->length) != 0)
        fail("not a sound file", name);
    at = count_place(file);
    file->steps = file->bytes[at] | (size_t)file->bytes[at + 1] << 8;
}

/* The run's first steps, as a file of its own. */
static void cut(struct file *to, const struct file *from, size_t steps)
{
    size_t at = count_place(from);

    *to = *from;
    to->steps = steps;
    to->bytes[at] = (uint8_t)steps;
    to->bytes[at + 1] = (uint8_t)(steps >> 8);
    to->length = at + 2 + STEP_BYTES * steps;
}

static void same(const struct file *file, work *proved, work *plain)
{
    size_t size;

    memset(text, 0, sizeof text);
    size = proved(file);
    memcpy(other, text, sizeof text);
    memset(text, 0, sizeof text);
    if (plain(file) != size || memcmp(text, other, sizeof text) != 0)
        fail("the two programs differ", file->name);
}

/* ---- Time ------------------------------------------------------------------ */

static double now(void)
{
    struct timespec t;

    clock_gettime(CLOCK_PROCESS_CPUTIME_ID, &t);
    return (double)t.tv_sec * 1e9 + (double)t.tv_nsec;
}

static double timed(work *of, const struct file *file, unsigned long times)
{
    double start = now();

    for (unsigned long i = 0; i < times; i++)
        of(file);
    return (now() - start) / (double)times;
}

enum { TURNS = 100 };

/* Prints a line: nanoseconds for each of `units`, and the ratio. */
static void line(const char *what, const struct file *file, work *proved,
                 work *plain, size_t units)
{
    unsigned long times = 1;
    double best = 0, best_plain = 0;

    same(file, proved, plain);
    while (timed(proved, file, times) * (double)times < 4e6)     /* 4 ms */
        times *= 2;
    for (unsigned i = 0; i < TURNS; i++) {
        double a = timed(proved, file, times), b = timed(plain, file, times);

        best = i && best < a ? best : a;
        best_plain = i && best_plain < b ? best_plain : b;
    }
    printf("%-48s %9.2f %9.2f %7.2f\n", what, best / (double)units,
           best_plain / (double)units, best / best_plain);
    fflush(stdout);
}

/* ---- Stack ------------------------------------------------------------------ */

enum { STACK = 1 << 20, PAINT = 0xa5 };

static _Alignas(4096) unsigned char stack[STACK];
static work *to_run;
static const struct file *run_on;

static void *on_stack(void *nothing)
{
    if (to_run)
        to_run(run_on);
    return nothing;
}

/* How much of a painted stack a thread leaves marks on. */
static size_t marked(work *of, const struct file *file)
{
    pthread_attr_t how;
    pthread_t thread;
    size_t clean = 0;

    memset(stack, PAINT, sizeof stack);
    to_run = of;
    run_on = file;
    if (pthread_attr_init(&how) || pthread_attr_setstack(&how, stack, STACK)
        || pthread_create(&thread, &how, on_stack, NULL)
        || pthread_join(thread, NULL))
        fail("no thread", "stack");
    while (clean < STACK && stack[clean] == PAINT)
        clean++;
    return STACK - clean;
}

static void stack_line(const char *what, const struct file *file, work *proved,
                       work *plain)
{
    size_t none = marked(NULL, NULL);       /* what a thread itself needs */

    printf("%-48s %9lu %9lu\n", what,
           (unsigned long)(marked(proved, file) - none),
           (unsigned long)(marked(plain, file) - none));
}

int main(int argc, char **argv)
{
    static const size_t sizes[] = { 512, 1024, 2048, 4096 };

    if (argc != 4) {
        fprintf(stderr, "usage: bench EXAMPLE BUSY REFUSED\n");
        return 2;
    }
    load(&example, argv[1]);
    load(&busy, argv[2]);
    load(&refused, argv[3]);
    if (busy.length != LONGEST)
        fail("not the longest file", busy.name);

    printf("%-48s %9s %9s %7s\n", "nanoseconds", "proved", "plain C", "ratio");
    line("(a) the paper's run, a step", &example, proved_replay, plain_replay,
         example.steps);
    line("(b) a busy run, a step", &busy, proved_replay, plain_replay,
         busy.steps);
    line("(c) mostly refused steps, a step", &refused, proved_replay,
         plain_replay, refused.steps);
    line("(d) the longest file read, a byte", &busy, proved_check, plain_check,
         busy.length);
    line("(d) read and written anew, a byte", &busy, proved_rewrite,
         plain_rewrite, busy.length);
    for (unsigned i = 0; i < sizeof sizes / sizeof *sizes; i++) {
        static char what[] = "(b) its first 0000 steps, a step";

        for (size_t at = 17, rest = sizes[i]; at > 13; at--, rest /= 10)
            what[at] = (char)(at < 17 && !rest ? ' ' : '0' + rest % 10);
        cut(&part, &busy, sizes[i]);
        line(what, &part, proved_replay, plain_replay, part.steps);
    }
    printf("%-48s %9s %9s\n", "bytes of stack", "proved", "plain C");
    stack_line("replay of the busy run", &busy, proved_replay, plain_replay);
    stack_line("check of the longest file", &busy, proved_check, plain_check);
    stack_line("the longest file written anew", &busy, proved_rewrite,
               plain_rewrite);
    return 0;
}
