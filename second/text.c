/*
 * Packs a readable list of steps into a run file: text on standard input, the
 * file's bytes on standard output. A line of text is one of
 *
 *     counters 5 4 0            a node for each, with its counter
 *     cell n0 n1 = 10           its holders, then its value
 *     begin T0 n0 update        a step: its kind, then its fields in any order;
 *     cut prepare T0 n1         `cut` before the kind of one cut by power loss
 *     kind 77                   a step whose kind is this number
 *     short 3                   the file's last 3 bytes are left out
 *     more 2                    two bytes of zero stand after the file
 *
 * and `#` starts a comment. A field is T and a slot, n and a node, c and a
 * cell, or a value: a number, `update` (1) or `read-only` (0). Counts are those
 * of what is listed. Nothing is judged, so that faulty files can be made too:
 * as many nodes as one likes, a cell that nobody holds, a field that the kind
 * doesn't use.
 */
#include "second.h"

#include <stdlib.h>
#include <string.h>

enum { MOST = 255, ROOM = 1 + 4 * MOST + 1 + 5 * MOST + 2 + STEP_BYTES * STEPS };

static struct {
    unsigned nodes, cells, steps, left_out, more;
    uint32_t counter[MOST], value[MOST];
    uint8_t mask[MOST];
    struct step step[STEPS];
} list;

static unsigned line_number;

static void fail(const char *what, const char *word)
{
    fprintf(stderr, "line %u: %s: %s\n", line_number, what, word);
    exit(1);
}

/* The number after a word's first `skip` letters. */
static uint32_t number(const char *word, size_t skip, uint32_t most)
{
    char *end;
    unsigned long long n = strtoull(word + skip, &end, 10);

    if (word[skip] < '0' || word[skip] > '9' || *end || n > most)
        fail("no number, or too large", word);
    return (uint32_t)n;
}

static char *next_word(void) { return strtok(NULL, " \t\r\n"); }

static uint32_t next_number(uint32_t most)
{
    const char *word = next_word();

    if (!word)
        fail("a number is missing", "");
    return number(word, 0, most);
}

static uint8_t kind_named(const char *word)
{
    static const char *const names[] = {
        [BEGIN] = "begin", [WRITE] = "write", [ASK] = "ask",
        [SERVE] = "serve", [RETURN] = "return", [COMMIT] = "commit",
        [PREPARE] = "prepare", [DECIDE] = "decide", [GIVE_UP] = "give-up",
        [LEARN] = "learn", [APPLY] = "apply", [ADVANCE] = "advance",
        [ABANDON] = "abandon",
    };

    if (strcmp(word, "kind") == 0)
        return (uint8_t)next_number(UINT8_MAX);
    for (uint8_t kind = BEGIN; kind <= ABANDON; kind++)
        if (strcmp(word, names[kind]) == 0)
            return kind;
    fail("no such kind", word);
    return 0;
}

static void counters_line(void)
{
    char *word;

    while ((word = next_word())) {
        if (list.nodes == MOST)
            fail("too many nodes", word);
        list.counter[list.nodes++] = number(word, 0, UINT32_MAX);
    }
}

static void cell_line(void)
{
    char *word;

    if (list.cells == MOST)
        fail("too many cells", "");
    while ((word = next_word()) && strcmp(word, "=") != 0) {
        if (*word != 'n')
            fail("no holder", word);
        list.mask[list.cells] |= (uint8_t)(1u << number(word, 1, 7));
    }
    if (!word)
        fail("a value is missing", "");
    list.value[list.cells++] = next_number(UINT32_MAX);
}

static void field(struct step *x, const char *word)
{
    if (*word == 'T')
        x->slot = (uint8_t)number(word, 1, UINT8_MAX);
    else if (*word == 'n')
        x->node = (uint8_t)number(word, 1, UINT8_MAX);
    else if (*word == 'c')
        x->cell = (uint8_t)number(word, 1, UINT8_MAX);
    else if (strcmp(word, "update") == 0)
        x->value = 1;
    else if (strcmp(word, "read-only") == 0)
        x->value = 0;
    else
        x->value = number(word, 0, UINT32_MAX);
}

static void step_line(char *word)
{
    struct step x = { 0, 0, 0, 0, 0 };
    uint8_t cut = 0;

    if (list.steps == STEPS)
        fail("too many steps", word);
    if (strcmp(word, "cut") == 0) {
        cut = CUT;
        word = next_word();
    }
    x.kind = kind_named(word ? word : "") | cut;
    while ((word = next_word()))
        field(&x, word);
    list.step[list.steps++] = x;
}

static void read_line(char *line)
{
    char *comment = strchr(line, '#'), *word;

    if (comment)
        *comment = 0;
    word = strtok(line, " \t\r\n");
    if (!word)
        return;
    if (strcmp(word, "counters") == 0)
        counters_line();
    else if (strcmp(word, "cell") == 0)
        cell_line();
    else if (strcmp(word, "short") == 0)
        list.left_out = next_number(ROOM);
    else if (strcmp(word, "more") == 0)
        list.more = next_number(ROOM);
    else
        step_line(word);
    if ((word = next_word()))
        fail("not understood", word);
}

static uint8_t bytes[2 * ROOM];
static size_t length;

static void put(uint32_t value, unsigned size)
{
    for (unsigned i = 0; i < size; i++)
        bytes[length++] = (uint8_t)(value >> 8 * i);
}

static void pack(void)
{
    put(list.nodes, 1);
    for (unsigned n = 0; n < list.nodes; n++)
        put(list.counter[n], 4);
    put(list.cells, 1);
    for (unsigned c = 0; c < list.cells; c++) {
        put(list.mask[c], 1);
        put(list.value[c], 4);
    }
    put(list.steps, 2);
    for (unsigned i = 0; i < list.steps; i++, length += STEP_BYTES)
        put_step(bytes + length, list.step[i]);
    length = length > list.left_out ? length - list.left_out : 0;
    for (unsigned i = 0; i < list.more; i++)
        put(0, 1);
}

int main(void)
{
    char line[512];

    while (fgets(line, sizeof line, stdin)) {
        line_number++;
        read_line(line);
    }
    pack();
    return fwrite(bytes, 1, length, stdout) != length || fflush(stdout);
}
