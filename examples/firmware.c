/*
 * What firmware does with the library: takes a run file from standard input,
 * checks it, writes it anew, replays it as a whole and step by step, and prints
 * what came of each. All memory is this file's own, and none is allocated.
 */
#include "cilumbara.h"

#include <stdio.h>
#include <string.h>

/* One byte more than the longest file, or a longer one would look sound. */
static uint8_t file[CILUMBARA_LONGEST_FILE + 1], run[CILUMBARA_LONGEST_FILE];
static uint8_t text[CILUMBARA_LONGEST_TEXT], lines[CILUMBARA_LONGEST_TEXT];

static void write_anew(size_t length)
{
    unsigned code = cilumbara_rewrite(file, length, run, sizeof run);
    int is_same = memcmp(file, run, length) == 0;

    printf("written anew: %u, %s\n", code, is_same ? "the same" : "NOT SAME");
    printf("into one byte less: %u\n",
           (unsigned)cilumbara_rewrite(file, length, run, length - 1));
}

/* Where the count of steps stands: past the counters and the cells. */
static size_t count_place(void)
{
    size_t cells = 1 + 4 * (size_t)file[0];

    return cells + 1 + 5 * (size_t)file[cells];
}

/* Takes one step more: the file up to now is all there is to keep. Its answer
 * is the last line of the longer file's text. */
static size_t take_step(size_t at, size_t steps, uint8_t *line)
{
    size_t end = at + 2 + 8 * steps, size, start;

    memcpy(run + end, file + end, 8);
    steps++;
    run[at] = (uint8_t)steps;
    run[at + 1] = (uint8_t)(steps >> 8);
    size = cilumbara_replay(run, end + 8, text, sizeof text);
    for (start = size - 1; text[start - 1] != '\n'; start--)
        ;
    memcpy(line, text + start, size - start);
    return size - start;
}

/* All steps, one at a time; gives the length of their lines. */
static size_t take_steps(size_t length)
{
    size_t at = count_place(), size = 0;

    memcpy(run, file, at);
    for (size_t steps = 0; at + 2 + 8 * steps < length; steps++)
        size += take_step(at, steps, lines + size);
    return size;
}

int main(void)
{
    size_t length = fread(file, 1, sizeof file, stdin), size, taken = 0;
    unsigned fault = cilumbara_check(file, length);

    printf("file: %lu bytes, check %u\n", (unsigned long)length, fault);
    if (!fault) {
        write_anew(length);
        taken = take_steps(length);
    }
    size = cilumbara_replay(file, length, text, sizeof text);
    if (!fault)
        printf("taken step by step: %s\n",
               memcmp(text + size - taken, lines, taken) == 0
               ? "the same lines" : "OTHER LINES");
    printf("replay: %lu bytes\n", (unsigned long)size);
    return fwrite(text, 1, size, stdout) != size || fflush(stdout);
}
