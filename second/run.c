/*
 * The run program: a run file on standard input, the paper's lines on
 * standard output. A faulty file is an answer like any other, so the exit
 * status tells only whether reading and printing worked.
 */
#include "second.h"

int main(void)
{
    /* One byte beyond the longest file: no fault but 36 lies further on, and
     * for 36 one byte left over says as much as many. */
    static uint8_t bytes[LONGEST + 1];
    static char text[LONGEST_TEXT];
    size_t length = fread(bytes, 1, sizeof bytes, stdin), size;

    if (ferror(stdin))
        return 1;
    size = replay(bytes, length, text, sizeof text);
    return fwrite(text, 1, size, stdout) != size || fflush(stdout);
}
