/*
 * Holds the library's functions against the plain program's on a batch (each
 * run file after its length, 4 bytes little-endian) from standard input: code,
 * length and every byte of the output, also where the room is one too small.
 */
#include "cilumbara.h"
#include "second.h"

#include <string.h>

enum { MOST = 1 << 16, PAINT = 0x5a };

struct outcome { size_t result; uint8_t out[LONGEST_TEXT + 1]; };

static uint8_t file[MOST];
static size_t length;
static struct outcome proved, plain;

typedef size_t work(uint8_t *out, size_t room);

static size_t proved_replay(uint8_t *out, size_t room)
{
    return cilumbara_replay(file, length, out, room);
}

static size_t plain_replay(uint8_t *out, size_t room)
{
    return replay(file, length, (char *)out, room);
}

static size_t proved_rewrite(uint8_t *out, size_t room)
{
    return cilumbara_rewrite(file, length, out, room);
}

static size_t plain_rewrite(uint8_t *out, size_t room)
{
    struct run run;
    size_t size;
    int fault = read_run(file, length, &run);

    return (size_t)(fault ? fault : write_run(&run, out, room, &size));
}

/* Do both give the same, in an output with this room? */
static bool same(work *of, work *other, size_t room)
{
    memset(proved.out, PAINT, sizeof proved.out);
    memset(plain.out, PAINT, sizeof plain.out);
    proved.result = of(proved.out, room);
    plain.result = other(plain.out, room);
    return proved.result == plain.result
           && memcmp(proved.out, plain.out, sizeof plain.out) == 0;
}

/* The room that is needed, one less and one more, and all there is. */
static bool same_in_rooms(work *of, work *other, size_t size)
{
    return same(of, other, size ? size - 1 : 0) && same(of, other, size)
           && same(of, other, size + 1) && same(of, other, LONGEST_TEXT);
}

static bool same_file(void)
{
    struct run run;

    return cilumbara_check(file, length) == read_run(file, length, &run)
           && same_in_rooms(proved_rewrite, plain_rewrite,
                            length < LONGEST ? length : LONGEST)
           && same_in_rooms(proved_replay, plain_replay,
                            plain_replay(plain.out, 0));
}

int main(void)
{
    unsigned files = 0, differ = 0;
    uint8_t head[4];

    while (fread(head, 1, 4, stdin) == 4) {
        length = head[0] | (size_t)head[1] << 8 | (size_t)head[2] << 16
                 | (size_t)head[3] << 24;
        if (length > MOST || fread(file, 1, length, stdin) != length) {
            fprintf(stderr, "file %u: the batch is cut short\n", files);
            return 2;
        }
        if (!same_file()) {
            fprintf(stderr, "file %u: the two differ\n", files);
            differ++;
        }
        files++;
    }
    printf("library: %u files, %u differ from the plain program\n", files,
           differ);
    return differ || !files;
}
