/*
 * The exchange logic as a library for firmware: run files checked, replayed
 * and written anew. Link target/staticlib/libcilumbara.a (`tools/library`
 * makes it, by `rt lib` in crates/cilumbara_c; it is for x86-64, and calls
 * memcpy and memset alone).
 *
 * Every function takes any bytes of any length, always returns, allocates
 * nothing and keeps nothing between calls: what each of them answers and
 * writes is proved, for all inputs (crates/cilumbara_c/src/lib.rt has the
 * contracts). What the proof takes for granted, and C can't check, is that
 * each pointer is not null, even where the length is 0, that so many bytes
 * stand there, and that nobody else touches them during the call. `out` may
 * not overlap `file`. And that the stack has room: about 40 KB for a replay,
 * 34 KB for writing anew, 1 KB for a check.
 */
#ifndef CILUMBARA_H
#define CILUMBARA_H

#include <stddef.h>
#include <stdint.h>

enum {
    CILUMBARA_LONGEST_FILE = 32964,
    CILUMBARA_LONGEST_TEXT = 122894     /* no replay prints more */
};

/* The text of a file's run, or of its fault, at the front of `out`; nothing
 * is written where the room is too small. Gives the text's length, so a room
 * of 1 byte asks how much is needed. A room of CILUMBARA_LONGEST_TEXT saves
 * that measuring: the run is gone through once, not twice. */
size_t cilumbara_replay(const uint8_t *file, size_t length,
                        uint8_t *out, size_t room);

/* 0 for a sound file, else the code of its first fault by place: 32 cut short,
 * 33 a count, 34 a mask, 35 a field that isn't used, 36 bytes left over. */
uint8_t cilumbara_check(const uint8_t *file, size_t length);

/* Reads a file and writes its run anew: 0, and the same bytes at the front of
 * `out`; or a code of cilumbara_check, or 37 where the room is too small, and
 * nothing written. */
uint8_t cilumbara_rewrite(const uint8_t *file, size_t length,
                          uint8_t *out, size_t room);

#endif
