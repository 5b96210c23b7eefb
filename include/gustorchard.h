/*
 * The Gustorchard store: a key-value store in a memory image that the caller lends. The image is the only state.
 *
 * Each call gives back the number of its answer, and on every answer it tells three more numbers in the lent array `numbers`:
 * stores, turns and length, each 0 where the answer has none. An array of fewer than GUST_NUMBERS places gets the first ones, and
 * further places are left as they are. A damaged image, sizes that are off, a bad ID or a value that is too long do no harm: they
 * are answered by a refusal, and a refusal changes no byte of the image or of the buffer. A read leaves the image as it is on every
 * answer, and a write the value.
 *
 * An allowance is the most stores (whole blocks of 16 bytes) that a call may make. A call that is due more makes the first so many,
 * in order, and answers GUST_CUT: what a loss of power at that point would leave.
 *
 * What the caller owes, since nothing here can test it:
 * - a pointer and the length behind it name memory that is there, and that nothing else reads or writes during the call; where the
 *   length is 0, the pointer may be anything;
 * - image, buffer or value, and numbers do not overlap;
 * - numbers is aligned as uint64_t is. The other pointers may be unaligned.
 *
 * The calls use no heap, no globals and no system calls, and up to some 8 KB of stack where sectors have up to 4 KiB, otherwise 24 KB
 * (docs/BENCHMARKS.md). The library is for x86-64 Linux, and wants memcpy and memset of the program that links it. This file is written by
 * hand after crates/c_api/src/lib.rt, which has the contracts; nothing checks the one against the other, so keep them in step.
 */
#ifndef GUSTORCHARD_H
#define GUSTORCHARD_H

#include <stddef.h>
#include <stdint.h>

#if SIZE_MAX != UINT64_MAX
#error "the library has lengths of 64 bits"
#endif

#ifdef __cplusplus
extern "C" {
#endif

/* The answers. 1 to 10 are refusals. */
enum {
    GUST_DONE = 0,          /* all stores made, or the value read */
    GUST_GEOMETRY = 1,      /* sector size, count or image length off */
    GUST_NO_STORE = 2,      /* the image is no store */
    GUST_UNFINISHED = 3,    /* a store, but not at rest: mount it first */
    GUST_RESERVED = 4,      /* the ID is GUST_RESERVED_ID */
    GUST_EMPTY = 5,         /* a value of length 0 */
    GUST_TOO_LONG = 6,      /* a value that no sector holds */
    GUST_NO_ROOM = 7,       /* no number of turns makes room for it */
    GUST_ABSENT = 8,        /* the ID has no value */
    GUST_BAD_DATA = 9,      /* the CRC-32 of the value read differs */
    GUST_SHORT_BUFFER = 10, /* the buffer is below the length, which is told */
    GUST_CUT = 11           /* the allowance was below the stores due, and is told as the stores made */
};

/* The places of the lent array, and how many there are. */
enum {
    GUST_STORES = 0, /* stores made */
    GUST_TURNS = 1,  /* turns (garbage collection steps) made; 0 where the call was cut */
    GUST_LENGTH = 2, /* length of the value read, or that a short buffer would take */
    GUST_NUMBERS = 3
};

/* The one ID that holds no value. */
#define GUST_RESERVED_ID UINT32_C(0xFFFFFFFF)

/* An allowance that cuts no call: none is due more stores. */
#define GUST_UNLIMITED UINT32_C(0xFFFFFFFF)

/*
 * In every call: sector_size is a multiple of 16 from 128 to 65536, count the number of sectors from 2 to 64, and image_length
 * exactly their product. Otherwise the answer is GUST_GEOMETRY.
 */

/* Makes an empty store of whatever bytes the image holds. Gives stores. */
uint32_t gust_format(uint8_t *image, size_t image_length, size_t sector_size, size_t count, uint32_t allowance,
                     uint64_t *numbers, size_t numbers_length);

/* Brings a store to rest, as after a loss of power: makes what a cut left to do. Gives stores and turns. */
uint32_t gust_mount(uint8_t *image, size_t image_length, size_t sector_size, size_t count, uint32_t allowance,
                    uint64_t *numbers, size_t numbers_length);

/* Copies the value of an ID into the first bytes of the buffer, and leaves the rest of it. Gives length. */
uint32_t gust_read(const uint8_t *image, size_t image_length, size_t sector_size, size_t count, uint32_t id,
                   uint8_t *buffer, size_t buffer_length, uint64_t *numbers, size_t numbers_length);

/* Stores the value of an ID. Unless the answer is GUST_DONE, the ID keeps what it had. Gives stores and turns. */
uint32_t gust_write(uint8_t *image, size_t image_length, size_t sector_size, size_t count, uint32_t id,
                    const uint8_t *value, size_t value_length, uint32_t allowance,
                    uint64_t *numbers, size_t numbers_length);

/* Stores that an ID has no value. Unless the answer is GUST_DONE, the ID keeps what it had. Gives stores and turns. */
uint32_t gust_delete(uint8_t *image, size_t image_length, size_t sector_size, size_t count, uint32_t id, uint32_t allowance,
                     uint64_t *numbers, size_t numbers_length);

#ifdef __cplusplus
}
#endif

#endif
