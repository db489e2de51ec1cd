/*
 * plate.h: the plate tank. Boards, their memory, and blocks of samples. C99 and C++.
 *
 * A call takes numbers and byte slices (a pointer and a length) and returns a number and a place. Number 0 is
 * success. Any other number is a refusal, and a refused call leaves every byte as found. Every length and every content
 * has its answer; docs/REFERENCE.md says what boards are and what to do about each answer, docs/FIRMWARE.md what a host
 * has to know. In short:
 *
 * - Slices. They may stand at any address, aligned or not. With a length of 0 the pointer may be NULL. A slice that is
 *   written must not overlap any other slice of the same call; slices that are only read may.
 * - Nothing is kept. The library has no data of its own, allocates nothing and keeps no pointer, so calls are
 *   reentrant: they may run at once in several threads, as long as none writes bytes that another has been lent.
 * - Stack. No call takes more than PLATE_STACK bytes.
 * - Floating point. The calls assume the mode in which a program starts: rounding to nearest, subnormal numbers neither
 *   flushed to zero nor read as zero, exceptions masked. With another rounding, or subnormals as zeros, samples and
 *   lengths may differ from the definition, and subnormal numbers may pass a range or not; still nothing outside the
 *   lent bytes is read or written. With exceptions unmasked a call may trap half-way. The mode is neither read nor
 *   changed.
 * - Samples. Input samples must be finite. Outputs need not be: a board whose loops or numbers amplify can reach
 *   infinities and NaN, which are answered as any other output. A NaN is always 7FC00000. A converter's words need no
 *   care: every word is a finite sample, and every output is held to a word (plate_block24).
 * - Machine. libplate.a is for x86-64 with the System V calling convention (Linux): the compiler behind it makes
 *   nothing else today. It uses SSE2 and no later extension, and wants memcpy and memset from its host, no more.
 *
 * Numbers in boards, memory and sample blocks are little-endian; samples are 32-bit floats, in packed blocks signed
 * words of 24 bits. Sample rate 44,100.
 */
#ifndef PLATE_H
#define PLATE_H

#include <stddef.h>
#include <stdint.h>

#ifdef __cplusplus
extern "C" {
#endif

/* The version of this header and of the archive that is installed with it. While the first number is 0, a change of
   the second may change or add calls, answers, boards or the memory's layout, and a host should be looked at again; a
   change of the third changes none of these. */
#define PLATE_VERSION_MAJOR 0
#define PLATE_VERSION_MINOR 2
#define PLATE_VERSION_PATCH 0
#define PLATE_VERSION "0.2.0"

typedef struct {
    uint32_t number;
    uint32_t place;
} plate_answer;

/* The numbers, each with its place. plate_words.h has them in words. */
enum {
    PLATE_OK = 0,         /* 0, unless the call says otherwise */
    PLATE_CUT = 1,        /* record's offset: cut, of a wrong length for its kind, or bytes after the end */
    PLATE_KIND = 2,       /* record's offset: kind unknown or out of order */
    PLATE_BLOCK_SIZE = 3, /* record's offset: block size outside 1 to 128 */
    PLATE_NODE = 4,       /* record's offset: a node breaks a rule, or is the 65th */
    PLATE_WIRE = 5,       /* record's offset: a wire's end is missing, both are one node, or it is the 129th */
    PLATE_SOURCES = 6,    /* node: no node 0, a bad input node, or a wrong number of sources */
    PLATE_LENGTH = 7,     /* length needed: memory or plate bytes not of that length */
    PLATE_CELL = 8,       /* lowest node with a value in memory that is not as it must be */
    PLATE_BLOCKS = 9,     /* block size N: a block is not of 4 x N bytes */
    PLATE_INPUT = 10,     /* index of the first infinite or NaN input sample */
    PLATE_TARGET = 11,    /* node that is missing or takes no number; for plate_mix, that is no mul */
    PLATE_VALUE = 12,     /* node whose value is outside its range; 41 for a mix, 0 for milliseconds */
    PLATE_BLOCKS24 = 13,  /* block size N: a packed block is not of 3 x N bytes */
    PLATE_ROOM = 15,      /* length needed, at most 4,294,967,295: fewer bytes are lent to a change of wires */
    PLATE_NO_WIRE = 16    /* target: there is no such wire to pull */
};

/* Limits of a board. */
#define PLATE_RATE 44100u          /* samples a second */
#define PLATE_MOST_BLOCK 128u      /* block size: 1 to 128 samples */
#define PLATE_MOST_NODES 64u       /* nodes: 1 to 64 */
#define PLATE_MOST_WIRES 128u      /* wires: 0 to 128 */
#define PLATE_MOST_SOURCES 8u      /* distinct sources of a sum or of the destination */
#define PLATE_LONGEST_LINE 132300u /* samples of one line: 3 seconds */
#define PLATE_MOST_LINES 262144u   /* values of all lines together; an all-pass of n has 2 n */
#define PLATE_MOST_BOARD 1932u     /* bytes of a board: no accepted board is longer */
#define PLATE_MOST_MEMORY 1113856u /* bytes of memory: no accepted board needs more */

/* The least and the most that a word of a packed block can be. */
#define PLATE_LEAST_WORD (-8388608)
#define PLATE_MOST_WORD 8388607

/* The tail of a board whose output may never end. */
#define PLATE_ENDLESS 4294967295u

/* The length in bytes of a written plate, and of its memory at blocks of n samples. */
#define PLATE_BYTES 1270u
#define PLATE_MEMORY(n) (236392u + 212u * (n))

/* Bytes of stack that are enough for any call on any board. */
#define PLATE_STACK 32768u

/* Judges a board. Answers 0 and the length in bytes of its memory, or 1 to 6. Writes nothing. */
plate_answer plate_judge(const uint8_t *board, size_t board_len);

/* Answers 0 and the tail: how many samples the output can go on after the input turned zero for good, or
   PLATE_ENDLESS; or 1 to 6. Writes nothing. */
plate_answer plate_tail(const uint8_t *board, size_t board_len);

/* Makes fresh memory: writes all of it. Answers 0 and 0, or 1 to 6, 7. */
plate_answer plate_fresh(const uint8_t *board, size_t board_len, uint8_t *memory, size_t memory_len);

/* Runs one block of N samples: reads the input block, changes the memory, and writes the two output blocks, which
   are node 0's channels. Answers 0 and 0, or 1 to 6, 7, 8, 9, 10. */
plate_answer plate_block(const uint8_t *board, size_t board_len, uint8_t *memory, size_t memory_len,
                         const uint8_t *input, size_t input_len, uint8_t *out0, size_t out0_len, uint8_t *out1,
                         size_t out1_len);

/* The same with packed blocks, as converters give and take them: N signed words of 24 bits, three bytes each, the
   least significant first. In, a word w is the sample w / 2^23, with nothing lost. Out, a sample x is the whole number
   nearest to x * 2^23, of two the even one; past PLATE_LEAST_WORD or PLATE_MOST_WORD it is held there, infinities too,
   and a NaN is 0. A word that goes straight through comes out unchanged. The memory afterwards is that of plate_block
   with the same samples in, so the two calls may take turns on one memory. Answers 0 and 0, or 1 to 6, 7, 8, 13. */
plate_answer plate_block24(const uint8_t *board, size_t board_len, uint8_t *memory, size_t memory_len,
                           const uint8_t *input, size_t input_len, uint8_t *out0, size_t out0_len, uint8_t *out1,
                           size_t out1_len);

/* A change of wires: number and place as above, and the new board's visiting list, its nodes in the order in which a
   block runs them. The first count bytes of listed are the list, those behind it 0; a refusal has count 0. */
typedef struct {
    uint32_t number;
    uint32_t place;
    uint32_t count;
    uint8_t listed[64];
} plate_wiring;

/* Adds a wire to the board that the first board_len bytes are, also while it plays: between two blocks. The record comes
   before the end record, so the board is 8 bytes longer afterwards, which must be lent behind it; bytes behind the new
   end are left alone. The memory stays as it is, and blocks go on with the new board. Answers 0 and 0; or 15, 1 to 6 of
   the old board, 5 (place board_len - 4) or 6 of the changed one. */
plate_wiring plate_add_wire(uint8_t *bytes, size_t bytes_len, size_t board_len, uint16_t source, uint16_t target);

/* Pulls the newest wire from source to target of the board that the first board_len bytes are, and closes up: the board
   is 8 bytes shorter afterwards, and bytes behind the new end are left alone. Answers 0 and 0; or 15, 1 to 6 of the old
   board, 16, 6 of the changed one. */
plate_wiring plate_pull_wire(uint8_t *bytes, size_t bytes_len, size_t board_len, uint16_t source, uint16_t target);

/* Sets the number of a mul, an add, an all-pass (its gain) or a sine (its frequency): writes 4 bytes of the memory.
   Answers 0 and 0, or 1 to 6, 7, 8, 11, 12. */
plate_answer plate_message(const uint8_t *board, size_t board_len, uint8_t *memory, size_t memory_len, uint32_t node,
                           float value);

/* Sets a plate's mix: nodes 41 and 47 to mix, then 43 and 49 to 1 - mix. Answers 0 and 0, or 1 to 6, 7, 8, 11, 12. */
plate_answer plate_mix(const uint8_t *board, size_t board_len, uint8_t *memory, size_t memory_len, float mix);

/* Writes a plate of block size n: all PLATE_BYTES bytes of the board. Answers 0 and 0, or 3 (place 0), 12 (place 41),
   7. The judge accepts what it wrote, with a memory of PLATE_MEMORY(n) bytes. The delay that its one late wire leads
   into, node 15, has 2,800 samples at every n, so plates of different n differ in sound; docs/SIZES.md says which line
   makes them the same. */
plate_answer plate_write(uint32_t n, float mix, uint8_t *board, size_t board_len);

/* Answers 0 and the length in samples of a delay of 0 to 3000 ms, at least 1; or 12. */
plate_answer plate_delay_length(float ms);

/* Answers 0 and the length in samples of an all-pass of 0 to 3000 ms, 132,300 for 0 ms; or 12, also where it would
   be shorter than one sample. */
plate_answer plate_allpass_length(float ms);

#ifdef __cplusplus
}
#endif

#endif
