/*
 * Tisarqluk: bit streams enciphered on lines that may lose or gain bits.
 *
 * A line enciphers with AES-128 in pipelined statistical cipher feedback. Both
 * ends look for an 8-bit pattern in the bits on the line. After each pattern a
 * blackout of 128 L line bits begins, whose first 128 are the IV of a new
 * counter that takes over where the blackout ends. So an end that missed or
 * made up a bit falls back into step with the other by itself.
 *
 * A free line answers each bit at once (tq_free_open, tq_free_run). A paced line
 * takes D bits and gives D places at each tick, at a fixed rate, whatever the
 * pattern does (tq_paced_open, tq_paced_tick, tq_paced_close).
 *
 *
 * BITS. Bits are packed into bytes, the first in the top bit of byte 0. Unused
 * low bits of a last byte are ignored on reading and written as 0. An output
 * buffer may be longer than needed; bytes past the last one written stay.
 *
 * RECORDS. A line is a record: bytes that you own and lend to each call, at
 * least TQ_FREE_RECORD_BYTES or TQ_PACED_RECORD_BYTES of them, at any address.
 * Copy them, keep them, or send them elsewhere as you like; docs/RECORD.md has
 * their layout. A record holds the key. A longer buffer keeps its later bytes.
 * The library allocates nothing and keeps nothing between calls, so that calls
 * on different records may run at the same time.
 *
 * BUFFERS. A buffer is a pointer and its length in bytes. Where the length is 0
 * the pointer may be NULL. The buffers of one call may not overlap.
 *
 * REFUSALS. A call is done, or is refused with one of the numbers below. A
 * refused call writes nothing: record and output are as they were. The numbers
 * are tried in the order that stands at each function, and the first that holds
 * is given.
 *
 *
 * EXAMPLE. What one end sends, the other recovers:
 *
 *     #include <stdio.h>
 *     #include "tisarqluk.h"
 *
 *     int main(void)
 *     {
 *         static const uint8_t key[16] = { 0x4B, 0x65, 0x79 };
 *         static const uint8_t iv[16] = { 0x49, 0x56 };
 *         static const uint8_t text[5] = { 'h', 'e', 'l', 'l', 'o' };
 *         uint8_t here[TQ_FREE_RECORD_BYTES], there[TQ_FREE_RECORD_BYTES];
 *         uint8_t line[5], recovered[5];
 *
 *         if (tq_free_open(here, sizeof here, key, 16, iv, 16, 0x80, 11, TQ_SEND) != TQ_DONE
 *             || tq_free_open(there, sizeof there, key, 16, iv, 16, 0x80, 11, TQ_RECEIVE) != TQ_DONE
 *             || tq_free_run(here, sizeof here, 40, text, 5, line, 5) != TQ_DONE
 *             || tq_free_run(there, sizeof there, 40, line, 5, recovered, 5) != TQ_DONE)
 *             return 1;
 *         printf("%.5s\n", (const char *)recovered);
 *         return 0;
 *     }
 *
 * Build it with: cc -Iinclude example.c target/staticlib/libtisarqluk.a
 */

#ifndef TISARQLUK_H
#define TISARQLUK_H

#include <stddef.h>
#include <stdint.h>

#ifdef __cplusplus
extern "C" {
#endif

/* What a call answers: done, or why not. */
#define TQ_DONE             0
#define TQ_REFUSED_KEY      1   /* the key is not 16 bytes */
#define TQ_REFUSED_IV       2   /* the IV is not 16 bytes */
#define TQ_REFUSED_L        3   /* L is 0 or above 11 */
#define TQ_REFUSED_D        4   /* D is 0, or D(L + 1) > 128 L */
#define TQ_REFUSED_RUN      5   /* a run of more than TQ_RUN_BITS bits */
#define TQ_REFUSED_INPUT    6   /* the input has fewer bytes than the bits need */
#define TQ_REFUSED_OUTPUT   7   /* the output has fewer bytes than needed */
#define TQ_REFUSED_CLOSED   8   /* the paced line is already closed */
#define TQ_REFUSED_RECORD   9   /* the record's buffer is too short, or holds no record of this kind */
#define TQ_REFUSED_FILE    10   /* a line file is malformed; the programs linerun and syncs give it */

/* Directions. Any number other than TQ_SEND receives. */
#define TQ_SEND    0
#define TQ_RECEIVE 1

/* The most bits of one run. */
#define TQ_RUN_BITS 524288

/* How long a record's buffer must be, as constants for arrays. */
#define TQ_FREE_RECORD_BYTES  58
#define TQ_PACED_RECORD_BYTES 126

/* Output that is enough for any tick, and for any closing. */
#define TQ_TICK_BYTES  15
#define TQ_CLOSE_BYTES 60

/* What a tick or a closing answers; both counts are 0 if it is refused. */
typedef struct {
    uint32_t refusal;   /* TQ_DONE or a refusal */
    uint32_t bits;      /* the number of line bits written */
    uint32_t waiting;   /* the number of bits that wait in the line */
} tq_answer;

/* Gives how long a free line's record buffer must be: TQ_FREE_RECORD_BYTES. */
size_t tq_free_record_bytes(void);

/* Gives how long a paced line's record buffer must be: TQ_PACED_RECORD_BYTES. */
size_t tq_paced_record_bytes(void);

/*
 * Enciphers the first 16 bytes of `in` with AES-128 (FIPS 197) into the first 16
 * of `out`. Tries 1, 6, 7.
 */
uint32_t tq_aes128(const uint8_t *key, size_t key_len,
                   const uint8_t *in, size_t in_len, uint8_t *out, size_t out_len);

/*
 * Makes a free line in `record`, which may hold anything before: `pattern` with
 * its first bit on top, `l` the blackout's blocks (1 to 11). Tries 9 (only the
 * buffer's length), 1, 2, 3.
 */
uint32_t tq_free_open(uint8_t *record, size_t record_len,
                      const uint8_t *key, size_t key_len, const uint8_t *iv, size_t iv_len,
                      uint8_t pattern, uint64_t l, uint64_t direction);

/*
 * Passes `bits` bits of `in` through a free line into `out`: plaintext to line
 * bits if it sends, line bits to plaintext if it receives. A stream may be run
 * in pieces of any number of bits, also 0, each in buffers of its own. Tries 9,
 * 5, 6, 7.
 */
uint32_t tq_free_run(uint8_t *record, size_t record_len, uint64_t bits,
                     const uint8_t *in, size_t in_len, uint8_t *out, size_t out_len);

/*
 * Makes a paced line in `record`, as tq_free_open does, with the rate `d`: at
 * most 64 bits a tick with L 1, 116 with L 10 and 117 with L 11. It holds
 * 126 + 3 D places, at first without bits. Tries 9 (only the buffer's length),
 * 1, 2, 3, 4.
 */
uint32_t tq_paced_open(uint8_t *record, size_t record_len,
                       const uint8_t *key, size_t key_len, const uint8_t *iv, size_t iv_len,
                       uint8_t pattern, uint64_t l, uint64_t direction, uint64_t d);

/*
 * Takes D bits of `in` into a paced line and writes to `out` the bits that leave
 * it: none while it still has places without bits, then up to D. Bit i, counted
 * from 0, leaves in the tick whose number is (i + 126 + 3 D) / D, rounded down,
 * plus 1. Both buffers need bytes for D bits in every tick. Tries 9, 8, 6, 7.
 */
tq_answer tq_paced_tick(uint8_t *record, size_t record_len,
                        const uint8_t *in, size_t in_len, uint8_t *out, size_t out_len);

/*
 * Writes to `out` all the bits that are still in a paced line, and closes it: the
 * record takes no more ticks. Tries 9, 8, 7; TQ_CLOSE_BYTES of output are always
 * enough.
 */
tq_answer tq_paced_close(uint8_t *record, size_t record_len, uint8_t *out, size_t out_len);

#ifdef __cplusplus
}
#endif

#endif
