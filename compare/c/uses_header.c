/* A host in C that knows only include/tisarqluk.h: it opens, runs, ticks and
 * closes lines, turns back what was sent, and asks for every refusal. */

#include <stdio.h>
#include <string.h>

#include "tisarqluk.h"

static int failures = 0;

static void expect(int so, const char *what)
{
    printf("%s %s\n", so ? "ok  " : "FAIL", what);
    if (!so)
        failures++;
}

static const uint8_t key[17] = { 1, 2, 3, 4, 5, 6, 7, 8, 9, 10, 11, 12, 13, 14, 15, 16, 17 };
static const uint8_t iv[17] = { 0 };

/* Bytes that are easy to tell from what the library writes. */
static void fill(uint8_t *bytes, size_t count, unsigned start)
{
    size_t i;

    for (i = 0; i < count; i++)
        bytes[i] = (uint8_t)(start + 37 * i + i * i / 3);
}

static void sizes(void)
{
    expect(tq_free_record_bytes() == TQ_FREE_RECORD_BYTES, "a free record's size");
    expect(tq_paced_record_bytes() == TQ_PACED_RECORD_BYTES, "a paced record's size");
}

/* FIPS 197, appendix C.1. */
static void one_block(void)
{
    static const uint8_t plain[16] = {
        0x00, 0x11, 0x22, 0x33, 0x44, 0x55, 0x66, 0x77,
        0x88, 0x99, 0xAA, 0xBB, 0xCC, 0xDD, 0xEE, 0xFF
    };
    static const uint8_t cipher[16] = {
        0x69, 0xC4, 0xE0, 0xD8, 0x6A, 0x7B, 0x04, 0x30,
        0xD8, 0xCD, 0xB7, 0x80, 0x70, 0xB4, 0xC5, 0x5A
    };
    uint8_t block_key[16], out[17];
    unsigned i;

    for (i = 0; i < 16; i++)
        block_key[i] = (uint8_t)i;
    out[16] = 0x5A;
    expect(tq_aes128(block_key, 16, plain, 16, out, 17) == TQ_DONE
               && memcmp(out, cipher, 16) == 0 && out[16] == 0x5A,
           "one block is FIPS 197's, and a later byte stays");
    expect(tq_aes128(block_key, 15, plain, 15, out, 15) == TQ_REFUSED_KEY, "a block tries 1");
    expect(tq_aes128(block_key, 16, plain, 15, out, 15) == TQ_REFUSED_INPUT, "a block then tries 6");
    expect(tq_aes128(block_key, 16, plain, 16, out, 15) == TQ_REFUSED_OUTPUT, "a block then tries 7");
}

/* A message sent in one run and received in pieces of whole bytes. */
static void free_round_trip(void)
{
    uint8_t here[TQ_FREE_RECORD_BYTES], there[TQ_FREE_RECORD_BYTES];
    uint8_t text[2000], line[2000], recovered[2000];
    size_t at, piece;
    int done = 1;

    fill(text, sizeof text, 5);
    expect(tq_free_open(here, sizeof here, key, 16, iv, 16, 0x80, 2, TQ_SEND) == TQ_DONE
               && tq_free_open(there, sizeof there, key, 16, iv, 16, 0x80, 2, TQ_RECEIVE) == TQ_DONE,
           "two free lines are opened");
    expect(tq_free_run(here, sizeof here, 16000, text, 2000, line, 2000) == TQ_DONE
               && memcmp(text, line, 2000) != 0,
           "one free line sends");
    for (at = 0, piece = 1; at < 2000; at += piece, piece += 3) {
        if (piece > 2000 - at)
            piece = 2000 - at;
        if (tq_free_run(there, sizeof there, 8 * piece, line + at, piece, recovered + at, piece))
            done = 0;
    }
    expect(done && memcmp(text, recovered, 2000) == 0, "the other free line recovers it in pieces");
    expect(tq_free_run(there, sizeof there, 0, NULL, 0, NULL, 0) == TQ_DONE,
           "a run of no bits needs no buffers");
}

static void free_refusals(void)
{
    uint8_t record[TQ_FREE_RECORD_BYTES], before[TQ_FREE_RECORD_BYTES];
    uint8_t in[2] = { 0, 0 }, out[2] = { 0x5A, 0x5A };

    fill(record, sizeof record, 0);
    memcpy(before, record, sizeof record);
    expect(tq_free_open(record, TQ_FREE_RECORD_BYTES - 1, key, 15, iv, 15, 0, 0, TQ_SEND)
               == TQ_REFUSED_RECORD, "an opening tries 9");
    expect(tq_free_open(record, sizeof record, key, 15, iv, 15, 0, 0, TQ_SEND)
               == TQ_REFUSED_KEY, "an opening then tries 1");
    expect(tq_free_open(record, sizeof record, key, 16, iv, 17, 0, 0, TQ_SEND)
               == TQ_REFUSED_IV, "an opening then tries 2");
    expect(tq_free_open(record, sizeof record, key, 16, iv, 16, 0, 0, TQ_SEND)
               == TQ_REFUSED_L, "an opening then tries 3, for L 0");
    expect(tq_free_open(record, sizeof record, key, 16, iv, 16, 0, UINT64_C(0x100000001), TQ_SEND)
               == TQ_REFUSED_L, "an opening tries 3 for an L that 32 bits would cut to 1");
    expect(memcmp(record, before, sizeof record) == 0, "a refused opening leaves the buffer");

    expect(tq_free_run(record, sizeof record, 1, in, 1, out, 1)
               == TQ_REFUSED_RECORD, "bytes that are no record are refused 9");
    memset(record, 0, sizeof record);
    expect(tq_free_run(record, sizeof record, 1, in, 1, out, 1)
               == TQ_REFUSED_RECORD, "zeros are refused 9");
    expect(tq_free_open(record, sizeof record, key, 16, iv, 16, 0, 1, 7) == TQ_DONE,
           "any direction but 0 receives");
    memcpy(before, record, sizeof record);
    expect(tq_free_run(record, TQ_FREE_RECORD_BYTES - 1, TQ_RUN_BITS + 1, in, 0, out, 0)
               == TQ_REFUSED_RECORD, "a run tries 9");
    expect(tq_free_run(record, sizeof record, TQ_RUN_BITS + 1, in, 0, out, 0)
               == TQ_REFUSED_RUN, "a run then tries 5");
    expect(tq_free_run(record, sizeof record, 9, in, 1, out, 1) == TQ_REFUSED_INPUT, "a run then tries 6");
    expect(tq_free_run(record, sizeof record, 9, in, 2, out, 1) == TQ_REFUSED_OUTPUT, "a run then tries 7");
    expect(memcmp(record, before, sizeof record) == 0 && out[0] == 0x5A && out[1] == 0x5A,
           "a refused run leaves record and output");
}

static void later_bytes(void)
{
    uint8_t record[TQ_FREE_RECORD_BYTES + 1], out[3] = { 0xFF, 0xFF, 0xFF };
    static const uint8_t in[1] = { 0xFF };

    record[TQ_FREE_RECORD_BYTES] = 0xA5;
    expect(tq_free_open(record, sizeof record, key, 16, iv, 16, 0, 1, TQ_SEND) == TQ_DONE
               && tq_free_run(record, sizeof record, 3, in, 1, out, 3) == TQ_DONE
               && record[TQ_FREE_RECORD_BYTES] == 0xA5,
           "a record's later bytes stay");
    expect((out[0] & 0x1F) == 0 && out[1] == 0xFF && out[2] == 0xFF,
           "unused bits are written as 0 and later bytes stay");
}

/* Appends the first `count` bits of `bytes` to the `*have` bits of `stream`. */
static void append(uint8_t *stream, size_t *have, const uint8_t *bytes, size_t count)
{
    size_t i;

    for (i = 0; i < count; i++, (*have)++)
        if ((bytes[i / 8] >> (7 - i % 8)) & 1)
            stream[*have / 8] |= (uint8_t)(0x80 >> (*have % 8));
}

/* With L 1 and D 64 ticks 1 to 4 give no bits and tick 5 gives 2; and what a
 * paced line sends, a free line of the same settings recovers. */
static void paced_line(void)
{
    uint8_t record[TQ_PACED_RECORD_BYTES], there[TQ_FREE_RECORD_BYTES];
    uint8_t text[800], line[800] = { 0 }, recovered[800];
    uint8_t out[TQ_CLOSE_BYTES];
    tq_answer answer;
    size_t tick, have = 0;
    int rate = 1;

    fill(text, sizeof text, 77);
    expect(tq_paced_open(record, sizeof record, key, 16, iv, 16, 0x80, 1, TQ_SEND, 64) == TQ_DONE,
           "a paced line is opened");
    for (tick = 0; tick < 100; tick++) {
        answer = tq_paced_tick(record, sizeof record, text + 8 * tick, 8, out, 8);
        if (answer.refusal != TQ_DONE || answer.bits != (tick < 4 ? 0 : tick == 4 ? 2 : 64))
            rate = 0;
        if ((tick == 0 && answer.waiting != 64) || (tick == 1 && answer.waiting != 0))
            rate = 0;
        append(line, &have, out, answer.bits);
    }
    expect(rate, "ticks of a paced line give no bits, then 2, then 64 each");
    answer = tq_paced_close(record, sizeof record, out, sizeof out);
    expect(answer.refusal == TQ_DONE && answer.bits == 318 && answer.waiting == 0,
           "closing a paced line gives the 318 bits that it holds");
    append(line, &have, out, answer.bits);
    expect(have == 6400
               && tq_free_open(there, sizeof there, key, 16, iv, 16, 0x80, 1, TQ_RECEIVE) == TQ_DONE
               && tq_free_run(there, sizeof there, 6400, line, 800, recovered, 800) == TQ_DONE
               && memcmp(text, recovered, 800) == 0,
           "a free line recovers what a paced line sent");

    answer = tq_paced_tick(record, sizeof record, text, 0, out, 0);
    expect(answer.refusal == TQ_REFUSED_CLOSED && answer.bits == 0 && answer.waiting == 0,
           "a closed line refuses a tick with 8 before 6 and 7");
    answer = tq_paced_close(record, sizeof record, out, 0);
    expect(answer.refusal == TQ_REFUSED_CLOSED, "a closed line refuses another closing with 8");
}

static void paced_refusals(void)
{
    uint8_t record[TQ_PACED_RECORD_BYTES], free_record[TQ_PACED_RECORD_BYTES];
    uint8_t before[TQ_PACED_RECORD_BYTES], in[8] = { 0 }, out[8] = { 0 };

    expect(tq_paced_open(record, TQ_PACED_RECORD_BYTES - 1, key, 16, iv, 16, 0, 1, TQ_SEND, 0)
               == TQ_REFUSED_RECORD, "a paced opening tries 9");
    expect(tq_paced_open(record, sizeof record, key, 16, iv, 16, 0, 0, TQ_SEND, 0)
               == TQ_REFUSED_L, "a paced opening tries 3 before 4");
    expect(tq_paced_open(record, sizeof record, key, 16, iv, 16, 0, 1, TQ_SEND, 0)
               == TQ_REFUSED_D, "a paced opening refuses D 0");
    expect(tq_paced_open(record, sizeof record, key, 16, iv, 16, 0, 1, TQ_SEND, 65)
               == TQ_REFUSED_D, "L 1 refuses D 65");
    expect(tq_paced_open(record, sizeof record, key, 16, iv, 16, 0, 11, TQ_SEND, UINT64_MAX)
               == TQ_REFUSED_D, "L 11 refuses the greatest D");
    expect(tq_paced_open(record, sizeof record, key, 16, iv, 16, 0, 1, TQ_SEND, 64) == TQ_DONE,
           "L 1 takes D 64");
    memcpy(before, record, sizeof record);
    expect(tq_paced_tick(record, sizeof record, in, 7, out, 7).refusal
               == TQ_REFUSED_INPUT, "a tick tries 6 before 7");
    expect(tq_paced_tick(record, sizeof record, in, 8, out, 7).refusal
               == TQ_REFUSED_OUTPUT, "a tick then tries 7, even while no bits leave");
    expect(memcmp(record, before, sizeof record) == 0, "a refused tick leaves the record");
    expect(tq_paced_tick(record, sizeof record, in, 8, out, 8).refusal == TQ_DONE
               && tq_paced_close(record, sizeof record, out, 7).refusal == TQ_REFUSED_OUTPUT,
           "closing needs bytes for all bits in the line");

    memset(free_record, 0, sizeof free_record);
    expect(tq_free_open(free_record, sizeof free_record, key, 16, iv, 16, 0, 1, TQ_SEND) == TQ_DONE
               && tq_paced_tick(free_record, sizeof free_record, in, 8, out, 8).refusal
                      == TQ_REFUSED_RECORD
               && tq_paced_close(free_record, sizeof free_record, out, 8).refusal
                      == TQ_REFUSED_RECORD
               && tq_free_run(record, sizeof record, 1, in, 1, out, 1) == TQ_REFUSED_RECORD,
           "the two kinds of records are not mixed");
}

int main(void)
{
    sizes();
    one_block();
    free_round_trip();
    free_refusals();
    later_bytes();
    paced_line();
    paced_refusals();
    if (failures != 0)
        printf("%d failed\n", failures);
    return failures != 0;
}
