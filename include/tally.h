/*
 * The nearest message of a coded report, for C and C++: encoding, payloads, and a whole tally sheet heard in one call.
 * Link crates/tally_c/out/libtally_c.a, which `rt lib` builds in crates/tally_c.
 *
 * Sizes. A report has T octets, 1 to 512, and a check of L bits: 4, 12, 20 or 28. A block has N = T + (L + 4) / 8 octets; the
 * buffer that a report is encoded to has 4 * N octets, and a tally sheet has 32 * N places, one for each bit of the buffer.
 *
 * Refusals come by number, and 0 says that a call is performed. A refused call writes nothing. The tests run in the order in
 * which each call lists them.
 *   1  T is 0 or above 512
 *   2  L is not one of the four
 *   3  k is above 24
 *   4  the column order does not list each of 0 to 23 once
 *   5  no report length has this payload length
 *   6  a buffer or a target is short
 *   7  the start is no octet of the buffer
 *   8  a count is 0, too large, or no multiple of eight where symbols are counted
 *   9  an octet is no symbol of the reading
 *
 * Duties of the caller, which nothing checks. A pointer is valid for as many octets as the length behind it says, and is not
 * NULL even where that length is 0. What a call writes overlaps nothing else that it is handed, and no other thread uses it
 * meanwhile. A hearing wants about 140 KiB of stack, every
 * other call under 6. No call allocates, and none keeps what it was handed.
 */
#ifndef TALLY_H
#define TALLY_H

#include <stdbool.h>
#include <stddef.h>
#include <stdint.h>

#ifdef __cplusplus
extern "C" {
#endif

/* Order R, the 24 columns as the standard's rates send them. Any other order of 0 to 23 may be handed in its place. */
#define TALLY_ORDER_R                                                                                  \
    {                                                                                                  \
        0, 4, 2, 6, 1, 5, 3, 7, 8, 12, 10, 14, 9, 13, 11, 15, 16, 20, 18, 22, 17, 21, 19, 23           \
    }

/* A length where refusal is 0; else the length is 0. */
struct tally_length {
    size_t octets;
    uint8_t refusal;
};

/*
 * What was heard where refusal is 0: how far the message named lies from what came, and whether its check fits.
 * With refusal 9, index is that of the first octet that is no symbol. All that is not told is 0 or false.
 */
struct tally_heard {
    size_t index;
    uint32_t weight;
    uint8_t refusal;
    bool check_fits;
};

/* P, the octets of the first payload at rate 8 / (8 + k), from T and L. Refuses 1, 2, 3. */
struct tally_length tally_plan(size_t octets, size_t check, size_t k);

/* T, from the octets of the first payload. Refuses 2, 3, 5. */
struct tally_length tally_back(size_t payload, size_t check, size_t k);

/*
 * Encodes a report into the first 4 * N octets of the buffer, and leaves the rest. Refuses 4; then 1 by the report's length, 2; and
 * 6 if the buffer has under 4 * N octets.
 */
uint8_t tally_encode(const uint8_t *columns, size_t columns_len, const uint8_t *report, size_t report_len, size_t check,
                     uint8_t *buffer, size_t buffer_len);

/*
 * Copies the next `count` octets of a report's buffer into the target's front, and puts the cursor behind them. A cursor is any
 * number, and is read modulo 4 * N: octet 0 comes again behind the last. To send once more what was not confirmed, hand
 * the cursor as it was. Refuses 1, 2; 8 if the count is 0 or above 4 * N; and 6 if the buffer has under 4 * N octets or the
 * target under `count`.
 */
uint8_t tally_payload(size_t octets, size_t check, size_t *cursor, const uint8_t *buffer, size_t buffer_len, uint8_t *target,
                      size_t target_len, size_t count);

/*
 * Lays symbols on a new sheet, one in each octet, from octet `start` of the buffer on (behind the last comes the first again),
 * and names a message of least weight: the target's first N octets are that message with its tail, and the rest stays.
 * Refuses 4; 1, 2; 7 if the start is 4 * N or more; 8 if the count of symbols is 0, no multiple of eight, or above
 * 32 * N; 9 for the first octet that is no symbol; and 6 if the target has under N octets.
 *
 * hard: octets 0 and 1 are bits, and 2 is missing. A contradicted bit weighs 1, and weights add.
 * soft: octets are numbers from -127 to 127 in two's complement; a positive one favours bit 1, a negative one bit 0, and 0 is missing. A
 *       contradicted symbol weighs its size, and weights add.
 * worst: symbols as soft; the weight of a message is that of its heaviest contradicted symbol.
 */
struct tally_heard tally_hear_hard(const uint8_t *columns, size_t columns_len, size_t octets, size_t check, size_t start,
                                   const uint8_t *symbols, size_t symbols_len, uint8_t *target, size_t target_len);
struct tally_heard tally_hear_soft(const uint8_t *columns, size_t columns_len, size_t octets, size_t check, size_t start,
                                   const uint8_t *symbols, size_t symbols_len, uint8_t *target, size_t target_len);
struct tally_heard tally_hear_worst(const uint8_t *columns, size_t columns_len, size_t octets, size_t check, size_t start,
                                    const uint8_t *symbols, size_t symbols_len, uint8_t *target, size_t target_len);

#ifdef __cplusplus
}
#endif

#endif
