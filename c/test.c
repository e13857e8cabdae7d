/*
 * Each function is called with values that tell each of its parameters from every other, and each field of what it answers. What
 * must come is worked by hand from the rules. Prints what comes otherwise, and ends with status 1 then.
 */
#include <stdio.h>

#include "tally.h"

enum { T = 1, L = 4, ROUND = 8, PLACES = 64, STAYS = 0x55 };

static const uint8_t order_r[24] = TALLY_ORDER_R;
static const uint8_t report[T] = {0x80};
/* what the report is encoded to; the first two octets are its block */
static const uint8_t coded[ROUND] = {0x80, 0x0b, 0x20, 0x60, 0x20, 0x62, 0x22, 0x60};

static int status;

static void expect(const char *call, const char *what, size_t due, size_t came)
{
    if (came != due) {
        printf("%s: %s is %zu, and must be %zu\n", call, what, came, due);
        status = 1;
    }
}

static void expect_octets(const char *call, const uint8_t *due, const uint8_t *came, size_t count)
{
    for (size_t i = 0; i < count; i++)
        expect(call, "an octet", due[i], came[i]);
}

static void expect_length(const char *call, size_t octets, uint8_t refusal, struct tally_length came)
{
    expect(call, "the length", octets, came.octets);
    expect(call, "the refusal", refusal, came.refusal);
}

static void expect_heard(const char *call, struct tally_heard due, struct tally_heard came)
{
    expect(call, "the index", due.index, came.index);
    expect(call, "the weight", due.weight, came.weight);
    expect(call, "the refusal", due.refusal, came.refusal);
    expect(call, "the verdict", due.check_fits, came.check_fits);
}

/* N is 13, and 13 * 28 / 8 is 45.5; no other T has a payload of 46 octets at that rate. */
static void try_lengths(void)
{
    expect_length("plan", 46, 0, tally_plan(12, 4, 20));
    expect_length("plan at no rate", 0, 3, tally_plan(12, 4, 25));
    expect_length("back", 12, 0, tally_back(46, 4, 20));
    expect_length("back at no rate", 0, 3, tally_back(46, 4, 25));
}

static void try_encode(void)
{
    uint8_t buffer[ROUND + 1] = {[ROUND] = STAYS};
    expect("encode", "the answer", 0, tally_encode(order_r, 24, report, T, L, buffer, ROUND + 1));
    expect_octets("encode", coded, buffer, ROUND);
    expect("encode", "the octet behind", STAYS, buffer[ROUND]);
}

/* Octet 7 of the round is sent, then 0 and 1, and 2 comes next. The buffer has one octet more than a round, the target two too many. */
static void try_payload(void)
{
    static const uint8_t buffer[ROUND + 1] = {0x80, 0x0b, 0x20, 0x60, 0x20, 0x62, 0x22, 0x60, STAYS};
    static const uint8_t due[5] = {0x60, 0x80, 0x0b, STAYS, STAYS};
    uint8_t target[5] = {STAYS, STAYS, STAYS, STAYS, STAYS};
    size_t cursor = 7;
    expect("payload", "the answer", 0, tally_payload(T, L, &cursor, buffer, ROUND + 1, target, 5, 3));
    expect("payload", "the cursor", 2, cursor);
    expect_octets("payload", due, target, 5);
}

typedef struct tally_heard hearing(const uint8_t *, size_t, size_t, size_t, size_t, const uint8_t *, size_t, uint8_t *, size_t);

/* The symbols of a reading: for bits that came well, for three that turned, and an octet that is none. */
struct alphabet {
    uint8_t zero, one, turned_to_zero, turned_to_one, none;
};

/*
 * The report's buffer comes from octet 6 on, and at the places 0, 21 and 46 its bits are turned. Any other message differs from the
 * report in the four outputs of the first step that differs, and in the four of the last, behind which both are in one state: in
 * eight places at least. So the report is the nearest, and its weight is that of the three places. Then symbol 41 is none.
 */
static void try_hearing(const char *call, hearing *hear, struct alphabet a, uint32_t weight)
{
    static const uint8_t due[5] = {0x80, 0x0b, STAYS, STAYS, STAYS};
    uint8_t symbols[PLACES], target[5] = {STAYS, STAYS, STAYS, STAYS, STAYS};
    for (size_t i = 0; i < PLACES; i++) {
        size_t place = (8 * 6 + i) % PLACES;
        bool bit = coded[place / 8] >> place % 8 & 1;
        if (place == 0 || place == 21 || place == 46)
            symbols[i] = bit ? a.turned_to_zero : a.turned_to_one;
        else
            symbols[i] = bit ? a.one : a.zero;
    }
    struct tally_heard heard = hear(order_r, 24, T, L, 6, symbols, PLACES, target, 5);
    expect_heard(call, (struct tally_heard){.weight = weight, .check_fits = true}, heard);
    expect_octets(call, due, target, 5);
    symbols[41] = a.none;
    heard = hear(order_r, 24, T, L, 6, symbols, PLACES, target, 5);
    expect_heard(call, (struct tally_heard){.index = 41, .refusal = 9}, heard);
    expect_octets(call, due, target, 5);
}

/*
 * Output 1 alone comes, undamaged: eleven zeros, the bit 1, and the tail 1 1 0 1 that closes a register behind that bit. The check of
 * eight zeros is 0000, and 0001 came.
 */
static void try_another_check(void)
{
    static const uint8_t due[2] = {0x00, 0xb8};
    uint8_t symbols[16] = {[11] = 1, [12] = 1, [13] = 1, [15] = 1}, target[2] = {STAYS, STAYS};
    expect_heard("another check", (struct tally_heard){.weight = 0}, tally_hear_hard(order_r, 24, T, L, 0, symbols, 16, target, 2));
    expect_octets("another check", due, target, 2);
}

int main(void)
{
    try_lengths();
    try_encode();
    try_payload();
    try_hearing("hard", tally_hear_hard, (struct alphabet){.zero = 0, .one = 1, .turned_to_zero = 0, .turned_to_one = 1, .none = 3}, 3);
    struct alphabet levels = {.zero = 0x81, .one = 127, .turned_to_zero = 0x9c, .turned_to_one = 100, .none = 0x80};
    try_hearing("soft", tally_hear_soft, levels, 300);
    try_hearing("worst", tally_hear_worst, levels, 100);
    try_another_check();
    return status;
}
