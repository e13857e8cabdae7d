/* A report is planned, encoded, sent in two payloads, damaged, and heard by each reading; then calls that are refused. */
#include <stdio.h>
#include <string.h>

#include "tally.h"

enum { T = 2, L = 12, K = 10, N = 4, BUFFER = 4 * N, SYMBOLS = 32 * N };

static const uint8_t order_r[24] = TALLY_ORDER_R;
static const uint8_t backwards[24] = {23, 19, 21, 17, 22, 18, 20, 16, 15, 11, 13, 9, 14, 10, 12, 8, 7, 3, 5, 1, 6, 2, 4, 0};
static const uint8_t report[T] = {0x80, 0x01};

static void print_octets(const char *name, const uint8_t *octets, size_t count)
{
    printf("%s", name);
    for (size_t i = 0; i < count; i++)
        printf(" %02x", octets[i]);
    printf("\n");
}

static void print_length(const char *name, struct tally_length length)
{
    printf("%s: %zu, refused by %u\n", name, length.octets, length.refusal);
}

static void print_heard(const char *name, struct tally_heard heard, const uint8_t *block)
{
    if (heard.refusal) {
        printf("%s: refused by %u, index %zu\n", name, heard.refusal, heard.index);
        return;
    }
    printf("%s: weight %u, check %s,", name, (unsigned)heard.weight, heard.check_fits ? "fits" : "does not fit");
    print_octets("", block, T);
}

/* Each bit of the octets that came as one symbol, bit 1 of an octet first. */
static void hear_bits(const uint8_t *octets, size_t count, uint8_t zero, uint8_t one, uint8_t *symbols)
{
    for (size_t i = 0; i < 8 * count; i++)
        symbols[i] = octets[i / 8] >> (i % 8) & 1 ? one : zero;
}

static void send_and_hear(void)
{
    uint8_t buffer[BUFFER + 1], sent[BUFFER], block[N + 1], symbols[SYMBOLS];

    struct tally_length payload = tally_plan(T, L, K);
    print_length("first payload", payload);
    print_length("and back", tally_back(payload.octets, L, K));

    /* the octet behind the buffer's, and that behind the block's, stay */
    buffer[BUFFER] = block[N] = 0x55;
    printf("encode: %u\n", tally_encode(order_r, sizeof order_r, report, T, L, buffer, sizeof buffer));
    print_octets("buffer:", buffer, sizeof buffer);

    size_t cursor = 0, more = BUFFER - payload.octets;
    printf("payload: %u,", tally_payload(T, L, &cursor, buffer, BUFFER, sent, sizeof sent, payload.octets));
    printf(" cursor %zu\n", cursor);
    printf("more: %u,", tally_payload(T, L, &cursor, buffer, BUFFER, sent + payload.octets, more, more));
    printf(" cursor %zu\n", cursor);
    printf("sent what was encoded: %s\n", memcmp(buffer, sent, sizeof sent) == 0 ? "yes" : "no");

    /* three bits turn on the way */
    sent[0] ^= 0x11;
    sent[7] ^= 0x40;

    hear_bits(sent, sizeof sent, 0, 1, symbols);
    symbols[9] = 2; /* and one is missing */
    print_heard("hard", tally_hear_hard(order_r, 24, T, L, 0, symbols, SYMBOLS, block, sizeof block), block);

    hear_bits(sent, sizeof sent, (uint8_t)-20, 20, symbols);
    symbols[0] = 5; /* the receiver was not sure of this one */
    print_heard("soft", tally_hear_soft(order_r, 24, T, L, 0, symbols, SYMBOLS, block, sizeof block), block);
    print_heard("worst", tally_hear_worst(order_r, 24, T, L, 0, symbols, SYMBOLS, block, sizeof block), block);
    print_octets("block:", block, sizeof block);

    /* the octets from the ninth on came first, and those before them then */
    uint8_t turned[BUFFER];
    memcpy(turned, buffer + 9, BUFFER - 9);
    memcpy(turned + BUFFER - 9, buffer, 9);
    hear_bits(turned, sizeof turned, 0, 1, symbols);
    print_heard("from octet 9", tally_hear_hard(order_r, 24, T, L, 9, symbols, SYMBOLS, block, sizeof block), block);
    print_heard("from octet 8", tally_hear_hard(order_r, 24, T, L, 8, symbols, SYMBOLS, block, sizeof block), block);

    printf("encode backwards: %u\n", tally_encode(backwards, 24, report, T, L, buffer, BUFFER));
    print_octets("buffer:", buffer, BUFFER);
    hear_bits(buffer, BUFFER, 0, 1, symbols);
    print_heard("backwards", tally_hear_hard(backwards, 24, T, L, 0, symbols, SYMBOLS, block, sizeof block), block);
}

static void be_refused(void)
{
    uint8_t buffer[BUFFER], block[N], symbols[SYMBOLS];
    size_t cursor = 3;
    memset(buffer, 0x55, sizeof buffer);
    memset(block, 0x55, sizeof block);
    memset(symbols, 1, sizeof symbols);

    print_length("a plan for no report", tally_plan(0, L, K));
    print_length("a plan for another check", tally_plan(T, 13, K));
    print_length("a plan at no rate", tally_plan(T, L, 25));
    print_length("back from no payload", tally_back(1, L, K));
    printf("encode nothing: %u\n", tally_encode(order_r, 24, report, 0, L, buffer, BUFFER));
    printf("encode in no order: %u\n", tally_encode(order_r, 0, report, T, L, buffer, BUFFER));
    printf("encode into too little: %u\n", tally_encode(order_r, 24, report, T, L, buffer, BUFFER - 1));
    printf("send nothing: %u\n", tally_payload(T, L, &cursor, symbols, BUFFER, buffer, BUFFER, 0));
    printf("send from too little: %u\n", tally_payload(T, L, &cursor, symbols, BUFFER - 1, buffer, BUFFER, 1));
    printf("cursor: %zu\n", cursor);
    print_heard("an order of 23", tally_hear_soft(order_r, 23, T, L, 0, symbols, SYMBOLS, block, N), block);
    print_heard("no report", tally_hear_soft(order_r, 24, 0, L, 0, symbols, SYMBOLS, block, N), block);
    print_heard("a check of 13 bits", tally_hear_soft(order_r, 24, T, 13, 0, symbols, SYMBOLS, block, N), block);
    print_heard("from behind the end", tally_hear_soft(order_r, 24, T, L, BUFFER, symbols, SYMBOLS, block, N), block);
    print_heard("no symbols", tally_hear_soft(order_r, 24, T, L, 0, symbols, 0, block, N), block);
    print_heard("a short target", tally_hear_soft(order_r, 24, T, L, 0, symbols, SYMBOLS, block, N - 1), block);
    symbols[70] = 0x80;
    print_heard("no symbol at 70", tally_hear_soft(order_r, 24, T, L, 0, symbols, SYMBOLS, block, N), block);
    print_octets("buffer:", buffer, sizeof buffer);
    print_octets("block:", block, sizeof block);
}

int main(void)
{
    send_and_hear();
    be_refused();
    return 0;
}
