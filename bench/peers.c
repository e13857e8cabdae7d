// The peers beside which ours is timed: a plain decoder and encoder of the same code, and libosmocore's.
//
// It makes the same reports and turned bits as crates/pace, from the same row of numbers, and writes lines of the same forms: what is
// named goes to standard output, and the times go to standard error. A line of times is: what, reading, octets, times, nanoseconds
// of them all, and a sum of what they answered.
#include <stdint.h>
#include <stdio.h>
#include <stdlib.h>
#include <string.h>
#include <time.h>

#ifdef OSMOCORE
#include <osmocom/core/conv.h>
#endif

enum { CHECK = 28, MOST_OCTETS = 512, MOST_N = MOST_OCTETS + 4, MOST_STEPS = 8 * MOST_N, REPORTS = 80 };

static const int LENGTHS[] = {1, 20, 54, 512};

enum reading { HARD, SOFT };
static const char *const NAMES[] = {"hard", "soft"};

// ---- the row of numbers that looks like chance ----

static const uint32_t SEED = 2026;

static uint8_t next(uint32_t *noise) {
    *noise = *noise * 1664525u + 1013904223u;
    return *noise >> 24;
}

// ---- the register ----

// The state is 8 * m1 + 4 * m2 + 2 * m3 + m4, and the outputs are 8 * v1 + 4 * v2 + 2 * v3 + v4.
static uint8_t OUTPUTS[16][2], NEXT[16][2], FEEDBACK[16];

// Fills the tables by the rule of the register.
static void make_tables(void) {
    for (int state = 0; state < 16; state++) {
        int m1 = state >> 3, m2 = state >> 2 & 1, m3 = state >> 1 & 1, m4 = state & 1;
        int d = m4 ^ m2 ^ m1;
        FEEDBACK[state] = d;
        for (int u = 0; u < 2; u++) {
            int v1 = u, v2 = m3 ^ m2 ^ m1 ^ u, v3 = m3 ^ m1 ^ u, v4 = m3 ^ m2 ^ u;
            OUTPUTS[state][u] = 8 * v1 + 4 * v2 + 2 * v3 + v4;
            NEXT[state][u] = 8 * (u ^ d) + (state >> 1);
        }
    }
}

// ---- a report's bits and its check ----

static int bit_of(const uint8_t *octets, int p) { return octets[p / 8] >> (p % 8) & 1; }

// The 8 * t bits of a report, and behind them the 28 of its check, the highest term first.
static void message_bits(const uint8_t *report, int t, uint8_t *bits) {
    uint32_t r = 0;
    for (int p = 0; p < 8 * t; p++) {
        bits[p] = bit_of(report, p);
        int top = (r >> (CHECK - 1) & 1) ^ bits[p];
        r = r << 1 & 0xfffffff;
        if (top)
            r ^= 0x8000069; // x^27 + x^6 + x^5 + x^3 + 1
    }
    for (int i = 0; i < CHECK; i++)
        bits[8 * t + i] = r >> (CHECK - 1 - i) & 1;
}

// Whether the last 28 bits of a message are the check of those before.
static int check_fits(const uint8_t *octets, int t) {
    uint8_t bits[MOST_STEPS];
    message_bits(octets, t, bits);
    for (int i = 0; i < CHECK; i++)
        if (bits[8 * t + i] != bit_of(octets, 8 * t + i))
            return 0;
    return 1;
}

// ---- the plain encoder and the buffer ----

// Four octets of outputs for each step, each 0 or 1, with the tail.
static void encode_plain(const uint8_t *bits, int count, uint8_t *coded) {
    int state = 0;
    for (int s = 0; s < count + 4; s++) {
        int u = s < count ? bits[s] : FEEDBACK[state];
        int v = OUTPUTS[state][u];
        coded[4 * s] = v >> 3;
        coded[4 * s + 1] = v >> 2 & 1;
        coded[4 * s + 2] = v >> 1 & 1;
        coded[4 * s + 3] = v & 1;
        state = NEXT[state][u];
    }
}

// The place of an output, 0 to 3, of a step in the buffer of a block of n octets, in order R.
static int place_of(int n, int output, int step) {
    static const int INDEX[8] = {0, 4, 2, 6, 1, 5, 3, 7}; // its own inverse
    if (output == 0)
        return step;
    return 8 * n + n * (8 * (output - 1) + INDEX[step % 8]) + step / 8;
}

// The buffer of 4 * n octets.
static void fill_buffer(const uint8_t *coded, int n, uint8_t *buffer) {
    memset(buffer, 0, 4 * n);
    for (int s = 0; s < 8 * n; s++)
        for (int v = 0; v < 4; v++) {
            int p = place_of(n, v, s);
            buffer[p / 8] |= coded[4 * s + v] << (p % 8);
        }
}

// ---- the plain decoder ----

// A Viterbi decoder with exact weights. `heard` has four levels for each step: positive for 1, negative for 0, 0 for missing.
static uint32_t decode_plain(const int8_t *heard, int steps, uint16_t *survivors, uint8_t *target) {
    const uint32_t far = 1u << 30;
    uint32_t old[16], new[16];
    for (int s = 0; s < 16; s++)
        old[s] = s ? far : 0;
    for (int t = 0; t < steps; t++) {
        uint32_t against[4][2], costs[16];
        for (int v = 0; v < 4; v++) {
            int level = heard[4 * t + v];
            against[v][0] = level > 0 ? level : 0;
            against[v][1] = level < 0 ? -level : 0;
        }
        for (int v = 0; v < 16; v++)
            costs[v] = against[0][v >> 3] + against[1][v >> 2 & 1] + against[2][v >> 1 & 1] + against[3][v & 1];
        uint16_t word = 0;
        for (int s = 0; s < 16; s++) {
            int even = 2 * s % 16, odd = even + 1;
            uint32_t a = old[even] + costs[OUTPUTS[even][s >> 3 ^ FEEDBACK[even]]];
            uint32_t b = old[odd] + costs[OUTPUTS[odd][s >> 3 ^ FEEDBACK[odd]]];
            new[s] = a <= b ? a : b;
            word |= (b < a) << s;
        }
        survivors[t] = word;
        memcpy(old, new, sizeof old);
    }
    memset(target, 0, steps / 8);
    int state = 0;
    for (int t = steps - 1; t >= 0; t--) {
        int from = 2 * state % 16 + (survivors[t] >> state & 1);
        target[t / 8] |= (state >> 3 ^ FEEDBACK[from]) << (t % 8);
        state = from;
    }
    return old[0];
}

// ---- blocks ----

struct block {
    enum reading reading;
    int t, n;
    uint8_t report[MOST_OCTETS];
    int8_t heard[4 * MOST_STEPS];  // in the order of the steps
    int8_t turned[4 * MOST_STEPS]; // the same in libosmocore's sense: positive for 0. A hard bit is 127 or -127
};

// Makes the block that crates/pace makes of this length and reading.
static void make_block(struct block *block, enum reading reading, int t) {
    static uint8_t bits[MOST_STEPS], coded[4 * MOST_STEPS], buffer[4 * MOST_N];
    static int8_t places[4 * MOST_STEPS];
    int n = t + 4;
    uint32_t noise = SEED;
    block->reading = reading;
    block->t = t;
    block->n = n;
    for (int i = 0; i < t; i++)
        block->report[i] = next(&noise);
    message_bits(block->report, t, bits);
    encode_plain(bits, 8 * t + CHECK, coded);
    fill_buffer(coded, n, buffer);
    for (int p = 0; p < 32 * n; p++) {
        int bit = bit_of(buffer, p) ^ (next(&noise) % 20 == 0);
        int size = reading == SOFT ? next(&noise) % 64 + 1 : 1;
        places[p] = bit ? size : -size;
    }
    for (int s = 0; s < 8 * n; s++)
        for (int v = 0; v < 4; v++) {
            int level = places[place_of(n, v, s)];
            block->heard[4 * s + v] = level;
            block->turned[4 * s + v] = reading == HARD ? -127 * level : -level;
        }
}

// Tells what was named, in the words of crates/pace, behind the name of the peer.
static void tell(const char *peer, const struct block *block, const char *weight, const uint8_t *named) {
    printf("%s %s %d %s %s ", peer, NAMES[block->reading], block->t, weight, check_fits(named, block->t) ? "true" : "false");
    for (int i = 0; i < block->n; i++)
        printf("%02x", named[i]);
    printf("\n");
}

static int64_t now(void) {
    struct timespec t;
    clock_gettime(CLOCK_MONOTONIC, &t);
    return t.tv_sec * 1000000000ll + t.tv_nsec;
}

// ---- each peer's decode ----

// Decodes a block, and answers a number that depends on the work.
typedef int64_t decode(const struct block *block);

static uint8_t plain_named[MOST_N];
static uint16_t plain_survivors[MOST_STEPS];

static int64_t plain(const struct block *block) {
    return decode_plain(block->heard, 8 * block->n, plain_survivors, plain_named);
}

static void time_decodes(const char *peer, decode *decode, const struct block *block, int rounds, int steps) {
    int times = steps / (8 * block->n) + 1;
    for (int i = 0; i < rounds; i++) {
        int64_t sum = 0, start = now();
        for (int j = 0; j < times; j++)
            sum += decode(block);
        fprintf(stderr, "%s %s %d %d %lld %lld\n", peer, NAMES[block->reading], block->t, times, (long long)(now() - start), (long long)sum);
    }
}

static void plain_decodes(const struct block *block, int rounds, int steps) {
    char weight[24];
    snprintf(weight, sizeof weight, "%lld", (long long)plain(block));
    tell("plain", block, weight, plain_named);
    time_decodes("plain", plain, block, rounds, steps);
}

#ifdef OSMOCORE

// The same tables with m1 lowest in a state's number, as libosmocore's vector code takes them to be.
static uint8_t osmo_outputs[16][2], osmo_next[16][2], osmo_term_outputs[16], osmo_term_next[16];
static struct osmo_conv_code osmo_code;

static int reversed(int state) { return state >> 3 | (state >> 1 & 2) | (state << 1 & 4) | (state << 3 & 8); }

static void make_osmo_code(int t) {
    for (int s = 0; s < 16; s++) {
        int state = reversed(s);
        for (int u = 0; u < 2; u++) {
            osmo_outputs[s][u] = OUTPUTS[state][u];
            osmo_next[s][u] = reversed(NEXT[state][u]);
        }
        osmo_term_outputs[s] = osmo_outputs[s][FEEDBACK[state]];
        osmo_term_next[s] = osmo_next[s][FEEDBACK[state]];
    }
    osmo_code = (struct osmo_conv_code){
        .N = 4, .K = 5, .len = 8 * t + CHECK, .term = CONV_TERM_FLUSH,
        .next_output = osmo_outputs, .next_state = osmo_next,
        .next_term_output = osmo_term_outputs, .next_term_state = osmo_term_next,
    };
}

static ubit_t osmo_bits[MOST_STEPS];
static struct osmo_conv_decoder osmo_decoder;

// The exact interface, whose decoder and its store are made once, outside the time.
static int64_t osmo_exact(const struct block *block) {
    osmo_conv_decode_reset(&osmo_decoder, 0);
    int done = osmo_conv_decode_scan(&osmo_decoder, block->turned, osmo_code.len);
    osmo_conv_decode_flush(&osmo_decoder, &block->turned[done]);
    return osmo_conv_decode_get_output(&osmo_decoder, osmo_bits, 1, 0);
}

// The call that does it all at once. It answers no weight.
static int64_t osmo_whole(const struct block *block) {
    osmo_conv_decode(&osmo_code, block->turned, osmo_bits);
    return osmo_bits[0] + osmo_bits[osmo_code.len - 1];
}

// What a peer named as bits of the message: as octets, with the tail.
static void osmo_named(const struct block *block, uint8_t *named) {
    int state = 0;
    memset(named, 0, block->n);
    for (int s = 0; s < 8 * block->n; s++) {
        int u = s < osmo_code.len ? osmo_bits[s] : FEEDBACK[state];
        named[s / 8] |= u << (s % 8);
        state = NEXT[state][u];
    }
}

// The weight of a message by the levels of a block.
static int64_t weigh(const struct block *block, const ubit_t *bits) {
    static uint8_t coded[4 * MOST_STEPS];
    int64_t sum = 0;
    encode_plain(bits, osmo_code.len, coded);
    for (int i = 0; i < 32 * block->n; i++)
        if ((block->heard[i] > 0) != coded[i])
            sum += abs(block->heard[i]);
    return sum;
}

// The library's vector code for this rate and length, which it chooses at the first call. It is no part of the library's header.
typedef void metrics(const int8_t *, const int16_t *, int16_t *, int16_t *, int);
extern metrics *osmo_conv_metrics_k5_n4 __attribute__((weak));

static metrics *vector_code;
static int vector_calls;

static void count_vector(const int8_t *heard, const int16_t *outputs, int16_t *sums, int16_t *paths, int norm) {
    vector_calls++;
    vector_code(heard, outputs, sums, paths, norm);
}

// How often one decode calls the vector code: once for each step, where the library uses it at all.
static int count_vector_calls(const struct block *block) {
    if (!&osmo_conv_metrics_k5_n4)
        return 0;
    vector_code = osmo_conv_metrics_k5_n4;
    vector_calls = 0;
    osmo_conv_metrics_k5_n4 = count_vector;
    osmo_whole(block);
    osmo_conv_metrics_k5_n4 = vector_code;
    return vector_calls;
}

static void osmo_decodes(const struct block *block, int rounds, int steps) {
    uint8_t named[MOST_N];
    char weight[24];
    make_osmo_code(block->t);
    osmo_conv_decode_init(&osmo_decoder, &osmo_code, osmo_code.len, 0);
    snprintf(weight, sizeof weight, "%lld", (long long)osmo_exact(block));
    osmo_named(block, named);
    tell("osmo_metric", block, weight, named);
    snprintf(weight, sizeof weight, "%lld", (long long)weigh(block, osmo_bits));
    tell("osmo_exact", block, weight, named);
    time_decodes("osmo_exact", osmo_exact, block, rounds, steps);
    osmo_conv_decode_deinit(&osmo_decoder);
    osmo_whole(block);
    osmo_named(block, named);
    snprintf(weight, sizeof weight, "%lld", (long long)weigh(block, osmo_bits));
    tell("osmo_whole", block, weight, named);
    printf("vector_steps %s %d %d\n", NAMES[block->reading], block->t, count_vector_calls(block));
    time_decodes("osmo_whole", osmo_whole, block, rounds, steps);
}

#endif

// ---- encoding ----

static uint8_t reports[REPORTS][MOST_OCTETS], messages[REPORTS][MOST_STEPS];

static uint32_t digest(uint32_t sum, const uint8_t *octets, int count) {
    for (int i = 0; i < count; i++)
        sum = (sum ^ octets[i]) * 16777619u;
    return sum;
}

static uint8_t coded[4 * MOST_STEPS], buffer[4 * MOST_N];

// From a report's octets to the buffer's, as ours does.
static int64_t plain_octets(int i) {
    static uint8_t bits[MOST_STEPS];
    message_bits(reports[i], MOST_OCTETS, bits);
    encode_plain(bits, 8 * MOST_OCTETS + CHECK, coded);
    fill_buffer(coded, MOST_N, buffer);
    return buffer[4 * MOST_N - 1];
}

// From the message's bits to the outputs' bits, with no check and no columns: all that the call below does.
static int64_t plain_bits(int i) {
    encode_plain(messages[i], 8 * MOST_OCTETS + CHECK, coded);
    return coded[4 * MOST_STEPS - 1];
}

#ifdef OSMOCORE
static int64_t osmo_encode(int i) {
    osmo_conv_encode(&osmo_code, messages[i], coded);
    return coded[4 * MOST_STEPS - 1];
}

// The library's call in the place of the plain loop, with check and columns.
static int64_t osmo_octets(int i) {
    static uint8_t bits[MOST_STEPS];
    message_bits(reports[i], MOST_OCTETS, bits);
    osmo_conv_encode(&osmo_code, bits, coded);
    fill_buffer(coded, MOST_N, buffer);
    return buffer[4 * MOST_N - 1];
}
#endif

static void time_encodes(const char *name, int64_t (*encode)(int), int rounds, int batches) {
    uint32_t d = 2166136261u;
    for (int i = 0; i < REPORTS; i++) {
        encode(i);
        fill_buffer(coded, MOST_N, buffer);
        d = digest(d, buffer, 4 * MOST_N);
    }
    printf("%s encode %08x\n", name, d);
    for (int r = 0; r < rounds; r++) {
        int64_t sum = 0, start = now();
        for (int b = 0; b < batches; b++)
            for (int i = 0; i < REPORTS; i++)
                sum += encode(i);
        fprintf(stderr, "%s encode %d %d %lld %lld\n", name, MOST_OCTETS, batches, (long long)(now() - start), (long long)sum);
    }
}

static void encodes(int rounds, int batches) {
    uint32_t noise = SEED;
    for (int i = 0; i < REPORTS; i++) {
        for (int j = 0; j < MOST_OCTETS; j++)
            reports[i][j] = next(&noise);
        message_bits(reports[i], MOST_OCTETS, messages[i]);
    }
    time_encodes("plain_bits", plain_bits, rounds, batches);
    time_encodes("plain_octets", plain_octets, rounds, batches);
#ifdef OSMOCORE
    make_osmo_code(MOST_OCTETS);
    time_encodes("osmo_bits", osmo_encode, rounds, batches);
    time_encodes("osmo_octets", osmo_octets, rounds, batches);
#endif
}

int main(int argc, char **argv) {
    static struct block block;
    int rounds = argc > 1 ? atoi(argv[1]) : 1, steps = argc > 2 ? atoi(argv[2]) : 1, batches = argc > 3 ? atoi(argv[3]) : 1;
    make_tables();
    for (int i = 0; i < 4; i++)
        for (int reading = HARD; reading <= SOFT; reading++) {
            make_block(&block, reading, LENGTHS[i]);
            plain_decodes(&block, rounds, steps);
#ifdef OSMOCORE
            osmo_decodes(&block, rounds, steps);
#endif
        }
    encodes(rounds, batches);
}
