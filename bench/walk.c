/* The walk over a job's nodes as a plain C loop, to compare the proved program `bench` with: the same
   leaves, the same values, the same checksum. Usage: walk words|ternary COUNT < JOB */
#include <stdint.h>
#include <stdio.h>
#include <stdlib.h>
#include <string.h>

enum { MAX_SIGNALS = 528, MAX_NODES = 480, MAX_OUTPUTS = 48, MINTERMS = 256 };

struct node {
    unsigned count;
    uint16_t fanins[8];
    uint8_t function[32];
};

static unsigned inputs, nodes, outputs;
static struct node node[MAX_NODES];
static uint16_t output[MAX_OUTPUTS];

static unsigned word(const uint8_t *p) { return p[0] + 256u * p[1]; }

/* Reads a job that is known to be one. */
static void read_job(void) {
    static uint8_t bytes[65536];
    size_t length = fread(bytes, 1, sizeof bytes, stdin);
    if (length < 4) exit(1);
    inputs = bytes[0], outputs = bytes[1], nodes = word(bytes + 2);
    for (unsigned j = 0; j < outputs; j++) output[j] = word(bytes + 4 + 4 * nodes + 2 * j);
    for (unsigned n = 0; n < nodes; n++) {
        const uint8_t *p = bytes + word(bytes + 4 + 4 * n);
        node[n].count = p[0];
        for (unsigned i = 0; i < p[0]; i++) node[n].fanins[i] = word(p + 1 + 2 * i);
        unsigned wide = p[0] < 3 ? 1 : 1u << (p[0] - 3);
        memcpy(node[n].function, p + 1 + 2 * p[0], wide);
    }
}

static uint64_t next(uint64_t *z) {
    *z ^= *z << 13, *z ^= *z >> 7, *z ^= *z << 17;
    return *z;
}

static uint64_t bit(const struct node *g, unsigned y) { return g->function[y / 8] >> (y % 8) & 1; }

/* 64 lanes */
static uint64_t value_word(const struct node *g, const uint64_t *values) {
    uint64_t fold[MINTERMS];
    for (unsigned y = 0; y < 1u << g->count; y++) fold[y] = -bit(g, y);
    for (unsigned i = 0; i < g->count; i++) {
        uint64_t s = values[g->fanins[i]];
        for (unsigned y = 0; y < 1u << (g->count - i - 1); y++) fold[y] = (s & fold[2 * y + 1]) | (~s & fold[2 * y]);
    }
    return fold[0];
}

/* three-valued bits: bit 0 says that the value may be 0, bit 1 that it may be 1 */
static uint8_t pick(uint8_t s, uint8_t h, uint8_t l) { return (s & 2 ? h : 0) | (s & 1 ? l : 0); }

static uint8_t value_ternary(const struct node *g, const uint8_t *values) {
    uint8_t fold[MINTERMS];
    for (unsigned y = 0; y < 1u << g->count; y++) fold[y] = 1 + bit(g, y);
    for (unsigned i = 0; i < g->count; i++) {
        uint8_t s = values[g->fanins[i]];
        for (unsigned y = 0; y < 1u << (g->count - i - 1); y++) fold[y] = pick(s, fold[2 * y + 1], fold[2 * y]);
    }
    return fold[0];
}

int main(int argc, char **argv) {
    if (argc != 3) return 1;
    unsigned long count = strtoul(argv[2], NULL, 10);
    uint64_t z = 1, sum = 0;
    read_job();
    if (!strcmp(argv[1], "words")) {
        static uint64_t values[MAX_SIGNALS];
        for (unsigned long w = 0; w < count; w++) {
            for (unsigned i = 0; i < inputs; i++) values[i] = next(&z);
            for (unsigned n = 0; n < nodes; n++) values[inputs + n] = value_word(&node[n], values);
            for (unsigned j = 0; j < outputs; j++) sum = sum * 3 + values[output[j]];
        }
    } else {
        static uint8_t values[MAX_SIGNALS];
        for (unsigned long w = 0; w < count; w++) {
            for (unsigned i = 0; i < inputs; i++) values[i] = 1 + next(&z) % 3;
            for (unsigned n = 0; n < nodes; n++) values[inputs + n] = value_ternary(&node[n], values);
            for (unsigned j = 0; j < outputs; j++) sum = sum * 3 + values[output[j]];
        }
    }
    printf("%llu\n", (unsigned long long)sum);
    return 0;
}
