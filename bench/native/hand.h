/* The kernels by hand (hand.c), and by hand over the built-ins of a text (same.c). */
#ifndef HAND_H
#define HAND_H

#include <stdint.h>

/* A record of three words, as record.cg has it. */
struct state {
    uint32_t seed;
    uint32_t total;
    uint32_t turns;
};

/* A record of 80 bytes, as wide.cg has it. */
struct wide {
    uint64_t a, b, c, d, e, f, g, h, i, j;
};

/* What a look-up comes to. */
enum look { ABSENT, CROOKED, IS };

uint32_t sum_hand(const uint8_t *bytes, uint32_t length);
void sort_hand(uint32_t *words, uint32_t length);
void product_hand(uint32_t *result, const uint32_t *left, const uint32_t *right, uint32_t size);
void record_hand(struct state *state, uint32_t n);
uint32_t crc_hand(const uint8_t *bytes, uint32_t length);
uint32_t shared_hand(const uint8_t *bytes, uint32_t length);
void wide_hand(struct wide *state, uint32_t n);
uint32_t bits_hand(const uint8_t *bitmap, uint32_t length);
enum look lookup_hand(const uint8_t *block, uint32_t end, const uint8_t *name, uint32_t wanted, uint32_t *number);

struct W8;
struct W32;

uint32_t sum_same(const struct W8 *bytes);
void sort_same(struct W32 *words);
void product_same(struct W32 *result, const struct W32 *left, const struct W32 *right, uint32_t size);
uint32_t crc_same(const struct W8 *bytes);
uint32_t shared_same(const struct W8 *bytes);
uint32_t bits_same(const struct W8 *bitmap);
enum look lookup_same(const struct W8 *block, const struct W8 *name, uint32_t *number);

#endif
