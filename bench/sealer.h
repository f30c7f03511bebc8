// The KNX sealer in plain C over the same AES, the same algorithm as crates/sealer: CBC octet by octet, then counter mode.
#ifndef BENCH_SEALER_H
#define BENCH_SEALER_H
#include "aes.h"

static void counter(uint8_t keys[11][16], const uint8_t nonce[14], uint8_t i, uint8_t block[16]) {
    memcpy(block, nonce, 14);
    block[14] = 0xff;
    block[15] = i;
    encipher(keys, block);
}

struct chain {
    uint8_t state[16];
    size_t at;
};

static void absorb(struct chain *c, uint8_t keys[11][16], const uint8_t *xs, size_t n) {
    for (size_t i = 0; i < n; i++) {
        c->state[c->at++] ^= xs[i];
        if (c->at == 16) {
            encipher(keys, c->state);
            c->at = 0;
        }
    }
}

static void make_mac(uint8_t keys[11][16], const uint8_t nonce[14], const uint8_t *data, size_t data_len, const uint8_t *text, size_t n, uint8_t mac[16]) {
    struct chain c = {{0}, 0};
    uint8_t lengths[4] = {(uint8_t)(n >> 8), (uint8_t)n, (uint8_t)(data_len >> 8), (uint8_t)data_len};
    uint8_t mask[16];
    absorb(&c, keys, nonce, 14);
    absorb(&c, keys, lengths, 4);
    absorb(&c, keys, data, data_len);
    absorb(&c, keys, text, n);
    if (c.at != 0) encipher(keys, c.state);
    counter(keys, nonce, 0, mask);
    for (int i = 0; i < 16; i++) mac[i] = c.state[i] ^ mask[i];
}

static void mask_text(uint8_t keys[11][16], const uint8_t nonce[14], uint8_t *text, size_t n) {
    uint8_t block[16];
    for (size_t at = 0; at < n; at += 16) {
        counter(keys, nonce, (uint8_t)(at / 16 + 1), block);
        for (size_t i = 0; i < 16 && at + i < n; i++) text[at + i] ^= block[i];
    }
}

static void seal(const uint8_t key[16], const uint8_t nonce[14], const uint8_t *data, size_t data_len, uint8_t *text, size_t n, uint8_t mac[16]) {
    uint8_t keys[11][16];
    key_schedule(key, keys);
    make_mac(keys, nonce, data, data_len, text, n, mac);
    mask_text(keys, nonce, text, n);
}

static int open_sealed(const uint8_t key[16], const uint8_t nonce[14], const uint8_t *data, size_t data_len, uint8_t *text, size_t n, const uint8_t given[16]) {
    uint8_t keys[11][16], mac[16], difference = 0;
    key_schedule(key, keys);
    mask_text(keys, nonce, text, n);
    make_mac(keys, nonce, data, data_len, text, n, mac);
    for (int i = 0; i < 16; i++) difference |= mac[i] ^ given[i];
    if (difference != 0) memset(text, 0, n);
    return difference == 0;
}

#endif
