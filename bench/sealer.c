// Seals and opens telegrams in plain C, and prints what `speed sealer` prints.
#include "sealer.h"
#include <stdio.h>

#define ROUNDS 40000u

static int measure(size_t n) {
    static const uint8_t data[8] = {0x06, 0x10, 0x09, 0x50, 0x00, 0x3e, 0x00, 0x01};
    uint8_t text[474], nonce[14] = {0}, mac[16];
    struct timespec start;
    int opened = 1;
    memset(text, 0x5a, n);
    clock_gettime(CLOCK_MONOTONIC, &start);
    for (uint32_t i = 0; i < ROUNDS; i++) {
        seal(bench_key, nonce, data, 8, text, n, mac);
        opened &= open_sealed(bench_key, nonce, data, 8, text, n, mac);
        memcpy(nonce, mac, 14);
    }
    printf("%.0f frames/s %zu-octets-", 2 * ROUNDS / seconds_since(&start), n);
    for (int i = 0; i < 14; i++) printf("%02X", nonce[i]);
    printf("\n");
    return opened;
}

int main(void) { return measure(8) && measure(64) && measure(474) ? 0 : 1; }
