// Prints MiB/s of AES-128 over 64 MiB and the last block, as `speed aes` does.
#include "aes.h"
#include <stdio.h>

#define MEBIBYTES 64u

int main(void) {
    uint8_t keys[11][16], block[16] = {0};
    struct timespec start;
    key_schedule(bench_key, keys);
    clock_gettime(CLOCK_MONOTONIC, &start);
    for (uint32_t i = 0; i < MEBIBYTES * 65536; i++) encipher(keys, block);
    printf("%.1f MiB/s ", MEBIBYTES / seconds_since(&start));
    for (int i = 0; i < 16; i++) printf("%02X", block[i]);
    printf("\n");
    return 0;
}
