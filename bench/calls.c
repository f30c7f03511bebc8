// Arrive in plain C, for wrappers of signed-in sessions, and prints what `speed calls` prints: the same questions in the same
// order, the look-up among eight slots, opening in the work area, what the telegram is, delivery, and the work area cleared.
#include "sealer.h"
#include <stdio.h>

enum { SLOTS = 8, BATCH = 64, FRAME = 512 };

struct slot {
    uint16_t number; // 0: free
    uint8_t key[16], x[32], y[32];
    int any;
    uint64_t last, own;
    uint8_t user; // 0: not signed in
    uint32_t idle;
};

struct gateway {
    uint64_t serial;
    struct slot slots[SLOTS];
};

enum { NOTHING, DELIVERED, PUT_OUT, TAKEN, REFUSED };

struct answer {
    int kind;
    uint8_t refusal, user;
    uint16_t session;
    uint64_t number;
    size_t length;
};

static struct answer refuse(uint8_t number) {
    struct answer a = {REFUSED, number, 0, 0, 0, 0};
    return a;
}

static uint64_t number_at(const uint8_t *xs, int n) {
    uint64_t value = 0;
    for (int i = 0; i < n; i++) value = value << 8 | xs[i];
    return value;
}

static int begins(const uint8_t *xs, size_t n, const char *start, size_t m) { return n >= m && memcmp(xs, start, m) == 0; }

static struct answer act(struct slot *slot, uint64_t number, const uint8_t *telegram, size_t n, uint8_t *out) {
    struct answer taken = {TAKEN, 0, 0, 0, 0, 0};
    int good = n >= 6 && begins(telegram, n, "\x06\x10", 2) && number_at(telegram + 4, 2) == n && telegram[2] != 9;
    if (slot->user == 0) return refuse(0); // all are signed in here
    if (begins(telegram, n, "\x06\x10\x09\x53", 4)) good = 0;
    if (n == 8 && begins(telegram, n, "\x06\x10\x09\x54\x00\x08\x05", 7)) {
        memset(slot, 0, sizeof *slot);
        return taken;
    }
    slot->last = number;
    slot->any = 1;
    slot->idle = 0;
    if (!good || (telegram[2] == 3 && slot->user != 1)) return taken;
    memcpy(out, telegram, n);
    struct answer a = {DELIVERED, 0, slot->user, slot->number, number, n};
    return a;
}

static struct answer session_wrapper(struct gateway *g, const uint8_t *frame, size_t n, uint8_t *out, uint8_t *work) {
    uint16_t session = (uint16_t)number_at(frame + 6, 2);
    uint64_t number = number_at(frame + 8, 6);
    size_t size = n - 38;
    struct slot *slot = NULL;
    for (int i = 0; i < SLOTS && slot == NULL; i++)
        if (session != 0 && g->slots[i].number == session) slot = &g->slots[i];
    if (slot == NULL || slot->idle >= (slot->user == 0 ? 10000u : 60000u)) return refuse(6);
    if (number_at(frame + 14, 6) == g->serial) return refuse(7);
    if (slot->any && number <= slot->last) return refuse(8);
    memcpy(work, frame + 22, size);
    if (!open_sealed(slot->key, frame + 8, frame, 8, work, size, frame + n - 16)) return refuse(9);
    return act(slot, number, work, size, out);
}

static struct answer arrived(struct gateway *g, const uint8_t *frame, size_t n, uint8_t *out, uint8_t *work) {
    if (n < 6 || n > FRAME || !begins(frame, n, "\x06\x10", 2) || number_at(frame + 4, 2) != n) return refuse(2);
    if (number_at(frame + 2, 2) != 0x0950) return refuse(3);
    if (n < 44) return refuse(4);
    return session_wrapper(g, frame, n, out, work);
}

__attribute__((noinline)) static struct answer arrive(struct gateway *g, const uint8_t *frame, size_t n, uint8_t *out, size_t out_n, uint8_t *work, size_t work_n) {
    struct answer a = out_n < FRAME || work_n < FRAME ? refuse(1) : arrived(g, frame, n, out, work);
    memset(work, 0, work_n);
    return a;
}

struct line {
    struct gateway gateway;
    uint8_t out[FRAME], work[FRAME];
    uint64_t number, digest;
};

static void open_session(struct line *line, uint16_t session) {
    struct slot *slot = line->gateway.slots;
    while (slot->number != 0) slot++;
    memset(slot, 0, sizeof *slot);
    slot->number = session;
    memcpy(slot->key, bench_key, 16);
    slot->own = 1;
    slot->any = 1;
    slot->user = 1;
}

static void note(struct line *line, struct answer a) {
    uint64_t x = a.kind == DELIVERED ? a.number + a.length + line->out[a.length - 1] : a.refusal;
    line->digest = (line->digest ^ x) * 0x100000001b3u;
}

static void make_frame(uint16_t session, uint64_t number, size_t n, uint8_t frame[FRAME]) {
    uint8_t mac[16];
    size_t size = n + 38;
    memset(frame, (int)(number & 0xff), FRAME);
    memcpy(frame, "\x06\x10\x09\x50", 4);
    frame[4] = (uint8_t)(size >> 8);
    frame[5] = (uint8_t)size;
    frame[6] = (uint8_t)(session >> 8);
    frame[7] = (uint8_t)session;
    for (int i = 0; i < 6; i++) frame[8 + i] = (uint8_t)(number >> (40 - 8 * i));
    memcpy(frame + 14, "\x00\xfa\x00\x00\x00\x02\x00\x00\x06\x10\x05\x30", 12);
    frame[26] = (uint8_t)(n >> 8);
    frame[27] = (uint8_t)n;
    seal(bench_key, frame + 8, frame, 8, frame + 22, n, mac);
    memcpy(frame + 22 + n, mac, 16);
}

static void print_rate(struct line *line, uint32_t calls, double seconds, const char *what) {
    printf("%.0f calls/s %s-%016llX\n", calls / seconds, what, (unsigned long long)line->digest);
}

static void measure_deliveries(struct line *line, uint16_t session, size_t n, uint32_t batches, const char *what) {
    static uint8_t frames[BATCH][FRAME];
    double seconds = 0;
    for (uint32_t b = 0; b < batches; b++) {
        struct timespec start;
        for (int i = 0; i < BATCH; i++) make_frame(session, ++line->number, n, frames[i]);
        clock_gettime(CLOCK_MONOTONIC, &start);
        for (int i = 0; i < BATCH; i++) note(line, arrive(&line->gateway, frames[i], n + 38, line->out, FRAME, line->work, FRAME));
        seconds += seconds_since(&start);
    }
    print_rate(line, batches * BATCH, seconds, what);
}

// The same frame again and again, with another tag each time.
static void measure_refusals(struct line *line, uint8_t frame[FRAME], size_t n, uint32_t calls, const char *what) {
    struct timespec start;
    clock_gettime(CLOCK_MONOTONIC, &start);
    for (uint32_t i = 0; i < calls; i++) {
        frame[21] = (uint8_t)i;
        note(line, arrive(&line->gateway, frame, n + 38, line->out, FRAME, line->work, FRAME));
    }
    print_rate(line, calls, seconds_since(&start), what);
}

int main(void) {
    static struct line line;
    static uint8_t frame[FRAME];
    line.gateway.serial = 0x00fa00000001;
    open_session(&line, 1);
    measure_deliveries(&line, 1, 8, 4000, "8-octets");
    measure_deliveries(&line, 1, 64, 2000, "64-octets");
    measure_deliveries(&line, 1, 474, 500, "474-octets");
    for (uint16_t session = 2; session < 9; session++) open_session(&line, session);
    measure_deliveries(&line, 8, 64, 2000, "64-octets-of-the-eighth-session");
    measure_deliveries(&line, 1, 64, 2000, "64-octets-after-500000-calls");
    make_frame(1, line.number + 1, 64, frame);
    frame[101] ^= 1;
    measure_refusals(&line, frame, 64, 100000, "64-octets-refused-9");
    frame[0] = 0x07;
    measure_refusals(&line, frame, 64, 10000000, "64-octets-refused-2");
    return 0;
}
