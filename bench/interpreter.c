// Times the library's run against a plain interpreter of the same words, the smallest facts of two images, and
// inspections of four.
#include <stdint.h>
#include <stdio.h>
#include <time.h>

uint64_t bench_run(uint32_t rounds);
uint64_t bench_ordinary(uint32_t words);
uint64_t bench_worst(void);
uint64_t bench_inspection(uint32_t shape);

static const uint32_t LOOP[18] = {
    0x3A000, 0x12101, 0x12203, 0x08110, 0x0A205, 0x1C308, 0x14410, 0x28519, 0x2E204, 0x2E705, 0x00628, 0x18730, 0x20110,
    0x31002, 0x0A301, 0x28112, 0x10808, 0x3BFF2,
};

struct entry { uint32_t address; int carry, zero; };
static struct {
    uint8_t r[32];
    int carry, zero, enabled, service;
    uint32_t pc;
    struct entry stack[16];
    int depth;
    uint8_t cells[256];
} m;

// One word, decoded as it comes; -1 where it stops.
static int step(const uint32_t *image, uint32_t words, uint32_t tick) {
    if (m.pc >= words) return -1;
    if (tick & 256 && m.enabled && !m.service) {
        if (m.depth >= 16) return -1;
        m.stack[m.depth++] = (struct entry){m.pc, m.carry, m.zero};
        m.service = 1;
        m.pc = 0;
        return 2;
    }
    uint32_t w = image[m.pc], op = w >> 14, d = w >> 8 & 31, b = w >> 3 & 31, next = m.pc + 1;
    if (w >= 1u << 18) return -1;
    if (op < 10) {
        uint32_t a = m.r[d], v;
        if (w >> 13 & 1) v = w & 255;
        else if (w & 7) return -1;
        else v = m.r[b];
        if (next >= words) return -1;
        uint32_t x;
        switch (op) {
        case 0: case 8: x = a - v; m.carry = a < v; break;
        case 1: v += m.carry; x = a - v; m.carry = a < v; break;
        case 2: x = a + v; m.carry = x > 255; break;
        case 3: x = a + v + m.carry; m.carry = x > 255; break;
        case 4: x = v; break;
        case 5: case 9: x = a & v; break;
        case 6: x = a | v; break;
        default: x = a ^ v; break;
        }
        x &= 255;
        m.zero = x == 0;
        if (op < 8) m.r[d] = (uint8_t)x;
        m.pc = next;
        return 2;
    }
    switch (w >> 13) {
    case 0x14: {
        if ((w & 7) > 3 || next >= words) return -1;
        uint32_t v = m.r[b], x;
        switch (w & 7) {
        case 0: x = v >> 1 | (v & 1) << 7; break;
        case 1: x = (v << 1 & 255) | v >> 7; break;
        case 2: x = v >> 1 | (uint32_t)m.carry << 7; m.carry = v & 1; break;
        default: x = (v << 1 & 255) | (uint32_t)m.carry; m.carry = v >> 7; break;
        }
        m.zero = x == 0;
        m.r[d] = (uint8_t)x;
        m.pc = next;
        return 2;
    }
    case 0x16:
        if (w & 0x1FF8 || (w & 7) > 5 || next >= words) return -1;
        switch (w & 7) {
        case 0: case 1: m.carry = w & 1; break;
        case 2: case 3: m.zero = w & 1; break;
        default: m.enabled = w & 1; break;
        }
        m.pc = next;
        return 2;
    case 0x17: {
        uint32_t page = 256u * m.r[15] + m.r[14], offset = w & 2 ? m.r[b] : b;
        if (next >= words) return -1;
        switch (w & 5) {
        case 0: return -1;
        case 1: m.r[d] = (uint8_t)tick; break;
        case 4: if (page > 0) return -1; m.cells[offset] = m.r[d]; break;
        default: if (page > 0) return -1; m.r[d] = m.cells[offset]; break;
        }
        m.pc = next;
        return 3;
    }
    }
    int32_t offset = (int32_t)(w << 20) >> 20;
    uint32_t target = m.pc + (uint32_t)offset;
    int taken, call;
    if (w >> 15 == 6) {
        int flag = w >> 13 & 1 ? m.carry : m.zero;
        taken = flag != (int)(w >> 12 & 1);
        call = w >> 14 & 1;
    } else switch (w >> 12) {
        case 0x38: taken = 1; call = 1; break;
        case 0x3B: taken = 1; call = 0; break;
        case 0x39: case 0x3A: {
            if (w & 4095) return -1;
            int iret = w >> 12 == 0x3A;
            if ((iret && !m.service) || m.depth == 0) return -1;
            struct entry e = m.stack[m.depth - 1];
            if (e.address >= words) return -1;
            m.depth--;
            if (iret) { m.carry = e.carry; m.zero = e.zero; m.service = 0; }
            m.pc = e.address;
            return 2;
        }
        default: return -1;
    }
    if (!taken) { if (next >= words) return -1; m.pc = next; return 2; }
    if (target >= words) return -1;
    if (call) {
        if (next >= words || m.depth >= 16) return -1;
        m.stack[m.depth++] = (struct entry){next, m.carry, m.zero};
    }
    m.pc = target;
    return 2;
}

static uint64_t plain_run(uint32_t rounds) {
    static uint16_t ticks[65536];
    uint64_t cycles = 0;
    m.pc = 1;
    for (uint32_t i = 0; i < rounds; i++)
        for (uint32_t t = 0; t < 65536; t++) {
            int c = step(LOOP, 18, ticks[t]);
            if (c < 0) return cycles;
            cycles += (uint64_t)c;
        }
    return cycles;
}

static double now(void) {
    struct timespec t;
    clock_gettime(CLOCK_MONOTONIC, &t);
    return (double)t.tv_sec + 1e-9 * (double)t.tv_nsec;
}

int main(void) {
    const uint32_t rounds = 400;
    double best[2] = {1e9, 1e9};
    uint64_t sum[2] = {0, 0};
    for (int i = 0; i < 5; i++) {
        double t = now();
        m = (__typeof__(m)){0};
        sum[0] = plain_run(rounds);
        double u = now();
        sum[1] = bench_run(rounds);
        double v = now();
        if (u - t < best[0]) best[0] = u - t;
        if (v - u < best[1]) best[1] = v - u;
    }
    double steps = 65536.0 * rounds;
    printf("run: plain C %.2f ns a step, library %.2f ns a step, ratio %.2f, cycles %s\n", 1e9 * best[0] / steps,
           1e9 * best[1] / steps, best[1] / best[0], sum[0] == sum[1] ? "agree" : "DIFFER");
    for (uint32_t words = 256; words <= 4096; words *= 2) {
        double least = 1e9;
        uint64_t marked = 0;
        for (int i = 0; i < 50; i++) {
            double t = now();
            marked = bench_ordinary(words);
            double u = now();
            if (u - t < least) least = u - t;
        }
        printf("facts of an ordinary image of %4u words: %.3f ms, %llu marked\n", words, 1e3 * least,
               (unsigned long long)marked);
    }
    double least = 1e9;
    uint64_t marked = 0;
    for (int i = 0; i < 10; i++) {
        double t = now();
        marked = bench_worst();
        double u = now();
        if (u - t < least) least = u - t;
    }
    printf("facts of the worst image of 4096 words: %.3f ms, %llu marked\n", 1e3 * least, (unsigned long long)marked);
    static const char *const shapes[4] = {"ordinary", "backward", "deeply nested", "zigzag"};
    for (uint32_t shape = 0; shape < 4; shape++) {
        double fastest = 1e9;
        uint64_t depth = 0;
        for (int i = 0; i < 20; i++) {
            double t = now();
            depth = bench_inspection(shape);
            double u = now();
            if (u - t < fastest) fastest = u - t;
        }
        if (depth >= 1000) {
            printf("inspection of the %s image: REFUSED %llu\n", shapes[shape], (unsigned long long)depth - 1000);
            return 1;
        }
        printf("inspection of the %s image of 4096 words: %.3f ms, depth %llu\n", shapes[shape], 1e3 * fastest,
               (unsigned long long)depth);
    }
    return 0;
}
