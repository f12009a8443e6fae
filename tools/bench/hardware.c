/* Hardware binary32 additions, with the rounding mode set, on operands by the rule of bench.rt.txt. Prints the least
   processor time of several rounds, in nanoseconds, and how many pairs a round adds. */
#include <fenv.h>
#include <stdint.h>
#include <stdio.h>
#include <string.h>
#include <time.h>

#define SUMS 100000u
#define ROUNDS 200

static uint32_t next(uint32_t s) { s ^= s << 13; s ^= s >> 17; return s ^ (s << 5); }

static float operand(uint32_t s) {
    uint32_t bits = ((s & 0x0FFFFFFF) + 0x37800000) | (s & 0x80000000);
    float f;
    memcpy(&f, &bits, 4);
    return f;
}

static uint32_t bits_of(float f) { uint32_t b; memcpy(&b, &f, 4); return b; }

static double now(void) { struct timespec t; clock_gettime(CLOCK_PROCESS_CPUTIME_ID, &t); return t.tv_sec * 1e9 + t.tv_nsec; }

/* one addition a pair, the mode set once */
static uint32_t fixed(int mode, uint32_t seed) {
    uint32_t kept = 0;
    fesetround(mode);
    for (uint32_t i = 0; i < SUMS; i++) {
        seed = next(seed); float x = operand(seed);
        seed = next(seed); float y = operand(seed);
        volatile float z = x + y;
        kept += bits_of(z);
    }
    fesetround(FE_TONEAREST);
    return kept;
}

/* four additions a pair, the mode set before each */
static uint32_t all(int unused, uint32_t seed) {
    (void)unused;
    static const int modes[4] = {FE_TONEAREST, FE_UPWARD, FE_DOWNWARD, FE_TOWARDZERO};
    uint32_t kept = 0;
    for (uint32_t i = 0; i < SUMS; i++) {
        seed = next(seed); volatile float x = operand(seed);
        seed = next(seed); volatile float y = operand(seed);
        for (int m = 0; m < 4; m++) {
            fesetround(modes[m]);
            volatile float z = x + y;
            kept += bits_of(z);
        }
    }
    fesetround(FE_TONEAREST);
    return kept;
}

static void measure(const char *name, uint32_t (*sums)(int, uint32_t), int mode) {
    double least = 1e18;
    uint32_t seed = 2463534242u;
    for (int i = 0; i < ROUNDS; i++) {
        double began = now();
        uint32_t kept = sums(mode, seed);
        double time = now() - began;
        least = time < least ? time : least;
        seed = next(seed ^ kept) | 1;
    }
    printf("hardware, %s: %.0f ns for %u\n", name, least, SUMS);
}

int main(void) {
    measure("to nearest", fixed, FE_TONEAREST);
    measure("up", fixed, FE_UPWARD);
    measure("four modes set in turn", all, 0);
    return 0;
}
