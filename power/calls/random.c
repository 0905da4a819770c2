/* Random numbers from a seed: splitmix64. */
#include "calls.h"

static uint64_t state;

void seed(uint64_t from) { state = from; }

uint64_t draw(void) {
    state += UINT64_C(0x9E3779B97F4A7C15);
    uint64_t z = state;
    z = (z ^ (z >> 30)) * UINT64_C(0xBF58476D1CE4E5B9);
    z = (z ^ (z >> 27)) * UINT64_C(0x94D049BB133111EB);
    return z ^ (z >> 31);
}

uint32_t any_word(void) { return (uint32_t)(draw() >> 32); }

uint32_t below(uint32_t n) { return (uint32_t)((draw() >> 32) * n >> 32); }

uint32_t between(uint32_t low, uint32_t high) { return low + below(high - low + 1); }

bool percent(uint32_t p) { return below(100) < p; }

uint32_t pick(const uint32_t *from, size_t count) { return from[below((uint32_t)count)]; }

void fill(uint8_t *bytes, size_t len) {
    uint64_t drawn = 0;
    for (size_t i = 0; i < len; i++) {
        if (i % 8 == 0)
            drawn = draw();
        bytes[i] = (uint8_t)(drawn >> i % 8 * 8);
    }
}
