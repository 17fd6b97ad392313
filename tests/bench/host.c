// The times of `sound`, of the check of every block, and of a plain loop that computes the same checks, on arenas that it makes.
#include <stdbool.h>
#include <stdint.h>
#include <stdio.h>
#include <stdlib.h>
#include <string.h>
#include <time.h>

// the static library: a slice is its pointer and its length
bool bench_sound(const uint8_t *arena, size_t len);
uint64_t bench_check(const uint8_t *arena, size_t len);

// plain.c
uint64_t plain_check(const uint8_t *arena, size_t len);

enum { BLOCK = 512, MOST = 4096 };
static uint8_t arena[BLOCK * MOST];

static uint64_t seed = 1;
static uint8_t any(void)
{
    seed = seed * 6364136223846793005u + 1442695040888963407u;
    return (uint8_t)(seed >> 56);
}

static void put32(uint8_t *at, uint32_t v)
{
    for (int i = 0; i < 4; i++) at[i] = (uint8_t)(v >> (8 * i));
}

static void seal(uint8_t *b)
{
    uint32_t s = 0;
    for (uint32_t i = 0; i < 508; i++) s += (i + 1) * b[i];
    put32(b + 508, s);
}

static void head(size_t k, const uint8_t *name, uint32_t length)
{
    uint8_t *b = arena + BLOCK * k;
    memset(b, 0, BLOCK);
    b[0] = 1;
    b[1] = 1;
    memcpy(b + 4, name, 16);
    put32(b + 20, length);
    seal(b);
}

static void data(size_t k, const uint8_t *name, uint32_t number)
{
    uint8_t *b = arena + BLOCK * k;
    memset(b, 0, BLOCK);
    b[0] = 2;
    b[1] = 1;
    memcpy(b + 4, name, 16);
    put32(b + 20, number);
    for (int i = 0; i < 480; i++) b[24 + i] = any();
    seal(b);
}

static void name_of(uint8_t *name)
{
    for (int i = 0; i < 16; i++) name[i] = any();
}

// the bucket of a node file's head (crates/sound/specs/Chain.antt), for the worst case
static uint64_t word(const uint8_t *at)
{
    return at[0] | (uint64_t)at[1] << 8 | (uint64_t)at[2] << 16 | (uint64_t)at[3] << 24;
}

static uint64_t bucket(const uint8_t *name)
{
    return (word(name) * 433494437 + word(name + 4) * 479001599 + word(name + 8) * 334214459 + word(name + 12) * 387420489 + 179424673) / 67108864 % 4096;
}

enum { PATTERNS = 5 };
static const char *const patterns[PATTERNS] = {"all free", "one file", "files of one block", "heads alone", "heads of one hash"};

// the files of a pattern in n blocks; data blocks before their heads where the pattern has several
static void fill(int pattern, size_t n)
{
    uint8_t name[16];
    memset(arena, 0, BLOCK * n);
    switch (pattern) {
    case 1:
        name_of(name);
        head(0, name, (uint32_t)(480 * (n - 1)));
        for (size_t k = 1; k < n; k++) data(k, name, (uint32_t)(k - 1));
        break;
    case 2:
        for (size_t k = 0; k + 1 < n; k += 2) {
            name_of(name);
            data(k, name, 0);
            head(k + 1, name, 480);
        }
        break;
    case 3:
    case 4:
        for (size_t k = 0; k < n; k++) {
            do name_of(name); while (pattern == 4 && bucket(name) != 0);
            head(k, name, 0);
        }
        break;
    }
}

static double now(void)
{
    struct timespec t;
    clock_gettime(CLOCK_MONOTONIC, &t);
    return 1e6 * (double)t.tv_sec + 1e-3 * (double)t.tv_nsec;
}

static volatile uint64_t sink;

static uint64_t run(int what, size_t len)
{
    if (what == 0) return bench_sound(arena, len);
    if (what == 1) return bench_check(arena, len);
    return plain_check(arena, len);
}

// microseconds for one call: the least of 15 rounds of as many calls as fill 2 milliseconds
static double time_of(int what, size_t len)
{
    int calls = 1;
    for (;;) {
        double t = now();
        for (int i = 0; i < calls; i++) sink += run(what, len);
        if (now() - t >= 2000 || calls > 1 << 20) break;
        calls *= 2;
    }
    double least = 1e30;
    for (int round = 0; round < 15; round++) {
        double t = now();
        for (int i = 0; i < calls; i++) sink += run(what, len);
        t = (now() - t) / calls;
        if (t < least) least = t;
    }
    return least;
}

static void must(bool ok, const char *what)
{
    if (!ok) {
        fprintf(stderr, "wrong answer: %s\n", what);
        exit(1);
    }
}

int main(void)
{
    static const size_t sizes[] = {128, 1024, 4096};
    printf("%6s  %-18s %10s %10s %10s %12s %12s\n", "blocks", "filled with", "sound us", "check us", "C us", "sound/check", "check/C");
    for (int s = 0; s < 3; s++)
        for (int p = 0; p < PATTERNS; p++) {
            size_t n = sizes[s], len = BLOCK * n;
            fill(p, n);
            must(bench_check(arena, len) == plain_check(arena, len), "the checks");
            must(bench_sound(arena, len), "a sound arena");
            arena[len - BLOCK + 300] ^= 1;
            must(!bench_sound(arena, len), "a changed byte");
            arena[len - BLOCK + 300] ^= 1;
            double a = time_of(0, len), b = time_of(1, len), c = time_of(2, len);
            printf("%6zu  %-18s %10.2f %10.2f %10.2f %12.2f %12.2f\n", n, patterns[p], a, b, c, a / b, b / c);
        }
    return 0;
}
