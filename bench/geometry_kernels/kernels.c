/* The same work in plain C, a thread for each processor, each with its own band of rows. Prints nanoseconds and a checksum. */
#include <pthread.h>
#include <stdint.h>
#include <stdio.h>
#include <stdlib.h>
#include <string.h>
#include <time.h>
#include <unistd.h>

#define W 6000
#define H 4000

static unsigned threads;

static uint64_t now(void) {
    struct timespec t;
    clock_gettime(CLOCK_MONOTONIC, &t);
    return t.tv_sec * 1000000000ull + t.tv_nsec;
}

struct rows { const uint32_t *in; uint32_t *out; unsigned from, to; };

/* Each kernel calls it with flags that the compiler knows. */
static inline void turn(const struct rows *r, int swap, int flip_x, int flip_y) {
    unsigned w = swap ? H : W;
    for (unsigned y = r->from; y < r->to; y++)
        for (unsigned x = 0; x < w; x++) {
            unsigned u = swap ? y : x, v = swap ? x : y;
            if (flip_x) u = W - 1 - u;
            if (flip_y) v = H - 1 - v;
            const uint32_t *from = r->in + ((size_t)v * W + u) * 3;
            uint32_t *to = r->out + ((size_t)y * w + x) * 3;
            to[0] = from[0];
            to[1] = from[1];
            to[2] = from[2];
        }
}

static void *swap(void *arg) { turn(arg, 1, 0, 0); return 0; }
static void *flip_x(void *arg) { turn(arg, 0, 1, 0); return 0; }
static void *swap_flips(void *arg) { turn(arg, 1, 1, 1); return 0; }

static void *flip_y(void *arg) {
    struct rows *r = arg;
    for (unsigned y = r->from; y < r->to; y++)
        memcpy(r->out + (size_t)y * W * 3, r->in + (size_t)(H - 1 - y) * W * 3, W * 12);
    return 0;
}

static void *crop(void *arg) {
    struct rows *r = arg;
    for (unsigned y = r->from; y < r->to; y++)
        memcpy(r->out + (size_t)y * (W / 2) * 3, r->in + ((size_t)(y + H / 4) * W + W / 4) * 3, W / 2 * 12);
    return 0;
}

static void timed(const char *name, void *(*kernel)(void *), unsigned w, unsigned h, const uint32_t *in) {
    uint64_t before = now();
    uint32_t *out = malloc((size_t)w * h * 12);
    pthread_t id[64];
    struct rows part[64];
    for (unsigned t = 0; t < threads; t++) {
        part[t] = (struct rows){in, out, (unsigned)((uint64_t)h * t / threads), (unsigned)((uint64_t)h * (t + 1) / threads)};
        pthread_create(&id[t], 0, kernel, &part[t]);
    }
    for (unsigned t = 0; t < threads; t++) pthread_join(id[t], 0);
    uint64_t spent = now() - before, sum = 0;
    for (size_t i = 0; i < (size_t)w * h * 3; i++) sum = sum * 31 + out[i];
    printf("%s %llu %llu\n", name, (unsigned long long)spent, (unsigned long long)sum);
    free(out);
}

int main(void) {
    threads = sysconf(_SC_NPROCESSORS_ONLN);
    if (threads > 64) threads = 64;
    uint32_t *in = malloc((size_t)W * H * 12);
    for (uint32_t y = 0; y < H; y++)
        for (uint32_t x = 0; x < W; x++) {
            uint32_t *p = in + ((size_t)y * W + x) * 3;
            p[0] = (x * 7 + y * 3) & 65535;
            p[1] = (x ^ y) & 65535;
            p[2] = ((x * y) >> 4) & 65535;
        }
    timed("swap", swap, H, W, in);
    timed("flip_x", flip_x, W, H, in);
    timed("flip_y", flip_y, W, H, in);
    timed("swap_flips", swap_flips, H, W, in);
    timed("crop", crop, W / 2, H / 2, in);
    return 0;
}
