/* The same work in plain C, a thread for each processor, each with its own band of rows. Prints nanoseconds. */
#include <pthread.h>
#include <stdint.h>
#include <stdio.h>
#include <stdlib.h>
#include <string.h>
#include <time.h>
#include <unistd.h>

#define TOP 1048575
#define W 6000
#define H 4000

static unsigned threads;
static uint32_t *table[2];
static int radius;

static uint64_t now(void) {
    struct timespec t;
    clock_gettime(CLOCK_MONOTONIC, &t);
    return t.tv_sec * 1000000000ull + t.tv_nsec;
}

static inline uint32_t clamp(int64_t v) { return v < 0 ? 0 : v > TOP ? TOP : v; }

struct rows { const uint32_t *in, *soft; uint32_t *out; unsigned from, to; };

static void *expose(void *arg) {
    struct rows *r = arg;
    for (size_t i = (size_t)r->from * W * 3; i < (size_t)r->to * W * 3; i++)
        r->out[i] = clamp((((int64_t)r->in[i] - 64) * (6000 << 5)) >> 16);
    return 0;
}

static const int64_t m[9] = {4096, -1000, 200, 300, 4096, -500, 2048, 2048, 1};

static void *mix(void *arg) {
    struct rows *r = arg;
    for (size_t i = (size_t)r->from * W * 3; i < (size_t)r->to * W * 3; i += 3)
        for (int c = 0; c < 3; c++)
            r->out[i + c] = clamp((m[3 * c] * r->in[i] + m[3 * c + 1] * r->in[i + 1] + m[3 * c + 2] * r->in[i + 2]) >> 12);
    return 0;
}

static int64_t floor_div(int64_t a, int64_t n) { return a / n - (a % n < 0); }

static uint32_t on_curve(const uint32_t (*node)[2], int n, uint32_t v) {
    if (v <= node[0][0]) return node[0][1];
    for (int i = 0; i + 1 < n; i++)
        if (v < node[i + 1][0])
            return node[i][1] + floor_div(((int64_t)v - node[i][0]) * ((int64_t)node[i + 1][1] - node[i][1]), node[i + 1][0] - node[i][0]);
    return node[n - 1][1];
}

static void *look_up(void *arg) {
    struct rows *r = arg;
    for (size_t i = (size_t)r->from * W * 3; i < (size_t)r->to * W * 3; i += 3) {
        r->out[i] = table[0][r->in[i]];
        r->out[i + 1] = table[1][r->in[i + 1]];
        r->out[i + 2] = table[0][r->in[i + 2]];
    }
    return 0;
}

static void add(uint32_t *sums, const uint32_t *row) { for (int i = 0; i < W * 3; i++) sums[i] += row[i]; }
static void take(uint32_t *sums, const uint32_t *row) { for (int i = 0; i < W * 3; i++) sums[i] -= row[i]; }

static void *blur(void *arg) {
    struct rows *r = arg;
    uint32_t *sums = calloc(W * 3, 4);
    int a = (int)r->from - radius < 0 ? 0 : r->from - radius, b = a;
    for (int y = r->from; y < (int)r->to; y++) {
        int na = y - radius < 0 ? 0 : y - radius, nb = y + radius + 1 < H ? y + radius + 1 : H;
        for (; a < na; a++) take(sums, r->in + (size_t)a * W * 3);
        for (; b < nb; b++) add(sums, r->in + (size_t)b * W * 3);
        uint64_t sum[3] = {0, 0, 0};
        int f = 0, t = 0;
        for (int x = 0; x < W; x++) {
            int nf = x - radius < 0 ? 0 : x - radius, nt = x + radius + 1 < W ? x + radius + 1 : W;
            for (; f < nf; f++) for (int c = 0; c < 3; c++) sum[c] -= sums[f * 3 + c];
            for (; t < nt; t++) for (int c = 0; c < 3; c++) sum[c] += sums[t * 3 + c];
            uint64_t n = (uint64_t)(t - f) * (b - a);
            for (int c = 0; c < 3; c++) r->out[((size_t)y * W + x) * 3 + c] = sum[c] / n;
        }
    }
    free(sums);
    return 0;
}

static void *sharp(void *arg) {
    struct rows *r = arg;
    for (size_t i = (size_t)r->from * W * 3; i < (size_t)r->to * W * 3; i++)
        r->out[i] = clamp((int64_t)r->in[i] + ((((int64_t)r->in[i] - r->soft[i]) * 6000) >> 12));
    return 0;
}

static uint32_t *side_by_side(void *(*kernel)(void *), const uint32_t *in, const uint32_t *soft) {
    uint32_t *out = malloc((size_t)W * H * 12);
    pthread_t id[64];
    struct rows part[64];
    for (unsigned t = 0; t < threads; t++) {
        part[t] = (struct rows){in, soft, out, (unsigned)((uint64_t)H * t / threads), (unsigned)((uint64_t)H * (t + 1) / threads)};
        pthread_create(&id[t], 0, kernel, &part[t]);
    }
    for (unsigned t = 0; t < threads; t++) pthread_join(id[t], 0);
    return out;
}

static void timed(const char *name, void *(*kernel)(void *), const uint32_t *in) {
    uint64_t before = now();
    uint32_t *out = side_by_side(kernel, in, 0);
    printf("%s %llu %u\n", name, (unsigned long long)(now() - before), out[(size_t)W * H]);
    free(out);
}

int main(void) {
    threads = sysconf(_SC_NPROCESSORS_ONLN);
    uint32_t *in = malloc((size_t)W * H * 12);
    for (uint32_t y = 0; y < H; y++)
        for (uint32_t x = 0; x < W; x++) {
            uint32_t *p = in + ((size_t)y * W + x) * 3;
            p[0] = (x * 7 + y * 3) & 65535;
            p[1] = (x ^ y) & 65535;
            p[2] = ((x * y) >> 4) & 65535;
        }
    timed("exposure", expose, in);
    timed("mixer", mix, in);
    static const uint32_t red[3][2] = {{0, 0}, {30000, 42000}, {65535, 65535}}, green[2][2] = {{0, 65535}, {TOP, 0}};
    uint64_t before = now();
    for (int k = 0; k < 2; k++) table[k] = malloc(4 * (TOP + 1));
    for (uint32_t v = 0; v <= TOP; v++) table[0][v] = on_curve(red, 3, v);
    for (uint32_t v = 0; v <= TOP; v++) table[1][v] = on_curve(green, 2, v);
    printf("table %llu %u\n", (unsigned long long)(now() - before), table[0][999]);
    timed("curve", look_up, in);
    radius = 1;
    timed("blur1", blur, in);
    radius = 8;
    timed("blur8", blur, in);
    radius = 64;
    timed("blur64", blur, in);
    radius = 8;
    before = now();
    uint32_t *soft = side_by_side(blur, in, 0), *out = side_by_side(sharp, in, soft);
    printf("sharpen8 %llu %u\n", (unsigned long long)(now() - before), out[W]);
    return 0;
}
