/* The same work in plain C, in one thread. Prints nanoseconds and a checksum. */
#include <stdint.h>
#include <stdio.h>
#include <stdlib.h>
#include <time.h>

#define W 6000
#define H 4000

typedef unsigned __int128 wide;

static uint64_t now(void) {
    struct timespec t;
    clock_gettime(CLOCK_MONOTONIC, &t);
    return t.tv_sec * 1000000000ull + t.tv_nsec;
}

static uint64_t checksum(const uint32_t *values, size_t n) {
    uint64_t sum = 0;
    for (size_t i = 0; i < n; i++) sum = sum * 31 + values[i];
    return sum;
}

static void gradient(uint32_t *out) {
    int64_t ax = 2ll * W * 32768 / 65536, ay = 2ll * H * 20000 / 65536;
    for (int y = 0; y < H; y++)
        for (int x = 0; x < W; x++) {
            int64_t along = (2 * x + 1 - ax) * 300 + (2 * y + 1 - ay) * 900;
            int64_t v = 32768 + ((along * 900) >> 16);
            out[(size_t)y * W + x] = v < 0 ? 0 : v > 65536 ? 65536 : v;
        }
}

/* The ellipse by intervals: along a row its number is convex, so the pixels that it covers whole lie side by side, and so do those
   that it covers at all. The ends are found by bisection from the least; a division stands in the feather alone. */
static const int64_t UX = 900, UY = 400, A = 4000, B = 2500, FEATHER = 65536;
static int64_t cx, cy;
static wide rim;

static wide far_out(int64_t x, int64_t y) {
    int64_t dx = 2 * x + 1 - cx, dy = 2 * y + 1 - cy;
    int64_t p = dx * UX + dy * UY, q = dy * UX - dx * UY;
    return (wide)((__int128)p * p) * (wide)(B * B) + (wide)((__int128)q * q) * (wide)(A * A);
}

static int is_inside(int64_t x, int64_t y) { return 65536 * far_out(x, y) < 65537 * rim; }
static int is_outside(int64_t x, int64_t y) { return 65536 * far_out(x, y) >= (65536 + FEATHER) * rim; }

/* The column of the row's least number. */
static int least(int64_t y) {
    int from = 0, to = W - 1;
    while (from < to) {
        int mid = (from + to) / 2;
        if (far_out(mid, y) < far_out(mid + 1, y)) to = mid;
        else from = mid + 1;
    }
    return from;
}

static void ellipse(uint32_t *out) {
    cx = 2ll * W * 30000 / 65536;
    cy = 2ll * H * 36000 / 65536;
    rim = (wide)(UX * UX + UY * UY) * (A * A) * (B * B);
    for (int y = 0; y < H; y++) {
        uint32_t *row = out + (size_t)y * W;
        int m = least(y), in_from = m, in_to = m, from, to, low, high;
        for (int x = 0; x < W; x++) row[x] = 0;
        if (is_outside(m, y)) continue;
        for (low = 0, high = m; low < high;) { int mid = (low + high) / 2; if (is_outside(mid, y)) low = mid + 1; else high = mid; }
        from = low;
        for (low = m, high = W - 1; low < high;) { int mid = (low + high + 1) / 2; if (is_outside(mid, y)) high = mid - 1; else low = mid; }
        to = low + 1;
        if (is_inside(m, y)) {
            for (low = from, high = m; low < high;) { int mid = (low + high) / 2; if (is_inside(mid, y)) high = mid; else low = mid + 1; }
            in_from = low;
            for (low = m, high = to - 1; low < high;) { int mid = (low + high + 1) / 2; if (is_inside(mid, y)) low = mid; else high = mid - 1; }
            in_to = low + 1;
        }
        for (int x = from; x < to; x++) {
            if (x == in_from && in_to > in_from)
                for (; x < in_to; x++) row[x] = 65536;
            if (x >= to) break;
            uint64_t e = (uint64_t)(65536 * far_out(x, y) / rim);
            row[x] = e <= 65536 ? 65536 : (uint32_t)(65536 * (65536 + FEATHER - e) / FEATHER);
        }
    }
}

static uint32_t *picture(uint32_t add) {
    uint32_t *p = malloc((size_t)W * H * 12);
    for (uint32_t y = 0; y < H; y++)
        for (uint32_t x = 0; x < W; x++) {
            uint32_t *at = p + ((size_t)y * W + x) * 3;
            at[0] = (x * 7 + y * 3 + add) & 65535;
            at[1] = (x ^ y) & 65535;
            at[2] = ((x * y) >> 4) & 65535;
        }
    return p;
}

static inline void lay(const uint32_t *input, uint32_t *output, const uint32_t *cover, int screen) {
    for (size_t p = 0; p < (size_t)W * H; p++) {
        int64_t alpha = (int64_t)((uint64_t)50000 * cover[p] / 65536);
        for (int c = 0; c < 3; c++) {
            int64_t i = input[p * 3 + c], m = output[p * 3 + c];
            int64_t b = screen ? i + m - i * m / 65535 : m;
            int64_t v = i + ((alpha * (b - i)) >> 16);
            output[p * 3 + c] = v < 0 ? 0 : v > 1048575 ? 1048575 : v;
        }
    }
}

static void time_blend(const char *name, int screen, const uint32_t *input, const uint32_t *cover) {
    uint32_t *output = picture(5000);
    uint64_t before = now();
    if (screen) lay(input, output, cover, 1);
    else lay(input, output, cover, 0);
    uint64_t spent = now() - before;
    printf("%s %llu %llu\n", name, (unsigned long long)spent, (unsigned long long)checksum(output, (size_t)W * H * 3));
    free(output);
}

int main(void) {
    uint64_t before = now();
    uint32_t *cover = malloc((size_t)W * H * 4);
    gradient(cover);
    uint64_t spent = now() - before;
    printf("gradient %llu %llu\n", (unsigned long long)spent, (unsigned long long)checksum(cover, (size_t)W * H));
    free(cover);
    before = now();
    cover = malloc((size_t)W * H * 4);
    ellipse(cover);
    spent = now() - before;
    printf("ellipse %llu %llu\n", (unsigned long long)spent, (unsigned long long)checksum(cover, (size_t)W * H));
    uint32_t *input = picture(0);
    time_blend("normal", 0, input, cover);
    time_blend("screen", 1, input, cover);
    return 0;
}
