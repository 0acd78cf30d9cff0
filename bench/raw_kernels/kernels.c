/* The same work in plain C: `kernels FILE [MOSAIC]` reads a P5 or P6 and prints the nanoseconds of reading (one thread), of raw
   preparation, temperature and demosaic (a thread for each processor, rows side by side) and of level 4 (one thread). */
#include <pthread.h>
#include <stdint.h>
#include <stdio.h>
#include <stdlib.h>
#include <time.h>
#include <unistd.h>

#define TOP 1048575u

static unsigned w, h, top, channels, threads;
static int mosaic;
static const uint32_t black = 64, white = 16383, mul[3] = {8192, 4096, 6144};

static uint64_t now(void) {
    struct timespec t;
    clock_gettime(CLOCK_MONOTONIC, &t);
    return t.tv_sec * 1000000000ull + t.tv_nsec;
}

/* the channel of a pixel of an RGGB mosaic */
static inline unsigned channel(unsigned x, unsigned y) { return (x & 1) + (y & 1); }

static uint32_t *decode(const uint8_t *raster, int six) {
    size_t n = (size_t)w * h * (six ? 3 : 1);
    uint32_t *out = malloc(4 * (size_t)w * h * channels);
    int wide = top > 255;
    for (size_t i = 0; i < n; i++) {
        uint32_t s = wide ? raster[2 * i] * 256u + raster[2 * i + 1] : raster[i];
        uint32_t v = s < top ? s : top;
        if (mosaic) out[i] = v;
        else if (six) out[i] = v * 65535u / top;
        else out[3 * i] = out[3 * i + 1] = out[3 * i + 2] = v * 65535u / top;
    }
    return out;
}

struct rows { const uint32_t *in; uint32_t *out; unsigned from, to; };

static void *prepare(void *arg) {
    struct rows *r = arg;
    for (size_t i = (size_t)r->from * w * channels; i < (size_t)r->to * w * channels; i++) {
        uint64_t v = r->in[i] > black ? r->in[i] - black : 0;
        v = v * 65535 / (white - black);
        r->out[i] = v < TOP ? v : TOP;
    }
    return 0;
}

static void *balance(void *arg) {
    struct rows *r = arg;
    for (unsigned y = r->from; y < r->to; y++)
        for (unsigned x = 0; x < w; x++)
            for (unsigned c = 0; c < channels; c++) {
                size_t i = ((size_t)y * w + x) * channels + c;
                uint64_t v = (uint64_t)r->in[i] * mul[mosaic ? channel(x, y) : c] >> 12;
                r->out[i] = v < TOP ? v : TOP;
            }
    return 0;
}

static void *demosaic(void *arg) {
    struct rows *r = arg;
    for (unsigned y = r->from; y < r->to; y++)
        for (unsigned x = 0; x < w; x++) {
            uint32_t *o = r->out + ((size_t)y * w + x) * 3;
            if (x == 0 || y == 0 || x + 1 == w || y + 1 == h) {
                uint32_t sum[3] = {0, 0, 0}, n[3] = {0, 0, 0};
                for (unsigned v = y ? y - 1 : 0; v <= y + 1 && v < h; v++)
                    for (unsigned u = x ? x - 1 : 0; u <= x + 1 && u < w; u++) {
                        sum[channel(u, v)] += r->in[(size_t)v * w + u];
                        n[channel(u, v)]++;
                    }
                for (int c = 0; c < 3; c++) o[c] = c == (int)channel(x, y) ? r->in[(size_t)y * w + x] : sum[c] / n[c];
                continue;
            }
            const uint32_t *p = r->in + (size_t)y * w + x;
            uint32_t beside = p[-1] + p[1], along = p[-(long)w] + p[w];
            uint32_t corners = p[-(long)w - 1] + p[-(long)w + 1] + p[w - 1] + p[w + 1];
            switch ((x & 1) + 2 * (y & 1)) {
            case 0: o[0] = *p; o[1] = (beside + along) / 4; o[2] = corners / 4; break;
            case 1: o[0] = beside / 2; o[1] = *p; o[2] = along / 2; break;
            case 2: o[0] = along / 2; o[1] = *p; o[2] = beside / 2; break;
            default: o[0] = corners / 4; o[1] = (beside + along) / 4; o[2] = *p;
            }
        }
    return 0;
}

static void side_by_side(const char *name, void *(*kernel)(void *), const uint32_t *in, unsigned size) {
    uint64_t before = now();
    uint32_t *out = malloc(4 * (size_t)w * h * size);
    pthread_t id[64];
    struct rows part[64];
    for (unsigned t = 0; t < threads; t++) {
        part[t] = (struct rows){in, out, (unsigned)((uint64_t)h * t / threads), (unsigned)((uint64_t)h * (t + 1) / threads)};
        pthread_create(&id[t], 0, kernel, &part[t]);
    }
    for (unsigned t = 0; t < threads; t++) pthread_join(id[t], 0);
    uint64_t spent = now() - before;
    printf("%s %llu %u\n", name, (unsigned long long)spent, out[(size_t)w * h * size / 2]);
    free(out);
}

static void level4(const uint32_t *in) {
    uint64_t before = now();
    unsigned lw = (w + 15) / 16, lh = (h + 15) / 16;
    uint32_t *out = malloc(4 * (size_t)lw * lh * 3);
    for (unsigned y = 0; y < lh; y++)
        for (unsigned x = 0; x < lw; x++) {
            uint64_t sum[3] = {0, 0, 0}, n[3] = {0, 0, 0};
            unsigned left = x * 16 < w - 2 ? x * 16 : w - 2, above = y * 16 < h - 2 ? y * 16 : h - 2;
            for (unsigned v = above; v < (y + 1) * 16 && v < h; v++)
                for (unsigned u = left; u < (x + 1) * 16 && u < w; u++) {
                    if (mosaic) { sum[channel(u, v)] += in[(size_t)v * w + u]; n[channel(u, v)]++; }
                    else for (unsigned c = 0; c < 3; c++) { sum[c] += in[((size_t)v * w + u) * 3 + c]; n[c]++; }
                }
            for (unsigned c = 0; c < 3; c++) out[((size_t)y * lw + x) * 3 + c] = sum[c] / n[c];
        }
    uint64_t spent = now() - before;
    printf("level %llu %u\n", (unsigned long long)spent, out[(size_t)lw * lh]);
    free(out);
}

int main(int argc, char **argv) {
    if (argc < 2) return 1;
    FILE *in = fopen(argv[1], "rb");
    if (!in) return 1;
    fseek(in, 0, SEEK_END);
    long size = ftell(in);
    rewind(in);
    uint8_t *bytes = malloc(size);
    if (fread(bytes, 1, size, in) != (size_t)size) return 1;
    fclose(in);
    threads = sysconf(_SC_NPROCESSORS_ONLN);
    char magic;
    int at;
    uint64_t before = now();
    if (sscanf((char *)bytes, "P%c %u %u %u%n", &magic, &w, &h, &top, &at) != 4) return 1;
    mosaic = magic == '5' && argc > 2;
    channels = mosaic ? 1 : 3;
    uint32_t *plane = decode(bytes + at + 1, magic == '6');
    printf("read %llu %u\n", (unsigned long long)(now() - before), plane[w]);
    side_by_side("raw_prepare", prepare, plane, channels);
    side_by_side("temperature", balance, plane, channels);
    if (mosaic) side_by_side("demosaic", demosaic, plane, 3);
    level4(plane);
    return 0;
}
