/* The same steps as `devcore develop` with one exposure, plainly: read the P6, a plane of 12 bytes a pixel from its
   samples, a second plane for the exposure, the bytes from that plane, write them. One thread. */
#include <stdint.h>
#include <stdio.h>
#include <stdlib.h>

#define TOP 1048575
#define WHITE 65535

static void fail(const char *what) { fprintf(stderr, "%s\n", what); exit(1); }

int main(int argc, char **argv) {
    if (argc != 5) fail("usage: naive SOURCE OUT BLACK GAIN");
    long black = atol(argv[3]), gain = atol(argv[4]);
    FILE *in = fopen(argv[1], "rb");
    if (!in) fail("no source");
    fseek(in, 0, SEEK_END);
    long size = ftell(in);
    rewind(in);
    uint8_t *bytes = malloc(size);
    if (fread(bytes, 1, size, in) != (size_t)size) fail("read");
    fclose(in);
    unsigned w, h;
    int at;
    if (sscanf((char *)bytes, "P6\n%u %u\n255\n%n", &w, &h, &at) != 2) fail("header");
    size_t n = (size_t)w * h * 3;
    uint32_t *plane = malloc(n * 4);
    for (size_t i = 0; i < n; i++) plane[i] = bytes[at + i] * 257u;
    free(bytes);
    uint32_t *exposed = malloc(n * 4);
    for (size_t i = 0; i < n; i++) {
        int64_t v = (((int64_t)plane[i] - black) * gain) >> 12;
        exposed[i] = v < 0 ? 0 : v > TOP ? TOP : (uint32_t)v;
    }
    free(plane);
    char header[64];
    int len = sprintf(header, "P6\n%u %u\n255\n", w, h);
    uint8_t *out = malloc(n);
    for (size_t i = 0; i < n; i++) out[i] = (exposed[i] < WHITE ? exposed[i] : WHITE) / 257;
    FILE *to = fopen(argv[2], "wb");
    if (!to || fwrite(header, 1, len, to) != (size_t)len || fwrite(out, 1, n, to) != n) fail("write");
    fclose(to);
    free(exposed);
    free(out);
    return 0;
}
