/* Times the library's sum beside zlib's and beside the same table loop in C, and its digest beside sha512sum and libcrypto's, by turns
 * in one run: medians, in microseconds. sha512sum is timed as a program that reads a file; the file lies in memory by then.
 * `../speed-sums` compiles and runs it. */
/* XSI, since it names the folder of files that do not stay. */
#define _XOPEN_SOURCE 700
#include "embassy_boot.h"

#include <dlfcn.h>
#include <stdio.h>
#include <stdlib.h>
#include <string.h>
#include <time.h>

enum { RUNS = 31, SUMMED = 1 << 20, HASHED = 1 << 24 };

static uint8_t *image, state[4096];

static double now(void)
{
    struct timespec t;
    clock_gettime(CLOCK_MONOTONIC, &t);
    return (double)t.tv_sec * 1e6 + (double)t.tv_nsec / 1e3;
}

static int by_time(const void *a, const void *b)
{
    double x = *(const double *)a, y = *(const double *)b;
    return (x > y) - (x < y);
}

static double median(double *times)
{
    qsort(times, RUNS, sizeof *times, by_time);
    return times[RUNS / 2];
}

static void must(int right, const char *what)
{
    if (!right) {
        fprintf(stderr, "speed-sums: %s\n", what);
        exit(1);
    }
}

static void *function(const char *library, const char *name)
{
    void *handle = dlopen(library, RTLD_NOW);
    void *found = handle ? dlsym(handle, name) : NULL;
    must(found != NULL, library);
    return found;
}

/* The table loop: a byte a turn. */
static uint32_t table[256];

static void make_table(void)
{
    for (uint32_t i = 0; i < 256; i++) {
        uint32_t word = i;
        for (int bit = 0; bit < 8; bit++)
            word = word & 1 ? word >> 1 ^ 0xEDB88320 : word >> 1;
        table[i] = word;
    }
}

__attribute__((noinline)) static uint32_t table_loop(const uint8_t *bytes, size_t length)
{
    uint32_t crc = UINT32_MAX;
    for (size_t i = 0; i < length; i++)
        crc = table[(crc ^ bytes[i]) & 0xFF] ^ crc >> 8;
    return ~crc;
}

/* Whether the library says that these bytes have this sum; at budget 0 nothing is marked. */
static int has_sum(uint32_t crc)
{
    uint64_t result = eb_updater_check_and_mark_updated(image, SUMMED, state, sizeof state, 4096, 4, 4096, 4, 255, SUMMED, crc, 0);
    must(eb_number(result) == EB_CUT || eb_number(result) == EB_CHECKSUM, "the library refuses the measured call");
    return eb_number(result) == EB_CUT;
}

static void sums(void)
{
    unsigned long (*zlib)(unsigned long, const unsigned char *, unsigned);
    double times[3][RUNS], begin;
    volatile uint32_t sum = 0;
    *(void **)&zlib = function("libz.so.1", "crc32");

    const uint32_t right = (uint32_t)zlib(0, image, SUMMED);
    must(right == table_loop(image, SUMMED) && has_sum(right) && !has_sum(right ^ 1), "the sums differ");
    for (int i = 0; i < RUNS; i++) {
        begin = now(), sum += (uint32_t)zlib(0, image, SUMMED), times[0][i] = now() - begin;
        begin = now(), sum += table_loop(image, SUMMED), times[1][i] = now() - begin;
        begin = now(), sum += (uint32_t)has_sum(right ^ 1), times[2][i] = now() - begin;
    }
    const double theirs = median(times[0]), loop = median(times[1]), ours = median(times[2]);
    printf("CRC-32 of 1 MiB: zlib %.0f, the table loop in C %.0f, library %.0f; to zlib %.2f, to the loop %.2f\n", theirs, loop, ours,
           ours / theirs, ours / loop);
}

/* The digest that sha512sum prints for the file, as 64 bytes; none where it does not print one. */
static int sha512sum(const char *file, uint8_t *digest)
{
    char command[64], text[129] = "";
    snprintf(command, sizeof command, "sha512sum < %s", file);
    FILE *from = popen(command, "r");
    int read = from && fread(text, 1, 128, from) == 128;
    for (int i = 0; read && i < 64; i++)
        read = sscanf(text + 2 * i, "%2hhx", digest + i) == 1;
    return from && pclose(from) == 0 && read;
}

static uint64_t hash(uint64_t chunk, uint8_t *digest)
{
    return eb_updater_hash(image, HASHED, state, sizeof state, 4096, 4, 4096, 4, 255, HASHED, chunk, digest, 64);
}

static void digests(void)
{
    unsigned char *(*libcrypto)(const unsigned char *, size_t, unsigned char *);
    uint8_t ours[64], theirs[64], printed[64];
    double times[4][RUNS], begin;
    char file[] = P_tmpdir "/speed-sums-XXXXXX";
    *(void **)&libcrypto = function("libcrypto.so.3", "SHA512");
    const int open_file = mkstemp(file);
    FILE *to = open_file < 0 ? NULL : fdopen(open_file, "wb");
    must(to && fwrite(image, 1, HASHED, to) == HASHED && fclose(to) == 0, "the file cannot be written");

    int same = 1;
    for (int i = 0; i < RUNS; i++) {
        begin = now(), same &= sha512sum(file, printed), times[0][i] = now() - begin;
        begin = now(), libcrypto(image, HASHED, theirs), times[1][i] = now() - begin;
        begin = now(), same &= eb_number(hash(4096, ours)) == EB_DONE, times[2][i] = now() - begin;
        same &= !memcmp(ours, theirs, 64) && !memcmp(ours, printed, 64);
        begin = now(), same &= eb_number(hash(HASHED, ours)) == EB_DONE, times[3][i] = now() - begin;
        same &= !memcmp(ours, theirs, 64);
    }
    remove(file);
    must(same, "the digests differ");
    const double program = median(times[0]), other = median(times[1]), pieces = median(times[2]), whole = median(times[3]);
    printf("SHA-512 of 16 MiB: sha512sum %.0f, libcrypto %.0f, library by 4,096 %.0f, in one piece %.0f; to sha512sum %.2f and %.2f, to "
           "libcrypto %.2f and %.2f\n",
           program, other, pieces, whole, pieces / program, whole / program, pieces / other, whole / other);
}

int main(void)
{
    image = malloc(HASHED);
    must(image != NULL, "no memory");
    uint32_t number = 1;
    for (size_t i = 0; i < HASHED; i++) {
        number = number * 1664525 + 1013904223;
        image[i] = (uint8_t)(number >> 24);
    }
    memset(state, 0xFF, sizeof state);
    make_table();
    sums();
    digests();
    return 0;
}
