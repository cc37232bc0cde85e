/* Calls every function of include/embassy_boot.h and compares with document 01's bench sheet, to see that the header says what the
 * library defines: order and width of parameters, and where the parts of a result stand. Expected values are the paper's; where the
 * erase value is 0, FF and 00 are exchanged in them.
 *
 *   cc -std=c11 -Wall -Wextra -Werror -Iinclude tests/c/calls.c target/staticlib/libembassy_boot.a -o target/calls && target/calls
 */
#include "embassy_boot.h"

#include <stdio.h>
#include <string.h>

static int failed;

static void check(int line, int right)
{
    if (!right) {
        printf("tests/c/calls.c:%d: not as document 01 says\n", line);
        failed++;
    }
}
#define CHECK(right) check(__LINE__, (right))

static int is(uint64_t result, uint32_t number, uint32_t state, uint32_t operations)
{
    return result == ((uint64_t)number << 40 | (uint64_t)state << 32 | operations) && eb_number(result) == number
        && eb_state(result) == state && eb_operations(result) == operations;
}

/* The sheet's areas: pages of one byte each, and a state area of runs. */
static uint8_t active[12], dfu[16], state[16];

static void pages(uint8_t *area, size_t count, const char *bytes)
{
    for (size_t i = 0; i < count; i++)
        memset(area + 4 * i, bytes[i], 4);
}

static void runs(uint8_t *area, size_t n0, int b0, size_t n1, int b1, size_t n2, int b2, size_t n3, int b3)
{
    memset(area, b0, n0);
    memset(area + n0, b1, n1);
    memset(area + n0 + n1, b2, n2);
    memset(area + n0 + n1 + n2, b3, n3);
}

static void start(void)
{
    pages(active, 3, "\1\2\3");
    pages(dfu, 4, "\4\5\6\7");
    runs(state, 1, 0xF0, 15, 0xFF, 0, 0, 0, 0);
}

static int shows(const char *a, const char *d, const uint8_t *s)
{
    uint8_t x[12], y[16];
    pages(x, 3, a);
    pages(y, 4, d);
    return !memcmp(active, x, 12) && !memcmp(dfu, y, 16) && !memcmp(state, s, 16);
}

static uint64_t boot(uint32_t budget)
{
    return eb_prepare_boot(active, 12, dfu, 16, state, 16, 4, 2, 4, 2, 16, 1, 2, 255, budget);
}

static void boots(void)
{
    uint8_t s[16];

    start(); /* a */
    CHECK(is(boot(24), EB_DONE, EB_SWAP, 24));
    runs(s, 1, 0xF0, 1, 0xFF, 6, 0, 8, 0xFF);
    CHECK(shows("\4\5\6", "\4\1\2\3", s));
    CHECK(is(boot(27), EB_DONE, EB_SWAP, 27)); /* f */
    runs(s, 1, 0xC0, 15, 0xFF, 0, 0, 0, 0);
    CHECK(shows("\1\2\3", "\4\5\6\3", s));
    CHECK(is(eb_read_state(state, 16, 16, 1, 255), EB_DONE, EB_REVERT, 0));

    start(); /* c, d, e */
    CHECK(is(boot(4), EB_CUT, EB_NO_STATE, 4));
    runs(s, 1, 0xF0, 1, 0xFF, 1, 0, 13, 0xFF);
    CHECK(shows("\1\2\3", "\4\5\6\3", s));
    start();
    runs(s, 1, 0xF0, 15, 0xFF, 0, 0, 0, 0);
    CHECK(is(boot(1), EB_CUT, EB_NO_STATE, 1));
    CHECK(shows("\1\2\3", "\4\5\6\xFF", s));
    start();
    CHECK(is(boot(0), EB_CUT, EB_NO_STATE, 0));
    CHECK(shows("\1\2\3", "\4\5\6\7", s));

    start(); /* j: the progress is invalidated, and no more; the boot finishes the confirmation */
    CHECK(is(boot(24), EB_DONE, EB_SWAP, 24));
    CHECK(is(eb_state_mark_booted(state, 16, 16, 1, 255, 1), EB_CUT, EB_NO_STATE, 1));
    CHECK(is(boot(3), EB_DONE, EB_SWAP, 2));
    runs(s, 1, 0xD0, 15, 0xFF, 0, 0, 0, 0);
    CHECK(shows("\4\5\6", "\4\1\2\3", s));

    /* each size is read: the refusals of rows 1 to 4 */
    start();
    CHECK(is(eb_prepare_boot(active, 12, dfu, 16, state, 16, 0, 2, 4, 2, 16, 1, 2, 255, 9), EB_LIMIT, EB_NO_STATE, 0));
    CHECK(is(eb_prepare_boot(active, 12, dfu, 16, state, 16, 4, 3, 4, 2, 16, 1, 2, 255, 9), EB_PAGE, EB_NO_STATE, 0));
    CHECK(is(eb_prepare_boot(active, 12, dfu, 12, state, 16, 4, 2, 4, 2, 16, 1, 2, 255, 9), EB_AREA, EB_NO_STATE, 0));
    CHECK(is(eb_prepare_boot(active, 12, dfu, 16, state, 13, 4, 2, 4, 2, 13, 1, 2, 255, 9), EB_STATE_AREA, EB_NO_STATE, 0));
    runs(s, 1, 0xF0, 15, 0xFF, 0, 0, 0, 0);
    CHECK(shows("\1\2\3", "\4\5\6\7", s));
}

static void states(void)
{
    uint8_t s[16];

    memset(state, 0xFF, 16);
    CHECK(is(eb_state_mark_updated(state, 16, 16, 1, 255, 3), EB_DONE, EB_NO_STATE, 3));
    CHECK(is(eb_state_mark_updated(state, 16, 16, 1, 255, 0), EB_DONE, EB_NO_STATE, 0));
    CHECK(is(eb_state_get_state(state, 16, 16, 1, 255), EB_DONE, EB_SWAP, 0));
    CHECK(is(eb_state_mark_dfu(state, 16, 16, 1, 255, 9), EB_DONE, EB_NO_STATE, 3));
    CHECK(is(eb_read_state(state, 16, 16, 1, 255), EB_DONE, EB_DFU_DETACH, 0));
    CHECK(is(eb_state_mark_booted(state, 16, 16, 1, 255, 9), EB_DONE, EB_NO_STATE, 3));
    runs(s, 1, 0xD0, 15, 0xFF, 0, 0, 0, 0);
    CHECK(!memcmp(state, s, 16));
    CHECK(is(eb_state_get_state(state, 16, 16, 1, 255), EB_DONE, EB_BOOT, 0));
    CHECK(is(eb_state_get_state(state, 16, 1, 16, 255), EB_STATE_AREA, EB_NO_STATE, 0));

    CHECK(eb_state_from((const uint8_t *)"\xF0\xF0\xF0\xFF", 4) == EB_BOOT);
    CHECK(eb_state_from((const uint8_t *)"\xF0\xF0", 2) == EB_SWAP);
    CHECK(eb_state_from((const uint8_t *)"\xC0", 1) == EB_REVERT);
    CHECK(eb_state_from((const uint8_t *)"\xE0\xE0\xE0", 3) == EB_DFU_DETACH);
    CHECK(eb_state_from((const uint8_t *)"", 0) == EB_SWAP);
}

static uint64_t write(uint64_t offset, const char *bytes, size_t n, uint32_t *last, uint32_t budget)
{
    return eb_updater_write_firmware(dfu, 16, state, 16, 4, 2, 16, 1, 255, offset, (const uint8_t *)bytes, n, last, budget);
}

static void updates(void)
{
    uint8_t out[4];
    uint32_t last = EB_NO_SECTOR;

    memset(dfu, 0, 16);
    memset(state, 0xFF, 16);
    CHECK(is(write(2, "\1\2\3\4", 4, &last, 4), EB_DONE, EB_NO_STATE, 4));
    CHECK(!memcmp(dfu, "\xFF\xFF\1\2\3\4\xFF\xFF\0\0\0\0\0\0\0\0", 16) && last == 1);
    CHECK(is(write(0, "\x09\x09", 2, &last, 9), EB_DONE, EB_NO_STATE, 2));
    CHECK(!memcmp(dfu, "\x09\x09\xFF\xFF\3\4\xFF\xFF", 8) && last == 0);
    CHECK(is(write(1, "\1\1", 2, &last, 9), EB_RANGE, EB_NO_STATE, 0) && last == 0);
    CHECK(is(write(UINT64_C(1) << 32, "\1\1", 2, &last, 9), EB_RANGE, EB_NO_STATE, 0) && last == 0);
    CHECK(is(write(1, "", 0, &last, 9), EB_DONE, EB_NO_STATE, 0) && last == 0);
    CHECK(is(write(8, "\1\1", 2, &last, 0), EB_CUT, EB_NO_STATE, 0) && last == 0);
    CHECK(is(write(8, "\1\1", 2, &last, 1), EB_CUT, EB_NO_STATE, 1) && last == 2);

    memcpy(out, "....", 4);
    CHECK(is(eb_updater_read_dfu(dfu, 16, state, 16, 4, 2, 16, 1, 255, 3, out, 3), EB_DONE, EB_NO_STATE, 0));
    CHECK(!memcmp(out, "\xFF\3\4.", 4));
    CHECK(is(eb_updater_read_dfu(dfu, 16, state, 16, 4, 2, 16, 1, 255, 14, out, 3), EB_RANGE, EB_NO_STATE, 0));
    CHECK(!memcmp(out, "\xFF\3\4.", 4));

    CHECK(is(eb_updater_prepare_update(dfu, 16, state, 16, 4, 2, 16, 1, 255, 0), EB_CUT, EB_NO_STATE, 0));
    CHECK(dfu[0] == 9);
    CHECK(is(eb_updater_prepare_update(dfu, 16, state, 16, 4, 2, 16, 1, 255, 1), EB_CUT, EB_NO_STATE, 1));
    CHECK(!memcmp(dfu, "\xFF\xFF\xFF\xFF\3\4\xFF\xFF", 8));
    CHECK(is(eb_updater_prepare_update(dfu, 16, state, 16, 4, 2, 16, 1, 255, 4), EB_DONE, EB_NO_STATE, 4));
    CHECK(!memcmp(dfu, "\xFF\xFF\xFF\xFF\xFF\xFF\xFF\xFF\xFF\xFF\xFF\xFF\xFF\xFF\xFF\xFF", 16));

    CHECK(is(eb_updater_mark_dfu(dfu, 16, state, 16, 4, 2, 16, 1, 255, 9), EB_DONE, EB_NO_STATE, 3));
    CHECK(is(eb_updater_get_state(dfu, 16, state, 16, 4, 2, 16, 1, 255), EB_DONE, EB_DFU_DETACH, 0));
    CHECK(is(eb_updater_mark_updated(dfu, 16, state, 16, 4, 2, 16, 1, 255, 9), EB_DONE, EB_NO_STATE, 3));
    CHECK(is(eb_updater_get_state(dfu, 16, state, 16, 4, 2, 16, 1, 255), EB_DONE, EB_SWAP, 0));
    CHECK(is(eb_updater_mark_dfu(dfu, 16, state, 16, 4, 2, 16, 1, 255, 9), EB_BAD_STATE, EB_NO_STATE, 0));
    CHECK(is(write(0, "\1\1", 2, &last, 9), EB_BAD_STATE, EB_NO_STATE, 0) && last == 2);
    CHECK(is(eb_updater_prepare_update(dfu, 16, state, 16, 4, 2, 16, 1, 255, 9), EB_BAD_STATE, EB_NO_STATE, 0));
    CHECK(is(eb_updater_mark_booted(dfu, 16, state, 16, 4, 2, 16, 1, 255, 9), EB_DONE, EB_NO_STATE, 3));
    CHECK(is(eb_updater_get_state(dfu, 16, state, 16, 4, 2, 16, 1, 255), EB_DONE, EB_BOOT, 0));
    CHECK(is(eb_updater_mark_booted(dfu, 15, state, 16, 4, 2, 16, 1, 255, 9), EB_AREA, EB_NO_STATE, 0));
    CHECK(is(eb_updater_mark_updated(dfu, 16, state, 16, 3, 2, 16, 1, 255, 9), EB_PAGE, EB_NO_STATE, 0));
}

static uint64_t check_and_mark(uint64_t length, uint32_t crc, uint32_t budget)
{
    return eb_updater_check_and_mark_updated(dfu, 16, state, 16, 4, 2, 16, 1, 255, length, crc, budget);
}

/* A sum before marking: the published value, and those of no bytes, of a byte, of a sector and of all of DFU, as python3's zlib has
 * them. */
static void sums(void)
{
    static const struct { uint64_t length; uint32_t crc; } rows[] = {
        {0, 0}, {1, 0x83DCEFB7}, {4, 0x9BE3E0A3}, {9, 0xCBF43926}, {16, 0x31C2F5B4},
    };
    uint8_t s[16];

    memcpy(dfu, "123456789 beyond", 16);
    for (size_t i = 0; i < sizeof rows / sizeof *rows; i++) {
        memset(state, 0xFF, 16);
        for (int bit = 0; bit < 32; bit++)
            CHECK(is(check_and_mark(rows[i].length, rows[i].crc ^ UINT32_C(1) << bit, 9), EB_CHECKSUM, EB_NO_STATE, 0));
        memset(s, 0xFF, 16);
        CHECK(!memcmp(state, s, 16));
        CHECK(is(check_and_mark(rows[i].length, rows[i].crc, 0), EB_CUT, EB_NO_STATE, 0));
        CHECK(!memcmp(state, s, 16));
        CHECK(is(check_and_mark(rows[i].length, rows[i].crc, 1), EB_CUT, EB_NO_STATE, 1));
        CHECK(is(check_and_mark(rows[i].length, rows[i].crc, 2), EB_DONE, EB_NO_STATE, 2));
        runs(s, 1, 0xF0, 15, 0xFF, 0, 0, 0, 0);
        CHECK(!memcmp(state, s, 16));
    }

    /* 5 before 6 before 8, and no length is cut to 32 bits */
    CHECK(is(check_and_mark(9, 0xCBF43926, 9), EB_BAD_STATE, EB_NO_STATE, 0));
    CHECK(is(check_and_mark(17, 0, 9), EB_BAD_STATE, EB_NO_STATE, 0));
    memset(state, 0xFF, 16);
    CHECK(is(check_and_mark(17, 0, 9), EB_RANGE, EB_NO_STATE, 0));
    CHECK(is(check_and_mark((UINT64_C(1) << 32) + 9, 0xCBF43926, 9), EB_RANGE, EB_NO_STATE, 0));
    CHECK(is(check_and_mark(UINT64_MAX, 0, 9), EB_RANGE, EB_NO_STATE, 0));
    CHECK(is(eb_updater_check_and_mark_updated(dfu, 16, state, 16, 3, 2, 16, 1, 255, 9, 0xCBF43926, 9), EB_PAGE, EB_NO_STATE, 0));
    CHECK(is(eb_updater_check_and_mark_updated(dfu, 15, state, 16, 4, 2, 16, 1, 255, 9, 0xCBF43926, 9), EB_AREA, EB_NO_STATE, 0));
    memset(s, 0xFF, 16);
    CHECK(!memcmp(state, s, 16) && !memcmp(dfu, "123456789 beyond", 16));

    /* flash that erases to 00: the mark follows the erase value, the sum does not */
    memset(state, 0, 16);
    CHECK(is(eb_updater_check_and_mark_updated(dfu, 16, state, 16, 4, 2, 16, 1, 0, 9, 0xCBF43926, 9), EB_DONE, EB_NO_STATE, 3));
    runs(s, 1, 0xF0, 15, 0, 0, 0, 0, 0);
    CHECK(!memcmp(state, s, 16));
}

static uint8_t digest[65];

static uint64_t hash(uint64_t length, uint64_t chunk, size_t out_length)
{
    memset(digest, '.', sizeof digest);
    return eb_updater_hash(dfu, 16, state, 16, 4, 2, 16, 1, 255, length, chunk, digest, out_length);
}

static int untouched(void)
{
    for (size_t i = 0; i < sizeof digest; i++)
        if (digest[i] != '.')
            return 0;
    return 1;
}

/* The digest: two of the standard's examples, in every chunk. */
static void hashes(void)
{
    static const char none[] =
        "\xCF\x83\xE1\x35\x7E\xEF\xB8\xBD\xF1\x54\x28\x50\xD6\x6D\x80\x07"
        "\xD6\x20\xE4\x05\x0B\x57\x15\xDC\x83\xF4\xA9\x21\xD3\x6C\xE9\xCE"
        "\x47\xD0\xD1\x3C\x5D\x85\xF2\xB0\xFF\x83\x18\xD2\x87\x7E\xEC\x2F"
        "\x63\xB9\x31\xBD\x47\x41\x7A\x81\xA5\x38\x32\x7A\xF9\x27\xDA\x3E";
    static const char abc[] =
        "\xDD\xAF\x35\xA1\x93\x61\x7A\xBA\xCC\x41\x73\x49\xAE\x20\x41\x31"
        "\x12\xE6\xFA\x4E\x89\xA9\x7E\xA2\x0A\x9E\xEE\xE6\x4B\x55\xD3\x9A"
        "\x21\x92\x99\x2A\x27\x4F\xC1\xA8\x36\xBA\x3C\x23\xA3\xFE\xEB\xBD"
        "\x45\x4D\x44\x23\x64\x3C\xE8\x0E\x2A\x9A\xC9\x4F\xA5\x4C\xA4\x9F";

    memcpy(dfu, "abc and not more", 16);
    memset(state, 0xF0, 16); /* a swap is pending, and that is not asked */
    for (uint64_t chunk = 1; chunk <= 20; chunk++) {
        CHECK(is(hash(3, chunk, 64), EB_DONE, EB_NO_STATE, 0) && !memcmp(digest, abc, 64) && digest[64] == '.');
        CHECK(is(hash(0, chunk, 64), EB_DONE, EB_NO_STATE, 0) && !memcmp(digest, none, 64) && digest[64] == '.');
    }
    CHECK(is(hash(3, UINT64_C(1) << 32, 64), EB_DONE, EB_NO_STATE, 0) && !memcmp(digest, abc, 64));
    CHECK(is(hash(3, UINT64_MAX, 64), EB_DONE, EB_NO_STATE, 0) && !memcmp(digest, abc, 64));
    CHECK(is(hash(16, 5, 64), EB_DONE, EB_NO_STATE, 0) && memcmp(digest, abc, 64));

    CHECK(is(hash(17, 1, 64), EB_RANGE, EB_NO_STATE, 0) && untouched());
    CHECK(is(hash((UINT64_C(1) << 32) + 3, 1, 64), EB_RANGE, EB_NO_STATE, 0) && untouched());
    CHECK(is(hash(3, 0, 64), EB_RANGE, EB_NO_STATE, 0) && untouched());
    CHECK(is(hash(3, 1, 63), EB_RANGE, EB_NO_STATE, 0) && untouched());
    CHECK(is(hash(3, 1, 65), EB_RANGE, EB_NO_STATE, 0) && untouched());
    CHECK(is(eb_updater_hash(dfu, 15, state, 16, 4, 2, 16, 1, 255, 3, 1, digest, 64), EB_AREA, EB_NO_STATE, 0) && untouched());
    CHECK(is(eb_updater_hash(dfu, 16, state, 16, 4, 2, 16, 1, 0, 3, 1, digest, 64), EB_DONE, EB_NO_STATE, 0));
    CHECK(!memcmp(digest, abc, 64) && !memcmp(dfu, "abc and not more", 16) && state[15] == 0xF0);
}

/* Flash that erases to 00. */
static uint64_t boot_zero(uint32_t budget)
{
    return eb_prepare_boot(active, 12, dfu, 16, state, 16, 4, 2, 4, 2, 16, 1, 2, 0, budget);
}

static void zeros(void)
{
    uint8_t s[16], out[4];
    uint32_t last = EB_NO_SECTOR;

    memset(state, 0, 16); /* marks: the invalidation is FF, and the erase takes it back */
    CHECK(is(eb_state_mark_updated(state, 16, 16, 1, 0, 1), EB_CUT, EB_NO_STATE, 1));
    runs(s, 1, 0, 1, 0xFF, 14, 0, 0, 0);
    CHECK(!memcmp(state, s, 16));
    CHECK(is(eb_state_mark_updated(state, 16, 16, 1, 0, 9), EB_DONE, EB_NO_STATE, 2));
    runs(s, 1, 0xF0, 15, 0, 0, 0, 0, 0);
    CHECK(!memcmp(state, s, 16));
    CHECK(is(eb_read_state(state, 16, 16, 1, 0), EB_DONE, EB_SWAP, 0));
    CHECK(is(eb_state_get_state(state, 16, 16, 1, 0), EB_DONE, EB_SWAP, 0));

    pages(active, 3, "\1\2\3"); /* d, c, a */
    pages(dfu, 4, "\4\5\6\7");
    CHECK(is(boot_zero(1), EB_CUT, EB_NO_STATE, 1));
    CHECK(shows("\1\2\3", "\4\5\6\0", s));
    CHECK(is(boot_zero(4), EB_CUT, EB_NO_STATE, 4));
    runs(s, 1, 0xF0, 1, 0, 1, 0xFF, 13, 0);
    CHECK(shows("\1\2\3", "\4\5\6\3", s));
    CHECK(is(boot_zero(EB_FOREVER), EB_DONE, EB_SWAP, 20));
    runs(s, 1, 0xF0, 1, 0, 6, 0xFF, 8, 0);
    CHECK(shows("\4\5\6", "\4\1\2\3", s));
    CHECK(is(eb_state_mark_booted(state, 16, 16, 1, 0, 1), EB_CUT, EB_NO_STATE, 1)); /* j */
    runs(s, 1, 0xF0, 1, 0xFF, 6, 0xFF, 8, 0);
    CHECK(shows("\4\5\6", "\4\1\2\3", s));
    CHECK(is(boot_zero(9), EB_DONE, EB_SWAP, 2));
    runs(s, 1, 0xD0, 15, 0, 0, 0, 0, 0);
    CHECK(shows("\4\5\6", "\4\1\2\3", s));
    CHECK(is(eb_state_mark_dfu(state, 16, 16, 1, 0, 9), EB_DONE, EB_NO_STATE, 3));

    memset(dfu, 0xFF, 16); /* the updater; a second write into the sector only sets bits */
    CHECK(is(eb_updater_write_firmware(dfu, 16, state, 16, 4, 2, 16, 1, 0, 2, (const uint8_t *)"\1\2\3\4", 4, &last, 9), EB_DONE,
             EB_NO_STATE, 4));
    CHECK(is(eb_updater_write_firmware(dfu, 16, state, 16, 4, 2, 16, 1, 0, 4, (const uint8_t *)"\x30\7", 2, &last, 9), EB_DONE,
             EB_NO_STATE, 1));
    CHECK(!memcmp(dfu, "\0\0\1\2\x33\7\0\0\xFF\xFF\xFF\xFF\xFF\xFF\xFF\xFF", 16) && last == 1);
    CHECK(is(eb_updater_read_dfu(dfu, 16, state, 16, 4, 2, 16, 1, 0, 3, out, 4), EB_DONE, EB_NO_STATE, 0));
    CHECK(!memcmp(out, "\2\x33\7\0", 4));
    CHECK(is(eb_updater_prepare_update(dfu, 16, state, 16, 4, 2, 16, 1, 0, 3), EB_CUT, EB_NO_STATE, 3));
    CHECK(!memcmp(dfu, "\0\0\0\0\0\0\0\0\0\0\0\0\xFF\xFF\xFF\xFF", 16));
    CHECK(is(eb_updater_mark_updated(dfu, 16, state, 16, 4, 2, 16, 1, 0, 9), EB_DONE, EB_NO_STATE, 3));
    CHECK(is(eb_updater_get_state(dfu, 16, state, 16, 4, 2, 16, 1, 0), EB_DONE, EB_SWAP, 0));
    CHECK(is(eb_updater_mark_booted(dfu, 16, state, 16, 4, 2, 16, 1, 0, 9), EB_DONE, EB_NO_STATE, 3));
    CHECK(is(eb_updater_mark_dfu(dfu, 16, state, 16, 4, 2, 16, 1, 0, 9), EB_DONE, EB_NO_STATE, 3));
    runs(s, 1, 0xE0, 15, 0, 0, 0, 0, 0);
    CHECK(!memcmp(state, s, 16));
}

/* The calls that take the numbers in a record hand each to its place: eight different ones, admitted, and then each size as 0,
 * which is refused just where the call reads it. */
static uint8_t active_2[64], dfu_3[96], state_64[64], out_2[2];

static void with_a_record(const struct eb_geometry *g, uint32_t boots, uint32_t states, uint32_t updaters)
{
    uint32_t last = EB_NO_SECTOR;
    memset(state_64, (int)g->ev, 64);
    CHECK(eb_number(eb_read_state_with(state_64, 64, g)) == states);
    CHECK(eb_number(eb_state_get_state_with(state_64, 64, g)) == states);
    CHECK(eb_number(eb_state_mark_dfu_with(state_64, 64, g, 9)) == states);
    CHECK(eb_number(eb_state_mark_booted_with(state_64, 64, g, 9)) == states);
    CHECK(eb_number(eb_updater_get_state_with(dfu_3, 96, state_64, 64, g)) == updaters);
    CHECK(eb_number(eb_updater_mark_dfu_with(dfu_3, 96, state_64, 64, g, 9)) == updaters);
    CHECK(eb_number(eb_updater_mark_booted_with(dfu_3, 96, state_64, 64, g, 9)) == updaters);
    CHECK(eb_number(eb_updater_prepare_update_with(dfu_3, 96, state_64, 64, g, 9)) == updaters);
    CHECK(eb_number(eb_updater_write_firmware_with(dfu_3, 96, state_64, 64, g, 4, out_2, 2, &last, 9)) == updaters);
    CHECK(eb_number(eb_updater_read_dfu_with(dfu_3, 96, state_64, 64, g, 4, out_2, 2)) == updaters);
    CHECK(eb_number(eb_updater_hash_with(dfu_3, 96, state_64, 64, g, 4, 2, digest, 64)) == updaters);
    CHECK(eb_number(eb_updater_check_and_mark_updated_with(dfu_3, 96, state_64, 64, g, 0, 0, 9)) == updaters);
    CHECK(eb_number(eb_updater_mark_booted_with(dfu_3, 96, state_64, 64, g, 9)) == updaters);
    CHECK(eb_number(eb_updater_mark_updated_with(dfu_3, 96, state_64, 64, g, 9)) == updaters);
    CHECK(eb_number(eb_state_mark_updated_with(state_64, 64, g, 9)) == states);
    CHECK(eb_number(eb_prepare_boot_with(active_2, 64, dfu_3, 96, state_64, 64, g, EB_FOREVER)) == boots);
}

static void records(void)
{
    const struct eb_geometry g = EB_GEOMETRY(EB_ERASES_TO_FF, .ea = 8, .wa = 4, .ed = 32, .wd = 2, .es = 64, .ws = 1, .b = 16);
#ifdef WITHOUT_THE_ERASE_VALUE /* must not compile */
    const struct eb_geometry left_out = EB_GEOMETRY(.ea = 8, .wa = 4, .ed = 32, .wd = 2, .es = 64, .ws = 1, .b = 16);
#endif
    static const uint32_t no_values[] = {1, 127, 128, 254, 256, 511, 65535, 65536, 4294967295};
    struct eb_geometry h;

    with_a_record(&g, EB_DONE, EB_DONE, EB_DONE);
    /* two pages, and for each a step to DFU (a unit, two chunks, a mark) and one to active (four units, two chunks, a mark) */
    memset(state_64, 0xFF, 64);
    CHECK(is(eb_state_mark_updated_with(state_64, 64, &g, EB_FOREVER), EB_DONE, EB_NO_STATE, 3));
    CHECK(is(eb_prepare_boot_with(active_2, 64, dfu_3, 96, state_64, 64, &g, EB_FOREVER), EB_DONE, EB_SWAP, 22));
    h = g, h.ea = 0, with_a_record(&h, EB_LIMIT, EB_DONE, EB_DONE);
    h = g, h.wa = 0, with_a_record(&h, EB_LIMIT, EB_DONE, EB_DONE);
    h = g, h.b = 0, with_a_record(&h, EB_LIMIT, EB_DONE, EB_DONE);
    h = g, h.ed = 0, with_a_record(&h, EB_LIMIT, EB_DONE, EB_LIMIT);
    h = g, h.wd = 0, with_a_record(&h, EB_LIMIT, EB_DONE, EB_LIMIT);
    h = g, h.es = 0, with_a_record(&h, EB_LIMIT, EB_LIMIT, EB_LIMIT);
    h = g, h.ws = 0, with_a_record(&h, EB_LIMIT, EB_LIMIT, EB_LIMIT);
    /* of two sizes that are both read, the larger one's place is told by the refusal */
    h = g, h.ws = 32, with_a_record(&h, EB_PAGE, EB_DONE, EB_DONE);
    h = g, h.es = 1, h.ws = 64, with_a_record(&h, EB_PAGE, EB_STATE_AREA, EB_STATE_AREA);
    h = g, h.ed = 2, h.wd = 32, with_a_record(&h, EB_PAGE, EB_DONE, EB_PAGE);
    /* every call reads the erase value */
    h = g, h.ev = 0, with_a_record(&h, EB_DONE, EB_DONE, EB_DONE);
    for (size_t i = 0; i < sizeof no_values / sizeof *no_values; i++)
        h = g, h.ev = no_values[i], with_a_record(&h, EB_LIMIT, EB_LIMIT, EB_LIMIT);
}

static void names(void)
{
    CHECK(!strcmp(eb_number_name(EB_DONE), "Done") && !strcmp(eb_number_name(EB_STATE_AREA), "StateArea"));
    CHECK(!strcmp(eb_number_name(EB_CUT), "Cut") && !strcmp(eb_number_name(EB_CHECKSUM), "Checksum"));
    CHECK(!strcmp(eb_number_name(9), "?") && !strcmp(eb_number_name(1000), "?"));
    CHECK(!strcmp(eb_state_name(EB_BOOT), "Boot") && !strcmp(eb_state_name(EB_DFU_DETACH), "DfuDetach"));
    CHECK(!strcmp(eb_state_name(EB_NO_STATE), "none"));
}

int main(void)
{
    boots();
    states();
    updates();
    sums();
    hashes();
    zeros();
    records();
    names();
    if (!failed)
        puts("every call as document 01 says");
    return failed != 0;
}
