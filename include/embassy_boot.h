/* The blocking boot loader, firmware state and firmware updater of embassy-boot 0.7.0, proved, for C to link.
 *
 *   ./build                                                      makes target/staticlib/libembassy_boot.a, for x86-64 Linux
 *   cc -Iinclude yours.c target/staticlib/libembassy_boot.a
 *
 * This page says all that a caller needs. docs/RULES.md has the same rules in their own order, docs/DIFFERENCES.md where they
 * differ from the crate's, and examples/sweep.c is a whole program. What each function does is proved of the library, for every
 * input; that this header names its parameters in the library's order is tested by tests/c.
 *
 * Flash is memory of the caller's. There are three areas: active (the image that is run), DFU (the image to come, and a page more)
 * and state (what is to be done, and how far it is). An erase sets a unit's bytes to FF. A write can only clear bits: each byte
 * becomes old AND new. Each erased unit is one operation, and so is each write. Reading costs nothing.
 *
 * Of flash that erases to 00 the same is said with FF and 00 exchanged: an erase sets bytes to 00, a write can only set bits, each
 * byte becomes old OR new, and marks are FF. Which of the two it is, every call is told by the number after its sizes.
 *
 * Sizes, in bytes (`struct eb_geometry` below holds all eight numbers):
 *   ea, wa   erase and write size of active            ACTIVE::ERASE_SIZE, ACTIVE::WRITE_SIZE in the crate
 *   ed, wd   erase and write size of DFU               DFU::ERASE_SIZE, DFU::WRITE_SIZE; an erase unit of DFU is a sector
 *   es, ws   erase and write size of the state area    STATE::ERASE_SIZE, STATE::WRITE_SIZE; ws bytes are a state word
 *   b        the chunk in which a page is copied       aligned_buf.len()
 * And no size:
 *   ev       the erase value of all areas, 255 or 0    0 is the crate's switch flash-erase-zero
 * P, the page, is the least common multiple of ea and ed: the larger where one divides the other. N is the number of pages in
 * active, T the number of words in the state area.
 *
 * What is asked of a caller: a pointer is valid for its length, lent areas do not overlap, and a length of 0 still comes with a
 * pointer that is not null. Nothing else: what does not fit is refused.
 */
#ifndef EMBASSY_BOOT_H
#define EMBASSY_BOOT_H

#include <stddef.h>
#include <stdint.h>

#ifdef __cplusplus
extern "C" {
#endif

/* A call whose result is dropped was a mistake: it may have been refused or cut. */
#if defined(__GNUC__) || defined(__clang__)
#define EB_RESULT __attribute__((warn_unused_result))
#else
#define EB_RESULT
#endif

/* ---- Results ----
 *
 * A result is number * 2^40 + state * 2^32 + operations; these three take it apart. Operations are those done: all of the call's
 * where it is done, the budget where it is cut, 0 where it is refused. */
static inline uint32_t eb_number(uint64_t result) { return (uint32_t)(result >> 40); }
static inline uint32_t eb_state(uint64_t result) { return (uint32_t)(result >> 32) & 0xFF; }
static inline uint32_t eb_operations(uint64_t result) { return (uint32_t)result; }

/* The number: done, a refusal, or a cut. A refusal has changed no area, no output buffer and no memory of an updater. Where several
 * hold, the lowest is given. Which of them a call can give stands with the call. */
enum {
    EB_DONE = 0,

    /* A size that the call reads is 0 or above 65,536, or ev is neither 255 nor 0, or a flash area that the call is lent is longer
     * than 16,777,216 bytes. */
    EB_LIMIT = 1,

    /* eb_prepare_boot: the page P is above 1,048,576, or no multiple of one of wa, wd and b; or b is no multiple of wa or of wd; or
     * b is below ws, for the buffer of the chunk is also the one through which the crate reads and writes a state word.
     * Updater: ed is no multiple of wd. */
    EB_PAGE = 2,

    /* eb_prepare_boot: active or DFU is no whole number of pages, or DFU is not at least a page longer than active.
     * Updater: DFU is no whole number of sectors. */
    EB_AREA = 3,

    /* es is no multiple of ws, or the state area is no whole number of its erase units, or it has too few words: eb_prepare_boot
     * wants T >= 4N + 3, every other call T >= 2. */
    EB_STATE_AREA = 4,

    /* A swap is pending: the state reads Swap. That is so from mark_updated on until the swapped firmware is confirmed by
     * mark_booted or a boot has taken it back. Only the updater's mark_dfu, write_firmware, prepare_update and
     * check_and_mark_updated ask. */
    EB_BAD_STATE = 5,

    /* eb_updater_read_dfu: offset + out_length is above dfu_length. eb_updater_write_firmware, where data is not empty: offset or
     * data_length is no multiple of wd, or offset + data_length is above dfu_length. eb_updater_check_and_mark_updated: length is
     * above dfu_length. eb_updater_hash: length is above dfu_length, or chunk is 0, or out_length is not 64. No sum wraps. */
    EB_RANGE = 6,

    /* The budget was used up and one more operation was wanted. Precisely the operations done are in the flash, in order, and each
     * of them whole: the power failed there. */
    EB_CUT = 7,

    /* A refusal like 1 to 6, and the last of them to be asked. eb_updater_check_and_mark_updated: the bytes have another sum. */
    EB_CHECKSUM = 8
};

/* The state. Only a call that is done carries one, and only eb_prepare_boot, eb_read_state and the get_state calls do. */
enum {
    EB_BOOT = 0,       /* nothing to do; any word that is none of the other three magics reads so */
    EB_SWAP = 1,       /* an update is marked, or it is swapped in and not confirmed yet */
    EB_REVERT = 2,     /* a boot took an update back */
    EB_DFU_DETACH = 3, /* the application asked for an update over USB */
    EB_NO_STATE = 255  /* the answer carries none */
};

/* Names, for messages: those of docs/RULES.md and of the Rust wrapper. */
static inline const char *eb_number_name(uint32_t number)
{
    static const char *const names[] = {"Done", "Limit", "Page", "Area", "StateArea", "BadState", "Range", "Cut", "Checksum"};
    return number < sizeof names / sizeof *names ? names[number] : "?";
}
static inline const char *eb_state_name(uint32_t state)
{
    static const char *const names[] = {"Boot", "Swap", "Revert", "DfuDetach"};
    return state < sizeof names / sizeof *names ? names[state] : "none";
}

/* A budget is the most operations that a call may do, as if the power failed after them. No call wants more than this one. */
#define EB_FOREVER UINT32_C(4294967295)

/* The updater's memory where no sector was erased yet. */
#define EB_NO_SECTOR UINT32_C(4294967295)

/* The two erase values. */
#define EB_ERASES_TO_FF UINT32_C(255)
#define EB_ERASES_TO_00 UINT32_C(0)

/* ---- The boot loader ---- */

/* To be called at each start, before the active image is run; and after a cut again, before anything is run, for active may be half
 * old and half new then. What it does is told by the state area alone. Word 0 holds the state, word 1 the validity, which is
 * there while the word is erased, word 2 + i the mark of step i, of 4N steps, which is open while it has an erased byte; marks are
 * counted from the first one up to the first that is open.
 *
 *   Boot, Revert or DfuDetach: nothing, 0 operations.
 *   Swap, validity there, fewer than 2N marks: the swap, from its first open step on. From a fresh mark, whatever cuts fell, it
 *     ends with active holding what DFU held, and DFU what active held, a page further on.
 *   Swap, validity there, 2N marks or more: the swap is done and nobody confirmed it, so it is undone from its first open step on,
 *     and the state becomes Revert. Active is then as before the swap.
 *   Swap, validity gone, 2N to 4N - 1 marks: mark_booted was cut. It is finished: the state becomes Boot, no image is changed.
 *   Swap, validity gone, any other count: the state becomes Revert, no image is changed. So ends a revert that was cut at its end.
 *
 * Carries the state read at entry: EB_SWAP after a revert too. Refusals: 1, 2, 3, 4. */
EB_RESULT uint64_t eb_prepare_boot(uint8_t *active, size_t active_length, uint8_t *dfu, size_t dfu_length, uint8_t *state,
                                   size_t state_length, uint32_t ea, uint32_t wa, uint32_t ed, uint32_t wd, uint32_t es,
                                   uint32_t ws, uint32_t b, uint32_t ev, uint32_t budget);

/* The state that the state area holds. 0 operations. Refusals: 1, 4, with T >= 2 as for every call but a boot. */
EB_RESULT uint64_t eb_read_state(const uint8_t *state, size_t state_length, uint32_t es, uint32_t ws, uint32_t ev);

/* ---- The state area, from the application ----
 *
 * Refusals of each: 1, 4. A mark does nothing, with 0 operations, where word 0 holds its magic throughout already. Else it makes
 * the progress invalid (one write, left out where it is invalid already), erases the state area (an operation for each unit) and
 * writes the magic. A mark that is cut is made by calling again; until then the state reads as it did, or Boot. */

/* The same answer as eb_read_state, under the application's name for it. */
EB_RESULT uint64_t eb_state_get_state(const uint8_t *state, size_t state_length, uint32_t es, uint32_t ws, uint32_t ev);

/* The next boot swaps the images. On a device whose swap is done and not confirmed the state is Swap already: there this does
 * nothing, and the next boot takes the swap back. Confirm first. */
EB_RESULT uint64_t eb_state_mark_updated(uint8_t *state, size_t state_length, uint32_t es, uint32_t ws, uint32_t ev,
                                         uint32_t budget);

/* The next boot answers EB_DFU_DETACH and leaves the rest to the caller. Nothing is asked: a swap that is pending is forgotten. */
EB_RESULT uint64_t eb_state_mark_dfu(uint8_t *state, size_t state_length, uint32_t es, uint32_t ws, uint32_t ev, uint32_t budget);

/* The firmware that runs is confirmed: the next boot does not undo the swap. Only firmware that was started after a boot that was
 * done may say so. Said from outside after a boot that was cut, it can keep a mixture of both images (docs/DIFFERENCES.md). */
EB_RESULT uint64_t eb_state_mark_booted(uint8_t *state, size_t state_length, uint32_t es, uint32_t ws, uint32_t ev,
                                        uint32_t budget);

/* ---- The updater ----
 *
 * The application's side of an update; it looks at DFU's sizes too. Refusals of each: 1, 2, 3, 4, and what is said with it. */

/* The four calls of the state area. The updater's mark_dfu is refused with 5 while a swap is pending. */
EB_RESULT uint64_t eb_updater_get_state(const uint8_t *dfu, size_t dfu_length, const uint8_t *state, size_t state_length,
                                        uint32_t ed, uint32_t wd, uint32_t es, uint32_t ws, uint32_t ev);
EB_RESULT uint64_t eb_updater_mark_updated(const uint8_t *dfu, size_t dfu_length, uint8_t *state, size_t state_length,
                                           uint32_t ed, uint32_t wd, uint32_t es, uint32_t ws, uint32_t ev, uint32_t budget);
EB_RESULT uint64_t eb_updater_mark_dfu(const uint8_t *dfu, size_t dfu_length, uint8_t *state, size_t state_length, uint32_t ed,
                                       uint32_t wd, uint32_t es, uint32_t ws, uint32_t ev, uint32_t budget);
EB_RESULT uint64_t eb_updater_mark_booted(const uint8_t *dfu, size_t dfu_length, uint8_t *state, size_t state_length,
                                          uint32_t ed, uint32_t wd, uint32_t es, uint32_t ws, uint32_t ev, uint32_t budget);

/* eb_updater_mark_updated, if the first length bytes of DFU have this CRC-32: the reflected one of IEEE 802.3, which zlib has too
 * (CBF43926 for "123456789"; of no bytes it is 0). Operations are those of the mark. Also refused: 5 while a swap is pending, 6, and 8
 * for another sum. A state that is marked already reads Swap, so a second call is refused with 5. */
EB_RESULT uint64_t eb_updater_check_and_mark_updated(const uint8_t *dfu, size_t dfu_length, uint8_t *state, size_t state_length,
                                                     uint32_t ed, uint32_t wd, uint32_t es, uint32_t ws, uint32_t ev,
                                                     uint64_t length, uint32_t crc, uint32_t budget);

/* Fills out with the bytes of DFU from offset on; the offset need not stand on a write unit. 0 operations. Also refused: 6. */
EB_RESULT uint64_t eb_updater_read_dfu(const uint8_t *dfu, size_t dfu_length, const uint8_t *state, size_t state_length,
                                       uint32_t ed, uint32_t wd, uint32_t es, uint32_t ws, uint32_t ev, uint32_t offset,
                                       uint8_t *out, size_t out_length);

/* Sets out, which must be 64 bytes long, to the SHA-512 (FIPS 180-4) of the first length bytes of DFU. They are read in pieces of chunk
 * bytes, the last one shorter; the digest is the same for every chunk, which may also be longer than DFU. The state is not asked. 0
 * operations. Also refused: 6, which leaves out as it was. */
EB_RESULT uint64_t eb_updater_hash(const uint8_t *dfu, size_t dfu_length, const uint8_t *state, size_t state_length, uint32_t ed,
                                   uint32_t wd, uint32_t es, uint32_t ws, uint32_t ev, uint64_t length, uint64_t chunk,
                                   uint8_t *out, size_t out_length);

/* Writes data at offset of DFU, in pieces up to each sector's end: the sector is erased unless it is the one last erased, then the
 * piece is written, an operation each. *last is that memory: start an update with EB_NO_SECTOR and hand the same variable to each
 * call of it. It is set when an erase is done, also where the call is cut later; a refusal leaves it as it came. To go back to an
 * earlier sector erases that again, with what was written there. A value that is no sector of DFU has the effect of another sector.
 * Empty data is done with 0 operations, at any offset. Also refused: 6, and 5 while a swap is pending, so that an update that was
 * swapped in must be confirmed before the next one is written. */
EB_RESULT uint64_t eb_updater_write_firmware(uint8_t *dfu, size_t dfu_length, const uint8_t *state, size_t state_length,
                                             uint32_t ed, uint32_t wd, uint32_t es, uint32_t ws, uint32_t ev, uint64_t offset,
                                             const uint8_t *data, size_t data_length, uint32_t *last, uint32_t budget);

/* Erases all of DFU, unit by unit: an operation each. eb_updater_write_firmware's memory has no part in it. Also refused: 5 while a
 * swap is pending. */
EB_RESULT uint64_t eb_updater_prepare_update(uint8_t *dfu, size_t dfu_length, const uint8_t *state, size_t state_length,
                                             uint32_t ed, uint32_t wd, uint32_t es, uint32_t ws, uint32_t ev, uint32_t budget);

/* ---- A word ---- */

/* The state, EB_BOOT to EB_DFU_DETACH, that a word of these bytes stands for: it must hold the magic's byte throughout. No bytes at
 * all read EB_SWAP. */
EB_RESULT uint32_t eb_state_from(const uint8_t *bytes, size_t length);

/* ---- The same calls with the numbers in a record ----
 *
 * `NAME_with` is NAME with the record in the numbers' place; it reads the fields that NAME names and no others.
 *
 * Fill it by EB_GEOMETRY, which asks for the erase value first and takes the sizes by their names:
 *
 *   const struct eb_geometry g = EB_GEOMETRY(EB_ERASES_TO_FF, .ea = 4096, .wa = 8, ..);
 *
 * Beware of a bare {.ea = 4096, .wa = 8, ..}: a field that is left out is 0. A size of 0 is refused, but an ev of 0 is not: it is
 * flash that erases to 00. Without the erase value EB_GEOMETRY does not compile. */
#define EB_GEOMETRY(value, ...) {__VA_ARGS__, .ev = (value)}

struct eb_geometry {
    uint32_t ea; /* active: erase size */
    uint32_t wa; /* active: write size */
    uint32_t ed; /* DFU: erase size, a sector */
    uint32_t wd; /* DFU: write size */
    uint32_t es; /* state area: erase size */
    uint32_t ws; /* state area: write size, a word */
    uint32_t b;  /* the chunk in which a page is copied */
    uint32_t ev; /* the erase value: EB_ERASES_TO_FF or EB_ERASES_TO_00 */
};

EB_RESULT static inline uint64_t eb_prepare_boot_with(uint8_t *active, size_t active_length, uint8_t *dfu, size_t dfu_length,
                                                      uint8_t *state, size_t state_length, const struct eb_geometry *g,
                                                      uint32_t budget)
{
    return eb_prepare_boot(active, active_length, dfu, dfu_length, state, state_length, g->ea, g->wa, g->ed, g->wd, g->es, g->ws,
                           g->b, g->ev, budget);
}
EB_RESULT static inline uint64_t eb_read_state_with(const uint8_t *state, size_t state_length, const struct eb_geometry *g)
{
    return eb_read_state(state, state_length, g->es, g->ws, g->ev);
}

EB_RESULT static inline uint64_t eb_state_get_state_with(const uint8_t *state, size_t state_length, const struct eb_geometry *g)
{
    return eb_state_get_state(state, state_length, g->es, g->ws, g->ev);
}
EB_RESULT static inline uint64_t eb_state_mark_updated_with(uint8_t *state, size_t state_length, const struct eb_geometry *g,
                                                            uint32_t budget)
{
    return eb_state_mark_updated(state, state_length, g->es, g->ws, g->ev, budget);
}
EB_RESULT static inline uint64_t eb_state_mark_dfu_with(uint8_t *state, size_t state_length, const struct eb_geometry *g,
                                                        uint32_t budget)
{
    return eb_state_mark_dfu(state, state_length, g->es, g->ws, g->ev, budget);
}
EB_RESULT static inline uint64_t eb_state_mark_booted_with(uint8_t *state, size_t state_length, const struct eb_geometry *g,
                                                           uint32_t budget)
{
    return eb_state_mark_booted(state, state_length, g->es, g->ws, g->ev, budget);
}

EB_RESULT static inline uint64_t eb_updater_get_state_with(const uint8_t *dfu, size_t dfu_length, const uint8_t *state,
                                                           size_t state_length, const struct eb_geometry *g)
{
    return eb_updater_get_state(dfu, dfu_length, state, state_length, g->ed, g->wd, g->es, g->ws, g->ev);
}
EB_RESULT static inline uint64_t eb_updater_mark_updated_with(const uint8_t *dfu, size_t dfu_length, uint8_t *state,
                                                              size_t state_length, const struct eb_geometry *g, uint32_t budget)
{
    return eb_updater_mark_updated(dfu, dfu_length, state, state_length, g->ed, g->wd, g->es, g->ws, g->ev, budget);
}
EB_RESULT static inline uint64_t eb_updater_mark_dfu_with(const uint8_t *dfu, size_t dfu_length, uint8_t *state,
                                                          size_t state_length, const struct eb_geometry *g, uint32_t budget)
{
    return eb_updater_mark_dfu(dfu, dfu_length, state, state_length, g->ed, g->wd, g->es, g->ws, g->ev, budget);
}
EB_RESULT static inline uint64_t eb_updater_mark_booted_with(const uint8_t *dfu, size_t dfu_length, uint8_t *state,
                                                             size_t state_length, const struct eb_geometry *g, uint32_t budget)
{
    return eb_updater_mark_booted(dfu, dfu_length, state, state_length, g->ed, g->wd, g->es, g->ws, g->ev, budget);
}
EB_RESULT static inline uint64_t eb_updater_check_and_mark_updated_with(const uint8_t *dfu, size_t dfu_length, uint8_t *state,
                                                                        size_t state_length, const struct eb_geometry *g,
                                                                        uint64_t length, uint32_t crc, uint32_t budget)
{
    return eb_updater_check_and_mark_updated(dfu, dfu_length, state, state_length, g->ed, g->wd, g->es, g->ws, g->ev, length, crc,
                                             budget);
}
EB_RESULT static inline uint64_t eb_updater_read_dfu_with(const uint8_t *dfu, size_t dfu_length, const uint8_t *state,
                                                          size_t state_length, const struct eb_geometry *g, uint32_t offset,
                                                          uint8_t *out, size_t out_length)
{
    return eb_updater_read_dfu(dfu, dfu_length, state, state_length, g->ed, g->wd, g->es, g->ws, g->ev, offset, out, out_length);
}
EB_RESULT static inline uint64_t eb_updater_hash_with(const uint8_t *dfu, size_t dfu_length, const uint8_t *state,
                                                      size_t state_length, const struct eb_geometry *g, uint64_t length,
                                                      uint64_t chunk, uint8_t *out, size_t out_length)
{
    return eb_updater_hash(dfu, dfu_length, state, state_length, g->ed, g->wd, g->es, g->ws, g->ev, length, chunk, out, out_length);
}
EB_RESULT static inline uint64_t eb_updater_write_firmware_with(uint8_t *dfu, size_t dfu_length, const uint8_t *state,
                                                                size_t state_length, const struct eb_geometry *g,
                                                                uint64_t offset, const uint8_t *data, size_t data_length,
                                                                uint32_t *last, uint32_t budget)
{
    return eb_updater_write_firmware(dfu, dfu_length, state, state_length, g->ed, g->wd, g->es, g->ws, g->ev, offset, data,
                                     data_length, last, budget);
}
EB_RESULT static inline uint64_t eb_updater_prepare_update_with(uint8_t *dfu, size_t dfu_length, const uint8_t *state,
                                                                size_t state_length, const struct eb_geometry *g, uint32_t budget)
{
    return eb_updater_prepare_update(dfu, dfu_length, state, state_length, g->ed, g->wd, g->es, g->ws, g->ev, budget);
}

#ifdef __cplusplus
}
#endif

#endif
