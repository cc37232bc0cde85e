/* An update of a 256 KiB image whose boot is cut after each of its operations: the next boot always makes the update whole. Once on
 * flash that erases to FF, once on flash that erases to 00.
 *
 *   cc -O2 -Iinclude examples/sweep.c target/staticlib/libembassy_boot.a -o target/sweep && target/sweep
 */
#include "embassy_boot.h"

#include <stdio.h>
#include <stdlib.h>
#include <string.h>

enum { PAGE = 4096, IMAGE = 64 * PAGE };
static const struct eb_geometry flashes[] = {
    EB_GEOMETRY(EB_ERASES_TO_FF, .ea = PAGE, .wa = 8, .ed = PAGE, .wd = 8, .es = PAGE, .ws = 8, .b = 256),
    EB_GEOMETRY(EB_ERASES_TO_00, .ea = PAGE, .wa = 8, .ed = PAGE, .wd = 8, .es = PAGE, .ws = 8, .b = 256),
};
static struct flash { uint8_t active[IMAGE], dfu[IMAGE + PAGE], state[PAGE]; } marked, now;
static uint8_t image[IMAGE]; /* the new firmware */

static uint64_t boot(const struct eb_geometry *g, uint32_t budget)
{
    return eb_prepare_boot_with(now.active, IMAGE, now.dfu, IMAGE + PAGE, now.state, PAGE, g, budget);
}

static void want(int right, const char *what, uint64_t r)
{
    if (right) return;
    printf("%s: %s after %u operations\n", what, eb_number_name(eb_number(r)), eb_operations(r));
    exit(1);
}

static void sweep(const struct eb_geometry *g)
{
    uint32_t last = EB_NO_SECTOR, cuts = 0;
    uint64_t r;

    for (int i = 0; i < IMAGE; i++) marked.active[i] = (uint8_t)(i * 7 + i / PAGE), image[i] = (uint8_t)(i * 13 + i / PAGE);
    memset(marked.state, (int)g->ev, PAGE);
    r = eb_updater_write_firmware_with(marked.dfu, IMAGE + PAGE, marked.state, PAGE, g, 0, image, IMAGE, &last, EB_FOREVER);
    want(eb_number(r) == EB_DONE, "write_firmware", r);
    r = eb_updater_mark_updated_with(marked.dfu, IMAGE + PAGE, marked.state, PAGE, g, EB_FOREVER);
    want(eb_number(r) == EB_DONE, "mark_updated", r);

    for (now = marked; eb_number(r = boot(g, cuts)) == EB_CUT; now = marked, cuts++) {
        r = boot(g, EB_FOREVER); /* the power is back */
        want(eb_number(r) == EB_DONE && eb_state(r) == EB_SWAP, "the next boot", r);
        want(!memcmp(now.active, image, IMAGE), "active is not the new image", r);
        want(!memcmp(now.dfu + PAGE, marked.active, IMAGE), "the old image is not in DFU", r);
    }
    want(eb_number(r) == EB_DONE && eb_operations(r) == cuts, "the whole boot", r);
    printf("erased to %02X: %u cuts, and after each the next boot left the new image whole\n", g->ev, cuts);
}

int main(void)
{
    sweep(&flashes[0]);
    sweep(&flashes[1]);
    return 0;
}
