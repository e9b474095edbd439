// The happens-before order of both ends' accesses, by vector clocks. An atomic access orders what is behind it; a plain
// one races with one of the other end that is not ordered before it.
#include "schedules.h"
#include <string.h>

enum { GRAIN = 8, GRAINS = 64 };

// The clocks of each end, and those that atomic writes have left at each grain of a block.
static uint16_t clocks[ENDS][ENDS], left_at[MOST_BLOCKS][GRAINS][ENDS];
// When each end last read and wrote each grain of a block.
static struct { uint16_t read[ENDS], written[ENDS]; } last[MOST_BLOCKS][GRAINS];

void begin_order(void) {
    clocks[SENDER][SENDER] = clocks[RECEIVER][RECEIVER] = 1;
}

// How many grains a block has.
static size_t grains_of(int block) {
    if (blocks[block].size > GRAIN * GRAINS) {
        fail("a block of more than %d bytes", GRAIN * GRAINS);
    }
    return blocks[block].size / GRAIN;
}

void order_atomic(int end, int block, size_t offset, int writes) {
    if (offset / GRAIN >= grains_of(block)) {
        fail("an access behind a block");
    }
    uint16_t *left = left_at[block][offset / GRAIN];
    for (int at = 0; at < ENDS; at++) {
        clocks[end][at] = left[at] > clocks[end][at] ? left[at] : clocks[end][at];
    }
    if (!writes) {
        return;
    }
    for (int at = 0; at < ENDS; at++) {
        left[at] = clocks[end][at] > left[at] ? clocks[end][at] : left[at];
    }
    clocks[end][end]++;
}

void order_plain(int end, int block, size_t offset, int size, int writes) {
    size_t count = grains_of(block), until = offset + size;
    for (size_t grain = offset / GRAIN; grain < count && grain * GRAIN < until; grain++) {
        uint16_t known = clocks[end][!end];
        if (last[block][grain].written[!end] > known || (writes && last[block][grain].read[!end] > known)) {
            fault("race:%c+%zu:%c%c", blocks[block].label, offset, "SR"[end], "rw"[writes]);
        }
        *(writes ? &last[block][grain].written[end] : &last[block][grain].read[end]) = clocks[end][end];
    }
}

// A free comes after every access of the other end.
void order_free(int end, int block) {
    size_t count = grains_of(block);
    for (size_t grain = 0; grain < count; grain++) {
        uint16_t known = clocks[end][!end];
        if (last[block][grain].written[!end] > known || last[block][grain].read[!end] > known) {
            fault("race:%c+%zu:%cf", blocks[block].label, grain * GRAIN, "SR"[end]);
            return;
        }
    }
}
