// Copies of a task's waker that are refused. A copy adds one to a count of shares, unless that is full: it is, from the
// copy's compare and exchange on, until it was read again or anything else is accessed.
#include "schedules.h"

static uintptr_t full;
static uint64_t count;

// A compare and exchange of a task's block: whether it is refused is a choice, if it adds a share for the receiver.
void refuse_share(int block, uintptr_t address, uint64_t expected, uint64_t replaced) {
    int is_count = blocks[block].label == OF_TASKS && address == blocks[block].address;
    int adds = is_count && expected > 0 && replaced == expected + 1;
    if (settings.refused && is_end() && self == RECEIVER && adds && choose(2, 3)) {
        full = address;
        count = read_block(address);
        write_block(address, INT64_MAX);
        tell(" %cn", "SR"[self]);
    }
}

void end_refusal(void) {
    if (full != 0) {
        write_block(full, count);
        full = 0;
    }
}

int is_refused(uintptr_t address) {
    return self == RECEIVER && address == full;
}
