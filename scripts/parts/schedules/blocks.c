// Blocks of memory, each at the end of pages of its own that nobody may access. A freed block's pages are not used
// again.
#include "schedules.h"
#include <string.h>
#include <sys/mman.h>

enum { PAGE = 4096, PAGES = 4096, ALIGNMENT = 16, SMALLEST_SHARES = 24, EMPTY = 3 };

extern void *__libc_malloc(size_t size);
extern void __libc_free(void *block);
extern void *__libc_realloc(void *block, size_t size);

struct block blocks[MOST_BLOCKS];
int block_count;
int recording, channel_count;
enum label made_as = OF_MESSAGE;
static uint8_t *pages;
static short block_of_page[PAGES];
static size_t next_page = 1;
static struct shared_word words[MOST_WORDS];
static int word_count;

void begin_blocks(void) {
    memset(block_of_page, -1, sizeof block_of_page);
    int flags = MAP_PRIVATE | MAP_ANONYMOUS | MAP_NORESERVE;
    void *mapped = mmap(NULL, (size_t)PAGES * PAGE, PROT_NONE, flags, -1, 0);
    if (mapped == MAP_FAILED) {
        give_up("no room for blocks");
    }
    pages = mapped;
}

int block_at(uintptr_t address) {
    if (pages == NULL || address - (uintptr_t)pages >= (uintptr_t)PAGES * PAGE) {
        return -1;
    }
    return block_of_page[(address - (uintptr_t)pages) / PAGE];
}

void set_access(int block, int open) {
    struct block *it = &blocks[block];
    int access = open ? PROT_READ | PROT_WRITE : PROT_NONE;
    if (mprotect(pages + it->first_page * PAGE, it->pages * PAGE, access) != 0) {
        give_up("a block is neither opened nor closed");
    }
    it->open = open;
}

uint64_t read_block(uintptr_t address) {
    int block = block_at(address), was_open = blocks[block].open;
    set_access(block, 1);
    uint64_t value = *(uint64_t *)(address & ~(uintptr_t)7);
    set_access(block, was_open);
    return address & 4 ? value >> 32 : value;
}

void write_block(uintptr_t address, uint64_t value) {
    int block = block_at(address), was_open = blocks[block].open;
    set_access(block, 1);
    *(uint64_t *)address = value;
    set_access(block, was_open);
}

static void *make_block(size_t asked) {
    size_t size = asked == 0 ? ALIGNMENT : (asked + ALIGNMENT - 1) & ~(size_t)(ALIGNMENT - 1);
    size_t count = (size + PAGE - 1) / PAGE;
    if (block_count == MOST_BLOCKS || next_page + count >= PAGES) {
        give_up("more blocks than there is room for");
    }
    int number = block_count++;
    for (size_t at = 0; at < count; at++) {
        block_of_page[next_page + at] = number;
    }
    blocks[number] = (struct block){.address = (uintptr_t)pages + (next_page + count) * PAGE - size, .size = size,
                                    .first_page = next_page, .pages = count, .label = made_as,
                                    .channel = channel_count};
    next_page += count + 1;
    set_access(number, 1);
    memset((void *)blocks[number].address, 0xA5, size);
    set_access(number, 0);
    return (void *)blocks[number].address;
}

// A block with both counts of a share, and a pointer to what is shared, which `find_words` looks for.
static int add_shares(int shares, int shared, int is_word) {
    uint64_t *content = (uint64_t *)blocks[shares].address;
    blocks[shares].label = is_word ? OF_SHARES : OF_PARKER_SHARES;
    blocks[shared].label = is_word ? OF_WORD : OF_PARKER;
    if (word_count + 2 > MOST_WORDS) {
        give_up("more shared words than there is room for");
    }
    words[word_count++] = (struct shared_word){content[1], is_word ? WORD : PARKER, channel_count, shared};
    words[word_count++] =
        (struct shared_word){(uintptr_t)content, is_word ? SHARES : PARKER_SHARES, channel_count, shares};
    return is_word ? block_at(content[2]) : -1;
}

// Finds the words of the channel that was just made: a word that is EMPTY, and a parker's, which is 0.
void find_words(void) {
    int found = 0, slots = -1;
    for (int at = 0; at < block_count; at++) {
        set_access(at, !blocks[at].freed);
    }
    for (int at = 0; at < block_count; at++) {
        uint64_t *content = (uint64_t *)blocks[at].address;
        if (blocks[at].freed || blocks[at].label != OF_CHANNEL || blocks[at].size < SMALLEST_SHARES) {
            continue;
        }
        int shared = block_at(content[1]);
        if (shared < 0 || content[0] > 4 || blocks[shared].label != OF_CHANNEL) {
            continue;
        }
        uint64_t value = *(uint64_t *)content[1];
        if (value == EMPTY || value == 0) {
            int other = add_shares(at, shared, value == EMPTY);
            slots = other < 0 ? slots : other;
            found |= value == EMPTY ? 1 : 2;
        }
    }
    for (int at = 0; at < block_count; at++) {
        set_access(at, 0);
        blocks[at].label = at == slots ? OF_SLOTS : blocks[at].label;
    }
    if ((found & 1) == 0 || slots < 0) {
        give_up("the channel has no word that is 3, or no slots");
    }
    if ((found & 2) == 0) {
        give_up("the channel has no parker that is 0");
    }
    channel_count++;
}

// The shared word at this address, or NULL.
const struct shared_word *word_at(uintptr_t address) {
    for (int at = 0; at < word_count; at++) {
        if (address >= words[at].address && address < words[at].address + 8) {
            return &words[at];
        }
    }
    return NULL;
}

// The number of the place that an atomic access is at: a shared word's, or that of its block.
int place_at(uintptr_t address) {
    const struct shared_word *word = word_at(address);
    return word != NULL ? (int)(word - words) : MOST_WORDS + block_at(address);
}

// The blocks that nothing has freed when the program is done.
void tell_left(void) {
    for (int at = 0; at < block_count; at++) {
        if (!blocks[at].freed) {
            fault("left:%c", blocks[at].label);
        }
    }
}

// What the program asks for in a call of an end is a fault; the C library asks for its own.
static void note_asked(void *caller) {
    if (!recording && is_end() && in_program((uintptr_t)caller)) {
        fault("allocates:%c", "SR"[self]);
    }
}

void *malloc(size_t size) {
    note_asked(__builtin_return_address(0));
    return pages != NULL && recording ? make_block(size) : __libc_malloc(size);
}

static void free_block(int block, uintptr_t address) {
    struct block *it = &blocks[block];
    if (it->freed || address != it->address) {
        fault(it->freed ? "freed-twice:%c" : "freed-inside:%c", it->label);
        end_run();
    }
    if (is_end()) {
        order_free(self, block);
        tell(" %cf%c%s", "SR"[self], it->label, prime(it->label == OF_TASKS ? 0 : it->channel));
    }
    it->freed = 1;
    set_access(block, 0);
}

void free(void *address) {
    int block = block_at((uintptr_t)address);
    if (block < 0) {
        __libc_free(address);
    } else {
        free_block(block, (uintptr_t)address);
    }
}

void *realloc(void *address, size_t size) {
    int block = block_at((uintptr_t)address);
    note_asked(__builtin_return_address(0));
    if (block < 0) {
        return pages != NULL && recording && address == NULL ? make_block(size) : __libc_realloc(address, size);
    }
    void *made = make_block(size);
    int other = block_at((uintptr_t)made);
    blocks[other].label = blocks[block].label;
    blocks[other].channel = blocks[block].channel;
    // Freed first, so that an address that may not be freed is not read.
    free_block(block, (uintptr_t)address);
    set_access(block, 1);
    set_access(other, 1);
    memcpy(made, address, blocks[block].size < size ? blocks[block].size : size);
    set_access(other, 0);
    set_access(block, 0);
    return made;
}
