// Loaded before a program: refuses the allocation whose number is in REFUSED, and counts the blocks of memory. If one
// is left at its end, or none was made, the program writes so and ends with status 98.
#include <stdatomic.h>
#include <stddef.h>
#include <stdio.h>
#include <stdlib.h>
#include <unistd.h>

extern void *__libc_malloc(size_t size);
extern void *__libc_realloc(void *block, size_t size);
extern void __libc_free(void *block);

// With how many blocks the count begins: not 0 only to see that one is told.
#ifndef LEFT
#define LEFT 0
#endif

static long refused;
static atomic_long made, left;

// Whether the next allocation is the refused one.
static int refuses(void) {
    return ++made == refused;
}

void *malloc(size_t size) {
    void *block = refuses() ? NULL : __libc_malloc(size);
    left += block != NULL;
    return block;
}

void free(void *block) {
    left -= block != NULL;
    __libc_free(block);
}

// The program makes, grows and frees its blocks by this: a size of 0 frees.
void *realloc(void *block, size_t size) {
    if (size == 0) {
        free(block);
        return NULL;
    }
    void *moved = refuses() ? NULL : __libc_realloc(block, size);
    left += moved != NULL && block == NULL;
    return moved;
}

__attribute__((constructor)) static void begin(void) {
    const char *number = getenv("REFUSED");
    refused = number == NULL ? 0 : atol(number);
    made = 0;
    left = LEFT;
}

__attribute__((destructor)) static void end(void) {
    if (made == 0 || left != 0) {
        dprintf(STDERR_FILENO, "blocks left at the end: %ld of %ld\n", left, made);
        _exit(98);
    }
}
