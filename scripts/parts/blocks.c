// Counts the blocks of memory that a program allocates and frees. If one is left at its end, the program writes so and
// ends with status 98.
#include <stdatomic.h>
#include <stddef.h>
#include <stdio.h>
#include <stdlib.h>
#include <unistd.h>

// Of the address sanitizer, with which `rt try` builds.
int __sanitizer_install_malloc_and_free_hooks(
    void (*made)(const volatile void *block, size_t size), void (*freed)(const volatile void *block));

static atomic_long made, left;
// Has to be counted too, so that a count of nothing is seen.
static void *volatile own;

static void count_made(const volatile void *block, size_t size) {
    (void)block, (void)size;
    made++;
    left++;
}

static void count_freed(const volatile void *block) {
    if (block != NULL) {
        left--;
    }
}

__attribute__((constructor)) static void begin(void) {
    __sanitizer_install_malloc_and_free_hooks(count_made, count_freed);
    own = malloc(1);
}

__attribute__((destructor)) static void end(void) {
    free(own);
    if (made == 0 || left != 0) {
        dprintf(STDERR_FILENO, "blocks left at the end: %ld of %ld\n", left, made);
        _exit(98);
    }
}
