// Stands in the place of the address sanitizer, which a program that is tried is linked with: it keeps a copy of the
// program at the path COPY, and looks at no access. A program that is tried has the sanitizer's tests in its code; they
// read the shadow memory here, which is all zero.
#include <fcntl.h>
#include <stdint.h>
#include <stdio.h>
#include <stdlib.h>
#include <string.h>
#include <sys/mman.h>
#include <sys/sendfile.h>
#include <sys/stat.h>
#include <unistd.h>

enum { LONGEST_LINE = 4096 };
static const uintptr_t SHADOW = 0x7fff8000, SHADOW_END = 0x10007fff8000;

int __asan_option_detect_stack_use_after_return = 0;

// What the code calls for an access that is reported, and for a frame on the stack.
#define REPORT(access) void __asan_report_##access(void) { abort(); }
REPORT(load1) REPORT(load2) REPORT(load4) REPORT(load8) REPORT(load16) REPORT(load_n)
REPORT(store1) REPORT(store2) REPORT(store4) REPORT(store8) REPORT(store16) REPORT(store_n)
#define FRAME(size) void *__asan_stack_malloc_##size(size_t asked) { (void)asked; return NULL; } \
    void __asan_stack_free_##size(void *frame, size_t asked) { (void)frame; (void)asked; }
FRAME(0) FRAME(1) FRAME(2) FRAME(3) FRAME(4) FRAME(5) FRAME(6) FRAME(7) FRAME(8) FRAME(9) FRAME(10)
#define SHADE(byte) void __asan_set_shadow_##byte(uintptr_t at, size_t size) { memset((void *)at, 0x##byte, size); }
SHADE(00) SHADE(01) SHADE(02) SHADE(03) SHADE(04) SHADE(05) SHADE(06) SHADE(07)
SHADE(f1) SHADE(f2) SHADE(f3) SHADE(f5) SHADE(f8)
#define NOTHING(name) void __asan_##name(void) {}
NOTHING(init) NOTHING(version_mismatch_check_v8) NOTHING(handle_no_return) NOTHING(register_elf_globals)
NOTHING(unregister_elf_globals) NOTHING(register_globals) NOTHING(unregister_globals) NOTHING(before_dynamic_init)
NOTHING(after_dynamic_init) NOTHING(poison_stack_memory) NOTHING(unpoison_stack_memory) NOTHING(alloca_poison)
NOTHING(allocas_unpoison)

void *__asan_memcpy(void *to, const void *from, size_t size) {
    return memcpy(to, from, size);
}

void *__asan_memmove(void *to, const void *from, size_t size) {
    return memmove(to, from, size);
}

void *__asan_memset(void *to, int byte, size_t size) {
    return memset(to, byte, size);
}

static void copy_file(const char *path) {
    int from = open(path, O_RDONLY), to = open(COPY, O_CREAT | O_WRONLY | O_TRUNC, 0755);
    struct stat file;
    off_t at = 0;
    if (from < 0 || to < 0 || fstat(from, &file) != 0) {
        _exit(1);
    }
    while (at < file.st_size && sendfile(to, from, &at, file.st_size - at) > 0) {
    }
    // A part of a program is none.
    if (at < file.st_size || close(to) != 0) {
        unlink(COPY);
        _exit(1);
    }
    close(from);
}

static void begin(void);

// The file that this code was loaded from, if it is not the copy: a program may be started by the loader's name.
static void copy_program(void) {
    char line[LONGEST_LINE], *path;
    FILE *maps = fopen("/proc/self/maps", "r");
    while (maps != NULL && fgets(line, sizeof line, maps) != NULL) {
        char *until;
        uintptr_t from = strtoul(line, &until, 16), to = strtoul(until + 1, NULL, 16);
        if ((uintptr_t)begin >= from && (uintptr_t)begin < to && (path = strchr(line, '/')) != NULL) {
            path[strcspn(path, "\n")] = 0;
            if (strcmp(path, COPY) != 0) {
                copy_file(path);
            }
            break;
        }
    }
}

static void begin(void) {
    int flags = MAP_PRIVATE | MAP_ANONYMOUS | MAP_NORESERVE | MAP_FIXED;
    if (mmap((void *)SHADOW, SHADOW_END - SHADOW, PROT_READ | PROT_WRITE, flags, -1, 0) == MAP_FAILED) {
        _exit(1);
    }
    copy_program();
}

// Before any code that reads the shadow memory.
__attribute__((section(".preinit_array"), used)) static void (*first)(void) = begin;
