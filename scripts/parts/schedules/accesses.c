// Accesses of blocks. Each faults, since a block's pages have no access. At a shared word the end first waits for its
// turn; then the access is made, by one instruction alone, and the pages are closed again.
#include "schedules.h"
#include <fcntl.h>
#include <signal.h>
#include <string.h>
#include <sys/syscall.h>
#include <ucontext.h>

enum { MOST_OPEN = 16, TRAP_FLAG = 0x100, WRITE_FAULT = 2 };

// The instruction that is stepped, and the blocks that it opened.
static __thread struct {
    int runs, block, size, open_count, opened[MOST_OPEN];
    const struct shared_word *word;
    uintptr_t address;
    uint64_t before;
    char kind;
} step;
static const int REGISTERS[] = {REG_RAX, REG_RCX, REG_RDX, REG_RBX, REG_RSP, REG_RBP, REG_RSI, REG_RDI,
                                REG_R8,  REG_R9,  REG_R10, REG_R11, REG_R12, REG_R13, REG_R14, REG_R15};

// The bytes before the opcode, and whether the operand has 64 bits.
static const uint8_t *skip_prefixes(const uint8_t *code, int *locked, int *extension) {
    *locked = *extension = 0;
    for (; memchr("\xF0\x66\xF2\xF3\x2E", *code, 5) != NULL; code++) {
        *locked |= *code == 0xF0;
    }
    if ((*code & 0xF0) == 0x40) {
        *extension = *code++;
    }
    return code;
}

struct opcode {
    uint8_t first, last;
    const char *kinds;
};
// l load, s store, x exchange, e compare and exchange, a add, d subtract, o exclusive or, u another change. A group of
// opcodes has one for each extension.
static const struct opcode ONE_BYTE[] = {
    {0x00, 0x01, "a"}, {0x03, 0x03, "l"}, {0x28, 0x29, "d"}, {0x2B, 0x2B, "l"}, {0x30, 0x31, "o"}, {0x38, 0x3B, "l"},
    {0x80, 0x83, "auuuudol"}, {0x86, 0x87, "x"}, {0x88, 0x89, "s"}, {0x8A, 0x8B, "l"}, {0xC6, 0xC7, "s"},
    {0xFE, 0xFF, "adllllll"}, {0, 0, NULL}};
static const struct opcode TWO_BYTES[] = {
    {0x10, 0x10, "l"}, {0x11, 0x11, "s"}, {0x28, 0x28, "l"}, {0x29, 0x29, "s"}, {0x6F, 0x6F, "l"}, {0x7F, 0x7F, "s"},
    {0xB0, 0xB1, "e"}, {0xB6, 0xB7, "l"}, {0xBE, 0xBF, "l"}, {0xC0, 0xC1, "a"}, {0, 0, NULL}};

// The kind of an instruction, by a letter, and how many bytes it accesses. A change without a lock is no atomic one.
static char kind_of(const uint8_t *code, int *size) {
    int locked, extension;
    code = skip_prefixes(code, &locked, &extension);
    int is_wide = *code == 0x0F;
    uint8_t opcode = code[is_wide];
    *size = extension & 8 ? 8 : 4;
    for (const struct opcode *it = is_wide ? TWO_BYTES : ONE_BYTE; it->kinds != NULL; it++) {
        if (opcode < it->first || opcode > it->last) {
            continue;
        }
        if (is_wide && opcode < 0xB0) {
            *size = 16;
        }
        char kind = it->kinds[1] == 0 ? it->kinds[0] : it->kinds[code[1 + is_wide] >> 3 & 7];
        return strchr("eadou", kind) != NULL && !locked ? kind - 'a' + 'A' : kind;
    }
    return '?';
}

static void open_block(int block) {
    if (step.open_count == MOST_OPEN) {
        fail("an instruction with more than %d blocks", MOST_OPEN);
    }
    step.opened[step.open_count++] = block;
    set_access(block, 1);
}

static int read_closed(uintptr_t address, uint64_t *value, int size) {
    static int memory = -1;
    if (memory < 0) {
        memory = raw_call(SYS_open, (long)"/proc/self/mem", O_RDONLY, 0, 0, 0, 0);
    }
    return raw_call(SYS_pread64, memory, (long)value, size, address, 0, 0) == size;
}

// A plain load, `mov r, m` or `movzx r32, m8`, is done here: /proc/self/mem needs no access, so nothing has to be
// opened.
static int load_here(ucontext_t *context, uintptr_t address) {
    const uint8_t *code = (uint8_t *)context->uc_mcontext.gregs[REG_RIP];
    int extension = (*code & 0xF0) == 0x40 ? *code++ : 0, is_byte = code[0] == 0x0F && code[1] == 0xB6;
    if (*code != 0x8B && !is_byte) {
        return 0;
    }
    code += 1 + is_byte;
    int mode = *code >> 6, target = (*code >> 3 & 7) | (extension & 4) << 1, base = *code & 7;
    code++;
    if (mode == 3 || (mode == 0 && base == 5) || (base == 4 && mode == 0 && (*code & 7) == 5)) {
        return 0;
    }
    code += (base == 4) + (mode == 1 ? 1 : mode == 2 ? 4 : 0);
    step.before = 0;
    if (!read_closed(address, &step.before, is_byte ? 1 : extension & 8 ? 8 : 4)) {
        return 0;
    }
    context->uc_mcontext.gregs[REGISTERS[target]] = step.before;
    context->uc_mcontext.gregs[REG_RIP] = (greg_t)code;
    return 1;
}

static void stop_at_freed(int block, uintptr_t address) {
    if (blocks[block].freed) {
        fault("freed:%c+%zu:%c", blocks[block].label, (size_t)(address - blocks[block].address), "SRT"[self]);
        end_run();
    }
}

// A shared word has loads and changes of one step alone: an access of two could lose what the other end writes.
static void refuse_unlocked(int block, uintptr_t address, char kind, int size) {
    if (strchr("lxeadou", kind) == NULL || size > (int)sizeof(uint64_t)) {
        fault("race:%c+%zu:%c%c", blocks[block].label, (size_t)(address - blocks[block].address), "SR"[self], kind);
    }
}

// Waits for the turn where the access is a choice of the scheduler, and orders it.
static void schedule_access(int block, uintptr_t address, char kind, int size, int writes) {
    const struct shared_word *word = word_at(address);
    int is_task = blocks[block].label == OF_TASKS, is_locked = strchr("eadoux", kind) != NULL;
    size_t offset = address - blocks[block].address;
    if (word != NULL || (is_task && settings.queues && is_locked)) {
        reach(self, place_at(address), word == NULL || writes);
        stop_at_freed(block, address);
    }
    if (word != NULL) {
        refuse_unlocked(block, address, kind, size);
    }
    int is_atomic = word != NULL || (is_task && is_locked);
    // A load of what was written with a lock is an atomic one.
    if (is_task && !is_locked) {
        order_atomic(self, block, offset, 0);
    }
    // Only a free conflicts with an atomic access.
    order_plain(self, block, offset, size, !is_atomic && writes);
    if (is_atomic) {
        // A compare and exchange that fails writes nothing: one that does not is ordered once it is made.
        order_atomic(self, block, offset, writes && kind != 'e');
    }
}

static void order_exchanged(uint64_t after) {
    int is_atomic = step.word != NULL || blocks[step.block].label == OF_TASKS;
    if (is_end() && is_atomic && step.kind == 'e' && after != step.before) {
        order_atomic(self, step.block, step.address - blocks[step.block].address, 1);
    }
}

// The other block of an instruction with two operands is no shared word.
static void order_other(int block, uintptr_t address, int writes) {
    if (word_at(address) != NULL) {
        fail("an instruction with a shared word and another operand, at %lx", (unsigned long)address);
    }
    order_plain(self, block, address - blocks[block].address, step.size, writes);
}

static void tell_access(uint64_t after) {
    if (step.word != NULL && is_end() && step.word->kind == WORD) {
        tell(" %c%c%d%d%s", "SR"[self], step.kind, (int)step.before, (int)after, prime(step.word->channel));
    }
}

// The compare and exchange at this address may be one that copies a waker.
static void refuse_exchange(const ucontext_t *context, int block, uintptr_t address) {
    int locked, extension;
    const greg_t *registers = context->uc_mcontext.gregs;
    const uint8_t *code = skip_prefixes((const uint8_t *)registers[REG_RIP], &locked, &extension);
    if (step.kind == 'e') {
        int source = (code[2] >> 3 & 7) | (extension & 4) << 1;
        refuse_share(block, address, registers[REG_RAX], registers[REGISTERS[source]]);
    }
}

static void on_fault(int signal, siginfo_t *info, void *given) {
    (void)signal;
    ucontext_t *context = given;
    uintptr_t address = (uintptr_t)info->si_addr;
    int block = block_at(address), writes = (context->uc_mcontext.gregs[REG_ERR] & WRITE_FAULT) != 0;
    if (block < 0 || address < blocks[block].address) {
        fail("an access outside of all blocks, at %lx", (unsigned long)address);
    }
    stop_at_freed(block, address);
    if (step.runs) {
        if (is_end()) {
            order_other(block, address, writes);
        }
        open_block(block);
        return;
    }
    step.kind = kind_of((uint8_t *)context->uc_mcontext.gregs[REG_RIP], &step.size);
    if (!is_refused(address) || step.kind != 'l') {
        end_refusal();
    }
    if (is_end()) {
        schedule_access(block, address, step.kind, step.size, writes);
    }
    step.word = word_at(address);
    if (in_child() && !writes && step.kind == 'l' && load_here(context, address)) {
        tell_access(step.before);
        end_refusal();
        return;
    }
    open_block(block);
    step.runs = 1;
    step.address = address;
    step.block = block;
    step.before = *(uint64_t *)(address & ~(uintptr_t)7);
    refuse_exchange(context, block, address);
    context->uc_mcontext.gregs[REG_EFL] |= TRAP_FLAG;
}

static void on_step(int signal, siginfo_t *info, void *given) {
    (void)signal;
    (void)info;
    ucontext_t *context = given;
    if (!step.runs) {
        fail("a step of nothing");
    }
    context->uc_mcontext.gregs[REG_EFL] &= ~(greg_t)TRAP_FLAG;
    uint64_t after = *(uint64_t *)(step.address & ~(uintptr_t)7);
    tell_access(after);
    order_exchanged(after);
    // One that waits for a lock of a queue goes on once the other end has gone.
    int is_of_task = is_end() && blocks[step.block].label == OF_TASKS;
    if (settings.queues && is_of_task && step.kind == 'e' && after == step.before) {
        note_futile(self);
    }
    if (step.kind != 'e') {
        end_refusal();
    }
    for (int at = 0; at < step.open_count; at++) {
        set_access(step.opened[at], 0);
    }
    step.open_count = step.runs = 0;
}

void begin_accesses(void) {
    struct sigaction action = {.sa_flags = SA_SIGINFO | SA_NODEFER};
    struct sigaction stepped = action;
    action.sa_sigaction = on_fault;
    stepped.sa_sigaction = on_step;
    if (sigaction(SIGSEGV, &action, NULL) != 0 || sigaction(SIGTRAP, &stepped, NULL) != 0) {
        give_up("no handlers of faults");
    }
}
