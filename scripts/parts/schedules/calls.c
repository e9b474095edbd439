// What the program asks of the C library and of the kernel: to sleep and to wake, to yield, to read the clock. While
// the ends run, the scheduler answers. Short sleeps tell it where they are.
#include "schedules.h"
#include <errno.h>
#include <linux/filter.h>
#include <linux/futex.h>
#include <linux/seccomp.h>
#include <signal.h>
#include <stdarg.h>
#include <sys/prctl.h>
#include <sys/syscall.h>
#include <time.h>
#include <ucontext.h>

// The lengths of sleeps by which the program tells where it is, in nanoseconds, are given to the compiler (RECORD and
// the like, of crates/oneshot_codes). The others, up to the last, tell what a call returned.
enum { LAST_TOLD = 9999 };
enum { NANOSECONDS = 1000000000, LATER = 1000000, NEVER = 1000000000 };

__thread int self = OTHER;
static time_t seconds = LATER;
static int computes, sets_deadline, readings;
// The channel whose end the thread uses.
static __thread int at_channel;

int is_end(void) {
    return scheduled && self < ENDS;
}

long raw_call(long number, long a, long b, long c, long d, long e, long f) {
    register long fourth __asm__("r10") = d, fifth __asm__("r8") = e, sixth __asm__("r9") = f;
    long answer;
    __asm__ volatile("syscall"
                     : "=a"(answer)
                     : "a"(number), "D"(a), "S"(b), "d"(c), "r"(fourth), "r"(fifth), "r"(sixth)
                     : "rcx", "r11", "memory");
    return answer;
}

static long answer_call(long answer) {
    if (answer < 0 && answer > -4096) {
        errno = (int)-answer;
        return -1;
    }
    return answer;
}

// Sleeps if the word has this value. A sleep ends by a wake, by chance, or where its time is over.
static long sleep_on(uintptr_t address, uint32_t value, const struct timespec *until) {
    if ((uint32_t)read_block(address) != value) {
        return -EAGAIN;
    }
    switch (sleep_at(self, address, until != NULL && until->tv_sec < NEVER)) {
    case BY_TIME:
        return -ETIMEDOUT;
    case BY_CHANCE:
        return -EINTR;
    default:
        return 0;
    }
}

static long call_futex(uintptr_t address, long operation, uint32_t value, const struct timespec *until) {
    int block = block_at(address);
    long what = operation & FUTEX_CMD_MASK & ~FUTEX_CLOCK_REALTIME;
    if (!is_end()) {
        return 0;
    }
    reach(self, place_at(address), what == FUTEX_WAKE);
    if (blocks[block].freed) {
        fault("freed:%c:%c-futex", blocks[block].label, "SR"[self]);
        end_run();
    }
    // The kernel reads the word of a sleep. A wake reads nothing, and still has to come before the free.
    order_plain(self, block, address - blocks[block].address, sizeof(uint32_t), 0);
    if (what == FUTEX_WAKE) {
        return wake_at(self, address);
    }
    if (what != FUTEX_WAIT && what != FUTEX_WAIT_BITSET) {
        fail("futex operation %ld", what);
    }
    return sleep_on(address, value, until);
}

static long make_call(long number, const long *words) {
    if (number == SYS_futex && block_at(words[0]) >= 0) {
        return call_futex(words[0], words[1], words[2], (const struct timespec *)words[3]);
    }
    return raw_call(number, words[0], words[1], words[2], words[3], words[4], words[5]);
}

long syscall(long number, ...) {
    va_list given;
    long words[6];
    va_start(given, number);
    for (int at = 0; at < 6; at++) {
        words[at] = va_arg(given, long);
    }
    va_end(given);
    return answer_call(make_call(number, words));
}

// A call of the kernel that the program makes without the C library.
static void on_call(int signal, siginfo_t *info, void *given) {
    (void)signal;
    (void)info;
    greg_t *registers = ((ucontext_t *)given)->uc_mcontext.gregs;
    long words[] = {registers[REG_RDI], registers[REG_RSI], registers[REG_RDX],
                    registers[REG_R10], registers[REG_R8],  registers[REG_R9]};
    registers[REG_RAX] = make_call(registers[REG_RAX], words);
}

int sched_yield(void) {
    return is_end() ? 0 : (int)answer_call(raw_call(SYS_sched_yield, 0, 0, 0, 0, 0, 0));
}

// The first reading of a receive with a timeout, of which its deadline is computed. Without it, time counts as over.
static int read_for_timeout(void) {
    computes = 0;
    int fails = settings.failing_clock && choose(2, 3);
    time_is_over |= fails;
    tell(" %cc-%s", "SR"[self], prime(at_channel));
    return fails;
}

// What a reading sees is a choice, until one is past the deadline: in time, past it, or a failure, which counts as past
// it.
static int read_clock(void) {
    int kinds = settings.failing_clock ? 3 : 2, seen = 0;
    if (!time_is_over) {
        seen = ++readings > settings.readings ? 1 : choose(kinds, (1u << kinds) - 1);
        time_is_over = seen == 1;
    }
    tell(" %cc%d%s", "SR"[self], time_is_over || seen == 2, prime(at_channel));
    return seen == 2;
}

int clock_gettime(clockid_t clock, struct timespec *now) {
    if (clock != CLOCK_MONOTONIC || !in_child()) {
        return (int)answer_call(raw_call(SYS_clock_gettime, clock, (long)now, 0, 0, 0, 0));
    }
    if (is_end() && !sets_deadline && (computes ? read_for_timeout() : read_clock())) {
        errno = EIO;
        return -1;
    }
    sets_deadline = 0;
    now->tv_sec = seconds + (time_is_over ? LATER : 0);
    now->tv_nsec = 0;
    return 0;
}

// A new deadline, which the program reads the clock for, or the call itself: what time it is counts anew.
static void begin_deadline(long told) {
    seconds += time_is_over ? LATER : 0;
    time_is_over = 0;
    computes = told == TIMEOUT;
    sets_deadline = !computes;
    readings = 0;
}

static void open_channel(int is_open) {
    made_as = is_open ? OF_TASKS : OF_CHANNEL;
    if (is_open) {
        find_words();
    }
}

// A thread that goes on with its end of another channel is done with the one before.
static void go_to_channel(int channel) {
    if (is_end()) {
        tell(" %c.%s", "SR"[self], prime(at_channel));
        note_second(self);
    }
    at_channel = channel;
}

static void end_program(void) {
    tell_left();
    end_run();
}

static void hear(long told) {
    switch (told) {
    case RECORD:
    case RELEASE:
        recording = told == RECORD;
        return;
    case READY:
        if (!explore()) {
            raw_call(SYS_exit_group, 0, 0, 0, 0, 0, 0);
        }
        return;
    case BEGIN_SENDER:
    case BEGIN_RECEIVER:
        begin_end(told == BEGIN_SENDER ? SENDER : RECEIVER);
        return;
    case END_SENDER:
    case END_RECEIVER:
        tell(" %c.%s", "SR"[self], prime(at_channel));
        finish_end(told == END_SENDER ? SENDER : RECEIVER);
        return;
    case OPENING:
    case OPENED:
        open_channel(told == OPENED);
        return;
    case DONE:
        end_program();
        return;
    case MESSAGE:
        made_as = OF_MESSAGE;
        return;
    case AT_FIRST:
    case AT_SECOND:
        go_to_channel(told == AT_SECOND);
        return;
    case TIMEOUT:
    case DEADLINE:
        begin_deadline(told);
        return;
    default:
        tell(" %c=%ld%s", "SRT"[self], told, prime(at_channel));
    }
}

int nanosleep(const struct timespec *length, struct timespec *left) {
    if (length->tv_sec != 0 || length->tv_nsec > LAST_TOLD) {
        return (int)answer_call(raw_call(SYS_nanosleep, (long)length, (long)left, 0, 0, 0, 0));
    }
    hear(length->tv_nsec);
    return 0;
}

// The parts of an address as the kernel's filter reads it: it compares numbers of 32 bits alone.
#define HIGH(address) ((uint32_t)((address) >> 32))
#define LOW(address) ((uint32_t)(address))
#define LOAD(field) BPF_STMT(BPF_LD | BPF_W | BPF_ABS, field)
// A jump over so many lines, where the comparison holds and where it does not.
#define JUMP(comparison, number, holds, else) BPF_JUMP(BPF_JMP | comparison | BPF_K, number, holds, else)

// Has the kernel hand back each futex call from the program's own code, which no library stands before. The program may
// lie across a multiple of 4 GiB.
void begin_calls(void) {
    enum { NUMBER = offsetof(struct seccomp_data, nr), CALLER = offsetof(struct seccomp_data, instruction_pointer) };
    struct sock_filter filter[] = {
        LOAD(NUMBER),
        JUMP(BPF_JEQ, SYS_futex, 0, 11),
        LOAD(CALLER + 4),
        JUMP(BPF_JGT, HIGH(program_begins), 3, 0),
        JUMP(BPF_JEQ, HIGH(program_begins), 0, 8),
        LOAD(CALLER),
        JUMP(BPF_JGE, LOW(program_begins), 0, 6),
        LOAD(CALLER + 4),
        JUMP(BPF_JGT, HIGH(program_ends), 4, 0),
        JUMP(BPF_JEQ, HIGH(program_ends), 0, 2),
        LOAD(CALLER),
        JUMP(BPF_JGE, LOW(program_ends), 1, 0),
        BPF_STMT(BPF_RET | BPF_K, SECCOMP_RET_TRAP),
        BPF_STMT(BPF_RET | BPF_K, SECCOMP_RET_ALLOW),
    };
    struct sock_fprog program = {sizeof filter / sizeof *filter, filter};
    struct sigaction action = {.sa_flags = SA_SIGINFO | SA_NODEFER, .sa_sigaction = on_call};
    if (sigaction(SIGSYS, &action, NULL) != 0 || prctl(PR_SET_NO_NEW_PRIVS, 1, 0, 0, 0) != 0 ||
        prctl(PR_SET_SECCOMP, SECCOMP_MODE_FILTER, &program) != 0) {
        give_up("the kernel hands no call back");
    }
}
