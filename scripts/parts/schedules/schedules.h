// What the parts of the scheduler share. It is a library that is loaded before a program whose two threads, the
// sender's and the receiver's, tell by the lengths of short sleeps where they are:
// crates/oneshot_codes/src/lib.rt.
#ifndef SCHEDULES_H
#define SCHEDULES_H
#define _GNU_SOURCE
#include <stddef.h>
#include <stdint.h>
#include <sys/types.h>

enum { SENDER, RECEIVER, OTHER };
enum { ENDS = 2, MOST_BLOCKS = 256, MOST_WORDS = 16, MOST_CHOICES = 4096 };

// The words that both threads reach: of each channel its word, its parker's, and the counts of both shares.
enum kind { PLAIN, WORD, PARKER, SHARES, PARKER_SHARES, QUEUE };

// What a block holds, by the letter that a report has for it.
enum label { OF_TASKS = 'o', OF_MESSAGE = 'm', OF_CHANNEL = 'h', OF_WORD = 'W', OF_SLOTS = 'L', OF_SHARES = 'C',
             OF_PARKER = 'P', OF_PARKER_SHARES = 'D' };

struct block {
    uintptr_t address;
    size_t size;
    size_t first_page, pages;
    enum label label;
    int channel, freed, open;
};

struct shared_word {
    uintptr_t address;
    enum kind kind;
    int channel, block;
};

// What a child leaves to its parent: its choices, and the text of its run.
struct choice {
    uint8_t options, chosen;
    uint32_t allowed;
};
struct record {
    int forced, count, points, ended, pruned, length;
    struct choice choices[MOST_CHOICES];
    char text[1 << 17];
};
extern struct record *record;

// What is explored: how many sleeps of a run may end by chance, how many readings of a clock may be in time, whether a
// reading may fail, whether a copy of a task's waker may be refused, whether one run is enough of each order of
// dependent steps, whether the atomic writes of a task's queue are choices too, and whether the receiver begins once
// the sender has gone on to its second channel.
struct settings {
    long spurious, readings, failing_clock, refused, reduce, queues, sent, runs, seconds;
};
extern struct settings settings;

// calls.c: the thread that runs, and whether the ends are under the scheduler.
extern __thread int self;
extern int scheduled;
int is_end(void);

// choices.c: which end goes next.
enum state { NOWHERE, INSIDE, AT_WORD, ASLEEP, OVER };
enum woken { BY_WAKE, BY_CHANCE, BY_TIME };
void begin_end(int end);
void finish_end(int end);
void reach(int end, int place, int writes);
enum woken sleep_at(int end, uintptr_t address, int timed);
int wake_at(int end, uintptr_t address);
int choose(int options, uint32_t allowed);
void note_futile(int end);
void note_second(int end);
extern int time_is_over;

// blocks.c: blocks on pages without access.
extern struct block blocks[MOST_BLOCKS];
extern int block_count;
int block_at(uintptr_t address);
void set_access(int block, int open);
uint64_t read_block(uintptr_t address);
void write_block(uintptr_t address, uint64_t value);
void begin_blocks(void);
void find_words(void);
void tell_left(void);
const struct shared_word *word_at(uintptr_t address);
int place_at(uintptr_t address);
extern int recording, channel_count;
extern enum label made_as;

// order.c: the happens-before order of accesses.
void begin_order(void);
void order_atomic(int end, int block, size_t offset, int writes);
void order_plain(int end, int block, size_t offset, int size, int writes);
void order_free(int end, int block);

// refusals.c: copies of a waker that are refused.
void refuse_share(int block, uintptr_t address, uint64_t expected, uint64_t replaced);
void end_refusal(void);
int is_refused(uintptr_t address);

// accesses.c: an access that faults.
void begin_accesses(void);

// calls.c: what the program asks of the C library and of the kernel.
void begin_calls(void);
long raw_call(long number, long a, long b, long c, long d, long e, long f);

// explore.c: the runs, a child each.
int explore(void);
const char *prime(int channel);
void tell(const char *format, ...) __attribute__((format(printf, 1, 2)));
void fail(const char *format, ...) __attribute__((format(printf, 1, 2), noreturn));
void fault(const char *format, ...) __attribute__((format(printf, 1, 2)));
void end_run(void) __attribute__((noreturn));
void give_up(const char *why) __attribute__((noreturn));
int in_child(void);
extern uintptr_t program_begins, program_ends;
int in_program(uintptr_t address);

#endif
