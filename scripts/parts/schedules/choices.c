// Which end goes next. One thread goes at a time: it stops before each access to a shared word, in a sleep and at its
// end, and then hands the turn to the end that the schedule chooses.
#include "schedules.h"
#include <linux/futex.h>
#include <sys/syscall.h>

// What may go next: an end's access, a sleep's end by chance, or by time. A key is the end and this.
enum { GOES, ENDS_BY_CHANCE, ENDS_BY_TIME, WAYS, KEYS = ENDS * WAYS };

static struct {
    enum state state;
    int place, writes, timed, futile, at_second;
    enum woken woken;
    uintptr_t address;
    int turn;
} ends[ENDS];
static int begun, spurious_left, both_over;
static uint32_t asleep_keys;
int time_is_over;
int scheduled;

static void wake_word(int *word) {
    __atomic_store_n(word, 1, __ATOMIC_SEQ_CST);
    raw_call(SYS_futex, (long)word, FUTEX_WAKE, 1, 0, 0, 0);
}

static void wait_word(int *word) {
    while (!__atomic_load_n(word, __ATOMIC_SEQ_CST)) {
        raw_call(SYS_futex, (long)word, FUTEX_WAIT, 0, 0, 0, 0);
    }
}

int choose(int options, uint32_t allowed) {
    int at = record->count;
    if (at == MOST_CHOICES) {
        fail("more than %d choices", MOST_CHOICES);
    }
    struct choice *choice = &record->choices[at];
    if (at >= record->forced) {
        choice->chosen = __builtin_ctz(allowed);
    } else if (choice->chosen >= options || (choice->options != 0 && choice->options != options)) {
        fail("choice %d has %d options", at, options);
    }
    choice->options = options;
    choice->allowed = allowed;
    record->count++;
    return choice->chosen;
}

void note_futile(int end) {
    ends[end].futile = 1;
}

void note_second(int end) {
    ends[end].at_second = 1;
}

// Whether the receiver waits for the message of its first channel.
static int waits_for_message(int end) {
    return settings.sent && end == RECEIVER && !ends[SENDER].at_second;
}

// Whether a key's step writes at its place. A sleep's end is at the word that it sleeps on, and counts as a write.
static int writes_of(int key) {
    return key % WAYS != GOES || ends[key / WAYS].writes;
}

static int are_independent(int one, int other) {
    int first = one / WAYS, second = other / WAYS;
    return first != second && (ends[first].place != ends[second].place || (!writes_of(one) && !writes_of(other)));
}

// The keys of what may go next. An access that failed to change a queue waits until the other end has gone.
static int list_keys(int *keys) {
    int count = 0;
    for (int end = 0; end < ENDS; end++) {
        int other_goes = ends[!end].state == AT_WORD && !ends[!end].futile;
        if (ends[end].state == AT_WORD && !(ends[end].futile && other_goes) && !waits_for_message(end)) {
            keys[count++] = end * WAYS + GOES;
        } else if (ends[end].state == ASLEEP) {
            if (spurious_left > 0) {
                keys[count++] = end * WAYS + ENDS_BY_CHANCE;
            }
            if (ends[end].timed) {
                keys[count++] = end * WAYS + ENDS_BY_TIME;
            }
        }
    }
    return count;
}

// The keys that still sleep once `key` has gone: those that sleep or come before it, and do not depend on it.
static void put_to_sleep(const int *keys, uint32_t allowed, int chosen) {
    uint32_t sleeping = asleep_keys, left = 0;
    for (int at = 0; at < chosen; at++) {
        sleeping |= (allowed >> at & 1) << keys[at];
    }
    for (int key = 0; key < KEYS; key++) {
        if ((sleeping >> key & 1) && are_independent(key, keys[chosen])) {
            left |= 1u << key;
        }
    }
    asleep_keys = left;
}

// Chooses among several keys, but none that sleeps: runs that begin with it are those of another order.
static int choose_key(const int *keys, int count) {
    uint32_t allowed = (1u << count) - 1;
    for (int at = 0; settings.reduce && at < count; at++) {
        allowed &= ~((asleep_keys >> keys[at] & 1) << at);
    }
    if (allowed == 0) {
        record->pruned = 1;
        end_run();
    }
    int chosen = count == 1 ? 0 : choose(count, allowed);
    if (settings.reduce) {
        put_to_sleep(keys, allowed, chosen);
    }
    return keys[chosen];
}

// What the end that goes next is told, of its sleep if it was in one.
static void tell_chosen(int end, int way) {
    ends[end].woken = way == ENDS_BY_CHANCE ? BY_CHANCE : way == ENDS_BY_TIME ? BY_TIME : BY_WAKE;
    ends[!end].futile = 0;
    if (way == ENDS_BY_CHANCE) {
        spurious_left--;
        tell(" %cs", "SR"[end]);
    }
    if (way == ENDS_BY_TIME) {
        time_is_over = 1;
        tell(" %ct", "SR"[end]);
    }
}

// A sleep that nothing but chance can end lasts for ever.
static void tell_stuck(void) {
    for (int end = 0; end < ENDS; end++) {
        const struct shared_word *word = word_at(ends[end].address);
        if (ends[end].state == ASLEEP) {
            tell(" %cz%s", "SR"[end], prime(word != NULL ? word->channel : 0));
        }
    }
    end_run();
}

// The end that goes next, or -1 where both are over.
static int next_end(void) {
    for (int end = 0; end < ENDS; end++) {
        if (ends[end].state == INSIDE) {
            return end;
        }
    }
    int keys[KEYS], count = list_keys(keys);
    if (count == 0 && ends[SENDER].state == OVER && ends[RECEIVER].state == OVER) {
        return -1;
    }
    if (count == 0 || (count == 1 && keys[0] % WAYS == ENDS_BY_CHANCE)) {
        tell_stuck();
    }
    int key = choose_key(keys, count);
    record->points++;
    tell_chosen(key / WAYS, key % WAYS);
    return key / WAYS;
}

// Hands the turn on, and returns once `end` has it again; at once where `end` is over.
static void pass_turn(int end) {
    int is_over = ends[end].state == OVER, next = next_end();
    if (next < 0) {
        scheduled = 0;
        wake_word(&both_over);
        return;
    }
    ends[next].state = NOWHERE;
    if (next == end) {
        return;
    }
    wake_word(&ends[next].turn);
    if (!is_over) {
        wait_word(&ends[end].turn);
        ends[end].turn = 0;
    }
}

void begin_end(int end) {
    self = end;
    ends[end].state = INSIDE;
    if (__atomic_add_fetch(&begun, 1, __ATOMIC_SEQ_CST) == ENDS) {
        spurious_left = settings.spurious;
        begin_order();
        scheduled = 1;
        pass_turn(end);
    } else {
        wait_word(&ends[end].turn);
        ends[end].turn = 0;
    }
}

void finish_end(int end) {
    ends[end].state = OVER;
    self = OTHER;
    pass_turn(end);
    if (end == RECEIVER) {
        wait_word(&both_over);
    }
}

void reach(int end, int place, int writes) {
    ends[end].state = AT_WORD;
    ends[end].place = place;
    ends[end].writes = writes;
    pass_turn(end);
}

enum woken sleep_at(int end, uintptr_t address, int timed) {
    ends[end].state = ASLEEP;
    ends[end].address = address;
    ends[end].timed = timed;
    ends[end].woken = BY_WAKE;
    tell(" %cb", "SR"[end]);
    pass_turn(end);
    return ends[end].woken;
}

int wake_at(int end, uintptr_t address) {
    int other = !end, woke = ends[other].state == ASLEEP && ends[other].address == address;
    if (woke) {
        ends[other].state = INSIDE;
        ends[other].woken = BY_WAKE;
        tell(" %cw", "SR"[other]);
    }
    tell(" %ck", "SR"[end]);
    return woke;
}
