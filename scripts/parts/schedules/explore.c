// The runs, depth first: each is a child that makes the choices of the run before it up to the last that can still be
// another, and there the next. A line of each goes to standard output: its choices, and what both ends did.
#include "schedules.h"
#include <signal.h>
#include <stdarg.h>
#include <stdio.h>
#include <stdlib.h>
#include <string.h>
#include <sys/mman.h>
#include <sys/prctl.h>
#include <sys/syscall.h>
#include <sys/wait.h>
#include <time.h>
#include <unistd.h>

// A run has so many seconds, and once more so many where the machine was too slow for it; at most so often in all.
enum { LONGEST_RUN = 20, LONGEST_AGAIN = 60, MOST_AGAIN = 3 };
enum { ROOM_LEFT = 256, UNUSABLE = 96 };

struct settings settings = {.spurious = 1, .readings = 8, .reduce = 1, .runs = -1, .seconds = -1};
static const char SCHEDULE[] = "schedule=";
struct record *record;
uintptr_t program_begins, program_ends;
static int is_child;
static volatile sig_atomic_t interrupted;
static struct { long runs, pruned, points, longest, died, again; } found;

int in_child(void) {
    return is_child;
}

int in_program(uintptr_t address) {
    return address >= program_begins && address < program_ends;
}

static void add_text(const char *format, va_list values) {
    int room = (int)sizeof record->text - record->length;
    if (room > 0) {
        int length = vsnprintf(record->text + record->length, room, format, values);
        record->length += length < room ? length : room - 1;
    }
}

__attribute__((format(printf, 1, 2))) static void add_words(const char *format, ...) {
    va_list values;
    va_start(values, format);
    add_text(format, values);
    va_end(values);
}

// What ends the words of a channel other than the first.
const char *prime(int channel) {
    return channel == 0 ? "" : "'";
}

void tell(const char *format, ...) {
    if (!is_child) {
        return;
    }
    if (record->length >= (int)sizeof record->text - ROOM_LEFT) {
        give_up("the text of a run is full");
    }
    va_list values;
    va_start(values, format);
    add_text(format, values);
    va_end(values);
}

// A fault has the room that the words leave.
void fault(const char *format, ...) {
    add_words(" !");
    va_list values;
    va_start(values, format);
    add_text(format, values);
    va_end(values);
}

void end_run(void) {
    if (record->count < record->forced && strstr(record->text, " !") == NULL) {
        fault("tool:fewer-choices-than-the-schedule");
    }
    record->ended = 1;
    raw_call(SYS_exit_group, 0, 0, 0, 0, 0, 0);
    abort();
}

void fail(const char *format, ...) {
    char why[ROOM_LEFT];
    va_list values;
    va_start(values, format);
    vsnprintf(why, sizeof why, format, values);
    va_end(values);
    if (!is_child) {
        fprintf(stderr, "schedules: %s\n", why);
        _exit(UNUSABLE);
    }
    for (char *at = why; *at != 0; at++) {
        *at = *at == ' ' ? '-' : *at;
    }
    fault("tool:%s", why);
    end_run();
}

void give_up(const char *why) {
    fail("%s", why);
}

static double now(void) {
    struct timespec time;
    raw_call(SYS_clock_gettime, CLOCK_MONOTONIC, (long)&time, 0, 0, 0, 0);
    return time.tv_sec + time.tv_nsec / 1e9;
}

static void print_run(int status) {
    printf("X ");
    for (int at = 0; at < record->count; at++) {
        putchar('0' + record->choices[at].chosen);
    }
    printf("%s%s", record->count == 0 ? "-" : "", record->text);
    if (!record->ended) {
        printf(" !died:%d", WIFSIGNALED(status) ? WTERMSIG(status) : WEXITSTATUS(status));
    }
    printf("\n");
    if (fflush(stdout) != 0) {
        give_up("nobody reads the runs");
    }
}

static void count_run(int status) {
    // What the scheduler has found before it left the run is told.
    if (record->pruned && strstr(record->text, " !") == NULL) {
        found.pruned++;
        return;
    }
    found.runs++;
    found.died += !record->ended;
    found.points += record->points;
    found.longest = record->points > found.longest ? record->points : found.longest;
    print_run(status);
}

// The choices that the next run begins with, or whether there is none.
static int next_choices(void) {
    for (int at = record->count - 1; at >= 0; at--) {
        struct choice *choice = &record->choices[at];
        uint32_t later = choice->allowed & ~((2u << choice->chosen) - 1);
        if (later != 0) {
            choice->chosen = __builtin_ctz(later);
            record->forced = at + 1;
            return 1;
        }
    }
    return 0;
}

static int may_go_on(double begun) {
    return !interrupted && found.runs != settings.runs && (settings.seconds < 0 || now() - begun < settings.seconds);
}

static void begin_record(void) {
    record->count = record->ended = record->pruned = record->length = record->points = 0;
    record->text[0] = 0;
}

static pid_t begin_child(int seconds) {
    begin_record();
    pid_t child = fork();
    if (child == 0) {
        is_child = 1;
        prctl(PR_SET_PDEATHSIG, SIGKILL);
        alarm(seconds);
    }
    return child;
}

// Makes a run in a child of its own, and once more the same run where its time was over before its end. Returns 1 in
// the child.
static int make_run(int *status) {
    for (int again = 0;; again = 1) {
        pid_t child = begin_child(again ? LONGEST_AGAIN : LONGEST_RUN);
        if (child == 0) {
            return 1;
        }
        if (child < 0 || waitpid(child, status, 0) != child) {
            give_up("no child, or none that ends");
        }
        int was_slow = !record->ended && WIFSIGNALED(*status) && WTERMSIG(*status) == SIGALRM;
        if (!was_slow || again || interrupted || found.again == MOST_AGAIN) {
            return 0;
        }
        found.again++;
    }
}

// Returns 1 in each child, and 0 once no other run is left, or there may be none. Behind a run that died there may be
// others, which nothing has gone through.
int explore(void) {
    double begun = now();
    int more = 1, status;
    fflush(stdout);
    while (more && may_go_on(begun)) {
        if (make_run(&status)) {
            return 1;
        }
        if (interrupted) {
            break;
        }
        count_run(status);
        more = settings.runs != 1 && next_choices();
    }
    fprintf(stderr, "runs %ld pruned %ld points %ld longest %ld died %ld complete %d\n", found.runs, found.pruned,
            found.points, found.longest, found.died, !more && found.died == 0);
    return 0;
}

static void on_interrupt(int signal) {
    interrupted = signal;
}

// Where the program's code lies.
static void find_program(void) {
    char program[256], line[512];
    ssize_t length = readlink("/proc/self/exe", program, sizeof program - 1);
    program[length > 0 ? length : 0] = 0;
    FILE *maps = fopen("/proc/self/maps", "r");
    while (maps != NULL && fgets(line, sizeof line, maps) != NULL) {
        if (strstr(line, program) != NULL) {
            char *until;
            uintptr_t begins = strtoul(line, &until, 16);
            program_begins = program_begins == 0 ? begins : program_begins;
            program_ends = strtoul(until + 1, NULL, 16);
        }
    }
    if (maps != NULL) {
        fclose(maps);
    }
    if (program_ends == 0) {
        give_up("the program is not among its own mappings");
    }
}

// The choices of the first run, which is then the only one.
static void read_schedule(const char *digits) {
    settings.runs = 1;
    for (const char *digit = strcmp(digits, "-") == 0 ? "" : digits; *digit != 0; digit++) {
        if (*digit < '0' || *digit > '9' || record->forced == MOST_CHOICES) {
            give_up("a schedule is a row of digits");
        }
        record->choices[record->forced++].chosen = *digit - '0';
    }
}

static long read_number(const char *digits) {
    char *until;
    long number = strtol(digits, &until, 10);
    if (until == digits || *until != 0) {
        give_up("a setting without a number");
    }
    return number;
}

static void read_setting(const char *word) {
    static const struct { const char *name; long *value; } SETTINGS[] = {
        {"spurious=", &settings.spurious}, {"readings=", &settings.readings}, {"reduce=", &settings.reduce},
        {"failing-clock=", &settings.failing_clock}, {"refused=", &settings.refused}, {"queues=", &settings.queues},
        {"sent=", &settings.sent}, {"runs=", &settings.runs}, {"seconds=", &settings.seconds},
    };
    for (size_t at = 0; at < sizeof SETTINGS / sizeof *SETTINGS; at++) {
        size_t length = strlen(SETTINGS[at].name);
        if (strncmp(word, SETTINGS[at].name, length) == 0) {
            *SETTINGS[at].value = read_number(word + length);
            return;
        }
    }
    size_t length = strlen(SCHEDULE);
    if (strncmp(word, SCHEDULE, length) != 0) {
        give_up("an unknown setting");
    }
    read_schedule(word + length);
}

__attribute__((constructor)) static void begin(void) {
    const char *given = getenv("SCHEDULES");
    if (given == NULL) {
        return;
    }
    void *mapped = mmap(NULL, sizeof *record, PROT_READ | PROT_WRITE, MAP_SHARED | MAP_ANONYMOUS, -1, 0);
    if (mapped == MAP_FAILED) {
        give_up("no room for the record of a run");
    }
    record = mapped;
    char words[8192];
    snprintf(words, sizeof words, "%s", given);
    for (char *word = strtok(words, " "); word != NULL; word = strtok(NULL, " ")) {
        read_setting(word);
    }
    find_program();
    signal(SIGINT, on_interrupt);
    // If nobody reads the runs, the write fails, and the program says so.
    signal(SIGPIPE, SIG_IGN);
    begin_accesses();
    begin_calls();
    begin_blocks();
}
