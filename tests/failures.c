/*
 * Makes each step of a program fail, one at a time. Preloaded into the program, this forks the process at each of its steps of one
 * kind. In the copy that step fails; the process waits for the copy and checks its answer. Then the process itself does the step and
 * goes on. So the copies are all the runs in which one step fails, and the process is the run in which none does.
 *
 * tests/failures.sh sets the environment:
 *   FAILURES_KIND    the kind of step, one of `kinds`
 *   FAILURES_RIGHT   a folder with the right output `out`, errors `err` and `status`, and with the standard error after a refused
 *                    allocation, `refused`, and its `refused-status`
 *   FAILURES_REPORT  the file that the report is appended to
 *   FAILURES_WHOLE   how many steps there are, if not all of them fail: then the first and last FAILURES_EACH do, and every
 *                    FAILURES_EVERYth between
 *   FAILURES_TABLE, FAILURES_RULES  the files of the table and of the rules
 *   FAILURES_LINES, FAILURES_UNREAD, FAILURES_BEGUN  set if the input is read line by line; if it is not read; if memory is allocated
 *                    while the output is written, so that a part of it may be written before a refused allocation
 *
 * The program has one thread, reads files and no pipes, and writes its output to a file.
 */
#define _GNU_SOURCE
#include <errno.h>
#include <fcntl.h>
#include <signal.h>
#include <stdarg.h>
#include <stdbool.h>
#include <stdio.h>
#include <stdlib.h>
#include <string.h>
#include <sys/mman.h>
#include <sys/resource.h>
#include <sys/stat.h>
#include <sys/syscall.h>
#include <sys/wait.h>
#include <unistd.h>

enum kind { COUNTED, GROWTHS, READS, SHORT_READS, FAILED_WRITES, EMPTY_WRITES, FAILED_MESSAGES };
static const char *const kinds[] = {"count", "growths", "reads", "short-reads", "failed-writes", "empty-writes", "failed-messages"};

/* The time limits of a copy: seconds of the processor, and of the clock. */
enum { BUSY = 60, WAITED = 600 };

enum { FILES = 16, NOT_DONE = 3 };

struct bytes {
    const char *at;
    size_t size;
};

static enum kind kind;
static bool is_active, is_copy;
static struct bytes right_output, right_errors;
static char refusal[200]; /* what is said where a growth was refused */
static int right_status, refused_status, copied_output, copied_errors, report;
static long growths, reads, failed, right_answers, reported, wrong;
static long whole, each, every;
static long written, stops_at = -1; /* bytes of output so far; in a copy, after how many the writer stops */
static long lines[FILES];           /* the line feeds that were read from each file */
static struct stat table, rules;
static bool has_table, has_rules, has_begun;

void *__libc_malloc(size_t);
void *__libc_calloc(size_t, size_t);
void *__libc_realloc(void *, size_t);
void *__libc_memalign(size_t, size_t);

static void say(const char *form, ...) {
    char text[1000];
    va_list values;
    va_start(values, form);
    int size = vsnprintf(text, sizeof text, form, values);
    va_end(values);
    if (size > (int)sizeof text) size = sizeof text;
    syscall(SYS_write, report, text, size);
}

/* The contents of a file with a right answer, or of one that a copy has written. */
static struct bytes view(int file) {
    struct stat of;
    struct bytes found = {"", 0};
    if (fstat(file, &of) == 0 && of.st_size > 0) {
        found.at = mmap(NULL, of.st_size, PROT_READ, MAP_PRIVATE, file, 0);
        found.size = of.st_size;
    }
    return found;
}

static void unview(struct bytes seen) {
    if (seen.size) munmap((void *)seen.at, seen.size);
}

static struct bytes right(const char *name) {
    char path[4096];
    snprintf(path, sizeof path, "%s/%s", getenv("FAILURES_RIGHT"), name);
    int file = open(path, O_RDONLY);
    struct bytes found = view(file);
    close(file);
    return found;
}

static long number(const char *name) { return getenv(name) ? atol(getenv(name)) : 0; }

/* A file without a name, at a descriptor that the program will not use. */
static int scratch(const char *name) {
    int low = memfd_create(name, MFD_CLOEXEC), high = fcntl(low, F_DUPFD_CLOEXEC, 100);
    close(low);
    return high;
}

__attribute__((constructor)) static void begin(void) {
    const char *wanted = getenv("FAILURES_KIND");
    if (!wanted) return;
    while (strcmp(kinds[kind], wanted) != 0) {
        if (++kind > FAILED_MESSAGES) abort();
    }
    int low = open(getenv("FAILURES_REPORT"), O_WRONLY | O_APPEND | O_CREAT | O_CLOEXEC, 0600);
    report = fcntl(low, F_DUPFD_CLOEXEC, 100);
    close(low);
    if (kind != COUNTED) {
        right_output = right("out");
        right_errors = right("err");
        right_status = atoi(right("status").at);
        refused_status = atoi(right("refused-status").at);
        struct bytes said = right("refused");
        memcpy(refusal, said.at, said.size < sizeof refusal ? said.size : 0);
    }
    copied_output = scratch("output");
    copied_errors = scratch("errors");
    whole = number("FAILURES_WHOLE");
    each = number("FAILURES_EACH");
    every = number("FAILURES_EVERY");
    has_table = getenv("FAILURES_TABLE") && stat(getenv("FAILURES_TABLE"), &table) == 0;
    has_rules = getenv("FAILURES_RULES") && stat(getenv("FAILURES_RULES"), &rules) == 0;
    has_begun = getenv("FAILURES_BEGUN") != NULL;
    unsetenv("LD_PRELOAD");
    is_active = true;
}

__attribute__((destructor)) static void end(void) {
    if (!is_active || is_copy) return;
    is_active = false;
    if (kind == COUNTED)
        say("%ld %ld\n", growths, reads);
    else
        say("= %ld refused, %ld right, %ld reported, %ld wrong\n", failed, right_answers, reported, wrong);
}

/* Whether the step with this number fails. By the rule, all of a few do; of many, the first, the last and some between. */
static bool fails(long step) {
    if (!is_active || is_copy) return false;
    return whole == 0 || step <= each || step > whole - each || step % every == 0;
}

static bool is_same(struct bytes a, const char *at, size_t size) { return a.size == size && memcmp(a.at, at, size) == 0; }

/* The answers that a copy may give. */
struct wanted {
    const char *message; /* the message that it may report, with its status; if null, only the right answer counts */
    int status;
    long least, most;    /* how many of the right bytes are written then */
    bool may_be_right;
};

static void judge(const char *what, long step, int ended, struct wanted wanted) {
    struct bytes output = view(copied_output), errors = view(copied_errors);
    bool left = WIFEXITED(ended);
    int status = left ? WEXITSTATUS(ended) : 128 + WTERMSIG(ended);
    bool is_front = output.size <= right_output.size && memcmp(output.at, right_output.at, output.size) == 0;
    bool is_right = left && status == right_status && is_front && output.size == right_output.size &&
                    is_same(errors, right_errors.at, right_errors.size);
    bool is_reported = wanted.message && left && status == wanted.status && is_front && (long)output.size >= wanted.least &&
                       (long)output.size <= wanted.most && is_same(errors, wanted.message, strlen(wanted.message));
    failed++;
    if (is_right && wanted.may_be_right) {
        right_answers++;
    } else if (is_reported) {
        reported++;
    } else if (++wrong <= 5) {
        say("! %s %ld: status %d, %zu bytes of output, %s, and said: %.*s\n", what, step, status, output.size,
            is_front ? "the front of the right ones" : "not the right ones", (int)(errors.size < 300 ? errors.size : 300), errors.at);
    }
    unview(output);
    unview(errors);
}

/* Forks, and returns true in the copy. The process waits for the copy, checks its answer, and restores its files' positions. */
static bool copies(const char *what, long step, struct wanted wanted) {
    off_t places[FILES];
    for (int file = 0; file < FILES; file++) places[file] = lseek(file, 0, SEEK_CUR);
    ftruncate(copied_output, 0);
    ftruncate(copied_errors, 0);
    pwrite(copied_output, right_output.at, written, 0);
    lseek(copied_output, written, SEEK_SET);
    lseek(copied_errors, 0, SEEK_SET);
    pid_t copy = fork();
    if (copy < 0) {
        say("! there can be no more processes\n");
        _exit(99);
    }
    if (copy == 0) {
        struct rlimit none = {0, 0}, busy = {BUSY, BUSY};
        setrlimit(RLIMIT_CORE, &none);
        setrlimit(RLIMIT_CPU, &busy);
        is_copy = true;
        dup2(copied_output, 1);
        dup2(copied_errors, 2);
        alarm(WAITED);
        return true;
    }
    int ended;
    while (waitpid(copy, &ended, 0) < 0 && errno == EINTR) {}
    for (int file = 0; file < FILES; file++) {
        if (places[file] >= 0) lseek(file, places[file], SEEK_SET);
    }
    judge(what, step, ended, wanted);
    return false;
}

/* Whether this allocation is refused. */
static bool refuses(void) {
    if (!is_active || is_copy) return false;
    growths++;
    if (kind != GROWTHS || !fails(growths)) return false;
    struct wanted wanted = {refusal, refused_status, 0, has_begun ? right_output.size : 0, true};
    if (!copies("growth", growths, wanted)) return false;
    errno = ENOMEM;
    return true;
}

void *malloc(size_t size) { return refuses() ? NULL : __libc_malloc(size); }
void *calloc(size_t count, size_t size) { return refuses() ? NULL : __libc_calloc(count, size); }
void *realloc(void *block, size_t size) { return refuses() ? NULL : __libc_realloc(block, size); }
void *memalign(size_t alignment, size_t size) { return refuses() ? NULL : __libc_memalign(alignment, size); }
void *aligned_alloc(size_t alignment, size_t size) { return memalign(alignment, size); }

int posix_memalign(void **block, size_t alignment, size_t size) {
    if (refuses()) return ENOMEM;
    *block = __libc_memalign(alignment, size);
    return *block ? 0 : ENOMEM;
}

static bool is_file(int file, bool is_named, const struct stat *wanted) {
    struct stat of;
    return is_named && file > 2 && fstat(file, &of) == 0 && of.st_dev == wanted->st_dev && of.st_ino == wanted->st_ino;
}

/* What the program says if a read of this file fails. It reads its table and its test file line by line. */
static const char *of_failed_read(int file) {
    static char text[100];
    long line = file < FILES ? lines[file] + 1 : 0;
    if (is_file(file, has_rules, &rules)) return "uca: rules byte 0: Read\n";
    if (is_file(file, has_table, &table))
        snprintf(text, sizeof text, "uca: table line %ld: Read\n", line);
    else if (getenv("FAILURES_LINES"))
        snprintf(text, sizeof text, "uca: input line %ld: Read\n", line);
    else
        return "uca: input: Read\n";
    return text;
}

ssize_t read(int file, void *room, size_t size) {
    static bool is_short;
    if (is_active && !is_copy) {
        reads++;
        struct wanted report_of_read = {of_failed_read(file), NOT_DONE, 0, 0, file == 0 && getenv("FAILURES_UNREAD")};
        struct wanted right_answer = {NULL, 0, 0, 0, true};
        if (kind == READS && fails(reads) && copies("read", reads, report_of_read)) {
            errno = EIO;
            return -1;
        }
        if (kind == SHORT_READS && size > 1 && fails(reads) && copies("short read", reads, right_answer)) {
            is_short = true;
        }
    }
    if (is_short && size > 1) size = 1;
    ssize_t got = syscall(SYS_read, file, room, size);
    if (got > 0 && file >= 0 && file < FILES) {
        for (const char *at = room; at < (const char *)room + got; at++) lines[file] += *at == '\n';
    }
    return got;
}

/* A copy's output from the byte at which its writer stops: with one of three errors, which take turns, or by writing no byte. */
static ssize_t stopped(void) {
    static const int causes[] = {ENOSPC, EPIPE, EIO};
    if (kind == EMPTY_WRITES) return 0;
    errno = causes[stops_at % 3];
    return -1;
}

/* In the process: makes a copy for each number of bytes at which the writer can stop within this write. */
static bool stops(size_t size) {
    for (size_t count = 0; count < size; count++) {
        char text[100];
        long taken = written + count;
        if (!fails(taken + 1)) continue;
        snprintf(text, sizeof text, "uca: output byte %ld: %s\n", taken, kind == EMPTY_WRITES ? "Zero" : "Failed");
        struct wanted wanted = {text, NOT_DONE, taken, taken, false};
        if (copies("byte of output", taken, wanted)) {
            stops_at = taken;
            return true;
        }
    }
    return false;
}

static ssize_t writes(int file, const void *bytes, size_t size) {
    if (is_active && file == 1) {
        if (!is_copy && (kind == FAILED_WRITES || kind == EMPTY_WRITES)) stops(size);
        if (stops_at >= 0) {
            if (written >= stops_at) return stopped();
            if (size > (size_t)(stops_at - written)) size = stops_at - written;
        }
    }
    if (is_active && file == 2 && !is_copy && kind == FAILED_MESSAGES) {
        struct wanted silence = {"", right_status, 0, right_output.size, false};
        if (copies("message", 1, silence)) {
            errno = EIO;
            return -1;
        }
    }
    ssize_t taken = syscall(SYS_write, file, bytes, size);
    if (file == 1 && taken > 0) written += taken;
    return taken;
}

ssize_t write(int file, const void *bytes, size_t size) { return writes(file, bytes, size); }
ssize_t __write(int file, const void *bytes, size_t size) { return writes(file, bytes, size); }
