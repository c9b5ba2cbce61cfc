// Nanoseconds per call of the C library and of ICU over the lines of a file: library TABLE LINES STRENGTH VARIABLE
// Each figure is from the fastest of several rounds. In each round all of them are measured in turn, so that other work of the machine
// falls on ICU and on the library alike. Comparisons are measured over all lines, so that texts come from memory, and by blocks.
#include "uca.h"
#include <stdio.h>
#include <stdlib.h>
#include <string.h>
#include <time.h>
#include <unicode/ucol.h>
#include <unicode/ustring.h>

#define ROUNDS 11
#define BLOCK 500
#define BLOCK_ROUNDS 25

struct line { char *text; size_t size; uca_text checked; };

static struct line *lines;
static size_t count;
static uca_collator collator = UCA_CLOSED;
static uca_settings settings = UCA_TERTIARY_SETTINGS;
static UCollator *icu;
static long sum;

static double now(void) {
    struct timespec time;
    clock_gettime(CLOCK_PROCESS_CPUTIME_ID, &time);
    return time.tv_sec * 1e9 + time.tv_nsec;
}

static void *room(void *block) {
    if (!block) exit(2);
    return block;
}

static char *contents(const char *path, size_t *size) {
    FILE *file = fopen(path, "rb");
    if (!file) { perror(path); exit(2); }
    fseek(file, 0, SEEK_END);
    *size = ftell(file);
    rewind(file);
    char *bytes = room(malloc(*size + 1));
    if (fread(bytes, 1, *size, file) != *size) exit(2);
    bytes[*size] = 0;
    fclose(file);
    return bytes;
}

static int uca_order(const struct line *a, const struct line *b) {
    uca_fault fault;
    int32_t order = 0;
    if (uca_compare(&collator, &settings, (uint8_t *)a->text, a->size, (uint8_t *)b->text, b->size, &order, &fault)) exit(3);
    return order;
}

static int text_order(const struct line *a, const struct line *b) {
    int32_t order = 0;
    if (uca_compare_texts(&collator, &settings, &a->checked, &b->checked, &order)) exit(3);
    return order;
}

static int icu_order(const struct line *a, const struct line *b) {
    UErrorCode error = U_ZERO_ERROR;
    return ucol_strcollUTF8(icu, a->text, (int32_t)a->size, b->text, (int32_t)b->size, &error);
}

static uint8_t key[1 << 20];

static size_t uca_key(const struct line *line) {
    uca_fault fault;
    size_t needed = 0;
    if (uca_sort_key(&collator, &settings, (uint8_t *)line->text, line->size, key, sizeof key, &needed, &fault)) exit(3);
    return needed;
}

static size_t uca_packed(const struct line *line) {
    uca_fault fault;
    size_t needed = 0;
    if (uca_packed_key(&collator, &settings, (uint8_t *)line->text, line->size, key, sizeof key, &needed, &fault)) exit(3);
    return needed;
}

static size_t uca_written(const struct line *line) {
    uca_fault fault;
    size_t needed = 0;
    if (uca_write_key(&collator, &settings, (uint8_t *)line->text, line->size, key, sizeof key, &needed, &fault)) exit(3);
    return needed;
}

static size_t icu_key(const struct line *line) {
    static UChar wide[1 << 16];
    UErrorCode error = U_ZERO_ERROR;
    int32_t points;
    u_strFromUTF8(wide, 1 << 16, &points, line->text, (int32_t)line->size, &error);
    return ucol_getSortKey(icu, wide, points, key, sizeof key);
}

static struct line line_of(const char *text, size_t size) {
    struct line line = {(char *)text, size, UCA_EMPTY_TEXT};
    uca_fault fault;
    if (uca_text_of((const uint8_t *)text, size, &line.checked, &fault)) exit(3);
    return line;
}

/* The time of comparing the lines from a place on and before another one with those before them. */
static double pairs(int (*order)(const struct line *, const struct line *), size_t from, size_t to) {
    double began = now();
    for (size_t i = from; i < to; i++) sum += order(&lines[i - 1], &lines[i]);
    return now() - began;
}

static double keys(size_t (*key_of)(const struct line *)) {
    double from = now();
    for (size_t i = 0; i < count; i++) sum += key_of(&lines[i]);
    return (now() - from) / count;
}

/* Keeps the shortest time. */
static void keep(double *best, double took) {
    if (*best == 0 || took < *best) *best = took;
}

/* Compares neighbours, all of them by one kind of call after the other, and says what they are. */
static void report_pairs(const char *what) {
    double bytes = 0, checked = 0, other = 0;
    for (int round = 0; round < ROUNDS; round++) {
        keep(&other, pairs(icu_order, 1, count) / (count - 1));
        keep(&bytes, pairs(uca_order, 1, count) / (count - 1));
        keep(&checked, pairs(text_order, 1, count) / (count - 1));
    }
    printf("%s: %.0f ns (ICU %.0f, %.2f times)\n", what, bytes, other, bytes / other);
    printf("%s that were checked once: %.0f ns (%.2f times ICU's)\n", what, checked, checked / other);
}

/*
 * Compares neighbours by blocks of lines: over each block the kinds of calls are made in turn, each of them first in some rounds, and of
 * each block the shortest time counts. So the lines are in the processor's caches, and other work of the machine changes little.
 */
static void report_blocks(const char *what) {
    int (*orders[3])(const struct line *, const struct line *) = {icu_order, uca_order, text_order};
    size_t blocks = (count + BLOCK - 1) / BLOCK;
    double *best = room(calloc(3 * blocks, sizeof *best)), total[3] = {0};
    for (int round = 0; round < BLOCK_ROUNDS; round++) {
        for (size_t block = 0; block < blocks; block++) {
            size_t from = block * BLOCK + 1, to = from + BLOCK < count ? from + BLOCK : count;
            for (int turn = 0; turn < 3; turn++) {
                int kind = (turn + round) % 3;
                keep(&best[3 * block + kind], pairs(orders[kind], from, to));
            }
        }
    }
    for (size_t i = 0; i < 3 * blocks; i++) total[i % 3] += best[i] / (count - 1);
    free(best);
    printf("%s, by blocks: %.0f ns (ICU %.0f, %.3f times)\n", what, total[1], total[0], total[1] / total[0]);
    printf("%s that were checked once, by blocks: %.0f ns (%.3f times ICU's)\n", what, total[2], total[2] / total[0]);
}

static void report_keys(void) {
    double sort = 0, packed = 0, written = 0, other = 0;
    for (int round = 0; round < ROUNDS; round++) {
        keep(&other, keys(icu_key));
        keep(&sort, keys(uca_key));
        keep(&packed, keys(uca_packed));
        keep(&written, keys(uca_written));
    }
    printf("keys: %.0f ns (ICU %.0f, %.2f times)\n", sort, other, sort / other);
    printf("packed keys: %.0f ns (%.2f times ICU's, %.2f times keys)\n", packed, packed / other, packed / sort);
    printf("keys without memory: %.0f ns (%.2f times those in memory)\n", written, written / sort);
}

static double same(const char *text, int (*order)(const struct line *, const struct line *)) {
    struct line line = line_of(text, strlen(text));
    double best = 1e300;
    for (int round = 0; round < 3; round++) {
        double from = now();
        for (int i = 0; i < 1000000; i++) sum += order(&line, &line);
        double took = (now() - from) / 1e6;
        if (took < best) best = took;
    }
    return best;
}

/* The overhead of a call: a comparison with a collator that has no table, and the checks of two empty texts. */
static int closed_order(const struct line *a, const struct line *b) {
    static uca_collator closed = UCA_CLOSED;
    uca_fault fault;
    int32_t order = 0;
    return uca_compare(&closed, &settings, (uint8_t *)a->text, a->size, (uint8_t *)b->text, b->size, &order, &fault);
}

static int two_checks(const struct line *a, const struct line *b) {
    uca_fault fault;
    return uca_check((uint8_t *)a->text, a->size, &fault) + uca_check((uint8_t *)b->text, b->size, &fault);
}

static int by_order(const void *a, const void *b) { return uca_order(a, b); }

int main(int words, char **word) {
    if (words != 5) return 2;
    size_t size, table_size;
    char *table = contents(word[1], &table_size), *text = contents(word[2], &size);
    UErrorCode error = U_ZERO_ERROR;
    uca_fault fault;
    settings.strength = atoi(word[3]);
    settings.variable = atoi(word[4]);
    double from = now();
    if (uca_open(&collator, (uint8_t *)table, table_size, NULL, 0, &fault)) return 3;
    double opened = now() - from;
    icu = ucol_open("", &error);
    ucol_setAttribute(icu, UCOL_NORMALIZATION_MODE, UCOL_ON, &error);
    ucol_setStrength(icu, settings.strength == UCA_QUATERNARY ? UCOL_QUATERNARY : UCOL_TERTIARY);
    ucol_setAttribute(icu, UCOL_ALTERNATE_HANDLING, settings.variable == UCA_SHIFTED ? UCOL_SHIFTED : UCOL_NON_IGNORABLE, &error);
    for (char *at = text; at < text + size; count++) {
        char *end = memchr(at, '\n', text + size - at);
        if (!end) end = text + size;
        if ((count & (count + 1)) == 0) lines = room(realloc(lines, 2 * (count + 1) * sizeof *lines));
        lines[count] = line_of(at, end - at);
        at = end + 1;
    }
    printf("open %.1f ms; two empty texts %.0f ns (ICU %.0f); a and a %.0f (%.0f), checked once %.0f\n", opened / 1e6, same("", uca_order), same("", icu_order), same("a", uca_order), same("a", icu_order), same("a", text_order));
    printf("a comparison that finds no table %.1f ns; two checks of an empty text %.1f\n", same("", closed_order), same("", two_checks));
    report_pairs("neighbours");
    report_blocks("neighbours");
    report_keys();
    qsort(lines, count, sizeof *lines, by_order);
    report_pairs("sorted neighbours");
    report_blocks("sorted neighbours");
    uca_close(&collator);
    ucol_close(icu);
    return sum == 12345;
}
