/* Measures the stack that each call uses: it is made in a thread whose stack was painted before, and the paint that is left is counted.
 * stack TABLE RULES prints a line for each call, in bytes, including the thread's own frames. */
#define _GNU_SOURCE
#include "checks.h"
#include <pthread.h>
#include <sys/mman.h>

enum { STACK = 4 << 20, PAINT = 0xA5 };

struct text {
    uint8_t *bytes;
    size_t size;
};

static struct text table, rules, long_text, other_text;
static uca_collator collator = UCA_CLOSED;
static uca_text made, other_made;
static uca_settings settings = UCA_SETTINGS(UCA_IDENTICAL, UCA_SHIFTED);
static uint8_t *key;
static size_t room;

static struct text contents(const char *path) {
    FILE *file = fopen(path, "rb");
    struct text text = {malloc(1 << 22), 0};
    if (!file || !text.bytes) exit(2);
    text.size = fread(text.bytes, 1, 1 << 22, file);
    fclose(file);
    return text;
}

static struct text repeated(const char *piece, size_t count) {
    size_t size = strlen(piece);
    struct text text = {malloc(size * count), size * count};
    if (!text.bytes) exit(2);
    for (size_t i = 0; i < count; i++) memcpy(text.bytes + i * size, piece, size);
    return text;
}

static void *opens(void *collator) {
    uca_fault fault;
    CHECK(uca_open(collator, table.bytes, table.size, rules.bytes, rules.size, &fault) == UCA_OK);
    return NULL;
}

static void *closes(void *collator) {
    uca_close(collator);
    return NULL;
}

static void *clones(void *other) {
    CHECK(uca_clone(&collator, other) == UCA_OK);
    return NULL;
}

static void *checks(void *none) {
    uca_fault fault;
    CHECK(uca_check(long_text.bytes, long_text.size, &fault) == UCA_OK);
    return none;
}

static void *compares(void *none) {
    uca_fault fault;
    int32_t order;
    CHECK(uca_compare(&collator, &settings, long_text.bytes, long_text.size, other_text.bytes, other_text.size, &order, &fault) == UCA_OK);
    return none;
}

static void *compares_levels(void *none) {
    uca_fault fault;
    int32_t order;
    uint32_t level;
    CHECK(uca_compare_levels(&collator, &settings, long_text.bytes, long_text.size, other_text.bytes, other_text.size, &order, &level, &fault) == UCA_OK);
    return none;
}

static void *finds_matches(void *none) {
    uca_fault fault;
    uca_matches_needed needed;
    CHECK(uca_matches(&collator, long_text.bytes, long_text.size, NULL, 0, NULL, 0, NULL, 0, &needed, &fault) == UCA_OK);
    return none;
}

static void *makes_a_key(void *none) {
    uca_fault fault;
    size_t needed;
    CHECK(uca_sort_key(&collator, &settings, long_text.bytes, long_text.size, key, room, &needed, &fault) == UCA_OK);
    return none;
}

static void *packs_a_key(void *none) {
    uca_fault fault;
    size_t needed;
    CHECK(uca_packed_key(&collator, &settings, long_text.bytes, long_text.size, key, room, &needed, &fault) == UCA_OK);
    return none;
}

static void *writes_a_key(void *none) {
    uca_fault fault;
    size_t needed;
    CHECK(uca_write_key(&collator, &settings, long_text.bytes, long_text.size, key, room, &needed, &fault) == UCA_OK);
    return none;
}

static void *finds_bounds(void *none) {
    uca_fault fault;
    size_t lower_size, upper_size;
    CHECK(uca_prefix_bounds(&collator, &settings, long_text.bytes, long_text.size, key, room / 2, key + room / 2, room / 2, &lower_size, &upper_size, &fault) == UCA_OK);
    return none;
}

static void *finds_packed_bounds(void *none) {
    uca_fault fault;
    size_t lower_size, upper_size;
    CHECK(uca_packed_prefix_bounds(&collator, &settings, long_text.bytes, long_text.size, key, room / 2, key + room / 2, room / 2, &lower_size, &upper_size, &fault) == UCA_OK);
    return none;
}

static void *takes_a_fingerprint(void *none) {
    uca_digest digest;
    CHECK(uca_fingerprint(&collator, &settings, &digest) == UCA_OK);
    return none;
}

static void *asks_completeness(void *none) {
    uca_fault fault;
    uint32_t complete;
    CHECK(uca_is_complete(&collator, long_text.bytes, long_text.size, &complete, &fault) == UCA_OK);
    return none;
}

static void *locates(void *none) {
    uint64_t line, column;
    uca_locate(long_text.bytes, long_text.size, long_text.size, &line, &column);
    return none;
}

static void *makes_texts(void *none) {
    uca_fault fault;
    CHECK(uca_text_of(long_text.bytes, long_text.size, &made, &fault) == UCA_OK);
    CHECK(uca_text_of(other_text.bytes, other_text.size, &other_made, &fault) == UCA_OK);
    return none;
}

static void *compares_texts(void *none) {
    int32_t order;
    CHECK(uca_compare_texts(&collator, &settings, &made, &other_made, &order) == UCA_OK);
    return none;
}

static void *makes_a_key_of_a_text(void *none) {
    size_t needed;
    CHECK(uca_sort_key_of(&collator, &settings, &made, key, room, &needed) == UCA_OK);
    return none;
}

static void *packs_a_key_of_a_text(void *none) {
    size_t needed;
    CHECK(uca_packed_key_of(&collator, &settings, &made, key, room, &needed) == UCA_OK);
    return none;
}

static void *does_nothing(void *none) { return none; }

/* How many bytes of a painted stack a thread has written. */
static size_t taken(void *(*call)(void *), void *given) {
    pthread_attr_t attributes;
    pthread_t thread;
    uint8_t *stack = mmap(NULL, STACK, PROT_READ | PROT_WRITE, MAP_PRIVATE | MAP_ANONYMOUS, -1, 0);
    if (stack == MAP_FAILED) exit(2);
    memset(stack, PAINT, STACK);
    if (pthread_attr_init(&attributes) || pthread_attr_setstack(&attributes, stack, STACK) ||
        pthread_create(&thread, &attributes, call, given) || pthread_join(thread, NULL)) exit(2);
    size_t clean = 0;
    while (clean < STACK && stack[clean] == PAINT) clean++;
    munmap(stack, STACK);
    return STACK - clean;
}

int main(int count, char **words) {
    uca_collator other = UCA_CLOSED;
    if (count < 3) return 2;
    table = contents(words[1]);
    rules = contents(words[2]);
    /* Letters with marks, a ligature of 18 letters, and a character that decomposes to four code points. */
    long_text = repeated("a\xCC\xA3\xCC\x81 \xEF\xB7\xBA\xE1\xBE\x82-", 1000);
    other_text = repeated("a\xCC\xA3\xCC\x81 \xEF\xB7\xBA\xE1\xBE\x82-", 1000);
    other_text.bytes[other_text.size - 1] = '+';
    room = 1 << 20;
    key = malloc(room);
    size_t own = taken(does_nothing, NULL);
    printf("uca_open %zu\n", taken(opens, &collator) - own);
    printf("uca_clone %zu\n", taken(clones, &other) - own);
    printf("uca_check %zu\n", taken(checks, NULL) - own);
    printf("uca_compare %zu\n", taken(compares, NULL) - own);
    printf("uca_compare_levels %zu\n", taken(compares_levels, NULL) - own);
    printf("uca_matches %zu\n", taken(finds_matches, NULL) - own);
    printf("uca_sort_key %zu\n", taken(makes_a_key, NULL) - own);
    printf("uca_packed_key %zu\n", taken(packs_a_key, NULL) - own);
    printf("uca_write_key %zu\n", taken(writes_a_key, NULL) - own);
    printf("uca_prefix_bounds %zu\n", taken(finds_bounds, NULL) - own);
    printf("uca_packed_prefix_bounds %zu\n", taken(finds_packed_bounds, NULL) - own);
    printf("uca_is_complete %zu\n", taken(asks_completeness, NULL) - own);
    printf("uca_locate %zu\n", taken(locates, NULL) - own);
    printf("uca_text_of %zu\n", taken(makes_texts, NULL) - own);
    printf("uca_compare_texts %zu\n", taken(compares_texts, NULL) - own);
    printf("uca_sort_key_of %zu\n", taken(makes_a_key_of_a_text, NULL) - own);
    printf("uca_packed_key_of %zu\n", taken(packs_a_key_of_a_text, NULL) - own);
    printf("uca_fingerprint %zu\n", taken(takes_a_fingerprint, NULL) - own);
    uca_close(&other);
    printf("uca_close %zu\n", taken(closes, &collator) - own);
    free(table.bytes);
    free(rules.bytes);
    free(long_text.bytes);
    free(other_text.bytes);
    free(key);
    return failed_checks != 0;
}
