/* Eight threads use one collator at once, with each call that only reads it. Meanwhile its page is write-protected.
 * shared ROUNDS: each thread makes 393 calls per round. */
#define _DEFAULT_SOURCE
#include "checks.h"
#include <pthread.h>
#include <stdlib.h>
#include <sys/mman.h>

#define PAGE 4096

#define THREADS 8

static const char *const words[] = {"a", "A", "\xC3\xA1", "b", "c", "ch", "cz", "a b", "", "hha"};
#define WORDS (sizeof words / sizeof words[0])

static const uca_settings settings = UCA_SETTINGS(UCA_QUATERNARY, UCA_SHIFTED);

struct work {
    const uca_collator *collator;
    int rounds;
    uint64_t sum;
};

static void add(uint64_t *sum, const uint8_t *bytes, size_t size) {
    for (size_t i = 0; i < size; i++) *sum = *sum * 131 + bytes[i];
}

/* Adds the answers of the calls about one text. */
static void add_text(const uca_collator *collator, const char *word, uint64_t *sum) {
    const uint8_t *text = (const uint8_t *)word;
    size_t size = strlen(word), needed, upper_needed;
    uint8_t key[256], upper[256];
    uint32_t complete;
    uca_text made, other;
    uca_fault fault;
    int32_t order;
    if (uca_text_of(text, size, &made, &fault)) *sum += 1;
    for (size_t i = 0; i < WORDS; i++) {
        if (uca_text_of((const uint8_t *)words[i], strlen(words[i]), &other, &fault) || uca_compare_texts(collator, &settings, &made, &other, &order)) *sum += 1;
        else *sum = *sum * 31 + (uint64_t)(order + 1);
        if (uca_compare(collator, &settings, text, size, (const uint8_t *)words[i], strlen(words[i]), &order, &fault)) *sum += 1;
        else *sum = *sum * 31 + (uint64_t)(order + 1);
    }
    if (uca_is_complete(collator, text, size, &complete, &fault)) *sum += 1;
    else *sum = *sum * 31 + complete;
    if (uca_sort_key_of(collator, &settings, &made, key, sizeof key, &needed)) *sum += 1;
    else add(sum, key, needed);
    if (uca_packed_key_of(collator, &settings, &made, key, sizeof key, &needed)) *sum += 1;
    else add(sum, key, needed);
    if (uca_sort_key(collator, &settings, text, size, key, sizeof key, &needed, &fault)) *sum += 1;
    else add(sum, key, needed);
    if (uca_packed_key(collator, &settings, text, size, key, sizeof key, &needed, &fault)) *sum += 1;
    else add(sum, key, needed);
    if (uca_write_key(collator, &settings, text, size, key, sizeof key, &needed, &fault)) *sum += 1;
    else add(sum, key, needed);
    if (uca_prefix_bounds(collator, &settings, text, size, key, sizeof key, upper, sizeof upper, &needed, &upper_needed, &fault)) *sum += 1;
    else add(sum, key, needed), add(sum, upper, upper_needed);
    if (uca_packed_prefix_bounds(collator, &settings, text, size, key, sizeof key, upper, sizeof upper, &needed, &upper_needed, &fault)) *sum += 1;
    else add(sum, key, needed), add(sum, upper, upper_needed);
}

static uint64_t sum_of(const uca_collator *collator) {
    uca_collator clone = UCA_CLOSED;
    uca_digest digest;
    uint64_t sum = 0;
    if (uca_clone(collator, &clone)) return 0;
    for (size_t i = 0; i < WORDS; i++) add_text(i % 2 ? collator : &clone, words[i], &sum);
    uca_close(&clone);
    if (uca_fingerprint(collator, &settings, &digest)) return 0;
    add(&sum, digest.bytes, sizeof digest.bytes);
    return sum;
}

static void *run(void *room) {
    struct work *work = room;
    for (int round = 0; round < work->rounds; round++) work->sum = work->sum * 31 + sum_of(work->collator);
    return NULL;
}

int main(int count, char **arguments) {
    struct work works[THREADS], alone;
    pthread_t threads[THREADS];
    uca_collator *collator = mmap(NULL, PAGE, PROT_READ | PROT_WRITE, MAP_PRIVATE | MAP_ANONYMOUS, -1, 0);
    if (collator == MAP_FAILED) return 2;
    open_small(collator);
    CHECK(mprotect(collator, PAGE, PROT_READ) == 0);
    alone = (struct work){collator, count > 1 ? atoi(arguments[1]) : 1, 0};
    for (int i = 0; i < THREADS; i++) works[i] = alone;
    run(&alone);
    for (int i = 0; i < THREADS; i++) CHECK(pthread_create(&threads[i], NULL, run, &works[i]) == 0);
    for (int i = 0; i < THREADS; i++) CHECK(pthread_join(threads[i], NULL) == 0);
    for (int i = 0; i < THREADS; i++) CHECK(works[i].sum == alone.sum);
    CHECK(mprotect(collator, PAGE, PROT_READ | PROT_WRITE) == 0);
    uca_close(collator);
    if (failed_checks == 0) puts("well");
    return failed_checks != 0;
}
