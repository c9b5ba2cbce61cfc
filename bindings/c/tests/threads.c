/* Four threads compare and make keys over clones of one collator, which is closed before they begin. */
#include "checks.h"
#include <pthread.h>

#define THREADS 4
#define ROUNDS 2000

static const char *const words[] = {"a", "A", "\xC3\xA1", "b", "c", "ch", "cz", "a b", "", "hha"};
#define WORDS (sizeof words / sizeof words[0])

struct work {
    uca_collator collator;
    long sum;
};

static long sum_of(const uca_collator *collator) {
    uca_settings settings = UCA_SETTINGS(UCA_QUATERNARY, UCA_SHIFTED);
    uca_fault fault;
    uint8_t key[256];
    size_t needed;
    int32_t order;
    long sum = 0;
    for (size_t i = 0; i < WORDS; i++) {
        for (size_t j = 0; j < WORDS; j++) {
            if (uca_compare(collator, &settings, (const uint8_t *)words[i], strlen(words[i]), (const uint8_t *)words[j],
                            strlen(words[j]), &order, &fault)) return -1;
            sum += order * (long)(i * 31 + j);
        }
        if (uca_sort_key(collator, &settings, (const uint8_t *)words[i], strlen(words[i]), key, sizeof key, &needed, &fault)) return -1;
        for (size_t k = 0; k < needed; k++) sum = (sum * 131 + key[k]) % 1000003;
        if (uca_packed_key(collator, &settings, (const uint8_t *)words[i], strlen(words[i]), key, sizeof key, &needed, &fault)) return -1;
        for (size_t k = 0; k < needed; k++) sum = (sum * 131 + key[k]) % 1000003;
    }
    return sum;
}

static void *run(void *room) {
    struct work *work = room;
    for (int round = 0; round < ROUNDS; round++) {
        uca_collator clone = UCA_CLOSED;
        if (uca_clone(&work->collator, &clone)) return NULL;
        work->sum = (work->sum + sum_of(&clone)) % 1000003;
        uca_close(&clone);
    }
    uca_close(&work->collator);
    return NULL;
}

int main(void) {
    static struct work works[THREADS];
    pthread_t threads[THREADS];
    uca_collator collator = UCA_CLOSED;
    open_small(&collator);
    long one = sum_of(&collator), wanted = 0;
    for (int round = 0; round < ROUNDS; round++) wanted = (wanted + one) % 1000003;
    for (int i = 0; i < THREADS; i++) CHECK(uca_clone(&collator, &works[i].collator) == UCA_OK);
    uca_close(&collator);
    for (int i = 0; i < THREADS; i++) CHECK(pthread_create(&threads[i], NULL, run, &works[i]) == 0);
    for (int i = 0; i < THREADS; i++) CHECK(pthread_join(threads[i], NULL) == 0);
    for (int i = 0; i < THREADS; i++) CHECK(works[i].sum == wanted);
    if (failed_checks == 0) puts("well");
    return failed_checks != 0;
}
