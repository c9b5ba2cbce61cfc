/* The allocations of a call are refused one at a time. Link with --wrap=malloc,realloc,free. Each call must return its answer or
 * UCA_NO_MEMORY, leave its collators unchanged, and free what it allocated. Some calls, such as comparing and uca_write_key, must not
 * allocate at all, and no call that makes a key may allocate for a short text. */
#include "checks.h"

static long calls, refused, live;
void *__real_malloc(size_t size);
void *__real_realloc(void *block, size_t size);
void __real_free(void *block);

void *__wrap_malloc(size_t size) {
    if (++calls == refused) return NULL;
    live++;
    return __real_malloc(size);
}

void *__wrap_realloc(void *block, size_t size) {
    if (++calls == refused) return NULL;
    if (!block) live++;
    return __real_realloc(block, size);
}

void __wrap_free(void *block) {
    if (block) live--;
    __real_free(block);
}

/* A text of more than 127 bytes, of which keys are made in memory, and one of fewer. */
#define FOUR(text) text text text text
static const char text[] = FOUR(FOUR(FOUR("ch\xC3\xA1 b"))), short_text[] = "ch\xC3\xA1 b";

/* Whether the call ended before the allocation that was to be refused. */
static int ends(long count) { return calls < count; }

/* Each of the first 200 allocations is refused, and after that fewer and fewer. */
static long next(long count) { return count < 200 ? count + 1 : count + count / 16; }

static long refuses_opening(void) {
    uca_fault fault;
    long tried = 0;
    for (long count = 1;; count = next(count)) {
        uca_collator collator = UCA_CLOSED;
        calls = 0;
        refused = count;
        uint32_t status = uca_open(&collator, TEXT(small_table), TEXT(ch_rules), &fault);
        refused = 0;
        CHECK(status == UCA_OK || (status == UCA_NO_MEMORY && !collator.private_is_open && fault.kind == 0 && fault.at == 0));
        int last = ends(count);
        uca_close(&collator);
        CHECK(live == 0);
        if (last) return tried;
        tried++;
    }
}

static long refuses_the_rest(void) {
    static uint8_t key[8192], whole[8192], packed[8192];
    uca_settings settings = UCA_SETTINGS(UCA_IDENTICAL, UCA_SHIFTED);
    uca_collator collator = UCA_CLOSED;
    uca_fault fault;
    uca_digest digest, right;
    uint8_t lower[16], upper[16];
    size_t needed, size, packed_size, lower_size, upper_size;
    long count, none_left = 0, tried = 0;
    uca_text made;
    refused = 0;
    open_small(&collator);
    long open_blocks = live;
    CHECK(uca_sort_key(&collator, &settings, TEXT(text), whole, sizeof whole, &size, &fault) == UCA_OK);
    CHECK(uca_packed_key(&collator, &settings, TEXT(text), packed, sizeof packed, &packed_size, &fault) == UCA_OK);
    CHECK(size > 1000 && size <= sizeof whole && packed_size > 500 && packed_size < size);
    CHECK(uca_fingerprint(&collator, &settings, &right) == UCA_OK);
    CHECK(uca_text_of(TEXT(text), &made, &fault) == UCA_OK);
    for (int call = 0; call < 8; call++) {
        for (count = 1, none_left = 0; !none_left; count = next(count), tried++) {
            uca_collator other = UCA_CLOSED;
            uint32_t status;
            calls = 0;
            refused = count;
            if (call == 0) {
                status = uca_sort_key(&collator, &settings, TEXT(text), key, sizeof key, &needed, &fault);
                if (status == UCA_OK) CHECK(needed == size && memcmp(key, whole, size) == 0);
            } else if (call == 1) {
                status = uca_fingerprint(&collator, &settings, &digest);
                if (status == UCA_OK) CHECK(memcmp(&digest, &right, sizeof right) == 0);
            } else if (call == 2) {
                status = uca_prefix_bounds(&collator, &settings, TEXT("\xC3\xA1" "c"), lower, sizeof lower, upper, sizeof upper,
                                           &lower_size, &upper_size, &fault);
                if (status == UCA_OK) CHECK(lower_size == 4 && memcmp(lower, "\x10\0\x10\2", 4) == 0 && upper_size == 4 && memcmp(upper, "\x10\0\x10\3", 4) == 0);
            } else if (call == 3) {
                status = uca_packed_key(&collator, &settings, TEXT(text), key, sizeof key, &needed, &fault);
                if (status == UCA_OK) CHECK(needed == packed_size && memcmp(key, packed, packed_size) == 0);
            } else if (call == 4) {
                status = uca_sort_key_of(&collator, &settings, &made, key, sizeof key, &needed);
                if (status == UCA_OK) CHECK(needed == size && memcmp(key, whole, size) == 0);
            } else if (call == 5) {
                status = uca_packed_key_of(&collator, &settings, &made, key, sizeof key, &needed);
                if (status == UCA_OK) CHECK(needed == packed_size && memcmp(key, packed, packed_size) == 0);
            } else if (call == 6) {
                status = uca_packed_prefix_bounds(&collator, &settings, TEXT("\xC3\xA1" "c"), lower, sizeof lower, upper, sizeof upper,
                                                  &lower_size, &upper_size, &fault);
                if (status == UCA_OK) CHECK(lower_size == 4 && memcmp(lower, "\x13\0\x13\2", 4) == 0 && upper_size == 4 && memcmp(upper, "\x13\0\x13\3", 4) == 0);
            } else {
                status = uca_clone(&collator, &other);
                CHECK(other.private_is_open == (status == UCA_OK));
            }
            refused = 0;
            CHECK(status == UCA_OK || status == UCA_NO_MEMORY);
            none_left = ends(count);
            uca_close(&other);
            CHECK(live == open_blocks && collator.private_is_open);
        }
    }
    uint32_t complete;
    uint64_t line, column;
    int32_t order;
    calls = 0;
    CHECK(uca_compare(&collator, &settings, TEXT(text), TEXT("cz"), &order, &fault) == UCA_OK && order == 1);
    CHECK(uca_check(TEXT(text), &fault) == UCA_OK && uca_version() == UCA_VERSION);
    CHECK(uca_write_key(&collator, &settings, TEXT(text), key, sizeof key, &needed, &fault) == UCA_OK && needed == size && memcmp(key, whole, size) == 0);
    CHECK(uca_write_key(&collator, &settings, TEXT(text), key, 3, &needed, &fault) == UCA_OK && needed == size);
    CHECK(uca_text_of(TEXT(text), &made, &fault) == UCA_OK && uca_compare_texts(&collator, &settings, &made, &made, &order) == UCA_OK && order == 0);
    CHECK(uca_is_complete(&collator, TEXT(text), &complete, &fault) == UCA_OK && complete == 1);
    uca_locate(TEXT(text), 2, &line, &column);
    CHECK(line == 1 && column == 3);
    CHECK(uca_text_of(TEXT(short_text), &made, &fault) == UCA_OK);
    CHECK(uca_sort_key(&collator, &settings, TEXT(short_text), key, sizeof key, &needed, &fault) == UCA_OK);
    CHECK(uca_sort_key_of(&collator, &settings, &made, whole, sizeof whole, &size) == UCA_OK && needed == size && memcmp(key, whole, size) == 0);
    CHECK(uca_packed_key(&collator, &settings, TEXT(short_text), key, sizeof key, &needed, &fault) == UCA_OK);
    CHECK(uca_packed_key_of(&collator, &settings, &made, packed, sizeof packed, &packed_size) == UCA_OK && needed == packed_size && memcmp(key, packed, packed_size) == 0);
    CHECK(calls == 0);
    uca_close(&collator);
    CHECK(live == 0);
    return tried;
}

int main(void) {
    long opening = refuses_opening(), rest = refuses_the_rest();
    CHECK(opening > 10 && rest > 3);
    if (failed_checks == 0) printf("well, %ld runs\n", opening + rest);
    return failed_checks != 0;
}
