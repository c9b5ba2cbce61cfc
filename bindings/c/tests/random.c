/* Random bytes and texts to every call that takes one, on eight threads that share a collator, until the time is over.
 * random SECONDS SEED [TABLE [RULES]]: by this table and these rules, or by the small ones. What is checked are promises that relate
 * calls to each other: all calls report one fault; keys of both kinds and comparisons give one order, whichever call makes them; a key
 * at a lower strength is a beginning of the packed key at a higher one; the ends of a prefix hold just the keys that they should; and
 * nothing is written beyond a key or a capacity. */
#define _DEFAULT_SOURCE
#include "checks.h"
#include <pthread.h>
#include <time.h>

#define THREADS 8
#define LONGEST 400
#define ROOM (LONGEST * 64)

static uca_collator shared = UCA_CLOSED;
static time_t last_second;

struct run {
    uint64_t state, pairs, faulty, packed;
    pthread_t thread;
    uint8_t bytes[2 * LONGEST];
    uint8_t keys[6][ROOM];
};

static uint32_t next(struct run *run, uint32_t below) {
    run->state = run->state * 6364136223846793005u + 1442695040888963407u;
    return (uint32_t)((run->state >> 33) % below);
}

/* Code points of each kind that a quick way treats in its own manner. */
static const uint32_t starts[] = {
    0x61, 0x61, 0x61, 0x41, 0x20, 0x2D, 0x30, 0xE0, 0x300, 0x300, 0x323, 0x345, 0x3B1, 0x430, 0x5D0, 0x627, 0x915, 0x93F, 0xE40, 0xE01,
    0x1100, 0x1161, 0x11A8, 0x1EA0, 0x3042, 0x3099, 0x4E00, 0xAC00, 0xF900, 0xFB00, 0xFDFA, 0xFFFD, 0x10FFFF, 0x1D15E, 0x17000, 0x20000,
    0x2F800, 0x0, 0xFDD0, 0x1D165,
};

static uint8_t later(uint32_t bits) { return (uint8_t)(0x80 | (bits & 63)); }

static size_t put_point(uint32_t c, uint8_t *out) {
    size_t size = c < 0x80 ? 1 : c < 0x800 ? 2 : c < 0x10000 ? 3 : 4;
    static const uint8_t marks[] = {0, 0, 0xC0, 0xE0, 0xF0};
    out[0] = (uint8_t)(marks[size] | c >> 6 * (size - 1));
    for (size_t i = 1; i < size; i++) out[i] = later(c >> 6 * (size - 1 - i));
    return size;
}

/* A text of a few kinds of characters, now and then with a byte that is wrong. */
static size_t put_text(struct run *run, uint8_t *out, size_t capacity) {
    size_t size = 0, limit = next(run, 8) ? next(run, 24) : next(run, (uint32_t)capacity);
    uint32_t kinds[3];
    for (int i = 0; i < 3; i++) kinds[i] = starts[next(run, sizeof starts / sizeof *starts)];
    while (size < limit && size + 4 <= capacity) {
        uint32_t c = kinds[next(run, 3)] + (next(run, 2) ? next(run, 8) : next(run, 60));
        if (c > 0x10FFFF) c = 0x10FFFF;
        if (c >= 0xD800 && c < 0xE000) continue;
        size += put_point(c, out + size);
    }
    if (size && !next(run, 20)) out[next(run, (uint32_t)size)] ^= (uint8_t)(1 << next(run, 8));
    if (size && !next(run, 20)) size -= 1;
    return size;
}

static int sign(int order) { return (order > 0) - (order < 0); }

static int order_of(const uint8_t *a, size_t a_size, const uint8_t *b, size_t b_size) {
    int order = memcmp(a, b, a_size < b_size ? a_size : b_size);
    return order ? sign(order) : sign((a_size > b_size) - (a_size < b_size));
}

static int begins(const uint8_t *bytes, size_t size, const uint8_t *front, size_t front_size) {
    return size >= front_size && memcmp(bytes, front, front_size) == 0;
}

/* A key by a call over bytes, first into less than it takes. */
typedef uint32_t key_call(const uca_collator *, const uca_settings *, const uint8_t *, size_t, uint8_t *, size_t, size_t *, uca_fault *);
typedef uint32_t text_key_call(const uca_collator *, const uca_settings *, const uca_text *, uint8_t *, size_t, size_t *);

static size_t key_of(struct run *run, key_call *call, text_key_call *again, const uca_settings *settings, const uca_text *text,
                     uint8_t *out) {
    const uint8_t *bytes = text->private_bytes;
    size_t size = text->private_size, needed = 0, more = 0;
    uca_fault fault;
    uint8_t part[80];
    size_t capacity = next(run, 64);
    memset(part, 0xA5, sizeof part);
    CHECK(call(&shared, settings, bytes, size, out, ROOM, &needed, &fault) == UCA_OK && needed <= ROOM);
    CHECK(call(&shared, settings, bytes, size, part, capacity, &more, &fault) == UCA_OK && more == needed);
    size_t written = needed < capacity ? needed : capacity;
    CHECK(memcmp(part, out, written) == 0);
    for (size_t i = written; i < sizeof part; i++) CHECK(part[i] == 0xA5);
    memset(part, 0x5A, sizeof part);
    CHECK(again(&shared, settings, text, part, capacity, &more) == UCA_OK && more == needed && memcmp(part, out, written) == 0);
    for (size_t i = written; i < sizeof part; i++) CHECK(part[i] == 0x5A);
    return needed;
}

/* Two texts by each call, under one strength and option. */
static void check_pair(struct run *run, const uca_settings *settings, const uca_text *a, const uca_text *b) {
    uint8_t(*keys)[ROOM] = run->keys;
    const uint8_t *a_bytes = a->private_bytes, *b_bytes = b->private_bytes;
    size_t a_size = a->private_size, b_size = b->private_size, written;
    int32_t order = 9, other = 9, third = 9, back = 9;
    uint32_t level = 0;
    uca_fault fault;
    CHECK(uca_compare(&shared, settings, a_bytes, a_size, b_bytes, b_size, &order, &fault) == UCA_OK);
    CHECK(uca_compare(&shared, settings, b_bytes, b_size, a_bytes, a_size, &back, &fault) == UCA_OK && back == -order);
    CHECK(uca_compare_texts(&shared, settings, a, b, &other) == UCA_OK && other == order);
    CHECK(uca_compare_levels(&shared, settings, a_bytes, a_size, b_bytes, b_size, &third, &level, &fault) == UCA_OK && third == order);
    CHECK(level >= 1 && level <= settings->strength);
    size_t a_key = key_of(run, uca_sort_key, uca_sort_key_of, settings, a, keys[0]);
    size_t b_key = key_of(run, uca_sort_key, uca_sort_key_of, settings, b, keys[1]);
    CHECK(order_of(keys[0], a_key, keys[1], b_key) == order);
    CHECK(uca_write_key(&shared, settings, a_bytes, a_size, keys[2], ROOM, &written, &fault) == UCA_OK && written == a_key);
    CHECK(memcmp(keys[2], keys[0], a_key) == 0);
    size_t a_packed = key_of(run, uca_packed_key, uca_packed_key_of, settings, a, keys[2]);
    size_t b_packed = key_of(run, uca_packed_key, uca_packed_key_of, settings, b, keys[3]);
    CHECK(order_of(keys[2], a_packed, keys[3], b_packed) == order);
    run->packed += a_packed + b_packed;
    uca_settings lower = *settings;
    lower.strength = 1 + next(run, settings->strength);
    size_t low = key_of(run, uca_packed_key, uca_packed_key_of, &lower, a, keys[4]);
    CHECK(begins(keys[2], a_packed, keys[4], low));
    size_t low_key = key_of(run, uca_sort_key, uca_sort_key_of, &lower, a, keys[4]);
    CHECK(begins(keys[0], a_key, keys[4], low_key));
}

typedef uint32_t bounds_call(const uca_collator *, const uca_settings *, const uint8_t *, size_t, uint8_t *, size_t, uint8_t *, size_t,
                             size_t *, size_t *, uca_fault *);

/* Whether a key is in the range of a prefix. */
static int is_within(struct run *run, bounds_call *call, const uca_settings *settings, const uca_text *prefix, const uint8_t *key,
                     size_t size) {
    const uint8_t *bytes = prefix->private_bytes;
    size_t lower, upper;
    uca_fault fault;
    CHECK(call(&shared, settings, bytes, prefix->private_size, run->keys[4], ROOM, run->keys[5], ROOM, &lower, &upper, &fault) == UCA_OK);
    return order_of(key, size, run->keys[4], lower) >= 0 && (upper == 0 || order_of(key, size, run->keys[5], upper) < 0);
}

/* The ranges of a prefix hold just the keys of texts whose primary weights begin with its own. */
static void check_prefix(struct run *run, const uca_settings *settings, const uca_text *prefix, const uca_text *text, int is_longer) {
    uint8_t(*keys)[ROOM] = run->keys;
    uca_settings primary = *settings;
    uca_fault fault;
    uint32_t complete = 9;
    primary.strength = UCA_PRIMARY;
    size_t front = key_of(run, uca_sort_key, uca_sort_key_of, &primary, prefix, keys[0]);
    size_t whole = key_of(run, uca_sort_key, uca_sort_key_of, &primary, text, keys[1]);
    int inside = begins(keys[1], whole, keys[0], front);
    size_t key = key_of(run, uca_sort_key, uca_sort_key_of, settings, text, keys[2]);
    CHECK(is_within(run, uca_prefix_bounds, settings, prefix, keys[2], key) == inside);
    key = key_of(run, uca_packed_key, uca_packed_key_of, settings, text, keys[2]);
    CHECK(is_within(run, uca_packed_prefix_bounds, settings, prefix, keys[2], key) == inside);
    CHECK(uca_is_complete(&shared, prefix->private_bytes, prefix->private_size, &complete, &fault) == UCA_OK && complete <= 1);
    CHECK(!is_longer || !complete || inside);
}

/* Bytes that are no text: every call reports the same fault, and writes nothing. */
static void check_faulty(const uca_settings *settings, const uint8_t *bytes, size_t size, uint32_t status, uint64_t at) {
    static const uint8_t other[] = {'a'};
    uca_fault fault;
    int32_t order = 9;
    size_t needed = 9, upper = 9;
    uint32_t complete = 9;
    uint8_t out[4] = {7, 7, 7, 7};
    CHECK(uca_compare(&shared, settings, bytes, size, other, 1, &order, &fault) == status && fault.text == 1 && fault.at == at);
    CHECK(uca_compare(&shared, settings, other, 1, bytes, size, &order, &fault) == status && fault.text == 2 && fault.at == at);
    CHECK(uca_sort_key(&shared, settings, bytes, size, out, 4, &needed, &fault) == status && fault.at == at);
    CHECK(uca_packed_key(&shared, settings, bytes, size, out, 4, &needed, &fault) == status && fault.at == at);
    CHECK(uca_write_key(&shared, settings, bytes, size, out, 4, &needed, &fault) == status && fault.at == at);
    CHECK(uca_prefix_bounds(&shared, settings, bytes, size, out, 2, out + 2, 2, &needed, &upper, &fault) == status && fault.at == at);
    CHECK(uca_packed_prefix_bounds(&shared, settings, bytes, size, out, 2, out + 2, 2, &needed, &upper, &fault) == status && fault.at == at);
    CHECK(uca_is_complete(&shared, bytes, size, &complete, &fault) == status && fault.at == at);
    CHECK(order == 9 && needed == 9 && upper == 9 && complete == 9 && memcmp(out, "\7\7\7\7", 4) == 0);
}

static void check_settings(struct run *run, const uint8_t *bytes, size_t size) {
    uca_settings settings = UCA_TERTIARY_SETTINGS;
    uca_fault fault;
    int32_t order = 9;
    size_t needed = 9;
    uint8_t out[2] = {7, 7};
    switch (next(run, 3)) {
    case 0: settings.strength = next(run, 2) ? 0 : 6 + next(run, 1000); break;
    case 1: settings.variable = 3 + next(run, 1000); break;
    default: settings.reserved[next(run, 6)] = 1u << next(run, 32);
    }
    CHECK(uca_compare(&shared, &settings, bytes, size, bytes, size, &order, &fault) == UCA_BAD_SETTINGS && order == 9);
    CHECK(uca_packed_key(&shared, &settings, bytes, size, out, 2, &needed, &fault) == UCA_BAD_SETTINGS && needed == 9 && out[0] == 7);
}

static void one_round(struct run *run) {
    uca_settings settings = UCA_SETTINGS(1 + next(run, 5), next(run, 3));
    uca_text a, b, both;
    uca_fault fault, other;
    /* The second text begins within the first, now and then, or is beside it. */
    size_t a_size = put_text(run, run->bytes, LONGEST);
    size_t b_at = next(run, 4) ? a_size : next(run, (uint32_t)a_size + 1);
    size_t b_size = b_at < a_size ? a_size - b_at : put_text(run, run->bytes + b_at, LONGEST);
    uint32_t a_status = uca_text_of(run->bytes, a_size, &a, &fault), b_status = uca_text_of(run->bytes + b_at, b_size, &b, &other);
    CHECK(uca_check(run->bytes, a_size, &other) == a_status && other.at == fault.at);
    if (!next(run, 50)) check_settings(run, run->bytes, a_size);
    run->pairs += 1;
    if (a_status != UCA_OK) {
        run->faulty += 1;
        check_faulty(&settings, run->bytes, a_size, a_status, fault.at);
        return;
    }
    if (b_status != UCA_OK) return;
    check_pair(run, &settings, &a, &b);
    check_prefix(run, &settings, &a, &b, 0);
    if (b_at == a_size && uca_text_of(run->bytes, a_size + b_size, &both, &fault) == UCA_OK) check_prefix(run, &settings, &a, &both, 1);
}

static void *runs(void *argument) {
    while (time(NULL) < last_second) one_round(argument);
    return NULL;
}

static uint8_t *read_file(const char *name, size_t *size) {
    FILE *file = fopen(name, "rb");
    if (!file) exit(2);
    fseek(file, 0, SEEK_END);
    *size = (size_t)ftell(file);
    rewind(file);
    uint8_t *bytes = malloc(*size + 1);
    if (!bytes || fread(bytes, 1, *size, file) != *size) exit(2);
    fclose(file);
    return bytes;
}

int main(int count, char **words) {
    static struct run all[THREADS];
    uca_fault fault;
    uint64_t pairs = 0, faulty = 0, packed = 0;
    size_t table_size, rules_size = 0;
    if (count < 3) return 2;
    if (count == 3) {
        open_small(&shared);
    } else {
        uint8_t *table = read_file(words[3], &table_size), *rules = count > 4 ? read_file(words[4], &rules_size) : NULL;
        if (uca_open(&shared, table, table_size, rules, rules_size, &fault) != UCA_OK) return 2;
        free(table), free(rules);
    }
    last_second = time(NULL) + atol(words[1]);
    for (int i = 0; i < THREADS; i++) {
        all[i].state = (uint64_t)atoll(words[2]) * THREADS + (uint64_t)i;
        if (pthread_create(&all[i].thread, NULL, runs, &all[i])) return 2;
    }
    for (int i = 0; i < THREADS; i++) {
        pthread_join(all[i].thread, NULL);
        pairs += all[i].pairs, faulty += all[i].faulty, packed += all[i].packed;
    }
    printf("%llu pairs, %llu of them faulty, %llu bytes of packed keys: %d checks failed\n", (unsigned long long)pairs,
           (unsigned long long)faulty, (unsigned long long)packed, failed_checks);
    uca_close(&shared);
    return failed_checks != 0;
}
