/* Every function of the C library, every status and every kind; sizes and offsets of the types that cross the boundary. */
#include "checks.h"

#define SAME_FAULT(kind_, text_, at_) CHECK(fault.kind == (kind_) && fault.text == (text_) && fault.at == (at_))

static void layout(void) {
    CHECK(sizeof(uca_collator) == 16 && offsetof(uca_collator, private_table) == 0 && offsetof(uca_collator, private_is_open) == 8);
    CHECK(sizeof(uca_fault) == 16 && offsetof(uca_fault, kind) == 0 && offsetof(uca_fault, text) == 4 && offsetof(uca_fault, at) == 8);
    CHECK(sizeof(uca_settings) == 32 && offsetof(uca_settings, strength) == 0 && offsetof(uca_settings, variable) == 4);
    CHECK(offsetof(uca_settings, reserved) == 8 && sizeof(uca_digest) == 32);
    CHECK(UCA_OK == 0 && UCA_NOT_UTF8 == 1 && UCA_LONG_RUN == 2 && UCA_NOT_OPEN == 3 && UCA_BAD_SETTINGS == 4 && UCA_NO_MEMORY == 5);
    CHECK(UCA_BAD_TABLE == 6 && UCA_BAD_RULES == 7 && UCA_BAD_TAILORING == 8 && UCA_INCOMPLETE == 9);
    CHECK(sizeof(uca_text) == 16 && offsetof(uca_text, private_bytes) == 0 && offsetof(uca_text, private_size) == 8);
}

/* Each number has its own name, and unknown numbers have a name that says so. */
static void names(void) {
    static const uint32_t last_kinds[] = {UCA_TABLE_TOO_LARGE, UCA_RULES_NOT_UTF8, UCA_TAILOR_TOO_MANY_ELEMENTS};
    CHECK(strcmp(uca_status_name(UCA_OK), "ok") == 0 && strcmp(uca_status_name(UCA_INCOMPLETE), "incomplete text") == 0);
    for (uint32_t status = 0; status < 20; status++) {
        CHECK((strcmp(uca_status_name(status), "unknown status") == 0) == (status > UCA_INCOMPLETE));
        for (uint32_t other = 0; other < status && status <= UCA_INCOMPLETE; other++) CHECK(strcmp(uca_status_name(status), uca_status_name(other)) != 0);
    }
    CHECK(strcmp(uca_kind_name(UCA_NO_KIND), "no kind") == 0 && strcmp(uca_kind_name(UCA_RULES_EMPTY_STRING), "empty string") == 0);
    for (uint32_t kind = 0; kind < 100; kind++) {
        int is_known = kind % 20 == 0 ? kind == 0 : kind < 60 && kind <= last_kinds[kind / 20];
        CHECK((strcmp(uca_kind_name(kind), "unknown kind") != 0) == is_known);
    }
    CHECK(strcmp(uca_status_name(UINT32_MAX), "unknown status") == 0 && strcmp(uca_kind_name(UINT32_MAX), "unknown kind") == 0);
}

/* Lines and columns of bytes, including those in characters of two to four bytes, in invalid UTF-8, and past the end. */
static void locating(void) {
    static const char text[] = "a\xC3\xA1" "b\n\n\xF0\x9F\x98\x80\r\nx\xFF\x80y";
    static const uint64_t places[][2] = {{1, 1}, {1, 2}, {1, 3}, {1, 3}, {1, 4}, {2, 1}, {3, 1}, {3, 2}, {3, 2}, {3, 2}, {3, 2}, {3, 3},
                                         {4, 1}, {4, 2}, {4, 3}, {4, 3}, {4, 4}, {4, 4}};
    uint64_t line, column;
    for (uint64_t at = 0; at < sizeof places / sizeof places[0]; at++) {
        uca_locate(TEXT(text), at, &line, &column);
        if (line != places[at][0] || column != places[at][1]) fprintf(stderr, "byte %u:\n", (unsigned)at);
        CHECK(line == places[at][0] && column == places[at][1]);
    }
    uca_locate(TEXT(text), UINT64_MAX, &line, &column);
    CHECK(line == 4 && column == 4);
    uca_locate(NULL, 0, 7, &line, &column);
    CHECK(line == 1 && column == 1);
    static const char rules[] = "&z<\xC3\xA5\n<<<\xC3\x85<";
    uca_collator collator = UCA_CLOSED;
    uca_fault fault;
    CHECK(uca_open(&collator, TEXT(small_table), TEXT(rules), &fault) == UCA_BAD_RULES && fault.kind == UCA_RULES_EMPTY_STRING);
    uca_locate(TEXT(rules), fault.at, &line, &column);
    CHECK(line == 2 && column == 6);
}

static void versions(void) {
    CHECK(uca_version() == UCA_VERSION);
    CHECK(uca_unicode_version() == 0x120000);
}

static void checking(void) {
    static const struct { const char *text; size_t size; uint32_t status; uint64_t at; } cases[] = {
        {"", 0, UCA_OK, 0}, {"a\xC3\xA1", 3, UCA_OK, 0}, {"ab\xFF", 3, UCA_NOT_UTF8, 2}, {"a\xC3", 2, UCA_NOT_UTF8, 1},
        {"a\0b", 3, UCA_OK, 0},
    };
    uca_fault fault;
    for (size_t i = 0; i < sizeof cases / sizeof cases[0]; i++) {
        memset(&fault, 0xEE, sizeof fault);
        CHECK(uca_check((const uint8_t *)cases[i].text, cases[i].size, &fault) == cases[i].status);
        SAME_FAULT(0, cases[i].status != UCA_OK, cases[i].at);
    }
    char run[1 + 2 * 61] = "a";
    for (int i = 0; i < 61; i++) memcpy(run + 1 + 2 * i, "\xCC\x81", 2);
    CHECK(uca_check((uint8_t *)run, 121, &fault) == UCA_OK);
    CHECK(uca_check((uint8_t *)run, 123, &fault) == UCA_LONG_RUN);
    SAME_FAULT(0, 1, 121);
    CHECK(uca_check(NULL, 0, &fault) == UCA_OK);
}

static void comparing(void) {
    static const struct { const char *a, *b; uint32_t strength, variable; int32_t order; } cases[] = {
        {"a", "b", 1, 0, -1}, {"b", "a", 3, 0, 1}, {"a", "A", 2, 0, 0}, {"a", "A", 3, 0, -1}, {"a\xCC\x81", "\xC3\xA1", 5, 0, 0},
        {"a", "\xC3\xA1", 1, 0, 0}, {"a", "\xC3\xA1", 2, 0, -1}, {"ch", "cz", 1, 0, 1}, {"a b", "ab", 4, 2, -1},
        {"a b", "ab", 3, 1, 0}, {"a b", "ab", 3, 0, -1}, {"", "", 3, 0, 0}, {"", "a", 3, 0, -1},
    };
    uca_collator collator = UCA_CLOSED;
    uca_fault fault;
    int32_t order;
    open_small(&collator);
    for (size_t i = 0; i < sizeof cases / sizeof cases[0]; i++) {
        uca_settings settings = UCA_SETTINGS(cases[i].strength, cases[i].variable);
        const uint8_t *a = (const uint8_t *)cases[i].a, *b = (const uint8_t *)cases[i].b;
        order = 9;
        CHECK(uca_compare(&collator, &settings, a, strlen(cases[i].a), b, strlen(cases[i].b), &order, &fault) == UCA_OK);
        if (order != cases[i].order) fprintf(stderr, "%s, %s at %u:\n", cases[i].a, cases[i].b, cases[i].strength);
        CHECK(order == cases[i].order);
        SAME_FAULT(0, 0, 0);
    }
    uca_settings settings = UCA_TERTIARY_SETTINGS;
    order = 9;
    CHECK(uca_compare(&collator, &settings, TEXT("a\xFF"), TEXT("\xFF"), &order, &fault) == UCA_NOT_UTF8);
    SAME_FAULT(0, 1, 1);
    CHECK(uca_compare(&collator, &settings, TEXT("a"), TEXT("\xFF"), &order, &fault) == UCA_NOT_UTF8);
    SAME_FAULT(0, 2, 0);
    char run[2 * 61];
    for (int i = 0; i < 61; i++) memcpy(run + 2 * i, "\xCC\x81", 2);
    CHECK(uca_compare(&collator, &settings, TEXT("a"), (uint8_t *)run, sizeof run, &order, &fault) == UCA_LONG_RUN);
    SAME_FAULT(0, 2, 120);
    CHECK(order == 9);
    CHECK(uca_compare(&collator, &settings, NULL, 0, NULL, 0, &order, &fault) == UCA_OK && order == 0);
    uca_close(&collator);
    order = 9;
    CHECK(uca_compare(&collator, &settings, TEXT("a"), TEXT("\xFF"), &order, &fault) == UCA_NOT_OPEN && order == 9);
    SAME_FAULT(0, 0, 0);
}

static void settings(void) {
    uca_collator collator = UCA_CLOSED;
    uca_fault fault;
    uca_digest digest, before;
    uint8_t out[8];
    size_t needed = 77;
    int32_t order = 9;
    open_small(&collator);
    uca_settings refused[4] = {UCA_SETTINGS(0, 0), UCA_SETTINGS(6, 0), UCA_SETTINGS(3, 3), UCA_TERTIARY_SETTINGS};
    refused[3].reserved[5] = 1;
    memset(&digest, 0xEE, sizeof digest);
    before = digest;
    for (int i = 0; i < 4; i++) {
        CHECK(uca_compare(&collator, &refused[i], TEXT("a"), TEXT("b"), &order, &fault) == UCA_BAD_SETTINGS && order == 9);
        SAME_FAULT(0, 0, 0);
        memset(&fault, 0xEE, sizeof fault);
        CHECK(uca_sort_key(&collator, &refused[i], TEXT("a"), out, sizeof out, &needed, &fault) == UCA_BAD_SETTINGS && needed == 77);
        SAME_FAULT(0, 0, 0);
        memset(&fault, 0xEE, sizeof fault);
        CHECK(uca_packed_key(&collator, &refused[i], TEXT("a"), out, sizeof out, &needed, &fault) == UCA_BAD_SETTINGS && needed == 77);
        SAME_FAULT(0, 0, 0);
        memset(&fault, 0xEE, sizeof fault);
        CHECK(uca_write_key(&collator, &refused[i], TEXT("a"), out, sizeof out, &needed, &fault) == UCA_BAD_SETTINGS && needed == 77);
        SAME_FAULT(0, 0, 0);
        CHECK(uca_fingerprint(&collator, &refused[i], &digest) == UCA_BAD_SETTINGS);
        CHECK(memcmp(&digest, &before, sizeof digest) == 0);
    }
    uca_close(&collator);
}

/* A call that makes a key: uca_sort_key, uca_packed_key or uca_write_key. */
typedef uint32_t key_call(const uca_collator *, const uca_settings *, const uint8_t *, size_t, uint8_t *, size_t, size_t *, uca_fault *);

static const uint8_t sort_key[] = {0x10, 0, 0x10, 1, 0, 0, 0, 0x20, 0, 0x24, 0, 0x20, 0, 0, 0, 2, 0, 2, 0, 2};
static const uint8_t packed_key[] = {0x13, 0, 0x13, 1, 0, 0xBD, 2, 6};

/* The key of a text of two letters with a mark, and the length of the key of one letter. */
static void keys(key_call *makes_key, const uint8_t *key, size_t key_size, size_t size_of_a) {
    uca_settings settings = UCA_TERTIARY_SETTINGS;
    uca_collator collator = UCA_CLOSED;
    uca_fault fault;
    uint8_t out[64];
    open_small(&collator);
    for (size_t capacity = 0; capacity <= sizeof out; capacity++) {
        size_t needed = 0, fits = capacity < key_size ? capacity : key_size;
        memset(out, 0xEE, sizeof out);
        CHECK(makes_key(&collator, &settings, TEXT("\xC3\xA1" "b"), out, capacity, &needed, &fault) == UCA_OK);
        CHECK(needed == key_size && memcmp(out, key, fits) == 0);
        for (size_t i = fits; i < sizeof out; i++) CHECK(out[i] == 0xEE);
    }
    size_t needed = 0;
    CHECK(makes_key(&collator, &settings, TEXT("a"), NULL, 0, &needed, &fault) == UCA_OK && needed == size_of_a);
    memset(out, 0xEE, sizeof out);
    CHECK(makes_key(&collator, &settings, TEXT("a\xFF"), out, sizeof out, &needed, &fault) == UCA_NOT_UTF8 && needed == size_of_a);
    SAME_FAULT(0, 1, 1);
    CHECK(out[0] == 0xEE);
    uca_close(&collator);
    CHECK(makes_key(&collator, &settings, TEXT("a"), out, sizeof out, &needed, &fault) == UCA_NOT_OPEN && needed == size_of_a);
    SAME_FAULT(0, 0, 0);
}

/* uca_sort_key and uca_write_key make the same key of a text, at each strength and under each option. */
static void same_keys(void) {
    static const char *const texts[] = {"", "a", "A b", "\xC3\xA1" "b", "ch", "Chch a\xCC\x81\xCC\xA3", "\xEF\xB7\xBA", "\xE4\xB8\x80 z", "\xCC\x81"};
    uca_collator collator = UCA_CLOSED;
    uca_fault fault;
    open_small(&collator);
    for (size_t i = 0; i < sizeof texts / sizeof texts[0]; i++) {
        for (uint32_t number = 0; number < 15; number++) {
            uca_settings settings = UCA_SETTINGS(1 + number / 3, number % 3);
            uint8_t out[2][512];
            size_t needed[2] = {0, 1};
            CHECK(uca_sort_key(&collator, &settings, (uint8_t *)texts[i], strlen(texts[i]), out[0], sizeof out[0], &needed[0], &fault) == UCA_OK);
            CHECK(uca_write_key(&collator, &settings, (uint8_t *)texts[i], strlen(texts[i]), out[1], sizeof out[1], &needed[1], &fault) == UCA_OK);
            CHECK(needed[0] <= sizeof out[0] && needed[0] == needed[1] && memcmp(out[0], out[1], needed[0]) == 0);
        }
    }
    uca_close(&collator);
}

static int order_of(const uint8_t *a, size_t a_size, const uint8_t *b, size_t b_size) {
    int order = memcmp(a, b, a_size < b_size ? a_size : b_size);
    return order ? (order > 0) - (order < 0) : (a_size > b_size) - (a_size < b_size);
}

/* Packed keys are in the order that uca_compare gives, at each strength and under each option. Each is the beginning of that at the next
 * strength, and at the first one it is the lower end of uca_packed_prefix_bounds and a byte 0. */
static void packed_keys(void) {
    static const char *const texts[] = {"", "a", "A", "a b", "ab", "aB", "a\xCC\x81", "\xC3\xA1" "b", "ch", "cz", "Chch", "\xE4\xB8\x80 z", "\xCC\x81", "b",
        "aaaaaaaaaaaaaaaaaaaaaaaaaaaaaaaaaaaaaaaaaaaaaaaaaaaaaaaaaaaaaaaaaaaaaaaaaaaaaaaaaaaaaaaaaaaaaaaaaaaa",
        "aaaaaaaaaaaaaaaaaaaaaaaaaaaaaaaaaaaaaaaaaaaaaaaaaaaaaaaaaaaaaaaaaaaaaaaaaaaaaaaaaaaaaaaaaaaaaaaaaaaA"};
    enum { COUNT = sizeof texts / sizeof texts[0] };
    uca_collator collator = UCA_CLOSED;
    uca_fault fault;
    open_small(&collator);
    for (uint32_t number = 0; number < 15; number++) {
        uca_settings settings = UCA_SETTINGS(1 + number / 3, number % 3);
        uint8_t out[COUNT][1024];
        uint8_t higher[1024], lower[1024];
        size_t needed[COUNT], higher_size, lower_size, upper_size;
        for (size_t i = 0; i < COUNT; i++) {
            const uint8_t *text = (uint8_t *)texts[i];
            size_t size = strlen(texts[i]);
            CHECK(uca_packed_key(&collator, &settings, text, size, out[i], sizeof out[i], &needed[i], &fault) == UCA_OK);
            CHECK(needed[i] <= sizeof out[i]);
            CHECK(uca_packed_prefix_bounds(&collator, &settings, text, size, lower, sizeof lower, NULL, 0, &lower_size, &upper_size, &fault) == UCA_OK);
            CHECK(lower_size < needed[i] && memcmp(lower, out[i], lower_size) == 0 && out[i][lower_size] == 0);
            CHECK(settings.strength != UCA_PRIMARY || lower_size + 1 == needed[i]);
            if (settings.strength == UCA_IDENTICAL) continue;
            settings.strength++;
            CHECK(uca_packed_key(&collator, &settings, text, size, higher, sizeof higher, &higher_size, &fault) == UCA_OK);
            CHECK(needed[i] <= higher_size && memcmp(out[i], higher, needed[i]) == 0);
            settings.strength--;
        }
        for (size_t i = 0; i < COUNT; i++) {
            for (size_t j = 0; j < COUNT; j++) {
                int32_t order = 9;
                CHECK(uca_compare(&collator, &settings, (uint8_t *)texts[i], strlen(texts[i]), (uint8_t *)texts[j], strlen(texts[j]), &order, &fault) == UCA_OK);
                CHECK(order == order_of(out[i], needed[i], out[j], needed[j]));
            }
        }
    }
    uca_close(&collator);
}

/* A call that gives the ends of a range: uca_prefix_bounds or uca_packed_prefix_bounds. */
typedef uint32_t bounds_call(const uca_collator *, const uca_settings *, const uint8_t *, size_t, uint8_t *, size_t, uint8_t *, size_t, size_t *, size_t *, uca_fault *);

/* The ends of the range of a text, under the small table or one with primary weights that end in FF. */
struct ends {
    const char *text, *lower, *upper;
    size_t lower_size, upper_size;
    int variable, is_full;
};

#define COUNT_OF_ENDS 12

static const struct ends sort_ends[COUNT_OF_ENDS] = {
    {"", "", "", 0, 0, 0, 0}, {"a", "\x10\0", "\x10\1", 2, 2, 0, 0}, {"\xC3\xA1", "\x10\0", "\x10\1", 2, 2, 0, 0},
    {"ch", "\x10\3", "\x10\4", 2, 2, 0, 0}, {"c", "\x10\2", "\x10\3", 2, 2, 0, 0}, {"ac", "\x10\0\x10\2", "\x10\0\x10\3", 4, 4, 0, 0},
    {"A b", "\x10\0\2\1\x10\1", "\x10\0\2\1\x10\2", 6, 6, 0, 0},
    {"A b", "\x10\0\x10\1", "\x10\0\x10\2", 4, 4, 2, 0}, {" ", "", "", 0, 0, 1, 0},
    {"a", "\x10\xFF", "\x11", 2, 1, 0, 1}, {"a\xC9\x90", "\x10\xFF\xFF\xFF", "\x11", 4, 1, 0, 1},
    {"\xC9\x90\xC9\x90", "\xFF\xFF\xFF\xFF", "", 4, 0, 0, 1},
};

/* Under the small table no window has a letter, and a space has a byte of its own. The other one has its digit and its letter `a` in the
 * first window. */
static const struct ends packed_ends[COUNT_OF_ENDS] = {
    {"", "", "", 0, 0, 0, 0}, {"a", "\x13\0", "\x13\1", 2, 2, 0, 0}, {"\xC3\xA1", "\x13\0", "\x13\1", 2, 2, 0, 0},
    {"ch", "\x13\3", "\x13\4", 2, 2, 0, 0}, {"c", "\x13\2", "\x13\3", 2, 2, 0, 0}, {"ac", "\x13\0\x13\2", "\x13\0\x13\3", 4, 4, 0, 0},
    {"A b", "\x13\0\4\x13\1", "\x13\0\4\x13\2", 5, 5, 0, 0},
    {"A b", "\x13\0\x13\1", "\x13\0\x13\2", 4, 4, 2, 0}, {" ", "", "", 0, 0, 1, 0},
    {"a", "\x14", "\x15", 1, 1, 0, 1}, {"a\xC9\x90", "\x14\xFF\xFF\xFF", "\x15", 4, 1, 0, 1},
    {"\xC9\x90", "\xFF\xFF\xFF", "", 3, 0, 0, 1},
};

static void bounds(bounds_call *bounds_of, key_call *makes_key, const struct ends *cases) {
    /* It has a primary weight that ends in FF, and one that is FFFF. */
    static const char full_table[] = "0030 ; [.1000.0020.0002]\n0061 ; [.10FF.0020.0002]\n0250 ; [.FFFF.0020.0002]\n";
    /* Texts that begin with `ac`: `ch` is a letter of its own, so texts with it are outside. */
    static const struct { const char *text; int is_inside; } followers[] = {
        {"ac", 1}, {"aca", 1}, {"ac\xCC\x81", 1}, {"acc", 1}, {"ach", 0}, {"acho", 0}, {"ac\xCC\x81h", 1}};
    uca_collator small = UCA_CLOSED, full = UCA_CLOSED;
    uca_fault fault;
    uint8_t lower[8], upper[8];
    size_t lower_size, upper_size;
    open_small(&small);
    CHECK(uca_open(&full, TEXT(full_table), NULL, 0, &fault) == UCA_OK);
    for (size_t i = 0; i < COUNT_OF_ENDS; i++) {
        uca_settings settings = UCA_SETTINGS(UCA_IDENTICAL, cases[i].variable);
        const uint8_t *text = (const uint8_t *)cases[i].text;
        for (size_t capacity = 0; capacity <= sizeof lower; capacity++) {
            size_t room = sizeof upper - capacity;
            size_t of_lower = capacity < cases[i].lower_size ? capacity : cases[i].lower_size;
            size_t of_upper = room < cases[i].upper_size ? room : cases[i].upper_size;
            memset(lower, 0xEE, sizeof lower);
            memset(upper, 0xEE, sizeof upper);
            CHECK(bounds_of(cases[i].is_full ? &full : &small, &settings, text, strlen(cases[i].text), lower, capacity, upper, room,
                                    &lower_size, &upper_size, &fault) == UCA_OK);
            SAME_FAULT(0, 0, 0);
            CHECK(lower_size == cases[i].lower_size && memcmp(lower, cases[i].lower, of_lower) == 0);
            CHECK(upper_size == cases[i].upper_size && memcmp(upper, cases[i].upper, of_upper) == 0);
            for (size_t at = of_lower; at < sizeof lower; at++) CHECK(lower[at] == 0xEE);
            for (size_t at = of_upper; at < sizeof upper; at++) CHECK(upper[at] == 0xEE);
        }
    }
    uca_settings settings = UCA_TERTIARY_SETTINGS;
    CHECK(bounds_of(&small, &settings, TEXT("ab"), NULL, 0, NULL, 0, &lower_size, &upper_size, &fault) == UCA_OK);
    CHECK(lower_size == 4 && upper_size == 4);
    CHECK(bounds_of(&small, &settings, TEXT("ac"), lower, 8, upper, 8, &lower_size, &upper_size, &fault) == UCA_OK);
    for (size_t i = 0; i < sizeof followers / sizeof followers[0]; i++) {
        uint8_t key[64];
        size_t size;
        CHECK(makes_key(&small, &settings, (const uint8_t *)followers[i].text, strlen(followers[i].text), key, sizeof key, &size, &fault) == UCA_OK);
        CHECK((memcmp(key, lower, 4) >= 0 && memcmp(key, upper, 4) < 0) == followers[i].is_inside);
    }
    memset(lower, 0xEE, sizeof lower);
    memset(upper, 0xEE, sizeof upper);
    CHECK(bounds_of(&small, &settings, TEXT("a\xFF"), lower, 8, upper, 8, &lower_size, &upper_size, &fault) == UCA_NOT_UTF8);
    SAME_FAULT(0, 1, 1);
    char run[2 * 61];
    for (int i = 0; i < 61; i++) memcpy(run + 2 * i, "\xCC\x81", 2);
    CHECK(bounds_of(&small, &settings, (uint8_t *)run, sizeof run, lower, 8, upper, 8, &lower_size, &upper_size, &fault) == UCA_LONG_RUN);
    SAME_FAULT(0, 1, 120);
    uca_settings refused = UCA_SETTINGS(UCA_TERTIARY, 3);
    CHECK(bounds_of(&small, &refused, TEXT("a"), lower, 8, upper, 8, &lower_size, &upper_size, &fault) == UCA_BAD_SETTINGS);
    SAME_FAULT(0, 0, 0);
    uca_close(&small);
    uca_close(&full);
    CHECK(bounds_of(&small, &settings, TEXT("a"), lower, 8, upper, 8, &lower_size, &upper_size, &fault) == UCA_NOT_OPEN);
    SAME_FAULT(0, 0, 0);
    CHECK(lower[0] == 0xEE && upper[0] == 0xEE && lower_size == 4 && upper_size == 4);
}

/* Whether a text is complete: `c` is not, since `ch` is a letter. */
static void completeness(void) {
    static const struct { const char *text; uint32_t complete; } cases[] = {
        {"", 1}, {"a", 1}, {"ab", 1}, {"c", 0}, {"ac", 0}, {"ch", 1}, {"acc", 0}, {"ca", 1}};
    uca_collator collator = UCA_CLOSED;
    uca_fault fault;
    uint32_t complete = 9;
    CHECK(uca_is_complete(&collator, TEXT("a"), &complete, &fault) == UCA_NOT_OPEN && complete == 9);
    SAME_FAULT(0, 0, 0);
    open_small(&collator);
    for (size_t i = 0; i < sizeof cases / sizeof cases[0]; i++) {
        complete = 9;
        CHECK(uca_is_complete(&collator, (const uint8_t *)cases[i].text, strlen(cases[i].text), &complete, &fault) == UCA_OK);
        if (complete != cases[i].complete) fprintf(stderr, "%s:\n", cases[i].text);
        CHECK(complete == cases[i].complete);
        SAME_FAULT(0, 0, 0);
    }
    complete = 9;
    CHECK(uca_is_complete(&collator, TEXT("a\xFF"), &complete, &fault) == UCA_NOT_UTF8 && complete == 9);
    SAME_FAULT(0, 1, 1);
    uca_close(&collator);
}

/* A text that was checked once has the order and the keys of its bytes, at each strength and under each option. */
static void texts(void) {
    static const char *const words[] = {"", "a", "A", "a b", "\xC3\xA1" "b", "ch", "cz", "Chch a\xCC\x81\xCC\xA3", "\xE4\xB8\x80 z", "\xCC\x81"};
    enum { COUNT = sizeof words / sizeof words[0] };
    uca_collator collator = UCA_CLOSED;
    uca_settings tertiary = UCA_TERTIARY_SETTINGS, refused = UCA_SETTINGS(UCA_TERTIARY, 3);
    uca_text made[COUNT], empty = UCA_EMPTY_TEXT, kept;
    uca_fault fault;
    int32_t order = 9, expected;
    uint8_t out[64];
    size_t needed = 77;
    for (size_t i = 0; i < COUNT; i++) {
        memset(&fault, 0xEE, sizeof fault);
        CHECK(uca_text_of((const uint8_t *)words[i], strlen(words[i]), &made[i], &fault) == UCA_OK);
        SAME_FAULT(0, 0, 0);
    }
    kept = made[1];
    CHECK(uca_text_of(TEXT("ab\xFF"), &kept, &fault) == UCA_NOT_UTF8 && memcmp(&kept, &made[1], sizeof kept) == 0);
    SAME_FAULT(0, 1, 2);
    CHECK(uca_text_of(NULL, 0, &kept, &fault) == UCA_OK);
    CHECK(uca_compare_texts(&collator, &tertiary, &made[1], &made[5], &order) == UCA_NOT_OPEN && order == 9);
    CHECK(uca_sort_key_of(&collator, &tertiary, &made[1], out, sizeof out, &needed) == UCA_NOT_OPEN && needed == 77);
    open_small(&collator);
    CHECK(uca_compare_texts(&collator, &refused, &made[1], &made[5], &order) == UCA_BAD_SETTINGS && order == 9);
    CHECK(uca_sort_key_of(&collator, &refused, &made[1], out, sizeof out, &needed) == UCA_BAD_SETTINGS && needed == 77);
    CHECK(uca_packed_key_of(&collator, &refused, &made[1], out, sizeof out, &needed) == UCA_BAD_SETTINGS && needed == 77);
    CHECK(uca_compare_texts(&collator, &tertiary, &empty, &kept, &order) == UCA_OK && order == 0);
    CHECK(uca_compare_texts(&collator, &tertiary, &empty, &made[1], &order) == UCA_OK && order == -1);
    for (uint32_t number = 0; number < 15; number++) {
        uca_settings settings = UCA_SETTINGS(1 + number / 3, number % 3);
        for (size_t i = 0; i < COUNT; i++) {
            for (size_t j = 0; j < COUNT; j++) {
                order = 9;
                CHECK(uca_compare(&collator, &settings, (uint8_t *)words[i], strlen(words[i]), (uint8_t *)words[j], strlen(words[j]), &expected, &fault) == UCA_OK);
                CHECK(uca_compare_texts(&collator, &settings, &made[i], &made[j], &order) == UCA_OK && order == expected);
            }
            for (int packed = 0; packed < 2; packed++) {
                uint8_t found[2][512];
                size_t sizes[2] = {0, 1};
                CHECK((packed ? uca_packed_key : uca_sort_key)(&collator, &settings, (uint8_t *)words[i], strlen(words[i]), found[0], 512, &sizes[0], &fault) == UCA_OK);
                CHECK((packed ? uca_packed_key_of : uca_sort_key_of)(&collator, &settings, &made[i], found[1], 512, &sizes[1]) == UCA_OK);
                CHECK(sizes[0] == sizes[1] && memcmp(found[0], found[1], sizes[0]) == 0);
                memset(found[1], 0xEE, 8);
                CHECK((packed ? uca_packed_key_of : uca_sort_key_of)(&collator, &settings, &made[i], found[1], 2, &sizes[1]) == UCA_OK && sizes[0] == sizes[1]);
                CHECK(memcmp(found[0], found[1], sizes[0] < 2 ? sizes[0] : 2) == 0 && found[1][2] == 0xEE);
                CHECK((packed ? uca_packed_key_of : uca_sort_key_of)(&collator, &settings, &made[i], NULL, 0, &sizes[1]) == UCA_OK && sizes[0] == sizes[1]);
            }
        }
    }
    uca_close(&collator);
}

/* Each pointer to bytes or items may be null if there are none. */
static void nulls(void) {
    uca_settings settings = UCA_TERTIARY_SETTINGS;
    uca_collator collator = UCA_CLOSED;
    uca_matches_needed matches;
    uca_fault fault;
    size_t needed, upper;
    uint32_t level, complete = 9;
    int32_t order;
    CHECK(uca_open(&collator, NULL, 0, NULL, 0, &fault) == UCA_OK);
    CHECK(uca_compare_levels(&collator, &settings, NULL, 0, NULL, 0, &order, &level, &fault) == UCA_OK && order == 0 && level == 3);
    CHECK(uca_matches(&collator, NULL, 0, NULL, 0, NULL, 0, NULL, 0, &matches, &fault) == UCA_OK && matches.matches == 0);
    CHECK(uca_matches(&collator, TEXT("ab"), NULL, 0, NULL, 0, NULL, 0, &matches, &fault) == UCA_OK && matches.points == 2);
    CHECK(uca_sort_key(&collator, &settings, NULL, 0, NULL, 0, &needed, &fault) == UCA_OK && needed == 4);
    CHECK(uca_prefix_bounds(&collator, &settings, NULL, 0, NULL, 0, NULL, 0, &needed, &upper, &fault) == UCA_OK && needed == 0 && upper == 0);
    CHECK(uca_packed_prefix_bounds(&collator, &settings, NULL, 0, NULL, 0, NULL, 0, &needed, &upper, &fault) == UCA_OK && needed == 0 && upper == 0);
    CHECK(uca_packed_key(&collator, &settings, NULL, 0, NULL, 0, &needed, &fault) == UCA_OK && needed == 3);
    CHECK(uca_is_complete(&collator, NULL, 0, &complete, &fault) == UCA_OK && complete == 1);
    uca_close(&collator);
}

/* The digests are those of the canonical text of the table and of the settings, computed independently with sha256sum. */
static void fingerprints(const char *expected) {
    uca_settings settings = UCA_TERTIARY_SETTINGS, shifted = UCA_SETTINGS(UCA_TERTIARY, UCA_SHIFTED);
    uca_collator collator = UCA_CLOSED, other = UCA_CLOSED;
    uca_digest digest, again, of_shifted, of_other;
    uca_fault fault;
    char text[65];
    CHECK(uca_fingerprint(&collator, &settings, &digest) == UCA_NOT_OPEN);
    open_small(&collator);
    CHECK(uca_open(&other, TEXT(small_table), NULL, 0, &fault) == UCA_OK);
    CHECK(uca_fingerprint(&collator, &settings, &digest) == UCA_OK && uca_fingerprint(&collator, &settings, &again) == UCA_OK);
    CHECK(uca_fingerprint(&collator, &shifted, &of_shifted) == UCA_OK && uca_fingerprint(&other, &settings, &of_other) == UCA_OK);
    CHECK(memcmp(&digest, &again, sizeof digest) == 0 && memcmp(&digest, &of_shifted, sizeof digest) != 0);
    CHECK(memcmp(&digest, &of_other, sizeof digest) != 0);
    for (int i = 0; i < 32; i++) sprintf(text + 2 * i, "%02x", of_other.bytes[i]);
    if (expected) CHECK(strcmp(text, expected) == 0);
    uca_close(&collator);
    uca_close(&other);
}

static void opening(void) {
    static const struct { const char *table, *rules; uint32_t status, kind; uint64_t at; } cases[] = {
        {"0061 ; zzz\n", "", UCA_BAD_TABLE, UCA_TABLE_BAD_ELEMENT, 1},
        {"@version 17.0.0\n@variable shifted\n", "", UCA_BAD_TABLE, UCA_TABLE_BAD_DIRECTIVE, 2},
        {"61 ; [.1000.0020.0002]\n", "", UCA_BAD_TABLE, UCA_TABLE_BAD_CODE_POINT, 1},
        {"0061\n", "", UCA_BAD_TABLE, UCA_TABLE_NO_SEMICOLON, 1},
        {"\n0061 ;\n", "", UCA_BAD_TABLE, UCA_TABLE_NO_ELEMENT, 2},
        {"0061 ; [.1000.0020.0002]\n0061 ; [.1001.0020.0002]\n", "", UCA_BAD_TABLE, UCA_TABLE_REPEATED, 2},
        {"@implicitweights 18000..17000; FB00\n", "", UCA_BAD_TABLE, UCA_TABLE_BAD_RANGE, 1},
        {"0061 ; [.1000.0020.0002]\n", "&a<", UCA_BAD_RULES, UCA_RULES_EMPTY_STRING, 3},
        {"0061 ; [.1000.0020.0002]\n", "a<b", UCA_BAD_RULES, UCA_RULES_SYNTAX, 0},
        {"0061 ; [.1000.0020.0002]\n", "[backwards 2]", UCA_BAD_RULES, UCA_RULES_LEFT_OUT, 0},
        {"0061 ; [.1000.0020.0002]\n", "&a<b\xFF", UCA_BAD_RULES, UCA_RULES_NOT_UTF8, 4},
        {"0061 ; [.0000.0000.0000]\n", "&a<b", UCA_BAD_TAILORING, UCA_TAILOR_SMALL_WEIGHT, 1},
        {"0061 ; [.FFFE.0020.0002]\n0062 ; [.1000.0020.0002]\n", "&b<c&a<d", UCA_BAD_TAILORING, UCA_TAILOR_HIGH_RESET, 2},
        {"0061 ; [.1000.FFFF.0002]\n", "&a<<b", UCA_BAD_TAILORING, UCA_TAILOR_FULL_SECONDARY, 1},
        {"0061 ; [.1000.0020.FFFF]\n", "&a<<<b", UCA_BAD_TAILORING, UCA_TAILOR_FULL_TERTIARY, 1},
        {"0061 ; zzz\n", "&a<", UCA_BAD_TABLE, UCA_TABLE_BAD_ELEMENT, 1},
    };
    uca_settings settings = UCA_TERTIARY_SETTINGS;
    uca_collator collator = UCA_CLOSED;
    uca_fault fault;
    int32_t order;
    for (int had = 0; had < 2; had++) {
        for (size_t i = 0; i < sizeof cases / sizeof cases[0]; i++) {
            const uint8_t *table = (const uint8_t *)cases[i].table, *rules = (const uint8_t *)cases[i].rules;
            memset(&fault, 0xEE, sizeof fault);
            uint32_t status = uca_open(&collator, table, strlen(cases[i].table), rules, strlen(cases[i].rules), &fault);
            if (status != cases[i].status || fault.kind != cases[i].kind || fault.at != cases[i].at)
                fprintf(stderr, "case %zu: status %u kind %u at %llu\n", i, status, fault.kind, (unsigned long long)fault.at);
            CHECK(status == cases[i].status);
            SAME_FAULT(cases[i].kind, 0, cases[i].at);
        }
        /* A refused table leaves the collator unchanged. */
        CHECK(uca_compare(&collator, &settings, TEXT("cz"), TEXT("ch"), &order, &fault) == (had ? UCA_OK : UCA_NOT_OPEN));
        if (!had) open_small(&collator);
    }
    CHECK(order == -1);
    open_small(&collator);
    CHECK(uca_open(&collator, NULL, 0, NULL, 0, &fault) == UCA_OK);
    SAME_FAULT(0, 0, 0);
    uca_close(&collator);
    uca_close(&collator);
}

static void cloning(void) {
    uca_settings settings = UCA_TERTIARY_SETTINGS;
    uca_collator collator = UCA_CLOSED, other = UCA_CLOSED;
    uca_fault fault;
    int32_t order = 9;
    CHECK(uca_clone(&collator, &other) == UCA_NOT_OPEN);
    open_small(&collator);
    CHECK(uca_clone(&collator, &other) == UCA_OK);
    CHECK(uca_clone(&collator, &other) == UCA_OK);
    uca_close(&collator);
    CHECK(uca_compare(&other, &settings, TEXT("cz"), TEXT("ch"), &order, &fault) == UCA_OK && order == -1);
    CHECK(uca_clone(&collator, &other) == UCA_NOT_OPEN);
    CHECK(uca_compare(&other, &settings, TEXT("ch"), TEXT("cz"), &order, &fault) == UCA_OK && order == 1);
    uca_close(&other);
}

int main(int count, char **words) {
    layout();
    names();
    versions();
    locating();
    checking();
    comparing();
    settings();
    keys(uca_sort_key, sort_key, sizeof sort_key, 10);
    keys(uca_write_key, sort_key, sizeof sort_key, 10);
    keys(uca_packed_key, packed_key, sizeof packed_key, 5);
    same_keys();
    packed_keys();
    bounds(uca_prefix_bounds, uca_sort_key, sort_ends);
    bounds(uca_packed_prefix_bounds, uca_packed_key, packed_ends);
    completeness();
    texts();
    nulls();
    fingerprints(count > 1 ? words[1] : NULL);
    opening();
    cloning();
    if (failed_checks == 0) puts("well");
    return failed_checks != 0;
}
