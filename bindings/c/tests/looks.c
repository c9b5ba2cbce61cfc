/* The calls that show why texts are in their order: uca_compare_levels and uca_matches. The allocations of uca_matches are refused one
 * at a time, and uca_compare_levels must not allocate: link with --wrap=malloc,realloc. */
#include "checks.h"

static long calls, refused;
void *__real_malloc(size_t size);
void *__real_realloc(void *block, size_t size);
void *__wrap_malloc(size_t size) { return ++calls == refused ? NULL : __real_malloc(size); }
void *__wrap_realloc(void *block, size_t size) { return ++calls == refused ? NULL : __real_realloc(block, size); }

/* A table with a key that can take a mark after another one. */
static const char table[] =
    "@version 17.0.0\n"
    "0020 ; [*0201.0020.0002]\n"
    "0061 ; [.1000.0020.0002]\n"
    "0041 ; [.1000.0020.0008]\n"
    "0062 ; [.1001.0020.0002]\n"
    "0063 ; [.1002.0020.0002]\n"
    "0068 ; [.1005.0020.0002]\n"
    "0301 ; [.0000.0024.0002]\n"
    "0061 0301 ; [.1000.0020.0002][.0000.0024.0002]\n";

static uca_collator collator = UCA_CLOSED;

static void levels(void) {
    static const struct { const char *a, *b; uint32_t strength, variable; int32_t order; uint32_t level; } cases[] = {
        {"a", "b", 3, 0, -1, 1}, {"b", "a", 1, 0, 1, 1}, {"a", "\xC3\xA1", 3, 0, -1, 2}, {"\xC3\xA1", "a", 2, 0, 1, 2},
        {"a", "A", 3, 0, -1, 3}, {"A", "a", 5, 0, 1, 3}, {"a", "A", 2, 0, 0, 2}, {"a", "\xC3\xA1", 1, 0, 0, 1},
        {"a b", "ab", 4, 2, -1, 4}, {"a b", "ab", 3, 2, 0, 3}, {"a b", "ab", 5, 1, -1, 5}, {"a", "a", 5, 0, 0, 5},
        {"", "", 1, 0, 0, 1}, {"", "a", 3, 0, -1, 1}, {"ch", "cz", 3, 0, 1, 1},
    };
    uca_fault fault;
    int32_t order, same;
    uint32_t level;
    calls = 0;
    for (size_t i = 0; i < sizeof cases / sizeof cases[0]; i++) {
        uca_settings settings = UCA_SETTINGS(cases[i].strength, cases[i].variable);
        const uint8_t *a = (const uint8_t *)cases[i].a, *b = (const uint8_t *)cases[i].b;
        size_t a_size = strlen(cases[i].a), b_size = strlen(cases[i].b);
        order = 9, level = 9;
        CHECK(uca_compare_levels(&collator, &settings, a, a_size, b, b_size, &order, &level, &fault) == UCA_OK);
        CHECK(uca_compare(&collator, &settings, a, a_size, b, b_size, &same, &fault) == UCA_OK && same == order);
        if (order != cases[i].order || level != cases[i].level) fprintf(stderr, "%s, %s: %d at %u\n", cases[i].a, cases[i].b, order, level);
        CHECK(order == cases[i].order && level == cases[i].level && fault.at == 0);
    }
    CHECK(calls == 0);
    uca_settings settings = UCA_TERTIARY_SETTINGS, wrong = UCA_SETTINGS(6, 0);
    order = 9, level = 9;
    CHECK(uca_compare_levels(&collator, &wrong, TEXT("a"), TEXT("b"), &order, &level, &fault) == UCA_BAD_SETTINGS);
    CHECK(uca_compare_levels(&collator, &settings, TEXT("a\xFF"), TEXT("\xFF"), &order, &level, &fault) == UCA_NOT_UTF8);
    CHECK(fault.text == 1 && fault.at == 1);
    CHECK(uca_compare_levels(&collator, &settings, TEXT("a"), TEXT("\xFF"), &order, &level, &fault) == UCA_NOT_UTF8 && fault.text == 2);
    CHECK(order == 9 && level == 9);
    CHECK(uca_compare_levels(&collator, &settings, NULL, 0, NULL, 0, &order, &level, &fault) == UCA_OK && order == 0 && level == 3);
}

/* The matches of a text in one line, such as `0061+0301:[.1000.0020.0002][.0000.0024.0002]`, with `?` before implicit elements. */
static const char *said(const uca_match *matches, const uint32_t *points, const uca_element *elements, size_t count) {
    static char line[1024];
    int size = 0;
    line[0] = 0;
    for (size_t i = 0; i < count; points += matches[i].points, elements += matches[i].elements, i++) {
        if (i) size += sprintf(line + size, " ");
        for (uint32_t n = 0; n < matches[i].points; n++) size += sprintf(line + size, "%s%04X", n ? "+" : "", (unsigned)points[n]);
        size += sprintf(line + size, matches[i].is_key ? ":" : "?");
        for (uint32_t n = 0; n < matches[i].elements; n++)
            size += sprintf(line + size, "[%c%04X.%04X.%04X]", elements[n].is_variable ? '*' : '.', elements[n].primary, elements[n].secondary,
                            elements[n].tertiary);
    }
    return line;
}

static void matches(void) {
    static const struct { const char *text, *said; size_t count, points, elements; } cases[] = {
        {"", "", 0, 0, 0},
        {"ab", "0061:[.1000.0020.0002] 0062:[.1001.0020.0002]", 2, 2, 2},
        {"ch a", "0063+0068:[.1003.0020.0002] 0020:[*0201.0020.0002] 0061:[.1000.0020.0002]", 3, 4, 3},
        {"\xC3\xA1", "0061+0301:[.1000.0020.0002][.0000.0024.0002]", 1, 2, 2},
        {"a\xCC\xA3\xCC\x81" "b", "0061+0301:[.1000.0020.0002][.0000.0024.0002] 0323?[.FBC0.0020.0002][.8323.0000.0000] 0062:[.1001.0020.0002]", 3, 4, 5},
        {"\xE4\xB8\x80", "4E00?[.FB40.0020.0002][.CE00.0000.0000]", 1, 1, 2},
    };
    uca_match found[8];
    uint32_t points[8];
    uca_element elements[8];
    uca_matches_needed needed;
    uca_fault fault;
    for (size_t i = 0; i < sizeof cases / sizeof cases[0]; i++) {
        const uint8_t *text = (const uint8_t *)cases[i].text;
        CHECK(uca_matches(&collator, text, strlen(cases[i].text), found, 8, points, 8, elements, 8, &needed, &fault) == UCA_OK);
        CHECK(needed.matches == cases[i].count && needed.points == cases[i].points && needed.elements == cases[i].elements && fault.at == 0);
        const char *line = said(found, points, elements, needed.matches);
        if (strcmp(line, cases[i].said)) fprintf(stderr, "%s\n%s\n", cases[i].said, line);
        CHECK(strcmp(line, cases[i].said) == 0);
    }
    /* What does not fit is not written, nor is anything after what does. */
    memset(found, 0xEE, sizeof found), memset(points, 0xEE, sizeof points), memset(elements, 0xEE, sizeof elements);
    CHECK(uca_matches(&collator, TEXT("aba"), found, 1, points, 2, elements, 1, &needed, &fault) == UCA_OK);
    CHECK(needed.matches == 3 && needed.points == 3 && needed.elements == 3);
    CHECK(found[0].points == 1 && points[1] == 0x62 && elements[0].primary == 0x1000);
    CHECK(found[1].points == 0xEEEEEEEE && points[2] == 0xEEEEEEEE && elements[1].primary == 0xEEEE);
    CHECK(uca_matches(&collator, TEXT("ab"), NULL, 0, NULL, 0, NULL, 0, &needed, &fault) == UCA_OK && needed.matches == 2);
    CHECK(uca_matches(&collator, NULL, 0, NULL, 0, NULL, 0, NULL, 0, &needed, &fault) == UCA_OK && needed.matches == 0);
    needed.matches = 77;
    CHECK(uca_matches(&collator, TEXT("a\xFF"), found, 8, points, 8, elements, 8, &needed, &fault) == UCA_NOT_UTF8);
    CHECK(needed.matches == 77 && fault.text == 1 && fault.at == 1 && points[2] == 0xEEEEEEEE);
}

static long refuses(void) {
    static const char text[] = "ch a\xCC\xA3\xCC\x81 bbbbbbbbbbbbbbbbbbbbbbbbbbbbbbbbbbbbbbbbbbbbbbbbb";
    uca_match found[64];
    uint32_t points[64];
    uca_element elements[64];
    uca_matches_needed needed;
    uca_fault fault;
    for (long count = 1;; count++) {
        memset(points, 0xEE, sizeof points);
        needed.matches = 77;
        calls = 0, refused = count;
        uint32_t status = uca_matches(&collator, TEXT(text), found, 64, points, 64, elements, 64, &needed, &fault);
        refused = 0;
        CHECK(status == UCA_OK || status == UCA_NO_MEMORY);
        CHECK(status == UCA_OK ? needed.points == 56 && points[0] == 0x63 : needed.matches == 77 && points[0] == 0xEEEEEEEE);
        if (calls < count) return count - 1;
    }
}

int main(void) {
    uca_fault fault;
    CHECK(sizeof(uca_match) == 12 && sizeof(uca_element) == 8 && offsetof(uca_element, is_variable) == 6 && sizeof(uca_matches_needed) == 24);
    int32_t order;
    uint32_t level;
    uca_matches_needed needed;
    uca_settings settings = UCA_TERTIARY_SETTINGS;
    CHECK(uca_compare_levels(&collator, &settings, TEXT("a"), TEXT("b"), &order, &level, &fault) == UCA_NOT_OPEN);
    CHECK(uca_matches(&collator, TEXT("a"), NULL, 0, NULL, 0, NULL, 0, &needed, &fault) == UCA_NOT_OPEN);
    if (uca_open(&collator, TEXT(table), TEXT(ch_rules), &fault) != UCA_OK) return 2;
    levels();
    matches();
    long count = refuses();
    CHECK(count > 3);
    uca_close(&collator);
    if (failed_checks == 0) printf("well, %ld runs\n", count);
    return failed_checks != 0;
}
