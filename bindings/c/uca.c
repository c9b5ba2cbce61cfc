/*
 * The part of libuca that is written in C. It replaces null pointers, which the proved functions do not accept even for a size of 0,
 * it keeps texts that were checked, and it names statuses and kinds. The proved functions do everything else. The Makefile renames
 * those that are called here from uca_NAME to uca_proved_NAME.
 */
#include "uca.h"

static const uint8_t no_bytes[1];

static const uint8_t *given(const uint8_t *bytes) { return bytes ? bytes : no_bytes; }

/*
 * Has the processor bring a byte into its caches. A comparison reads its first text before its second one, which is often in no cache yet:
 * it is brought while the first one is read. This is a macro, because GCC leaves out calls of a function that does nothing else.
 */
#ifdef __GNUC__
#define BRING(byte) __builtin_prefetch(byte)
#else
#define BRING(byte) ((void)0)
#endif

/* The caller's array. A null one is replaced by one of these, which all threads share: nothing is written to it. */
static uint8_t *room(uint8_t *bytes) {
    static uint8_t none[1];
    return bytes ? bytes : none;
}

static uint8_t *other_room(uint8_t *bytes) {
    static uint8_t none[1];
    return bytes ? bytes : none;
}

static uca_match *room_of_matches(uca_match *matches) {
    static uca_match none[1];
    return matches ? matches : none;
}

static uint32_t *room_of_points(uint32_t *points) {
    static uint32_t none[1];
    return points ? points : none;
}

static uca_element *room_of_elements(uca_element *elements) {
    static uca_element none[1];
    return elements ? elements : none;
}

uint32_t uca_proved_open(uca_collator *, const uint8_t *, size_t, const uint8_t *, size_t, uca_fault *);
uint32_t uca_proved_check(const uint8_t *, size_t, uca_fault *);
uint32_t uca_proved_compare(const uca_collator *, const uca_settings *, const uint8_t *, size_t, const uint8_t *, size_t, int32_t *,
                            uca_fault *);
uint32_t uca_proved_compare_levels(const uca_collator *, const uca_settings *, const uint8_t *, size_t, const uint8_t *, size_t,
                                   int32_t *, uint32_t *, uca_fault *);
uint32_t uca_proved_sort_key(const uca_collator *, const uca_settings *, const uint8_t *, size_t, uint8_t *, size_t, size_t *,
                             uca_fault *);
uint32_t uca_proved_packed_key(const uca_collator *, const uca_settings *, const uint8_t *, size_t, uint8_t *, size_t, size_t *,
                               uca_fault *);
uint32_t uca_proved_write_key(const uca_collator *, const uca_settings *, const uint8_t *, size_t, uint8_t *, size_t, size_t *,
                              uca_fault *);
uint32_t uca_proved_prefix_bounds(const uca_collator *, const uca_settings *, const uint8_t *, size_t, uint8_t *, size_t, uint8_t *,
                                  size_t, size_t *, size_t *, uca_fault *);
uint32_t uca_proved_packed_prefix_bounds(const uca_collator *, const uca_settings *, const uint8_t *, size_t, uint8_t *, size_t,
                                         uint8_t *, size_t, size_t *, size_t *, uca_fault *);
uint32_t uca_proved_is_complete(const uca_collator *, const uint8_t *, size_t, uint32_t *, uca_fault *);
uint32_t uca_proved_matches(const uca_collator *, const uint8_t *, size_t, uca_match *, size_t, uint32_t *, size_t, uca_element *,
                            size_t, uca_matches_needed *, uca_fault *);
void uca_proved_locate(const uint8_t *, size_t, uint64_t, uint64_t *, uint64_t *);

/* These require bytes that uca_proved_check has accepted. */
uint32_t uca_proved_compare_texts(const uca_collator *, const uca_settings *, const uint8_t *, size_t, const uint8_t *, size_t,
                                  int32_t *);
uint32_t uca_proved_sort_key_of(const uca_collator *, const uca_settings *, const uint8_t *, size_t, uint8_t *, size_t, size_t *);
uint32_t uca_proved_packed_key_of(const uca_collator *, const uca_settings *, const uint8_t *, size_t, uint8_t *, size_t, size_t *);

uint32_t uca_open(uca_collator *collator, const uint8_t *table, size_t table_size, const uint8_t *rules, size_t rules_size,
                  uca_fault *fault) {
    return uca_proved_open(collator, given(table), table_size, given(rules), rules_size, fault);
}

uint32_t uca_check(const uint8_t *text, size_t size, uca_fault *fault) { return uca_proved_check(given(text), size, fault); }

uint32_t uca_compare(const uca_collator *collator, const uca_settings *settings, const uint8_t *a, size_t a_size, const uint8_t *b,
                     size_t b_size, int32_t *order, uca_fault *fault) {
    const uint8_t *second = given(b);
    BRING(second);
    BRING(second + b_size);
    return uca_proved_compare(collator, settings, given(a), a_size, second, b_size, order, fault);
}

uint32_t uca_compare_levels(const uca_collator *collator, const uca_settings *settings, const uint8_t *a, size_t a_size,
                            const uint8_t *b, size_t b_size, int32_t *order, uint32_t *level, uca_fault *fault) {
    return uca_proved_compare_levels(collator, settings, given(a), a_size, given(b), b_size, order, level, fault);
}

uint32_t uca_sort_key(const uca_collator *collator, const uca_settings *settings, const uint8_t *text, size_t size, uint8_t *out,
                      size_t capacity, size_t *needed, uca_fault *fault) {
    return uca_proved_sort_key(collator, settings, given(text), size, room(out), capacity, needed, fault);
}

uint32_t uca_packed_key(const uca_collator *collator, const uca_settings *settings, const uint8_t *text, size_t size, uint8_t *out,
                        size_t capacity, size_t *needed, uca_fault *fault) {
    return uca_proved_packed_key(collator, settings, given(text), size, room(out), capacity, needed, fault);
}

uint32_t uca_write_key(const uca_collator *collator, const uca_settings *settings, const uint8_t *text, size_t size, uint8_t *out,
                       size_t capacity, size_t *needed, uca_fault *fault) {
    return uca_proved_write_key(collator, settings, given(text), size, room(out), capacity, needed, fault);
}

uint32_t uca_prefix_bounds(const uca_collator *collator, const uca_settings *settings, const uint8_t *text, size_t size,
                           uint8_t *lower, size_t lower_capacity, uint8_t *upper, size_t upper_capacity, size_t *lower_needed,
                           size_t *upper_needed, uca_fault *fault) {
    return uca_proved_prefix_bounds(collator, settings, given(text), size, room(lower), lower_capacity, other_room(upper),
                                    upper_capacity, lower_needed, upper_needed, fault);
}

uint32_t uca_packed_prefix_bounds(const uca_collator *collator, const uca_settings *settings, const uint8_t *text, size_t size,
                                  uint8_t *lower, size_t lower_capacity, uint8_t *upper, size_t upper_capacity, size_t *lower_needed,
                                  size_t *upper_needed, uca_fault *fault) {
    return uca_proved_packed_prefix_bounds(collator, settings, given(text), size, room(lower), lower_capacity, other_room(upper),
                                           upper_capacity, lower_needed, upper_needed, fault);
}

uint32_t uca_is_complete(const uca_collator *collator, const uint8_t *text, size_t size, uint32_t *complete, uca_fault *fault) {
    return uca_proved_is_complete(collator, given(text), size, complete, fault);
}

uint32_t uca_matches(const uca_collator *collator, const uint8_t *text, size_t size, uca_match *matches, size_t matches_capacity,
                     uint32_t *points, size_t points_capacity, uca_element *elements, size_t elements_capacity,
                     uca_matches_needed *needed, uca_fault *fault) {
    return uca_proved_matches(collator, given(text), size, room_of_matches(matches), matches_capacity, room_of_points(points),
                              points_capacity, room_of_elements(elements), elements_capacity, needed, fault);
}

void uca_locate(const uint8_t *bytes, size_t size, uint64_t at, uint64_t *line, uint64_t *column) {
    uca_proved_locate(given(bytes), size, at, line, column);
}

uint32_t uca_text_of(const uint8_t *bytes, size_t size, uca_text *text, uca_fault *fault) {
    uint32_t status = uca_proved_check(given(bytes), size, fault);
    if (status == UCA_OK) *text = (uca_text){bytes, size};
    return status;
}

uint32_t uca_compare_texts(const uca_collator *collator, const uca_settings *settings, const uca_text *a, const uca_text *b,
                           int32_t *order) {
    BRING(b->private_bytes);
    return uca_proved_compare_texts(collator, settings, given(a->private_bytes), a->private_size, given(b->private_bytes),
                                    b->private_size, order);
}

uint32_t uca_sort_key_of(const uca_collator *collator, const uca_settings *settings, const uca_text *text, uint8_t *out,
                         size_t capacity, size_t *needed) {
    return uca_proved_sort_key_of(collator, settings, given(text->private_bytes), text->private_size, room(out), capacity, needed);
}

uint32_t uca_packed_key_of(const uca_collator *collator, const uca_settings *settings, const uca_text *text, uint8_t *out,
                           size_t capacity, size_t *needed) {
    return uca_proved_packed_key_of(collator, settings, given(text->private_bytes), text->private_size, room(out), capacity, needed);
}

const char *uca_status_name(uint32_t status) {
    switch (status) {
    case UCA_OK: return "ok";
    case UCA_NOT_UTF8: return "not UTF-8";
    case UCA_LONG_RUN: return "too many nonstarters in a row";
    case UCA_NOT_OPEN: return "the collator is not open";
    case UCA_BAD_SETTINGS: return "bad settings";
    case UCA_NO_MEMORY: return "out of memory";
    case UCA_BAD_TABLE: return "bad table";
    case UCA_BAD_RULES: return "bad rules";
    case UCA_BAD_TAILORING: return "bad tailoring";
    case UCA_INCOMPLETE: return "incomplete text";
    default: return "unknown status";
    }
}

const char *uca_kind_name(uint32_t kind) {
    switch (kind) {
    case UCA_NO_KIND: return "no kind";
    case UCA_TABLE_LINE_TOO_LONG: return "the line has more than 4096 bytes";
    case UCA_TABLE_BAD_DIRECTIVE: return "bad directive";
    case UCA_TABLE_BAD_CODE_POINT: return "bad code point";
    case UCA_TABLE_KEY_TOO_LONG: return "the key has more than 32 code points";
    case UCA_TABLE_NO_SEMICOLON: return "no semicolon after the key";
    case UCA_TABLE_BAD_ELEMENT: return "bad collation element";
    case UCA_TABLE_NO_ELEMENT: return "no collation element";
    case UCA_TABLE_TOO_MANY_ELEMENTS: return "more than 64 collation elements";
    case UCA_TABLE_REPEATED: return "repeated key";
    case UCA_TABLE_BAD_RANGE: return "bad range of implicit weights";
    case UCA_TABLE_TOO_LARGE: return "the table has more than 67108864 bytes";
    case UCA_RULES_SYNTAX: return "bad syntax";
    case UCA_RULES_LEFT_OUT: return "syntax that is not supported";
    case UCA_RULES_EMPTY_STRING: return "empty string";
    case UCA_RULES_LONG_RUN: return "too many nonstarters in a row";
    case UCA_RULES_KEY_TOO_LONG: return "the string has more than 32 code points in NFD";
    case UCA_RULES_TOO_MANY_RELATIONS: return "more than 20000 relations";
    case UCA_RULES_NOT_UTF8: return "not UTF-8";
    case UCA_TAILOR_SMALL_WEIGHT: return "the anchor has no weight to raise at the level";
    case UCA_TAILOR_HIGH_RESET: return "the anchor has an implicit primary weight";
    case UCA_TAILOR_FULL_PRIMARY: return "no primary weight is left";
    case UCA_TAILOR_FULL_SECONDARY: return "no secondary weight is left";
    case UCA_TAILOR_FULL_TERTIARY: return "no tertiary weight is left";
    case UCA_TAILOR_TOO_MANY_ELEMENTS: return "the item would have more than 64 collation elements";
    default: return "unknown kind";
    }
}
