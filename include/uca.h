/*
 * uca.h: sorts text as the readers of a language expect, by the Unicode Collation Algorithm (UTS #10).
 *
 * A collator compares texts and makes sort keys. A sort key is a byte string. Comparing two keys byte by byte (by memcmp; if one
 * begins with the other, the shorter comes first) gives the order of their texts, so keys can be stored and indexed. Comparing
 * two texts gives the same order as comparing their sort keys.
 *
 *     uca_collator collator = UCA_CLOSED;
 *     uca_fault fault;
 *     if (uca_open(&collator, table, table_size, rules, rules_size, &fault) != UCA_OK) ...
 *     uca_settings settings = UCA_TERTIARY_SETTINGS;
 *     int32_t order;
 *     uca_compare(&collator, &settings, a, a_size, b, b_size, &order, &fault);
 *     uca_close(&collator);
 *
 * Texts are UTF-8. Each is given by a pointer and its size in bytes, and needs no NUL at the end. A pointer may be null if its size
 * or capacity is 0. No other pointer may be null. What a call writes may not overlap anything else that it is given.
 *
 * Most calls return a status, and most of them also take a uca_fault, which says where the fault is. If a call returns anything
 * but UCA_OK, it has changed nothing but the fault.
 *
 * Memory: uca_open, uca_clone, uca_sort_key, uca_packed_key, uca_sort_key_of, uca_packed_key_of, uca_prefix_bounds,
 * uca_packed_prefix_bounds, uca_matches and uca_fingerprint call malloc, realloc and free. The other calls do not allocate, and the four
 * that make a key do not for a text of at most 127 bytes. No call keeps a pointer that it was given, except that the text made by
 * uca_text_of points to its bytes.
 *
 * Threads: a call that takes a const uca_collator only reads it, and any number of threads may make such calls on one collator at
 * once. While uca_open, uca_close or uca_clone changes a collator, no other call may use it. A collator may be opened in one thread
 * and closed in another. Make no call from a signal handler, nor in the child after a process with several threads forks.
 *
 * Link with -luca (pkg-config --cflags --libs uca).
 */
#ifndef UCA_H
#define UCA_H

#include <stdbool.h>
#include <stddef.h>
#include <stdint.h>

#ifdef __cplusplus
extern "C" {
#endif

/* The version of this header, in the form of uca_version(), which returns the version of the library. */
#define UCA_VERSION 0x010000

/*
 * A collator: a share of a table, or none. Initialize it with UCA_CLOSED, or with zero bytes. Its fields are private: do not write
 * them. Do not copy a collator; uca_clone makes another. Close each collator that has a table.
 */
typedef struct uca_collator {
    void *private_table;
    bool private_is_open;
} uca_collator;

#define UCA_CLOSED {0, false}

/* What a call returns. The numbers never change. */
typedef enum uca_status {
    UCA_OK = 0,            /* success */
    UCA_NOT_UTF8 = 1,      /* a text is not UTF-8, from byte `at` of the fault on */
    UCA_LONG_RUN = 2,      /* a text has more than 60 nonstarters in a row; the 61st is at byte `at` */
    UCA_NOT_OPEN = 3,      /* the collator has no table */
    UCA_BAD_SETTINGS = 4,  /* a number in the settings has no meaning */
    UCA_NO_MEMORY = 5,     /* an allocation failed */
    UCA_BAD_TABLE = 6,     /* the text of the table is refused, at line `at`, counted from 1 */
    UCA_BAD_RULES = 7,     /* the text of the rules is refused, at byte `at`, counted from 0 */
    UCA_BAD_TAILORING = 8, /* the rules cannot tailor the table: there is no place for relation `at`, counted from 1 */
    UCA_INCOMPLETE = 9     /* no longer returned: uca_prefix_bounds gives a range for every text */
} uca_status;

/* Why a table, rules or a tailoring were refused. The numbers never change. */
typedef enum uca_kind {
    UCA_NO_KIND = 0,
    /* with UCA_BAD_TABLE */
    UCA_TABLE_LINE_TOO_LONG = 1,      /* a line has more than 4096 bytes */
    UCA_TABLE_BAD_DIRECTIVE = 2,      /* a directive is unknown or malformed, or gives a second version */
    UCA_TABLE_BAD_CODE_POINT = 3,     /* a code point is not four to six hexadecimal digits, or is not a scalar value */
    UCA_TABLE_KEY_TOO_LONG = 4,       /* a key has more than 32 code points */
    UCA_TABLE_NO_SEMICOLON = 5,       /* an entry has no semicolon after its key */
    UCA_TABLE_BAD_ELEMENT = 6,        /* what follows a key is not a collation element */
    UCA_TABLE_NO_ELEMENT = 7,         /* an entry has no collation element */
    UCA_TABLE_TOO_MANY_ELEMENTS = 8,  /* an entry has more than 64 collation elements */
    UCA_TABLE_REPEATED = 9,           /* an earlier line has this key */
    UCA_TABLE_BAD_RANGE = 10,         /* a range of implicit weights conflicts with one of an earlier line */
    UCA_TABLE_TOO_LARGE = 11,         /* the text has more than 67108864 bytes */
    /* with UCA_BAD_RULES */
    UCA_RULES_SYNTAX = 21,             /* the text does not have the syntax of rules */
    UCA_RULES_LEFT_OUT = 22,           /* the text uses syntax of UTS #35 that this profile does not include */
    UCA_RULES_EMPTY_STRING = 23,       /* a string has no character */
    UCA_RULES_LONG_RUN = 24,           /* a string has more than 60 nonstarters in a row */
    UCA_RULES_KEY_TOO_LONG = 25,       /* a string has more than 32 code points in NFD */
    UCA_RULES_TOO_MANY_RELATIONS = 26, /* there are more than 20000 relations */
    UCA_RULES_NOT_UTF8 = 27,           /* the text is not UTF-8 */
    /* with UCA_BAD_TAILORING */
    UCA_TAILOR_SMALL_WEIGHT = 41,      /* the anchor has no weight at the level, or one below those of implicit elements */
    UCA_TAILOR_HIGH_RESET = 42,        /* the anchor's primary weight is as high as the implicit ones */
    UCA_TAILOR_FULL_PRIMARY = 43,      /* no primary weight can be raised */
    UCA_TAILOR_FULL_SECONDARY = 44,    /* no secondary weight can be raised */
    UCA_TAILOR_FULL_TERTIARY = 45,     /* no tertiary weight can be raised */
    UCA_TAILOR_TOO_MANY_ELEMENTS = 46  /* the item would have more than 64 collation elements */
} uca_kind;

/* Where a fault is. If there is none, all fields are 0. */
typedef struct uca_fault {
    uint32_t kind; /* a uca_kind with UCA_BAD_TABLE, UCA_BAD_RULES and UCA_BAD_TAILORING; else 0 */
    uint32_t text; /* with UCA_NOT_UTF8 and UCA_LONG_RUN: which text of the call is at fault, counted from 1; else 0 */
    uint64_t at;   /* a byte of the text or the rules, counted from 0; or a line or a relation, counted from 1 */
} uca_fault;

/* How many levels are compared (UTS #10, section 7.3). */
typedef enum uca_strength {
    UCA_PRIMARY = 1,    /* letters */
    UCA_SECONDARY = 2,  /* then accents */
    UCA_TERTIARY = 3,   /* then case */
    UCA_QUATERNARY = 4, /* then punctuation, if it is shifted */
    UCA_IDENTICAL = 5   /* then the texts themselves in NFD, so only canonically equivalent texts are equal */
} uca_strength;

/* How variable elements (spaces, punctuation and symbols) are weighted (UTS #10, section 4). */
typedef enum uca_variable {
    UCA_NON_IGNORABLE = 0, /* like letters, and before them */
    UCA_BLANKED = 1,       /* ignored */
    UCA_SHIFTED = 2        /* at the fourth level only */
} uca_variable;

/* The settings of a call. The reserved numbers must be 0; settings with zeros there will always mean what they mean today. */
typedef struct uca_settings {
    uint32_t strength; /* a uca_strength */
    uint32_t variable; /* a uca_variable */
    uint32_t reserved[6];
} uca_settings;

#define UCA_SETTINGS(strength, variable) {(strength), (variable), {0, 0, 0, 0, 0, 0}}
#define UCA_TERTIARY_SETTINGS UCA_SETTINGS(UCA_TERTIARY, UCA_NON_IGNORABLE)

/*
 * A text that uca_text_of has checked. Initialize it with UCA_EMPTY_TEXT, or with zero bytes: it is then the empty text. Its fields
 * are private: do not write them. Calls that take a uca_text do not check it again. If its fields are not what uca_text_of wrote, or
 * its bytes have changed since, their behaviour is undefined.
 */
typedef struct uca_text {
    const uint8_t *private_bytes;
    size_t private_size;
} uca_text;

#define UCA_EMPTY_TEXT {0, 0}

/* A SHA-256 digest. */
typedef struct uca_digest {
    uint8_t bytes[32];
} uca_digest;

/* Code points of a text that are matched together. uca_matches writes them, and their collation elements, to arrays of their own. */
typedef struct uca_match {
    uint32_t points;   /* how many code points, 1 to 32 */
    uint32_t elements; /* how many collation elements, 1 to 64 */
    uint32_t is_key;   /* 1 if the code points are a key of the table; 0 if not, and the elements are implicit */
} uca_match;

/* A collation element (UTS #10, section 3). */
typedef struct uca_element {
    uint16_t primary;
    uint16_t secondary;
    uint16_t tertiary;
    uint16_t is_variable; /* 1 if the element is variable (a table writes it with *), else 0 */
} uca_element;

/* How many matches a text has, and how many code points and collation elements these have in all. */
typedef struct uca_matches_needed {
    size_t matches;
    size_t points;
    size_t elements;
} uca_matches_needed;

/* The version of the library: 65536 times the major number, 256 times the minor number, and the patch. */
uint32_t uca_version(void);

/* The version of Unicode that decides how texts are decomposed and which code points are assigned, in the same form. */
uint32_t uca_unicode_version(void);

/*
 * Gives a collator a table: `table` in the format of allkeys.txt (UTS #10, Allkeys File Format), tailored by `rules` (a profile
 * of UTS #35, part 5; no bytes for no rules). The call reads both completely before it returns. A table of no bytes is an empty table,
 * and not a fault: by it every character has implicit weights. So check that a file with a table was read. If the collator had a table,
 * it releases that one. The published table takes about 12 MB of memory.
 * Returns UCA_OK, UCA_BAD_TABLE, UCA_BAD_RULES, UCA_BAD_TAILORING or UCA_NO_MEMORY.
 */
uint32_t uca_open(uca_collator *collator, const uint8_t *table, size_t table_size, const uint8_t *rules, size_t rules_size,
                  uca_fault *fault);

/* Releases a collator's table, which is freed with the last collator that shares it. A closed collator stays closed. */
void uca_close(uca_collator *collator);

/*
 * Gives `other` the table of `collator`, which the two then share; the table is not copied. If `other` had a table, it releases
 * that one. The two must be different collators.
 * Returns UCA_OK, UCA_NOT_OPEN or UCA_NO_MEMORY.
 */
uint32_t uca_clone(const uca_collator *collator, uca_collator *other);

/*
 * Checks that bytes are a text that can be compared: UTF-8, with at most 60 nonstarters in a row. It needs no collator and does not
 * allocate.
 * Returns UCA_OK, UCA_NOT_UTF8 or UCA_LONG_RUN.
 */
uint32_t uca_check(const uint8_t *text, size_t size, uca_fault *fault);

/*
 * Compares two texts. Writes -1, 0 or 1 to `order` if the first comes before, is equal to or comes after the second. It does not
 * allocate.
 * Returns UCA_OK, UCA_BAD_SETTINGS, UCA_NOT_OPEN, UCA_NOT_UTF8 or UCA_LONG_RUN.
 */
uint32_t uca_compare(const uca_collator *collator, const uca_settings *settings, const uint8_t *a, size_t a_size,
                     const uint8_t *b, size_t b_size, int32_t *order, uca_fault *fault);

/*
 * Compares two texts as uca_compare does, and writes to `level` the level that decides, 1 to 5: the first at which they differ or,
 * if `order` is 0, the last that is compared. It does not allocate. It is slower than uca_compare.
 * Returns UCA_OK, UCA_BAD_SETTINGS, UCA_NOT_OPEN, UCA_NOT_UTF8 or UCA_LONG_RUN.
 */
uint32_t uca_compare_levels(const uca_collator *collator, const uca_settings *settings, const uint8_t *a, size_t a_size, const uint8_t *b,
                            size_t b_size, int32_t *order, uint32_t *level, uca_fault *fault);

/*
 * Writes a text's sort key (UTS #10, section 7.3) to `out`, or its first `capacity` bytes if it is longer, and the size of the whole
 * key in bytes to `needed`. If `needed` is more than `capacity`, call again with that capacity. Bytes of `out` after the key are
 * not written.
 * Returns UCA_OK, UCA_BAD_SETTINGS, UCA_NOT_OPEN, UCA_NOT_UTF8, UCA_LONG_RUN or UCA_NO_MEMORY.
 */
uint32_t uca_sort_key(const uca_collator *collator, const uca_settings *settings, const uint8_t *text, size_t size,
                      uint8_t *out, size_t capacity, size_t *needed, uca_fault *fault);

/*
 * Writes a text's packed key to `out`, as uca_sort_key writes its sort key. Packed keys are compressed keys for indexes: over lines of
 * ten scripts they have a fifth of the bytes of the sort keys. Comparing two of them byte by byte gives the order of the two sort keys
 * under the same settings, and they are equal exactly when the sort keys are. The packed key at a strength is the beginning of that at
 * each higher one. They depend on what sort keys depend on, so one fingerprint serves both. A packed key cannot be compared with a sort
 * key.
 * Returns UCA_OK, UCA_BAD_SETTINGS, UCA_NOT_OPEN, UCA_NOT_UTF8, UCA_LONG_RUN or UCA_NO_MEMORY.
 */
uint32_t uca_packed_key(const uca_collator *collator, const uca_settings *settings, const uint8_t *text, size_t size,
                        uint8_t *out, size_t capacity, size_t *needed, uca_fault *fault);

/*
 * Writes the same sort key and size as uca_sort_key, but never allocates. For a text of at most 127 bytes the two do the same. A longer
 * text is read once for each level here, and uca_sort_key builds its key in memory and copies it, which is faster. If a key had more
 * than SIZE_MAX bytes, `needed` would be SIZE_MAX.
 * Returns UCA_OK, UCA_BAD_SETTINGS, UCA_NOT_OPEN, UCA_NOT_UTF8 or UCA_LONG_RUN.
 */
uint32_t uca_write_key(const uca_collator *collator, const uca_settings *settings, const uint8_t *text, size_t size,
                       uint8_t *out, size_t capacity, size_t *needed, uca_fault *fault);

/*
 * Writes the two ends of the range that holds the sort keys of all texts whose primary weights begin with those of a text. Each such
 * key, of any strength, is at or after `lower` and before `upper`, and no other sort key is. `lower` is the sort key of the text at
 * strength UCA_PRIMARY, and `upper` is the first byte string after all those that begin with `lower`. Of each end the call writes at
 * most its capacity in bytes, and its whole size in bytes to `lower_needed` and `upper_needed`. An upper end has at least one byte. If
 * `upper_needed` is 0, there is no upper end, and all keys from `lower` on are in the range: this is so if `lower` is empty or has only
 * bytes FF. The strength in the settings has no effect, but must be valid.
 * A text that begins with the given one can be outside the range, if its next character joins the last ones and changes their
 * primary weights: `cho` is not in the range of `c` if `ch` is a letter.
 * Returns UCA_OK, UCA_BAD_SETTINGS, UCA_NOT_OPEN, UCA_NOT_UTF8, UCA_LONG_RUN or UCA_NO_MEMORY.
 */
uint32_t uca_prefix_bounds(const uca_collator *collator, const uca_settings *settings, const uint8_t *text, size_t size,
                           uint8_t *lower, size_t lower_capacity, uint8_t *upper, size_t upper_capacity, size_t *lower_needed,
                           size_t *upper_needed, uca_fault *fault);

/*
 * Writes the two ends of the range that holds the packed keys of these texts, as uca_prefix_bounds does those of the sort keys. `lower`
 * is the beginning that these packed keys, of any strength, have in common: the first level of the text's packed key, without its end.
 * Returns UCA_OK, UCA_BAD_SETTINGS, UCA_NOT_OPEN, UCA_NOT_UTF8, UCA_LONG_RUN or UCA_NO_MEMORY.
 */
uint32_t uca_packed_prefix_bounds(const uca_collator *collator, const uca_settings *settings, const uint8_t *text, size_t size,
                                  uint8_t *lower, size_t lower_capacity, uint8_t *upper, size_t upper_capacity, size_t *lower_needed,
                                  size_t *upper_needed, uca_fault *fault);

/*
 * Writes 1 to `complete` if a text is complete, else 0. The keys of every text that begins with a complete one are in the range that
 * uca_prefix_bounds gives for it, and their packed keys in that of uca_packed_prefix_bounds. A text that begins with an incomplete one
 * may be outside, as `cho` is above. In doubt the call writes 0. The answer does not depend on settings. It does not allocate.
 * Returns UCA_OK, UCA_NOT_OPEN, UCA_NOT_UTF8 or UCA_LONG_RUN.
 */
uint32_t uca_is_complete(const uca_collator *collator, const uint8_t *text, size_t size, uint32_t *complete, uca_fault *fault);

/*
 * Writes the matches of a text (UTS #10, section 7.2): which code points of the text in NFD are matched together, and their
 * collation elements. A match can take a mark and pass over marks before it, so the matches have all code points of the text, but
 * not always in its order. The call writes at most `matches_capacity` matches; the code points of all matches, one after the other,
 * at most `points_capacity`; and their collation elements in the same way. How many there are of each goes to `needed`. If one of
 * these is more than its capacity, call again with that capacity. The answer does not depend on settings.
 * Returns UCA_OK, UCA_NOT_OPEN, UCA_NOT_UTF8, UCA_LONG_RUN or UCA_NO_MEMORY.
 */
uint32_t uca_matches(const uca_collator *collator, const uint8_t *text, size_t size, uca_match *matches, size_t matches_capacity,
                     uint32_t *points, size_t points_capacity, uca_element *elements, size_t elements_capacity,
                     uca_matches_needed *needed, uca_fault *fault);

/*
 * Checks bytes as uca_check does, and makes a text of them that later calls need not check. The text points to the bytes: as long as
 * it is used, they must neither move nor change. A text can be copied, any number of threads may read it, and it need not be freed.
 * The call needs no collator and does not allocate.
 * Returns UCA_OK, UCA_NOT_UTF8 or UCA_LONG_RUN.
 */
uint32_t uca_text_of(const uint8_t *bytes, size_t size, uca_text *text, uca_fault *fault);

/*
 * Compares two texts as uca_compare does, without checking them. It does not allocate.
 * Returns UCA_OK, UCA_BAD_SETTINGS or UCA_NOT_OPEN.
 */
uint32_t uca_compare_texts(const uca_collator *collator, const uca_settings *settings, const uca_text *a, const uca_text *b,
                           int32_t *order);

/*
 * Write the sort key of a text as uca_sort_key does, and its packed key as uca_packed_key does, without checking it.
 * Both return UCA_OK, UCA_BAD_SETTINGS, UCA_NOT_OPEN or UCA_NO_MEMORY.
 */
uint32_t uca_sort_key_of(const uca_collator *collator, const uca_settings *settings, const uca_text *text, uint8_t *out,
                         size_t capacity, size_t *needed);
uint32_t uca_packed_key_of(const uca_collator *collator, const uca_settings *settings, const uca_text *text, uint8_t *out,
                           size_t capacity, size_t *needed);

/*
 * Writes the SHA-256 digest of everything that sort keys and packed keys depend on: the table in its canonical form, the settings,
 * the form of keys, and the version of Unicode. Store it with an index of keys, packed or not. As long as it is the same, keys made
 * now can be compared with those of the index, if all are sort keys or all are packed keys. It is proved that equal digested bytes
 * mean equal keys; for the rest, SHA-256 is trusted. It takes about as long as uca_open.
 * Returns UCA_OK, UCA_BAD_SETTINGS, UCA_NOT_OPEN or UCA_NO_MEMORY.
 */
uint32_t uca_fingerprint(const uca_collator *collator, const uca_settings *settings, uca_digest *out);

/*
 * Finds the line and the column of byte `at` of a table or of rules, such as the byte of UCA_BAD_RULES. Writes the number of the line
 * to `line` and the number of the character in that line to `column`, both counted from 1. A byte past the end has the line and
 * column of the end. A line ends at LF. Characters are code points: the bytes 80 to BF, which continue a character, are not counted.
 * It needs no collator, does not allocate and cannot fail.
 */
void uca_locate(const uint8_t *bytes, size_t size, uint64_t at, uint64_t *line, uint64_t *column);

/* The name of a status or of a kind: a few English words, which a later version may change. Do not free them. */
const char *uca_status_name(uint32_t status);
const char *uca_kind_name(uint32_t kind);

#ifdef __cplusplus
}
#endif

#endif
