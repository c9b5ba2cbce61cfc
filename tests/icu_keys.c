// ICU's sort keys for the lines of standard input, as digits: icu_keys TAG, a BCP 47 tag, or icu_keys --rules FILE. Only the rules of
// the collation apply: strength tertiary, variable elements non-ignorable, and none of the locale's script order, case order or
// backward level. Exits with 4 if ICU has no such collation and would fall back to another.
#include <stdio.h>
#include <stdlib.h>
#include <string.h>
#include <unicode/ucol.h>
#include <unicode/uloc.h>
#include <unicode/ustring.h>

static UErrorCode status = U_ZERO_ERROR;

// Whether the opened collator has the language and the type that the locale names.
static int is_wanted(UCollator *collator, const char *locale) {
    char wanted[64] = "", found[64] = "", language[16], actual_language[16];
    const char *actual = ucol_getLocaleByType(collator, ULOC_ACTUAL_LOCALE, &status);
    uloc_getKeywordValue(locale, "collation", wanted, sizeof wanted, &status);
    uloc_getKeywordValue(actual, "collation", found, sizeof found, &status);
    uloc_getLanguage(locale, language, sizeof language, &status);
    uloc_getLanguage(actual, actual_language, sizeof actual_language, &status);
    fprintf(stderr, "%s\n", actual);
    if (wanted[0] && strcmp(wanted, found) != 0 && strcmp(wanted, "standard") != 0) return 0;
    return U_SUCCESS(status) && (strcmp(language, actual_language) == 0 || !strcmp(language, "und"));
}

static UCollator *of_locale(const char *tag) {
    char locale[ULOC_FULLNAME_CAPACITY];
    uloc_forLanguageTag(tag, locale, sizeof locale, NULL, &status);
    UCollator *collator = ucol_open(locale, &status);
    if (U_FAILURE(status) || !is_wanted(collator, locale)) exit(4);
    return collator;
}

static UCollator *of_rules(const char *path) {
    static char text[1 << 22];
    static UChar rules[1 << 22];
    int32_t length = 0;
    UParseError error;
    FILE *file = fopen(path, "r");
    if (!file) exit(3);
    text[fread(text, 1, sizeof text - 1, file)] = 0;
    fclose(file);
    u_strFromUTF8(rules, sizeof rules / sizeof rules[0], &length, text, -1, &status);
    UCollator *collator = ucol_openRules(rules, length, UCOL_ON, UCOL_TERTIARY, &error, &status);
    if (U_FAILURE(status)) exit(3);
    return collator;
}

// The collator without what rules of the profile can't express.
static void set_plain(UCollator *collator) {
    int32_t none = UCOL_REORDER_CODE_NONE;
    ucol_setReorderCodes(collator, &none, 1, &status);
    ucol_setAttribute(collator, UCOL_STRENGTH, UCOL_TERTIARY, &status);
    ucol_setAttribute(collator, UCOL_ALTERNATE_HANDLING, UCOL_NON_IGNORABLE, &status);
    ucol_setAttribute(collator, UCOL_CASE_FIRST, UCOL_OFF, &status);
    ucol_setAttribute(collator, UCOL_CASE_LEVEL, UCOL_OFF, &status);
    ucol_setAttribute(collator, UCOL_FRENCH_COLLATION, UCOL_OFF, &status);
    ucol_setAttribute(collator, UCOL_NORMALIZATION_MODE, UCOL_ON, &status);
    if (U_FAILURE(status)) exit(3);
}

int main(int count, char **words) {
    static char line[1 << 16];
    static UChar wide[1 << 16];
    static unsigned char key[1 << 20];
    int by_rules = count == 3 && strcmp(words[1], "--rules") == 0;
    if (count != 2 && !by_rules) return 2;
    UCollator *collator = by_rules ? of_rules(words[2]) : of_locale(words[1]);
    set_plain(collator);
    while (fgets(line, sizeof line, stdin)) {
        int32_t points = 0, bytes;
        line[strcspn(line, "\n")] = 0;
        u_strFromUTF8(wide, 1 << 16, &points, line, -1, &status);
        if (U_FAILURE(status)) return 3;
        bytes = ucol_getSortKey(collator, wide, points, key, sizeof key);
        for (int32_t i = 0; i < bytes; i++) printf("%02X", key[i]);
        putchar('\n');
    }
    ucol_close(collator);
    return 0;
}
