// A collator beside uca over the lines of standard input: peer icu|LOCALE key|compare|order [shifted].
// `icu` is ICU's root collator with normalization; any other word names a locale of the C library. `key` writes each line's key as
// digits, `compare` a word for each pair of neighbours, and `order` the lines by their keys, those with equal keys in their given
// order. With `shifted`, ICU compares four levels with shifted variable elements.
#include <locale.h>
#include <stdio.h>
#include <stdlib.h>
#include <string.h>
#ifdef WITH_ICU
#include <unicode/ucol.h>
#include <unicode/ustring.h>
static UCollator *root;
static UErrorCode status = U_ZERO_ERROR;
#endif

struct line {
    char *text;
    size_t length, key, key_length, number;
};

static char *text, *text_end;
static unsigned char *keys;
static size_t keys_used, keys_room;

static void *grown(void *room, size_t size) {
    room = realloc(room, size);
    if (!room) exit(2);
    return room;
}

static void read_all(void) {
    size_t room = 1 << 20, size = 0, got;
    text = grown(NULL, room);
    while ((got = fread(text + size, 1, room - size - 1, stdin)) > 0) {
        size += got;
        if (size + 1 == room) text = grown(text, room *= 2);
    }
    text_end = text + size;
}

// The next line, with a NUL in place of its LF.
static int next_line(char **at, struct line *line) {
    if (*at >= text_end) return 0;
    char *end = memchr(*at, '\n', text_end - *at);
    if (!end) end = text_end;
    *end = 0;
    line->text = *at;
    line->length = end - *at;
    *at = end + 1;
    return 1;
}

// How many bytes the key has. It is complete only if that is at most `room`.
static size_t write_key(const struct line *line, unsigned char *key, size_t room) {
#ifdef WITH_ICU
    if (root) {
        static UChar wide[1 << 16];
        int32_t points = 0;
        u_strFromUTF8(wide, 1 << 16, &points, line->text, (int32_t)line->length, &status);
        if (U_FAILURE(status)) exit(3);
        return ucol_getSortKey(root, wide, points, key, (int32_t)(room > 1 << 20 ? 1 << 20 : room));
    }
#endif
    return strxfrm((char *)key, line->text, room) + 1;
}

// Puts the line's key after the others, with a NUL.
static void add_key(struct line *line) {
    for (;;) {
        size_t needed = write_key(line, keys + keys_used, keys_room - keys_used);
        if (needed <= keys_room - keys_used) {
            line->key = keys_used;
            line->key_length = needed;
            keys_used += needed;
            return;
        }
        keys = grown(keys, keys_room *= 2);
    }
}

static int compare(const struct line *a, const struct line *b) {
#ifdef WITH_ICU
    if (root) return ucol_strcollUTF8(root, a->text, (int32_t)a->length, b->text, (int32_t)b->length, &status);
#endif
    return strcoll(a->text, b->text);
}

static int by_key(const void *a, const void *b) {
    const struct line *x = a, *y = b;
    int order = strcmp((char *)keys + x->key, (char *)keys + y->key);
    return order ? order : x->number < y->number ? -1 : 1;
}

static void tell_keys(void) {
    char *at = text;
    for (struct line line; next_line(&at, &line); keys_used = 0) {
        add_key(&line);
        for (size_t i = 0; i < line.key_length; i++) {
            if (i) putchar_unlocked(' ');
            putchar_unlocked("0123456789ABCDEF"[keys[i] >> 4]);
            putchar_unlocked("0123456789ABCDEF"[keys[i] & 15]);
        }
        putchar_unlocked('\n');
    }
}

static void tell_orders(void) {
    char *at = text;
    struct line last, line;
    if (!next_line(&at, &last)) return;
    for (; next_line(&at, &line); last = line) {
        int order = compare(&last, &line);
        puts(order < 0 ? "less" : order > 0 ? "greater" : "equal");
    }
}

static void tell_ordered(void) {
    size_t count = 0, room = 1 << 16;
    struct line *lines = grown(NULL, room * sizeof *lines), line;
    for (char *at = text; next_line(&at, &line); count++) {
        line.number = count;
        add_key(&line);
        if (count == room) lines = grown(lines, (room *= 2) * sizeof *lines);
        lines[count] = line;
    }
    qsort(lines, count, sizeof *lines, by_key);
    for (size_t i = 0; i < count; i++) {
        fwrite(lines[i].text, 1, lines[i].length, stdout);
        putchar_unlocked('\n');
    }
}

static int open_collator(const char *name, int shifted) {
    if (strcmp(name, "icu") != 0) return !shifted && setlocale(LC_ALL, name) != NULL;
#ifdef WITH_ICU
    root = ucol_open("root", &status);
    ucol_setAttribute(root, UCOL_NORMALIZATION_MODE, UCOL_ON, &status);
    if (shifted) {
        ucol_setAttribute(root, UCOL_ALTERNATE_HANDLING, UCOL_SHIFTED, &status);
        ucol_setAttribute(root, UCOL_STRENGTH, UCOL_QUATERNARY, &status);
    }
    return U_SUCCESS(status);
#else
    return 0;
#endif
}

int main(int count, char **words) {
    if (count < 3 || !open_collator(words[1], count > 3)) return 3;
    keys = grown(NULL, keys_room = 1 << 16);
    read_all();
    if (strcmp(words[2], "key") == 0) tell_keys();
    else if (strcmp(words[2], "compare") == 0) tell_orders();
    else if (strcmp(words[2], "order") == 0) tell_ordered();
    else return 2;
    return 0;
}
