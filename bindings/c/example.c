/* Sorts the lines of standard input by a table and rules: example TABLE [RULES] */
#define _POSIX_C_SOURCE 200809L
#include <stdio.h>
#include <stdlib.h>
#include <string.h>
#include <sys/types.h>
#include <uca.h>

struct line { char *text; size_t bytes; uint8_t *key; size_t size; };

static uint8_t *contents(const char *path, size_t *size) {
    FILE *file = fopen(path, "rb");
    char *bytes = NULL;
    if (!file) { perror(path); exit(1); }
    ssize_t got = getdelim(&bytes, size, EOF, file);
    if (ferror(file)) { perror(path); exit(1); }
    *size = got < 0 ? 0 : (size_t)got;
    fclose(file);
    return (uint8_t *)bytes;
}

static int by_key(const void *a, const void *b) {
    const struct line *x = a, *y = b;
    int order = memcmp(x->key, y->key, x->size < y->size ? x->size : y->size);
    return order ? order : (x->size > y->size) - (x->size < y->size);
}

int main(int count, char **words) {
    uca_collator collator = UCA_CLOSED;
    uca_settings settings = UCA_TERTIARY_SETTINGS;
    uca_fault fault;
    size_t table_size, rules_size = 0, room = 0, lines = 0;
    if (count < 2) return 2;
    uint8_t *table = contents(words[1], &table_size), *rules = count > 2 ? contents(words[2], &rules_size) : NULL;
    uint32_t status = uca_open(&collator, table, table_size, rules, rules_size, &fault);
    struct line *all = NULL;
    char *text = NULL;
    for (ssize_t size; status == UCA_OK && (size = getline(&text, &room, stdin)) > 0; lines++, text = NULL, room = 0) {
        size_t bytes = size - (text[size - 1] == '\n');
        all = realloc(all, (lines + 1) * sizeof *all);
        all[lines] = (struct line){text, bytes, NULL, 0};
        status = uca_sort_key(&collator, &settings, (uint8_t *)text, bytes, NULL, 0, &all[lines].size, &fault);
        all[lines].key = malloc(all[lines].size + 1);
        if (status == UCA_OK) status = uca_sort_key(&collator, &settings, (uint8_t *)text, bytes, all[lines].key, all[lines].size, &all[lines].size, &fault);
    }
    if (status != UCA_OK) fprintf(stderr, "%s, kind %u, at %llu\n", uca_status_name(status), fault.kind, (unsigned long long)fault.at);
    else if (lines) qsort(all, lines, sizeof *all, by_key);
    for (size_t i = 0; i < lines; i++) {
        if (status == UCA_OK) {
            fwrite(all[i].text, 1, all[i].bytes, stdout);
            putchar('\n');
        }
        free(all[i].text);
        free(all[i].key);
    }
    free(all);
    free(text);
    free(table);
    free(rules);
    uca_close(&collator);
    return status != UCA_OK;
}
