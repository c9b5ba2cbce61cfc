/* Writes the two ends of uca_prefix_bounds for each line of standard input, as digits: bounds TABLE RULES. A line of the output has
 * both ends, with - for an end of no bytes, or the name of a status. With 0 as a third word, it has the ends of uca_packed_prefix_bounds.
 * With the number of a strength there, and that of an option for variable elements after it or none, it has the packed key of the line. */
#include "checks.h"

enum { ROOM = 1 << 16 };

static uint8_t *contents(const char *path, size_t *size) {
    FILE *file = fopen(path, "rb");
    uint8_t *bytes = malloc(1 << 22);
    if (!file || !bytes) exit(2);
    *size = fread(bytes, 1, 1 << 22, file);
    fclose(file);
    return bytes;
}

static void print_digits(const uint8_t *bytes, size_t size, char end) {
    if (size == 0) putchar('-');
    for (size_t i = 0; i < size; i++) printf("%02X", bytes[i]);
    putchar(end);
}

int main(int count, char **words) {
    static char line[ROOM];
    static uint8_t lower[ROOM], upper[ROOM];
    uca_settings settings = UCA_TERTIARY_SETTINGS;
    uca_collator collator = UCA_CLOSED;
    uca_fault fault;
    size_t table_size, rules_size, lower_size, upper_size;
    if (count < 3 || count > 5) return 2;
    int packed = count > 3, strength = packed ? atoi(words[3]) : 0;
    if (strength) settings.strength = strength;
    if (count == 5) settings.variable = atoi(words[4]);
    uint8_t *table = contents(words[1], &table_size), *rules = contents(words[2], &rules_size);
    if (uca_open(&collator, table, table_size, rules, rules_size, &fault) != UCA_OK) return 3;
    while (fgets(line, sizeof line, stdin)) {
        const uint8_t *text = (uint8_t *)line;
        size_t size = strcspn(line, "\n");
        uint32_t status;
        if (strength) status = uca_packed_key(&collator, &settings, text, size, lower, sizeof lower, &lower_size, &fault);
        else status = (packed ? uca_packed_prefix_bounds : uca_prefix_bounds)(&collator, &settings, text, size, lower, sizeof lower, upper, sizeof upper, &lower_size, &upper_size, &fault);
        if (status != UCA_OK) {
            puts(uca_status_name(status));
            continue;
        }
        print_digits(lower, lower_size, strength ? '\n' : ' ');
        if (!strength) print_digits(upper, upper_size, '\n');
    }
    uca_close(&collator);
    free(table);
    free(rules);
    return 0;
}
