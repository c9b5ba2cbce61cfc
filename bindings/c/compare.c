/* Compares two texts under a table: compare TABLE TEXT TEXT */
#include <stdio.h>
#include <string.h>
#include <uca.h>

static uint8_t table[4 << 20];

int main(int count, char **words) {
    FILE *file = count == 4 ? fopen(words[1], "rb") : NULL;
    if (!file) return 2;
    size_t size = fread(table, 1, sizeof table, file);
    fclose(file);

    uca_collator collator = UCA_CLOSED;
    uca_settings settings = UCA_TERTIARY_SETTINGS;
    uca_fault fault;
    int32_t order = 0;
    uint32_t status = uca_open(&collator, table, size, NULL, 0, &fault);
    if (status == UCA_OK)
        status = uca_compare(&collator, &settings, (uint8_t *)words[2], strlen(words[2]),
                             (uint8_t *)words[3], strlen(words[3]), &order, &fault);
    if (status == UCA_OK)
        printf("%s %s %s\n", words[2], order < 0 ? "<" : order > 0 ? ">" : "=", words[3]);
    else
        fprintf(stderr, "%s at %llu\n", uca_status_name(status), (unsigned long long)fault.at);
    uca_close(&collator);
    return status != UCA_OK;
}
