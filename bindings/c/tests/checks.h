/* What the tests of the C library share: a small table, rules, and checks that are counted. */
#ifndef CHECKS_H
#define CHECKS_H
#include "uca.h"
#include <stdio.h>
#include <stdlib.h>
#include <string.h>

static int failed_checks;

#define CHECK(holds) check((holds), #holds, __FILE__, __LINE__)

static inline void check(int holds, const char *what, const char *file, int line) {
    if (holds) return;
    fprintf(stderr, "%s:%d: does not hold: %s\n", file, line, what);
    failed_checks++;
}

static const char small_table[] =
    "@version 17.0.0\n"
    "0020 ; [*0201.0020.0002]\n"
    "0061 ; [.1000.0020.0002]\n"
    "0041 ; [.1000.0020.0008]\n"
    "0062 ; [.1001.0020.0002]\n"
    "0063 ; [.1002.0020.0002]\n"
    "0068 ; [.1005.0020.0002]\n"
    "0301 ; [.0000.0024.0002]\n";

static const char ch_rules[] = "&c<ch<<<Ch";

/* A text literal, as a pointer and a size. */
#define TEXT(literal) (const uint8_t *)(literal), sizeof(literal) - 1

static inline void open_small(uca_collator *collator) {
    uca_fault fault;
    if (uca_open(collator, TEXT(small_table), TEXT(ch_rules), &fault) != UCA_OK) exit(2);
}
#endif
