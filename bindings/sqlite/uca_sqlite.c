/*
 * An extension of SQLite that sorts and indexes text by libuca.
 *
 *     .load ./uca_sqlite
 *     SELECT uca_load('uca', 'allkeys.txt');                           -- or with rules: uca_load(name, table, rules)
 *     SELECT uca_load('es', 'allkeys.txt', 'es.rules', 'tertiary', 'non-ignorable');
 *     SELECT t FROM words ORDER BY t COLLATE uca;
 *     CREATE INDEX by_key ON words(uca_key(t));                        -- a packed key, a blob, under the collation 'uca'
 *     SELECT t FROM words ORDER BY uca_key(t);
 *     SELECT uca_key(t, 'es') FROM words;                              -- under the collation of this name
 *     SELECT uca_sort_key(t) FROM words;                               -- the sort key of the standard: longer, in the same order
 *     SELECT t FROM words WHERE uca_key(t) >= uca_prefix_lower('l') AND uca_key(t) < uca_prefix_upper('l');
 *                                                -- the texts whose primary weights begin with those of 'l'; not with uca_sort_key
 *     SELECT t FROM words WHERE uca_begins(t, 'l');                    -- the same without an index
 *     SELECT uca_fingerprint('uca');                                   -- of the table, the rules and the settings
 *
 * Call uca_load on each connection before a statement that needs its collation. The first time it loads a name in a database, it
 * stores the fingerprint in the table uca_fixed there; from then on it refuses another table, rules or settings under that name.
 * It reads files in this process, so triggers and views cannot call it. A collation of SQLite cannot fail, so invalid texts come
 * after all others, in the order of their bytes; uca_key and uca_sort_key report them.
 */
#include <sqlite3ext.h>
SQLITE_EXTENSION_INIT1
#include "uca.h"
#include <stdio.h>
#include <stdlib.h>
#include <string.h>

/* A named collation. Its owners are the registry of its connection and SQLite's own entry for the collation. */
struct collation {
    uca_collator collator;
    uca_settings settings;
    int owners;
    char *name;
    struct collation *next;
};

struct registry {
    struct collation *first;
};

static void let_go(void *room) {
    struct collation *collation = room;
    if (--collation->owners > 0) return;
    uca_close(&collation->collator);
    sqlite3_free(collation->name);
    sqlite3_free(collation);
}

static void let_all_go(void *room) {
    struct registry *registry = room;
    while (registry->first) {
        struct collation *collation = registry->first;
        registry->first = collation->next;
        let_go(collation);
    }
    sqlite3_free(registry);
}

static struct collation *named(struct registry *registry, const char *name) {
    struct collation *collation = registry->first;
    while (collation && sqlite3_stricmp(collation->name, name) != 0) collation = collation->next;
    return collation;
}

static int by_bytes(int a_size, const void *a, int b_size, const void *b) {
    int order = memcmp(a, b, a_size < b_size ? a_size : b_size);
    return order ? order : (a_size > b_size) - (a_size < b_size);
}

static int compare(void *room, int a_size, const void *a, int b_size, const void *b) {
    struct collation *collation = room;
    uca_fault fault;
    int32_t order = 0;
    if (uca_compare(&collation->collator, &collation->settings, a, a_size, b, b_size, &order, &fault) == UCA_OK) return order;
    int a_fails = uca_check(a, a_size, &fault) != UCA_OK, b_fails = uca_check(b, b_size, &fault) != UCA_OK;
    return a_fails && b_fails ? by_bytes(a_size, a, b_size, b) : a_fails - b_fails;
}

static void report(sqlite3_context *context, const char *function, uint32_t status, const uca_fault *fault) {
    if (status == UCA_NO_MEMORY) {
        sqlite3_result_error_nomem(context);
        return;
    }
    if (status == UCA_BAD_SETTINGS) {
        sqlite3_result_error(context, "uca_load: a strength is 'primary', 'secondary', 'tertiary', 'quaternary' or 'identical', and a variable "
                                      "weighting 'non-ignorable', 'blanked' or 'shifted'", -1);
        return;
    }
    char *text = sqlite3_mprintf("%s: %s, kind %u, at %llu", function, uca_status_name(status), fault->kind,
                                 (unsigned long long)fault->at);
    sqlite3_result_error(context, text ? text : function, -1);
    sqlite3_free(text);
}

/* Says why a file is refused, and where: at a line of a table, at a place in rules, or at a relation of theirs. */
static void report_file(sqlite3_context *context, const char *path, const uint8_t *bytes, size_t size, uint32_t status, const uca_fault *fault) {
    uint64_t line = fault->at, column = 0;
    if (status == UCA_BAD_RULES) uca_locate(bytes, size, fault->at, &line, &column);
    char *text = sqlite3_mprintf("uca_load: \"%s\": %s: %s, %s %llu", path, uca_status_name(status), uca_kind_name(fault->kind),
                                 status == UCA_BAD_TAILORING ? "relation" : "line", (unsigned long long)line);
    if (text && column > 0) text = sqlite3_mprintf("%z, column %llu", text, (unsigned long long)column);
    sqlite3_result_error(context, text ? text : "uca_load", -1);
    sqlite3_free(text);
}

/* The collation that an optional argument names; without the argument, 'uca'. */
static struct collation *wanted(sqlite3_context *context, int count, sqlite3_value **values, int place) {
    const char *name = count > place ? (const char *)sqlite3_value_text(values[place]) : "uca";
    struct collation *collation = name ? named(sqlite3_user_data(context), name) : NULL;
    if (!collation) sqlite3_result_error(context, "uca: no collation of this name: call uca_load first", -1);
    return collation;
}

/* A call of the library that makes a key: uca_packed_key for SQL's uca_key, and uca_sort_key for SQL's uca_sort_key. */
typedef uint32_t key_call(const uca_collator *, const uca_settings *, const uint8_t *, size_t, uint8_t *, size_t, size_t *, uca_fault *);

static void key_by(key_call *makes_key, const char *function, sqlite3_context *context, int count, sqlite3_value **values) {
    struct collation *collation = wanted(context, count, values, 1);
    if (!collation || sqlite3_value_type(values[0]) == SQLITE_NULL) return;
    const uint8_t *text = sqlite3_value_text(values[0]);
    size_t size = sqlite3_value_bytes(values[0]), needed = 0;
    uint8_t room[1024], *out = room;
    uca_fault fault;
    uint32_t status = makes_key(&collation->collator, &collation->settings, text, size, out, sizeof room, &needed, &fault);
    if (status == UCA_OK && needed > sizeof room) {
        out = sqlite3_malloc64(needed);
        if (!out) {
            sqlite3_result_error_nomem(context);
            return;
        }
        status = makes_key(&collation->collator, &collation->settings, text, size, out, needed, &needed, &fault);
    }
    if (status != UCA_OK) report(context, function, status, &fault);
    else sqlite3_result_blob64(context, out, needed, SQLITE_TRANSIENT);
    if (out != room) sqlite3_free(out);
}

static void key(sqlite3_context *context, int count, sqlite3_value **values) { key_by(uca_packed_key, "uca_key", context, count, values); }

static void sort_key(sqlite3_context *context, int count, sqlite3_value **values) { key_by(uca_sort_key, "uca_sort_key", context, count, values); }

/* An upper end for a range without one. Its lower end has `size` bytes, all of them FF. No byte string comes after all packed keys of
 * every table, since a weight can be FFFF, of which a key can have three bytes FF, and a text of any length. A key at or after this end
 * belongs to a text with 1365 more primary weights FFFF in a row. */
static void last_end(sqlite3_context *context, size_t size) {
    uint8_t *end = sqlite3_malloc64(size += 4096);
    if (!end) {
        sqlite3_result_error_nomem(context);
        return;
    }
    memset(end, 0xFF, size);
    sqlite3_result_blob64(context, end, size, sqlite3_free);
}

/* Gives one of the two ends of uca_packed_prefix_bounds for a text, and the sizes of both. It is in `room`, of 1024 bytes, or else it has
 * to be freed with sqlite3_free; null if an error was reported. */
static uint8_t *end_of(sqlite3_context *context, struct collation *collation, const char *function, sqlite3_value *value, int is_upper,
                       uint8_t *room, size_t *needed) {
    const uint8_t *text = sqlite3_value_text(value);
    size_t size = sqlite3_value_bytes(value), capacity = 1024;
    uint8_t *out = room;
    uca_fault fault;
    for (;;) {
        uint32_t status = out ? uca_packed_prefix_bounds(&collation->collator, &collation->settings, text, size, is_upper ? NULL : out,
                                                         is_upper ? 0 : capacity, is_upper ? out : NULL, is_upper ? capacity : 0,
                                                         &needed[0], &needed[1], &fault)
                              : UCA_NO_MEMORY;
        if (status == UCA_OK && needed[is_upper] <= capacity) return out;
        if (out != room) sqlite3_free(out);
        if (status != UCA_OK) {
            report(context, function, status, &fault);
            return NULL;
        }
        capacity = needed[is_upper];
        out = sqlite3_malloc64(capacity);
    }
}

static void bound(sqlite3_context *context, int count, sqlite3_value **values, int is_upper) {
    struct collation *collation = wanted(context, count, values, 1);
    uint8_t room[1024], *out;
    size_t needed[2];
    if (!collation || sqlite3_value_type(values[0]) == SQLITE_NULL) return;
    out = end_of(context, collation, is_upper ? "uca_prefix_upper" : "uca_prefix_lower", values[0], is_upper, room, needed);
    if (!out) return;
    if (is_upper && needed[1] == 0) last_end(context, needed[0]);
    else sqlite3_result_blob64(context, out, needed[is_upper], SQLITE_TRANSIENT);
    if (out != room) sqlite3_free(out);
}

static void lower_bound(sqlite3_context *context, int count, sqlite3_value **values) { bound(context, count, values, 0); }

static void upper_bound(sqlite3_context *context, int count, sqlite3_value **values) { bound(context, count, values, 1); }

/* The packed key of a text at the first strength, to be freed with sqlite3_free; null if an error was reported. */
static uint8_t *primary_key(sqlite3_context *context, struct collation *collation, sqlite3_value *value, size_t *needed) {
    const uint8_t *text = sqlite3_value_text(value);
    size_t size = sqlite3_value_bytes(value), capacity = 4 * size + 64;
    uca_settings settings = UCA_SETTINGS(UCA_PRIMARY, collation->settings.variable);
    uca_fault fault;
    for (;;) {
        uint8_t *key = sqlite3_malloc64(capacity);
        uint32_t status = key ? uca_packed_key(&collation->collator, &settings, text, size, key, capacity, needed, &fault) : UCA_NO_MEMORY;
        if (status == UCA_OK && *needed <= capacity) return key;
        sqlite3_free(key);
        if (status != UCA_OK) {
            report(context, "uca_begins", status, &fault);
            return NULL;
        }
        capacity = *needed;
    }
}

/* Whether the primary weights of a text begin with those of another: whether its packed key begins with the lower end of the other's
 * range. */
static void begins(sqlite3_context *context, int count, sqlite3_value **values) {
    struct collation *collation = wanted(context, count, values, 2);
    uint8_t room[1024], *whole, *front;
    size_t whole_size, needed[2];
    if (!collation || sqlite3_value_type(values[0]) == SQLITE_NULL || sqlite3_value_type(values[1]) == SQLITE_NULL) return;
    whole = primary_key(context, collation, values[0], &whole_size);
    front = whole ? end_of(context, collation, "uca_begins", values[1], 0, room, needed) : NULL;
    if (front) sqlite3_result_int(context, needed[0] <= whole_size && memcmp(whole, front, needed[0]) == 0);
    sqlite3_free(whole);
    if (front != room) sqlite3_free(front);
}

static void fingerprint(sqlite3_context *context, int count, sqlite3_value **values) {
    struct collation *collation = wanted(context, count, values, 0);
    uca_digest digest;
    uca_fault none = {0, 0, 0};
    if (!collation) return;
    uint32_t status = uca_fingerprint(&collation->collator, &collation->settings, &digest);
    if (status != UCA_OK) report(context, "uca_fingerprint", status, &none);
    else sqlite3_result_blob(context, digest.bytes, sizeof digest.bytes, SQLITE_TRANSIENT);
}

/* The bytes of a file, to be freed with sqlite3_free; null if it cannot be read. */
static uint8_t *contents(const char *path, size_t *size) {
    FILE *file = fopen(path, "rb");
    uint8_t *bytes = NULL;
    size_t room = 0, got = 0;
    *size = 0;
    if (!file) return NULL;
    do {
        *size += got;
        if (*size == room) {
            uint8_t *grown = sqlite3_realloc64(bytes, room = room ? 2 * room : 1 << 16);
            if (!grown) break;
            bytes = grown;
        }
        got = fread(bytes + *size, 1, room - *size, file);
    } while (got > 0);
    int failed = ferror(file) || *size == room;
    fclose(file);
    if (failed) sqlite3_free(bytes);
    return failed ? NULL : bytes;
}

/* The index of a word among others, or a number that no setting has. */
static uint32_t place_of(const char *word, const char *const *words, uint32_t count) {
    for (uint32_t i = 0; i < count; i++)
        if (word && strcmp(word, words[i]) == 0) return i;
    return 99;
}

static uca_settings settings_of(int count, sqlite3_value **values) {
    static const char *const strengths[] = {"primary", "secondary", "tertiary", "quaternary", "identical"};
    static const char *const options[] = {"non-ignorable", "blanked", "shifted"};
    uca_settings settings = UCA_TERTIARY_SETTINGS;
    if (count > 3) settings.strength = 1 + place_of((const char *)sqlite3_value_text(values[3]), strengths, 5);
    if (count > 4) settings.variable = place_of((const char *)sqlite3_value_text(values[4]), options, 3);
    return settings;
}

static void cannot_read(sqlite3_context *context, const char *path) {
    char *text = sqlite3_mprintf("uca_load: could not read \"%s\"", path ? path : "");
    sqlite3_result_error(context, text ? text : "uca_load", -1);
    sqlite3_free(text);
}

/* Opens a collator with the files that the arguments name. Returns whether it did. */
static int opens(sqlite3_context *context, struct collation *collation, int count, sqlite3_value **values) {
    size_t table_size = 0, rules_size = 0;
    const char *table_path = (const char *)sqlite3_value_text(values[1]);
    const char *rules_path = count > 2 ? (const char *)sqlite3_value_text(values[2]) : NULL;
    uint8_t *table = table_path ? contents(table_path, &table_size) : NULL;
    uint8_t *rules = rules_path ? contents(rules_path, &rules_size) : NULL;
    uint32_t status = UCA_OK;
    uca_fault fault = {0, 0, 0};
    int are_read = table && (rules || !rules_path);
    if (are_read) status = uca_open(&collation->collator, table, table_size, rules, rules_size, &fault);
    if (!are_read) cannot_read(context, table ? rules_path : table_path);
    else if (status == UCA_BAD_RULES || status == UCA_BAD_TAILORING) report_file(context, rules_path, rules, rules_size, status, &fault);
    else if (status == UCA_BAD_TABLE) report_file(context, table_path, table, table_size, status, &fault);
    else if (status != UCA_OK) report(context, "uca_load", status, &fault);
    sqlite3_free(table);
    sqlite3_free(rules);
    return are_read && status == UCA_OK;
}

/* Runs a statement on a database up to its first row, with a name and a digest bound. Returns SQLite's result. Writes to `has_row` whether
 * there is a row, and to `is_same` whether its first column is the digest. */
static int run(sqlite3 *connection, const char *sql, const char *schema, const char *name, const uca_digest *digest, int *has_row,
               int *is_same) {
    sqlite3_stmt *statement = NULL;
    char *text = sqlite3_mprintf(sql, schema);
    int result = text ? sqlite3_prepare_v2(connection, text, -1, &statement, NULL) : SQLITE_NOMEM;
    sqlite3_free(text);
    *has_row = *is_same = 0;
    if (result != SQLITE_OK) return result;
    if (sqlite3_bind_parameter_count(statement) > 0) sqlite3_bind_text(statement, 1, name, -1, SQLITE_STATIC);
    if (sqlite3_bind_parameter_count(statement) > 1) sqlite3_bind_blob(statement, 2, digest->bytes, sizeof digest->bytes, SQLITE_STATIC);
    if (sqlite3_step(statement) == SQLITE_ROW) {
        *has_row = 1;
        *is_same = sqlite3_column_bytes(statement, 0) == sizeof digest->bytes
            && memcmp(sqlite3_column_blob(statement, 0), digest->bytes, sizeof digest->bytes) == 0;
    }
    return sqlite3_finalize(statement);
}

/* Whether a database has no other fingerprint fixed for a name. If it has none and `may_fix` allows it, fixes this one. */
static int fits(sqlite3_context *context, sqlite3 *connection, const char *schema, const char *name, const uca_digest *digest, int may_fix) {
    int has_row, is_same, result;
    result = run(connection, "SELECT 1 FROM \"%w\".sqlite_schema WHERE type = 'table' AND name = 'uca_fixed'",
                 schema, name, digest, &has_row, &is_same);
    if (result == SQLITE_OK && has_row)
        result = run(connection, "SELECT fingerprint FROM \"%w\".uca_fixed WHERE name = ?1", schema, name, digest, &has_row, &is_same);
    else if (result == SQLITE_OK && may_fix)
        result = run(connection, "CREATE TABLE \"%w\".uca_fixed (name TEXT PRIMARY KEY COLLATE NOCASE, fingerprint BLOB NOT NULL)",
                     schema, name, digest, &has_row, &is_same);
    if (result == SQLITE_OK && has_row && !is_same) {
        char *text = sqlite3_mprintf("uca_load: the database \"%s\" has keys of another table, other rules, other settings or another "
                                     "version of uca under \"%s\": load those, or DELETE FROM uca_fixed, load these, and REINDEX", schema, name);
        sqlite3_result_error(context, text ? text : "uca_load", -1);
        sqlite3_free(text);
        return 0;
    }
    if (result == SQLITE_OK && !has_row && may_fix)
        result = run(connection, "INSERT INTO \"%w\".uca_fixed VALUES (?1, ?2)", schema, name, digest, &has_row, &is_same);
    if (result == SQLITE_OK || (result & 0xFF) == SQLITE_READONLY) return 1;
    sqlite3_result_error(context, sqlite3_errmsg(connection), -1);
    return 0;
}

/* Whether no open database has another fingerprint fixed for the name of a collation. If the main one has none, fixes this one there. */
static int fits_all(sqlite3_context *context, sqlite3 *connection, struct collation *collation) {
    uca_digest digest;
    uca_fault none = {0, 0, 0};
    sqlite3_stmt *databases;
    uint32_t status = uca_fingerprint(&collation->collator, &collation->settings, &digest);
    if (status != UCA_OK) {
        report(context, "uca_load", status, &none);
        return 0;
    }
    if (sqlite3_prepare_v2(connection, "SELECT name FROM pragma_database_list WHERE name <> 'main'", -1, &databases, NULL) != SQLITE_OK) {
        sqlite3_result_error(context, sqlite3_errmsg(connection), -1);
        return 0;
    }
    int are_fitting = 1;
    while (are_fitting && sqlite3_step(databases) == SQLITE_ROW)
        are_fitting = fits(context, connection, (const char *)sqlite3_column_text(databases, 0), collation->name, &digest, 0);
    sqlite3_finalize(databases);
    return are_fitting && fits(context, connection, "main", collation->name, &digest, 1);
}

static void load(sqlite3_context *context, int count, sqlite3_value **values) {
    struct registry *registry = sqlite3_user_data(context);
    sqlite3 *connection = sqlite3_context_db_handle(context);
    const char *name = count > 0 ? (const char *)sqlite3_value_text(values[0]) : NULL;
    if (count < 2 || count > 5 || !name) {
        sqlite3_result_error(context, "uca_load(name, table [, rules [, strength [, variable]]])", -1);
        return;
    }
    if (named(registry, name)) {
        sqlite3_result_error(context, "uca_load: there is a collation of this name", -1);
        return;
    }
    struct collation *collation = sqlite3_malloc(sizeof *collation);
    if (!collation) {
        sqlite3_result_error_nomem(context);
        return;
    }
    memset(collation, 0, sizeof *collation);
    collation->owners = 1;
    collation->settings = settings_of(count, values);
    collation->name = sqlite3_mprintf("%s", name);
    uca_fault fault = {0, 0, 0};
    int32_t order;
    uint32_t status;
    if (!collation->name || !opens(context, collation, count, values)) {
        if (!collation->name) sqlite3_result_error_nomem(context);
        let_go(collation);
        return;
    }
    status = uca_compare(&collation->collator, &collation->settings, NULL, 0, NULL, 0, &order, &fault);
    if (status != UCA_OK) report(context, "uca_load", status, &fault);
    if (status != UCA_OK || !fits_all(context, connection, collation)) {
        let_go(collation);
        return;
    }
    collation->owners = 2;
    if (sqlite3_create_collation_v2(connection, name, SQLITE_UTF8, collation, compare, let_go) != SQLITE_OK) {
        sqlite3_result_error(context, sqlite3_errmsg(connection), -1);
        collation->owners = 1;
        let_go(collation);
        return;
    }
    collation->next = registry->first;
    registry->first = collation;
    sqlite3_result_text(context, name, -1, SQLITE_TRANSIENT);
}

#ifdef _WIN32
__declspec(dllexport)
#endif
int sqlite3_ucasqlite_init(sqlite3 *connection, char **error, const sqlite3_api_routines *api) {
    SQLITE_EXTENSION_INIT2(api);
    (void)error;
    struct registry *registry = sqlite3_malloc(sizeof *registry);
    if (!registry) return SQLITE_NOMEM;
    registry->first = NULL;
    int flags = SQLITE_UTF8 | SQLITE_DETERMINISTIC | SQLITE_INNOCUOUS;
    /* The first function frees the registry when the connection closes. */
    int result = sqlite3_create_function_v2(connection, "uca_load", -1, SQLITE_UTF8 | SQLITE_DIRECTONLY, registry, load, NULL, NULL, let_all_go);
    for (int count = 2; count <= 3; count++)
        if (result == SQLITE_OK) result = sqlite3_create_function_v2(connection, "uca_begins", count, flags, registry, begins, NULL, NULL, NULL);
    for (int count = 1; count <= 2; count++) {
        if (result == SQLITE_OK) result = sqlite3_create_function_v2(connection, "uca_key", count, flags, registry, key, NULL, NULL, NULL);
        if (result == SQLITE_OK) result = sqlite3_create_function_v2(connection, "uca_sort_key", count, flags, registry, sort_key, NULL, NULL, NULL);
        if (result == SQLITE_OK) result = sqlite3_create_function_v2(connection, "uca_prefix_lower", count, flags, registry, lower_bound, NULL, NULL, NULL);
        if (result == SQLITE_OK) result = sqlite3_create_function_v2(connection, "uca_prefix_upper", count, flags, registry, upper_bound, NULL, NULL, NULL);
    }
    if (result == SQLITE_OK) result = sqlite3_create_function_v2(connection, "uca_fingerprint", -1, SQLITE_UTF8, registry, fingerprint, NULL, NULL, NULL);
    return result;
}
