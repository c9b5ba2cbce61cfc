// SQLite over the rows of a file: an index and an order by uca_key (packed keys) and by uca_sort_key beside the same by ICU's keys:
// sqlite TABLE LINES EXTENSION [ROUNDS]
// Each figure is the processor time of the fastest of several rounds, which are interleaved. The time of making the keys is the
// difference from the same work with ready blobs, which a function returns by a row's number.
#include <sqlite3.h>
#include <stdio.h>
#include <stdlib.h>
#include <string.h>
#include <time.h>
#include <unicode/ucol.h>
#include <unicode/ustring.h>

static UCollator *icu;

/* The keys of all rows, made beforehand, by the numbers of the rows from 1 on. */
struct blob {
    void *bytes;
    int size;
};

struct blobs {
    struct blob *of;
    size_t count;
};

/* Packed keys, sort keys, and ICU's. */
enum { KINDS = 3, ICU = KINDS - 1 };

static struct blobs ready_keys[KINDS];

static double now(void) {
    struct timespec time;
    clock_gettime(CLOCK_PROCESS_CPUTIME_ID, &time);
    return time.tv_sec + time.tv_nsec / 1e9;
}

static void icu_key(sqlite3_context *context, int count, sqlite3_value **values) {
    static UChar wide[1 << 16];
    static uint8_t key[1 << 18];
    UErrorCode error = U_ZERO_ERROR;
    int32_t points;
    (void)count;
    u_strFromUTF8(wide, 1 << 16, &points, (const char *)sqlite3_value_text(values[0]), sqlite3_value_bytes(values[0]), &error);
    int32_t size = ucol_getSortKey(icu, wide, points, key, sizeof key);
    sqlite3_result_blob(context, key, size, SQLITE_TRANSIENT);
}

static void ready_key(sqlite3_context *context, int count, sqlite3_value **values) {
    struct blobs *keys = sqlite3_user_data(context);
    sqlite3_int64 row = sqlite3_value_int64(values[0]);
    (void)count;
    if (row < 1 || (size_t)row > keys->count) exit(4);
    sqlite3_result_blob(context, keys->of[row - 1].bytes, keys->of[row - 1].size, SQLITE_TRANSIENT);
}

static sqlite3 *database;

static void run(const char *form, const char *a, const char *b) {
    char *error = NULL, *text = sqlite3_mprintf(form, a, b);
    if (sqlite3_exec(database, text, NULL, NULL, &error)) {
        fprintf(stderr, "%s: %s\n", text, error);
        exit(3);
    }
    sqlite3_free(text);
}

// The seconds that a statement takes.
static double seconds(const char *form, const char *a) {
    double from = now();
    run(form, a, "");
    return now() - from;
}

static void load_lines(const char *path) {
    FILE *file = fopen(path, "rb");
    sqlite3_stmt *insert;
    char *line = NULL;
    size_t room = 0;
    if (!file) exit(2);
    run("CREATE TABLE w (n INTEGER PRIMARY KEY, t TEXT)", "", "");
    run("BEGIN", "", "");
    sqlite3_prepare_v2(database, "INSERT INTO w (t) VALUES (?)", -1, &insert, NULL);
    for (ssize_t size; (size = getline(&line, &room, file)) > 0;) {
        sqlite3_bind_text(insert, 1, line, (int)(size - (line[size - 1] == '\n')), SQLITE_STATIC);
        sqlite3_step(insert);
        sqlite3_reset(insert);
    }
    sqlite3_finalize(insert);
    run("COMMIT", "", "");
    free(line);
    fclose(file);
}

static void make_ready(struct blobs *keys, const char *form, const char *key) {
    sqlite3_stmt *select;
    size_t room = 0;
    char *text = sqlite3_mprintf(form, key);
    if (sqlite3_prepare_v2(database, text, -1, &select, NULL)) exit(3);
    sqlite3_free(text);
    while (sqlite3_step(select) == SQLITE_ROW) {
        if (keys->count == room && !(keys->of = realloc(keys->of, (room = room ? 2 * room : 1024) * sizeof *keys->of))) exit(3);
        struct blob blob = {NULL, sqlite3_column_bytes(select, 0)};
        if (!(blob.bytes = malloc(blob.size + 1))) exit(3);
        if (blob.size) memcpy(blob.bytes, sqlite3_column_blob(select, 0), blob.size);
        keys->of[keys->count++] = blob;
    }
    sqlite3_finalize(select);
}

static double mean_size(const struct blobs *keys) {
    double sum = 0;
    for (size_t row = 0; row < keys->count; row++) sum += keys->of[row].size;
    return sum / keys->count;
}

#define SORTED "SELECT count(*) FROM (SELECT t FROM w ORDER BY %s LIMIT -1 OFFSET 1)"

int main(int count, char **words) {
    static const char *const names[2 * KINDS] = {"uca_key(t)", "uca_sort_key(t)", "icu_key(t)", "ready_key(n)", "ready_sort_key(n)", "ready_icu_key(n)"};
    static const char *const ready[KINDS] = {"ready_key", "ready_sort_key", "ready_icu_key"};
    static const char *const kinds[KINDS] = {"packed keys", "sort keys", "ICU's keys"};
    static const char *const what[] = {"CREATE INDEX i ON w (%s)", SORTED, "DROP INDEX i", SORTED};
    static const char *const titles[] = {"an index is built", "ORDER BY with it", NULL, "ORDER BY without it"};
    int rounds = count > 4 ? atoi(words[4]) : 3;
    double best[4][2 * KINDS];
    UErrorCode error = U_ZERO_ERROR;
    if (count < 4) return 2;
    icu = ucol_open("", &error);
    ucol_setAttribute(icu, UCOL_NORMALIZATION_MODE, UCOL_ON, &error);
    if (U_FAILURE(error) || sqlite3_open("", &database)) return 3;
    sqlite3_enable_load_extension(database, 1);
    if (sqlite3_load_extension(database, words[3], "sqlite3_ucasqlite_init", NULL)) return 3;
    sqlite3_create_function(database, "icu_key", 1, SQLITE_UTF8 | SQLITE_DETERMINISTIC | SQLITE_INNOCUOUS, NULL, icu_key, NULL, NULL);
    for (int by = 0; by < KINDS; by++) {
        sqlite3_create_function(database, ready[by], 1, SQLITE_UTF8 | SQLITE_DETERMINISTIC | SQLITE_INNOCUOUS, &ready_keys[by], ready_key, NULL, NULL);
    }
    run("SELECT uca_load('uca', %Q)", words[1], "");
    load_lines(words[2]);
    run("PRAGMA cache_size = -1000000", "", "");
    for (int by = 0; by < KINDS; by++) make_ready(&ready_keys[by], "SELECT %s FROM w ORDER BY n", names[by]);
    printf("%zu rows", ready_keys[ICU].count);
    for (int by = 0; by < KINDS; by++) printf(", %s of %.0f bytes", kinds[by], mean_size(&ready_keys[by]));
    printf("\n");
    for (int round = 0; round < rounds; round++) {
        for (int by = 0; by < 2 * KINDS; by++) {
            for (int step = 0; step < 4; step++) {
                double took = seconds(what[step], names[by]);
                if (round == 0 || took < best[step][by]) best[step][by] = took;
            }
        }
    }
    for (int step = 0; step < 4; step++) {
        for (int by = 0; titles[step] && by < ICU; by++) {
            const double *of_ready = best[step] + KINDS;
            printf("%s, %s: %.2f s (ICU %.2f, %.2f times), with keys that are ready %.2f (%.2f, %.2f times)\n", titles[step], kinds[by], best[step][by],
                   best[step][ICU], best[step][by] / best[step][ICU], of_ready[by], of_ready[ICU], of_ready[by] / of_ready[ICU]);
        }
    }
    sqlite3_close(database);
    ucol_close(icu);
    return 0;
}
