/*
 * An extension of PostgreSQL that sorts and indexes text by libuca: keys as bytea, and operator classes for text.
 *
 * A collation is a text search dictionary of the template `uca`. Its options name the files, the settings, and the fingerprint that was
 * fixed when it was made. The server keeps dictionaries in its catalog, tells each session when one changes, records which indexes name
 * one, and dumps them before any table. A collation makes keys only while its files have its fingerprint, so its functions are
 * immutable. Functions that take no collation use the one named `uca`, in the schema of the extension.
 */
#include "postgres.h"
#include "catalog/pg_authid.h"
#include "catalog/pg_ts_dict.h"
#include "catalog/pg_ts_template.h"
#include "commands/defrem.h"
#include "common/hashfn.h"
#include "fmgr.h"
#include "mb/pg_wchar.h"
#include "miscadmin.h"
#include "port/pg_bswap.h"
#include "storage/fd.h"
#include "utils/acl.h"
#include "utils/builtins.h"
#include "utils/guc.h"
#include "utils/hsearch.h"
#include "utils/inval.h"
#include "utils/lsyscache.h"
#include "utils/memutils.h"
#include "utils/plancache.h"
#include "utils/sortsupport.h"
#include "utils/syscache.h"
#include "utils/varlena.h"
#include "uca.h"

PG_MODULE_MAGIC;

/* A table has at most 64 MiB; rules have less. */
#define MOST_BYTES ((size_t)64 << 20)

/* If a range has no upper end, this many bytes FF after the lower end, which has only bytes FF, are used as one. No byte string comes
 * after all packed keys of every table, since a weight can be FFFF, of which a key can have three bytes FF, and a text of any length. A key
 * at or after this end belongs to a text with 1365 more primary weights FFFF in a row. */
#define BYTES_OF_LAST_END 4096

#define DIGITS (2 * sizeof(uca_digest))

/* The options of a dictionary. */
struct definition {
    const char *table, *rules; /* names of files; if the second is empty, there are no rules */
    uca_settings settings;
    const char *fixed; /* the fingerprint in hexadecimal digits, or null */
};

/* A collation that this session has used. */
struct collation {
    Oid oid; /* of its dictionary */
    uint64 seen; /* the number of changes when it was last checked */
    char *options; /* those that its table was checked against, or null */
    uca_collator collator;
    uca_settings settings;
};

/* A table that the postmaster has loaded, for all sessions. */
struct preloaded {
    char *table, *rules;
    uca_settings settings;
    uca_collator collator;
    char digits[DIGITS + 1];
};

static HTAB *collations;
static uint64 changes = 1; /* of dictionaries, and of the settings */
static struct preloaded *preloads;
static int count_of_preloads;
static char *table_path, *rules_path, *preload_list;
static int strength, variable;

static const struct config_enum_entry strengths[] = {
    {"primary", UCA_PRIMARY, false}, {"secondary", UCA_SECONDARY, false}, {"tertiary", UCA_TERTIARY, false},
    {"quaternary", UCA_QUATERNARY, false}, {"identical", UCA_IDENTICAL, false}, {NULL, 0, false}};
static const struct config_enum_entry variables[] = {
    {"non-ignorable", UCA_NON_IGNORABLE, false}, {"blanked", UCA_BLANKED, false}, {"shifted", UCA_SHIFTED, false}, {NULL, 0, false}};

static void path_changed(const char *value, void *extra) { changes++; }

static void setting_changed(int value, void *extra) { changes++; }

/* Cached plans may have earlier keys as constants. */
static void dictionaries_changed(Datum arg, int cache, uint32 hash) {
    changes++;
    ResetPlanCache();
}

/* The number that a word names, or an error. */
static int number_of(const struct config_enum_entry *words, const char *option, const char *word) {
    const struct config_enum_entry *entry = words;
    while (entry->name && strcmp(entry->name, word) != 0) entry++;
    if (!entry->name) ereport(ERROR, (errcode(ERRCODE_INVALID_PARAMETER_VALUE), errmsg("uca: \"%s\" is not a value of %s", word, option)));
    return entry->val;
}

static const char *word_of(const struct config_enum_entry *words, int number) {
    while (words->name && words->val != number) words++;
    return words->name;
}

static void report(const char *function, uint32_t status, const uca_fault *fault) {
    int code = status == UCA_NO_MEMORY ? ERRCODE_OUT_OF_MEMORY
        : status <= UCA_LONG_RUN ? ERRCODE_CHARACTER_NOT_IN_REPERTOIRE : ERRCODE_INVALID_PARAMETER_VALUE;
    ereport(ERROR, (errcode(code), errmsg("%s: %s, kind %u, at %llu", function, uca_status_name(status), fault->kind,
                                          (unsigned long long)fault->at)));
}

/* The bytes of a file, in the current memory context. */
static uint8_t *contents(const char *path, size_t *size) {
    FILE *file = AllocateFile(path, PG_BINARY_R);
    size_t room = 1 << 16, got;
    uint8_t *bytes = palloc(room);
    *size = 0;
    if (!file) ereport(ERROR, (errcode_for_file_access(), errmsg("uca: could not open \"%s\": %m", path)));
    while ((got = fread(bytes + *size, 1, room - *size, file)) > 0) {
        *size += got;
        if (*size > MOST_BYTES) ereport(ERROR, (errcode(ERRCODE_PROGRAM_LIMIT_EXCEEDED), errmsg("uca: \"%s\" is larger than 64 MiB", path)));
        if (*size == room) bytes = repalloc(bytes, room *= 2);
    }
    if (ferror(file)) ereport(ERROR, (errcode_for_file_access(), errmsg("uca: could not read \"%s\": %m", path)));
    FreeFile(file);
    return bytes;
}

/* Says why a file is refused, and where: at a line of a table, at a place in rules, or at a relation of theirs. */
static void report_file(const char *path, const uint8_t *bytes, size_t size, uint32_t status, const uca_fault *fault) {
    uint64_t line = fault->at, column = 0;
    if (status == UCA_BAD_RULES) uca_locate(bytes, size, fault->at, &line, &column);
    ereport(ERROR, (errcode(ERRCODE_INVALID_PARAMETER_VALUE),
                    errmsg("uca: \"%s\": %s: %s, %s %llu%s", path, uca_status_name(status), uca_kind_name(fault->kind),
                           status == UCA_BAD_TAILORING ? "relation" : "line", (unsigned long long)line,
                           column > 0 ? psprintf(", column %llu", (unsigned long long)column) : "")));
}

/* Opens a collator with files. A fault in their contents is reported with the name of the file. */
static void open_files(uca_collator *collator, const char *table_file, const char *rules_file) {
    uca_fault fault;
    size_t table_size, rules_size = 0;
    uint8_t *table = contents(table_file, &table_size), *rules = *rules_file ? contents(rules_file, &rules_size) : NULL;
    uint32_t status = uca_open(collator, table, table_size, rules, rules_size, &fault);
    if (status == UCA_BAD_RULES || status == UCA_BAD_TAILORING) report_file(rules_file, rules, rules_size, status, &fault);
    if (status == UCA_BAD_TABLE) report_file(table_file, table, table_size, status, &fault);
    if (status != UCA_OK) report("uca_open", status, &fault);
    pfree(table);
    if (rules) pfree(rules);
}

static void digest_of(const uca_collator *collator, const uca_settings *settings, uca_digest *digest) {
    uca_fault none = {0, 0, 0};
    uint32_t status = uca_fingerprint(collator, settings, digest);
    if (status != UCA_OK) report("uca_fingerprint", status, &none);
}

static void digits_of(const uca_collator *collator, const uca_settings *settings, char *digits) {
    uca_digest digest;
    digest_of(collator, settings, &digest);
    hex_encode((char *)digest.bytes, sizeof digest.bytes, digits);
    digits[DIGITS] = '\0';
}

/* Parses the options of a dictionary, or reports which one is wrong. */
static struct definition definition_of(List *options) {
    struct definition definition = {"", "", UCA_TERTIARY_SETTINGS, NULL};
    ListCell *cell;
    foreach(cell, options) {
        DefElem *option = lfirst(cell);
        const char *value = defGetString(option);
        if (strcmp(option->defname, "table_file") == 0) definition.table = value;
        else if (strcmp(option->defname, "rules_file") == 0) definition.rules = value;
        else if (strcmp(option->defname, "strength") == 0) definition.settings.strength = number_of(strengths, "strength", value);
        else if (strcmp(option->defname, "variable") == 0) definition.settings.variable = number_of(variables, "variable", value);
        else if (strcmp(option->defname, "fingerprint") == 0) definition.fixed = value;
        else ereport(ERROR, (errcode(ERRCODE_INVALID_PARAMETER_VALUE), errmsg("uca: a collation has no option \"%s\"", option->defname),
                             errhint("Its options are table_file, rules_file, strength and variable.")));
    }
    if (!*definition.table) ereport(ERROR, (errcode(ERRCODE_INVALID_PARAMETER_VALUE), errmsg("uca: table_file is missing")));
    return definition;
}

/* The options of a dictionary, as the catalog has them. Writes its name to `name`. */
static char *options_of(Oid oid, Oid schema, char **name) {
    HeapTuple tuple = SearchSysCache1(TSDICTOID, ObjectIdGetDatum(oid)), template;
    Form_pg_ts_dict row;
    bool is_ours, is_null;
    Datum options;
    char *copy;
    if (!HeapTupleIsValid(tuple))
        ereport(ERROR, (errcode(ERRCODE_UNDEFINED_OBJECT), errmsg("uca: there is no text search dictionary %u", oid)));
    row = (Form_pg_ts_dict)GETSTRUCT(tuple);
    *name = pstrdup(NameStr(row->dictname));
    template = SearchSysCache1(TSTEMPLATEOID, ObjectIdGetDatum(row->dicttemplate));
    is_ours = HeapTupleIsValid(template) && strcmp(NameStr(((Form_pg_ts_template)GETSTRUCT(template))->tmplname), "uca") == 0
        && ((Form_pg_ts_template)GETSTRUCT(template))->tmplnamespace == schema;
    if (HeapTupleIsValid(template)) ReleaseSysCache(template);
    if (!is_ours)
        ereport(ERROR, (errcode(ERRCODE_WRONG_OBJECT_TYPE), errmsg("uca: the text search dictionary \"%s\" is not a collation of uca", *name)));
    options = SysCacheGetAttr(TSDICTOID, tuple, Anum_pg_ts_dict_dictinitoption, &is_null);
    copy = is_null ? pstrdup("") : TextDatumGetCString(options);
    ReleaseSysCache(tuple);
    return copy;
}

static struct definition definition_in(const char *options) {
    return definition_of(deserialize_deflist(PointerGetDatum(cstring_to_text(options))));
}

static void report_setting(const char *setting, const char *value, const char *fixed) {
    ereport(ERROR, (errcode(ERRCODE_CONFIG_FILE_ERROR), errmsg("uca: %s is \"%s\", and the collation \"uca\" has \"%s\"", setting, value, fixed),
                    errhint("Set uca.table_file, uca.rules_file, uca.strength and uca.variable as they were; "
                            "or SELECT uca_fix(), which says what depends on them.")));
}

/* Settings can name the default collation too. If they are set, they must agree with it. */
static void check_settings(const struct definition *definition) {
    if (!*table_path) return;
    if (strcmp(table_path, definition->table) != 0) report_setting("uca.table_file", table_path, definition->table);
    if (strcmp(rules_path, definition->rules) != 0) report_setting("uca.rules_file", rules_path, definition->rules);
    if (strength != definition->settings.strength)
        report_setting("uca.strength", word_of(strengths, strength), word_of(strengths, definition->settings.strength));
    if (variable != definition->settings.variable)
        report_setting("uca.variable", word_of(variables, variable), word_of(variables, definition->settings.variable));
}

static bool has_settings(const struct preloaded *preloaded, const uca_settings *settings) {
    return memcmp(&preloaded->settings, settings, sizeof *settings) == 0;
}

/* Shares a table that the postmaster has loaded, if there is one of these files with the fixed fingerprint. If it was loaded for these
 * settings, its fingerprint is already known. */
static bool takes_preloaded(struct collation *collation, const struct definition *definition) {
    int round, i;
    for (round = 0; round < 2; round++) {
        for (i = 0; i < count_of_preloads; i++) {
            struct preloaded *preloaded = preloads + i;
            char digits[DIGITS + 1];
            if (has_settings(preloaded, &definition->settings) != (round == 0)) continue;
            if (strcmp(preloaded->table, definition->table) != 0 || strcmp(preloaded->rules, definition->rules) != 0) continue;
            if (uca_clone(&preloaded->collator, &collation->collator) != UCA_OK) continue;
            if (round == 0) memcpy(digits, preloaded->digits, sizeof digits);
            else digits_of(&collation->collator, &definition->settings, digits);
            if (strcmp(digits, definition->fixed) == 0) return true;
        }
    }
    return false;
}

/* Gives a collation the table of its definition, if that has the fixed fingerprint. */
static void load(struct collation *collation, const struct definition *definition, const char *name) {
    char digits[DIGITS + 1];
    uca_close(&collation->collator);
    collation->settings = definition->settings;
    if (takes_preloaded(collation, definition)) return;
    open_files(&collation->collator, definition->table, definition->rules);
    digits_of(&collation->collator, &collation->settings, digits);
    if (strcmp(digits, definition->fixed) == 0) return;
    uca_close(&collation->collator);
    ereport(ERROR, (errcode(ERRCODE_INDEX_CORRUPTED), errmsg("uca: the fingerprint of the collation \"%s\" is not the one that was fixed", name),
                    errdetail("The fingerprint of \"%s\"%s%s%s is %s; fixed was %s.",
                              definition->table, *definition->rules ? " with \"" : "",
                              definition->rules, *definition->rules ? "\"" : "", digits, definition->fixed),
                    errhint("Restore the files, the settings and the version of uca; or SELECT uca_fix(%s), which says what depends on it.",
                            quote_literal_cstr(name))));
}

static void make_right(struct collation *collation, Oid schema, bool is_default) {
    uint64 now = changes;
    char *name, *options = options_of(collation->oid, schema, &name), *kept = NULL;
    struct definition definition = definition_in(options);
    if (is_default) check_settings(&definition);
    if (!definition.fixed)
        ereport(ERROR, (errcode(ERRCODE_OBJECT_NOT_IN_PREREQUISITE_STATE), errmsg("uca: the fingerprint of the collation \"%s\" is not fixed yet", name),
                        errhint("SELECT uca_fix(%s) fixes it.", quote_literal_cstr(name))));
    if (!collation->options || strcmp(collation->options, options) != 0) {
        kept = MemoryContextStrdup(TopMemoryContext, options);
        if (collation->options) pfree(collation->options);
        collation->options = NULL;
        PG_TRY();
        {
            load(collation, &definition, name);
        }
        PG_CATCH();
        {
            pfree(kept);
            PG_RE_THROW();
        }
        PG_END_TRY();
        collation->options = kept;
    }
    collation->seen = now;
    pfree(options);
    pfree(name);
}

/* The collation named `uca` in the schema of the extension. */
static Oid default_in(Oid schema) {
    Oid oid = GetSysCacheOid2(TSDICTNAMENSP, Anum_pg_ts_dict_oid, CStringGetDatum("uca"), ObjectIdGetDatum(schema));
    if (!OidIsValid(oid))
        ereport(ERROR, (errcode(ERRCODE_UNDEFINED_OBJECT), errmsg("uca: there is no collation \"uca\""),
                        errhint("SELECT uca_create('uca', table_file, rules_file) makes it; or set uca.table_file and SELECT uca_fix().")));
    return oid;
}

static struct collation *collation_by(Oid oid, Oid schema, bool is_default) {
    struct collation *collation;
    bool is_found;
    collation = hash_search(collations, &oid, HASH_ENTER, &is_found);
    if (!is_found) {
        collation->seen = 0;
        collation->options = NULL;
        memset(&collation->collator, 0, sizeof collation->collator);
    }
    if (collation->seen != changes) make_right(collation, schema, is_default);
    return collation;
}

static struct collation *default_of(Oid function) {
    static struct collation *last;
    Oid schema;
    if (last && last->seen == changes) return last;
    schema = get_func_namespace(function);
    return last = collation_by(default_in(schema), schema, true);
}

/* The collation that an argument names, or the default one if the function has no such argument. */
static struct collation *collation_of(FunctionCallInfo fcinfo, int place) {
    static struct collation *last;
    Oid oid;
    if (PG_NARGS() <= place) return default_of(fcinfo->flinfo->fn_oid);
    oid = PG_GETARG_OID(place);
    if (!last || last->oid != oid || last->seen != changes) last = collation_by(oid, get_func_namespace(fcinfo->flinfo->fn_oid), false);
    return last;
}

/* A call of the library that makes a key: uca_packed_key for SQL's uca_key, and uca_sort_key for SQL's uca_sort_key. */
typedef uint32_t key_call(const uca_collator *, const uca_settings *, const uint8_t *, size_t, uint8_t *, size_t, size_t *, uca_fault *);

static bytea *key_of(struct collation *collation, const uca_settings *settings, const text *given, key_call *makes_key, const char *function,
                     size_t bytes_of_each) {
    size_t size = VARSIZE_ANY_EXHDR(given), room = bytes_of_each * size + 64, needed = 0;
    uca_fault fault;
    uint32_t status;
    bytea *key;
    for (;;) {
        key = palloc_extended(VARHDRSZ + room, MCXT_ALLOC_HUGE);
        status = makes_key(&collation->collator, settings, (uint8_t *)VARDATA_ANY(given), size, (uint8_t *)VARDATA(key), room, &needed, &fault);
        if (status != UCA_OK) report(function, status, &fault);
        if (needed <= room) break;
        pfree(key);
        room = needed;
    }
    if (needed > MaxAllocSize - VARHDRSZ) ereport(ERROR, (errcode(ERRCODE_PROGRAM_LIMIT_EXCEEDED), errmsg("%s: the key is too long", function)));
    SET_VARSIZE(key, VARHDRSZ + needed);
    return key;
}

PG_FUNCTION_INFO_V1(uca_pg_packed_key);
Datum uca_pg_packed_key(PG_FUNCTION_ARGS) {
    struct collation *collation = collation_of(fcinfo, 1);
    PG_RETURN_BYTEA_P(key_of(collation, &collation->settings, PG_GETARG_TEXT_PP(0), uca_packed_key, "uca_key", 4));
}

PG_FUNCTION_INFO_V1(uca_pg_sort_key);
Datum uca_pg_sort_key(PG_FUNCTION_ARGS) {
    struct collation *collation = collation_of(fcinfo, 1);
    PG_RETURN_BYTEA_P(key_of(collation, &collation->settings, PG_GETARG_TEXT_PP(0), uca_sort_key, "uca_sort_key", 8));
}

/* The upper end to use for a range without one, whose lower end has `size` bytes. */
static bytea *last_end(size_t size) {
    bytea *end;
    size += BYTES_OF_LAST_END;
    if (size > MaxAllocSize - VARHDRSZ) ereport(ERROR, (errcode(ERRCODE_PROGRAM_LIMIT_EXCEEDED), errmsg("uca_prefix_upper: the key is too long")));
    end = palloc(VARHDRSZ + size);
    memset(VARDATA(end), 0xFF, size);
    SET_VARSIZE(end, VARHDRSZ + size);
    return end;
}

/* One of the two ends of uca_packed_prefix_bounds for a text. */
static bytea *end_of(struct collation *collation, const text *given, bool is_upper, const char *function) {
    size_t size = VARSIZE_ANY_EXHDR(given), room = 4 * size + 64, needed[2] = {0, 0};
    uca_fault fault;
    uint32_t status;
    bytea *end;
    for (;;) {
        uint8_t *out;
        end = palloc_extended(VARHDRSZ + room, MCXT_ALLOC_HUGE);
        out = (uint8_t *)VARDATA(end);
        status = uca_packed_prefix_bounds(&collation->collator, &collation->settings, (uint8_t *)VARDATA_ANY(given), size,
                                          is_upper ? NULL : out, is_upper ? 0 : room, is_upper ? out : NULL, is_upper ? room : 0, &needed[0],
                                          &needed[1], &fault);
        if (status != UCA_OK) report(function, status, &fault);
        if (needed[is_upper] <= room) break;
        pfree(end);
        room = needed[is_upper];
    }
    if (is_upper && needed[1] == 0) return last_end(needed[0]);
    if (needed[is_upper] > MaxAllocSize - VARHDRSZ) ereport(ERROR, (errcode(ERRCODE_PROGRAM_LIMIT_EXCEEDED), errmsg("%s: the key is too long", function)));
    SET_VARSIZE(end, VARHDRSZ + needed[is_upper]);
    return end;
}

PG_FUNCTION_INFO_V1(uca_pg_prefix_lower);
Datum uca_pg_prefix_lower(PG_FUNCTION_ARGS) {
    PG_RETURN_BYTEA_P(end_of(collation_of(fcinfo, 1), PG_GETARG_TEXT_PP(0), false, "uca_prefix_lower"));
}

PG_FUNCTION_INFO_V1(uca_pg_prefix_upper);
Datum uca_pg_prefix_upper(PG_FUNCTION_ARGS) {
    PG_RETURN_BYTEA_P(end_of(collation_of(fcinfo, 1), PG_GETARG_TEXT_PP(0), true, "uca_prefix_upper"));
}

/* Whether the primary weights of a text begin with those of another: whether its packed key begins with the lower end of the other's
 * range. */
PG_FUNCTION_INFO_V1(uca_pg_begins);
Datum uca_pg_begins(PG_FUNCTION_ARGS) {
    struct collation *collation = collation_of(fcinfo, 2);
    uca_settings settings = UCA_SETTINGS(UCA_PRIMARY, collation->settings.variable);
    bytea *whole = key_of(collation, &settings, PG_GETARG_TEXT_PP(0), uca_packed_key, "uca_begins", 4);
    bytea *front = end_of(collation, PG_GETARG_TEXT_PP(1), false, "uca_begins");
    PG_RETURN_BOOL(VARSIZE(front) <= VARSIZE(whole) && memcmp(VARDATA(whole), VARDATA(front), VARSIZE(front) - VARHDRSZ) == 0);
}

static int32_t order_of(struct collation *collation, const text *a, const text *b) {
    size_t a_size = VARSIZE_ANY_EXHDR(a), b_size = VARSIZE_ANY_EXHDR(b);
    int32_t order = 0;
    uca_fault fault;
    uint32_t status;
    status = uca_compare(&collation->collator, &collation->settings, (uint8_t *)VARDATA_ANY(a), a_size, (uint8_t *)VARDATA_ANY(b), b_size, &order, &fault);
    if (status != UCA_OK) report("uca_cmp", status, &fault);
    return order;
}

/* The order of the first two arguments. A B-tree calls this often, so detoasted copies are freed. */
static int32_t order_of_arguments(FunctionCallInfo fcinfo) {
    struct collation *collation = collation_of(fcinfo, 2);
    text *a = PG_GETARG_TEXT_PP(0), *b = PG_GETARG_TEXT_PP(1);
    int32_t order = order_of(collation, a, b);
    PG_FREE_IF_COPY(a, 0);
    PG_FREE_IF_COPY(b, 1);
    return order;
}

#define COMPARISON(name, type, expression)                       \
    PG_FUNCTION_INFO_V1(name);                                   \
    Datum name(PG_FUNCTION_ARGS) {                               \
        int32_t order = order_of_arguments(fcinfo);              \
        PG_RETURN_##type(expression);                            \
    }
COMPARISON(uca_pg_cmp, INT32, order)
COMPARISON(uca_pg_lt, BOOL, order < 0)
COMPARISON(uca_pg_le, BOOL, order <= 0)
COMPARISON(uca_pg_eq, BOOL, order == 0)
COMPARISON(uca_pg_ge, BOOL, order >= 0)
COMPARISON(uca_pg_gt, BOOL, order > 0)

PG_FUNCTION_INFO_V1(uca_pg_hash);
Datum uca_pg_hash(PG_FUNCTION_ARGS) {
    struct collation *collation = default_of(fcinfo->flinfo->fn_oid);
    bytea *key = key_of(collation, &collation->settings, PG_GETARG_TEXT_PP(0), uca_packed_key, "uca_hash", 4);
    Datum hash = hash_any((unsigned char *)VARDATA(key), VARSIZE(key) - VARHDRSZ);
    pfree(key);
    return hash;
}

PG_FUNCTION_INFO_V1(uca_pg_hash_extended);
Datum uca_pg_hash_extended(PG_FUNCTION_ARGS) {
    struct collation *collation = default_of(fcinfo->flinfo->fn_oid);
    bytea *key = key_of(collation, &collation->settings, PG_GETARG_TEXT_PP(0), uca_packed_key, "uca_hash_extended", 4);
    Datum hash = hash_any_extended((unsigned char *)VARDATA(key), VARSIZE(key) - VARHDRSZ, PG_GETARG_INT64(1));
    pfree(key);
    return hash;
}

/* How many keys a sort remembers, and how long a text with a remembered key may be. */
#define MOST_REMEMBERED 32768
#define LONGEST_REMEMBERED 255

/* A text and its key, one after the other. */
struct remembered {
    size_t text_size, key_size, room;
    uint8_t *bytes;
};

/* The state of a sort. */
struct sorting {
    Oid function; /* finds the default collation when the first text comes: an empty index needs none */
    struct collation *collation;
    struct remembered *remembered; /* null until a key is remembered; the address of a text gives its index */
};

static struct collation *collation_of_sort(SortSupport support) {
    struct sorting *sorting = support->ssup_extra;
    if (!sorting->collation) sorting->collation = default_of(sorting->function);
    return sorting->collation;
}

static int compare_texts(Datum x, Datum y, SortSupport support) {
    struct collation *collation = collation_of_sort(support);
    text *a = DatumGetTextPP(x), *b = DatumGetTextPP(y);
    int order = order_of(collation, a, b);
    if (PointerGetDatum(a) != x) pfree(a);
    if (PointerGetDatum(b) != y) pfree(b);
    return order;
}

/* The key of a text, which is compared several times. As long as a sort runs in memory, each text stays at one address. */
static const struct remembered *remembered(struct sorting *sorting, const text *given) {
    MemoryContext context = GetMemoryChunkContext(sorting);
    size_t size = VARSIZE_ANY_EXHDR(given), room = 5 * size + 64;
    struct remembered *it;
    uca_fault fault;
    uint32_t status;
    if (!sorting->remembered) sorting->remembered = MemoryContextAllocZero(context, MOST_REMEMBERED * sizeof *it);
    it = sorting->remembered + DatumGetUInt32(hash_uint32((uint32)((uintptr_t)given >> 3))) % MOST_REMEMBERED;
    if (it->bytes && it->text_size == size && memcmp(it->bytes, VARDATA_ANY(given), size) == 0) return it;
    for (;; room = size + it->key_size) {
        if (it->room < room) {
            it->bytes = it->bytes ? repalloc(it->bytes, room) : MemoryContextAlloc(context, room);
            it->room = room;
        }
        status = uca_packed_key(&sorting->collation->collator, &sorting->collation->settings, (uint8_t *)VARDATA_ANY(given), size,
                                it->bytes + size, it->room - size, &it->key_size, &fault);
        if (status != UCA_OK) report("uca_cmp", status, &fault);
        if (it->key_size <= it->room - size) break;
    }
    memcpy(it->bytes, VARDATA_ANY(given), size);
    it->text_size = size;
    return it;
}

/* Whether the key of a text is remembered: it is short, and neither compressed nor stored elsewhere. */
static bool is_short(const text *given) {
    return (VARATT_IS_SHORT(given) || !VARATT_IS_EXTENDED(given)) && VARSIZE_ANY_EXHDR(given) <= LONGEST_REMEMBERED;
}

/* Compares texts whose abbreviated keys are equal. */
static int compare_alike(Datum x, Datum y, SortSupport support) {
    const text *a = (text *)DatumGetPointer(x), *b = (text *)DatumGetPointer(y);
    const struct remembered *a_key, *b_key;
    int order;
    if (!is_short(a) || !is_short(b)) return compare_texts(x, y, support);
    collation_of_sort(support);
    a_key = remembered(support->ssup_extra, a);
    b_key = remembered(support->ssup_extra, b);
    if (a_key == b_key) return compare_texts(x, y, support); /* the second key has replaced the first */
    order = memcmp(a_key->bytes + a_key->text_size, b_key->bytes + b_key->text_size, Min(a_key->key_size, b_key->key_size));
    return order ? order : (a_key->key_size > b_key->key_size) - (a_key->key_size < b_key->key_size);
}

/* The first eight bytes of a key, as a number. The key at the first strength, which is faster to make, is its beginning. So if that one has
 * eight bytes, they are the same. Of a text of fewer than seven bytes it seldom has. */
static Datum abbreviated(Datum original, SortSupport support) {
    struct collation *collation = collation_of_sort(support);
    text *given = DatumGetTextPP(original);
    uint8_t *bytes = (uint8_t *)VARDATA_ANY(given);
    size_t size = VARSIZE_ANY_EXHDR(given), needed;
    uca_settings primary = UCA_SETTINGS(UCA_PRIMARY, collation->settings.variable);
    const uca_settings *settings = size + 1 < sizeof(uint64) ? &collation->settings : &primary;
    uint64 front = 0;
    uca_fault fault;
    uint32_t status = uca_packed_key(&collation->collator, settings, bytes, size, (uint8_t *)&front, sizeof front, &needed, &fault);
    if (status == UCA_OK && settings == &primary && needed < sizeof front)
        status = uca_packed_key(&collation->collator, &collation->settings, bytes, size, (uint8_t *)&front, sizeof front, &needed, &fault);
    if (status != UCA_OK) report("uca_cmp", status, &fault);
    if (PointerGetDatum(given) != original) pfree(given);
    return UInt64GetDatum(pg_ntoh64(front));
}

/* An abbreviated key costs no more than a comparison or two of texts, so it pays even if many are equal. */
static bool is_aborted(int count, SortSupport support) { return false; }

#if PG_VERSION_NUM < 150000
static int ssup_datum_unsigned_cmp(Datum x, Datum y, SortSupport support) { return (x > y) - (x < y); }
#endif

PG_FUNCTION_INFO_V1(uca_pg_sort_support);
Datum uca_pg_sort_support(PG_FUNCTION_ARGS) {
    SortSupport support = (SortSupport)PG_GETARG_POINTER(0);
    struct sorting *sorting = MemoryContextAlloc(support->ssup_cxt, sizeof *sorting);
    MemoryContext before = MemoryContextSwitchTo(support->ssup_cxt);
    sorting->function = fcinfo->flinfo->fn_oid;
    sorting->collation = NULL;
    sorting->remembered = NULL;
    support->ssup_extra = sorting;
    support->comparator = compare_texts;
#ifdef USE_FLOAT8_BYVAL
    if (support->abbreviate) {
        support->comparator = ssup_datum_unsigned_cmp;
        support->abbrev_full_comparator = compare_alike;
        support->abbrev_converter = abbreviated;
        support->abbrev_abort = is_aborted;
    }
#endif
    MemoryContextSwitchTo(before);
    PG_RETURN_VOID();
}

/* The fixed fingerprint of a collation, once its files have been checked against it. */
PG_FUNCTION_INFO_V1(uca_pg_fingerprint);
Datum uca_pg_fingerprint(PG_FUNCTION_ARGS) {
    struct collation *collation = collation_of(fcinfo, 0);
    bytea *out = palloc(VARHDRSZ + sizeof(uca_digest));
    hex_decode(definition_in(collation->options).fixed, DIGITS, VARDATA(out));
    SET_VARSIZE(out, VARHDRSZ + sizeof(uca_digest));
    PG_RETURN_BYTEA_P(out);
}

/* The fingerprint in the options of a collation, whatever its files are; null if there is none. */
PG_FUNCTION_INFO_V1(uca_pg_fixed);
Datum uca_pg_fixed(PG_FUNCTION_ARGS) {
    char *name;
    struct definition definition = definition_in(options_of(PG_GETARG_OID(0), get_func_namespace(fcinfo->flinfo->fn_oid), &name));
    if (!definition.fixed) PG_RETURN_NULL();
    PG_RETURN_TEXT_P(cstring_to_text(definition.fixed));
}

/* The fingerprint of files, in hexadecimal digits. */
static void digits_of_files(const struct definition *definition, char *digits) {
    uca_collator collator = UCA_CLOSED;
    open_files(&collator, definition->table, definition->rules);
    PG_TRY();
    {
        digits_of(&collator, &definition->settings, digits);
    }
    PG_FINALLY();
    {
        uca_close(&collator);
    }
    PG_END_TRY();
}

/* The fingerprint that the files of a collation have now. */
PG_FUNCTION_INFO_V1(uca_pg_found);
Datum uca_pg_found(PG_FUNCTION_ARGS) {
    char *name, digits[DIGITS + 1];
    struct definition definition = definition_in(options_of(PG_GETARG_OID(0), get_func_namespace(fcinfo->flinfo->fn_oid), &name));
    digits_of_files(&definition, digits);
    PG_RETURN_TEXT_P(cstring_to_text(digits));
}

/* The template calls this with the options of a new or altered dictionary. It refuses those that make no collation. */
PG_FUNCTION_INFO_V1(uca_pg_init);
Datum uca_pg_init(PG_FUNCTION_ARGS) {
    struct definition definition = definition_of((List *)PG_GETARG_POINTER(0));
    uca_collator collator = UCA_CLOSED;
    if (!has_privs_of_role(GetUserId(), ROLE_PG_READ_SERVER_FILES))
        ereport(ERROR, (errcode(ERRCODE_INSUFFICIENT_PRIVILEGE),
                        errmsg("uca: a collation names files, and may be made only by members of pg_read_server_files")));
    if (GetDatabaseEncoding() != PG_UTF8)
        ereport(ERROR, (errcode(ERRCODE_FEATURE_NOT_SUPPORTED), errmsg("uca: the database is not in UTF-8")));
    open_files(&collator, definition.table, definition.rules);
    uca_close(&collator);
    PG_RETURN_POINTER(NULL);
}

/* A collation has no lexemes. */
PG_FUNCTION_INFO_V1(uca_pg_lexize);
Datum uca_pg_lexize(PG_FUNCTION_ARGS) { PG_RETURN_POINTER(NULL); }

/* ---- Tables that the postmaster loads */

/* Cuts the first word off a list separated by colons. */
static char *cut(char **rest) {
    char *word = *rest ? *rest : "", *colon = strchr(word, ':');
    *rest = colon ? colon + 1 : NULL;
    if (colon) *colon = '\0';
    return word;
}

/* Loads TABLE[:RULES[:STRENGTH[:VARIABLE]]]. */
static void preload(struct preloaded *preloaded, char *entry) {
    char *strength_word, *variable_word;
    memset(preloaded, 0, sizeof *preloaded);
    preloaded->table = cut(&entry);
    preloaded->rules = cut(&entry);
    strength_word = cut(&entry);
    variable_word = cut(&entry);
    if (entry) ereport(ERROR, (errcode(ERRCODE_INVALID_PARAMETER_VALUE), errmsg("uca.preload: more than TABLE:RULES:STRENGTH:VARIABLE")));
    preloaded->settings.strength = *strength_word ? number_of(strengths, "strength", strength_word) : UCA_TERTIARY;
    preloaded->settings.variable = *variable_word ? number_of(variables, "variable", variable_word) : UCA_NON_IGNORABLE;
    open_files(&preloaded->collator, preloaded->table, preloaded->rules);
    digits_of(&preloaded->collator, &preloaded->settings, preloaded->digits);
}

/* Loads the tables of uca.preload. One that can't be loaded is logged: the server still starts, and sessions read the files themselves. */
static void preload_all(void) {
    MemoryContext scratch = AllocSetContextCreate(TopMemoryContext, "preload of uca", ALLOCSET_DEFAULT_SIZES);
    MemoryContext before = MemoryContextSwitchTo(scratch);
    List *entries;
    ListCell *cell;
    if (!SplitGUCList(pstrdup(preload_list), ',', &entries)) {
        ereport(WARNING, (errcode(ERRCODE_INVALID_PARAMETER_VALUE), errmsg("uca.preload is not a list: %s", preload_list)));
        entries = NIL;
    }
    preloads = MemoryContextAllocZero(TopMemoryContext, (list_length(entries) + 1) * sizeof *preloads);
    foreach(cell, entries) {
        char *entry = MemoryContextStrdup(TopMemoryContext, lfirst(cell));
        PG_TRY();
        {
            preload(preloads + count_of_preloads, entry);
            count_of_preloads++;
        }
        PG_CATCH();
        {
            MemoryContextSwitchTo(scratch);
            EmitErrorReport();
            FlushErrorState();
            uca_close(&preloads[count_of_preloads].collator);
            pfree(entry);
            ereport(WARNING, (errmsg("uca.preload: \"%s\" was not loaded", (char *)lfirst(cell))));
        }
        PG_END_TRY();
    }
    MemoryContextSwitchTo(before);
    MemoryContextDelete(scratch);
}

void _PG_init(void);

void _PG_init(void) {
    HASHCTL how = {.keysize = sizeof(Oid), .entrysize = sizeof(struct collation)};
    collations = hash_create("collations of uca", 16, &how, HASH_ELEM | HASH_BLOBS);
    CacheRegisterSyscacheCallback(TSDICTOID, dictionaries_changed, (Datum)0);
    DefineCustomStringVariable("uca.table_file", "The file of the table of the default collation.", NULL,
                               &table_path, "", PGC_SUSET, 0, NULL, path_changed, NULL);
    DefineCustomStringVariable("uca.rules_file", "The file of the rules that tailor it; if empty, there are none.", NULL,
                               &rules_path, "", PGC_SUSET, 0, NULL, path_changed, NULL);
    DefineCustomEnumVariable("uca.strength", "How many levels are compared.", NULL,
                             &strength, UCA_TERTIARY, strengths, PGC_SUSET, 0, NULL, setting_changed, NULL);
    DefineCustomEnumVariable("uca.variable", "How punctuation is weighted.", NULL,
                             &variable, UCA_NON_IGNORABLE, variables, PGC_SUSET, 0, NULL, setting_changed, NULL);
    DefineCustomStringVariable("uca.preload", "Tables that shared_preload_libraries loads for all sessions.", "TABLE[:RULES[:STRENGTH[:VARIABLE]]], ..",
                               &preload_list, "", process_shared_preload_libraries_in_progress ? PGC_POSTMASTER : PGC_SIGHUP, 0, NULL, NULL, NULL);
    EmitWarningsOnPlaceholders("uca");
    if (process_shared_preload_libraries_in_progress) preload_all();
}
