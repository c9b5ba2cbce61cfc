#!/usr/bin/env bash
# PostgreSQL as its users meet it: named collations, indexes that cannot silently go stale, dumps, upgrades of the extension, one table
# for all connections, and one ordered list over two servers. Its packages come from Debian; if they are not available, nothing is tested.
source "$(dirname "${BASH_SOURCE[0]}")/checks.bash"
source tests/debian.bash
source tests/postgres.bash
export LC_ALL=C.UTF-8

is_built
chmod 755 "$work"
left_out() { echo "$script: left out: $1"; }
published=$(published_table)
[ -n "$published" ] || { left_out "all of it, since Debian's perl with its table is not there"; sum_up; exit; }
command -v cc >/dev/null && command -v make >/dev/null && command -v objcopy >/dev/null ||
    { left_out "all of it, since there is no C compiler, make or objcopy"; sum_up; exit; }
postgresql_is_here || { left_out "all of it, since PostgreSQL's server or its headers cannot be had"; sum_up; exit; }
make -s -C bindings/c install OUT="$work/c" PREFIX="$work/usr" >"$work/log" 2>&1 || { cat "$work/log"; echo "$script: the C library could not be built"; exit 1; }
usr=$work/usr
extension_is_built && mkdir "$work/files" && cp "$published" "$work/files/table" && cp rules/{sv,de-u-co-phonebk,es}.rules "$work/files/" &&
    chmod -R a+rX "$work/files" && start_server one || { echo "$script: there is no server to try"; exit 1; }
table=$work/files/table
swedish=$work/files/sv.rules
german=$work/files/de-u-co-phonebk.rules

# says NAME WANTED DATABASE STATEMENTS..: checks the first server's answer, without contexts, in one line
says() {
    local name=$1 wanted=$2 database=$3 statement words=()
    shift 3
    for statement in "$@"; do words+=(-c "$statement"); done
    is "$name" "$wanted" "$(sql one "$database" "${words[@]}" | sed "s,$work/,,g" | paste -sd'|')"
}
# A session that stays open: opens, then typed, then answered with the number of lines expected so far, and closed.
opens() {
    rm -f "$work/typed"
    mkfifo "$work/typed"
    psql -qXAt -h "$work/one" -U tester -d "$1" <"$work/typed" >"$work/session" 2>&1 &
    session=$!
    exec 8>"$work/typed"
}
typed() { printf '%s\n' "$@" >&8; }
answered() {
    for _ in $(seq 200); do
        [ "$(wc -l <"$work/session")" -ge "$1" ] && return
        sleep 0.05
    done
}
closed() {
    exec 8>&-
    wait "$session"
}
new_database() { sql one postgres -c "DROP DATABASE IF EXISTS $1" -c "CREATE DATABASE $1" | grep -v NOTICE; }

# ---- Collations by name
new_database names
cat tests/rules/{sv,de-u-co-phonebk,es}.words >"$work/words"
says "no collation yet" "ERROR:  uca: there is no collation \"uca\"" names "CREATE EXTENSION uca" "SELECT uca_key('a')"
says "two collations" "sv|de" names "SELECT uca_create('sv', '$table', '$swedish')" "SELECT uca_create('de', '$table', '$german', variable => 'shifted')"
sql one names -c "CREATE TABLE w (n serial, t text)" -c "\\copy w (t) FROM '$work/words' WITH (FORMAT csv, DELIMITER E'\\t', QUOTE E'\\x01')" \
    -c "CREATE INDEX by_sv ON w (uca_key(t, 'sv'))" -c "CREATE INDEX by_de ON w (uca_key(t, 'de'))" -c "ANALYZE w"
for language in "sv $swedish" "de $german --variable shifted"; do
    read -r name rules words <<<"$language"
    # shellcheck disable=SC2086 # the words are the program's
    ./uca order --table "$table" --rules "$rules" $words <"$work/words" >"$work/wanted"
    is "the order of $name" "" "$(sql one names -c "SET enable_seqscan = off" -c "SELECT t FROM w ORDER BY uca_key(t, '$name'), n" | cmp - "$work/wanted" 2>&1)"
    ends=$(sql one names -c "SELECT uca_prefix_lower('l', '$name'), uca_prefix_upper('l', '$name')")
    says "the index of $name is used for its order and its ranges" \
        "Index Scan using by_$name on w|Index Scan using by_$name on w|  Index Cond: ((uca_key(t, '$name'::regdictionary) >= '${ends%|*}'::bytea) AND (uca_key(t, '$name'::regdictionary) < '${ends#*|}'::bytea))" \
        names "SET enable_seqscan = off" "SET enable_sort = off" "SET enable_bitmapscan = off" "EXPLAIN (COSTS OFF) SELECT t FROM w ORDER BY uca_key(t, '$name')" \
        "EXPLAIN (COSTS OFF) SELECT t FROM w WHERE uca_key(t, '$name') >= uca_prefix_lower('l', '$name') AND uca_key(t, '$name') < uca_prefix_upper('l', '$name')"
    says "uca_begins of $name finds what the range has" "t" names "SELECT count(*) = count(*) FILTER (WHERE uca_begins(t, b, '$name') =
        (uca_key(t, '$name') >= uca_prefix_lower(b, '$name') AND uca_key(t, '$name') < uca_prefix_upper(b, '$name'))) FROM w, (VALUES (''), ('l'), ('mj'), ('b'), ('sk'), ('a'), ('å'), ('o'), ('u'), ('c'), ('stora'), ('Otto'), ('Juan')) AS p (b)"
done
says "each call by name" "-1|1|t|f|f|t|t" names "SELECT uca_cmp('zon', 'ål', 'sv')" "SELECT uca_cmp('zon', 'ål', 'de')" "SELECT uca_begins('Ålen', 'ål', 'sv')" \
    "SELECT uca_begins('Ålen', 'al', 'sv')" "SELECT uca_fingerprint('sv') = uca_fingerprint('de')" "SELECT uca_fingerprint('sv') = decode(uca_found('sv'), 'hex')" \
    "SELECT uca_sort_key('ål', 'sv') > uca_sort_key('zon', 'sv')"
says "bounds without a null" "0|4096|t" names "SELECT length(uca_prefix_lower('', 'sv'))" "SELECT length(uca_prefix_upper('', 'sv'))" \
    "SELECT count(*) = count(*) FILTER (WHERE uca_key(t, 'sv') < uca_prefix_upper('', 'sv')) FROM w"
# Windows begin at a weight that is far below the greatest one.
printf '%s ; [.1000.0020.0002]\n' 0030 03B1 0430 10D0 0561 05D0 0621 1200 0904 0985 0A05 0A85 0B05 0B85 0C05 0C85 0D05 0D85 0E01 0E81 0F40 1000 1780 1820 \
    1100 3042 3105 >"$work/full"
printf '0250 ; [.FFFF.0020.0002]\n' >>"$work/full"
chmod 644 "$work/full"
says "an upper end where the lower one is all FF" "ffff|\\xffffff|4099|t|t|f|f" names "SELECT uca_create('ffff', '$work/full')" "SELECT uca_prefix_lower('ɐ', 'ffff')" "SELECT length(uca_prefix_upper('ɐ', 'ffff'))" \
    "SELECT uca_key(b, 'ffff') >= uca_prefix_lower('ɐ', 'ffff') AND uca_key(b, 'ffff') < uca_prefix_upper('ɐ', 'ffff') FROM (VALUES ('ɐ'), (repeat('ɐ', 1366)), (repeat('ɐ', 1367)), ('0')) AS t (b)" \
    "DROP TEXT SEARCH DICTIONARY ffff"
says "names, files and settings that are bad" \
    "ERROR:  uca: there is a text search dictionary \"sv\" already|ERROR:  uca: could not open \"/nowhere\": No such file or directory|ERROR:  uca: could not open \"/nowhere\": No such file or directory|ERROR:  uca: could not read \"/\": Is a directory|ERROR:  uca: \"files/sv.rules\": bad table: bad code point, line 3|ERROR:  uca: \"files/table\": bad rules: syntax that is not supported, line 17, column 1|ERROR:  uca: \"sixth\" is not a value of strength|ERROR:  uca: \"none\" is not a value of variable|ERROR:  uca: table_file is missing|ERROR:  text search dictionary \"none\" does not exist at character 21|ERROR:  uca: the text search dictionary \"english_stem\" is not a collation of uca|ERROR:  uca: a collation has no option \"tabel\"|3" \
    names "SELECT uca_create('sv', '$table')" "SELECT uca_create('x', '/nowhere')" "SELECT uca_create('x', '$table', '/nowhere')" "SELECT uca_create('x', '/')" \
    "SELECT uca_create('x', '$swedish')" "SELECT uca_create('x', '$table', '$table')" "SELECT uca_create('x', '$table', '', 'sixth')" "SELECT uca_create('x', '$table', variable => 'none')" \
    "SELECT uca_create('x', NULL)" "SELECT uca_key('a', 'none')" "SELECT uca_key('a', 'english_stem')" "CREATE TEXT SEARCH DICTIONARY x (TEMPLATE = uca, tabel = 'a')" \
    "SELECT count(*) + 1 FROM pg_ts_dict WHERE dictnamespace = 'public'::regnamespace"
says "bad names and settings by the thousand change nothing" "2000|2" names "DO \$\$ DECLARE n integer := 0; BEGIN FOR i IN 1 .. 2000 LOOP
        BEGIN
            PERFORM uca_create(repeat(chr(33 + i % 90), i % 70), '$table' || i, CASE i % 3 WHEN 0 THEN '$swedish' END, (ARRAY['primary', 'Tertiary', '', '3'])[1 + i % 4], chr(i));
        EXCEPTION WHEN OTHERS THEN n := n + 1;
        END;
    END LOOP; PERFORM set_config('my.n', n::text, false); END \$\$" "SHOW my.n" "SELECT count(*) FROM pg_ts_dict WHERE dictnamespace = 'public'::regnamespace"
says "who may make a collation" "ERROR:  uca: a collation names files, and may be made only by members of pg_read_server_files|ERROR:  must be owner of text search dictionary sv|ERROR:  permission denied to set parameter \"uca.table_file\"|-1" \
    names "CREATE ROLE joe" "GRANT CREATE ON SCHEMA public TO joe" "SET ROLE joe" "SELECT uca_create('joe', '/etc/passwd')" "ALTER TEXT SEARCH DICTIONARY sv (fingerprint = '')" \
    "SET uca.table_file = '/etc/passwd'" "SELECT uca_cmp('zon', 'ål', 'sv')"

# ---- Joins and sorts of texts
sql one names -c "SELECT uca_create('uca', '$table')" >/dev/null
says "a join on =~~ hashes, and merges" "Hash Cond: (a.t =~~ b.t)|t|Merge Cond: (a.t =~~ b.t)|t" names "CREATE INDEX by_text ON w (t uca_ops)" \
    "CREATE FUNCTION plan(q text, l text) RETURNS SETOF text LANGUAGE plpgsql AS \$\$ DECLARE r text; BEGIN FOR r IN EXECUTE 'EXPLAIN (COSTS OFF) ' || q LOOP IF r LIKE '%' || l || '%' THEN RETURN NEXT trim(both ' ->' from r); END IF; END LOOP; END \$\$" \
    "SET enable_mergejoin = off" "SET enable_nestloop = off" "SELECT plan('SELECT count(*) FROM w a JOIN w b ON a.t =~~ b.t', ' Cond')" \
    "SELECT count(*) = (SELECT sum(n * n) FROM (SELECT count(*) AS n FROM w GROUP BY uca_key(t)) AS g) FROM w a JOIN w b ON a.t =~~ b.t" \
    "SET enable_mergejoin = on" "SET enable_hashjoin = off" "SELECT plan('SELECT count(*) FROM w a JOIN w b ON a.t =~~ b.t', ' Cond')" \
    "SELECT count(*) = (SELECT sum(n * n) FROM (SELECT count(*) AS n FROM w GROUP BY uca_key(t)) AS g) FROM w a JOIN w b ON a.t =~~ b.t"
says "a hash index" "Index Cond: (t =~~ 'öl'::text)|t" names "CREATE INDEX by_hash ON w USING hash (t uca_hash_ops)" "SET enable_seqscan = off" "DROP INDEX by_text" \
    "SELECT plan('SELECT t FROM w WHERE t =~~ ''öl''', 'Index Cond') LIMIT 1" "SELECT (SELECT count(*) FROM w WHERE t =~~ 'öl') = (SELECT count(*) FROM w WHERE uca_key(t) = uca_key('öl'))"
perl tests/texts.pl 100000 >"$work/lines"
sed 's/"/""/g; s/.*/"&"/' "$work/lines" >"$work/lines.csv" && chmod 644 "$work/lines.csv"
sql one names -c "CREATE TABLE long (t text)" -c "\\copy long FROM '$work/lines.csv' WITH (FORMAT csv)" -c "ANALYZE long"
# milliseconds INDEX: the least of three builds
milliseconds() {
    for _ in 1 2 3; do
        sql one names -c "SET maintenance_work_mem = '256MB'" -c "SET max_parallel_maintenance_workers = 0" -c "SELECT uca_cmp('a', 'b')" -c '\timing on' -c "CREATE INDEX timed ON long ($1)" -c '\timing off' -c "DROP INDEX timed" | sed -n 's/^Time: \([0-9.]*\) ms.*/\1/p'
    done | sort -n | head -1
}
by_keys=$(milliseconds "uca_key(t)")
by_texts=$(milliseconds "t uca_ops")
echo "$script: an index of 100,000 texts is built in $by_texts ms, one of their keys in $by_keys ms"
is "the sort of texts is that of their keys, in memory, in files, and of the first few" "t t t" "$(for settings in "work_mem = '256MB' LIMIT ALL" "work_mem = '64kB' LIMIT ALL" "work_mem = '256MB' LIMIT 1000"; do
    sql one names -c "SET ${settings% LIMIT*}" -c "SELECT array_agg(uca_key(t)) = (SELECT array_agg(k) FROM (SELECT uca_key(t) AS k FROM long ORDER BY 1 LIMIT ${settings#*LIMIT }) AS b)
        FROM (SELECT t FROM long ORDER BY t USING <~ LIMIT ${settings#*LIMIT }) AS a"
done | paste -sd' ')"

# ---- An index that cannot silently go stale
new_database stale
sql one postgres -c "ALTER DATABASE stale SET uca.table_file = '$table'"
sql one stale -c "CREATE EXTENSION uca" -c "SELECT uca_fix()" -c "SELECT uca_create('sv', '$table', '$swedish')" -c "CREATE TABLE w (t text, k bytea GENERATED ALWAYS AS (uca_key(t, 'sv')) STORED)" \
    -c "INSERT INTO w (t) VALUES ('öl'), ('zon'), ('oas')" -c "CREATE INDEX by_key ON w (uca_key(t))" -c "CREATE INDEX by_text ON w (t uca_ops)" -c "CREATE INDEX by_sv ON w (uca_key(t, 'sv'))" >/dev/null
sql one postgres -c "ALTER DATABASE stale SET uca.rules_file = '$swedish'"
says "other rules after an index was built" "ERROR:  uca: uca.rules_file is \"files/sv.rules\", and the collation \"uca\" has \"\"" stale "SET enable_seqscan = off" "SELECT count(*) FROM w WHERE uca_key(t) = uca_key('öl')"
says "uca_fix says what depends on it" "ERROR:  uca: the fingerprint of the collation uca is not the one that was fixed" stale "SELECT uca_fix()"
is "and names it" "What depends on it: index by_key, index by_text." "$(sql one stale -v VERBOSITY=default -c "SELECT uca_fix()" | sed -n 's/^DETAIL:  //p')"
says "with force it rebuilds it, without a search path too" "NOTICE:  uca: index public.by_key is rebuilt|NOTICE:  uca: index public.by_text is rebuilt|t|1|oas zon öl" stale "SET search_path = ''" "SELECT public.uca_fix(force => true) IS NOT NULL" \
    "SET search_path = public" "SET enable_seqscan = off" "SELECT count(*) FROM w WHERE uca_key(t) = uca_key('öl')" "SELECT string_agg(t, ' ' ORDER BY uca_key(t)) FROM w"
cat "$work/files/es.rules" >>"$swedish" # other rules, in a file of the same name
says "other rules in the file" "ERROR:  uca: the fingerprint of the collation \"sv\" is not the one that was fixed|ERROR:  uca: the fingerprint of the collation \"sv\" is not the one that was fixed|ERROR:  uca: the fingerprint of the collation sv is not the one that was fixed" \
    stale "SELECT count(*) FROM w WHERE uca_key(t, 'sv') = uca_key('öl', 'sv')" "INSERT INTO w (t) VALUES ('anka')" "SELECT uca_fix('sv')"
is "they are fixed for all collations at once" "NOTICE:  uca: index by_key is rebuilt|NOTICE:  uca: index by_sv is rebuilt|NOTICE:  uca: index by_text is rebuilt|NOTICE:  uca: default value for column k of table w is rebuilt||t" \
    "$(sql one stale -c "SELECT uca_fix_all(force => true)" -c "SELECT bool_and(k = uca_key(t, 'sv')) FROM w" | paste -sd'|')"
cp rules/sv.rules "$swedish"
says "the old file again is another one now" "ERROR:  uca: the fingerprint of the collation \"sv\" is not the one that was fixed" stale "SELECT uca_key('a', 'sv')"
sql one stale -c "SELECT uca_fix_all(force => true)" >/dev/null 2>&1
# An open session, with earlier keys and a plan, notices that another session has fixed a new fingerprint.
sql one stale -c "SELECT uca_create('es', '$table', '$work/files/es.rules')" -c "CREATE INDEX by_es ON w (uca_key(t, 'es'))" >/dev/null
opens stale
typed "PREPARE p AS SELECT bool_and(uca_key('zon', 'es') = uca_key(t, 'es')) FROM w WHERE t = 'zon';" "EXECUTE p;"
answered 1
echo "&n<zon" >"$work/files/es.rules"
sql one stale -c "SELECT uca_fix('es', force => true)" >/dev/null 2>&1
typed "INSERT INTO w (t) VALUES ('zon'); SELECT string_agg(t, ' ' ORDER BY uca_key(t, 'es')) FROM w;" "EXECUTE p;"
closed
is "an open session takes the new rules" "zon zon oas öl|t" "$(tail -n 2 "$work/session" | paste -sd'|')"
says "a collation with an index can't be dropped" "ERROR:  cannot drop text search dictionary es because other objects depend on it" stale "DROP TEXT SEARCH DICTIONARY es"
says "the default one, dropped and made again, rebuilds its indexes" "ERROR:  uca: there is no collation \"uca\"|NOTICE:  uca: index by_key is rebuilt|NOTICE:  uca: index by_text is rebuilt|uca" stale \
    "SET uca.table_file = ''" "DROP TEXT SEARCH DICTIONARY uca" "SELECT uca_key('a')" "SELECT uca_create('uca', '$table')"
cp rules/es.rules "$work/files/es.rules"

# ---- Dump and restore
new_database old
sql one postgres -c "ALTER DATABASE old SET uca.table_file = '$table'"
sql one old -c "CREATE EXTENSION uca" -c "SELECT uca_fix()" -c "SELECT uca_create('sv', '$table', '$swedish')" \
    -c "CREATE TABLE a (t text, k bytea GENERATED ALWAYS AS (uca_key(t, 'sv')) STORED)" -c "INSERT INTO a SELECT chr(97 + i % 26) || i FROM generate_series(1, 5000) i" \
    -c "CREATE INDEX a_key ON a (uca_key(t))" -c "CREATE INDEX a_sv ON a (uca_key(t, 'sv'))" -c "CREATE INDEX a_text ON a (t uca_ops)" -c "CREATE INDEX a_k ON a (k)" >/dev/null
fixed=$(sql one old -c "SELECT uca_fixed('uca'), uca_fixed('sv')")
pg_dump -h "$work/one" -U tester old >"$work/plain.sql"
pg_dump -h "$work/one" -U tester -C old >"$work/create.sql"
pg_dump -h "$work/one" -U tester -Fc old >"$work/custom"
# restored NAME: what the restored database has
restored() {
    sql one "$1" -c "SELECT count(*), bool_and(k = uca_key(t, 'sv')) FROM a" -c "SELECT string_agg(relname, ' ' ORDER BY relname) FROM pg_class WHERE relkind = 'i' AND relname LIKE 'a\\_%'" \
        -c "SELECT count(*) FROM a WHERE uca_key(t) = uca_key('b1')" -c "SELECT '$fixed' = uca_fixed('uca') || '|' || uca_fixed('sv')" -c "SELECT uca_fixed('sv') = uca_found('sv')" | paste -sd'|'
}
new_database fresh
is "a dump is restored" "" "$(sql one fresh -v ON_ERROR_STOP=1 -f "$work/plain.sql" | grep -v '^$')"
is "and has all" "5000|t|a_k a_key a_sv a_text|1|t|t" "$(restored fresh)"
sed 's/^0062  *;.*/0062 ; [.1CA9.0020.0003]/' "$published" >"$table" # a newer table: b has another weight
new_database newer
is "a dump is restored where the files are newer" "" "$(sql one newer -v ON_ERROR_STOP=1 -f "$work/plain.sql" | grep -v '^$')"
is "with keys and a fingerprint of its own" "5000|t|a_k a_key a_sv a_text|1|f|t" "$(restored newer)"
new_database custom
is "a dump is restored by pg_restore -j" "0|5000|t|a_k a_key a_sv a_text|1|f|t" "$(pg_restore -h "$work/one" -U tester -j 2 -d custom "$work/custom" 2>&1; echo "$?|$(restored custom)")"
sql one postgres -c "DROP DATABASE old"
is "a dump with -C is restored" "" "$(sql one postgres -v ON_ERROR_STOP=1 -f "$work/create.sql" | grep -v '^$')"
is "with its setting" "5000|t|a_k a_key a_sv a_text|1|f|t|files/table" "$(restored old)|$(sql one old -c "SHOW uca.table_file" | sed "s,$work/,,")"
says "the database that was there is refused by the newer files" "ERROR:  uca: the fingerprint of the collation \"sv\" is not the one that was fixed" fresh "SELECT count(*) FROM a WHERE uca_key(t, 'sv') = uca_key('b1', 'sv')"
cp "$published" "$table"

# ---- The upgrade of the extension
# The fingerprint of this table in 1.0, where the form of keys had the number 1.
earlier=$({ ./uca table --table "$table" </dev/null; printf '\001\003\000\022\000\000'; } | sha256sum | cut -d' ' -f1)
new_database upgrade
sql one upgrade -c "CREATE EXTENSION uca VERSION '1.0'" -c "CREATE TABLE w (t text)" -c "CREATE INDEX by_key ON w (uca_key(t))" -c "CREATE INDEX by_text ON w (t uca_ops)" -c "INSERT INTO uca_fixed VALUES ('\\x$earlier')"
says "keys of the form of 1.0 are refused, and rebuilt" "ERROR:  uca: the fingerprint of the collation \"uca\" is not the one that was fixed|NOTICE:  uca: index by_key is rebuilt|NOTICE:  uca: index by_text is rebuilt|t|a b" upgrade \
    "SET uca.table_file = '$table'" "ALTER EXTENSION uca UPDATE" "SELECT uca_key('a')" "SELECT uca_fix(force => true) IS NOT NULL" "INSERT INTO w VALUES ('b'), ('a')" "SELECT string_agg(t, ' ' ORDER BY uca_key(t)) FROM w"
is "an upgraded extension has what a new one has" "" "$(cmp <(sql one upgrade -c '\dx+ uca') <(sql one names -c '\dx+ uca') 2>&1)"
new_database again
sql one again -c "CREATE EXTENSION uca VERSION '1.0'" -c "CREATE TABLE w (t text)" -c "CREATE INDEX by_key ON w (uca_key(t))" -c "INSERT INTO uca_fixed SELECT decode('$(sql one names -c "SELECT uca_fixed('uca')")', 'hex')"
says "and keys of the present form are used at once" "t" again "SET uca.table_file = '$table'" "ALTER EXTENSION uca UPDATE" "SELECT uca_key('a') IS NOT NULL"

# ---- One table for all connections
# memory PID: the kilobytes of a process's own memory
memory() { awk '/^Private_(Clean|Dirty):/ { n += $2 } END { print n }' "/proc/$1/smaps_rollup"; }
# first_key: milliseconds and own kilobytes of the first key of a new connection, after another query of it
first_key() {
    local pid before after
    opens names
    typed 'SELECT pg_backend_pid();' 'SELECT length(md5(t)) FROM w LIMIT 1;' '\timing on'
    answered 2
    pid=$(head -n 1 "$work/session")
    before=$(memory "$pid")
    typed "SELECT length(uca_key('ål', 'sv'));"
    answered 4
    after=$(memory "$pid")
    closed
    echo "$(sed -n 's/^Time: \([0-9.]*\) ms.*/\1/p' "$work/session" | tail -1) $((after - before))"
}
if [ -r /proc/self/smaps_rollup ]; then
    sql one names -c "SELECT uca_fix_all(force => true)" >/dev/null
    alone=$(first_key)
    stop_server one
    start_server one -c shared_preload_libraries=uca -c "uca.preload=$table, $table:$swedish, /nowhere, $table::sixth, $table:$german:tertiary:shifted"
    for _ in 1 2 3; do first_key; done | sort -n >"$work/shared"
    read -r time kilobytes <"$work/shared"
    echo "$script: the first key of a connection takes ${alone% *} ms and ${alone#* } KB of its own; from a table that the postmaster has loaded, $time ms and $kilobytes KB"
    # The time is printed but not tested: other work on the machine changes it.
    is "the first key of a connection, from a table that is shared: at most 1 MB" "yes" "$(awk -v k="$kilobytes" 'BEGIN { print k <= 1024 ? "yes" : k }')"
    is "what cannot be loaded is logged" "uca.preload: \"/nowhere\" was not loaded|uca.preload: \"files/table::sixth\" was not loaded" "$(sed -n 's/.*WARNING:  //p' "$work/one.log" | grep preload | sed "s,$work/,," | paste -sd'|')"
    ./uca order --table "$table" --rules "$german" --variable shifted <"$work/words" >"$work/wanted"
    is "the order by a shared table" "" "$(sql one names -c "SELECT t FROM w ORDER BY uca_key(t, 'de'), n" | cmp - "$work/wanted" 2>&1)"
    cat rules/es.rules >>"$swedish"
    says "new rules are read where the shared ones are older" "t|t|t" names "SELECT uca_key('ål', 'sv') > uca_key('zon', 'sv')" "SET client_min_messages = warning" "SELECT uca_fix('sv', force => true) IS NOT NULL" "SELECT uca_fingerprint('sv') = decode(uca_found('sv'), 'hex')"
    stop_server one
    start_server one
else
    left_out "one table for all connections, since this kernel does not say how much memory is a process's own"
fi
cp rules/sv.rules "$swedish"

# ---- One list over two servers
start_server two || { echo "$script: there is no second server"; exit 1; }
sql one postgres -c "CREATE DATABASE shard" -c "CREATE DATABASE list"
sql two postgres -c "CREATE DATABASE shard"
for part in "one 1" "two 2"; do
    sql "${part% *}" shard -c "CREATE EXTENSION uca" -c "SELECT uca_create('uca', '$table', '$swedish')" -c "CREATE TABLE names_${part#* } (name text NOT NULL)" -c "CREATE INDEX ON names_${part#* } (uca_key(name))"
done >/dev/null
sql one list -c "CREATE EXTENSION uca" -c "CREATE EXTENSION postgres_fdw" -c "SELECT uca_create('uca', '$table', '$swedish')" -c "CREATE TABLE names (name text NOT NULL) PARTITION BY RANGE (uca_key(name))" >/dev/null
for part in "one 1 MINVALUE uca_prefix_lower('m')" "two 2 uca_prefix_lower('m') MAXVALUE"; do
    read -r name number low high <<<"$part"
    sql one list -c "CREATE SERVER $name FOREIGN DATA WRAPPER postgres_fdw OPTIONS (host '$work/$name', dbname 'shard', extensions 'uca')" \
        -c "CREATE USER MAPPING FOR CURRENT_USER SERVER $name OPTIONS (user 'tester')" \
        -c "CREATE FOREIGN TABLE names_$number PARTITION OF names FOR VALUES FROM ($low) TO ($high) SERVER $name"
done
is "the servers have one order" "1" "$(for place in "one list" "one shard" "two shard"; do sql "${place% *}" "${place#* }" -c "SELECT uca_fingerprint()"; done | sort -u | wc -l)"
sql one list -c "\\copy names FROM '$work/words' WITH (FORMAT csv, DELIMITER E'\\t', QUOTE E'\\x01')"
./uca order --table "$table" --rules "$swedish" <"$work/words" >"$work/wanted"
sql one list -c "SELECT name FROM names ORDER BY uca_key(name)" >"$work/got"
keys() { ./uca key --table "$table" --rules "$swedish" <"$1"; }
is "one ordered list" "" "$(cmp <(keys "$work/got") <(keys "$work/wanted") 2>&1)$(cmp <(sort "$work/got") <(sort "$work/wanted") 2>&1)"
is "both servers have a part of it" "yes" "$(awk '$1 == 0 { few = 1 } END { print few || NR != 2 ? "no" : "yes" }' <(sql one shard -c "SELECT count(*) FROM names_1") <(sql two shard -c "SELECT count(*) FROM names_2"))"
# asked QUERY: the parts that a query reads, with what is sent to them
asked() { sql one list -c "EXPLAIN (ANALYZE, VERBOSE, COSTS OFF, TIMING OFF, SUMMARY OFF) $1" | sed -n 's/^ *-> *Foreign Scan on public.\(names_[12]\).*(\(actual\|never\).*/\1 \2/p; s/^ *Foreign Scan on public.\(names_[12]\).*(\(actual\|never\).*/\1 \2/p; s/^ *Remote SQL: //p' | paste -sd'|'; }
is "the first names ask the first server alone, and it sorts" "names_1 actual|SELECT name FROM public.names_1 ORDER BY public.uca_key(name) ASC NULLS LAST|names_2 never|SELECT name FROM public.names_2 ORDER BY public.uca_key(name) ASC NULLS LAST" \
    "$(asked "SELECT name FROM names ORDER BY uca_key(name) LIMIT 5")"
ends=$(sql one list -c "SELECT uca_prefix_lower('s'), uca_prefix_upper('s')")
is "a beginning asks its server alone, by its index's range" "names_2 actual|SELECT name FROM public.names_2 WHERE ((public.uca_key(name) >= E'\\${ends%|*}'::bytea)) AND ((public.uca_key(name) < E'\\${ends#*|}'::bytea))" \
    "$(asked "SELECT name FROM names WHERE uca_key(name) >= uca_prefix_lower('s') AND uca_key(name) < uca_prefix_upper('s')")"
says "a name goes to its server, and is found there" "names_2|names_1" list "INSERT INTO names VALUES ('Öster'), ('Anka')" "SELECT tableoid::regclass FROM names WHERE uca_key(name) = uca_key('Öster')" "SELECT tableoid::regclass FROM names WHERE uca_key(name) = uca_key('Anka')"

# ---- A new version of the server, to which pg_upgrade copies indexes as they are
stop_servers
sed -i 's/^0062  *;.*/0062 ; [.1CA9.0020.0003]/' "$table" # b has another weight
mkdir "$work/upgraded" && new=$work/three
[ "$(id -u)" -eq 0 ] && chown nobody:nogroup "$work/upgraded"
start_server three && stop_server three
# The copied server runs in its own folder, where pg_upgrade writes.
as_nobody env -C "$work/upgraded" "$bin/pg_upgrade" -b "$bin" -B "$bin" -d "$work/two" -D "$new" -U tester >"$work/log" 2>&1 || cat "$work/log"
start_server three || echo "$script: the upgraded server does not start"
is "indexes that pg_upgrade has copied are refused by a newer table, and rebuilt" \
    "ERROR:  uca: the fingerprint of the collation \"uca\" is not the one that was fixed|NOTICE:  uca: index names_2_uca_key_idx is rebuilt|t|Öster" \
    "$(sql three shard -c "SET enable_seqscan = off" -c "SELECT name FROM names_2 WHERE uca_key(name) = uca_key('Öster')" -c "SELECT uca_fix(force => true) IS NOT NULL" -c "SELECT name FROM names_2 WHERE uca_key(name) = uca_key('Öster')" | paste -sd'|')"
is "and new collations are fixed there" "sv|t" "$(sql three shard -c "SELECT uca_create('sv', '$table', '$swedish')" -c "SELECT uca_fixed('sv') = uca_found('sv')" | paste -sd'|')"

stop_servers
sum_up
