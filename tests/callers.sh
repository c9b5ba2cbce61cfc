#!/usr/bin/env bash
# The C library and its callers: C, C++, Go, Java, Python, Rust, SQLite and PostgreSQL. Each must sort 50,000 lines as `uca order` does.
# What a caller needs comes from Debian; if it is not available, the script says so and skips that caller.
source "$(dirname "${BASH_SOURCE[0]}")/checks.bash"
source tests/debian.bash
source tests/postgres.bash
source tests/python.bash

is_built
chmod 755 "$work"
left_out() { echo "$script: left out: $1"; }

table=$(published_table)
[ -n "$table" ] || { left_out "all callers, since Debian's perl with its table is not there"; sum_up; exit; }
command -v cc >/dev/null && command -v make >/dev/null && command -v objcopy >/dev/null ||
    { left_out "all callers, since there is no C compiler, make or objcopy"; sum_up; exit; }

make -s -C bindings/c install OUT="$work/c" PREFIX="$work/usr" >"$work/log" 2>&1 ||
    { cat "$work/log"; echo "$script: the C library could not be built"; exit 1; }
usr=$work/usr

# What the library exports, and what it needs.
names="uca_check uca_clone uca_close uca_compare uca_compare_levels uca_compare_texts uca_fingerprint uca_is_complete uca_kind_name uca_locate uca_matches uca_open uca_packed_key uca_packed_key_of uca_packed_prefix_bounds uca_prefix_bounds uca_sort_key uca_sort_key_of uca_status_name uca_text_of uca_unicode_version uca_version uca_write_key"
is "the names of the shared library" "$names" "$(nm -D --defined-only "$usr/lib/libuca.so.1" | awk '{ print $3 }' | sort | paste -sd' ')"
is "the names of the archive" "$names" "$(nm --extern-only --defined-only "$usr/lib/libuca.a" 2>/dev/null | awk 'NF == 3 { print $3 }' | sort | paste -sd' ')"
is "the functions of the header" "$names" "$(sed -n 's/^[a-z0-9_ ]*[ *]\(uca_[a-z_]*\)(.*/\1/p' include/uca.h | sort -u | paste -sd' ')"
is "the libraries that the shared one needs" "libc.so.6" "$(readelf -d "$usr/lib/libuca.so.1" | sed -n 's/.*NEEDED.*\[\(.*\)\]/\1/p')"
version=$(header_version)
is "the name of the shared library" "libuca.so.${version%%.*}" "$(readelf -d "$usr/lib/libuca.so.1" | sed -n 's/.*SONAME.*\[\(.*\)\]/\1/p')"
is "no relocation of text, no executable stack" "0" "$(readelf -dlW "$usr/lib/libuca.so.1" | grep -cE 'TEXTREL|GNU_STACK.*RWE')"
is "functions that do not begin at a multiple of 32" "0 0" \
    "$(nm -D --defined-only "$usr/lib/libuca.so.1" | grep -vcE '[02468ace]0 T ') $(readelf -SW "$usr/lib/libuca.a" | awk '/ AX / && $NF != 32' | wc -l)"
brings() { objdump -d --disassemble="$1" "$usr/lib/libuca.so.1" | grep -c prefetch; }
is "bytes of the second text that are brought" "2 1" "$(brings uca_compare) $(brings uca_compare_texts)"
if command -v pkg-config >/dev/null; then
    is "what pkg-config has" "$version -I$usr/include -L$usr/lib -luca" \
        "$(PKG_CONFIG_PATH=$usr/lib/pkgconfig pkg-config --modversion uca) $(PKG_CONFIG_PATH=$usr/lib/pkgconfig pkg-config --cflags --libs uca | sed 's/ *$//')"
else
    left_out "pkg-config"
fi

# compiles NAME WORDS..: a C program, with warnings as errors
compiles() {
    local name=$1
    shift
    cc -std=c11 -Wall -Wextra -Werror -O1 -g -I"$usr/include" -o "$work/$name" "$@" || { echo "$script: $name could not be compiled"; failed=$((failed + 1)); }
}

# The digest of a table and of settings, computed independently: the form of keys, strength, option, and the version of Unicode.
# digest_of TABLE WORDS..
digest_of() {
    { ./uca table --table "$@"; printf '\004\003\000\022\000\000'; } | sha256sum | cut -d' ' -f1
}

sed -n '/^static const char small_table/,/;$/s/.*"\(.*\)\\n".*/\1/p' bindings/c/tests/checks.h >"$work/small"
small=$(digest_of "$work/small")
compiles test bindings/c/tests/test.c "$usr/lib/libuca.a"
is "every call of C, with the archive" "well" "$("$work/test" "$small" 2>&1)"
compiles test_shared bindings/c/tests/test.c -L"$usr/lib" -luca
is "every call of C, with the shared library" "well" "$(LD_LIBRARY_PATH=$usr/lib "$work/test_shared" "$small" 2>&1)"
compiles refused bindings/c/tests/refused.c "$usr/lib/libuca.a" -Wl,--wrap=malloc,--wrap=realloc,--wrap=free
is "allocations that are refused" "well" "$("$work/refused" 2>&1 | sed 's/,.*//')"
compiles looks bindings/c/tests/looks.c "$usr/lib/libuca.a" -Wl,--wrap=malloc,--wrap=realloc
is "levels and matches, and their allocations refused" "well" "$("$work/looks" 2>&1 | sed 's/,.*//')"
compiles stack bindings/c/tests/stack.c "$usr/lib/libuca.a" -lpthread
"$work/stack" "$table" rules/sv.rules >"$work/stacks"
is "stack that calls take" "0|19 calls, uca_open and uca_fingerprint at most 24 KiB, the others at most 8" \
    "$?|$(awk '$2 > ($1 == "uca_open" || $1 == "uca_fingerprint" ? 24576 : 8192) { print; bad = 1 } END { if (!bad) print NR " calls, uca_open and uca_fingerprint at most 24 KiB, the others at most 8" }' "$work/stacks")"
echo "$script: bytes of stack: $(paste -sd' ' "$work/stacks")"
compiles threads bindings/c/tests/threads.c "$usr/lib/libuca.a" -lpthread
is "clones in threads" "well" "$("$work/threads" 2>&1)"
compiles shared bindings/c/tests/shared.c "$usr/lib/libuca.a" -lpthread
is "one collator in eight threads, a million calls" "well" "$("$work/shared" 340 2>&1)"
compiles random bindings/c/tests/random.c "$usr/lib/libuca.a" -lpthread
is "random texts to every call, by the small table" "0 checks failed" "$("$work/random" 2 1 2>&1 | sed 's/.*: //')"
is "random texts to every call, by the published table and rules" "0 checks failed" \
    "$("$work/random" 3 2 "$table" rules/hu.rules 2>&1 | sed 's/.*: //')"
if command -v valgrind >/dev/null; then
    valgrind -q --error-exitcode=9 --leak-check=full "$work/test" "$small" >"$work/out" 2>&1
    is "every call under valgrind" "0|well" "$?|$(cat "$work/out")"
    valgrind -q --error-exitcode=9 --leak-check=full "$work/looks" >"$work/out" 2>&1
    is "levels and matches under valgrind" "0|well" "$?|$(sed 's/,.*//' "$work/out")"
    valgrind -q --tool=helgrind --error-exitcode=9 "$work/shared" 2 >"$work/out" 2>&1
    is "one collator in eight threads, under helgrind" "0|well" "$?|$(cat "$work/out")"
else
    left_out "valgrind"
fi

# The lines, and their order.
perl tests/texts.pl 50000 >"$work/lines"
./uca order --table "$table" <"$work/lines" >"$work/ordered"
digest=$(digest_of "$table")
compiles example bindings/c/example.c "$usr/lib/libuca.a"
printf '&l<ll<<<Ll<<<LL' >"$work/rules"
is "the example of C" "lomo luna llano mano" "$(printf 'mano\nluna\nllano\nlomo\n' | "$work/example" "$table" "$work/rules" | paste -sd' ')"

# The example sorts by keys and leaves equal keys in any order, so the keys of its lines are compared.
keys_in_order() { ./uca key --table "$table" | md5sum; }
is "lines by keys in C" "$(keys_in_order <"$work/ordered")" "$("$work/example" "$table" <"$work/lines" | keys_in_order)"

# program_of LANGUAGE: the program of docs/C.md in this language
program_of() { sed -n "/^\`\`\`$1\$/,/^\`\`\`\$/p" docs/C.md | sed '1d; $d'; }

# sorts NAME WORDS..: the program that WORDS run sorts some words by rules, and the lines
sorts() {
    local name=$1
    shift
    is "$name: some words" "lomo luna llano mano" "$(printf 'mano\nluna\nllano\nlomo\n' | LD_LIBRARY_PATH=$usr/lib "$@" "$table" "$work/rules" 2>&1 | paste -sd' ')"
    is "$name: lines" "$(keys_in_order <"$work/ordered")" "$(LD_LIBRARY_PATH=$usr/lib "$@" "$table" /dev/null <"$work/lines" | keys_in_order)"
    stops "$name: a table that is not there" "$@" "$work/none" "$work/rules"
    stops "$name: rules that are not there" "$@" "$table" "$work/none"
}

# stops NAME WORDS..: the program that WORDS run fails, prints no line, and names the file that it cannot read
stops() {
    local name=$1
    shift
    printf 'b\na\n' | LD_LIBRARY_PATH=$usr/lib "$@" >"$work/out" 2>"$work/errors"
    is "$name" "1|0|yes" "$?|$(wc -c <"$work/out")|$(grep -q "$work/none" "$work/errors" && echo yes)"
}

if command -v c++ >/dev/null; then
    program_of cpp >"$work/sorted.cc"
    c++ -Wall -Wextra -Werror -O1 -I"$usr/include" -o "$work/sorted" "$work/sorted.cc" "$usr/lib/libuca.a"
    is "C++: the program of docs/C.md is compiled" "0" "$?"
    sorts "C++" "$work/sorted"
else
    left_out "C++, since there is no c++"
fi

# go_is_here: finds the command go, installed or downloaded into $work
go_is_here() {
    command -v pkg-config >/dev/null || return 1
    command -v go >/dev/null && return
    unpacks "$work/go" golang-go || return 1
    export GOROOT=$work/go/usr/lib/go PATH=$work/go/usr/lib/go/bin:$PATH
    go version >/dev/null 2>&1
}
if go_is_here; then
    mkdir "$work/sorted_go" && program_of go >"$work/sorted_go/sorted.go"
    (cd "$work/sorted_go" && PKG_CONFIG_PATH=$usr/lib/pkgconfig GOCACHE=$work/go_cache GO111MODULE=off GOFLAGS='' go build -o sorted sorted.go)
    is "Go: the program of docs/C.md is compiled" "0" "$?"
    is "Go: the page has gofmt's layout" "" "$(gofmt -d "$work/sorted_go/sorted.go")"
    sorts "Go" "$work/sorted_go/sorted"
else
    left_out "Go, since golang-go or pkg-config cannot be had"
fi

# jna_is_here: finds JNA, installed or downloaded into $work, where its own library must be on the class path; leaves the path to its jar in $jna
jna_is_here() {
    local own=$work/java/com/sun/jna/linux-x86-64
    command -v javac >/dev/null && mkdir "$work/java" || return 1
    jna=/usr/share/java/jna.jar
    [ -f "$jna" ] && return
    unpacks "$work/jna" libjna-java && mkdir -p "$own" || return 1
    cp "$work"/jna/usr/lib/*/jni/libjnidispatch.system.so "$own/libjnidispatch.so"
    jna=$work/jna$jna
}
if jna_is_here; then
    program_of java >"$work/java/Sorted.java"
    javac -Xlint:all -Werror -cp "$jna" -d "$work/java" "$work/java/Sorted.java"
    is "Java: the program of docs/C.md is compiled" "0" "$?"
    sorts "Java" java -Dfile.encoding=UTF-8 -Djna.library.path="$usr/lib" -cp "$jna:$work/java" Sorted
else
    left_out "Java, since javac or libjna-java cannot be had"
fi

# in_python PYTHON: tests the package, installed with the library that pkg-config finds, and without one
in_python() {
    local tree=$work/tree python=$work/venv/bin/python has_pkg_config
    local -a installs=("$python" -m pip install -q --no-index --no-build-isolation)
    mkdir "$tree" && cp -r --parents bindings/python include "$tree" && "$1" -m venv --system-site-packages --without-pip "$work/venv" || return 1
    CFLAGS="-Wall -Wextra -Werror" PKG_CONFIG=false "${installs[@]}" --target "$work/site" "$tree/bindings/python" >"$work/log" 2>&1 || { cat "$work/log"; return 1; }
    PKG_CONFIG_PATH=$usr/lib/pkgconfig "${installs[@]}" "$tree/bindings/python" >"$work/log" 2>&1 || { cat "$work/log"; return 1; }
    is "Python" "well" "$(UCA_LIBRARY=$usr/lib/libuca.so.1 "$python" bindings/python/test.py "$table" "$work/lines" "$work/ordered" "$digest" 2>&1)"
    imports() { env -u UCA_LIBRARY -u LD_LIBRARY_PATH "$@" "$python" -c 'import uca; print(*uca.version())' 2>&1 | tail -n 1; }
    has_pkg_config=$(command -v pkg-config)
    [ -z "$has_pkg_config" ] || is "Python: the library that pkg-config named" "${version//./ }" "$(imports)"
    is "Python: the library that UCA_LIBRARY names is not there" "ImportError: $work/none: cannot open shared object file: No such file or directory" \
        "$(imports UCA_LIBRARY="$work/none")"
    is "Python: another library" "ImportError" "$(imports UCA_LIBRARY=libc.so.6 | cut -d: -f1)"
    is "Python: the library that the loader finds" "${version//./ }" "$(imports PYTHONPATH="$work/site" LD_LIBRARY_PATH="$usr/lib")"
    cp "$usr/lib/libuca.so.1" "$work/site/uca/"
    is "Python: the library beside the package" "${version//./ }" "$(imports PYTHONPATH="$work/site")"
}
python=$(python_that_builds)
if [ -n "$python" ]; then
    in_python "$python" || { echo "$script: the package of Python could not be installed"; failed=$((failed + 1)); }
else
    left_out "Python, since no python3 has its header, pip, setuptools, wheel and venv"
fi

if command -v cargo >/dev/null && cargo --version >/dev/null 2>&1; then
    cp -r bindings/rust "$work/rust"
    # in_rust WORDS..: cargo, with words of env before its own
    in_rust() { (cd "$work/rust" && LD_LIBRARY_PATH=$usr/lib env "$@" --offline) >"$work/log" 2>&1 || { cat "$work/log"; return 1; }; }
    in_rust UCA_LIB_DIR="$usr/lib" cargo build -q --example check
    is "Rust" "well" "$(LD_LIBRARY_PATH=$usr/lib "$work/rust/target/debug/examples/check" "$table" "$work/lines" "$work/ordered" "$digest" 2>&1)"
    in_rust UCA_LIB_DIR="$usr/lib" RUSTFLAGS="-D warnings" cargo test -q
    is "Rust: cargo test" "0" "$?"
    in_rust UCA_LIB_DIR="$usr/lib" RUSTDOCFLAGS="-D warnings" cargo doc -q
    is "Rust: cargo doc" "0" "$?"
    if command -v pkg-config >/dev/null; then
        in_rust -u UCA_LIB_DIR PKG_CONFIG_PATH="$usr/lib/pkgconfig" cargo test -q
        is "Rust: the library that pkg-config finds" "0" "$?"
    fi
    is "Rust: no library" "UCA_LIB_DIR is \"/none\", which has no libuca.so and no libuca.a." \
        "$(in_rust UCA_LIB_DIR=/none cargo build -q | sed -n 's/^ *\(UCA_LIB_DIR is .*\)/\1/p')"
else
    left_out "Rust, since there is no cargo"
fi

# in_sqlite: the tests of the SQLite extension
in_sqlite() {
    local folder=$work/sqlite
    mkdir "$folder"
    cc -std=c11 -Wall -Wextra -Werror -O2 -shared -fPIC -I"$usr/include" -o "$folder/uca_sqlite.so" bindings/sqlite/uca_sqlite.c "$usr/lib/libuca.a" || return 1
    sed "s,@TABLE@,$table,; s,@RULES@,$work/rules,; s,@LINES@,$work/lines,; s,@WORK@,$folder," bindings/sqlite/test.sql >"$folder/test.sql"
    sqlite3 -cmd ".load $folder/uca_sqlite sqlite3_ucasqlite_init" "$folder/db" <"$folder/test.sql" >"$folder/out" 2>"$folder/errors"
    is "SQLite: by collation" "" "$(cmp "$folder/by_collation" "$work/ordered" 2>&1)"
    is "SQLite: by key" "" "$(cmp "$folder/by_key" "$work/ordered" 2>&1)"
    is "SQLite: by sort key" "" "$(cmp "$folder/by_sort_key" "$work/ordered" 2>&1)"
    is "SQLite: indexes are used, and are intact" \
        "50000|SCAN w USING COVERING INDEX by_collation|SCAN w USING INDEX by_key|SEARCH w USING COVERING INDEX by_collation (t>? AND t<?)|SEARCH w USING INDEX by_key (<expr>>? AND <expr><?)|1|lomo luna llano mano|SEARCH w USING INDEX by_key (<expr>>? AND <expr><?)|lo Lómo||4096|1|1000|1|SCAN w USING INDEX by_sort_key|SEARCH w USING INDEX by_sort_key (<expr>>? AND <expr><?)|1|1|1035|3F41000404|1FA21FBC000000200020000000020002|$digest|ok" \
        "$(grep -v '^QUERY PLAN' "$folder/answers" | sed 's/^`--//' | sed -n '1,16p' | paste -sd'|')"
    is "SQLite: a null, and a long key" "|6004" "$(tail -1 "$folder/answers")"
    is "SQLite: faults" \
        "uca_key: not UTF-8, kind 0, at 1|uca_sort_key: not UTF-8, kind 0, at 1|uca: no collation of this name: call uca_load first|uca_load: there is a collation of this name|uca_load: could not read \"/nowhere\"|uca_load: \"$work/rules\": bad table: bad code point, line 1|uca_load: a strength is 'primary', 'secondary', 'tertiary', 'quaternary' or 'identical', and a variable weighting 'non-ignorable', 'blanked' or 'shifted'" \
        "$(sed 's/^.*near line [0-9]*: //' "$folder/errors" | paste -sd'|')"
}
if command -v sqlite3 >/dev/null && echo '#include <sqlite3ext.h>' | cc -E - >/dev/null 2>&1; then
    in_sqlite || { echo "$script: SQLite's extension could not be built"; failed=$((failed + 1)); }
else
    left_out "SQLite, since sqlite3 or its header is not there"
fi

# in_postgresql: the tests of the PostgreSQL extension that C.md and EXAMPLES.md describe; those of databases are in tests/postgresql.sh
in_postgresql() {
    extension_is_built && chmod 644 "$work/lines" "$work/ordered" || return 1
    sed 's/"/""/g; s/.*/"&"/' "$work/lines" >"$work/lines.csv"
    sed 's/"/""/g; s/.*/"&"/' "$work/ordered" >"$work/ordered.csv"
    start_server pgdata -c "uca.table_file=$table" || return 1
    sed "s,@WORK@,$work," bindings/postgresql/test.sql >"$work/pg.sql"
    psql -qX -h "$work/pgdata" -U tester -d postgres -f "$work/pg.sql" >"$work/pgout" 2>"$work/pgerrors"
    is "PostgreSQL: another session, whose fingerprint is the one that was fixed" "-1" "$(sql pgdata postgres -c "SELECT uca_cmp('a', 'b')")"
    sed -n '/^## An index in PostgreSQL/,$s/^    //p' docs/EXAMPLES.md | grep -v '^\$' >"$work/example_page"
    sql pgdata postgres -c 'CREATE DATABASE example'
    cp rules/sv.rules "$work/" && chmod 644 "$work/sv.rules"
    is "PostgreSQL: what docs/EXAMPLES.md says" "$(grep -v '^postgres=#' "$work/example_page")" \
        "$(sed -n 's/^postgres=# //p' "$work/example_page" | sed "s,'/[^']*allkeys.txt','$table',; s,'/[^']*sv.rules','$work/sv.rules'," | psql -qXAt -h "$work/pgdata" -U tester -d example 2>&1)"
    stop_servers
    is "PostgreSQL: by key" "" "$(cmp "$work/by_key.csv" "$work/ordered.csv" 2>&1)"
    is "PostgreSQL: by sort key" "" "$(cmp "$work/by_sort_key.csv" "$work/ordered.csv" 2>&1)"
    is "PostgreSQL: by operator class" "" "$(cmp "$work/by_text.csv" "$work/ordered.csv" 2>&1)"
    is "PostgreSQL: indexes are used" \
        "50000|Index Scan using by_key on w|Index Scan using by_sort_key on w|Index Only Scan using by_text on w|Index Scan using by_key on w|  Index Cond: ((uca_key(t) >= '\x58000202'::bytea) AND (uca_key(t) <= '\x5b000202'::bytea))|Index Only Scan using by_text on w|  Index Cond: ((t >=~ 'l'::text) AND (t <=~ 'm'::text))|Index Scan using by_key on w|  Index Cond: ((uca_key(t) >= '\x5861'::bytea) AND (uca_key(t) < '\x5862'::bytea))|Index Scan using by_sort_key on w|  Index Cond: ((uca_sort_key(t) >= '\x20d60000002000000002'::bytea) AND (uca_sort_key(t) <= '\x21090000002000000002'::bytea))|t|t|-1|1|0|t|\x58615b61000808|\x20d6213c2109213c0000002000200020002000000002000200020002|t|4096|0|50000|lo Lómo|$digest" \
        "$(paste -sd'|' "$work/pgout")"
    is "PostgreSQL: faults" \
        "ERROR:  uca_key: too many nonstarters in a row, kind 0, at 121|ERROR:  uca_sort_key: too many nonstarters in a row, kind 0, at 121|ERROR:  uca: uca.strength is \"primary\", and the collation \"uca\" has \"tertiary\"" \
        "$(sed 's/^psql:[^ ]* //' "$work/pgerrors" | grep ERROR | paste -sd'|')"
}
if postgresql_is_here; then
    in_postgresql || { echo "$script: PostgreSQL's extension could not be tried"; failed=$((failed + 1)); }
else
    left_out "PostgreSQL, since its server or the server's headers cannot be had"
fi

sum_up
