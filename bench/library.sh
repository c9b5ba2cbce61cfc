#!/usr/bin/env bash
# Measures the C library beside ICU's C API, in one run, over lines of one to four words from Debian's word lists, which it downloads
# without installing them: nanoseconds per call, for all scripts, Latin, Hangul, and Thai with Devanagari. Then, if Debian's libsqlite3-dev
# is installed, measures SQLite's index and order by uca_key (packed keys) and by uca_sort_key beside those by ICU's keys, over 1,000,000
# lines of all scripts. It needs Debian's libicu-dev. It is not a test.
uca=none # the program is not measured here
source "$(dirname "${BASH_SOURCE[0]}")/shared.bash"
source tests/debian.bash
source bench/lists.bash
make -s -C bindings/c OUT="$work/c" >"$work/log" 2>&1 || { cat "$work/log"; refuses "the C library could not be built"; }
cc -std=gnu11 -Wall -Wextra -O2 -Iinclude -o "$work/library" bench/library.c "$work/c/libuca.a" -licui18n -licuuc || refuses "ICU is not available: it needs libicu-dev"
fetched || exit 1

# corpus NAME BYTES LINES: the first lines of a corpus, as $work/NAME
corpus() {
    case $1 in
    latin) named Latin ;;
    hangul) named Hangul ;;
    indic) named Indic ;;
    *) echo "$lists" ;;
    esac | perl bench/corpus.pl "$work/lists" "$2" 2>/dev/null | head -n "$3" >"$work/$1"
    [ "$(wc -l <"$work/$1")" -eq "$3" ] || refuses "$1: not $3 lines"
}

corpus mixed 5000000 100000
corpus latin 4000000 100000
corpus hangul 4000000 60000
corpus indic 6000000 100000
corpus rows 42000000 1000000
echo "$(nproc) processors, load $(cut -d' ' -f1-3 /proc/loadavg)"
for name in mixed latin hangul indic; do
    for setting in "3 0" "4 2"; do
        echo "$name, strength and option $setting"
        # shellcheck disable=SC2086
        "$work/library" "$published" "$work/$name" $setting || refuses "library: status $?"
    done
done

echo '#include <sqlite3ext.h>' | cc -E - >/dev/null 2>&1 || exit 0
cc -O2 -shared -fPIC -Iinclude -o "$work/uca_sqlite.so" bindings/sqlite/uca_sqlite.c "$work/c/libuca.a"
cc -std=gnu11 -Wall -Wextra -O2 -o "$work/sqlite" bench/sqlite.c -lsqlite3 -licui18n -licuuc
echo "SQLite"
"$work/sqlite" "$published" "$work/rows" "$work/uca_sqlite.so" 6
echo "load $(cut -d' ' -f1-3 /proc/loadavg)"
