#!/usr/bin/env bash
# Counts the instructions of a line for `uca key`, `uca compare` of sorted neighbours and `uca order` beside ICU's, by callgrind and
# without those of the loading: one script at a time, at strength tertiary with non-ignorable variable elements, and for keys and
# comparisons also at strength quaternary with shifted ones; then for the worst texts. Other work on the machine changes none of them.
# Prints tables; it is not a test. instructions.sh [BYTES [OLD]]: given the path of another build, counts that beside it in place of ICU.
source "$(dirname "${BASH_SOURCE[0]}")/shared.bash"
source tests/debian.bash
source bench/lists.bash
bytes=${1:-250000}
before=${2:-}
[ -z "$before" ] || before=$(cd "$from" && readlink -f "$before")
[ -n "$(command -v valgrind)" ] || refuses "valgrind is not available"
gcc -O2 -DWITH_ICU -o "$work/peer" bench/peer.c -licui18n -licuuc || refuses "ICU is not available: it needs libicu-dev"
fetched || exit 1
: >"$work/nothing"

# counted INPUT COMMAND..: the instructions of a run
counted() {
    local input=$1
    shift
    valgrind --tool=callgrind --callgrind-out-file=/dev/null "$@" <"$input" 2>&1 >/dev/null | awk '/Collected/ { print $4 }'
}

# of_line INPUT COMMAND..: the instructions of a line, without loading, which is counted once for each command
of_line() {
    local input=$1 load whole
    shift
    load=$work/load-$(md5sum <<<"$*" | cut -d' ' -f1)
    [ -s "$load" ] || counted "$work/nothing" "$@" >"$load"
    whole=$(counted "$input" "$@")
    [ -n "$whole" ] || refuses "$* could not be run"
    awk -v a="$(cat "$load")" -v b="$whole" -v n="$(wc -l <"$input")" 'BEGIN { printf "%.0f", (b - a) / n }'
}

# other INPUT JOB [shifted]: the instructions of a line of what is counted beside uca
other() {
    if [ -n "$before" ]; then
        of_line "$1" "$before" "$2" "${words[@]}"
    else
        of_line "$1" "$work/peer" icu "$2" ${3:+"$3"}
    fi
}

# beside INPUT JOB [shifted]: the other's instructions of a line, uca's and their ratio
beside() {
    local words=(--table "$published") one ours
    [ "${3:-}" = shifted ] && words+=(--variable shifted --strength quaternary)
    one=$(other "$@")
    ours=$(of_line "$1" "$uca" "$2" "${words[@]}")
    awk -v a="$one" -v b="$ours" 'BEGIN { printf " %d; %d | %.2f |", a, b, b / a }'
}

echo '| Lines of | `key` | | `compare` | | `order` | | `key`, shifted | | `compare`, shifted | |'
echo '|---|---|---|---|---|---|---|---|---|---|---|'
for name in $corpora; do
    corpus "$name" || { echo "| $name | not available |"; continue; }
    "$uca" order --table "$published" <"$work/lines" >"$work/sorted" || refuses "uca order could not be run"
    printf '| %s |' "$name"
    beside "$work/lines" key
    beside "$work/sorted" compare
    beside "$work/lines" order
    beside "$work/lines" key shifted
    beside "$work/sorted" compare shifted
    echo
done

echo
echo '| Worst text | `key` | | `compare` | |'
echo '|---|---|---|---|---|'
for name in "sixty marks" "sixty marks, two classes" contractions U+FDFA "Hangul parts" variable ideographs; do
    worst "$name" 2000 >"$work/lines"
    printf '| %s |' "$name"
    beside "$work/lines" key
    beside "$work/lines" compare
    echo
done
