#!/usr/bin/env bash
# Measures `uca key`, `uca compare` of sorted neighbours and `uca order` beside ICU, one script at a time, in the same run: ratios of
# processor time per line, without loading, at strength tertiary with non-ignorable variable elements, and for keys and comparisons also
# at strength quaternary with shifted ones. Then measures the worst texts, in microseconds per line, and how time and memory grow with
# the input. Prints tables; it is not a test. corpora.sh [BYTES [OLD]]: given the path of another build, also measures the worst texts
# with that.
source "$(dirname "${BASH_SOURCE[0]}")/shared.bash"
source tests/debian.bash
source bench/lists.bash
bytes=${1:-4000000}
before=${2:-}
[ -z "$before" ] || before=$(cd "$from" && readlink -f "$before")
gcc -O2 -DWITH_ICU -o "$work/peer" bench/peer.c -licui18n -licuuc || refuses "ICU is not available: it needs libicu-dev"
fetched || exit 1

# each INPUT COMMAND..: nanoseconds per line, without loading
each() {
    local input=$1 load loaded lines
    shift
    lines=$(wc -l <"$input")
    read -r load _ <<<"$(measured 5 /dev/null "$@")"
    read -r loaded _ <<<"$(measured 5 "$input" "$@")"
    [ -n "$loaded" ] || refuses "$* could not be run"
    awk -v a="$load" -v b="$loaded" -v n="$lines" 'BEGIN { printf "%.0f", 1e9 * (b - a) / n }'
}

# beside INPUT JOB [shifted]: ICU's nanoseconds of a line, and the ratio of uca's: eleven runs in turn of both, without and with the input
beside() {
    local icu=("$work/peer" icu "$2" ${3:+"$3"}) ours=("$uca" "$2" --table "$published") seconds
    [ "${3:-}" = shifted ] && ours+=(--variable shifted --strength quaternary)
    seconds=$("$work/measured" 11 /dev/null /dev/null "${icu[@]}" -- "$1" /dev/null "${icu[@]}" -- /dev/null /dev/null "${ours[@]}" -- "$1" /dev/null "${ours[@]}") ||
        refuses "$2 could not be run"
    awk -v n="$(wc -l <"$1")" '{ s[NR] = $1 } END { printf " %d | %.2f |", 1e9 * (s[2] - s[1]) / n, (s[4] - s[3]) / (s[2] - s[1]) }' <<<"$seconds"
}

echo "ICU $(echo U_ICU_VERSION | gcc -E -include unicode/uvernum.h - | tail -n 1 | tr -d '"'); $(nproc) processors, load $(cut -d' ' -f1-3 /proc/loadavg)"
echo
echo '| Corpus | Lines | Characters a line | Key: ICU, ns | Ratio | Compare: ICU, ns | Ratio | Order: ICU, ns | Ratio | Key, shifted: ICU, ns | Ratio | Compare, shifted: ICU, ns | Ratio |'
echo '|---|---|---|---|---|---|---|---|---|---|---|---|---|'
for name in $corpora; do
    corpus "$name" || { echo "| $name | not available |"; continue; }
    "$uca" order --table "$published" <"$work/lines" >"$work/sorted" || refuses "uca order could not be run"
    printf '| %s | %d | %.1f |' "$name" "$(wc -l <"$work/lines")" "$(perl -CSD -ne '$n += length; END { print $n / $. - 1 }' "$work/lines")"
    beside "$work/lines" key
    beside "$work/sorted" compare
    beside "$work/lines" order
    beside "$work/lines" key shifted
    beside "$work/sorted" compare shifted
    echo
done

programs=("$uca")
[ -z "$before" ] || programs+=("$before")
echo
echo "| Worst text | Key: ICU, µs a line | Compare: ICU |$([ -z "$before" ] || echo ' Key: before | Compare: before |') Key | Compare |"
echo "|---|---|---|---|---|$([ -z "$before" ] || echo '---|---|')"
for name in "sixty marks" "sixty marks, two classes" contractions U+FDFA "Hangul parts" variable ideographs; do
    worst "$name" 50000 >"$work/lines"
    row="| $name |"
    for job in key compare; do row+=$(awk -v a="$(each "$work/lines" "$work/peer" icu "$job")" 'BEGIN { printf " %.2f |", a / 1000 }'); done
    for ((at = ${#programs[@]} - 1; at >= 0; at--)); do
        for job in key compare; do
            row+=$(awk -v a="$(each "$work/lines" "${programs[at]}" "$job" --table "$published")" 'BEGIN { printf " %.2f |", a / 1000 }')
        done
    done
    echo "$row"
done

# Keys of 32 code points, and texts that begin one at each character and never complete one.
perl -e '
    my @key = ("0061") x 31;
    print "0061;[.1000.0020.0002]\n0062;[.1001.0020.0002]\n@key 0063;[.1002.0020.0002]\n@key 0064;[.1003.0020.0002]\n"' >"$work/long-keys"
perl -e 'print "a" x 30, "b", "a" x 30, "$_\n" for 1 .. 50000' >"$work/lines"
row="| keys of 32 | | |"
for program in "${programs[1]:-}" "${programs[0]}"; do
    [ -n "$program" ] || continue
    for job in key compare; do
        row+=$(awk -v a="$(each "$work/lines" "$program" "$job" --table "$work/long-keys")" 'BEGIN { printf " %.2f |", a / 1000 }')
    done
done
echo "$row"

# growth BYTES: a row for this many bytes of mixed lines: time and memory of each job with loading, and the ratio to ICU's
growth() {
    local job input icu icu_memory ours memory
    perl bench/corpus.pl "$work/lists" "$1" <<<"$lists" >"$work/lines" 2>/dev/null || refuses "no lines could be made"
    "$uca" order --table "$published" <"$work/lines" >"$work/sorted" || refuses "uca order could not be run"
    printf '| %d MB |' $(($1 / 1000000))
    for job in key compare order; do
        input=$work/lines
        [ "$job" = compare ] && input=$work/sorted
        read -r icu icu_memory <<<"$(measured 3 "$input" "$work/peer" icu "$job")"
        read -r ours memory <<<"$(measured 3 "$input" "$uca" "$job" --table "$published")"
        [ -n "$memory" ] || refuses "$job of $1 bytes could not be run"
        awk -v a="$icu" -v m="$icu_memory" -v b="$ours" -v n="$memory" \
            'BEGIN { printf " %.3f s, %.0f MiB; %.2f, %.2f |", b, n / 1024, b / a, n / m }'
    done
    echo
}

echo
echo '| Mixed lines | Key: time and memory; to ICU | Compare | Order |'
echo '|---|---|---|---|'
for size in 1000000 4000000 16000000 64000000; do growth "$size"; done
