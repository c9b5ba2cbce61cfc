#!/usr/bin/env bash
# `uca check` on the Unicode Consortium's CollationTest files of version 13, under the table that Debian's perl ships. The files come
# from Debian's source package haskell-unicode-collation. Every line that fails is named.
source "$(dirname "${BASH_SOURCE[0]}")/checks.bash"
source tests/debian.bash

is_built

# checks TEXT WORDS..: the program over a test file; printf %b writes its escapes
checks() {
    printf '%b' "$1" >"$work/input"
    shift
    runs check "$@" <"$work/input"
}

checks '0062\nD800\n0061;x\n'
is "a failing line after a surrogate" "lines 3|skipped 1|first failure 3|1" "$(paste -sd'|' "$work/out")|$status"
checks '0061\n# x\n\n0062'
is "comments, an empty line, no LF at the end" "lines 2|skipped 0|first failure none|0" "$(paste -sd'|' "$work/out")|$status"
checks '0061\n0041\n0061\n' --strength secondary
is "lines of equal keys" "lines 3|skipped 0|first failure none|0" "$(paste -sd'|' "$work/out")|$status"
checks '0061\n;x\n'
is "a line without a code point" "|uca: input line 2: BadLine|3" "$(cat "$work/out")|$(cat "$work/err")|$status"
checks '00G1\n'
is "a word that is not a code point" "|uca: input line 1: BadLine|3" "$(cat "$work/out")|$(cat "$work/err")|$status"
checks "0061\n$(printf '#%.0s' $(seq 4097))"
is "a line of 4,097 bytes" "|uca: input line 2: LineTooLong|3" "$(cat "$work/out")|$(cat "$work/err")|$status"
yes '' | ./uca check >"$work/out" 2>"$work/err"
is "lines without end" "|uca: input line 67108865: TooLarge" "$(cat "$work/out")|$(cat "$work/err")"

published=$(published_table)
[ -n "$published" ] || { echo "$script: no allkeys.txt in perl's folders, so no test file was tried"; sum_up; exit; }

# fetched: downloads the source package, and leaves the path of its folder of test files in $files
fetched() {
    mkdir "$work/source"
    debian update || return 1
    (cd "$work/source" && debian source --download-only haskell-unicode-collation) || return 1
    tar -xzf "$work"/source/*.orig.tar.gz -C "$work/source" || return 1
    files=$(dirname "$(find "$work/source" -name CollationTest_NON_IGNORABLE_SHORT.txt | head -n 1)")
    [ -f "$files/CollationTest_SHIFTED_SHORT.txt" ]
}
fetched || { echo "$script: Debian's source package haskell-unicode-collation is not available, so no published test file was tried"; sum_up; exit; }
is "the package's table is that of perl" "same" "$(cmp -s "$(find "$work/source" -name allkeys.txt | head -n 1)" "$published" && echo same)"

# all_failing FILE WORDS..: each line that is below the one before it, without those that failed before; $report has the first report
all_failing() {
    local file=$1 number
    shift
    cp "$file" "$work/left"
    : >"$work/failing"
    runs check --table "$published" "$@" <"$work/left"
    report=$(paste -sd'|' "$work/out")
    while [ "$status" -eq 1 ]; do
        number=$(sed -n 's/^first failure //p' "$work/out")
        sed -n "${number}{s/[;#].*//;p}" "$work/left" >>"$work/failing"
        sed -i "${number}s/^/# /" "$work/left"
        runs check --table "$published" "$@" <"$work/left"
    done
}

# tried FILE WORDS..: the report of a file, checked against an independent count of its lines, and its failing lines
tried() {
    local file=$files/$1 lines skipped
    lines=$(grep -cE '^[0-9A-F]{4}' "$file")
    skipped=$(grep -cE '^[^;#]*\bD[89A-F][0-9A-F]{2}\b' "$file")
    shift
    all_failing "$file" "$@"
    is "$(basename "$file"): lines and skipped" "lines $lines|skipped $skipped" "${report%|*}"
    # These three are in ranges that were not assigned in version 13. Version 14 made them unified ideographs, and so they are here.
    is "$(basename "$file"): failing lines of other code points" "" "$(grep -vE '^(9FFD|2A6DE|2B735) ' "$work/failing")"
    echo "$script: $(basename "$file"): ${report//|/, }; failing lines: $(wc -l <"$work/failing"), all of 9FFD, 2A6DE and 2B735"
}

tried CollationTest_NON_IGNORABLE_SHORT.txt
tried CollationTest_SHIFTED_SHORT.txt --variable shifted --strength quaternary

# Added ideographs change no line of these files: they were not assigned either, and the files have no code point of the range.
cp "$work/failing" "$work/failing_without"
tried CollationTest_SHIFTED_SHORT.txt --variable shifted --strength quaternary --ideographs 323B0..33479
is "failing lines with added ideographs" "same" "$(cmp -s "$work/failing" "$work/failing_without" && echo same)"
sum_up
