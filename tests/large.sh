#!/usr/bin/env bash
# Long lists: ucasort sorts a list in many parts as `uca order` sorts it whole, in both of its ways: `uca order` over the parts, and GNU
# sort over the keys. examples/large-lists has the times for 300 MB.
source "$(dirname "${BASH_SOURCE[0]}")/checks.bash"

is_built
UCA=$PWD/crates/uca/out/uca
export UCA TMPDIR=$work/temporary
mkdir "$TMPDIR"
./uca table >"$work/table"

# sorts PART WORDS..: ucasort with parts of PART bytes; leaves out, err and status
sorts() {
    local part=$1
    shift
    UCA_TABLE=$work/table UCASORT_PART=$part ./ucasort --parallel 3 -S 64M "$@" >"$work/out" 2>"$work/err"
    status=$?
}

sorts 1000 <<<$'b\nA\na\nch\ncz'
is "lines in one part" "a|A|b|cz|ch|0" "$(paste -sd'|' "$work/out")|$status"
for way in '' '-k 1'; do
    # shellcheck disable=SC2086
    sorts 4 $way <<<$'b\nA\na\nch\ncz'
    is "lines in several parts, $way" "a|A|b|cz|ch|0" "$(paste -sd'|' "$work/out")|$status"
    # shellcheck disable=SC2086
    sorts 4 -s --strength primary $way <<<$'b\nA\na\nch\ncz'
    is "lines of equal keys keep their order, $way" "A|a|b|cz|ch|0" "$(paste -sd'|' "$work/out")|$status"
    # shellcheck disable=SC2086
    sorts 4 -u --strength primary $way <<<$'b\nA\na\nch\ncz\nb'
    is "the first of lines of equal keys, $way" "A|b|cz|ch|0" "$(paste -sd'|' "$work/out")|$status"
    # shellcheck disable=SC2086
    sorts 8 $way </dev/null
    is "no line, $way" "0|0" "$(wc -c <"$work/out")|$status"
    # shellcheck disable=SC2086
    sorts 4 --bad refuse $way < <(printf 'b\na\nc\nd\ne\xff\n')
    is "bytes that are not UTF-8, $way" "0|ucasort: -:5: byte 1: NotUtf8|2" "$(wc -c <"$work/out")|$(cat "$work/err")|$status"
    # shellcheck disable=SC2086
    sorts 4 $way < <(printf 'b\nabcdef\na\n')
    is "a line that is longer than a part, $way" "a|abcdef|b|0" "$(paste -sd'|' "$work/out")|$status"
done
sorts 8 < <(printf 'b\r\na\tx\r\r\n\nq\na')
is "CR and LF, TAB, an empty line, no LF at the end" "0a 61 0a 61 09 78 0d 0d 0a 62 0d 0a 71 0a|0" "$(od -An -v -tx1 "$work/out" | tr -s ' \n' ' ' | sed 's/^ //;s/ $//')|$status"
UCA_TABLE=$work/table ./uca order < <(printf 'b\r\na\tx\r\r\n\nq\na') | cmp -s - <(sed 's/\r$//' "$work/out")
is "the same by uca order, which does not write one CR before LF" "0" "$?"
{
    echo b
    head -c 67108864 /dev/zero | tr '\0' 'a'
    printf '\na\n'
} >"$work/long"
sorts 16777216 "$work/long"
is "a line of 64 MiB" "0|ucasort: a line is longer than 67108864 bytes|2" "$(wc -c <"$work/out")|$(cat "$work/err")|$status"
sorts 4 --strength fifth <<<a
is "words that are refused" "0|2" "$(wc -c <"$work/out")|$status"
sorts 4 --table "$work/none" <<<a
is "a table that is not there" "0|ucasort: cannot open $work/none|2" "$(wc -c <"$work/out")|$(cat "$work/err")|$status"
perl tests/texts.pl 30000 >"$work/texts"
{ printf 'b\r\n'; cat "$work/texts"; } >"$work/some"
sorts 50000 "$work/some"
is "one CR before LF among many lines" "same|0" "$(LC_ALL=C sort "$work/some" | cmp -s - <(LC_ALL=C sort "$work/out") && echo same)|$status"
for way in '' '-k 1'; do
    # shellcheck disable=SC2086
    { UCA_TABLE=$work/table UCASORT_PART=50000 ./ucasort $way <"$work/texts"; echo $? >"$work/status"; } | head -n 1 >/dev/null
    is "a reader that has enough of it, $way" "141" "$(cat "$work/status")"
done

# Lists in about fifty parts, each line three times, also with rules. Lines with equal keys fill several parts.
published=$(published_table)
if [ -n "$published" ]; then
    cat "$work/texts" "$work/texts" "$work/texts" | shuf --random-source=<(yes) >"$work/many"
    for settings in '' '--strength primary' '--variable shifted --strength quaternary' '--rules rules/cs.rules'; do
        # shellcheck disable=SC2086
        ./uca order --table "$published" $settings <"$work/many" >"$work/whole"
        # shellcheck disable=SC2086
        LC_ALL=C sort "$work/many" | ./uca order --table "$published" $settings >"$work/whole_by_bytes"
        for way in '' '-k 1'; do
            # shellcheck disable=SC2086
            sorts 60000 -s --table "$published" $settings $way <"$work/many"
            is "$(($(wc -c <"$work/many") / 60000)) parts as one whole, $settings $way" "same|0" "$(cmp -s "$work/whole" "$work/out" && echo same)|$status"
            # shellcheck disable=SC2086
            sorts 60000 --table "$published" $settings $way <"$work/many"
            is "the same with equal keys by bytes, $settings $way" "same|0" "$(cmp -s "$work/whole_by_bytes" "$work/out" && echo same)|$status"
            # shellcheck disable=SC2086
            sorts 60000 -r --table "$published" $settings $way <"$work/many"
            is "the same reversed, $settings $way" "same|0" "$(tac "$work/whole_by_bytes" | cmp -s - "$work/out" && echo same)|$status"
            # shellcheck disable=SC2086
            sorts 60000 -u --table "$published" $settings $way <"$work/many"
            # shellcheck disable=SC2086,SC2094 # the same file is read twice
            ./uca compare --table "$published" $settings <"$work/whole" | cat <(echo first) - | paste -d '\t' - "$work/whole" | grep -v '^equal' | cut -f2- | cmp -s - "$work/out"
            is "the first of equal keys, $settings $way" "0|0" "$?|$status"
        done
        # shellcheck disable=SC2086
        sorts 60000 -r -s --table "$published" $settings <"$work/many"
        # shellcheck disable=SC2086
        tac "$work/many" | ./uca order --table "$published" $settings | tac | cmp -s - "$work/out"
        is "reversed, with equal keys as they are, $settings" "0|0" "$?|$status"
        # shellcheck disable=SC2086
        sorts 60000 -c --table "$published" $settings "$work/whole_by_bytes"
        is "the sorted list is in its order, $settings" "|0" "$(cat "$work/err")|$status"
    done
    yes A | head -n 200000 >"$work/equal"
    yes a | head -n 200000 >>"$work/equal"
    sorts 60000 --strength primary -s --table "$published" "$work/equal"
    is "four hundred thousand equal keys" "same|0" "$(cmp -s "$work/equal" "$work/out" && echo same)|$status"
else
    echo "$script: no allkeys.txt in perl's folders, so no large list was tried"
fi

is "no file is left" "" "$(find "$TMPDIR" -mindepth 1)"
sum_up
