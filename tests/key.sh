#!/usr/bin/env bash
# The built program from end to end: `uca key` on small inputs, on inputs that it refuses, and on inputs at its limit.
source "$(dirname "${BASH_SOURCE[0]}")/checks.bash"

marks() { for _ in $(seq "$1"); do printf '\xcc\x81'; done; }

# the bytes of a file, as pairs of digits
in_digits() { od -An -v -tx1 "$1" | tr -d ' \n'; }

is_built

runs key < <(printf 'a\nab\n')
is "keys of two lines" "10 00 00 00 00 20 00 00 00 02|10 00 10 01 00 00 00 20 00 20 00 00 00 02 00 02|0" "$(paste -sd'|' "$work/out")|$status"
runs key < <(printf '\xc3\xa0\n\n\xe4\xb8\x80')
is "a decomposed letter, an empty line, an ideograph" "10 00 00 00 00 20 00 21 00 00 00 02 00 02|00 00 00 00|FB 40 CE 00 00 00 00 20 00 00 00 02|0" "$(paste -sd'|' "$work/out")|$status"
runs key < <(printf 'a\r\na\r')
is "one CR before LF or the end is not part of the line" "10 00 00 00 00 20 00 00 00 02|10 00 00 00 00 20 00 00 00 02|0" "$(paste -sd'|' "$work/out")|$status"
runs key </dev/null
is "no line" "|0" "$(cat "$work/out")|$status"

runs key < <(printf 'a\nb\xff\n')
is "bytes that are not UTF-8" "|uca: input line 2 byte 1: NotUtf8|3" "$(cat "$work/out")|$(cat "$work/err")|$status"
runs key < <(printf 'b\na'; marks 61; printf '\n')
is "a run of 61 marks" "|uca: input line 2 byte 121: LongRun|3" "$(cat "$work/out")|$(cat "$work/err")|$status"
runs key < <(printf 'a'; marks 60)
is "a run of 60 marks" "|0" "$(cat "$work/err")|$status"

runs elements < <(printf 'ch\n\xe1\xba\xa1\xcc\x81\n\n\xe4\xb8\x80-\n')
is "elements" "[.1007.0020.0002]|[.1008.0020.0002][.0000.0024.0002]||[.FB40.0020.0002][.CE00.0000.0000][*0202.0020.0002]|0" "$(paste -sd'|' "$work/out")|$status"
runs key --variable shifted --strength quaternary < <(printf 'a-b')
is "four levels, shifted" "10 00 10 01 00 00 00 20 00 20 00 00 00 02 00 02 00 00 FF FF 02 02 FF FF|0" "$(cat "$work/out")|$status"

# U+323B0, and the last of the fixed list, U+323AF
runs key --ideographs 323B0..33479 < <(printf '\xf0\xb2\x8e\xb0\n')
is "an added ideograph" "FB 86 A3 B0 00 00 00 20 00 00 00 02|0" "$(cat "$work/out")|$status"
runs key < <(printf '\xf0\xb2\x8e\xb0\n')
is "a code point that is not an ideograph" "FB C6 A3 B0 00 00 00 20 00 00 00 02|0" "$(cat "$work/out")|$status"
printf '&a<b' >"$work/b.rules"
runs key --rules "$work/b.rules" --ideographs=323B0..323B0 < <(printf '\xf0\xb2\x8e\xb0\n')
is "an added ideograph, tailored" "FB 86 A3 B0 00 00 00 20 00 00 00 02|0" "$(cat "$work/out")|$status"
for range in 4E00..4E01 323AF..33479 33479..323B0; do
    runs key --ideographs $range --rules /dev/null < <(printf '\xff')
    is "a range that is refused: $range" "|uca: ideographs: BadRange|3" "$(cat "$work/out")|$(cat "$work/err")|$status"
done
for range in 323B0 323B0..3347G '323B0 ..33479'; do
    runs key --ideographs "$range" </dev/null
    is "no range: $range" "|uca: --ideographs: BadIdeographs|2" "$(cat "$work/out")|$(cat "$work/err")|$status"
done

runs key --raw < <(printf 'a\n')
is "the bytes of a key" "10000000002000000002|0" "$(in_digits "$work/out")|$status"
runs key --raw < <(printf 'ch\r\n')
is "the bytes of a key, CR before LF" "10070000002000000002|0" "$(in_digits "$work/out")|$status"
runs key --raw --strength identical < <(printf '\n')
is "the bytes of the key of an empty line" "0000000000000000|0" "$(in_digits "$work/out")|$status"
runs key --raw --strength primary < <(printf '\n')
is "a key without any byte" "0|0" "$(wc -c <"$work/out")|$status"
for input in '' 'a\nb\n' '\n\n'; do
    # shellcheck disable=SC2059
    runs key --raw < <(printf "$input")
    is "the bytes of the key of no line or several: $input" "0|uca: input: NotOneLine|3" "$(wc -c <"$work/out")|$(cat "$work/err")|$status"
done
runs key --raw < <(printf 'a\nb\xff\n')
is "bytes that are not UTF-8 in several lines" "0|uca: input line 2 byte 1: NotUtf8|3" "$(wc -c <"$work/out")|$(cat "$work/err")|$status"
./uca key --raw < <(printf 'a\n') >/dev/full 2>"$work/err"
status=$?
is "the bytes of a key, and a full disk" "uca: output byte 0: Failed|3" "$(cat "$work/err")|$status"

for words in "" "sort" "key --strength third" "key extra" "table --raw" "key --raw --raw" "--help"; do
    # shellcheck disable=SC2086
    runs $words </dev/null
    is "words that are not a job: $words" "0|text|2" "$(wc -c <"$work/out")|$([ -s "$work/err" ] && echo text)|$status"
done
runs sort </dev/null
is "clap's text for words that are not a job" "error: unrecognized subcommand 'sort'||Usage: uca <COMMAND>||For more information, try '--help'." "$(paste -sd'|' "$work/err")"
runs key '' </dev/null
is "an empty word" "0|error: unexpected argument '' found|2" "$(wc -c <"$work/out")|$(head -n 1 "$work/err")|$status"
runs 'key ' </dev/null
is "a blank in a word" "0|error: unrecognized subcommand 'key '|2" "$(wc -c <"$work/out")|$(head -n 1 "$work/err")|$status"
runs key --table $'\xff' </dev/null
is "a word that is not UTF-8" "0|uca: a word of the command line is not UTF-8|2" "$(wc -c <"$work/out")|$(cat "$work/err")|$status"

./uca key < <(printf 'a\n') >/dev/full 2>"$work/err"
status=$?
is "a full disk" "uca: output byte 0: Failed|3" "$(cat "$work/err")|$status"

# If standard input is closed, the file of the table could be opened in its place.
./uca table >"$work/table"
for command in elements key compare order; do
    ./uca "$command" --table "$work/table" <&- >"$work/out" 2>"$work/err"
    status=$?
    is "a closed input: $command" "0|uca: input: Read|3" "$(wc -c <"$work/out")|$(cat "$work/err")|$status"
done
./uca check --table "$work/table" <&- >"$work/out" 2>"$work/err"
status=$?
is "a closed test file" "0|uca: input line 1: Read|3" "$(wc -c <"$work/out")|$(cat "$work/err")|$status"
for words in "--table $work/none" "--table $work/table --rules $work/none"; do
    ./uca key $words <&- >"$work/out" 2>"$work/err"
    status=$?
    is "a file that is not there is reported before a closed input: $words" "|uca: cannot open $work/none|3" "$(cat "$work/out")|$(cat "$work/err")|$status"
done
printf '0061 ; [.10\n' >"$work/faulty"
./uca key --table "$work/faulty" <&- >"$work/out" 2>"$work/err"
status=$?
is "a faulty table is reported before a closed input" "|uca: table line 1: BadElement|3" "$(cat "$work/out")|$(cat "$work/err")|$status"
./uca table --table "$work/table" <&- >"$work/out"
status=$?
is "a closed input that is not read" "same|0" "$(cmp -s "$work/out" "$work/table" && echo same)|$status"

# At the limit: 64 MiB are accepted; one byte more is refused before anything is written.
limit=67108864
yes 'strasse' | head -c "$limit" >"$work/large"
from=$(date +%s)
./uca key <"$work/large" | wc -l >"$work/lines"
is "64 MiB of lines" "$((limit / 8))" "$(cat "$work/lines")"
echo "tests/key.sh: 64 MiB of short lines took $(($(date +%s) - from)) s"
printf 'x' >>"$work/large"
runs key <"$work/large"
is "one byte more than 64 MiB" "0|uca: input: TooLarge|3" "$(wc -c <"$work/out")|$(cat "$work/err")|$status"

# Allocation failures, for many words and for the input. Only the program has the limit, since bash could not run in so little memory.
if command -v prlimit >/dev/null; then
    mapfile -t many < <(yes a | head -n 40000)
    for limit in $(seq 2000000 250000 20000000); do
        prlimit --data="$limit" crates/uca/out/uca key "${many[@]}" </dev/null >"$work/out" 2>"$work/err"
        echo "$?|$(wc -c <"$work/out")|$(head -n 1 "$work/err")"
    done >"$work/answers"
    is "an allocation failure for the words" "2|0|error: unexpected argument 'a' found 3|0|uca: OutOfMemory" "$(sort -u "$work/answers" | paste -sd' ')"
    prlimit --data=48000000 crates/uca/out/uca key <"$work/large" >"$work/out" 2>"$work/err"
    status=$?
    is "an allocation failure for the input" "0|uca: OutOfMemory|3" "$(wc -c <"$work/out")|$(cat "$work/err")|$status"
else
    echo "tests/key.sh: there is no prlimit, so no allocation failed"
fi

# A line of letters with sixty marks each also takes nearly linear time.
perl -e 'print(("a" . "\xCC\xA3\xCC\x81" x 30) x (67108864 / 121))' >"$work/marks"
from=$(date +%s)
runs key <"$work/marks"
is "64 MiB in one line of letters with sixty marks" "$(((67108864 / 121) * (2 + 2 * 60 + 2 * 60) * 3 + 12))|0" "$(wc -c <"$work/out")|$status"
echo "tests/key.sh: 64 MiB of letters with sixty marks took $(($(date +%s) - from)) s"

sum_up
