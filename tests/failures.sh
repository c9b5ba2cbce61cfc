#!/usr/bin/env bash
# Makes each step fail, one at a time. In each run of a row one step fails: an allocation is refused, a read of the table, the rules or
# the input fails or returns a single byte, or the output stops after some bytes, with an error or by writing no byte. The answer must
# be right, or report that failure and its place, with nothing written but the beginning of the right output.
#
# tests/failures.c makes all these runs out of one, as copies of the process at each step. The rows are the commands of the program with
# their options, their refusals, and tests of crates. In a row with more than 800 steps, the first 400, the last 400 and every 211th
# between fail; over the published table 60, 60 and every 4001st. In a test with at most 8,000 allocations, each one fails. In one with
# more, 120, 120 and every 997th fail; with more than 20,000, or if its name says that its input is at its limit or has no end, 20, 20
# and every 9973rd. The script prints the names of the tests in which not all allocations fail.
source "$(dirname "${BASH_SOURCE[0]}")/checks.bash"

command -v cc >/dev/null || { echo "$script: left out, since there is no C compiler"; sum_up; exit; }
is_built
cc -std=c11 -Wall -Wextra -Werror -O2 -shared -fPIC -o "$work/failures.so" tests/failures.c &&
    cc -std=c11 -Wall -Wextra -Werror -O1 -o "$work/careless" tests/careless.c || { echo "$script: could not be compiled"; exit 1; }
export work
mkdir "$work/rows"
jobs=$work/jobs

# row NAME INPUT WORDS..: a row, with copies of the files of INPUT; leaves its folder in $folder
row() {
    folder=$work/rows/$1
    mkdir "$folder"
    cp "$2" "$folder/input"
    shift 2
    printf '%s\n' "$@" >"$folder/words"
    echo 400 211 >"$folder/rule"
    printf 'uca: OutOfMemory\n' >"$folder/refused"
    echo 3 >"$folder/refused-status"
    : >"$folder/notes"
}

# notes NAME=VALUE..: what failures.c must know about this row
notes() { printf '%s\n' "$@" >>"$folder/notes"; }

# tries KIND..: kinds of steps that fail in this row
tries() { for kind in "$@"; do echo "$folder $kind"; done >>"$jobs"; }

# preloaded FOLDER KIND NOTES..: the program of a row with failures.c; leaves KIND.out, KIND.err and KIND.report
preloaded() {
    local folder=$1 kind=$2 words status
    shift 2
    mapfile -t words <"$folder/words"
    env FAILURES_KIND="$kind" FAILURES_RIGHT="$folder" FAILURES_REPORT="$folder/$kind.report" "$@" LD_PRELOAD="$work/failures.so" \
        "${words[@]}" <"$folder/input" >"$folder/$kind.out" 2>"$folder/$kind.err"
    status=$?
    echo "$status" >"$folder/$kind.status"
}

# rightly FOLDER: the right answer of a row, and how many allocations and reads there are
rightly() {
    preloaded "$1" count
    mv "$1/count.out" "$1/out"
    mv "$1/count.err" "$1/err"
    mv "$1/count.status" "$1/status"
}

# fails_in_turn FOLDER KIND: makes each step of this kind fail; KIND.result has the result
fails_in_turn() {
    local folder=$1 kind=$2 notes growths reads whole each every many few rarely all
    mapfile -t notes <"$folder/notes"
    read -r growths reads <"$folder/count.report"
    read -r each every many few rarely all <"$folder/rule"
    case $kind in
    growths) whole=$growths ;;
    *-reads | reads) whole=$reads ;;
    *) whole=$(stat -c %s "$folder/out") ;;
    esac
    if [ -n "$many" ] && [ "$whole" -gt "$many" ]; then each=$few every=$rarely; fi
    if [ "$whole" -le $((2 * each)) ] || [ "$whole" -le "${all:-0}" ]; then whole=0; fi
    [ "$whole" = 0 ] || echo "$(tail -n 1 "$folder/words") ($whole)" >>"$work/sampled"
    preloaded "$folder" "$kind" FAILURES_WHOLE="$whole" FAILURES_EACH="$each" FAILURES_EVERY="$every" "${notes[@]}"
    for file in out err status; do
        cmp -s "$folder/$kind.$file" "$folder/$file" || echo "! without a failure: another $file" >>"$folder/$kind.report"
    done
    tail -n 1 "$folder/$kind.report" | grep -q '^[=!]' || echo "! the run did not end" >>"$folder/$kind.report"
}
export -f preloaded rightly fails_in_turn

# in_parallel FUNCTION: calls it for each line of the input, with that line as its words
in_parallel() { xargs -P "$(nproc)" -I@ bash -c "$1 @"; }

# run_rows: runs all rows
run_rows() {
    cut -d' ' -f1 "$jobs" | sort -u | in_parallel rightly
    in_parallel fails_in_turn <"$jobs"
}

# said_of REPORT: what was wrong
said_of() {
    if [ -s "$1" ]; then grep '^!' "$1"; else echo "! there is no report"; fi
}

# all_rows WHAT: runs all rows, none of which may have a wrong answer; counts them, and forgets them
all_rows() {
    local from=$SECONDS folder kind
    run_rows
    while read -r folder kind; do
        is "$(basename "$folder"), $(tail -n 1 "$folder/words"): $kind" "" "$(said_of "$folder/$kind.report")"
    done <"$jobs"
    awk -v what="$script: $1" -v took=$((SECONDS - from)) '
        /^=/ { failed += $2; right += $4; reported += $6 }
        END { printf "%s: %d failures in turn in %d s, %d of them right answers, %d reported\n", what, failed, took, right, reported }' "$work"/rows/*/*.report
    forget_rows
}

forget_rows() {
    rm -rf "$work/rows" "$jobs"
    mkdir "$work/rows"
}

# The checks notice mistakes: a program that makes one has steps with a wrong answer, and one that makes none has none.
number=0
while read -r kinds mistake; do
    number=$((number + 1))
    printf 'some lines of an input\nthat is read in pieces\n' >"$work/input"
    row "careless$number" "$work/input" "$work/careless" "$mistake"
    # shellcheck disable=SC2086
    tries ${kinds//,/ }
    echo "$folder" "$kinds" "$mistake" >>"$work/mistakes"
done <<'END'
growths,reads,short-reads,failed-writes,empty-writes none
growths goes on without memory
growths takes it for the end
growths writes other bytes first
growths does not look
reads takes a failed read for the end
reads reports another fault
reads reads again
short-reads takes a short read for the last
failed-writes drops the rest of its output
empty-writes takes no byte for all
failed-writes takes a short write for a whole one
failed-writes,empty-writes counts a byte too many
END
run_rows
while read -r folder kinds mistake; do
    for kind in ${kinds//,/ }; do
        is "a mistake is seen: $mistake, $kind" "$([ "$mistake" = none ] && echo no || echo yes)" "$(grep -q '^!' "$folder/$kind.report" && echo yes || echo no)"
    done
done <"$work/mistakes"
forget_rows

# The commands. Their lines hold contractions, marks between, an ideograph, an empty line, CR and LF, and no LF at the end.
program=$PWD/crates/uca/out/uca
./uca table >"$work/table"
printf '&a<b<c &e<<a/x\n&h<<<H=\\u0048\n# and no more' >"$work/rules"
printf 'ch\n\xc3\xa0b-c\r\n\n\xe1\xba\xa1\xcc\x81\n\xe4\xb8\x80-\ncx\xcc\xa3h hhz' >"$work/lines"
printf 'a\xcc\xa3-ch\n' >"$work/line"
printf '# lines\n0061;\n0063 0068\n0062 0301 0308;# x\nD800\n0041\n' >"$work/test"
: >"$work/none"
both=(--table "$work/table" --rules "$work/rules")

# over_tables NAME INPUT NOTE WORDS..: rows of the program, under each set of tables and rules
over_tables() {
    local name=$1 input=$2 read=$3 set
    shift 3
    for set in plain table rules both all; do
        case $set in
        plain) row "$name-$set" "$input" "$program" "$@" ;;
        table) row "$name-$set" "$input" "$program" "$@" "${both[@]:0:2}" ;;
        rules) row "$name-$set" "$input" "$program" "$@" "${both[@]:2}" ;;
        both) row "$name-$set" "$input" "$program" "$@" "${both[@]}" ;;
        all) row "$name-$set" "$input" "$program" "$@" "${both[@]}" --strength identical --variable shifted ;;
        esac
        # shellcheck disable=SC2086
        notes FAILURES_TABLE="$work/table" FAILURES_RULES="$work/rules" $read
        tries growths reads short-reads failed-writes empty-writes
    done
}

over_tables elements "$work/lines" FAILURES_BEGUN=1 elements
over_tables key "$work/lines" FAILURES_BEGUN=1 key
over_tables raw "$work/line" "" key --raw
over_tables compare "$work/lines" "" compare
over_tables order "$work/lines" "" order
over_tables check "$work/test" FAILURES_LINES=1 check
over_tables lint "$work/none" FAILURES_UNREAD=1 lint
over_tables table "$work/none" FAILURES_UNREAD=1 table

# Input that is refused without any failure is still refused.
refused() {
    local name=$1 input=$2
    shift 2
    row "$name" "$input" "$program" "$@"
    tries growths
}
printf '0061 ; [.1000.0020.0002]\n0061 0062 ; [.10\n' >"$work/bad-table"
printf '&a<b<[c' >"$work/bad-rules"
printf '&a<b &\xe4\xb8\x80<c' >"$work/bad-relation"
printf 'a\nb\xff\n' >"$work/bad-line"
printf '0061\n;x\n' >"$work/bad-test"
refused bad-table "$work/lines" key --table "$work/bad-table" --rules "$work/rules"
refused bad-rules "$work/lines" key --table "$work/table" --rules "$work/bad-rules"
refused bad-relation "$work/lines" order --table "$work/table" --rules "$work/bad-relation"
refused bad-line "$work/bad-line" compare --table "$work/table"
refused bad-test "$work/bad-test" check --table "$work/table"
refused two-lines "$work/lines" key --raw
refused no-job "$work/none" order --strength third
refused no-command "$work/none"
refused no-file "$work/lines" key --table "$work/there-is-none"
row bad-message "$work/bad-line" "$program" key
tries failed-messages

# The published table, and rules of a language over it.
published=$(published_table)
if [ -n "$published" ]; then
    perl tests/texts.pl 40 >"$work/texts"
    for name in elements key compare order table lint; do
        for set in table rules; do
            words=("$name" --table "$published")
            [ "$set" = rules ] && words+=(--rules rules/sv.rules)
            row "published-$name-$set" "$work/texts" "$program" "${words[@]}"
            echo 60 4001 >"$folder/rule"
            notes FAILURES_TABLE="$published" FAILURES_RULES=rules/sv.rules
            case $name in
            table | lint) notes FAILURES_UNREAD=1 ;;
            elements | key) notes FAILURES_BEGUN=1 ;;
            esac
            tries growths reads failed-writes
        done
    done
else
    echo "$script: left out: the published table, which is not there"
fi
all_rows "the program"

# With a range of ideographs little more may be reported than without one: allocations for its words and for the list of ranges. A
# refused allocation of a part that only makes the table faster is not a fault; if rules follow, no such part is built before them.
for set in plain rules; do
    words=(key)
    [ "$set" = rules ] && words+=(--rules "$work/rules")
    for range in "" "--ideographs 323B0..33479"; do
        # shellcheck disable=SC2086
        row "$set${range:+-ideographs}" "$work/line" "$program" "${words[@]}" $range
        echo 100000 1 >"$folder/rule"
        notes FAILURES_BEGUN=1 FAILURES_RULES="$work/rules"
        tries growths
    done
done
run_rows
growths_of() { cut -d' ' -f1 "$work/rows/$1/count.report"; }
reported_of() { awk '/^=/ { print $6 }' "$work/rows/$1/growths.report"; }
few() { [ $(($1 - $2)) -le 40 ] && echo few || echo "$1 beside $2"; }
for set in plain rules; do
    is "wrong answers with a range of ideographs, $set" "" "$(said_of "$work/rows/$set-ideographs/growths.report")"
    is "failures that are reported for a range of ideographs, $set" "few" "$(few "$(reported_of $set-ideographs)" "$(reported_of $set)")"
done
is "allocations for a range of ideographs before rules" "few" "$(few "$(growths_of rules-ideographs)" "$(growths_of rules)")"
forget_rows

# The text of the built-in table, with a version, comments and more blanks, cut after each byte: the last line is still valid, or is refused.
{ echo '@version 15.1.0'; sed 's/ ;/  ;/; s/$/ # what it is/' "$work/table"; } >"$work/text"
perl -e '
    local $/;
    my $text = <>;
    my $point = qr/^[0-9A-F]{4,6}$/;
    for my $size (0 .. length $text) {
        my @lines = split /\n/, substr($text, 0, $size), -1;
        my ($line) = $lines[-1] =~ /^([^#]*?) *(#|$)/;
        my ($key, $elements) = split /;/, $line, 2;
        my $cause = "";
        if ($line =~ /^\@implicitweights +([^ ;.]*)(.*)/) {
            my ($first, $rest) = ($1, $2);
            my ($last, $base) = $rest =~ /^ *\.\. *([^ ;.]*)(.*)/;
            $cause = $first !~ $point ? "BadCodePoint" : !defined $last ? "BadDirective" : $last !~ $point ? "BadCodePoint"
                : $base !~ /^ *; *[0-9A-F]{4}$/ ? "BadDirective" : "";
        } elsif ($line =~ /^@/) {
            $cause = "BadDirective" unless $line =~ /^\@version +./;
        } elsif ($line ne "") {
            $cause = "BadCodePoint" if grep { $_ !~ $point } split " ", $key;
            $cause ||= "NoSemicolon" unless defined $elements;
            $cause ||= "NoElement" unless $elements =~ /\S/;
            $cause ||= "BadElement" unless $elements =~ /^ *(\[[.*]([0-9A-F]{4}\.){2}[0-9A-F]{4}\] *)+$/;
        }
        print $cause ? "3 uca: table line " . @lines . ": $cause\n" : "0 \n";
    }' "$work/text" >"$work/wanted"
size=$(stat -c %s "$work/text")
for cut in $(seq 0 "$size"); do
    head -c "$cut" "$work/text" >"$work/cut"
    "$program" table --table "$work/cut" >"$work/out" 2>"$work/err"
    echo "$? $(cat "$work/err")"
done >"$work/answers"
is "a table that is cut after each of its bytes" "" "$(diff "$work/wanted" "$work/answers" | head -n 5)"
echo "$script: a table cut at $((size + 1)) places"

# Endless input is refused at its limit.
for case in \
    "table line 1: LineTooLong=key --table /dev/zero" \
    "table line 67108865: TooLarge=key --table <(yes '')" \
    "rules byte 1048576: TooLarge=key --rules <(yes '')" \
    "input: TooLarge=order < <(yes '')" \
    "input line 67108865: TooLarge=check < <(yes '')"; do
    eval "\"\$program\" ${case#*=}" >"$work/out" 2>"$work/err"
    is "endless: ${case#*=}" "3|0|uca: ${case%%=*}" "$?|$(wc -c <"$work/out")|$(cat "$work/err")"
done

# The tests of crates that allocate: they try again after a refused allocation, or end with that failure. uca_commands has no tests of
# its own: those of uca_cli and the commands of the program, above, call it.
for crate in uca_weights tests_{io,window,table,allkeys,match,levels,key,tailor,conform,job,handle,cli}; do
    folder=crates/$crate
    tests=$folder/out/${crate}_tests
    if [ ! -x "$tests" ] || [ -n "$(find crates/*/src crates.txt -newer "$tests" -print -quit)" ]; then
        (cd "$folder" && rt test) >"$work/log" 2>&1 || { cat "$work/log"; echo "$script: the tests of $crate could not be built"; failed=$((failed + 1)); continue; }
    fi
    number=0
    for name in $("$tests" --list | sed -n 's/: test$//p'); do
        number=$((number + 1))
        row "$crate-$number" "$work/none" "$PWD/$tests" "$name"
        case $name in
        *_at_the_limit_* | *_past_the_limit* | *limit_of_the_input* | *file_has_a_limit | *without_end*) echo 20 9973 >"$folder/rule" ;;
        *) echo 120 997 20000 20 9973 8000 >"$folder/rule" ;;
        esac
        printf 'error: AllocError\nthe test failed: its result gives status 1\n' >"$folder/refused"
        echo 101 >"$folder/refused-status"
        tries growths
    done
done
rm -f "$work/sampled"
all_rows "tests of crates"
[ ! -s "$work/sampled" ] || echo "$script: a sample of the growths of these tests: $(sort "$work/sampled" | paste -sd, | sed 's/,/, /g')"
sum_up
