#!/usr/bin/env bash
# tools/changed-code-points: the code points in which two tables differ, and the keys of texts without them.
source "$(dirname "${BASH_SOURCE[0]}")/checks.bash"

is_built
export UCA=$PWD/crates/uca/out/uca

# changed OLD NEW: the code points, on one line
changed() { tools/changed-code-points "$@" 2>&1 | paste -sd' '; }

runs table
cp "$work/out" "$work/old"
is "a table and itself" "" "$(changed "$work/old" "$work/old")"
sed 's/^0062 ;.*/0062 ; [.1001.0020.0003]/' "$work/old" >"$work/new"
is "other elements" "0062" "$(changed "$work/old" "$work/new")"
sed '/^0063 0068/d' "$work/old" >"$work/new"
sed 's/^0062 ;.*/0062 ; [.1003.0020.0002]/' "$work/old" >"$work/moved"
is "a letter at another place, and so another code of packed keys" "0062 changed-code-points: the code of packed keys has changed: rebuild all packed keys" \
    "$(tools/changed-code-points "$work/old" "$work/moved" 2>"$work/err") $(cat "$work/err")"
is "a contraction that was removed" "0063 0068" "$(changed "$work/old" "$work/new")"
is "one that was added" "0063 0068" "$(changed "$work/new" "$work/old")"
sed 's/^@implicitweights 18D00..18D8F; FB00/@implicitweights 18D00..18D8F; FB01/' "$work/old" >"$work/new"
is "a range with another base" "18D00 18D8F 144" \
    "$(tools/changed-code-points "$work/old" "$work/new" | sed -n '1p;$p' | paste -sd' ') $(tools/changed-code-points "$work/old" "$work/new" | wc -l)"
sed 's/^@implicitweights 17000..18AFF/@implicitweights 17001..18AFF/' "$work/old" >"$work/new"
is "a range that begins later moves all of its base" "7056" "$(tools/changed-code-points "$work/old" "$work/new" | wc -l)"
sed 's/^0301 ;.*/0301 ; [.0000.0025.0002]/' "$work/old" >"$work/new"
tools/changed-code-points --characters "$work/old" "$work/new" >"$work/characters"
is "a mark, and the characters that have it in their NFD" "225 769 833 7855" "$(grep -xE '225|226|769|833|7855' "$work/characters" | paste -sd' ')"
is "a table that cannot be read" "uca: cannot open $work/none" "$(tools/changed-code-points "$work/none" "$work/old" 2>&1 >"$work/out" | head -n 1)"

# keys_stay OLD NEW: of 10,000 lines, those without a character of $work/characters have the same keys
keys_stay() {
    local old=$1 new=$2
    shift 2
    "$UCA" key --table "$old" "$@" <"$work/lines" >"$work/before"
    "$UCA" key --table "$new" "$@" <"$work/lines" >"$work/after"
    paste -d'\t' "$work/lines" "$work/before" "$work/after" | perl -CSD -ne '
        BEGIN { open my $file, "<", shift; %is = map { chomp; (chr, 1) } <$file> }
        chomp;
        my ($line, $before, $after) = split /\t/, $_, 3;
        my $has = grep { $is{$_} } split //, $line;
        $has ? ($before eq $after ? $kept++ : $other++) : ($before eq $after ? $same++ : $wrong++);
        END { printf "%d wrong, %s same, %s other\n", $wrong // 0, $same ? "some" : "none", $other ? "some" : "none" }' "$work/characters"
}

perl -CSD -e '
    srand 7;
    my @from = ([0x61, 0x7A], [0xC0, 0x17F], [0x300, 0x323], [0x391, 0x3C9], [0x430, 0x44F], [0x5D0, 0x5EA], [0xAC00, 0xAD00], [0x4E00, 0x4F00]);
    for (1 .. 10000) {
        my $script = $from[rand @from];
        my @sets = ($script, $script, $from[0], $from[2]);
        print map({ my $set = $sets[rand @sets]; chr($set->[0] + rand($set->[1] - $set->[0])) } 0 .. rand 9), "\n";
    }' >"$work/lines"
tools/changed-code-points --characters "$work/old" "$work/new" >"$work/characters"
is "keys under the small table" "0 wrong, some same, some other" "$(keys_stay "$work/old" "$work/new" --strength identical)"

published=$(published_table)
if [ -n "$published" ]; then
    runs table --table "$published" --rules rules/sv.rules
    cp "$work/out" "$work/tailored"
    tools/changed-code-points --characters "$published" "$work/tailored" >"$work/characters" 2>"$work/err"
    is "the code of packed keys in Swedish" "changed-code-points: the code of packed keys has changed: rebuild all packed keys" "$(cat "$work/err")"
    is "keys under the published table and in Swedish" "0 wrong, some same, some other" "$(keys_stay "$published" "$work/tailored")"
fi
sum_up
