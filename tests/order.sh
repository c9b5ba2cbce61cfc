#!/usr/bin/env bash
# `uca order` and `uca lint` from end to end: `uca order` on small inputs, compared with a sort of stored keys, and at its limit; `uca
# lint` on small tables and on the one that Debian's perl ships.
source "$(dirname "${BASH_SOURCE[0]}")/checks.bash"

is_built

# orders INPUT WORDS..: the program over these bytes, for which printf %b writes escapes
orders() {
    printf '%b' "$1" >"$work/input"
    shift
    runs order "$@" <"$work/input"
}

orders 'b\nA\na\nch\ncz\n'
is "lines by three levels" "a|A|b|cz|ch|0" "$(paste -sd'|' "$work/out")|$status"
orders 'b\nA\na\nch\ncz\n' --strength primary
is "lines of equal keys keep their order" "A|a|b|cz|ch|0" "$(paste -sd'|' "$work/out")|$status"
orders 'b\r\na\r\r\n\na'
is "CR and LF, an empty line, no LF at the end" "0a 61 0a 61 0d 0a 62 0a|0" "$(od -An -v -tx1 "$work/out" | tr -s ' \n' ' ' | sed 's/^ //;s/ $//')|$status"
orders ''
is "no line" "0|0" "$(wc -c <"$work/out")|$status"
orders 'a\nb\xff\n'
is "bytes that are not UTF-8" "|uca: input line 2 byte 1: NotUtf8|3" "$(cat "$work/out")|$(cat "$work/err")|$status"
./uca order < <(printf 'a\n') >/dev/full 2>"$work/err"
status=$?
is "a full disk" "uca: output byte 0: Failed|3" "$(cat "$work/err")|$status"

# finds TABLE: the program over a table of these lines
finds() {
    printf '%b' "$1" >"$work/table"
    runs lint --table "$work/table" </dev/null
}

runs lint </dev/null
is "the built-in table" "|0" "$(cat "$work/out")|$status"
finds '0061 ; [.1000.0020.0002]\n002D ; [*1000.0020.0002]\n0300 ; [*0000.0020.0000]\n0062 0301 0308 ; [.1001.0020.0002]\n'
is "a table that breaks every condition" "WF1|WF2|WF3|WF4|WF5|1" "$(paste -sd'|' "$work/out")|$status"
for finding in \
    'WF1=0061 ; [.1000.0000.0002]\n' \
    'WF2=0061 ; [.1000.0020.0002]\n0301 ; [.0000.0020.0002]\n' \
    'WF3=0301 ; [*0000.0021.0002]\n' \
    'WF4=0020 ; [*0201.0020.0002]\n0061 ; [.0202.0020.0002]\n002D ; [*0203.0020.0002]\n' \
    'WF5=0061 0301 0308 ; [.1000.0020.0002]\n'; do
    finds "${finding#*=}"
    is "a table that breaks ${finding%%=*} alone" "${finding%%=*}|1" "$(cat "$work/out")|$status"
done
./uca lint --table "$work/table" </dev/null >/dev/full 2>"$work/err"
status=$?
is "findings, and a full disk" "uca: output byte 0: Failed|3" "$(cat "$work/err")|$status"

# findings_by_perl TABLE: which conditions the entries of a table break, by an independent reading of UTS #10, section 5
findings_by_perl() {
    perl -MUnicode::Normalize=getCombinClass -e '
        use strict; use warnings;
        my (@elements, @keys, %is_key, %broken);
        while (<>) {
            s/#.*//;
            my ($key, $weights) = /^\s*([0-9A-F ]+?)\s*;\s*(.*)/ or next;
            $is_key{$key} = 1;
            push @keys, [split " ", $key];
            push @elements, [$1, hex $2, hex $3, hex $4] while $weights =~ /\[([.*])(\w+)\.(\w+)\.(\w+)/g;
        }
        my ($second, $third, $low, $high) = (0, 0, 0x10000, 0);
        for my $e (@elements) {
            my ($mark, $l1, $l2, $l3) = @$e;
            $second = $l2 if $l1 && $l2 > $second;
            $third = $l3 if ($l1 || $l2) && $l3 > $third;
            next unless $mark eq "*" && $l1;
            $low = $l1 if $l1 < $low;
            $high = $l1 if $l1 > $high;
        }
        for my $e (@elements) {
            my ($mark, $l1, $l2, $l3) = @$e;
            $broken{1} = 1 if $l1 < 0x8000 && ($l1 && !$l2 || $l2 && !$l3);
            $broken{2} = 1 if !$l1 && ($l2 && $l2 <= $second || !$l2 && $l3 && $l3 <= $third);
            $broken{3} = 1 if $mark eq "*" && !$l1;
            $broken{4} = 1 if !($mark eq "*" && $l1) && $low <= $l1 && $l1 <= $high;
        }
        for my $key (@keys) {
            my @front = @$key;
            next unless @front > 2 && getCombinClass(hex pop @front);
            $broken{5} = 1 unless $is_key{"@front"};
        }
        print join("|", map { "WF$_" } sort keys %broken), %broken ? "|1" : "|0";' "$1"
}

published=$(published_table)
if [ -n "$published" ]; then
    # The lines, sorted by their stored keys with sort; lines with equal keys keep their order.
    perl tests/texts.pl 20000 >"$work/texts"
    for settings in '--strength tertiary' '--strength primary' '--strength quaternary --variable shifted' '--strength identical --variable blanked'; do
        # shellcheck disable=SC2086
        runs order --table "$published" $settings <"$work/texts"
        # shellcheck disable=SC2086
        ./uca key --table "$published" $settings <"$work/texts" | paste -d'|' - "$work/texts" | LC_ALL=C sort -s -t'|' -k1,1 | cut -d'|' -f2- >"$work/sorted"
        is "generated texts by their keys, $settings" "same|0" "$(cmp -s "$work/out" "$work/sorted" && echo same)|$status"
    done
    for words in tests/rules/*.words; do
        shuf --random-source=<(yes) "$words" >"$work/shuffled"
        runs order --table "$published" --rules "rules/$(basename "$words" .words).rules" <"$work/shuffled"
        is "the words of $(basename "$words" .words)" "same|0" "$(cmp -s "$work/out" "$words" && echo same)|$status"
    done
    runs lint --table "$published" </dev/null
    is "findings in the published table" "$(findings_by_perl "$published")" "$(paste -sd'|' "$work/out")|$status"
    echo "tests/order.sh: findings in the published table: $(paste -sd' ' "$work/out")"
else
    echo "tests/order.sh: no allkeys.txt in perl's folders, so no published table was tried"
fi

# At the limit: 64 MiB of unsorted lines, in nearly linear time.
generated() { perl -e 'my $s = 20200310; while ($ARGV[0] > 0) { $s = ($s * 1103515245 + 12345) & 0x7FFFFFFF; printf "%07x\n", $s >> 3; $ARGV[0] -= 8 }' "$1"; }
generated 67108864 | tr 'fg' 'hz' >"$work/large"
from=$(date +%s)
runs order <"$work/large"
is "64 MiB of lines" "$(wc -c <"$work/large")|0" "$(wc -c <"$work/out")|$status"
echo "tests/order.sh: 64 MiB of short lines took $(($(date +%s) - from)) s"
printf 'x' >>"$work/large"
runs order <"$work/large"
is "one byte more than 64 MiB" "0|uca: input: TooLarge|3" "$(wc -c <"$work/out")|$(cat "$work/err")|$status"

sum_up
