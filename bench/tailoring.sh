#!/usr/bin/env bash
# Measures how long rules take over the table that Debian's perl ships and over one of a million entries, beyond the time to read the
# table, and how that grows with the relations: bench/tailoring.sh [PROGRAM]. Without PROGRAM, the current program is built and
# measured. Prints processor seconds; it is not a test.
uca=${1:+$(readlink -f "$1")}
source "$(dirname "${BASH_SOURCE[0]}")/shared.bash"
[ -x "$uca" ] || { echo "$script: $1 is not a program"; exit 1; }

# A million entries with keys of two code points, all different.
perl -e '
    printf "%04X %04X;[.%04X.0020.0002]\n", 0x3400 + int($_ / 0x4000), 0x4E00 + $_ % 0x4000, 1 + $_ % 0x7000 for 0 .. 999_999
' >"$work/million"

# relations KIND COUNT TABLE: this many relations. `one`: second-level items after one key; `many`: each after one of 26 keys;
# `third`: like `one`, at the third level; `mixed`: chains of ten at all levels, after keys and earlier items; `wide`: like `one`,
# with 64 elements each, for which the first two relations make the anchor.
relations() {
    perl -CO -e '
        my ($kind, $count, $table) = @ARGV;
        my @keys = $table eq "million" ? map { chr(0x3400 + $_) . chr(0x4E00 + 97 * $_) } 0 .. 25 : "a" .. "z";
        my @mixed = ("<", "<<", "<<<", "<<", "=", "<<", "<<<", "<<", "=", "<<<");
        sub item { return chr(0x4E00 + $_[0] % 10_000) . ($_[0] < 10_000 ? "" : "q") }
        sub reset_at {
            my ($at) = @_;
            return $keys[$at % 26] if $kind eq "many";
            return $at % 20 ? $keys[$at / 10 % 26] : item($at * 7919 % 9973 % $at) if $kind eq "mixed" && $at && $at % 10 == 0;
            return $at ? "" : $kind eq "wide" ? "\x{E001}" : $keys[0];
        }
        my $more = int(31 / length $keys[1]);
        print "&$keys[0]=\x{E000}/", $keys[1] x $more, "&", "\x{E000}" x (64 / ($more + 1)), "=\x{E001}" if $kind eq "wide";
        for my $at (0 .. $count - ($kind eq "wide" ? 3 : 1)) {
            if ($kind eq "limit") {
                print $at % 2 ? "&$keys[0]=\x{E101}" : "&\x{E100}<\x{E101}";
                next;
            }
            my $reset = reset_at($at);
            print "&$reset" if $reset ne "";
            print $kind eq "third" ? "<<<" : $kind eq "mixed" ? $mixed[$at % 10] : "<<", item($at);
        }' "$1" "$2" "$3"
}

# seconds TABLE [RULES]: the fastest of five runs
seconds() {
    local took
    read -r took _ <<<"$(measured 5 /dev/null "$uca" key --table "$1" ${2:+--rules "$2"})"
    [ -n "$took" ] || { echo "$script: the program refused a table or rules" >&2; exit 1; }
    echo "$took"
}

cp "$published" "$work/published"
for table in published million; do
    { cat "$work/$table"; echo 'E100;[.7FFE.0020.0002]'; } >"$work/$table-limit"
done
for table in published million; do
    read_in=$(seconds "$work/$table") || exit 1
    echo "$table: read in $read_in s"
    for kind in one many third mixed wide limit; do
        line="$table, $kind:"
        of=$table
        [ "$kind" = limit ] && of=$table-limit
        for count in 1 1250 5000 20000; do
            relations "$kind" "$count" "$table" >"$work/rules"
            took=$(seconds "$work/$of" "$work/rules") || exit 1
            line+=$(awk -v a="$took" -v b="$read_in" -v n="$count" \
                'BEGIN { printf "  %d relations %.3f s more, ratio %.2f;", n, a - b, a / b }')
        done
        echo "${line%;}"
    done
done
