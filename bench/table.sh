#!/usr/bin/env bash
# Measures how long it takes to read a table, beside perl's Unicode::Collate on the same file in the same run, and how that grows
# with the text. Prints times, memory and ratios; it is not a test.
source "$(dirname "${BASH_SOURCE[0]}")/shared.bash"

# beside NAME FILE WORD: uca and perl read the same file and write nothing; WORD is what perl calls it
beside() {
    read -r ours our_memory <<<"$(measured 3 /dev/null "$uca" key --table "$2")"
    read -r theirs their_memory <<<"$(measured 3 /dev/null perl -MUnicode::Collate -e 'Unicode::Collate->new(table => $ARGV[0])' "$3")"
    awk -v name="$1" -v a="$ours" -v b="$theirs" -v m="$our_memory" -v n="$their_memory" \
        'BEGIN { printf "%s: uca %.3f s, %d KiB; perl %.3f s, %d KiB; ratio %.4f in time, %.3f in memory\n", name, a, m, b, n, a / b, m / n }'
}

beside "the published table" "$published" allkeys.txt

# entries BYTES: short entries with keys of two code points, all different
entries() {
    perl -e '
        my ($left, $i) = ($ARGV[0], 0);
        while (1) {
            my $line = sprintf "%04X %04X;[.%04X.0020.0002]\n", 0x3400 + int($i / 0x4000), 0x4E00 + $i % 0x4000, 1 + $i % 0x7000;
            last if ($left -= length $line) < 0;
            print $line;
            $i++;
        }' "$1"
}
entries $((2 * 1024 * 1024)) >"$work/small"
entries $((64 * 1024 * 1024)) >"$work/large"
read -r small small_memory <<<"$(measured 3 /dev/null "$uca" key --table "$work/small")"
read -r large large_memory <<<"$(measured 3 /dev/null "$uca" key --table "$work/large")"
awk -v a="$small" -v b="$large" -v m="$small_memory" -v n="$large_memory" -v lines="$(wc -l <"$work/large")" \
    'BEGIN { printf "short entries: 2 MiB %.3f s, %d KiB; 64 MiB (%d entries) %.3f s, %d KiB; ratio %.1f\n", a, m, lines, b, n, b / a }'
