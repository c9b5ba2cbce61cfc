#!/usr/bin/env bash
# Keys under the table that Debian's perl ships, compared with those of perl's Unicode::Collate under the same table, over generated
# texts; and the laws that keys obey at all settings.
source "$(dirname "${BASH_SOURCE[0]}")/checks.bash"

is_built
perl -MUnicode::Collate -e1 2>/dev/null || { echo "tests/published.sh: perl has no Unicode::Collate, so nothing was compared"; exit 0; }
published=$(published_table)
[ -n "$published" ] || { echo "tests/published.sh: no allkeys.txt in perl's folders, so nothing was compared"; exit 0; }

count=30000
perl tests/texts.pl "$count" >"$work/texts"
is "texts were generated" "$count" "$(wc -l <"$work/texts")"

# ours STRENGTH VARIABLE: the keys of the texts
ours() { ./uca key --table "$published" --strength "$1" --variable "$2" <"$work/texts"; }

# theirs LEVEL VARIABLE: the keys of the same texts by perl, up to the separator after the level. At level 4, under options other than
# shifted, perl has code points of implicit weights, where UTS #10 has nothing; these are left out.
theirs() {
    perl -MUnicode::Collate -e '
        binmode STDIN, ":utf8";
        my ($level, $variable) = @ARGV;
        my $c = Unicode::Collate->new(table => "allkeys.txt", level => $level, variable => $variable, normalization => "NFD");
        while (<STDIN>) {
            chomp;
            my ($separators, @weights) = (0);
            for my $w (unpack "n*", $c->getSortKey($_)) {
                last if $w == 0 && ++$separators == $level;
                push @weights, $w unless $w && $separators == 3 && $variable ne "shifted";
            }
            print join(" ", map { sprintf "%02X", $_ } unpack "C*", pack "n*", @weights), "\n";
        }' "$1" "$2" <"$work/texts"
}

strengths=(primary secondary tertiary quaternary)
for variable in non-ignorable blanked shifted; do
    for level in 1 2 3 4; do
        [ "$variable $level" = "shifted 4" ] && continue
        ours "${strengths[level - 1]}" "$variable" >"$work/ours"
        theirs "$level" "$variable" >"$work/theirs"
        is "keys at level $level, $variable" "same" "$(cmp -s "$work/ours" "$work/theirs" && echo same)"
    done
done

# Shifted, at level 4: perl gives the second element of an implicit pair no weight, even if the pair is in the table; UTS #10 gives it
# FFFF. So the keys of texts with implicit weights (FB00 to FBFF) differ there, but the order is the same, pair by pair.
ours quaternary shifted >"$work/ours"
theirs 4 shifted >"$work/theirs"
paste -d'|' "$work/ours" "$work/theirs" | awk -F'|' '
    function primary(key) { sub(/ ?00 00 .*/, "", key); return key }
    function is_implicit(key,   n, w, i) { n = split(primary(key), w, " "); for (i = 1; i <= n; i += 2) if (w[i] == "FB") return 1; return 0 }
    function order(a, b) { return a < b ? -1 : a > b ? 1 : 0 }
    $1 != $2 && !is_implicit($1) { other++ }
    $1 != $2 { differ++ }
    NR > 1 && order($1, last_ours) != order($2, last_theirs) { swapped++ }
    { last_ours = $1; last_theirs = $2 }
    END { printf "%d %d %s\n", other, swapped, (differ > 0 ? "some" : "none") }' >"$work/found"
is "quaternary keys, shifted: other differences, pairs in another order, differences at implicit weights" "0 0 some" "$(cat "$work/found")"

# The key at strength identical ends in the code points of the NFD, three bytes each.
ours quaternary shifted >"$work/ours"
ours identical shifted | paste -d'|' "$work/ours" - | awk -F'|' '{ points = substr($2, length($1) + 1); sub(/^ 00 00 ?/, "", points); print points }' >"$work/found"
perl -MUnicode::Normalize -ne '
    BEGIN { binmode STDIN, ":utf8" }
    chomp;
    print join(" ", map { sprintf "%02X %02X %02X", $_ >> 16, $_ >> 8 & 255, $_ & 255 } unpack "W*", NFD($_)), "\n"' <"$work/texts" >"$work/theirs"
is "code points of the fifth level" "same" "$(cmp -s "$work/found" "$work/theirs" && echo same)"

# The elements of a text are those of its key: their primary weights are the key's first level.
./uca elements --table "$published" <"$work/texts" |
    perl -ne 'print join(" ", map { /(..)(..)/ } grep { $_ ne "0000" } /\[.([0-9A-F]{4})/g), "\n"' >"$work/elements"
ours primary non-ignorable >"$work/ours"
is "primary weights of the elements" "same" "$(cmp -s "$work/ours" "$work/elements" && echo same)"

# Comparing neighbours gives the order of their keys, at each setting.
for variable in non-ignorable blanked shifted; do
    for strength in primary secondary tertiary quaternary identical; do
        ours "$strength" "$variable" | awk '
            NR > 1 { print(last "" < $0 "" ? "less" : last "" > $0 "" ? "greater" : "equal") }
            { last = $0 }' >"$work/wanted"
        ./uca compare --table "$published" --strength "$strength" --variable "$variable" <"$work/texts" >"$work/found"
        is "order of neighbours at $strength, $variable" "same" "$(cmp -s "$work/wanted" "$work/found" && echo same)"
    done
done

# A key is a prefix of the key at each higher strength.
for variable in non-ignorable blanked shifted; do
    : >"$work/lower"
    for strength in primary secondary tertiary quaternary identical; do
        ours "$strength" "$variable" >"$work/higher"
        [ -s "$work/lower" ] && is "keys at $strength begin with those below, $variable" "0" \
            "$(paste -d'|' "$work/lower" "$work/higher" | awk -F'|' 'substr($2, 1, length($1)) != $1 { n++ } END { print n + 0 }')"
        mv "$work/higher" "$work/lower"
    done
done

sum_up
