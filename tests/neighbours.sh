#!/usr/bin/env bash
# The order of neighbours by `uca compare` and by their keys from `uca key`, at every setting, under the table that Debian's perl ships
# and three tailored ones. The texts are generated, with long common prefixes that end where it matters. COUNT is how many there are,
# by default 10,000.
source "$(dirname "${BASH_SOURCE[0]}")/checks.bash"

is_built
published=$(published_table)
[ -n "$published" ] || { echo "$script: no allkeys.txt in perl's folders, so nothing was compared"; exit 0; }
count=${COUNT:-10000}
perl tests/neighbours.pl "$count" >"$work/texts"
is "texts were generated" "$count" "$(wc -l <"$work/texts")"

# by_keys WORDS..: how each line compares with the one before, by their keys
by_keys() {
    ./uca key "$@" <"$work/texts" | perl -ne '
        chomp;
        print $last lt $_ ? "less\n" : $last eq $_ ? "equal\n" : "greater\n" if $. > 1;
        $last = $_'
}

for rules in '' rules/cs.rules rules/da.rules rules/hu.rules; do
    for variable in non-ignorable blanked shifted; do
        for strength in primary secondary tertiary quaternary identical; do
            settings=(--table "$published" --variable "$variable" --strength "$strength")
            [ -z "$rules" ] || settings+=(--rules "$rules")
            by_keys "${settings[@]}" >"$work/wanted"
            runs compare "${settings[@]}" <"$work/texts"
            is "neighbours, $variable, $strength, ${rules:-no rules}" "$((count - 1))|same|0" "$(wc -l <"$work/wanted")|$(cmp -s "$work/out" "$work/wanted" && echo same)|$status"
        done
    done
done
echo "$script: of $((count - 1)) neighbours at the last setting: $(sort "$work/out" | uniq -c | awk '{ printf "%s%d %s", s, $1, $2; s = ", " }')"
sum_up
