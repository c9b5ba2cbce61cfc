#!/usr/bin/env bash
# The languages of rules/: the words of each (tests/rules) are in ascending order under its rules and the table that Debian's perl
# ships, by comparison and by their keys; not without the rules; and by perl's own rules for the language, if it has any.
# tests/cldr.sh checks that they are in that order under CLDR's root table and by ICU's collators.
source "$(dirname "${BASH_SOURCE[0]}")/checks.bash"

is_built
published=$(published_table)
[ -n "$published" ] || { echo "$script: no allkeys.txt in perl's folders, so no language was tried"; exit 0; }

# is_rising TAG: how many neighbours are not less, whether the keys rise, and whether some neighbours descend without the rules
is_rising() {
    local words=tests/rules/$1.words rules=rules/$1.rules
    crates/uca/out/uca compare --table "$published" --rules "$rules" <"$words" | grep -cv '^less$'
    crates/uca/out/uca key --table "$published" --rules "$rules" <"$words" | LC_ALL=C sort -cu 2>/dev/null && echo rising
    crates/uca/out/uca compare --table "$published" <"$words" | grep -q greater && echo other
}
export published
export -f is_rising

# Perl's names of these locales, if they differ from ours. It has none for the languages of `nowhere`, and older rules, which order
# these words differently, for Armenian (և as a letter of its own) and Latvian (y after i).
declare -A in_perl=([de-u-co-phonebk]=de__phonebook [es-u-co-trad]=es__traditional [sv]=sv__reformed [sr-Latn]=sr_Latn [no]=nb)
nowhere='br ceb de-AT-u-co-phonebk gl hsb hy km ku ky lv my ps smn tk ug uz vi-u-co-trad yi'

is "each file of rules has words, and each of words rules" "same" "$(diff <(ls rules | sed 's/\.rules$//') <(ls tests/rules | sed 's/\.words$//') >/dev/null && echo same)"
is "each file says what it is, and its source" "" "$(for file in rules/*.rules; do [ "$(head -c 2 "$file")" = '# ' ] && grep -q '^# Source: ' "$file" || echo "$file"; done)"
is "a file that follows CLDR names its version" "" "$(grep -l '^# Source: CLDR' rules/*.rules | xargs grep -L '^# Source: CLDR [0-9][0-9]')"
is "the table of docs/LANGUAGES.md is that of tools/language-table" "" "$(diff <(sed -n '/^| Language |/,/^$/p' docs/LANGUAGES.md | sed '$d') <(tools/language-table))"

find rules -name '*.rules' -printf '%f\n' | sed 's/\.rules$//' | LC_ALL=C sort >"$work/tags"
xargs -P "$(nproc)" -I{} bash -c 'echo "{} $(is_rising {} | paste -sd" ")"' <"$work/tags" >"$work/found"
while read -r tag; do
    is "$tag: neighbours that are not less, keys, and the order without its rules" "$tag 0 rising other" "$(grep "^$tag " "$work/found")"
    [ "$(wc -l <"tests/rules/$tag.words")" -ge 20 ] || is "$tag: words" "twenty or more" "$(wc -l <"tests/rules/$tag.words")"
done <"$work/tags"
is "at least sixty-one languages" "yes" "$([ "$(wc -l <"$work/tags")" -ge 61 ] && echo yes)"

# by_perl: for each line, a tag and perl's name of the locale, what is wrong by perl's own rules
by_perl() {
    perl -MUnicode::Collate::Locale -CSD -e '
        while (my $line = <STDIN>) {
            my ($tag, $locale) = split " ", $line;
            my $c = Unicode::Collate::Locale->new(locale => $locale, $locale eq "th" ? () : (variable => "Non-ignorable"));
            (my $language = $locale) =~ s/_.*//;
            $c->getlocale =~ /^\Q$language\E/ or print "$tag: perl has no locale $locale\n";
            open my $words, "<", "tests/rules/$tag.words" or die;
            my $last;
            while (my $word = <$words>) {
                chomp $word;
                print "$tag: $last $word\n" if defined $last && $c->cmp($last, $word) >= 0;
                $last = $word;
            }
        }'
}
if perl -MUnicode::Collate::Locale -e1 2>/dev/null; then
    grep -vxF "$(tr ' ' '\n' <<<"$nowhere")" "$work/tags" >"$work/perls"
    is "the words by perl's own rules" "" "$(while read -r tag; do echo "$tag ${in_perl[$tag]:-$tag}"; done <"$work/perls" | by_perl)"
    echo "$script: $(wc -l <"$work/tags") languages, $(wc -l <"$work/perls") of them by perl's own rules too"
else
    echo "$script: perl has no Unicode::Collate::Locale, so its order was not tried"
fi

sum_up
