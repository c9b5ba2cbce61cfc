#!/usr/bin/env bash
# Every CLDR collation that rules can express: tools/cldr-rules writes its rules, uca tailors CLDR's root table by them, and ICU's
# collator of that locale orders the same lines (tests/cldr_lines.pl). The table in tests/cldr.md has the results; with the argument
# `table` the script prints it. The script also checks that the words of the languages of rules/ are in ascending order under that
# table, and by ICU.
source "$(dirname "${BASH_SOURCE[0]}")/checks.bash"
source tests/debian.bash
source tests/icu.bash
page=tests/cldr.md

# leaves the path of CLDR's folder `common` in $cldr
cldr_is_here() {
    cldr=/usr/share/unicode/cldr/common
    [ -f "$cldr/uca/allkeys_CLDR.txt" ] && return 0
    debian update || return 1
    (cd "$work" && debian download unicode-cldr-core) && dpkg-deb -x "$work"/unicode-cldr-core_*.deb "$work/debian" || return 1
    cldr=$work/debian/usr/share/unicode/cldr/common
    [ -f "$cldr/uca/allkeys_CLDR.txt" ]
}

# tools/cldr-rules reads XML with XML::LibXML: the installed one, or Debian's packages, downloaded into $work
xml_is_here() {
    local parts
    perl -MXML::LibXML -e 1 2>/dev/null && return
    debian update || return 1
    (cd "$work" && debian download libxml2 libxml-libxml-perl libxml-namespacesupport-perl libxml-sax-base-perl libxml-sax-perl && for package in libxml*.deb; do dpkg-deb -x "$package" xml || exit 1; done) || return 1
    parts=("$work"/xml/usr/lib/*/perl5/*)
    export PERL5LIB=${parts[0]}:$work/xml/usr/share/perl5 LD_LIBRARY_PATH=${parts[0]%/perl5/*}${LD_LIBRARY_PATH:+:$LD_LIBRARY_PATH}
    perl -MXML::LibXML -e 1 2>/dev/null
}

# compares TAG: a row of the table, with how many neighbours differ with the rules and without; run by xargs
compares() {
    local tag=$1 found plain collator relations same=
    crates/uca/out/uca key --table "$table" --rules "$rules/$tag.rules" <"$rules/$tag.lines" 2>"$rules/$tag.error" | tr -d ' ' >"$rules/$tag.ours"
    [ -s "$rules/$tag.ours" ] || { echo "| $tag | refused: $(head -n 1 "$rules/$tag.error") |"; return; }
    crates/uca/out/uca key --table "$table" <"$rules/$tag.lines" | tr -d ' ' >"$rules/$tag.plain"
    collator=locale
    "$icu" "$tag" <"$rules/$tag.lines" >"$rules/$tag.icu" 2>/dev/null || {
        collator=rules
        "$icu" --rules "$rules/$tag.text" <"$rules/$tag.lines" >"$rules/$tag.icu" 2>/dev/null || collator=none
    }
    relations=$(perl -CSD -ne 'next if /^#/; s/\\.//g; $n++ while /<+|=/g; END { print $n // 0 }' "$rules/$tag.rules")
    found=$(perl tests/cldr_compare.pl "$rules/$tag.lines" "$rules/$tag.ours" "$rules/$tag.icu")
    plain=$(perl tests/cldr_compare.pl "$rules/$tag.lines" "$rules/$tag.plain" "$rules/$tag.icu")
    echo "$found" >"$rules/$tag.found"
    read -r neighbours differ _ <<<"${found%%;*}"
    read -r _ without _ <<<"${plain%%;*}"
    if [ "$differ" -gt 0 ] && [ $collator = locale ] && "$icu" --rules "$rules/$tag.text" <"$rules/$tag.lines" >"$rules/$tag.icu" 2>/dev/null; then
        same=$(perl tests/cldr_compare.pl "$rules/$tag.lines" "$rules/$tag.ours" "$rules/$tag.icu" | sed 's/^[0-9]* //;s/;.*//')
    fi
    echo "| $tag | $relations | $collator | $neighbours | $without | $differ | $same |"
}

is_built
cldr_is_here || { echo "$script: unicode-cldr-core is not available, so nothing was tried"; exit 0; }
xml_is_here || { echo "$script: libxml-libxml-perl is not available, so nothing was tried"; exit 0; }
icu_is_built || { echo "$script: ICU is not available (it needs gcc and libicu-dev), so nothing was tried"; exit 0; }
export rules=$work/rules table=$cldr/uca/allkeys_CLDR.txt icu=$work/icu_keys
export -f compares
mkdir "$rules"

# A collation that rules can't express at all is refused; everything else is accepted.
refused='zh zh-u-co-big5han zh-u-co-stroke zh-u-co-zhuyin'
tools/cldr-rules --cldr "$cldr" zh-u-co-big5han >"$work/out" 2>"$work/err"
status=$?
is "more letters than there are primary weights" "0|cldr-rules: zh-u-co-big5han: cannot be expressed: it has more letters than there are primary weights|1" "$(wc -c <"$work/out")|$(tail -n 1 "$work/err")|$status"
mapfile -t tags < <(tools/cldr-rules --cldr "$cldr" --list | grep -vxF "$(tr ' ' '\n' <<<"$refused")")
tools/cldr-rules --cldr "$cldr" --into "$rules" "${tags[@]}" 2>"$work/left"
is "collations that are written" "0" "$?"
tools/cldr-rules --cldr "$cldr" --text --into "$rules" "${tags[@]}"
is "rules name CLDR's version" "# Source: CLDR 41, common/collation/da.xml, standard, by tools/cldr-rules." "$(head -n 1 "$rules/da.rules")"
mkdir -p "$work/broken/collation" && printf '<ldml>\n<collations>\n' >"$work/broken/collation/da.xml"
is "XML that is not well-formed" "cldr-rules: $work/broken/collation/da.xml:3: parser error : Premature end of data in tag collations line 2
1" "$(tools/cldr-rules --cldr "$work/broken" --text da 2>&1 | paste -sd'|'; echo "${PIPESTATUS[0]}")"
perl tests/cldr_lines.pl "$cldr" "$rules"
printf '%s\n' "${tags[@]}" | xargs -P "$(nproc)" -I{} bash -c 'compares {}' | LC_ALL=C sort >"$work/rows"

if [ "${1:-}" = table ]; then
    echo '| Collation | Relations | ICU by its | Neighbours | Differ without the rules | Differ with them | Differ from ICU by the same rules |'
    echo '|---|---|---|---|---|---|---|'
    cat "$work/rows"
    tail -n +1 "$rules"/*.found | awk '/^==>/ { name = $2 } / [1-9][0-9]*;/ { print name ": " $0 }' >&2
    exit 0
fi

# others TAG: how many neighbours the page lets differ
others() { awk -F' *[|] *' -v tag="$1" '$2 == tag && NF == 9 { print $7 }' "$page"; }

taken=0
agreed=0
while IFS='|' read -r _ tag relations collator _ without differ _ _; do
    tag=${tag// /}
    wanted=$(others "$tag")
    if [ -z "$wanted" ]; then
        is "$tag: a row of $page" "one" "none:$relations"
        continue
    fi
    is "$tag: neighbours that differ from ICU by its ${collator// /}: at most as many as the page says; first: $(cut -d';' -f2- "$rules/$tag.found")" "yes" \
        "$([ "${differ:-1}" -le "$wanted" ] && echo yes || echo "$differ, not $wanted")"
    [ "$relations" -gt 0 ] || continue
    taken=$((taken + 1))
    [ "$differ" -eq 0 ] || continue
    agreed=$((agreed + 1))
    is "$tag: the rules have an effect: without them some neighbours differ" "yes" "$([ "$without" -gt 0 ] && echo yes)"
done <"$work/rows"
# The words of rules/ under CLDR's root table, and by ICU's collator of the language.
for words in tests/rules/*.words; do
    tag=$(basename "$words" .words)
    crates/uca/out/uca key --table "$table" --rules "rules/$tag.rules" <"$words" | LC_ALL=C sort -cu 2>/dev/null
    status=$?
    "$icu" "$tag" <"$words" >"$work/keys" 2>/dev/null
    is "$tag: its words rise over CLDR's root table, and by ICU" "0|$(wc -l <"$words")|0" "$status|$(wc -l <"$work/keys")|$(LC_ALL=C sort -cu "$work/keys" 2>/dev/null; echo $?)"
done

is "at least ninety tailorings" "yes" "$([ "$taken" -ge 90 ] && echo yes || echo "$taken")"
is "those that agree with ICU in all neighbours" "yes" "$([ "$agreed" -ge 90 ] && echo yes || echo "$agreed")"
echo "$script: $taken tailorings of CLDR, $agreed of them in ICU's order in all neighbours, $(awk -F'|' '{ n += $5 } END { print n }' "$work/rows") neighbours in all"
sum_up
