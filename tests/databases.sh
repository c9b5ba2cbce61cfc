#!/usr/bin/env bash
# What docs/DATABASES.md says: keys in an SQLite index, packed keys, prefixes as ranges of keys, and the fingerprint of an order.
source "$(dirname "${BASH_SOURCE[0]}")/checks.bash"
export LC_ALL=C.UTF-8

is_built
published=$(published_table)
[ -n "$published" ] || { echo "$script: no allkeys.txt in perl's folders, so nothing was tried"; exit 0; }
command -v cc >/dev/null && command -v make >/dev/null && command -v objcopy >/dev/null ||
    { echo "$script: no C compiler, make or objcopy, so nothing was tried"; exit 0; }
make -s -C bindings/c all OUT="$work/c" >"$work/log" 2>&1 &&
    cc -std=c11 -Wall -Wextra -Werror -O1 -Iinclude -o "$work/bounds_of" bindings/c/tests/bounds.c "$work/c/libuca.a" ||
    { cat "$work/log"; echo "$script: the C library could not be built"; exit 1; }

# Words whose prefixes are searched for: those of Latin languages, and generated ones.
cat tests/rules/{cs,da,de-u-co-phonebk,es,hu,pl,tr,vi}.words >"$work/words"
keys() { ./uca key --table "$published" "$@" | tr -d ' '; }
keys <"$work/words" >"$work/keys"
keys --strength primary <"$work/words" >"$work/primary"
is "keys at primary are the beginning of those at tertiary" "0" "$(paste "$work/primary" "$work/keys" | awk '$1 "0000" != substr($2, 1, length($1) + 4) { n++ } END { print n + 0 }')"

# The two ends of uca_prefix_bounds for each line, by the C library
bounds() { "$work/bounds_of" "$published" "${1:-/dev/null}"; }

# Each prefix of each word, cut before a letter that is not a mark: its range has the word, and only words whose primary weights begin so.
perl -CSD -Mutf8 -MUnicode::Normalize=NFD -ne 'chomp; my $word = $_; for my $i (1 .. length($word) - 1) { my $rest = NFD(substr $word, $i); next if $rest =~ /^\p{M}/; print substr($word, 0, $i), "\t$word\n" }' "$work/words" >"$work/cuts"
cut -f1 "$work/cuts" | bounds >"$work/ends"
is "each beginning has two ends" "$(wc -l <"$work/cuts")" "$(grep -cE '^[0-9A-F]+ [0-9A-F]+$' "$work/ends")"
is "the lower end is the key at primary" "" "$(cut -f1 "$work/cuts" | keys --strength primary | cmp - <(cut -d' ' -f1 "$work/ends") 2>&1)"
cut -f2 "$work/cuts" | keys >"$work/own"
is "a word is in the range of its beginnings" "$(wc -l <"$work/cuts") of $(wc -l <"$work/cuts")" \
    "$(paste -d' ' "$work/ends" "$work/own" | awk '($1 "" <= $3 "") && ($3 "" < $2 "") { n++ } END { print n + 0 " of " NR }')"
is "what is in a range begins with the same primary weights" "0" "$(head -n 60 "$work/ends" | while read -r low high; do
    awk -v low="$low" -v high="$high" '($0 "" >= low "") && ($0 "" < high "") && substr($0, 1, length(low)) != low' "$work/keys"
done | wc -l)"

# Packed keys, by the C library: of each line of standard input, at the strength of a number. At 0 the ends of their ranges.
# packed STRENGTH [RULES [OPTION]]
packed() { "$work/bounds_of" "$published" "${2:-/dev/null}" "$1" "${3:-0}"; }
packed 3 <"$work/words" >"$work/packed"
is "a packed key at primary is the lower end of its range and 00" "" "$(packed 1 <"$work/words" | cmp - <(packed 0 <"$work/words" | sed 's/ .*/00/') 2>&1)"
is "the packed key of docs/DATABASES.md" "58615B61000808" "$(echo lomo | packed 3)"

# A second program makes packed keys of sort keys, by the form in docs/DATABASES.md.
{ cat "$work/words"; perl tests/texts.pl 20000; printf 'a%.0s' {1..200}; } >"$work/texts"
# same_form NUMBER STRENGTH RULES [NUMBER OPTION]: where the packed keys of both programs differ
same_form() {
    ./uca elements --table "$published" --rules "$3" <"$work/characters" >"$work/elements"
    keys --strength "$2" --rules "$3" --variable "${5:-non-ignorable}" <"$work/texts" | perl tests/packed.pl "$work/elements" "$1" |
        cmp - <(packed "$1" "$3" "${4:-0}" <"$work/texts") 2>&1
}
perl tests/packed.pl >"$work/characters"
for settings in "1 primary" "2 secondary" "3 tertiary" "4 quaternary" "5 identical"; do
    read -r number strength <<<"$settings"
    is "the form of packed keys at $strength" "" "$(same_form "$number" "$strength" /dev/null)"
    is "the form of packed keys at $strength, shifted" "" "$(same_form "$number" "$strength" /dev/null 2 shifted)"
done
for language in sv vi lt si; do is "the form of packed keys by the rules of $language" "" "$(same_form 3 tertiary "rules/$language.rules")"; done
for strength in 1:primary 2:secondary 3:tertiary 4:quaternary 5:identical; do
    is "words by packed keys at ${strength#*:}" "same" "$(paste <(packed "${strength%:*}" <"$work/words") "$work/words" | LC_ALL=C sort -s -t $'\t' -k1,1 | cut -f2- |
        cmp -s - <(./uca order --table "$published" --strength "${strength#*:}" <"$work/words") && echo same)"
done
cut -f1 "$work/cuts" | packed 0 >"$work/packed_ends"
cut -f2 "$work/cuts" | packed 3 >"$work/own_packed"
is "a word is in the range of its beginnings by its packed key" "$(wc -l <"$work/cuts") of $(wc -l <"$work/cuts")" \
    "$(paste -d' ' "$work/packed_ends" "$work/own_packed" | awk '($1 "" <= $3 "") && ($3 "" < $2 "") { n++ } END { print n + 0 " of " NR }')"
places() { awk -v low="$1" -v high="$2" '($0 "" >= low "") && ($0 "" < high "") { print NR }' "$3" | paste -sd' '; }
is "a range has the same words by keys and by packed keys" "" "$(paste -d' ' "$work/ends" "$work/packed_ends" | head -n 60 | while read -r low high packed_low packed_high; do
    [ "$(places "$low" "$high" "$work/keys")" = "$(places "$packed_low" "$packed_high" "$work/packed")" ] || echo "$low"
done)"
is "the words of each language rise by their packed keys" "" "$(for rules in rules/*.rules; do
    packed 3 "$rules" <"tests/rules/$(basename "$rules" .rules).words" | LC_ALL=C sort -cu 2>/dev/null || echo "$rules"
done)"

# A table in which one mark has another weight has the same code, so packed keys of words without the mark stay as they are.
sed 's/^0301  *;.*/0301 ; [.0000.0025.0002]/' "$published" >"$work/marked"
is "a mark of another weight leaves the code of packed keys" "0301" "$(tools/changed-code-points "$published" "$work/marked" 2>&1)"
is "and the packed keys of words without it" "0 wrong, some other" "$(paste "$work/words" "$work/packed" <("$work/bounds_of" "$work/marked" /dev/null 3 <"$work/words") |
    perl -CSD -MUnicode::Normalize=NFD -ne '
        chomp;
        my ($word, $before, $after) = split /\t/;
        NFD($word) =~ /\x{301}/ ? $other += $before ne $after : ($wrong += $before ne $after);
        END { printf "%d wrong, %s other\n", $wrong // 0, $other ? "some" : "no" }')"

# A text also has a range if the next character may join its end: what then becomes another letter is outside the range.
# in_range LANGUAGE BEGINNING WORDS..: which of the words are in the range of the beginning
in_range() {
    local rules=rules/$1.rules low high key word
    read -r low high < <(printf '%s\n' "$2" | bounds "$rules")
    shift 2
    while IFS=$'\t' read -r key word; do
        [[ ! $key < $low && $key < $high ]] && echo "$word"
    done < <(paste <(printf '%s\n' "$@" | keys --rules "$rules") <(printf '%s\n' "$@")) | paste -sd' '
}
is "c, ce and ch in Czech" "cena Cena|cena Cena|chleba" "$(for begin in c ce ch; do in_range cs $begin cena Cena chleba čas; done | paste -sd'|')"
ring=$'a\u030Abe' acute=$'b\u0301'
is "a, å and b in Danish" "abe|åbe aabe $ring|$acute" "$(for begin in a å b; do in_range da $begin abe åbe aabe "$ring" "$acute"; done | paste -sd'|')"
is "stora in Swedish" "stora Storasyster" "$(in_range sv stora stora Storasyster storå storåldrig)"
is "a, o and u in Swedish" "apa Álvaro|ost Óscar|ut" "$(for begin in a o u; do in_range sv $begin apa åka ära Álvaro ost öst Óscar ut über; done | paste -sd'|')"
is "Juan and c in traditional Spanish" "Juan Juanita|casa Cid" "$(for begin in Juan c; do in_range es-u-co-trad $begin Juan Juanita Julia casa chico Cid; done | paste -sd'|')"
is "Otto in a German phone book" "Otto Ottokar Ottö" "$(in_range de-u-co-phonebk Otto Otto Ottokar Ottö Ottilie)"
is "Budapes in Hungarian" "Budapest budapesti" "$(in_range hu Budapes Budapest budapesti Budapesz)"
is "c in Turkish" "cam Cami" "$(in_range tr c cam çam Cami)"

# Each beginning of each word of a language, wherever it is cut, has those words in its range whose primary weights begin so, and no others.
for language in sv es-u-co-trad de-u-co-phonebk hu tr da vi; do
    rules=rules/$language.rules words=tests/rules/$language.words
    perl -CSD -ne 'chomp; my $word = $_; print substr($word, 0, $_), "\n" for 1 .. length $word' "$words" >"$work/beginnings"
    paste -d' ' <(bounds "$rules" <"$work/beginnings") <(packed 0 "$rules" <"$work/beginnings") >"$work/their_ends"
    paste -d' ' <(keys --rules "$rules" <"$words") <(packed 3 "$rules" <"$words") <(keys --strength primary --rules "$rules" <"$words") >"$work/their_keys"
    is "the ranges of $language" "$(wc -l <"$work/beginnings") 0" "$(awk '
        FNR == NR { key[FNR] = $1 ""; packed[FNR] = $2 ""; primary[FNR] = $3 ""; words = FNR; next }
        { ends++; low = $1 ""; high = $2 ""; packed_low = $3 ""; packed_high = $4 "" }
        { for (i = 1; i <= words; i++) {
            begins = substr(primary[i], 1, length(low)) == low
            if ((key[i] >= low && key[i] < high) != begins || (packed[i] >= packed_low && packed[i] < packed_high) != begins) wrong++
        } }
        END { print ends + 0, wrong + 0 }' "$work/their_keys" "$work/their_ends")"
done
is "the range of the empty text has no upper end" "- -|- -" "$(echo | bounds)|$(echo | packed 0)"

# An index of SQLite is in this order, and answers the same.
if command -v sqlite3 >/dev/null; then
    {
        echo 'CREATE TABLE names (name TEXT, sort_key BLOB); CREATE INDEX names_in_order ON names (sort_key); BEGIN;'
        paste "$work/keys" "$work/words" | sed "s/'/''/g; s/^\([0-9A-F]*\)\t\(.*\)$/INSERT INTO names VALUES ('\2', X'\1');/"
        echo 'COMMIT;'
    } | sqlite3 "$work/names.db"
    ./uca order --table "$published" <"$work/words" >"$work/wanted"
    is "SQLite's order" "same" "$(sqlite3 "$work/names.db" 'SELECT name FROM names ORDER BY sort_key, rowid' | cmp -s - "$work/wanted" && echo same)"
    read -r low high < <(echo ch | bounds)
    is "SQLite's range of ch" "$(perl -CSD -MUnicode::Normalize=NFD -ne '(my $bare = lc NFD $_) =~ s/\p{M}//g; print if $bare =~ /^ch/' "$work/wanted" | paste -sd' ')" \
        "$(sqlite3 "$work/names.db" "SELECT name FROM names WHERE sort_key >= X'$low' AND sort_key < X'$high' ORDER BY sort_key, rowid" | paste -sd' ')"
else
    echo "$script: there is no sqlite3, so no database was tried"
fi

# The SQLite extension: what a database has fixed under a name stays fixed.
if command -v sqlite3 >/dev/null && echo '#include <sqlite3ext.h>' | cc -E - >/dev/null 2>&1; then
    cc -std=c11 -Wall -Wextra -Werror -O2 -shared -fPIC -Iinclude -o "$work/uca_sqlite.so" bindings/sqlite/uca_sqlite.c "$work/c/libuca.a"
    db=$work/fixed.db
    # sqlite WORDS..: with the extension, in one line
    sqlite() { sqlite3 -cmd ".load $work/uca_sqlite" "$db" "$@" 2>&1 | sed 's/^Error: [a-z]*, //; s/^Runtime error near line [0-9]*: //' | paste -sd'|'; }
    loads="SELECT uca_load('uca', '$published')"
    others="uca_load: the database \"main\" has keys of another table, other rules, other settings or another version of uca under \"uca\": load those, or DELETE FROM uca_fixed, load these, and REINDEX"
    is "SQLite: an index by the first rules" "uca|öl zon" "$(sqlite "$loads" "CREATE TABLE w (t TEXT)" "INSERT INTO w VALUES ('zon'), ('öl')" "CREATE INDEX by_key ON w (uca_key(t))" \
        "SELECT group_concat(t, ' ') FROM (SELECT t FROM w ORDER BY uca_key(t))")"
    is "SQLite: the same again" "uca|1" "$(sqlite "$loads" "SELECT hex(fingerprint) = hex(uca_fingerprint('uca')) FROM uca_fixed")"
    is "SQLite: other rules" "$others" "$(sqlite "SELECT uca_load('uca', '$published', 'rules/sv.rules')")"
    is "SQLite: other settings" "$others" "$(sqlite "SELECT uca_load('UCA', '$published', NULL, 'primary')" | sed 's/"UCA"/"uca"/')"
    { cat "$published"; echo '10FFFD ; [.1C47.0020.0002]'; } >"$work/newer"
    is "SQLite: another table" "$others" "$(sqlite "SELECT uca_load('uca', '$work/newer')")"
    earlier=$({ ./uca table --table "$published" </dev/null; printf '\001\003\000\022\000\000'; } | sha256sum | cut -d' ' -f1)
    is "SQLite: keys of another form" "$others" "$(cp "$db" "$work/earlier.db"; sqlite3 "$work/earlier.db" "UPDATE uca_fixed SET fingerprint = X'$earlier'"; db=$work/earlier.db sqlite "$loads")"
    is "SQLite: other rules in another database of the connection" "${others/main/one}" "$(fixed=$db; db=:memory:; sqlite "ATTACH '$fixed' AS one" "SELECT uca_load('uca', '$published', 'rules/sv.rules')")"
    is "SQLite: other rules under another name" "sv|uca|2" "$(sqlite "SELECT uca_load('sv', '$published', 'rules/sv.rules')" "$loads" "SELECT count(*) FROM uca_fixed")"
    is "SQLite: a database that can't be written" "$others|x|2" "$(sqlite3 -readonly -cmd ".load $work/uca_sqlite" "$db" "SELECT uca_load('uca', '$work/newer')" 2>&1 | sed 's/^Error: [a-z]*, //')|$(sqlite "PRAGMA query_only = 1" "SELECT uca_load('x', '$work/newer')" "SELECT count(*) FROM uca_fixed")"
    is "SQLite: a write without the extension fails" "no|2" "$(sqlite3 "$db" "INSERT INTO w VALUES ('a')" >/dev/null 2>&1 && echo yes || echo no)|$(sqlite3 "$db" 'SELECT count(*) FROM w')"
    is "SQLite: to other rules, and an index rebuilt" "uca|zon öl|ok|$others" "$(sqlite "BEGIN" "DELETE FROM uca_fixed WHERE name = 'uca'" "SELECT uca_load('uca', '$published', 'rules/sv.rules')" "REINDEX" "COMMIT" \
        "SELECT group_concat(t, ' ') FROM (SELECT t FROM w ORDER BY uca_key(t))" "PRAGMA integrity_check")|$(sqlite "$loads")"
    sqlite3 "$db" .dump | grep -v uca_fixed >"$work/dump.sql"
    is "SQLite: a dump is restored under the rules of now" "uca|öl zon" "$(db=$work/restored.db sqlite "$loads" ".read $work/dump.sql" "SELECT group_concat(t, ' ') FROM (SELECT t FROM w ORDER BY uca_key(t))")"
    is "SQLite: uca_begins, and bounds without a null" "1 0 1|1|4096|1" "$(sqlite "SELECT uca_load('sv', '$published', 'rules/sv.rules')" "SELECT uca_begins('Öland', 'öl', 'sv') || ' ' || uca_begins('Öland', 'ol', 'sv') || ' ' || uca_begins('Öland', '', 'sv')" \
        "SELECT uca_begins(NULL, 'a', 'sv') IS NULL" "SELECT length(uca_prefix_upper('', 'sv'))" "SELECT uca_key('Öland', 'sv') < uca_prefix_upper('', 'sv')" | sed 's/^sv|//')"
    is "SQLite: uca_begins says what is in the range, of each beginning" "sv|9 of 56" "$(db=:memory: sqlite "SELECT uca_load('sv', '$published', 'rules/sv.rules')" "CREATE TABLE w (t TEXT)" \
        "INSERT INTO w VALUES ('stora'), ('Storasyster'), ('storå'), ('apa'), ('åka'), ('ost'), ('öst'), ('über')" \
        "SELECT sum(uca_begins(t, b, 'sv')) || ' of ' || sum(uca_begins(t, b, 'sv') = (uca_key(t, 'sv') >= uca_prefix_lower(b, 'sv') AND uca_key(t, 'sv') < uca_prefix_upper(b, 'sv'))) FROM w, (SELECT 'stora' AS b UNION SELECT 'a' UNION SELECT 'å' UNION SELECT 'o' UNION SELECT 'u' UNION SELECT 'ö' UNION SELECT 'st')")"
    # Windows begin at a weight that is far below the greatest one.
    printf '%s ; [.1000.0020.0002]\n' 0030 03B1 0430 10D0 0561 05D0 0621 1200 0904 0985 0A05 0A85 0B05 0B85 0C05 0C85 0D05 0D85 0E01 0E81 0F40 1000 1780 1820 \
        1100 3042 3105 >"$work/full"
    printf '0250 ; [.FFFF.0020.0002]\n' >>"$work/full"
    is "SQLite: an upper end where the lower one is all FF" "full|FFFFFF|4099|1 1 0 0" "$(db=:memory: sqlite "SELECT uca_load('full', '$work/full')" "SELECT hex(uca_prefix_lower('ɐ', 'full'))" "SELECT length(uca_prefix_upper('ɐ', 'full'))" \
        "SELECT group_concat(uca_key(column1, 'full') >= uca_prefix_lower('ɐ', 'full') AND uca_key(column1, 'full') < uca_prefix_upper('ɐ', 'full'), ' ') FROM (VALUES ('ɐ'), (replace(printf('%.*c', 1366, 'b'), 'b', 'ɐ')), (replace(printf('%.*c', 1367, 'b'), 'b', 'ɐ')), ('0'))")"
    is "SQLite: bad names and files by the thousand change nothing" "1000|2" "$(for i in $(seq 1000); do echo "SELECT uca_load('bad$((i % 7))', '/nowhere/$i', CASE $((i % 2)) WHEN 1 THEN 'rules/sv.rules' END);"; done | sqlite | tr '|' '\n' | grep -c 'could not read')|$(sqlite3 "$db" 'SELECT count(*) FROM uca_fixed')"
else
    echo "$script: left out: the extension of SQLite, since sqlite3 or its header is not there"
fi

# The fingerprint: the same for another spelling of the same order, and different for another order.
fingerprint() { { ./uca table "$@" </dev/null; echo "strength tertiary, variable non-ignorable, Unicode 18, ideographs 15.1"; } | sha256sum; }
./uca table --table "$published" </dev/null >"$work/canonical"
{ echo '# the same, turned round'; grep -v '^@' "$work/canonical" | tac; grep '^@' "$work/canonical"; } >"$work/turned"
is "the fingerprint of the same table" "$(fingerprint --table "$published" --rules rules/cs.rules)" "$(fingerprint --table "$work/turned" --rules <(grep -v '^#' rules/cs.rules))"
is "the fingerprint of other rules" "other" "$([ "$(fingerprint --table "$published" --rules rules/cs.rules)" != "$(fingerprint --table "$published" --rules rules/sk.rules)" ] && echo other)"

sum_up
