#!/usr/bin/env bash
# ucasort: each option as in GNU sort, with the same lines over generated cases and a million lines; languages, names that end in NUL,
# invalid lines, articles, faults of rules, and where the table comes from.
source "$(dirname "${BASH_SOURCE[0]}")/checks.bash"

is_built
UCA=$PWD/crates/uca/out/uca
export UCA
published=$(published_table)
[ -n "$published" ] || { echo "$script: no allkeys.txt in perl's folders, so nothing was sorted"; sum_up; exit; }
export UCA_TABLE=$published TMPDIR=$work/temporary LC_ALL=C
ucasort=$PWD/ucasort
home=$PWD
mkdir "$TMPDIR"

# sorts WORDS..: ucasort; leaves out, err and status
sorts() {
    "$ucasort" "$@" >"$work/out" 2>"$work/err"
    status=$?
}
in_one() { paste -sd'|' "$1"; }

# as_sort WORDS..: checks for the same output, status and messages as sort, with the file `input` as standard input
as_sort() {
    local wanted
    rm -f "$work/file"
    sort "$@" <"$work/input" >"$work/wanted" 2>"$work/wanted.err"
    wanted=$?
    [ ! -e "$work/file" ] || mv "$work/file" "$work/wanted.file"
    sorts "$@" <"$work/input"
    sed -i "s/^sort: /ucasort: /;s/Try 'sort/Try 'ucasort/" "$work/wanted.err"
    is "as sort: $*" "$wanted|same|$(tr '\0' '|' <"$work/wanted.err")" \
        "$status|$(cmp -s "$work/wanted" "$work/out" && echo same)|$(tr '\0' '|' <"$work/err")"
    # If a file cannot be read, sort has already created its output file.
    if [ -e "$work/wanted.file" ] && [ "$wanted" -eq 0 ]; then
        is "as sort, the file of $*" same "$(cmp -s "$work/wanted.file" "$work/file" && echo same)"
    fi
    rm -f "$work/wanted.file"
}

# Generated cases: texts of digits, small letters, blanks and commas, whose order by the table is that of their bytes.
cd "$work" || exit 2
perl -e '
    srand 20260;
    my $folder = shift;
    sub one { $_[rand @_] }
    for my $case (1 .. 200) {
        my @options;
        my $end = rand() < 0.2 ? do { push @options, "-z"; "\0" } : "\n";
        push @options, one("-r", "--reverse") if rand() < 0.3;
        push @options, one("-u", "--unique") if rand() < 0.3;
        push @options, one("-s", "--stable") if rand() < 0.3;
        push @options, "-b" if rand() < 0.1;
        push @options, one("-t,", "-t ,", "--field-separator=,") if rand() < 0.4;
        for (1 .. one(0, 0, 1, 1, 2)) {
            my $flags = join "", map { rand() < 0.15 ? $_ : () } qw(b n r);
            push @options, one("-k", "-k ", "--key=") . one(1 .. 4) . $flags . (rand() < 0.6 ? "," . one(1 .. 4) : "");
        }
        push @options, one("-S 1M", "--buffer-size=2M", "-S10%") if rand() < 0.2;
        push @options, "--parallel=" . one(1, 2, 3) if rand() < 0.2;
        my $mode = one("", "", "", "", "-c", "-m", "-C");
        push @options, $mode if $mode;
        push @options, one("-o file", "--output=file") if rand() < 0.2 && $mode !~ /c/i;
        my @files = $mode =~ /c/i ? one("", "-", "a") : one("", "-", "a", "a b", "a - b", "a a", "none", "a none", "- none b", "b /");
        for my $name (qw(input a b)) {
            my $alphabet = one("ab", "abc ,", "0123456789,", "ab0 \t,", "abcdefghijklmnopqrstuvwxyz0123456789");
            my @lines = map { join "", map { one(split //, $alphabet) } 1 .. rand 8 } 1 .. rand(10) ** 2;
            my $text = join $end, @lines;
            $text .= $end if @lines && rand() < 0.7;
            open my $file, ">", "$folder/$case.$name"; print $file $text;
        }
        print join(" ", @options, @files), "\n";
    }' "$work" >"$work/cases"
case_number=0
while read -r -a words; do
    case_number=$((case_number + 1))
    for name in input a b; do mv "$work/$case_number.$name" "$work/$name"; done
    case " ${words[*]} " in
    *' -m '*) # what is merged is sorted
        mapfile -t order < <(printf '%s\n' "${words[@]}" | grep -vxE -e '-m|-o|file|a|b|-|none|/|--output=file|-u|--unique')
        for name in input a b; do sort "${order[@]}" -o "$name" "$name"; done
        ;;
    *' -'[cC]' '*) [ $((case_number % 2)) -eq 0 ] || { mapfile -t order < <(printf '%s\n' "${words[@]}" | grep -vxE -e '-c|-C|a|-'); sort "${order[@]}" -o a a; } ;;
    esac
    as_sort "${words[@]}"
done <"$work/cases"
is "generated cases" 200 "$case_number"

# Words that it refuses, with sort's messages and status.
printf 'b\na\n' | tee input a >b
for words in '-x' '--foo' '-k 0' '-k' '-k 1,0' '-k 1x' '-t ab' '-S 1q' '--parallel 0' '--parallel x' '-c a b' '-cC' '-c -o file' '-o file -o other' '-t , -t ;' 'none' '/' '-o none/file' '--batch-size=1' '--re' '--check=quiet' '-c a' '-- -r'; do
    # shellcheck disable=SC2086
    as_sort $words
done
as_sort 'a b' "it's"
"$ucasort" <&- >"$work/out" 2>"$work/err"
is "standard input that is closed" "2||ucasort: stat failed: -: Bad file descriptor" "$?|$(cat out)|$(cat err)"
"$ucasort" a <&- >"$work/out" 2>"$work/err"
is "a file, where standard input is closed" "0|a|b|" "$?|$(in_one out)|$(cat err)"
for option in -f -d -i -n -g -h -M -R -V; do
    sorts $option a
    is "an option of sort that ucasort does not have: $option" "2|0|1" "$status|$(wc -c <out)|$(grep -c "^ucasort: $option " err)"
done
for words in '-k 1.2' '--strength fifth' '--variable none' '--bad never' '--language sv --rules sv.rules'; do
    # shellcheck disable=SC2086
    sorts $words a
    is "words that are refused: $words" "2|0|ucasort" "$status|$(wc -c <out)|$(head -n 1 err | cut -d: -f1)"
done
sorts --help
is "help" "0|Usage: ucasort [OPTION]... [FILE]...|" "$status|$(head -n 1 out)|$(cat err)"
sorts --version
is "version" "0|ucasort (Hagvlomi) $(cd "$home" && header_version)|" "$status|$(cat out)|$(cat err)"
"$ucasort" a >/dev/full 2>err
is "a full disk" "2|ucasort: write failed: 'standard output': No space left on device" "$?|$(cat err)"
"$ucasort" -k1 a -o /dev/full 2>err
is "a full disk, by a key" "2|ucasort: write failed: /dev/full: No space left on device" "$?|$(cat err)"
sorts -o a a
is "a file in its own place" "a|b" "$(in_one a)"
sorts -T "$work/none" b
is "no folder for temporaries" "2|ucasort: cannot create temporary file in $work/none: No such file or directory" "$status|$(cat err)"
cd "$home" || exit 2

# A million lines: the same as from sort with each option; and a reader that stops early.
seq 1000000 | awk '{ n = ($1 * 7919) % 600011; print n % 97 " " n " " ($1 * 31) % 1009 }' >"$work/many"
for words in '' -r -u -s '-k 2,2' '-k 3,3 -k 2'; do
    # shellcheck disable=SC2086
    sorts $words "$work/many"
    # shellcheck disable=SC2086
    is "a million lines, $words" "0|same" "$status|$(sort $words "$work/many" | cmp -s - "$work/out" && echo same)"
done
tr '\n' '\0' <"$work/many" >"$work/names"
sorts -z "$work/names"
is "a million lines, -z" "0|same" "$status|$(sort -z "$work/names" | cmp -s - "$work/out" && echo same)"
for words in '' '-k 2'; do
    # shellcheck disable=SC2086
    { "$ucasort" $words "$work/many" 2>"$work/err"; echo $? >"$work/status"; } | head -n 1 >/dev/null
    is "a reader that has enough of it, $words" "141|" "$(cat "$work/status")|$(cat "$work/err")"
done
"$ucasort" -k 2 "$work/many" >"$work/out" 2>"$work/err" &
sleep 1
kill "$!"
wait "$!" 2>/dev/null
is "a run that is ended" "143|0|" "$?|$(wc -c <"$work/out")|$(cat "$work/err")"

# Languages: the words of each come out in their order, whatever the order of the input.
for words in tests/rules/*.words; do
    tag=${words##*/}
    tag=${tag%.words}
    shuf --random-source=<(yes) "$words" >"$work/words"
    sorts -l "$tag" "$work/words"
    ./uca order --table "$published" --rules "rules/$tag.rules" <"$work/words" >"$work/wanted"
    is "the words of $tag" "0|same" "$status|$(cmp -s "$work/wanted" "$work/out" && echo same)"
done
printf 'zon\nåka\nära\n' >"$work/words"
for tag in sv sv-SE sv_SE.UTF-8 SV sv_FI@euro sv_FI.ISO-8859-15@euro; do
    sorts -l $tag "$work/words"
    is "Swedish as $tag" "0|zon|åka|ära" "$status|$(in_one "$work/out")"
done
for tag in en de-CH nl_NL; do
    sorts -l $tag "$work/words"
    is "the table's own order as $tag" "0|åka|ära|zon" "$status|$(in_one "$work/out")"
done
printf 'Müller\nMud\nMuz\n' >"$work/words"
sorts -l de-DE-u-co-phonebk "$work/words"
is "German as in phone books, with a region" "0|Mud|Müller|Muz" "$status|$(in_one "$work/out")"
for tag in xx sv-u-co-trad sr-Arab ../rules/sv de@phonebook es_ES@traditional es@collation=traditional sv_SE.UTF-8@x sv@ sv@euro@x de@latin @euro; do
    sorts --language="$tag" "$work/words"
    is "a language that is not there: $tag" "2|0|ucasort: no rules for the language $tag; -l list lists the languages" "$status|$(wc -c <"$work/out")|$(cat "$work/err")"
done
for tag in 'x y' ''; do
    sorts -l "$tag" "$work/words"
    is "a language that is not there: '$tag'" "2|0|ucasort: no rules for the language '$tag'; -l list lists the languages" "$status|$(wc -c <"$work/out")|$(cat "$work/err")"
done
LANG='' LC_ALL='' LANGUAGE='' sorts "$work/words"
is "variables of the locale that are empty" "0|Mud|Müller|Muz" "$status|$(in_one "$work/out")"
sorts -l list
is "the list of languages" "0|$(find rules -name '*.rules' | wc -l)|sv	Swedish" "$status|$(grep -vc 'the order of the table' "$work/out")|$(grep '^sv	' "$work/out")"
sorts --rules rules/sv.rules "$work/words"
is "rules by their path" 0 "$status"

# Names that end in NUL, with newlines, CR and TAB.
sorts -z < <(printf 'ab\0a b\0a\nb\0a\tb\0a\r\0a')
is "names with newlines" "a\0a\tb\0a\nb\0a\r\0a b\0ab\0|0" "$(perl -0777 -pe 's/\0/\\0/g; s/\n/\\n/g; s/\t/\\t/g; s/\r/\\r/g' "$work/out")|$status"
sorts -z --strength identical --variable blanked < <(printf 'ab\0a b\0a\nb\0a\tb')
is "newlines at the level of the text itself" "a\tb\0a\nb\0a b\0ab\0|0" "$(perl -0777 -pe 's/\0/\\0/g; s/\n/\\n/g; s/\t/\\t/g' "$work/out")|$status"
sorts -z -l sv < <(printf 'z\nz\0å\0ä\n\xef\xb7\x90\0a\n\0')
is "newlines by a language" "a\n|z\nz|å|ä\n" "$(perl -0777 -pe 's/\n/\\n/g; s/\0/|/g; s/\xef\xb7\x90//; s/\|$//' "$work/out")"
mkdir "$work/names.d"
touch "$work/names.d/b" "$work/names.d/"$'A\nfile' "$work/names.d/"$'\xff' "$work/names.d/a"
is "names that find prints" $'a|A\nfile|b|\xff|' "$(cd "$work/names.d" && find . -type f -printf '%P\0' | "$ucasort" -z | tr '\0' '|')"

# CR before LF is part of the line, but not of its text.
sorts < <(printf 'b\r\na\r\na\nb')
is "CR before LF" "a a\r b b\r 0" "$(sed 's/\r/\\r/' "$work/out" | paste -sd' ') $status"

# Invalid lines. There are 60 and 61 marks; U+1EBF decomposes into a letter and two marks.
marks() { for _ in $(seq "$1"); do printf '\xcc\x81'; done; }
{
    printf 'b\n\xff\na\nB\xff\n\nz'; marks 60; printf '\nc'; marks 61; printf '\n\xe1\xba\xbf'; marks 58; printf '\n\xe1\xba\xbf'; marks 59; printf '\n'
} >"$work/lines"
# shown: each line by its first characters
shown() { perl -ne 'chomp; s/(\xcc\x81)+/"+" . length($&) \/ 2/e; s/\xff/?/; s/\xe1\xba\xbf/E/; print "$_|"' "$work/out"; }
sorts "$work/lines"
is "lines that are not text" "|a|b|E+58|z+60|B?|c+61|E+59|?|0" "$(shown)$status"
sorts -r "$work/lines"
is "lines that are not text, reversed" "z+60|E+58|b|a||?|E+59|c+61|B?|0" "$(shown)$status"
sorts --bad first --strength primary "$work/lines"
is "lines that are not text, first" "B?|c+61|E+59|?||a|b|E+58|z+60|0" "$(shown)$status"
sorts -u "$work/lines" "$work/lines"
is "lines that are not text, each once" "|a|b|E+58|z+60|B?|c+61|E+59|?|0" "$(shown)$status"
sorts -s -k 1,1 "$work/lines"
is "fields that are not text" "|a|b|E+58|z+60|B?|c+61|E+59|?|0" "$(shown)$status"
printf 'x,b\n\xff,a\nx,\xff\n' >"$work/fields"
sorts -t, -k2,2 "$work/fields"
is "a field that is text beside one that is not" "?,a|x,b|x,?|0" "$(shown)$status"
sorts -k 1,1r "$work/lines"
is "a reversed key that is not text" "z+60|E+58|b|a||?|E+59|c+61|B?|0" "$(shown)$status"
sorts --bad refuse "$work/lines"
is "a line that is refused" "2|0|ucasort: $work/lines:2: byte 0: NotUtf8" "$status|$(wc -c <"$work/out")|$(cat "$work/err")"
printf 'a\n' >"$work/good"
sorts --bad refuse "$work/good" - "$work/good" < <(printf 'a\nb\nc'; marks 61; printf '\n')
is "a line that is refused, of several files" "2|0|ucasort: -:3: byte 121: LongRun" "$status|$(wc -c <"$work/out")|$(cat "$work/err")"
for way in -s -u '-k 1' ''; do
    # shellcheck disable=SC2086
    sorts --bad refuse $way <(printf 'c\nb') <(printf 'a') <(printf 'd\n')
    is "lines of several files without an end, $way" "a|b|c|d|0" "$(in_one "$work/out")|$status"
    # shellcheck disable=SC2086
    sorts -z --bad refuse $way <(printf 'c\0b') <(printf 'a') <(printf 'd\0')
    is "names of several files without an end, $way" "a|b|c|d||0" "$(tr '\0' '|' <"$work/out")|$status"
done
sorts --bad refuse -t, -k1,1 -k2,2 "$work/fields"
is "a field that is refused" "2|0|ucasort: $work/fields:2: byte 0: NotUtf8 in key 1" "$status|$(wc -c <"$work/out")|$(cat "$work/err")"
perl -e 'print "x\xcc\x81" . "\xcc\x80" x (58 + $_ % 4), "\n" for 1 .. 3000' >"$work/runs"
sorts "$work/runs"
is "three thousand lines that may have too many marks" "0|3000|1500" "$status|$(wc -l <"$work/out")|$(tail -n 1500 "$work/out" | awk 'length($0) > 121' | wc -l)"

# Levels, articles, fields and a separator outside ASCII.
printf 'b-a\nb a\nba\nB-a\n' >"$work/words"
sorts -u --variable shifted "$work/words"
is "shifted punctuation at three levels" "b-a|B-a|0" "$(in_one "$work/out")|$status"
sorts -u --variable shifted --strength quaternary "$work/words"
is "shifted punctuation at four levels" "b a|b-a|ba|B-a|0" "$(in_one "$work/out")|$status"
printf 'The Zoo\nan owl\nA\nThe\nLe chat\nL\xe2\x80\x99ami\nl%san\n"The Cat"\n' "'" >"$work/titles"
sorts --skip-articles "the,a,an,le,l'" --variable shifted "$work/titles"
is "titles without their articles" "A|L’ami|l'an|\"The Cat\"|Le chat|an owl|The|The Zoo|0" "$(in_one "$work/out")|$status"
sorts --skip-articles 'the a an' --variable shifted "$work/titles"
is "articles with blanks between" "A|\"The Cat\"|L’ami|l'an|Le chat|an owl|The|The Zoo|0" "$(in_one "$work/out")|$status"
printf '2¦The b\n1¦a\n10¦c\n' >"$work/fields"
sorts -t ¦ -k2 --skip-articles the "$work/fields"
is "a separator outside ASCII" "1¦a|2¦The b|10¦c|0" "$(in_one "$work/out")|$status"
sorts -l sr_RS@latin "$work/fields"
is "a script as locales name it" "0" "$status"
sorts --rules <(printf '&z<a\n') --table <(cat "$published") -k1 "$work/fields" -o -
is "rules and a table from pipes, and - as the output" "1¦a|10¦c|2¦The b|0" "$(in_one "$work/out")|$status"
sorts --rules <(printf '&z<\n') "$work/fields"
is "faulty rules from a pipe" "2|ucasort: rules byte 3: EmptyString" "$status|$(cat "$work/err")"
sorts -t ¦ -k1n,1r "$work/fields"
is "a number" "10¦c|2¦The b|1¦a|0" "$(in_one "$work/out")|$status"

# Rules that are at fault: where, and why.
# says RULES WORDS..: what --check-rules reports about rules and lists of words, without the folder, and its status
says() {
    # shellcheck disable=SC2059
    printf "$1" >"$work/mine.rules"
    shift
    sorts --check-rules "$work/mine.rules" "$@"
    sed "s,^$work/,,;s/a\xcc\x8a/å/g;s/e\xcc\x81/é/g" "$work/out" | cat - "$work/err" <(echo "$status") | paste -sd'|'
}
is "rules without a fault" "0" "$(says '&c<ch\n&z<å<<<Å')"
is "no item" "mine.rules:2:10: after this operator there is no string (EmptyString)|    &z<å<é́<|           ^|1" "$(says '&c<ch\n&z<å<e\xcc\x81\xcc\x81<')"
while IFS=: read -r text words; do
    said=$(says "&a$text<q")
    is "left out: $text" yes "$([[ $said == mine.rules:1:*"$words"*'(LeftOut)|'*'|1' ]] && echo yes || echo "$said")"
done <<'END'
[before 1]b:[before ..]
<<<<b:a fourth level
[reorder Cyrl]b:the order of scripts
<*abc:a list of items
<x|y:a prefix
[caseFirst upper]:capitals first
[import de]:copy the rules
<b;c:older sign for <<
<b,c:older sign for <<<
[first regular]<b:a place that has a name
END
is "a quote without an end" "mine.rules:1:4: this quote is not ended (Syntax)|    &a<'b|       ^|1" "$(says "&a<'b")"
is "before the first reset" "mine.rules:2:1: this comes before the first reset; rules begin with & and a string (Syntax)|    b<c|    ^|1" "$(says '# b & c\nb<c')"
is "a sign without quotes" "mine.rules:1:5: \$ is not a character of a string; it needs quotes or a backslash (Syntax)|    &a<b\$|        ^|1" "$(says '&a<b$')"
is "rules that are not UTF-8" "mine.rules:1:4: these bytes are not UTF-8 (NotUtf8)|1" "$(says '&a<\xff' | sed 's/|.*|/|/')"
is "a relation that finds no place" "mine.rules:3:3: what comes before this item has an implicit weight, as ideographs have; nothing can come after it at the first level (HighReset)|    &一<q|       ^|1" "$(says "# &a<b\n&a='<'<c\n&一<q")"
is "an item that is tailored twice" "mine.rules:2:3: å is tailored twice; this place replaces the one at 1:3|    &z<å|      ^|1" "$(says '&a<å\n&z<a\xcc\x8a')"
is "an item whose beginning is not a key" "mine.rules:1:3: xyé ends in a combining mark, and what comes before that mark is neither an item nor a key of the table (WF5); with another mark between them it is not found|    &a<xyé|      ^|1" "$(says '&a<xye\xcc\x81')"
is "an item whose beginning is a key" "0" "$(says '&a<xye<xye\xcc\x81')"
printf 'ch\ncz\nd\n\nz\nå\n' >"$work/list"
is "a list of words in another order than written" "list:2: cz comes before ch, which is above it|list:4:  comes before d, which is above it|1" "$(says '&c<ch\n&z<å' "$work/list" | sed "s,$work/,,")"
is "a list in its order" "0" "$(says '&c<ch\n&z<å' <(printf 'cz\nch\nz\nå\n'))"
is "a list that is not text" "ucasort: list:2: byte 1: NotUtf8|2" "$(printf 'a\nb\xff\n' >"$work/list" && says '&c<ch' "$work/list" | sed "s,$work/,,")"
sorts --check-rules "$work/none"
is "rules that are not there" "2|ucasort: cannot read: $work/none: No such file or directory" "$status|$(cat "$work/err")"
# In these four, the digraph dž or Burmese finals are items, but what comes before their mark is not.
for rules in rules/*.rules; do
    sorts --check-rules "$rules" "tests/rules/$(basename "$rules" .rules).words"
    [ "$status" -eq 0 ] || echo "$rules"
    grep '^[^ ]' "$work/out" | grep -v '(WF5)'
done >"$work/faulty"
is "the rules of the languages in which something is found" "rules/bs.rules|rules/hr.rules|rules/my.rules|rules/sr-Latn.rules" "$(in_one "$work/faulty")"

# The table: --table, UCA_TABLE, an installed one, Debian's.
printf '0062 ; [.1000.0020.0002]\n0061 ; [.1001.0020.0002]\n' >"$work/b_first"
printf '0062 ; [.1000.0020.0002\n' >"$work/broken"
printf 'a\nb\n' >"$work/words"
sorts --table "$work/b_first" "$work/words"
is "a table that is named" "b|a|0" "$(in_one "$work/out")|$status"
UCA_TABLE=$work/b_first sorts "$work/words"
is "a table of the environment" "b|a|0" "$(in_one "$work/out")|$status"
UCA_TABLE=$work/b_first sorts --table "$published" "$work/words"
is "a table that is named, and one of the environment" "a|b|0" "$(in_one "$work/out")|$status"
UCA_TABLE='' sorts "$work/words"
is "Debian's table" "a|b|0" "$(in_one "$work/out")|$status"
mkdir -p "$work/usr/bin" "$work/usr/share/uca/rules"
sed 's,/usr/share/perl/,/none/,' ucasort >"$work/usr/bin/ucasort"
chmod +x "$work/usr/bin/ucasort"
cp rules/sv.rules "$work/usr/share/uca/rules"
UCA_TABLE='' "$work/usr/bin/ucasort" "$work/words" >"$work/out" 2>"$work/err"
is "no table" "2|0|ucasort: no table:" "$?|$(wc -c <"$work/out")|$(grep -o '^ucasort: no table:' "$work/err")"
cp "$work/b_first" "$work/usr/share/uca/allkeys.txt"
is "a table that is installed" "b|a" "$(UCA_TABLE='' "$work/usr/bin/ucasort" "$work/words" 2>&1 | paste -sd'|')"
is "a language that is installed" "z|ä" "$(printf 'ä\nz\n' | "$work/usr/bin/ucasort" -l sv 2>&1 | paste -sd'|')"
sorts --table "$work/broken" "$work/words"
is "a table that is at fault" "2|0|ucasort: table line 1: BadElement" "$status|$(wc -c <"$work/out")|$(cat "$work/err")"
sorts --table "$work/broken" </dev/null
is "a table that is at fault, and no line" "2|ucasort: table line 1: BadElement" "$status|$(cat "$work/err")"
sorts --table "$work/none" "$work/words"
is "a table that is not there" "2|ucasort: cannot open $work/none" "$status|$(cat "$work/err")"
printf '&b<' >"$work/mine.rules"
sorts --rules "$work/mine.rules" "$work/words"
is "rules that are at fault" "2|0|ucasort: rules byte 3: EmptyString; ucasort --check-rules $work/mine.rules says where" "$status|$(wc -c <"$work/out")|$(cat "$work/err")"

is "no file is left" "" "$(find "$TMPDIR" -mindepth 1)"
sum_up
