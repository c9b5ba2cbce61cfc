#!/usr/bin/env bash
# The definitions against values from outside: worked examples of the standards, perl's Unicode::Collate, ICU, lines of published files.
source "$(dirname "${BASH_SOURCE[0]}")/checks.bash"
export LC_ALL=C.UTF-8

is_built
published=$(published_table)
[ -n "$published" ] || { echo "$script: no allkeys.txt in perl's folders, so nothing was tried"; exit 0; }
ln -s "$published" "$work/published"

# table NAME <TEXT, rules NAME TEXT: tables and rules that the rows below name; printf %b expands escapes here and in inputs
table() { printf '%b' "$(cat)" >"$work/$1"; }
rules() { printf '%b' "$2" >"$work/$1"; }

# row DEFINITION WORDS INPUT WANTED SOURCE: the output must be WANTED, its lines separated by LF or `|`, or be refused with that report;
# keys are written as weights of four digits and code points of six
row() {
    local words=${2//--table /--table $work/} got
    words=${words//--rules /--rules $work/}
    # shellcheck disable=SC2086
    got=$(printf '%b' "$3" | ./uca $words 2>&1 | paste -sd'|')
    local wanted=${4//$'\n'/|}
    case $2 in
    compare*) got=${got//|/ } ;;
    key*) got=${got// /} wanted=${wanted// /} ;;
    esac
    is "$1, by $5: $2, $3" "$wanted" "$got"
}

# refused DEFINITION RULES SOURCE: nothing is written under these rules
refused() {
    rules refused "$2"
    runs key --table "$published" --rules "$work/refused" < <(printf 'a\n')
    is "$1, by $3: refused, $2" "0|3" "$(wc -c <"$work/out")|$status"
}

# The sample table and the worked keys of UTS #10, 7
table sample <<'end'
0000 ; [.0000.0000.0000]
0020 ; [*0209.0020.0002]
0300 ; [.0000.0021.0002]
0041 ; [.1C47.0020.0008]
0061 ; [.1C47.0020.0002]
0062 ; [.1C60.0020.0002]
0063 ; [.1C7A.0020.0002]
0043 ; [.1C7A.0020.0008]
0064 ; [.1C8F.0020.0002]
end
row 'elements' 'elements --table sample' 'c\u00E0b\n' '[.1C7A.0020.0002][.1C47.0020.0002][.0000.0021.0002][.1C60.0020.0002]' 'UTS #10, 7.2, step S2'
row 'sort_key' 'key --table sample' 'cab\nCab\nc\u00E0b\ndab\n' \
'1C7A 1C47 1C60 0000 0020 0020 0020 0000 0002 0002 0002
1C7A 1C47 1C60 0000 0020 0020 0020 0000 0008 0002 0002
1C7A 1C47 1C60 0000 0020 0020 0021 0020 0000 0002 0002 0002 0002
1C8F 1C47 1C60 0000 0020 0020 0020 0000 0002 0002 0002' 'UTS #10, 7.3, From Strings to Sort Keys'
row 'key_order' 'compare --table sample' 'cab\nCab\nc\u00E0b\ndab\n' 'less less less' 'UTS #10, 7.4, Comparison of Sort Keys'
row 'deciding_level' 'compare --table sample --strength primary' 'cab\nCab\nc\u00E0b\ndab\n' 'equal equal less' 'UTS #10, 7.4, cab <<< Cab << cab with grave < dab'
row 'deciding_level' 'compare --table sample --strength secondary' 'cab\nCab\nc\u00E0b\ndab\n' 'equal less less' 'UTS #10, 7.4, cab <<< Cab << cab with grave < dab'

# Variable weighting: UTS #10, 4, L4 Weights for Shifted Variables, and what is said of Blanked
row 'weighted' 'key --table sample --strength quaternary --variable shifted' '\x00\n \u0300\n \n\u0300\nA\n' \
'0000 0000 0000
0000 0000 0000 0209
0000 0000 0000 0209
0000 0021 0000 0002 0000 FFFF
1C47 0000 0020 0000 0008 0000 FFFF' 'UTS #10, 4, L4 Weights for Shifted Variables'
row 'weighted' 'key --table sample --variable blanked' ' \u0300\nA\u0300\n' \
    '0000 0000|1C47 0000 0020 0021 0000 0008 0002' 'UTS #10, 4, Blanked: a grave after a space, after a capital A'

# UTS #10, 4, Comparison of Variable Ordering; perl has the same
row 'weighted' 'compare --table published' 'de luge\nde Luge\nde-luge\nde-Luge\nde\u2010luge\nde\u2010Luge\ndeath\ndeluge\ndeLuge\ndemark\n' \
    'less less less less less less less less less' 'UTS #10, 4, Comparison of Variable Ordering, Non-ignorable'
row 'weighted' 'compare --table published --variable blanked' 'death\nde luge\nde-luge\ndeluge\nde\u2010luge\nde Luge\nde-Luge\ndeLuge\nde\u2010Luge\ndemark\n' \
    'less equal equal equal less equal equal equal less' 'UTS #10, 4, Comparison of Variable Ordering, Blanked'
row 'weighted' 'compare --table published --strength quaternary --variable shifted' 'death\nde luge\nde-luge\nde\u2010luge\ndeluge\nde Luge\nde-Luge\nde\u2010Luge\ndeLuge\ndemark\n' \
    'less less less less less less less less less' 'UTS #10, 4, Comparison of Variable Ordering, Shifted'
row 'weighted' 'compare --table published' '\u2620happy\n\u2620sad\n\u2661happy\n\u2661sad\n' \
    'less less less' 'UTS #10, 4, Comparison of Variable Ordering, Non-ignorable'
row 'weighted' 'compare --table published --variable blanked' '\u2620happy\n\u2661happy\n\u2620sad\n\u2661sad\n' \
    'equal less equal' 'UTS #10, 4, Comparison of Variable Ordering, Blanked'
row 'weighted' 'compare --table published --strength quaternary --variable shifted' '\u2620happy\n\u2661happy\n\u2620sad\n\u2661sad\n' \
    'less less less' 'UTS #10, 4, Comparison of Variable Ordering, Shifted'

# Each option at each level, with marks after what is variable
row 'level_weights' 'key --table published --strength primary' '?\u0300!\u0301\u0315.\n?\u0300A\u0301\n1+2\na-\u0301b\n\u0301-\u0301\n-\x01\u0301a\n' \
    '026D 0267 027E|026D 1FA2|1F99 0666 1F9A|1FA2 020D 1FBC|020D|020D 1FA2' 'perl Unicode::Collate 1.31 getSortKey'
row 'level_weights' 'key --table published --strength secondary' '?\u0300!\u0301\u0315.\n?\u0300A\u0301\n1+2\na-\u0301b\n\u0301-\u0301\n-\x01\u0301a\n' \
'026D 0267 027E 0000 0020 0025 0020 0024 0033 0020
026D 1FA2 0000 0020 0025 0020 0024
1F99 0666 1F9A 0000 0020 0020 0020
1FA2 020D 1FBC 0000 0020 0020 0024 0020
020D 0000 0024 0020 0024
020D 1FA2 0000 0020 0024 0020' 'perl Unicode::Collate 1.31 getSortKey'
row 'level_weights' 'key --table published' '?\u0300!\u0301\u0315.\n?\u0300A\u0301\n1+2\na-\u0301b\n\u0301-\u0301\n-\x01\u0301a\n' \
'026D 0267 027E 0000 0020 0025 0020 0024 0033 0020 0000 0002 0002 0002 0002 0002 0002
026D 1FA2 0000 0020 0025 0020 0024 0000 0002 0002 0008 0002
1F99 0666 1F9A 0000 0020 0020 0020 0000 0002 0002 0002
1FA2 020D 1FBC 0000 0020 0020 0024 0020 0000 0002 0002 0002 0002
020D 0000 0024 0020 0024 0000 0002 0002 0002
020D 1FA2 0000 0020 0024 0020 0000 0002 0002 0002' 'perl Unicode::Collate 1.31 getSortKey'
# Up to the third level, the two give the same weights.
for variable in blanked shifted; do
    row 'level_weights' "key --table published --strength primary --variable $variable" '?\u0300!\u0301\u0315.\n?\u0300A\u0301\n1+2\na-\u0301b\n\u0301-\u0301\n-\x01\u0301a\n' \
'
1FA2
1F99 1F9A
1FA2 1FBC

1FA2' 'perl Unicode::Collate 1.31 getSortKey'
    row 'level_weights' "key --table published --strength secondary --variable $variable" '?\u0300!\u0301\u0315.\n?\u0300A\u0301\n1+2\na-\u0301b\n\u0301-\u0301\n-\x01\u0301a\n' \
'0000
1FA2 0000 0020 0024
1F99 1F9A 0000 0020 0020
1FA2 1FBC 0000 0020 0020
0000 0024
1FA2 0000 0020' 'perl Unicode::Collate 1.31 getSortKey'
    row 'level_weights' "key --table published --variable $variable" '?\u0300!\u0301\u0315.\n?\u0300A\u0301\n1+2\na-\u0301b\n\u0301-\u0301\n-\x01\u0301a\n' \
'0000 0000
1FA2 0000 0020 0024 0000 0008 0002
1F99 1F9A 0000 0020 0020 0000 0002 0002
1FA2 1FBC 0000 0020 0020 0000 0002 0002
0000 0024 0000 0002
1FA2 0000 0020 0000 0002' 'perl Unicode::Collate 1.31 getSortKey'
done
row 'level_weights' 'key --table published --strength quaternary --variable shifted' '?\u0300!\u0301\u0315.\n?\u0300A\u0301\n1+2\na-\u0301b\n\u0301-\u0301\n-\x01\u0301a\n' \
'0000 0000 0000 026D 0267 027E
1FA2 0000 0020 0024 0000 0008 0002 0000 026D FFFF FFFF
1F99 1F9A 0000 0020 0020 0000 0002 0002 0000 FFFF 0666 FFFF
1FA2 1FBC 0000 0020 0020 0000 0002 0002 0000 FFFF 020D FFFF
0000 0024 0000 0002 0000 FFFF 020D
1FA2 0000 0020 0000 0002 0000 020D FFFF' 'perl Unicode::Collate 1.31 getSortKey'
# At level 4 of the other options perl's pod calls its weights unreliable: where no weight is implicit it has none, as we do.
row 'level_weights' 'key --table published --strength quaternary' 'a-b\n(\u00C1)\n' \
'1FA2 020D 1FBC 0000 0020 0020 0020 0000 0002 0002 0002 0000
0328 1FA2 0329 0000 0020 0020 0024 0020 0000 0002 0008 0002 0002 0000' 'perl Unicode::Collate 1.31 getSortKey'
row 'level_weights' 'key --table published --strength quaternary --variable blanked' 'a-b\n(\u00C1)\n' \
    '1FA2 1FBC 0000 0020 0020 0000 0002 0002 0000|1FA2 0000 0020 0024 0000 0008 0002 0000' 'perl Unicode::Collate 1.31 getSortKey'
row 'is_after_variable' 'compare --table published --strength quaternary --variable shifted' '?\u0300!\u0301\u0315\n?!\n?\u0344\n?\n' \
    'equal greater equal' 'perl Unicode::Collate 1.31 cmp, t/variable.t'
row 'is_after_variable' 'compare --table published --strength quaternary --variable shifted' '?\u0300A\u0301\n?\u00C1\n?A\n' \
    'equal greater' 'perl Unicode::Collate 1.31 cmp, t/variable.t'

# Levels: UTS #10, 1.1, Comparison Levels, and the order of accents from the left
row 'deciding_level' 'compare --table published --strength primary' 'role\nroles\nrule\n' 'less less' 'UTS #10, 1.1, Comparison Levels, L1'
row 'deciding_level' 'compare --table published --strength secondary' 'role\nr\u00F4le\nroles\n' 'less less' 'UTS #10, 1.1, Comparison Levels, L2'
row 'deciding_level' 'compare --table published' 'role\nRole\nr\u00F4le\n' 'less less' 'UTS #10, 1.1, Comparison Levels, L3'
# At L4 the standard has role before quoted role, as Shift-Trimmed has; by its section 4, Shifted has quoted role first.
row 'deciding_level' 'compare --table published --strength quaternary --variable shifted' '\u201Crole\u201D\nrole\nRole\n' \
    'less less' 'perl Unicode::Collate 1.31 cmp'
row 'deciding_level' 'compare --table published --strength identical --variable shifted' 'role\nro\u200Dle\n' 'less' 'UTS #10, 1.1, Comparison Levels, Ln'
row 'level_weights' 'compare --table published' 'cote\ncot\u00E9\nc\u00F4te\nc\u00F4t\u00E9\n' 'less less less' 'UTS #10, 1.1, Normal Accent Ordering'
row 'elements' 'compare --table published' 'OE\n\u0152\nOF\n' 'less less' 'UTS #10, 1.1, Context Sensitivity, expansions'

# Keys: separators, the empty text, code points of level 5
row 'sort_key' 'key --table published --strength primary' '\na\n\x01\n' '|1FA2|' 'perl Unicode::Collate 1.31 getSortKey'
row 'sort_key' 'key --table published --strength secondary' '\na\n\x01\n' '0000|1FA2 0000 0020|0000' 'perl Unicode::Collate 1.31 getSortKey'
row 'sort_key' 'key --table published' '\na\n\x01\n' '0000 0000|1FA2 0000 0020 0000 0002|0000 0000' 'perl Unicode::Collate 1.31 getSortKey'
row 'sort_key' 'key --table published --strength quaternary --variable shifted' '\na\x01\n\x01\n\u3042b\n' \
'0000 0000 0000
1FA2 0000 0020 0000 0002 0000 FFFF
0000 0000 0000
42DA 1FBC 0000 0020 0020 0000 000E 0002 0000 FFFF FFFF' 'perl Unicode::Collate 1.31 getSortKey'
row 'sort_key' 'key --table published --strength identical --variable shifted' '\na\n\x01\n\u304C\n\U0001D165\na-b\n' \
'0000 0000 0000 0000
1FA2 0000 0020 0000 0002 0000 FFFF 0000 000061
0000 0000 0000 0000 000001
42E0 0000 0020 0037 0000 000E 0002 0000 FFFF FFFF 0000 00304B 003099
0000 0000 0000 0000 01D165
1FA2 1FBC 0000 0020 0020 0000 0002 0002 0000 FFFF 020D FFFF 0000 000061 00002D 000062' 'perl Unicode::Collate 1.31 getSortKey'
row 'key_order' 'compare --table published' '\n\x01\na\nab\nabc\nac\na\n' 'equal less less less less greater' 'perl Unicode::Collate 1.31 cmp'
row 'key_order' 'compare --table published --strength identical --variable shifted' '\x00\n\u200B\n\u0313\n\u0343\n\u2000\n\u2001\n\u304C\n\u304B\u3099\n' \
    'less less equal greater less less equal' 'perl Unicode::Collate 1.31 cmp, t/ident.t'
# the weights of an ideograph, and its code point
row 'key_order' 'compare --table published --strength primary' '\u4E00\n\u4E01\n\u9FFC\n\u3400\n\U00020000\n\u0378\n' \
    'less less less less less' 'perl Unicode::Collate 1.31 cmp'

# NFD
row 'nfd' 'compare --table published --strength identical --variable shifted' '\u1E0B\u0323\n\u1E0D\u0307\nd\u0307\u0323\nd\u0323\u0307\n' \
    'equal equal equal' 'UAX #15, Canonical Composites; perl Unicode::Collate 1.31 cmp'
row 'nfd' 'compare --table published --strength identical --variable shifted' '\u212B\n\u00C5\nA\u030A\n\u2126\n\u03A9\n' \
    'equal equal less equal' 'UAX #15, Singletons; perl Unicode::Collate 1.31 cmp'
row 'nfd' 'key --table published --strength identical --variable shifted' '\uAC00\n\uAC01\n\u1100\u1161\u11A8\n' \
'4175 41F3 0000 0020 0020 0000 0002 0002 0000 FFFF FFFF 0000 001100 001161
4175 41F3 4251 0000 0020 0020 0020 0000 0002 0002 0002 0000 FFFF FFFF FFFF 0000 001100 001161 0011A8
4175 41F3 4251 0000 0020 0020 0020 0000 0002 0002 0002 0000 FFFF FFFF FFFF 0000 001100 001161 0011A8' 'perl Unicode::Collate 1.31 getSortKey'
row 'nfd' 'key --table published --strength identical --variable shifted' '\u0344\n\u1F82\n\u01D5\n\u0F73\n\uFB2C\n' \
'0000 002B 0024 0000 0002 0002 0000 FFFF FFFF 0000 000308 000301
231E 0000 0020 0022 0025 004C 0000 0002 0002 0002 0002 0000 FFFF FFFF FFFF FFFF 0000 0003B1 000313 000300 000345
2217 0000 0020 002B 0032 0000 0008 0002 0002 0000 FFFF FFFF FFFF 0000 000055 000308 000304
332B 0000 0020 0000 0002 0000 FFFF 0000 000F71 000F72
2632 0000 0020 005F 005E 0000 0002 0002 0002 0000 FFFF FFFF FFFF 0000 0005E9 0005BC 0005C1' 'perl Unicode::Collate 1.31 getSortKey'
row 'nfd' 'key --table published --strength identical --variable shifted' '\u1E69\n' \
    '21D2 0000 0020 0042 002E 0000 0002 0002 0002 0000 FFFF FFFF FFFF 0000 000073 000323 000307' 'perl Unicode::Normalize NFD 0073 0323 0307'

# Safe texts: a run of 60 nonstarters, and not of 61 (as UAX #15, 13, with 30)
row 'IsSafe' 'order' 'a\u0301\u0301\u0301\u0301\u0301\u0301\u0301\u0301\u0301\u0301\u0301\u0301\u0301\u0301\u0301\u0301\u0301\u0301\u0301\u0301\u0301\u0301\u0301\u0301\u0301\u0301\u0301\u0301\u0301\u0301\u0301\u0301\u0301\u0301\u0301\u0301\u0301\u0301\u0301\u0301\u0301\u0301\u0301\u0301\u0301\u0301\u0301\u0301\u0301\u0301\u0301\u0301\u0301\u0301\u0301\u0301\u0301\u0301\u0301\u0301\n' \
    'á́́́́́́́́́́́́́́́́́́́́́́́́́́́́́́́́́́́́́́́́́́́́́́́́́́́́́́́́́́́' 'as UAX #15, 13, Stream-Safe Text Format, with 60'
row 'IsSafe' 'order' '\u0344\u0344\u0344\u0344\u0344\u0344\u0344\u0344\u0344\u0344\u0344\u0344\u0344\u0344\u0344\u0344\u0344\u0344\u0344\u0344\u0344\u0344\u0344\u0344\u0344\u0344\u0344\u0344\u0344\u0344a\u0344\u0344\u0344\u0344\u0344\u0344\u0344\u0344\u0344\u0344\u0344\u0344\u0344\u0344\u0344\u0344\u0344\u0344\u0344\u0344\u0344\u0344\u0344\u0344\u0344\u0344\u0344\u0344\u0344\u0344\n' \
    '̈́̈́̈́̈́̈́̈́̈́̈́̈́̈́̈́̈́̈́̈́̈́̈́̈́̈́̈́̈́̈́̈́̈́̈́̈́̈́̈́̈́̈́̈́ä́̈́̈́̈́̈́̈́̈́̈́̈́̈́̈́̈́̈́̈́̈́̈́̈́̈́̈́̈́̈́̈́̈́̈́̈́̈́̈́̈́̈́̈́' 'as UAX #15, 13, with 60, of a decomposition'
row 'IsLongRunAt' 'order' 'a\u0301\u0301\u0301\u0301\u0301\u0301\u0301\u0301\u0301\u0301\u0301\u0301\u0301\u0301\u0301\u0301\u0301\u0301\u0301\u0301\u0301\u0301\u0301\u0301\u0301\u0301\u0301\u0301\u0301\u0301\u0301\u0301\u0301\u0301\u0301\u0301\u0301\u0301\u0301\u0301\u0301\u0301\u0301\u0301\u0301\u0301\u0301\u0301\u0301\u0301\u0301\u0301\u0301\u0301\u0301\u0301\u0301\u0301\u0301\u0301\u0301\n' \
    'uca: input line 1 byte 121: LongRun' 'as UAX #15, 13, with 60'
row 'IsLongRunAt' 'order' 'a\n\u0344\u0344\u0344\u0344\u0344\u0344\u0344\u0344\u0344\u0344\u0344\u0344\u0344\u0344\u0344\u0344\u0344\u0344\u0344\u0344\u0344\u0344\u0344\u0344\u0344\u0344\u0344\u0344\u0344\u0344\u0344\n' \
    'uca: input line 2 byte 60: LongRun' 'as UAX #15, 13, with 60, of a decomposition'

# Implicit weights
row 'implicit' 'key --table published' '\u4E00\n\u9FFC\n' \
    'FB40 CE00 0000 0020 0000 0002|FB41 9FFC 0000 0020 0000 0002' 'perl Unicode::Collate 1.31 getSortKey, t/ident.t'
row 'implicit' 'key --table published --strength primary' '\u3400\n\u4DBF\n\U00020000\n\U0002A6DD\n\U0002A700\n\U0002B734\n\U0002B740\n\U0002B81D\n\U0002B820\n\U0002CEA1\n\U0002CEB0\n\U0002EBE0\n\U00030000\n\U0003134A\n' \
'FB80 B400
FB80 CDBF
FB84 8000
FB85 A6DD
FB85 A700
FB85 B734
FB85 B740
FB85 B81D
FB85 B820
FB85 CEA1
FB85 CEB0
FB85 EBE0
FB86 8000
FB86 934A' 'perl Unicode::Collate 1.31 getSortKey, t/cjkrange.t'
row 'implicit' 'key --table sample --strength primary' '\uFA0E\n\uFA0F\n\uFA10\n\uFA11\n\uFA12\n\uFA13\n\uFA14\n\uFA1F\n\uFA21\n\uFA23\n\uFA24\n\uFA27\n\uFA28\n\uFA29\n\u3007\n\u2F00\n' \
'FB41 FA0E
FB41 FA0F
FB40 D85A
FB41 FA11
FB40 E674
FB41 FA13
FB41 FA14
FB41 FA1F
FB41 FA21
FB41 FA23
FB41 FA24
FB41 FA27
FB41 FA28
FB41 FA29
FBC0 B007
FBC0 AF00' 'perl Unicode::Collate 1.31 getSortKey'
row 'implicit' 'key --table published --strength primary' '\U00017000\n\U00017001\n\U000187F7\n\U00018800\n\U00018AFF\n\U00018D00\n\U00018D08\n' \
    'FB00 8000|FB00 8001|FB00 97F7|FB00 9800|FB00 9AFF|FB00 9D00|FB00 9D08' 'perl Unicode::Collate 1.31 getSortKey, t/tangut.t'
row 'implicit' 'key --table published' '\U0001B170\n\U0001B171\n\U0001B200\n\U0001B2FB\n' \
'FB01 8000 0000 0020 0000 0002
FB01 8001 0000 0020 0000 0002
FB01 8090 0000 0020 0000 0002
FB01 818B 0000 0020 0000 0002' 'perl Unicode::Collate 1.31 getSortKey, t/nushu.t'
row 'implicit' 'key --table published' '\U00018B00\n\U00018B01\n\U00018C00\n\U00018CD5\n' \
'FB02 8000 0000 0020 0000 0002
FB02 8001 0000 0020 0000 0002
FB02 8100 0000 0020 0000 0002
FB02 81D5 0000 0020 0000 0002' 'perl Unicode::Collate 1.31 getSortKey, t/khitan.t'
row 'implicit' 'key --table published' '\u0378\n\uE000\n\U00050000\n\U00100000\n\U0010FFFD\n\U0010FFFF\n\U0001FFFE\n\uFDD0\n' \
'FBC0 8378 0000 0020 0000 0002
FBC1 E000 0000 0020 0000 0002
FBCA 8000 0000 0020 0000 0002
FBE0 8000 0000 0020 0000 0002
FBE1 FFFD 0000 0020 0000 0002
FBE1 FFFF 0000 0020 0000 0002
FBC3 FFFE 0000 0020 0000 0002
FBC1 FDD0 0000 0020 0000 0002' 'perl Unicode::Collate 1.31 getSortKey'
# Not assigned, though in the range of Nushu, or before that of Tangut. What a later version assigned has its range's weights (docs/DECISIONS.md): perl gives 18CD6 FBC3 8CD6.
row 'implicit' 'key --table published --strength primary' '\U0001B2FC\n\U00016FFF\n' \
    'FBC3 B2FC|FBC2 EFFF' 'perl Unicode::Collate 1.31 getSortKey, t/nushu.t, t/tangut.t'
row 'implicit' 'key --table published --strength primary' '\U00018CD6\n\U000187F8\n' 'FB02 81D6|FB00 97F8' 'UTS #10, 10.1.3, of a code point that is assigned'
# Unified ideographs since version 14, a fixed list here (docs/DECISIONS.md): perl at version 13 gives these FBC1 9FFD, FBC5 A6DE, FBC5 B735.
row 'implicit' 'key --table published --strength primary' '\u9FFD\n\u9FFF\n\U0002A6DE\n\U0002B735\n\U0002B739\n' \
    'FB41 9FFD|FB41 9FFF|FB85 A6DE|FB85 B735|FB85 B739' 'UTS #10, 10.1.3, with Unified_Ideograph of version 15 (ICU 72)'
# The second element of an implicit pair has FFFF at level 4, Shifted (docs/DECISIONS.md), as UTS #10, 4 has it and perl up to version 34.
row 'weighted' 'key --table published --strength quaternary --variable shifted' '\u4E00\n\U00017000\n' \
'FB40 CE00 0000 0020 0000 0002 0000 FFFF FFFF
FB00 8000 0000 0020 0000 0002 0000 FFFF FFFF' 'perl Unicode::Collate 1.31 t/view.t (UCA_Version 24), t/tangut.t (34)'

# Matches: contractions with marks between, as perl's t/contract.t has them
table kje <<'end'
0301  ; [.0000.0032.0002.0301] # COMBINING ACUTE ACCENT
0334  ; [.0000.008B.0002.0334] # COMBINING TILDE OVERLAY
043A  ; [.0D31.0020.0002.043A] # CYRILLIC SMALL LETTER KA
041A  ; [.0D31.0020.0008.041A] # CYRILLIC CAPITAL LETTER KA
045C  ; [.0DA1.0020.0002.045C] # CYRILLIC SMALL LETTER KJE
043A 0301 ; [.0DA1.0020.0002.045C] # CYRILLIC SMALL LETTER KJE
040C  ; [.0DA1.0020.0008.040C] # CYRILLIC CAPITAL LETTER KJE
041A 0301 ; [.0DA1.0020.0008.040C] # CYRILLIC CAPITAL LETTER KJE
end
table ring <<'end'
0304  ; [.0000.005A.0002.0304] # COMBINING MACRON (cc = 230)
030A  ; [.0000.0043.0002.030A] # COMBINING RING ABOVE (cc = 230)
0327  ; [.0000.0055.0002.0327] # COMBINING CEDILLA (cc = 202)
031A  ; [.0000.006B.0002.031A] # COMBINING LEFT ANGLE ABOVE (cc = 232)
0061  ; [.0A15.0020.0002.0061] # LATIN SMALL LETTER A
0041  ; [.0A15.0020.0008.0041] # LATIN CAPITAL LETTER A
007A  ; [.0C13.0020.0002.007A] # LATIN SMALL LETTER Z
005A  ; [.0C13.0020.0008.005A] # LATIN CAPITAL LETTER Z
00E5  ; [.0C25.0020.0002.00E5] # LATIN SMALL LETTER A WITH RING ABOVE; QQCM
00C5  ; [.0C25.0020.0008.00C5] # LATIN CAPITAL LETTER A WITH RING ABOVE; QQCM
0061 030A ; [.0C25.0020.0002.0061] # LATIN SMALL LETTER A WITH RING ABOVE
0041 030A ; [.0C25.0020.0008.0041] # LATIN CAPITAL LETTER A WITH RING ABOVE
end
table tibetan <<'end'
0000           ; [.0000.0000.0000.0000] # [0000] NULL (in 6429)
0FB2           ; [.205B.0020.0002.0FB2] # TIBETAN SUBJOINED LETTER RA
0FB3           ; [.205E.0020.0002.0FB3] # TIBETAN SUBJOINED LETTER LA
0F71           ; [.206D.0020.0002.0F71] # TIBETAN VOWEL SIGN AA
0F72           ; [.206E.0020.0002.0F72] # TIBETAN VOWEL SIGN I
0F73           ; [.206F.0020.0002.0F73] # TIBETAN VOWEL SIGN II
0F71 0F72      ; [.206F.0020.0002.0F73] # TIBETAN VOWEL SIGN II
0F80           ; [.2070.0020.0002.0F80] # TIBETAN VOWEL SIGN REVERSED I
0F81           ; [.2071.0020.0002.0F81] # TIBETAN VOWEL SIGN REVERSED II
0F71 0F80      ; [.2071.0020.0002.0F81] # TIBETAN VOWEL SIGN REVERSED II
0F74           ; [.2072.0020.0002.0F74] # TIBETAN VOWEL SIGN U
0F75           ; [.2073.0020.0002.0F75] # TIBETAN VOWEL SIGN UU
0F71 0F74      ; [.2073.0020.0002.0F75] # TIBETAN VOWEL SIGN UU
0F76           ; [.2074.0020.0002.0F76] # TIBETAN VOWEL SIGN VOCALIC R
0FB2 0F80      ; [.2074.0020.0002.0F76] # TIBETAN VOWEL SIGN VOCALIC R
0F77           ; [.2075.0020.0002.0F77] # TIBETAN VOWEL SIGN VOCALIC RR
0FB2 0F81      ; [.2075.0020.0002.0F77] # TIBETAN VOWEL SIGN VOCALIC RR
0FB2 0F71 0F80 ; [.2075.0020.0002.0F77] # TIBETAN VOWEL SIGN VOCALIC RR
0F78           ; [.2076.0020.0002.0F78] # TIBETAN VOWEL SIGN VOCALIC L
0FB3 0F80      ; [.2076.0020.0002.0F78] # TIBETAN VOWEL SIGN VOCALIC L
0F79           ; [.2077.0020.0002.0F79] # TIBETAN VOWEL SIGN VOCALIC LL
0FB3 0F81      ; [.2077.0020.0002.0F79] # TIBETAN VOWEL SIGN VOCALIC LL
0FB3 0F71 0F80 ; [.2077.0020.0002.0F79] # TIBETAN VOWEL SIGN VOCALIC LL
end
table stroke <<'end'
0000  ; [.0000.0000.0000.0000] # [0000] NULL (in 6429)
0301  ; [.0000.0032.0002.0301] # COMBINING ACUTE ACCENT
0300  ; [.0000.0035.0002.0300] # COMBINING GRAVE ACCENT
0327  ; [.0000.0055.0002.0327] # COMBINING CEDILLA
0334  ; [.0000.008B.0002.0334] # COMBINING TILDE OVERLAY
0041  ; [.0101.0020.0008.0041] # LATIN CAPITAL LETTER A
0041 0327 0301 ; [.0102.0020.0008.0041]
0041 0300 ; [.0103.0020.0008.0041]
end
row 'discontiguous_match' 'compare --table kje --strength primary' '\u043A\n\u043A\u0301\n\u045C\n\u043A\u0334\u0301\n\u045C\n\u043A\u0301\u0334\n' \
    'less equal equal equal equal' 'perl Unicode::Collate 1.31 cmp, t/contract.t'
row 'discontiguous_match' 'compare --table ring --strength primary' 'Z\nA\u030A\u0304\nA\nA\u0304\u030A\nA\u0304\n\u00E5\nA\u030A\u0304\n' \
    'less greater equal equal less equal' 'perl Unicode::Collate 1.31 cmp, t/contract.t'
row 'discontiguous_match' 'compare --table ring --strength primary' 'A\u0327\u030A\nA\u030A\u0327\nA\u031A\u030A\nA\u030A\u031A\nA\n' \
    'equal equal equal greater' 'perl Unicode::Collate 1.31 cmp, t/contract.t'
# a key of three code points whose first two are not a key
row 'discontiguous_match' 'compare --table tibetan' '\u0FB2\u0334\u0F81\n\u0F77\x00\u0334\n\u0FB2\u0334\u0F81\n\u0FB2\u0F80\x00\u0334\u0F71\n' \
    'less greater equal' 'perl Unicode::Collate 1.31 cmp, t/contract.t'
row 'discontiguous_match' 'key --table tibetan --strength primary' '\u0FB2\u0F71\u0F80\n\u0FB2\u0F81\n\u0F76\u0F71\n\u0FB3\u0F80\u0F71\n\u0FB2\u0334\u0F71\u0F80\n' \
    '2075|2075|2075|2077|2074 FBC0 8334 206D' 'perl Unicode::Collate 1.31 getSortKey'
row 'discontiguous_match' 'key --table stroke --strength secondary' 'A\u0334\u0327\u0301\nA\u0327\u0301\x00\u0334\nA\u0327\u0300\nA\u0300\x00\u0327\nA\u0300\u0301\n' \
'0101 0000 0020 008B 0055 0032
0102 0000 0020 008B
0103 0000 0020 0055
0103 0000 0020 0055
0103 0000 0020 0032' 'perl Unicode::Collate 1.31 getSortKey'
row 'longest_match' 'key --table published --strength primary' '\u0DD9\u0DCF\u0DCA\n\u0DDC\u0DCA\n\u0DD9\u0DCF\n\u0DD9\u0323\u0DCF\n\u0DDA\u0DCF\n' \
    '2C9A|2C9A|2C99|2C96 2C8B|2C97 2C8B' 'perl Unicode::Collate 1.31 getSortKey'
row 'longest_match' 'key --table published --strength primary' '\u0E40\u0E01\u0E40\n\u0E40\u0E40\u0E01\n\u0E40\n\u0E40-\u0E01\n' \
    '3217 3251 3251|3251 3217 3251|3251|3251 020D 3217' 'perl Unicode::Collate 1.31 getSortKey'
row 'matches' 'key --table published --strength secondary' '\u0438\u0306\n\u0439\n\u0438\u0323\u0306\n\u0438\u0308\u0306\n\u0418\u0306\u0306\n' \
    '23F2 0000 0020|23F2 0000 0020|23F2 0000 0020 0042|23E5 0000 0020 002B 0026|23F2 0000 0020 0026' 'perl Unicode::Collate 1.31 getSortKey'
row 'matches' 'key --table sample --strength secondary' '\u4E00\u0300\ne\u0300\nx\u0334\u0300a\n' \
    'FB40 CE00 0000 0020 0021|FBC0 8065 0000 0020 0021|FBC0 8078 FBC0 8334 1C47 0000 0020 0020 0021 0020' 'perl Unicode::Collate 1.31 getSortKey'

# The same as ICU has it: its rules of contractions (source/test/testdata/collationtest.txt), here with marks at the second level
rules notes '&a=\u24D0
&b<bz=\u24D1
&d<dz\u0301=\u24D3
&z
<a\u0301=\u24B6
<a\u0301\u0301=\u24B7
<a\u0301\u0301\u0358=\u24B8
<a\u030A=\u24B9
<a\u0323=\u24BA
<a\u0323\u0358=\u24BB
<a\u0327\u0323\u030A=\u24BC
<a\u0327\u0323bz=\u24BD
&\U0001D158=\u2070
<\U0001D158\U0001D165=\u00BC
&\u0338<<\U0001D165=\u00B9<<\U0001D16D=\u00B2<<\U0001D165\U0001D16D=\u00B3
&\u0301=\u2776 &\u030A=\u2777 &\u0308=\u2778 <<\u0308\u0301=\u2779 &\u0327=\u277A &\u0323=\u277B &\u0331=\u277C
<<\u0331\u0358=\u277D &\u0334=\u277E &\u0358=\u277F &\u0F71=\u2460 &\u0F72=\u2461 &\u0F73=\u2462'
row 'longest_match' 'compare --table published --rules notes' 'a\n\u24D0\naa\n\u24D0\u24D0\nab\n\u24D0b\naz\n\u24D0z\n' \
    'equal less equal less equal less equal' 'ICU 72 RuleBasedCollator, collationtest.txt, simple contractions'
row 'discontiguous_match' 'compare --table published --rules notes' 'a\u0308\u030A\n\u24D0\u2778\u2777\na\u0327\n\u24D0\u277A\n\u0308\u030A\u0301\n\u2778\u2777\u2776\n' \
    'equal less equal greater equal' 'ICU 72 RuleBasedCollator, collationtest.txt, simple contractions: blocked'
row 'longest_match' 'compare --table published --rules notes' 'dz\u0323\u0301\ndz\u277B\u2776\nabz\n\u24D0\u24D1\nabzz\n\u24D0\u24D1z\n' \
    'equal greater equal less equal' 'ICU 72 RuleBasedCollator, collationtest.txt, simple contractions: no prefix'
row 'longest_match' 'compare --table published --rules notes' 'z\na\u0301\n\u24B6\na\u0301\u0301\n\u24B7\na\u0301\u0301\u0358\n\u24B8\na\u030A\n\u24B9\na\u0323\u0358\n\u24BB\na\u0327\u0323\u030A\n\u24BC\na\u0327\u0323bz\n\u24BD\n' \
    'less equal less equal less equal less equal less equal less equal less equal' 'ICU 72 RuleBasedCollator, collationtest.txt, simple contractions: longest'
row 'matches' 'compare --table published --rules notes' '\u0308\u0308\u0301\n\u2778\u2779\n\U0001D158\U0001D165\n\u00BC\n\U0001D165\U0001D16D\n\u00B3\n' \
    'equal less equal greater equal' 'ICU 72 RuleBasedCollator, collationtest.txt, simple contractions'
row 'discontiguous_match' 'compare --table published --rules notes' 'a\u0327\u030A\n\u24B9\u277A\na\u0327\u0327\u030A\n\u24B9\u277A\u277A\na\u0327\u0327\u0327\u030A\n\u24B9\u277A\u277A\u277A\na\u0334\u0327\u0327\u030A\n\u24B9\u277E\u277A\u277A\na\u0327\u0323\n\u24BA\u277A\na\u0323\u0301\u0358\n\u24BB\u2776\na\u0334\u0323\u0358\n\u24BB\u277E\n' \
    'equal less equal less equal less equal less equal less equal less equal' 'ICU 72 RuleBasedCollator, collationtest.txt, discontiguous contractions'
row 'discontiguous_match' 'compare --table published --rules notes' '\u0331\u0331\u0358\n\u277D\u277C\na\u0327\u0331\u0323\u030A\n\u24B9\u277A\u277C\u277B\na\u0327\u0323\U0001D16D\u030A\n\u24BA\u277A\u00B2\u2777\na\u0327\u0327\u0323\u030A\n\u24BA\u277A\u277A\u2777\na\u0327\u0323\u0323\u030A\n\u24BA\u277A\u277B\u2777\na\u0334\u0327\u0323\u030A\n\u24BA\u277E\u277A\u2777\n' \
    'equal less equal less equal less equal less equal less equal' 'ICU 72 RuleBasedCollator, collationtest.txt, discontiguous contractions: blocked by one of its class'
row 'discontiguous_match' 'compare --table published --rules notes' '\U0001D158\u0327\U0001D165\n\u00BC\u277A\na\U0001D165\u0323\n\u24BA\u00B9\na\u0327\u0323b\n\u24BA\u277Ab\na\u0327\u0323ba\n\u24BA\u277Ab\u24D0\na\u0327\u0301\u0301\u0358\n\u24B8\u277A\n' \
    'equal less equal less equal less equal greater equal' 'ICU 72 RuleBasedCollator, collationtest.txt, discontiguous contractions'
row 'discontiguous_match' 'compare --table published --rules notes' 'a\u0F73\u0301\n\u24B6\u2462\n\u0F71\u0F73\n\u2462\u2460\n' \
    'equal less equal' 'ICU 72 RuleBasedCollator, collationtest.txt, discontiguous contractions: FCD but not NFD'
row 'matches' 'compare --table published --rules notes' 'a\u0323\u0308\u0301\u0358\n\u24BB\u2779\na\u0323\u0308\u0301\u0308\u0301\u0358\n\u24BB\u2779\u2779\na\u0327\u0331\u030A\u0358\n\u24B9\u277A\u277D\na\u0331\u030A\u0358\n\u24B9\u277D\n' \
    'equal less equal greater equal less equal' 'ICU 72 RuleBasedCollator, collationtest.txt, nested and interleaved contractions'
row 'matches' 'compare --table published --rules notes' 'a\u0331\u0331\u030A\u0358\u0358\n\u24B9\u277D\u277D\na\u0331\u0331\u0331\u030A\u0301\u0358\u0358\u0358\n\u24B9\u277D\u277D\u277D\u2776\na\U0001D165\u0323\U0001D16Ddz\u0301\n\u24BA\u00B3\u24D3\n' \
    'equal less equal less equal' 'ICU 72 RuleBasedCollator, collationtest.txt, interleaved contractions'
# Perl and ICU try the marks after a code point that begins no key too, as 4E00 0323 0301 with this rule; here none is tried (docs/DECISIONS.md).
rules ideograph '&x=\u4E00\u0301 &y=\u0378\u0323\u0301'
row 'matches' 'compare --table published --rules ideograph' '\u4E00\u0301\nx\n\u4E00\u0301\u0301\nx\u0301\n\u0378\u0301\u0323\ny\n\u4E00\n\u4E00\u0323\n' \
    'equal less equal less equal less less' 'ICU 72 RuleBasedCollator'

# Hangul
row 'elements' 'key --table published' '\uAC00\n\uAC01\n\u1100\u1161\u11A8\n\uD7A3\n\u3131\n' \
'4175 41F3 0000 0020 0020 0000 0002 0002
4175 41F3 4251 0000 0020 0020 0020 0000 0002 0002 0002
4175 41F3 4251 0000 0020 0020 0020 0000 0002 0002 0002
4187 4207 426B 0000 0020 0020 0020 0000 0002 0002 0002
4175 0000 0020 0000 0004' 'perl Unicode::Collate 1.31 getSortKey'
row 'elements' 'compare --table published' '\u1100\n\uAC00\n\u1100\u1161\n\uAC01\n\uAC02\n\uAC1C\n\uB098\n\uD7A3\n' \
    'less equal less less less less less' 'perl Unicode::Collate 1.31 cmp'

# Collation elements: lines of allkeys.txt 13.0.0 as they are
row 'Element' 'elements --table published' 'a\n' '[.1FA2.0020.0002]' 'allkeys.txt 13.0.0, 0061'
row 'Element' 'elements --table published' '?\n' '[*026D.0020.0002]' 'allkeys.txt 13.0.0, 003F'
row 'Element' 'elements --table published' '\u0300\n' '[.0000.0025.0002]' 'allkeys.txt 13.0.0, 0300'
row 'Element' 'elements --table published' '\x01\n' '[.0000.0000.0000]' 'allkeys.txt 13.0.0, 0001'
row 'Element' 'elements --table published' '\u0152\n' '[.213C.0020.000A][.0000.0118.0004][.2007.0020.000A]' 'allkeys.txt 13.0.0, 0152'
row 'Element' 'elements --table published' '\uFDFA\n' \
    '[.26D1.0020.001A][.270C.0020.001A][.2736.0020.001A][*0209.0020.001A][.2672.0020.001A][.270C.0020.001A][.270C.0020.001A][.2722.0020.001A][*0209.0020.001A][.26DB.0020.001A][.270C.0020.001A][.2737.0020.001A][.2722.0020.001A][*0209.0020.001A][.2728.0020.001A][.26C6.0020.001A][.270C.0020.001A][.2714.0020.001A]' 'allkeys.txt 13.0.0, FDFA'
row 'Element' 'elements --table published' '\uFA0E\n' '[.FB41.0020.0002][.FA0E.0000.0000]' 'allkeys.txt 13.0.0, FA0E'
row 'Element' 'elements --table published' '\U0001F12D\n' '[.1FD6.0020.000C][.1FEB.0020.000C]' 'allkeys.txt 13.0.0, 1F12D'
row 'elements' 'elements --table published' '\u0E40\u0E01\n' '[.3217.0020.0002][.3251.0020.0002]' 'allkeys.txt 13.0.0, 0E40 0E01'
row 'elements' 'elements --table published' '\u0FB2\u0F71\u0F80\n' '[.3331.0020.0002]' 'allkeys.txt 13.0.0, 0FB2 0F71 0F80'
row 'elements' 'elements --table published' '\u0CC6\u0CC2\u0CD5\n' '[.2C01.0020.0002]' 'allkeys.txt 13.0.0, 0CC6 0CC2 0CD5'

# The text of a table: UTS #10, Allkeys File Format, its sample lines, and lines of older tables in perl's tests
table squares <<'end'
@version 1.0.0 # sample
0020  ; [*0209.0020.0002] # SPACE
02DA  ; [*0209.002B.0002] # RING ABOVE
0041  ; [.06D9.0020.0008] # LATIN CAPITAL LETTER A
3373  ; [.06D9.0020.0017] [.08C0.0020.0017] # SQUARE AU
00C5  ; [.06D9.002B.0008] # LATIN CAPITAL LETTER A WITH RING ABOVE
212B  ; [.06D9.002B.0008] # ANGSTROM SIGN
0042  ; [.06EE.0020.0008] # LATIN CAPITAL LETTER B
0043  ; [.0706.0020.0008] # LATIN CAPITAL LETTER C
0106  ; [.0706.0022.0008] # LATIN CAPITAL LETTER C WITH ACUTE
0044  ; [.0712.0020.0008] # LATIN CAPITAL LETTER D
end
row 'statement' 'elements --table squares' '\u3373 \u02DAD\n' \
    '[.06D9.0020.0017][.08C0.0020.0017][*0209.0020.0002][*0209.002B.0002][.0712.0020.0008]' 'UTS #10, Allkeys File Format, sample'
row 'table_of_text' 'key --table ring' 'A\nz\u0327\n\u031AZ\nA\u030A\n' \
'0A15 0000 0020 0000 0008
0C13 0000 0020 0055 0000 0002 0002
0C13 0000 006B 0020 0000 0002 0008
0C25 0000 0020 0000 0008' 'perl Unicode::Collate 1.31 getSortKey, entries of t/contract.t with four weights'
table loose <<'end'
0061;[.0101.0020.0002.0061]
 0041 \t;\t[.0101.0020.0008] [*0000.0000.0000]# A

#0061 ; [.0001.0001.0001]
0063  0068 ; [.010f.0020.0002]\r
end
row 'table_of_text' 'key --table loose' 'aA\nch\nAch\n' \
'0101 0101 0000 0020 0020 0000 0002 0008
010F 0000 0020 0000 0002
0101 010F 0000 0020 0020 0000 0008 0002' 'perl Unicode::Collate 1.31 getSortKey, entry of the same lines'
table small <<'end'
@version 13.0.0
1d165 ;[.0000.0000.0000] # 0
1F12D\t;[.1fd6.0020.000c] [.1feb.0020.000c]
0fb2  0F71 0F80 ;  [.3331.0020.0002] # TIBETAN
@implicitweights 18B00..18CFF; FB02 # Khitan Small Script
@implicitweights 17000..18AFF; FB00 # Tangut and Tangut Components
end
row 'canonical' 'table --table small' '' \
'@implicitweights 17000..18AFF; FB00
@implicitweights 18B00..18CFF; FB02
0FB2 0F71 0F80 ; [.3331.0020.0002]
1D165 ; [.0000.0000.0000]
1F12D ; [.1FD6.0020.000C][.1FEB.0020.000C]' 'allkeys.txt 13.0.0, these lines without comments'

# Lines: perl's chomp, and one CR
row 'lines_of' 'key --table published --strength primary' 'a\nb\r\nc\r\r\nd\re\n' \
    '1FA2|1FBC|1FD6 0205|1FEB 0205 2007' 'perl chomp, s/\r\z//; perl Unicode::Collate 1.31 getSortKey'
row 'lines_of' 'key --table published --strength primary' '\n\r\na\n\nb\r' '||1FA2||1FBC' 'perl chomp, s/\r\z//; perl Unicode::Collate 1.31 getSortKey'
row 'lines_of' 'key --table published --strength primary' 'a\u2028b\u0085c\x0bd\x0ce' \
    '1FA2 0207 1FBC 0206 1FD6 0203 1FEB 0204 2007' 'perl chomp, s/\r\z//; perl Unicode::Collate 1.31 getSortKey'
row 'lines_of' 'key --table published' '' '' 'perl: no line is read'

# Lines that are not UTF-8: where Python's decoder stops
row 'IsFirstFault' 'key --table published' 'a\n\x61\x80\n' 'uca: input line 2 byte 1: NotUtf8' 'Python 3.11 UnicodeDecodeError.start'
row 'IsFirstFault' 'key --table published' 'a\n\x61\x62\xc0\x80\n' 'uca: input line 2 byte 2: NotUtf8' 'Python 3.11 UnicodeDecodeError.start'
row 'IsFirstFault' 'key --table published' 'a\n\xed\xa0\x80\n' 'uca: input line 2 byte 0: NotUtf8' 'Python 3.11 UnicodeDecodeError.start'
row 'IsFirstFault' 'key --table published' 'a\n\x61\x62\x63\xf4\x90\x80\x80\n' 'uca: input line 2 byte 3: NotUtf8' 'Python 3.11 UnicodeDecodeError.start'
row 'IsFirstFault' 'key --table published' 'a\n\x61\xe2\x82\n' 'uca: input line 2 byte 1: NotUtf8' 'Python 3.11 UnicodeDecodeError.start'
row 'IsFirstFault' 'key --table published' 'a\n\x61\xf1\x80\x80\xe1\x80\xc2\x62\n' 'uca: input line 2 byte 1: NotUtf8' 'Python 3.11 UnicodeDecodeError.start'
row 'IsFirstFault' 'key --table published' 'a\n\xc3\xa9\xff\n' 'uca: input line 2 byte 2: NotUtf8' 'Python 3.11 UnicodeDecodeError.start'
row 'IsFirstFault' 'key --table published' 'a\n\xf0\x8f\xbf\xbf\n' 'uca: input line 2 byte 0: NotUtf8' 'Python 3.11 UnicodeDecodeError.start'

# The order of lines; perl's sort is stable too
row 'IsInOrder' 'order --table published --strength primary --variable blanked' 'b\nA\na\nB\naa\nAA\nAa\naA\n-a\na-\n' \
    'A|a|-a|a-|aa|AA|Aa|aA|b|B' 'perl Unicode::Collate 1.31 sort'
row 'IsInOrder' 'order --table published --strength quaternary --variable shifted' 'b\nA\na\nB\naa\nAA\nAa\naA\n-a\na-\n' \
    '-a|a|a-|A|aa|aA|Aa|AA|b|B' 'perl Unicode::Collate 1.31 sort'
row 'IsInOrder' 'order --table published' 'zoo\nZoo\nz\u00F6o\noz\nzo\nzoo\nZOO\n\n' '|oz|zo|zoo|zoo|Zoo|ZOO|zöo' 'perl Unicode::Collate 1.31 sort'

# Test files: lines of CollationTest_NON_IGNORABLE_SHORT.txt and of CollationTest_SHIFTED_SHORT.txt, 13.0.0
row 'report_of' 'check --table published' '# CollationTest_NON_IGNORABLE_SHORT.txt\n\n0338 0334\n0336 0334\n0337 0334\n000A 0021\n000A 003F\n0E41 0E21 0041\n0E41 0E21 0062\n' \
'lines 7
skipped 0
first failure none' 'CollationTest 13.0.0: each line is not below the one before it'
row 'first_failure' 'check --table published' '# CollationTest_NON_IGNORABLE_SHORT.txt\n\n0338 0334\n0E41 0E21 0062\n0336 0334\n0337 0334\n000A 0021\n000A 003F\n0E41 0E21 0041\n0E41 0E21 0062\n' \
'lines 8
skipped 0
first failure 5' 'CollationTest 13.0.0, one line put in front of lower ones'
row 'report_of' 'check --table published --variable shifted --strength quaternary' '000A 0021\n000A 0061\n000A 0041\n000A 0062\n' \
    'lines 4|skipped 0|first failure none' 'CollationTest 13.0.0, SHIFTED'
# the long form of the files: `;` and a comment; a surrogate has no UTF-8 and is skipped
row 'tests_of_line' 'check --table published' '0061 0021;\t# (a) LATIN SMALL LETTER A\t[1FA2 0267 | 0020 0020 | 0002 0002 |]\nD800 0021\n0061 0021 ; x\n' \
    'lines 3|skipped 1|first failure none' 'CollationTest, format of the long files'

# Well-formedness: UTS #10, 5
table wf0 <<'end'
0061 ; [.1C47.0020.0002]
0300 ; [.0000.0021.0002]
0334 ; [.0000.0000.0003]
0020 ; [*0209.0020.0002]
0000 ; [.0000.0000.0000]
end
row 'broken' 'lint --table wf0' '' '' 'UTS #10, 5, WF1 to WF5 hold'
table wf1 <<'end'
0061 ; [.1C47.0000.0002]
end
row 'broken' 'lint --table wf1' '' 'WF1' 'UTS #10, 5, WF1: a zero weight at level 2 below a weight at level 1'
table wf1-third <<'end'
0061 ; [.1C47.0020.0000]
end
row 'broken' 'lint --table wf1-third' '' 'WF1' 'UTS #10, 5, WF1: a zero weight at level 3 below a weight at level 2'
table wf1-large <<'end'
0061 ; [.FFF1.0020.0002][.8001.0000.0000]
end
row 'broken' 'lint --table wf1-large' '' '' 'UTS #10, 5, WF1: but for large weight values (10.1)'
table wf2 <<'end'
0061 ; [.1C47.0021.0002]
0300 ; [.0000.0021.0002]
end
row 'broken' 'lint --table wf2' '' 'WF2' 'UTS #10, 5, WF2: D > B'
table wf2-third <<'end'
0061 ; [.1C47.0020.0003]
0300 ; [.0000.0000.0003]
end
row 'broken' 'lint --table wf2-third' '' 'WF2' 'UTS #10, 5, WF2: F > C'
table wf2-fourth <<'end'
0301 ; [.0000.0021.0003]
0300 ; [.0000.0000.0003]
end
row 'broken' 'lint --table wf2-fourth' '' 'WF2' 'UTS #10, 5, WF2: F > E'
table wf3 <<'end'
0061 ; [*0000.0020.0002]
end
row 'broken' 'lint --table wf3' '' 'WF3' 'UTS #10, 5, WF3: no variable element has an ignorable primary weight'
table wf4 <<'end'
0020 ; [*0209.0020.0002]
002D ; [*020D.0020.0002]
0061 ; [.020A.0020.0002]
end
row 'broken' 'lint --table wf4' '' 'WF4' 'UTS #10, 5, WF4: a primary weight between two variable ones'
table wf5 <<'end'
0061 0065 0308 ; [.1C47.0020.0002]
end
row 'broken' 'lint --table wf5' '' 'WF5' 'UTS #10, 5, WF5: ae with diaeresis, but no ae'
table wf5-front <<'end'
0061 0065 0308 ; [.1C47.0020.0002]
0061 0065 ; [.1C48.0020.0002]
end
row 'broken' 'lint --table wf5-front' '' '' 'UTS #10, 5, WF5: ae with diaeresis, and ae'
table wf5-starter <<'end'
0061 0308 0065 ; [.1C47.0020.0002]
end
row 'broken' 'lint --table wf5-starter' '' '' 'UTS #10, 5, WF5: the last is a starter'
row 'broken' 'lint --table published' '' 'WF5' 'perl Unicode::Collate 1.31, pod: 0FB2 0F71 0F80 and 0FB3 0F71 0F80 without 0FB2 0F71 and 0FB3 0F71'

# Rules: orders that UTS #10 and ICU give for them
rules swedish '&z<\u00E5<<<\u00C5<\u00E4<<<\u00C4<\u00F6<<<\u00D6'
row 'rules_of' 'compare --table published --rules swedish' 'z\n\u00F6\n' 'less' 'UTS #10, 1, Swedish: z < o with diaeresis'
row 'rules_of' 'compare --table published' '\u00F6\nz\nof\n\u00F6f\n' 'less greater less' 'UTS #10, 1, German: o with diaeresis < z; German dictionary: of first'
rules phonebook '&oe<<\u00F6'
row 'placed' 'compare --table published --rules phonebook' '\u00F6f\nof\n' 'less' 'UTS #10, 1, German phonebook: of with diaeresis first'
rules slovak '&h<ch<<<Ch<<<CH'
row 'placed' 'compare --table published --rules slovak' 'h\nz\nch\ncz\n' 'less greater greater' 'UTS #10, 1.1, Context Sensitivity, contractions: H < Z, but CH > CZ'
rules simple '&a=e<r<x<<<X<<y<<<Y<<z<<<Z'
row 'tailored' 'compare --table published --rules simple' 'a\ne\nr\nx\nX\ny\nY\nz\nZ\nb\n' \
    'equal less less less less less less less less' 'ICU 72 RuleBasedCollator, collationtest.txt, very simple rules'
rules levels '&m<<r<<<s<q &m<<<t &m=u'
row 'placed' 'compare --table published --rules levels' 'm\nu\nt\nM\nr\ns\nq\nn\n' 'equal less less less less less less' 'ICU 72 RuleBasedCollator'
row 'placed' 'compare --table published --rules levels --strength secondary' 'ma\nua\nta\nra\nsa\nmb\nub\nrb\nqa\n' \
    'equal equal less equal less equal less less' 'ICU 72 RuleBasedCollator'
rules expansions '&\u00E6<x &\u00E6b=b\u00E6 &\uAC01<h &\u2480<<y &l\u00B7=z<<u'
row 'anchor_of' 'compare --table published --rules expansions' 'ae\n\u00E6\nx\naf\naeb\n\u00E6b\nb\u00E6\n' \
    'less less less greater less equal' 'ICU 72 RuleBasedCollator, collationtest.txt, reset on expansion'
row 'anchor_of' 'compare --table published --rules expansions' '\uAC01\nh\n\uAC02\n\uAC03\nl\nl\u00B7\nz\nu\n(13)\n\u2480\ny\n(13[\n' \
    'less less less greater less equal less greater less less less' 'ICU 72 RuleBasedCollator, collationtest.txt, reset on expansion'
row 'anchor_of' 'compare --table published --rules expansions --variable shifted' '(13)\n13\n\u2480\ny\n14\n' \
    'equal less equal less' 'ICU 72 RuleBasedCollator, collationtest.txt, reset on expansion, shifted'
rules within '&\u0430<<\u0445/\u0439'
row 'related' 'compare --table published --rules within' '\u0430\u0439\n\u0445\n' 'less' 'ICU 72 RuleBasedCollator, collationtest.txt, contraction inside extension'
rules same '&t<x &\u1D40<y &q<u'
row 'placed' 'compare --table published --rules same' 'q\nu\nt\n\u1D40\ny\nx\n' \
    'less less less less less' 'ICU 72 RuleBasedCollator, collationtest.txt, no duplicate tailored CEs'
rules later '&a < u < v < w  &ov < x  &b < v'
row 'tailored' 'compare --table published --rules later' 'oa\nou\nx\now\nob\nov\n' \
    'less less less less less' 'ICU 72 RuleBasedCollator, collationtest.txt, later rule does not affect earlier reset'
rules later-1 '&a=x/b &v=b'
row 'related' 'compare --table published --rules later-1 --strength secondary' 'B\nc\nv\nb\nAB\nx\nac\nav\nab\n' \
    'less less equal greater equal less less equal' 'ICU 72 RuleBasedCollator, collationtest.txt, later rule does not affect earlier extension (1)'
rules later-2 '&a <<< c / e &g <<< e / l'
row 'related' 'compare --table published --rules later-2 --strength secondary' 'AE\nc\n\u00E6\nagl\nae\n' \
    'equal less less equal' 'ICU 72 RuleBasedCollator, collationtest.txt, later rule does not affect earlier extension (2)'
rules later-3 '&a = b / c  &d = c / e'
row 'related' 'compare --table published --rules later-3 --strength secondary' 'AC\nb\nade\nac\n' \
    'equal less equal' 'ICU 72 RuleBasedCollator, collationtest.txt, later rule does not affect earlier extension (3)'
rules inner '&a=e &b=u/e'
row 'related' 'compare --table published --rules inner' 'a\ne\nba\nbe\nu\n' \
    'equal less equal equal' 'ICU 72 RuleBasedCollator, collationtest.txt, extension contains tailored character'
rules redundant-1 '& a <<< b << c < d& a < m'
row 'tailored' 'compare --table published --rules redundant-1' 'a\nb\nc\nm\nd\n' \
    'less less less less' 'ICU 72 RuleBasedCollator, collationtest.txt, TestRedundantRules'
rules redundant-2 '&z<m<<<q<<<m'
row 'tailored' 'compare --table published --rules redundant-2' 'z\nq\nm\n' 'less less' 'ICU 72 RuleBasedCollator, collationtest.txt, TestRedundantRules'
rules redundant-3 '&z<<<m<q<<<m'
row 'tailored' 'compare --table published --rules redundant-3' 'z\nq\nm\n' 'less less' 'ICU 72 RuleBasedCollator, collationtest.txt, TestRedundantRules'
rules redundant-4 '& a < b < c < d& r < c'
row 'tailored' 'compare --table published --rules redundant-4' 'a\nb\nd\nr\nc\n' \
    'less less less less' 'ICU 72 RuleBasedCollator, collationtest.txt, TestRedundantRules'
rules redundant-5 '& a < b < c < d& c < m'
row 'tailored' 'compare --table published --rules redundant-5' 'a\nb\nc\nm\nd\n' \
    'less less less less' 'ICU 72 RuleBasedCollator, collationtest.txt, TestRedundantRules'
rules redundant-6 '& a < b < c < d& a < m'
row 'tailored' 'compare --table published --rules redundant-6' 'a\nm\nb\nc\nd\n' \
    'less less less less' 'ICU 72 RuleBasedCollator, collationtest.txt, TestRedundantRules'
rules redundant-7 '&a<b<<b\u0301 &z<b'
row 'tailored' 'compare --table published --rules redundant-7' 'a\nb\u0301\nz\nb\n' \
    'less less less' 'ICU 72 RuleBasedCollator, collationtest.txt, TestRedundantRules'
rules syntax-1 '&AE <<< a << b <<< c &d <<< f'
row 'related' 'compare --table published --rules syntax-1' 'AE\na\nb\nc\nd\nf\n' \
    'less less less less less' 'ICU 72 RuleBasedCollator, collationtest.txt, TestExpansionSyntax'
rules syntax-2 '&A <<< a / E << b / E <<< c /E  &d <<< f'
row 'related' 'compare --table published --rules syntax-2' 'AE\na\nb\nc\nd\nf\n' \
    'less less less less less' 'ICU 72 RuleBasedCollator, collationtest.txt, TestExpansionSyntax'
rules syntax-3 '&AE <<< a <<< b << c << d < e < f <<< g'
row 'related' 'compare --table published --rules syntax-3' 'AE\na\nb\nc\nd\ne\nf\ng\n' \
    'less less less less less less less' 'ICU 72 RuleBasedCollator, collationtest.txt, TestExpansionSyntax'
rules syntax-4 '&A <<< a / E <<< b / E << c / E << d / E < e < f <<< g'
row 'related' 'compare --table published --rules syntax-4' 'AE\na\nb\nc\nd\ne\nf\ng\n' \
    'less less less less less less less' 'ICU 72 RuleBasedCollator, collationtest.txt, TestExpansionSyntax'
rules syntax-5 '&AE <<< B <<< C / D <<< F'
row 'related' 'compare --table published --rules syntax-5' 'AE\nB\nF\nAED\nC\n' \
    'less less less less' 'ICU 72 RuleBasedCollator, collationtest.txt, TestExpansionSyntax'
rules syntax-6 '&A <<< B / E <<< C / ED <<< F / E'
row 'related' 'compare --table published --rules syntax-6' 'AE\nB\nF\nAED\nC\n' \
    'less less less less' 'ICU 72 RuleBasedCollator, collationtest.txt, TestExpansionSyntax'
rules cjk '&x=\u5140\u55C0'
row 'tailored' 'compare --table published --rules cjk' 'x\n\u5140\u55C0\n\u5140\uFA0D\n\uFA0C\u55C0\n\uFA0C\uFA0D\nX\n' \
    'equal equal equal equal less' 'ICU 72 RuleBasedCollator, collationtest.txt, canonical closure'
rules jamo '&gg=\u1101 &nj=\u11AC'
row 'tailored' 'compare --table published --rules jamo' 'gg\u1161nj\n\u1101\u1161\u11AC\n\uAE4C\u11AC\n\uAE51\ngg\u1161nJ\n\u1100\u1100\n' \
    'equal equal equal less less' 'ICU 72 RuleBasedCollator, collationtest.txt, conjoining Jamo map to expansions'
rules letters '&L=\u1100 &V=\u1161 &T=\u11A8 &\uAC01<<\u4E00<<\u4E01'
row 'tailored' 'compare --table published --rules letters' 'Lv\nLV\n\u1100\u1161\n\uAC00\nLVt\nLVT\n\u1100\u1161\u11A8\n\uAC00\u11A8\n\uAC01\n\u4E00\n\u4E01\n\uAC02\n' \
    'less equal equal less less equal equal equal less less less' 'ICU 72 RuleBasedCollator, collationtest.txt, Hangul & Jamo'
rules tail-1 '&a<\u00E2'
row 'matches' 'compare --table published --rules tail-1' 'a\n\u00E2\na\u0302\na\u0323\u0302\n\u1EA1\u0302\n\u1EAD\nb\n' \
    'less equal less equal equal less' 'ICU 72 RuleBasedCollator, collationtest.txt, canonical tail closure'
rules tail-2 '&a<\u1EA1'
row 'matches' 'compare --table published --rules tail-2' 'a\n\u1EA1\na\u0323\na\u0323\u0302\n\u1EA1\u0302\n\u1EAD\nb\n' \
    'less equal less equal equal less' 'ICU 72 RuleBasedCollator, collationtest.txt, canonical tail closure'
rules tail-3 '&a<c\u1EA1'
row 'matches' 'compare --table published --rules tail-3' 'a\nc\u1EA1\nca\u0323\nca\u0323\u0302\nc\u1EA1\u0302\nc\u1EAD\nb\n' \
    'less equal less equal equal less' 'ICU 72 RuleBasedCollator, collationtest.txt, canonical tail closure'
rules tail-4 '&\u03B4=\u03B1\u1FF3 &\u03B5=\u03B1\u03C9'
row 'matches' 'compare --table published --rules tail-4' '\u03B4\n\u03B1\u1FF3\n\u03B1\u03C9\u0345\n\u03B1\u03C9\u0313\u0300\u0345\n\u03B1\u1F60\u0300\u0345\n\u03B1\u1F62\u0345\n\u03B1\u1FA2\n\u03B1\u03C9\u0300\u0313\u0345\n\u03B1\u1F7C\u0313\u0345\n\u03B1\u1FF2\u0313\n\u03B5\n\u03B1\u03C9\n' \
    'equal equal less equal equal equal less equal equal less equal' 'ICU 72 RuleBasedCollator, collationtest.txt, canonical tail closure'
rules tail-5 '&\u03B4=\u03B1\u1FF3'
row 'matches' 'compare --table published --rules tail-5' '\u03B1\u03C9\u0313\u0300\u0345\n\u03B1\u1F60\u0300\u0345\n\u03B1\u1FA2\n\u03B1\u03C9\u0300\u0313\u0345\n\u03B1\u1FF2\u0313\n\u03B4\n\u03B1\u1FF3\n\u03B1\u03C9\u0345\n' \
    'equal equal less equal less equal equal' 'ICU 72 RuleBasedCollator, collationtest.txt, canonical tail closure'
rules tail-6 '&\u03B4=\u03B1\u1F7C\u0315'
row 'matches' 'compare --table published --rules tail-6' '\u03B1\u03C9\u0313\u0300\u0315\n\u03B1\u1F60\u0300\u0315\n\u03B1\u1F62\u0315\n\u03B4\n\u03B1\u1F7C\u0315\n\u03B1\u03C9\u0300\u0315\n\u03B1\u03C9\u0300\u0315\u0345\n\u03B1\u1F7C\u0315\u0345\n\u03B1\u1FF2\u0315\n' \
    'equal equal less equal equal less equal equal' 'ICU 72 RuleBasedCollator, collationtest.txt, canonical tail closure'
rules danish '&z<aa'
row 'longest_match' 'compare --table published --rules danish' 'z\naa\naa\u0308\na\u00E4\n' \
    'less less equal' 'ICU 72 RuleBasedCollator, collationtest.txt, danish a+a vs. a-umlaut'
row 'IsUntouched' 'compare --table published --rules danish' 'a\nba\na-a\nza\n\u00E5\n\u00C5\nzz\n' 'less greater less greater less less' 'ICU 72 RuleBasedCollator'
rules long '&e<abcdefghijklmnopqrstuvwxyz01234'
row 'longest' 'compare --table published --rules long' 'abcdefghijklmnopqrstuvwxyz01235\ne\nabcdefghijklmnopqrstuvwxyz01234\nabcdefghijklmnopqrstuvwxyz012345\nf\n' \
    'less less less less' 'ICU 72 RuleBasedCollator'

# Rules: their text
rules quoted '&a<'\''b c'\''<z'\'''\''y<'\''x'\'''\''w'\'''
row 'piece_of' 'compare --table published --rules quoted' 'a\nb c\nz'\''y\nx'\''w\nb\n' 'less less less less' 'ICU 72 RuleBasedCollator'
rules apostrophes '&a<'\'''\'''\'''\''<'\'''\'''\''z'\'''
row 'piece_of' 'compare --table published --rules apostrophes' 'a\n'\'''\''\n'\''z\nb\n' 'less less less' 'ICU 72 RuleBasedCollator'
rules escaped '&a<\\-\\<<\\'\''<\\\\<\\z\\y'
row 'piece_of' 'compare --table published --rules escaped' 'a\n-<\n'\''\n\\\nzy\nb\n' 'less less less less less' 'ICU 72 RuleBasedCollator'
rules numbers '&a<\\u007A<\\U0001D165\\u0301<y\\u0323\\u0307'
row 'piece_of' 'compare --table published --rules numbers' 'a\nz\n\U0001D165\u0301\ny\u0307\u0323\nb\n' \
    'less less less less' 'ICU 72 RuleBasedCollator, of the rules with their escapes read by Python 3.11'
rules comments '#&a<b\n&a # < b\n<z# x\r<y#\u0085<x#\u2028<w#\u2029<v#\x0c<u#'\''\x0b<t\n<'\''#s'\''#'
row 'piece_of' 'compare --table published --rules comments' 'a\nz\ny\nx\nw\nv\nu\n#s\nb\n' 'less less less less less less less less' 'ICU 72 RuleBasedCollator'
row 'piece_of' 'compare --table published --rules comments' 'a\nz\nb\ns\nt\n' 'less less less less' 'ICU 72 RuleBasedCollator'
rules blanks '&\u200Ea\u0085<\u200Fz\u2028<\u2029y\t<\x0bx\x0c<\rw\n'
row 'piece_of' 'compare --table published --rules blanks' 'a\nz\ny\nx\nw\nb\n' 'less less less less less' 'ICU 72 RuleBasedCollator'
rules past '&a<\u00A1<\u2190<\u00A0<\u3000'
row 'piece_of' 'compare --table published --rules past' 'a\n\u00A1\n\u2190\n\u00A0\n\u3000\nb\n' 'less less less less less' 'ICU 72 RuleBasedCollator'
rules tight '&a<z<<y<<<x=w/e&b=v&a=u'
row 'segments' 'compare --table published --rules tight' 'a\nu\nz\ny\nx\nb\nv\nxe\nw\n' 'equal less less less less equal greater equal' 'ICU 72 RuleBasedCollator'
rules star '&a<z<y<x<<w<<v<<<u<<<t=s=r'
# Lists are left out (docs/FORMATS.md): the value is ICU's for the list, which the row has written out.
row 'segments' 'compare --table published --rules star' 'a\nz\ny\nx\nw\nv\nu\nt\ns\nr\nb\n' \
    'less less less less less less less equal equal less' 'ICU 72 RuleBasedCollator, of &a<*zyx<<*wv<<<*ut=*sr'
# `_` is not Pattern_Syntax (UAX #31), so it needs no quotes here; ICU requires them.
rules line '&a<z_y'
row 'piece_of' 'compare --table published --rules line' 'a\nz_y\nb\n' 'less less' 'ICU 72 RuleBasedCollator, of &a<'\''z_y'\'''
# Blanks within a string are skipped (docs/DECISIONS.md). ICU does not allow them there, so the value is for the string without them.
rules wide '&a<z y #x\n x'
row 'segments' 'compare --table published --rules wide' 'a\nzyx\nb\n' 'less less' 'ICU 72 RuleBasedCollator, of &a<zyx'
refused 'faults' '<a' 'ICU 72 RuleBasedCollator, U_INVALID_FORMAT_ERROR'
refused 'faults' 'a' 'ICU 72 RuleBasedCollator, U_INVALID_FORMAT_ERROR'
refused 'faults' '/a' 'ICU 72 RuleBasedCollator, U_INVALID_FORMAT_ERROR'
refused 'faults' '&a/b<c' 'ICU 72 RuleBasedCollator, U_INVALID_FORMAT_ERROR'
refused 'faults' '&a<b/c/d' 'ICU 72 RuleBasedCollator, U_INVALID_FORMAT_ERROR'
refused 'faults' '&a<' 'ICU 72 RuleBasedCollator, U_INVALID_FORMAT_ERROR'
refused 'faults' '&a<b/' 'ICU 72 RuleBasedCollator, U_INVALID_FORMAT_ERROR'
refused 'faults' '&a<b/ &c<d' 'ICU 72 RuleBasedCollator, U_INVALID_FORMAT_ERROR'
refused 'faults' '&' 'ICU 72 RuleBasedCollator, U_INVALID_FORMAT_ERROR'
refused 'faults' '&a<x&' 'ICU 72 RuleBasedCollator, U_INVALID_FORMAT_ERROR'
refused 'faults' '&a< <b' 'ICU 72 RuleBasedCollator, U_INVALID_FORMAT_ERROR'
refused 'faults' '&a<<<<<b' 'ICU 72 RuleBasedCollator, U_INVALID_FORMAT_ERROR'
refused 'faults' '&a<'\''b' 'ICU 72 RuleBasedCollator, U_INVALID_FORMAT_ERROR'
refused 'faults' '&a<b\\' 'ICU 72 RuleBasedCollator, U_INVALID_FORMAT_ERROR'
refused 'faults' '&a<-' 'ICU 72 RuleBasedCollator, U_INVALID_FORMAT_ERROR'
refused 'faults' '&a<!' 'ICU 72 RuleBasedCollator, U_INVALID_FORMAT_ERROR'
refused 'faults' '!a' 'ICU 72 RuleBasedCollator, U_INVALID_FORMAT_ERROR'
refused 'fault_at' '&\u0301<x' 'ICU 72 RuleBasedCollator, U_UNSUPPORTED_ERROR'
refused 'fault_at' '&\\u0001<x' 'ICU 72 RuleBasedCollator, U_UNSUPPORTED_ERROR'
refused 'fault_at' '&\u0378<x' 'ICU 72 RuleBasedCollator, U_UNSUPPORTED_ERROR'

sum_up
