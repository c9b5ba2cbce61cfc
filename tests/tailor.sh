#!/usr/bin/env bash
# Rules from end to end: small ones over the built-in table, rules that are refused, and as many as allowed over the table that
# Debian's perl ships.
source "$(dirname "${BASH_SOURCE[0]}")/checks.bash"

is_built

# with_rules RULES COMMAND..: the program with these rules over the built-in table; printf %b expands their escapes
with_rules() {
    printf '%b' "$1" >"$work/rules"
    shift
    runs "$@" --rules "$work/rules"
}

with_rules '&a<b &a<c' table </dev/null
is "the tailored table" "@implicitweights 17000..18AFF; FB00
@implicitweights 18D00..18D8F; FB00
0001 ; [.0000.0000.0000]
0020 ; [*0201.0020.0002]
002D ; [*0202.0020.0002]
0041 ; [.1000.0020.0008]
0061 ; [.1000.0020.0002]
0061 0301 ; [.100A.0020.0002]
0062 ; [.1002.0020.0002]
0062 0301 ; [.100B.0020.0002]
0062 0301 0308 ; [.100C.0020.0002]
0063 ; [.1001.0020.0002]
0063 0068 ; [.1009.0020.0002]
0065 ; [.1006.0020.0002]
0068 ; [.1007.0020.0002]
007A ; [.1008.0020.0002]
0300 ; [.0000.0021.0002]
0301 ; [.0000.0022.0002]
0308 ; [.0000.0023.0002]
0323 ; [.0000.0024.0002]|0" "$(cat "$work/out")|$status"
# A chain comes out in the order in which it is written; if a premise of that law does not hold, it need not.
with_rules "&'-'<x" compare < <(printf -- '-\nx\n')
is "an item after a hyphen" "less|0" "$(cat "$work/out")|$status"
with_rules "&'-'<x" compare --variable blanked < <(printf -- '-\nx\n')
is "an item after a hyphen, variable elements ignored" "equal|0" "$(cat "$work/out")|$status"
with_rules '&cz<cz' compare < <(printf 'cz\ncz\n')
is "an item that is its own reset" "equal|0" "$(cat "$work/out")|$status"
with_rules '&a<x<y &z<x' compare < <(printf 'x\ny\n')
is "an item that a later relation moves" "greater|0" "$(cat "$work/out")|$status"
with_rules '&cz<x &z<cz' compare < <(printf 'cz\nx\n')
is "a reset that a later item takes" "greater|0" "$(cat "$work/out")|$status"
with_rules '# nothing but a comment\n' table </dev/null
is "rules without a chain" "$(./uca table </dev/null)|0" "$(cat "$work/out")|$status"
with_rules '&a<b/e<c' elements < <(printf 'b\nc\ne\n')
is "an expansion" "[.1001.0020.0002][.1006.0020.0002]|[.1002.0020.0002]|[.1006.0020.0002]|0" "$(paste -sd'|' "$work/out")|$status"
with_rules '&c<<\xc3\xa7' elements < <(printf '\xc3\xa7\nc\xcc\xa7\n\xc3\xa0\n\xe4\xb8\x80\n')
is "an item with a mark, composed or not" "[.1002.0021.0002]|[.1002.0021.0002]|[.1000.0020.0002][.0000.0022.0002]|[.FB40.0020.0002][.CE00.0000.0000]|0" "$(paste -sd'|' "$work/out")|$status"
with_rules '&a<<<x' key < <(printf 'a\nx\nA\n')
is "keys" "10 00 00 00 00 20 00 00 00 02|10 00 00 00 00 20 00 00 00 03|10 00 00 00 00 20 00 00 00 09|0" "$(paste -sd'|' "$work/out")|$status"
with_rules '&ae=x &z<a' compare < <(printf 'ae\nx\naz\nza\n')
is "each relation over the table before it" "greater|less|greater|0" "$(paste -sd'|' "$work/out")|$status"
with_rules "&'-'<\\\\u0061''/b# x" elements < <(printf "a'\na\n")
is "quotes, escapes and a comment" "[*0203.0020.0002][.1002.0020.0002]|[.1001.0020.0002]|0" "$(paste -sd'|' "$work/out")|$status"

# refused NAME TEXT RULES: nothing is written, and the fault's text
refused() {
    with_rules "$3" key < <(printf 'a\n')
    is "$1" "0|$2|3" "$(wc -c <"$work/out")|$(cat "$work/err")|$status"
}
refused "a character without a meaning" "uca: rules byte 3: Syntax" '&a<-'
refused "a relation before the first reset" "uca: rules byte 0: Syntax" '<a'
refused "a quote that isn't ended" "uca: rules byte 3: Syntax" "&a<'b"
refused "an escape of a surrogate" "uca: rules byte 3: Syntax" '&a<\\uD800'
refused "a reset before a letter" "uca: rules byte 1: LeftOut" '&[before 1]a<x'
refused "a list of items" "uca: rules byte 2: LeftOut" '&a<*bc'
refused "an item of no character" "uca: rules byte 3: EmptyString" '&a<'
refused "an item of 33 letters" "uca: rules byte 3: KeyTooLong" "&a<$(printf 'b%.0s' $(seq 33))"
refused "an item with a run of 61 marks" "uca: rules byte 3: LongRun" "&a<b$(printf '\\xcc\\x81%.0s' $(seq 61))"
refused "a reset on an ideograph" "uca: rules relation 1: HighReset" '&\xe4\xb8\x80<x'
refused "a reset on an ignorable code point" "uca: rules relation 2: SmallWeight" '&a<x &\\u0001<y'
refused "rules that are not UTF-8" "uca: rules byte 4: NotUtf8" '&a<b\xff'
refused "rules that are not UTF-8, after another fault" "uca: rules byte 3: NotUtf8" '&-<\xff'

printf '0061 ; [.1000.0020.0002]\n0062 ; [.7FFF.0020.0002]\n' >"$work/full"
printf '&a<c' >"$work/rules"
runs table --table "$work/full" --rules "$work/rules"
is "no gap for a weight" "|uca: rules relation 1: Full 1|3" "$(cat "$work/out")|$(cat "$work/err")|$status"
{ printf '0061 ; '; printf '[.1000.0020.0002]%.0s' $(seq 33); printf '\n'; } >"$work/long"
printf '&aa=b' >"$work/rules"
runs table --table "$work/long" --rules "$work/rules"
is "too many elements" "|uca: rules relation 1: TooManyElements|3" "$(cat "$work/out")|$(cat "$work/err")|$status"

# Files that can't be opened or read, and which fault comes first.
runs key --rules "$work/none" </dev/null
is "a rule file that is not there" "|uca: cannot open $work/none|3" "$(cat "$work/out")|$(cat "$work/err")|$status"
runs key --rules "$work" </dev/null
is "a folder" "|uca: rules byte 0: Read|3" "$(cat "$work/out")|$(cat "$work/err")|$status"
runs key --table "$work/missing" --rules "$work/none" </dev/null
is "the table is opened first" "|uca: cannot open $work/missing|3" "$(cat "$work/out")|$(cat "$work/err")|$status"
printf '&a<-' >"$work/rules"
printf '0061 ;\n' >"$work/faulty"
runs key --table "$work/faulty" --rules "$work/rules" </dev/null
is "the table is read before the rules" "|uca: table line 1: NoElement|3" "$(cat "$work/out")|$(cat "$work/err")|$status"
runs key --rules "$work/rules" < <(printf '\xff\n')
is "the rules are read before the input" "|uca: rules byte 3: Syntax|3" "$(cat "$work/out")|$(cat "$work/err")|$status"
runs key --rules </dev/null
is "the option without a file" "0|2" "$(wc -c <"$work/out")|$status"

# At the limits: 1,048,576 bytes and 20,000 relations are accepted; one more is refused.
{ printf '&a<b#'; head -c $((1048576 - 5)) /dev/zero | tr '\0' x; } >"$work/rules"
runs elements --rules "$work/rules" < <(printf 'b\n')
is "rules of 1,048,576 bytes" "[.1001.0020.0002]|0" "$(cat "$work/out")|$status"
printf '\xff' >>"$work/rules"
runs elements --rules "$work/rules" < <(printf 'b\n')
is "one byte more" "|uca: rules byte 1048576: TooLarge|3" "$(cat "$work/out")|$(cat "$work/err")|$status"
{ printf '&a'; printf '<<b%.0s' $(seq 20000); } >"$work/rules"
runs elements --rules "$work/rules" < <(printf 'b\n')
is "20,000 relations" "[.1000.4E40.0002]|0" "$(cat "$work/out")|$status"
printf '=c' >>"$work/rules"
runs elements --rules "$work/rules" < <(printf 'b\n')
is "one relation more" "|uca: rules byte 60002: TooManyRelations|3" "$(cat "$work/out")|$(cat "$work/err")|$status"

published=$(published_table)
[ -n "$published" ] || { echo "tests/tailor.sh: no allkeys.txt in perl's folders, so no large table was tried"; sum_up; exit; }

# As many relations as allowed, each of which moves weights of a large table.
{ printf '&a'; printf '<<b%.0s' $(seq 20000); } >"$work/rules"
from=$(date +%s)
runs table --table "$published" --rules "$work/rules" </dev/null
is "20,000 relations over the published table" "0" "$status"
echo "tests/tailor.sh: 20,000 relations over the published table took $(($(date +%s) - from)) s"

sum_up
