#!/usr/bin/env bash
# The command `uca table`, and the table that Debian's perl ships: read, counted independently, and written in its canonical form.
source "$(dirname "${BASH_SOURCE[0]}")/checks.bash"

is_built
runs table
is "the built-in table" "0061 ; [.1000.0020.0002]" "$(grep '^0061 ;' "$work/out")"

printf '0062;[.1001.0020.0002]# b\r\n\n0061 0301 ; [.100a.0020.0002.0061][*0000.0000.0000]\n@implicitweights 17000 .. 18AFF ; fb00' >"$work/small"
runs table --table "$work/small"
is "a small table" "@implicitweights 17000..18AFF; FB00|0061 0301 ; [.100A.0020.0002][*0000.0000.0000]|0062 ; [.1001.0020.0002]||0" "$(paste -sd'|' "$work/out")|$(cat "$work/err")|$status"
cp "$work/small" "$work/ a ñ "
runs table --table "$work/ a ñ "
is "a path with blanks and a letter outside ASCII" "3|0" "$(wc -l <"$work/out")|$status"
printf '0061 ; [.1000.0020.0002]\n0062 ; [.10' >"$work/cut"
runs table --table "$work/cut"
is "a table that is cut" "|uca: table line 2: BadElement|3" "$(cat "$work/out")|$(cat "$work/err")|$status"
runs table --table "$work"
is "a folder" "|uca: table line 1: Read|3" "$(cat "$work/out")|$(cat "$work/err")|$status"
runs table --table "$work/none"
is "a file that is not there" "|uca: cannot open $work/none|3" "$(cat "$work/out")|$(cat "$work/err")|$status"

# The table of the environment: used if no other is named, by every command; an empty value is the same as none.
UCA_TABLE=$work/small runs table
is "a table of the environment" "0062 ; [.1001.0020.0002]|0" "$(tail -n 1 "$work/out")|$status"
for command in elements key compare order check lint table; do
    UCA_TABLE=$work/cut runs "$command" </dev/null
    is "$command with a table of the environment that is cut" "|uca: table line 2: BadElement|3" "$(cat "$work/out")|$(cat "$work/err")|$status"
done
UCA_TABLE=$work/cut runs table --table "$work/small"
is "a table that is named, and one of the environment" "0062 ; [.1001.0020.0002]|0" "$(tail -n 1 "$work/out")|$status"
UCA_TABLE='' runs table
is "an empty value" "0061 ; [.1000.0020.0002]|0" "$(grep '^0061 ;' "$work/out")|$status"
UCA_TABLE=$work/none runs table
is "a table of the environment that is not there" "|uca: cannot open $work/none|3" "$(cat "$work/out")|$(cat "$work/err")|$status"
UCA_TABLE=$'\xff' runs table
is "a value that is not UTF-8" "|uca: UCA_TABLE is not UTF-8|2" "$(cat "$work/out")|$(cat "$work/err")|$status"
for words in --help 'key --help' sort 'key --strength third'; do
    # shellcheck disable=SC2086
    runs $words </dev/null
    cp "$work/err" "$work/wanted"
    # shellcheck disable=SC2086
    UCA_TABLE=$'\xff' runs $words </dev/null
    is "words that are not a job open no table: $words" "same|2" "$(cmp -s "$work/wanted" "$work/err" && echo same)|$status"
done

./uca table >/dev/full 2>"$work/err" </dev/null
status=$?
is "a full disk" "uca: output byte 0: Failed|3" "$(cat "$work/err")|$status"
runs table extra
is "one argument too many" "0|2" "$(wc -c <"$work/out")|$status"
yes '# 4567' | head -c 67108865 >"$work/large"
runs table --table "$work/large"
is "one byte more than 64 MiB" "|uca: table line 9586981: TooLarge|3" "$(cat "$work/out")|$(cat "$work/err")|$status"

published=$(published_table)
if [ -n "$published" ]; then
    echo "tests/table.sh: with $published"
    runs table --table "$published"
    is "the published table is read" "|0" "$(cat "$work/err")|$status"
    cp "$work/out" "$work/canonical"
    # By awk: the lines that begin with a digit, the directives of ranges, and the words before the `;`.
    is "as many entries" "$(awk '/^[0-9A-Fa-f]/' "$published" | wc -l)" "$(grep -c '^[0-9A-F]' "$work/canonical")"
    is "as many ranges" "$(awk '/^@implicitweights/' "$published" | wc -l)" "$(grep -c '^@implicitweights' "$work/canonical")"
    longest() { awk -F';' '/^[0-9A-Fa-f]/ { n = split($1, words, " "); if (n > most) most = n } END { print most }' "$1"; }
    is "as long a key" "$(longest "$published")" "$(longest "$work/canonical")"
    # By perl: each entry in its form, sorted by code points of six digits; because of the tab, a shorter key comes first.
    perl -ne 's/#.*//; next unless /^([0-9A-F ]+?)\s*;\s*(\S+)/; print join(" ", map { sprintf "%06X", hex } split " ", $1), "\t; $2\n"' "$published" |
        LC_ALL=C sort | perl -pe 's/\t/ /; s/\b00([0-9A-F]{4})\b/$1/g; s/\b0([0-9A-F]{5})\b/$1/g' >"$work/perl"
    is "the same entries in their order" "" "$(grep -v '^@' "$work/canonical" | diff - "$work/perl" | head -n 5)"
    runs table --table "$work/canonical"
    is "the canonical text prints itself" "same|0" "$(cmp -s "$work/canonical" "$work/out" && echo same)|$status"
else
    echo "tests/table.sh: no allkeys.txt in perl's folders, so no published table was read"
fi

sum_up
