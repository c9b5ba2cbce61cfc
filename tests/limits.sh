#!/usr/bin/env bash
# Each command with less and less memory: it gives its usual outcome, or reports that memory was refused, with nothing wrong written.
# And each with 192 KiB of stack, over texts, tables and rules that use as much as they can: no input makes the stack grow.
source "$(dirname "${BASH_SOURCE[0]}")/checks.bash"

is_built
program=$PWD/crates/uca/out/uca
published=$(published_table)
[ -n "$published" ] || { echo "$script: no allkeys.txt in perl's folders, so nothing was tried"; exit 0; }
perl tests/texts.pl 2000 >"$work/texts"
perl -CSD -ne 'chomp; print join(" ", map { sprintf "%04X", ord } split //), ";# x\n" if length' "$work/texts" >"$work/tests"
printf '&a<b<<c\n&z<ch<<<Ch\n' >"$work/rules"

# outcome KIB WORDS..: of a run over $input in KIB of memory: `same` as without a limit, `refused` with the beginning of the right output,
# `unstarted` if there is too little to load the program, or what else happened
outcome() {
    local kib=$1 status
    shift
    (ulimit -v "$kib" && exec "$program" "$@") <"$input" >"$work/out" 2>"$work/err"
    status=$?
    if [ "$status" = "$whole" ] && cmp -s "$work/out" "$work/whole" && cmp -s "$work/err" "$work/whole.err"; then
        echo same
    elif [ "$status" = 3 ] && grep -q OutOfMemory "$work/err" && cmp -s -n "$(stat -c %s "$work/out")" "$work/out" "$work/whole"; then
        echo refused
    elif [ "$status" -ge 126 ] && [ ! -s "$work/out" ]; then
        echo unstarted
    else
        echo "status $status in $kib KiB: $(head -c 200 "$work/err")"
    fi
}

# shrinks WORDS..: the outcomes over $input from 60,000 KiB down to 2,000, each once, in the order in which they came
shrinks() {
    local kib
    "$program" "$@" <"$input" >"$work/whole" 2>"$work/whole.err"
    whole=$?
    for ((kib = 60000; kib >= 2000; kib -= 1500)); do outcome "$kib" "$@"; done 2>/dev/null | uniq | paste -sd' '
}

input=$work/texts
for words in elements key compare order 'key --strength identical --variable shifted' 'compare --strength identical --variable shifted'; do
    for rules in '' "--rules $work/rules"; do
        # shellcheck disable=SC2086
        is "$words ${rules:+--rules}, in less and less memory" 'same refused unstarted' "$(shrinks $words --table "$published" $rules)"
    done
done
for command in lint table; do
    input=/dev/null
    is "$command, in less and less memory" 'same refused unstarted' "$(shrinks "$command" --table "$published")"
done
input=$work/tests
is "check, in less and less memory" 'same refused unstarted' "$(shrinks check --table "$published")"

# with_stack WORDS..: the status of a run over $input with 192 KiB of stack
with_stack() {
    (ulimit -s 192 && exec env -i "$program" "$@") <"$input" >/dev/null 2>&1
    echo $?
}

perl -CO -e 'print "a", "\x{301}" x 60, "$_\n" for 1 .. 2000' >"$work/marks"
perl -CO -e 'print "\x{FDFA}" x 300_000, "\n"' >"$work/long"
perl -CO -e 'print "\x{FB2}\x{F71}\x{F80}" x 20, "$_\n" for 1 .. 2000' >"$work/contractions"
perl -e '@key = ("0061") x 31; print "0061;[.1000.0020.0002]\n@key 0063;[.1002.0020.0002]\n"' >"$work/long-keys"
perl -CO -e 'print "&a", map { "<<" . chr(0x4E00 + $_) } 0 .. 19_999' >"$work/relations"
perl -e 'print join(" ", ("0061") x 700), ";# x\n" for 1 .. 2000' >"$work/tests"
for name in texts marks long contractions; do
    input=$work/$name
    for words in elements key compare order 'key --strength identical --variable shifted'; do
        for table in "$published" "$work/long-keys"; do
            # shellcheck disable=SC2086
            is "$words of $name with 192 KiB of stack, $(basename "$table")" 0 "$(with_stack $words --table "$table")"
        done
    done
done
is "table of 20,000 relations with 192 KiB of stack" 0 "$(with_stack table --table "$published" --rules "$work/relations")"
is "lint with 192 KiB of stack" 1 "$(with_stack lint --table "$published")"
input=$work/tests
is "check with 192 KiB of stack" 0 "$(with_stack check --table "$published")"
sum_up
