#!/usr/bin/env bash
# Measures time and memory of `uca key`, `uca compare` and `uca order` beside ICU, glibc and perl's Unicode::Collate over the same
# lines in the same run: words from Debian's lists in several scripts, which it downloads without installing them. Prints tables. It
# is not a test, but it stops if a program does not give the answers that it is measured for. Times are processor times.
# Given the path of another build of the program, it measures that too, as `before`.
source "$(dirname "${BASH_SOURCE[0]}")/shared.bash"
before=${1:-}
[ -z "$before" ] || before=$(cd "$from" && readlink -f "$before")
source tests/debian.bash
source bench/lists.bash
bytes=20000000
few=400000 # the bytes that perl has, which is slow
steps=(1000000 4000000 16000000)
declare -A turn

# The programs to measure. ICU is first, since the others are compared with it.
gather_programs() {
    programs=(ICU uca glibc sort perl)
    if ! gcc -O2 -DWITH_ICU -o "$work/peer" bench/peer.c -licui18n -licuuc 2>/dev/null; then
        echo "$script: ICU is not available: it needs libicu-dev"
        gcc -O2 -o "$work/peer" bench/peer.c || exit 1
        programs=(uca glibc sort perl)
    fi
    mkdir "$work/locales"
    if localedef -i en_US -f UTF-8 "$work/locales/en_US.UTF-8" 2>/dev/null; then export LOCPATH=$work/locales; return; fi
    echo "$script: glibc and sort are not measured: localedef has not made en_US.UTF-8"
    unset "programs[-2]" "programs[-3]"
}

# Another build of the program comes right before the present one.
gather_before() {
    local program all=()
    [ -n "$before" ] || return
    [ -x "$before" ] || refuses "$before is not a program"
    for program in "${programs[@]}"; do
        [ "$program" = uca ] && all+=(before)
        all+=("$program")
    done
    programs=("${all[@]}")
}

# does PROGRAM JOB: whether the program does this job; leaves its words in $command
does() {
    case $1 in
    ICU) command=("$work/peer" icu "$2") ;;
    uca) command=("$uca" "$2" --table "$published") ;;
    before) command=("$before" "$2" --table "$published") ;;
    glibc) command=("$work/peer" en_US.UTF-8 "$2") ;;
    sort) command=(env LC_ALL=en_US.UTF-8 sort -s --parallel=1 -S 2G) && [ "$2" = order ] ;;
    perl) command=(perl bench/peer.pl "$2") ;;
    esac
}

# is_answered PROGRAM JOB INPUT: ends the script unless there are as many answers as there should be, of the right kind; leaves
# $greater, how many lines of an order are greater than the next by the program's own comparison
is_answered() {
    local name="$1 $2" judge=$1
    case $2 in
    key) [ "$(LC_ALL=C grep -cxE '([0-9A-F]{2} )+[0-9A-F]{2}' "$work/answers")" -eq "$lines" ] || refuses "$name: not $lines keys" ;;
    compare) [ "$(grep -cxE 'less|equal|greater' "$work/answers")" -eq "$((lines - 1))" ] || refuses "$name: not $((lines - 1)) answers" ;;
    order)
        [ "$(LC_ALL=C sort "$work/answers" | md5sum)" = "$(LC_ALL=C sort "$3" | md5sum)" ] || refuses "$name: not the lines of the input"
        [ "$judge" = sort ] && judge=glibc
        does "$judge" compare
        greater=$("${command[@]}" <"$work/answers" | grep -c greater)
        [ "$greater" -le $((lines / 1000)) ] || refuses "$name: $greater lines that are greater than the next"
        ;;
    esac
}

# takes PROGRAM JOB INPUT [RUNS]: the figures of the fastest of so many runs, or of five, for perl of one; checks its work; leaves $lines,
# $seconds and $memory
takes() {
    local runs=${4:-5}
    [ "$1" = perl ] && runs=1
    does "$1" "$2"
    lines=$(wc -l <"$3")
    read -r seconds memory <<<"$(measured "$runs" "$3" "${command[@]}")"
    [ -n "${memory:-}" ] || refuses "$1 $2 could not be run"
    is_answered "$@"
}

# take_in_turn JOB: eleven runs in turn of ICU and of ours, without and with the lines, since their ratio is what counts: leaves the
# seconds and the memory of both for each program in $turn
take_in_turn() {
    local program words=() figures
    turn=()
    for program in "${programs[@]}"; do
        [[ $program =~ ^(ICU|before|uca)$ ]] || continue
        does "$program" "$1"
        words+=(-- /dev/null /dev/null "${command[@]}" -- "$work/$1" /dev/null "${command[@]}")
    done
    figures=$("$work/measured" 11 "${words[@]:1}") || refuses "$1 could not be run"
    for program in "${programs[@]}"; do
        [[ $program =~ ^(ICU|before|uca)$ ]] || continue
        turn[$program]=$(head -n 2 <<<"$figures" | paste -sd' ')
        figures=$(tail -n +3 <<<"$figures")
    done
}

# said JOB: what the answers are
said() {
    case $1 in
    key) LC_ALL=C awk '{ bytes += (length + 1) / 3 } END { printf "%.0f bytes a key", bytes / NR }' "$work/answers" ;;
    compare) awk '{ n[$1]++ } END { printf "less %d, equal %d, greater %d", n["less"], n["equal"], n["greater"] }' "$work/answers" ;;
    order) printf 'all lines; by its own comparison %d greater than the next' "$greater" ;;
    esac
}

# tells_job JOB: a row of the first table for each program
tells_job() {
    local program input load load_memory seconds memory icu=(0 0 0)
    take_in_turn "$1"
    for program in "${programs[@]}"; do
        does "$program" "$1" || continue
        input=$work/$1
        [ "$program" = perl ] && input=$work/$1.$few
        if [ -n "${turn[$program]:-}" ]; then
            takes "$program" "$1" "$input" 1
            read -r load load_memory seconds memory <<<"${turn[$program]}"
        else
            read -r load load_memory <<<"$(measured 5 /dev/null "${command[@]}")"
            takes "$program" "$1" "$input"
        fi
        [ "$program" = ICU ] && icu=("$(awk -v s="$seconds" -v l="$load" -v n="$lines" 'BEGIN { print (s - l) / n }')" "$memory" "$lines")
        awk -v name="$1 | $program" -v load="$load" -v held="$load_memory" -v lines="$lines" -v s="$seconds" -v memory="$memory" \
            -v icu="${icu[0]}" -v icu_memory="${icu[1]}" -v icu_lines="${icu[2]}" -v said="$(said "$1")" 'BEGIN {
                each = (s - load) / lines
                printf "| %s | %.3f s, %.1f MiB | %d | %.2f s | %.2f µs | %.0f | %.0f MiB |", name, load, held / 1024, lines, s, 1e6 * each, 1 / each, memory / 1024
                if (icu) printf " %.2f |", each / icu; else printf " |"
                if (icu && lines == icu_lines) printf " %.2f |", memory / icu_memory; else printf " |"
                printf " %s |\n", said }'
    done
}

# tells_growth JOB: a row of the second table for each program
tells_growth() {
    local program step row last seconds memory
    for program in "${programs[@]}"; do
        does "$program" "$1" || continue
        row="| $1 | $program |"
        last=
        for step in "${steps[@]}"; do
            [ "$program" = perl ] && step=$((step / 16))
            takes "$program" "$1" "$work/$1.$step"
            row+=$(awk -v s="$seconds" -v m="$memory" -v last="$last" 'BEGIN {
                printf " %.3f s, %.1f MiB", s, m / 1024
                if (split(last, before, " ")) printf "; %.1f, %.1f times", s / before[1], m / before[2]
                print " |" }')
            last="$seconds $memory"
        done
        echo "$row"
    done
}

# parts BYTES FILE: this many bytes of a sorted corpus, in evenly spaced runs of lines, so that neighbours are as similar as in all of it
parts() {
    awk -v part=$(($1 * 320 / bytes)) 'int(NR / 100) % 320 < part' "$2"
}

# makes_inputs: the lines for each job, at each size; the neighbours that are compared are in order
makes_inputs() {
    local size
    perl bench/corpus.pl "$work/lists" "$bytes" <<<"$lists" >"$work/key" 2>"$work/shares" || refuses "no lines could be made"
    [ "$(iconv -f UTF-8 -t UTF-8 "$work/key" | wc -c)" -eq "$(wc -c <"$work/key")" ] || refuses "lines that are not UTF-8"
    ln -s "$work/key" "$work/order"
    "$uca" order --table "$published" <"$work/order" >"$work/compare" || refuses "uca order could not be run"
    for size in "$few" "${steps[@]}" $((steps[0] / 16)) $((steps[1] / 16)) $((steps[2] / 16)); do
        head -c "$size" "$work/key" | sed '$d' >"$work/key.$size"
        ln -sf "$work/key.$size" "$work/order.$size"
        parts "$size" "$work/compare" >"$work/compare.$size"
    done
    "$uca" key --table "$published" <"$work/key" | paste -d'|' - "$work/key" | LC_ALL=C sort -s -t'|' -k1,1 | cut -d'|' -f2- |
        cmp -s - "$work/compare" || refuses "uca order has not the order of the keys of uca key"
}

# tells_machine: the versions, and how busy the machine was otherwise
tells_machine() {
    [ "${programs[0]}" = ICU ] && echo "ICU $(echo U_ICU_VERSION | gcc -E -include unicode/uvernum.h - | tail -n 1 | tr -d '"')"
    echo "glibc $(getconf GNU_LIBC_VERSION | cut -d' ' -f2), Unicode::Collate $(perl -MUnicode::Collate -e 'print Unicode::Collate->VERSION')"
    echo "$(nproc) processors, load $(cut -d' ' -f1-3 /proc/loadavg)"
}

gather_programs
gather_before
fetched || exit 1
makes_inputs
echo "$(wc -l <"$work/key") lines of one to four words, $(wc -c <"$work/key") bytes; $(cat "$work/shares")"
tells_machine
echo
echo '| Job | Program | Load: time, memory | Lines | Time | Each line, without load | Lines a second | Memory | Time to ICU | Memory to ICU | Answers |'
echo '|---|---|---|---|---|---|---|---|---|---|---|'
for job in key compare order; do tells_job "$job"; done
echo
echo "| Job | Program (perl: a sixteenth of the bytes) |$(printf ' %d MB |' $((steps[0] / 1000000)) $((steps[1] / 1000000)) $((steps[2] / 1000000)))"
echo '|---|---|---|---|---|'
for job in key compare order; do tells_growth "$job"; done
