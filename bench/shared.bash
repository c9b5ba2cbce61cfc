# What the measurements share: a temporary folder, the built program, the table that Debian's perl ships, and the time and memory of
# a program. Each sources it. If one has set `uca`, that program is measured, and none is built.
set -u
from=$PWD
cd "$(dirname "${BASH_SOURCE[0]}")/.." || exit 2
script=bench/$(basename "$0")
work=$(mktemp -d) || exit 2
trap 'rm -rf "$work"' EXIT
[ -n "${uca:-}" ] || { ./uca --prove && uca=crates/uca/out/uca; } || exit 1
gcc -O2 -o "$work/measured" bench/measured.c || { echo "$script: no C compiler, so nothing can be measured"; exit 1; }
perl -MUnicode::Collate -e1 || { echo "$script: perl has no Unicode::Collate"; exit 1; }

published=
for folder in $(perl -e 'print join " ", @INC'); do
    [ -f "$folder/Unicode/Collate/allkeys.txt" ] && published=$folder/Unicode/Collate/allkeys.txt && break
done
[ -n "$published" ] || { echo "$script: no allkeys.txt in perl's folders"; exit 1; }

# measured RUNS INPUT COMMAND..: the processor seconds of the fastest of these runs and the most KiB that they held; leaves answers
measured() {
    local runs=$1 input=$2
    shift 2
    "$work/measured" "$runs" "$input" "$work/answers" "$@"
}
