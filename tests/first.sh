#!/usr/bin/env bash
# The first run in a new clone of the repository: an answer without a proof, on a terminal and elsewhere, and the build.
source "$(dirname "${BASH_SOURCE[0]}")/checks.bash"

is_built
unset UCA_PROVED # in the copies below nothing is built

# elsewhere FOLDER COMMAND: runs it without a terminal; leaves out, err and status
elsewhere() {
    (cd "$1" && timeout 300 bash -c "$2" >"$work/out" 2>"$work/err" </dev/null)
    status=$?
}

# at_terminal FOLDER COMMAND: runs it with a terminal as its standard error; leaves out, err and status
at_terminal() {
    (cd "$1" && SHELL=/bin/bash script -qec "$2 >$work/out" /dev/null </dev/null >"$work/shown")
    status=$?
    # Progress is shown on one line, which is rewritten each second.
    tr -d '\r' <"$work/shown" | sed 's/.*\x1b\[K//' | grep -v '^$' >"$work/err"
}

proof="some 23 minutes on four processors"
before="uca: this answer comes without a proof, in some 90 seconds; ./uca --prove proves and builds the program: $proof"
after="uca: this answer is not proved; ./uca --prove proves and builds the program: $proof"
building="uca: proving and building the program: $proof"
no_answer="uca: no answer without a proof:"

# With the kit itself: one answer on a terminal, and at the same time one elsewhere, with files of other folders.
mkdir "$work/copy"
tar -c --exclude='crates/*/out' uca crates.txt HANDLES crates | tar -x -C "$work/copy"
table=$(published_table)
words="order ${table:+--table $table} --rules $PWD/rules/sv.rules"
(cd "$work/copy" && printf 'ö\nz\nå\nä\n' | ./uca $words >"$work/swedish" 2>"$work/said") &
at_terminal "$work/copy" "printf 'a\nab\n' | ./uca key"
wait
is "a first answer at a terminal" "$(./uca key < <(printf 'a\nab\n'))|0" "$(cat "$work/out")|$status"
is "it is said not to be proved, before and after" "$before"$'\n'"$after" "$(cat "$work/err")"
is "a first answer elsewhere, with files" "$(printf 'ö\nz\nå\nä\n' | ./uca $words)" "$(cat "$work/swedish")"
is "it is said not to be proved there, too" "$before"$'\n'"$after" "$(cat "$work/said")"
is "a first answer leaves no program" "" "$(find "$work/copy" -name out)"

# With a fake kit that only prints what it was asked to do. `rt all` prints that many crates are done, and would go on for
# a long time; the last step makes the program.
mkdir -p "$work/kit" "$work/new"
cat >"$work/kit/rt" <<'RT'
#!/usr/bin/env bash
echo "$(basename "$PWD"): rt $*" >>"$ASKED"
echo $$ >"$ASKED.process"
case $1 in
try)
    cat
    echo "$SAYS" >&2
    ;;
lib)
    echo "logic=proved"
    sleep "${SECONDS_OF_LIB-0}"
    ;;
all)
    for crate in $(seq 40); do echo "== uca_$crate"; done
    exec sleep 200
    ;;
run)
    [ -z "${FAILS-}" ] || exit 1
    mkdir -p out
    printf '#!/bin/sh\necho "built: $*"; cat\n' >out/uca
    chmod +x out/uca
    ;;
esac
RT
chmod +x "$work/kit/rt"
PATH=$work/kit:$PATH
export ASKED=$work/asked SAYS FAILS=
ended=$'checked: ended status=0\nrun=ended status=0 runners=1 proved=no'

# new_copy SAYS: a clone in which nothing is built; SAYS is what `rt try` writes beside the answer
new_copy() {
    SAYS=$1
    rm -rf "$work/new" "$ASKED"
    mkdir -p "$work/new/rules" "$work/new/crates/"{uca,uca_cli,uca_commands,uca_table}/src
    cp uca ucasort crates.txt "$work/new"
    mkdir -p "$work/new/tools"
    cp tools/ucasort-*.pl "$work/new/tools"
    cp rules/sv.rules "$work/new/rules"
}
asked() { cut -d' ' -f1-3 "$ASKED" | paste -sd'|'; }
said() { paste -sd'|' "$work/err"; }
steps="uca_table: rt lib|uca_cli: rt all|uca_commands: rt lib|uca_cli: rt lib|uca: rt run"

for where in elsewhere at_terminal; do
    new_copy $'uca: line 1: TooLong\nchecked: ended status=3\nrun=ended status=3 runners=1 proved=no'
    $where "$work/new" "printf 'b\na\n' | ./uca order --rules rules/sv.rules"
    is "$where: a first answer has its input and its status" $'b\na|3' "$(cat "$work/out")|$status"
    is "$where: a first answer has its fault, before the last line" "$before|uca: line 1: TooLong|$after" "$(said)"
    is "$where: a file is handed on" "uca: rt try --data handed-on-0=$work/new/rules/sv.rules -- order --rules handed-on-0" "$(cat "$ASKED")"

    new_copy "$ended"
    UCA_TABLE=rules/sv.rules $where "$work/new" "./uca table; ./uca table --table crates.txt; ./uca --help"
    is "$where: a table of the environment is handed on" \
        "uca: rt try --data handed-on-0=$work/new/rules/sv.rules -- table --table handed-on-0|uca: rt try --data handed-on-0=$work/new/crates.txt -- table --table handed-on-0|uca: rt try -- --help" \
        "$(paste -sd'|' "$ASKED")"

    # That kit returns a text itself as its key.
    new_copy "$ended"
    $where "$work/new" "printf 'b\na\n' | ./ucasort --table crates.txt"
    is "$where: ucasort takes an answer without a proof, which says so" "a|b|0|$before|$after" "$(paste -sd'|' "$work/out")|$status|$(said)"

    new_copy "$ended"
    $where "$work/new" "printf 'b\n' | ./uca key --rules <(cat rules/sv.rules)"
    is "$where: with a pipe as a file it says so and builds" "b|$steps" "$(tail -n 1 "$work/out")|$(asked)"
    is "$where: what it says then" "$no_answer /dev/fd/N is not a regular file|$building" "$(said | sed 's,/fd/[0-9]*,/fd/N,')"
    rm "$ASKED"
    $where "$work/new" "printf 'b\n' | ./uca order"
    is "$where: the program that was built is run" "built: order"$'\n'"b||0|" "$(cat "$work/out")|$(said)|$status|$(cat "$ASKED" 2>/dev/null)"

    new_copy "$ended"
    UCA_PROVED=1 $where "$work/new" "printf 'b\n' | ./uca order"
    is "$where: with UCA_PROVED it builds" "built: order"$'\n'"b|$building|$steps" "$(cat "$work/out")|$(said)|$(asked)"

    new_copy "$ended"
    $where "$work/new" "./uca --prove"
    is "$where: --prove builds and runs nothing" "|$building|0|$steps" "$(cat "$work/out")|$(said)|$status|$(asked)"
    $where "$work/new" "./uca --prove"
    is "$where: --prove builds once" "||0|$steps" "$(cat "$work/out")|$(said)|$status|$(asked)"
done

new_copy "$ended"
ln -s "$PWD/rules" "$work/new/linked"
elsewhere "$work/new" "printf 'b\n' | ./uca key --table=linked/es.rules --rules $PWD/rules/sv.rules"
is "two files are handed on" \
    "uca: rt try --data handed-on-0=$PWD/rules/es.rules --data handed-on-1=$PWD/rules/sv.rules -- key --table=handed-on-0 --rules handed-on-1" "$(cat "$ASKED")"
elsewhere "$work/new" "./uca lint --table missing </dev/null"
is "the program reports a file that is not there" "uca: rt try -- lint --table missing" "$(tail -n 1 "$ASKED")"
elsewhere "$work/new" "timeout 10 ./uca lint < <(sleep 20)"
is "a command without input waits for none" "0" "$status"
elsewhere "$work/new" "yes | ./uca check | wc -c"
is "an input past the limit is read up to one byte after it" "67108865" "$(cat "$work/out")"
elsewhere "$work/new" "head -c 1048577 /dev/zero | ./uca order | wc -c"
is "a longer input is not lost where it builds" "1048590|$no_answer it has more than a mebibyte|$building" "$(cat "$work/out")|$(said)"

new_copy $'checked: no-answer: the program wrote too much\nrun=no-answer proved=no'
elsewhere "$work/new" "printf 'b\n' | ./uca check"
is "where there is no answer it says why, and builds" "$before|$no_answer the program wrote too much|$building|uca: rt try|$steps" "$(said)|$(asked)"
is "it has its input then" "built: check"$'\n'"b" "$(cat "$work/out")"

FAILS=yes
new_copy "run=none runners=0 proved=no"
elsewhere "$work/new" "printf 'b\n' | ./uca key"
is "where there is no program either it says so" "|uca: the program could not be built|3" "$(cat "$work/out")|$(tail -n 1 "$work/err")|$status"
FAILS=

# A build shows its progress, and ends with the script.
new_copy "$ended"
(cd "$work/new" && SECONDS_OF_LIB=32 exec timeout --foreground 40 ./uca --prove) >"$work/out" 2>"$work/err"
is "each half minute of a build has a line" "$building|uca: building: N of 16 crates proved, 30 s" "$(said | sed 's/building: [0-9]*/building: N/; s/3[0-9] s/30 s/')"
# A process that has ended may stay in the list of processes for a while, as a zombie.
is "what was begun ends with it" "" "$(sleep 1; ps -o stat= -p "$(cat "$ASKED.process")" | grep -qv '^Z' && echo "it goes on")"

sum_up
