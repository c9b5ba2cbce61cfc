# What the scripts of this folder share: a temporary folder, checks that are counted, and the summary. Each sources it.
set -u
cd "$(dirname "${BASH_SOURCE[0]}")/.." || exit 2
script=tests/$(basename "$0")
unset UCA_TABLE UCA # a check that needs them sets them
export UCA_PROVED=1 # no check takes an answer without a proof
work=$(mktemp -d) || exit 2
trap 'rm -rf "$work"' EXIT
passed=0
failed=0

# is NAME WANTED GOT
is() {
    if [ "$2" = "$3" ]; then
        passed=$((passed + 1))
    else
        failed=$((failed + 1))
        printf '%s: %s\n  wanted: %s\n  got:    %s\n' "$script" "$1" "$2" "$3"
    fi
}

# runs WORDS..: the program; leaves out, err and status
runs() {
    ./uca "$@" >"$work/out" 2>"$work/err"
    status=$?
}

# is_built: ends the script if the program cannot be built
is_built() {
    ./uca --prove || { echo "$script: the program could not be built"; exit 1; }
}

# published_table: the path of the table that Debian's perl ships, or nothing if it is not installed
published_table() {
    local folder
    for folder in $(perl -e 'print join " ", @INC' 2>/dev/null); do
        [ -f "$folder/Unicode/Collate/allkeys.txt" ] && echo "$folder/Unicode/Collate/allkeys.txt" && return
    done
}

# header_version: the version that include/uca.h names, as 1.0.0
header_version() {
    local number
    number=$(sed -n 's/^#define UCA_VERSION \(0x[0-9A-F]*\)$/\1/p' include/uca.h)
    echo "$((number >> 16)).$((number >> 8 & 255)).$((number & 255))"
}

# sum_up: the last line of a script
sum_up() {
    echo "$script: $passed passed, $failed failed"
    [ "$failed" -eq 0 ]
}
