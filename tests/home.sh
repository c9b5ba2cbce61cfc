#!/usr/bin/env bash
# The program on its system: its manual, bash completions, installation, a terminal and a full disk.
source "$(dirname "${BASH_SOURCE[0]}")/checks.bash"

is_built
uca=$PWD/crates/uca/out/uca
mkdir "$work/bin"
ln -s "$uca" "$work/bin/uca"
ln -s "$PWD/ucasort" "$work/bin/ucasort"
PATH=$work/bin:$PATH

# The manual has each command, each option and each value in the program's help.
plain() { sed 's/\\-/-/g; s/\\f[BIR]//g; s/^\.[A-Z]* //' "$1" >"$work/manual"; }
plain man/uca.1
in_manual() { grep -qE -- "(^|[^a-z-])$1([^a-z-]|\$)" "$work/manual" || echo "$1"; }
"$uca" --help 2>"$work/help" >"$work/out"
commands=$(sed -n '/^Commands:/,/^$/s/^  \([a-z]*\) .*/\1/p' "$work/help")
is "commands are listed" "check compare elements help key lint order table" "$(sort <<<"$commands" | paste -sd' ')"
for command in $commands; do
    is "the manual has the command $command" "" "$(in_manual "$command")"
    [ "$command" = help ] && continue
    "$uca" "$command" --help 2>"$work/help" >"$work/out"
    for option in $(grep -oE -e '--[a-z]+' "$work/help" | sort -u); do
        is "the manual has $option of $command" "" "$(in_manual "$option")"
    done
    for value in $(sed -n 's/.*\[possible values: \(.*\)\]$/\1/p' "$work/help" | tr -d ,); do
        is "the manual has the value $value" "" "$(in_manual "$value")"
    done
done
is "the manual has the statuses" "" "$(for status in 0 1 2 3; do in_manual "$status"; done)"
plain man/ucasort.1
ucasort --help >"$work/help"
for option in $(grep -oE -e '(^|[ ,])-[a-zA-Z]\b|--[a-z]+(-[a-z]+)*' "$work/help" | tr -d ' ,' | sort -u); do
    is "the manual of ucasort has $option" "" "$(in_manual "$option")"
done
if command -v groff >/dev/null; then
    for page in man/*.1; do
        is "$page is set without a warning" "0" "$(groff -Kutf8 -man -Tutf8 -ww -z "$page" 2>&1 | wc -c)"
    done
fi

# The manual's examples print what it says.
perl -ne '
    BEGIN { $n = 0; $folder = shift }
    s/\\-/-/g; s/\\e/\\/g;
    if (/^\.E[XE]/) { $in = /X/; undef $file }
    elsif ($in && s/^\$ //) { $n++; open $file, ">", "$folder/$n.command"; print $file $_; open $file, ">", "$folder/$n.wanted" }
    elsif ($file) { print $file $_ }' "$work" man/uca.1 man/ucasort.1
mkdir "$work/room"
for command in "$work"/*.command; do
    is "an example of the manual: $(cat "$command")" "$(cat "${command%.command}.wanted")" "$(cd "$work/room" && bash "$command" 2>&1)"
done
is "examples that were run" "7" "$(find "$work" -name '*.command' | wc -l)"

# One version everywhere; tests/callers.sh checks that of the built library.
version=$(header_version)
IFS=. read -r major minor patch <<<"$version"
names_version() { is "the version in $1" "$2" "$(sed -n "$3" "$1" | head -n 1)"; }
names_version crates/uca_c/src/lib.rt "$(printf '0x%02x_%02x_%02x' "$major" "$minor" "$patch")" 's/^const VERSION: u32 = \(.*\);$/\1/p'
names_version bindings/c/Makefile "$version" 's/^VERSION := //p'
names_version bindings/c/Makefile "libuca.so.$major" 's/.*-soname,\(libuca\.so\.[0-9]*\) .*/\1/p'
names_version bindings/rust/Cargo.toml "$version" 's/^version = "\(.*\)"$/\1/p'
names_version bindings/rust/examples/check.rs "$(printf '0x%02x%02x%02x' "$major" "$minor" "$patch")" 's/.*uca::version(), uca::unicode_version()), (\(0x[0-9a-f]*\),.*/\1/p'
names_version bindings/python/pyproject.toml "$version" 's/^version = "\(.*\)"$/\1/p'
names_version bindings/python/src/uca/__init__.py "libuca.so.$major" 's/^_NAME = "\(.*\)"$/\1/p'
names_version bindings/python/test.py "$major, $minor, $patch" 's/.*uca.version() == (\([^)]*\)).*/\1/p'
names_version man/uca.1 "$version" 's/^\.TH UCA 1 [0-9-]* "Hagvlomi \(.*\)" "User Commands"$/\1/p'
names_version man/uca.1 "$version" 's/^This is the manual of version \(.*\)\.$/\1/p'
names_version man/ucasort.1 "$version" 's/^\.TH UCASORT 1 [0-9-]* "Hagvlomi \(.*\)" "User Commands"$/\1/p'
names_version man/ucasort.1 "$version" 's/^This is the manual of version \(.*\)\.$/\1/p'
names_version ucasort "$version" 's/^version=//p'
names_version CHANGELOG.md "$version" 's/^## \([0-9][0-9.]*\).*/\1/p'

# completed WORDS..: the completions that bash offers for the last word
completed() {
    completed_of uca "$@"
}

# completed_of PROGRAM WORDS..: the same for a program
completed_of() {
    bash -c 'source "completions/$1.bash"; COMP_WORDS=("$@"); COMP_CWORD=$(($# - 1))
        "_$1" "$1" "${COMP_WORDS[COMP_CWORD]}" "${COMP_WORDS[COMP_CWORD - 1]}"; printf "%s\n" "${COMPREPLY[@]}"' bash "$@" | sort | paste -sd' '
}
is "commands are completed" "check compare" "$(completed c)"
is "options are completed" "--raw --rules" "$(completed key --r)"
is "options are those of the command" "--rules" "$(completed order --r)"
is "values are completed" "secondary" "$(completed key --strength s)"
is "values after = are completed" "blanked non-ignorable shifted" "$(completed key --variable =)"
is "files are completed" "man/uca.1 man/ucasort.1" "$(completed key --table man/uca)"
is "options of ucasort are completed" "--stable --strength" "$(completed_of ucasort --st)"
is "languages are completed" "sv" "$(completed_of ucasort -l sv)"
is "values of ucasort are completed after =" "first" "$(completed_of ucasort --bad = f)"
is "files are completed for ucasort" "man/uca.1 man/ucasort.1" "$(completed_of ucasort -r man/uca)"

# Installed, it runs without this repository.
if command -v make >/dev/null; then
    make -s install-program DESTDIR="$work/root" PREFIX=/usr >"$work/out" 2>&1
    is "it is installed" "0" "$?"
    is "the files that are installed" "bin/uca bin/ucasort share/bash-completion/completions/uca share/bash-completion/completions/ucasort share/doc/uca/LICENSE-UNICODE.txt share/man/man1/uca.1 share/man/man1/ucasort.1 share/uca/ucasort-keys.pl share/uca/ucasort-rules.pl share/uca/rules/ of $(find rules -name '*.rules' | wc -l)" \
        "$(cd "$work/root/usr" && find . -type f | grep -v '/rules/' | sort | sed 's/^\.\///' | paste -sd' ') share/uca/rules/ of $(find "$work/root/usr/share/uca/rules" -type f | wc -l)"
    is "the program that is installed" "a|b" "$(cd / && printf 'b\na\n' | "$work/root/usr/bin/uca" order --rules "$work/root/usr/share/uca/rules/es.rules" --table "$(published_table)" 2>&1 | paste -sd'|')"
    is "ucasort is installed with its languages" "zon|öra" "$(cd / && printf 'öra\nzon\n' | UCA_TABLE=$(published_table) "$work/root/usr/bin/ucasort" -l sv 2>&1 | paste -sd'|')"

    # ucasort uses the installed table. A refused table is not installed, and the earlier one stays.
    installs_table() { make -s install-table TABLE="$1" DESTDIR="$work/root" PREFIX=/usr >"$work/out" 2>"$work/err"; }
    printf '@version 1.2.3\n0062 ; [.1000.0020.0002]\n0061 ; [.1001.0020.0002]\n' >"$work/b_first"
    printf '0062 ; [.1000.0020.0002\n' >"$work/broken"
    installs_table "$work/b_first"
    is "a table is installed" "0|$work/root/usr/share/uca/allkeys.txt: version 1.2.3, 2 entries, sha256 $(sha256sum <"$work/b_first" | cut -d' ' -f1)" "$?|$(cat "$work/out")"
    is "its fingerprint" "allkeys.txt: OK" "$(cd "$work/root/usr/share/uca" && sha256sum -c allkeys.txt.sha256)"
    for table in broken none; do
        installs_table "$work/$table"
        is "a table that is not installed: $table" "2||1" "$?|$(cat "$work/out")|$(grep -c "^install-table: .*$work/$table" "$work/err")"
    done
    is "ucasort takes the installed table" "b|a" "$(cd / && printf 'a\nb\n' | "$work/root/usr/bin/ucasort" 2>&1 | paste -sd'|')"
    if [ -n "$(published_table)" ]; then
        installs_table "$(published_table)"
        is "another table is installed" "0|2" "$?|$(grep -cE 'version [0-9.]+, [0-9]+ entries|stored' "$work/out")"
        is "ucasort takes that one" "a|b" "$(cd / && printf 'b\na\n' | "$work/root/usr/bin/ucasort" 2>&1 | paste -sd'|')"
    fi
    is "nothing else is left there" "allkeys.txt allkeys.txt.sha256 rules ucasort-keys.pl ucasort-rules.pl" "$(ls -A "$work/root/usr/share/uca" | paste -sd' ')"
else
    echo "$script: there is no make, so nothing was installed"
fi

# The program reports that its input is a terminal, and reports no other kind of input.
notice='uca: reads from the keyboard; Ctrl-D on a line of its own ends the input'
if command -v script >/dev/null; then
    for command in elements key compare order check lint table; do
        script -qec "'$uca' $command 2>'$work/err' >'$work/out' </dev/tty" /dev/null <<<$'\004' >/dev/null 2>&1
        case $command in
        lint | table) is "$command, which reads no input, on a terminal" "" "$(cat "$work/err")" ;;
        *) is "$command on a terminal" "$notice" "$(head -n 1 "$work/err")" ;;
        esac
    done
else
    echo "$script: there is no command script, so no terminal was tried"
fi
runs key </dev/null
is "another input than a terminal" "|0" "$(cat "$work/err")|$status"

# Writing to a pipe without a reader fails, and the fault says how far the output got.
yes 'b' | head -n 200000 >"$work/many"
{ "$uca" key <"$work/many" 2>"$work/err"; echo $? >"$work/status"; } | head -n 1 >/dev/null
is "key before head" "1|3" "$(grep -c '^uca: output byte [0-9]*: Failed$' "$work/err")|$(cat "$work/status")"
"$uca" key <"$work/many" >/dev/full 2>"$work/err"
is "a full disk" "3|uca: output byte 0: Failed" "$?|$(cat "$work/err")"

sum_up
