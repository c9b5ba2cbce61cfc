#!/usr/bin/env bash
# README.md, docs/EXAMPLES.md and docs/CATALOGUES.md are true: the gate builds their programs, and their commands print what they say.
source "$(dirname "${BASH_SOURCE[0]}")/checks.bash"
source tests/python.bash

is_built
pages=(README.md docs/EXAMPLES.md docs/CATALOGUES.md)
is "the example in Rattle is a part of its crate" "yes" "$(perl -0777 -e '
    my ($page, $code) = map { local @ARGV = $_; <> } @ARGV;
    my ($example) = $page =~ /^```rust\n(.*?)^```$/ms;
    print defined $example && index($code, $example) >= 0 ? "yes" : "no"' docs/EXAMPLES.md crates/uca_example/src/main.rt)"
is "the C program is that of bindings/c" "yes" "$(perl -0777 -ne '/^```c\n(.*?)^```$/ms and print $1' docs/EXAMPLES.md | cmp -s - bindings/c/compare.c && echo yes)"
is "the Python program is that of bindings/python" "yes" "$(perl -0777 -ne '/^```python\n(.*?)^```$/ms and print $1' docs/EXAMPLES.md | cmp -s - bindings/python/example.py && echo yes)"
is "README has 120 lines at most" "yes" "$([ "$(wc -l <README.md)" -le 120 ] && echo yes)"
is "the pages that README and docs link to are there" "" "$(for page in README.md CHANGELOG.md docs/*.md examples/*/README.md; do
    grep -o '](\([^):# ]*\)[)#]' "$page" | sed 's/^](//; s/.$//' | while read -r link; do
        [ -e "$(dirname "$page")/$link" ] || echo "$page: $link"
    done
done)"
is "README names the logic that proves it" "logic $(rt version | sed 's/.* logic //')" "$(grep -o 'logic [0-9a-f]\{16\}' README.md)"

# Each command, and what the pages print below it: the files N.command and N.wanted.
perl -e '
    my ($folder, $number, $file) = (shift, 0);
    while (<>) {
        if (/^    \$ (.*)/) {
            $number++;
            open $file, ">", "$folder/$number.command"; print $file "$1\n";
            open $file, ">", "$folder/$number.wanted";
        } elsif (/^    (.*)/ && $file) {
            print $file "$1\n";
        } else {
            undef $file;
        }
    }' "$work" "${pages[@]}"

# runs_with_compiler LINE WANTED: the long output of make is not compared; SQLite gets the text after its prompt
runs_with_compiler() {
    case $1 in
    make* | *"pip install"*)
        eval "$1" >"$work/out" 2>&1
        is "$1" "0" "$?"
        ;;
    sqlite3*)
        sed -n "s,^sqlite> ,,p" "$2" | sed "s,'/.*allkeys.txt,'$published," | eval "$1" >"$work/out" 2>&1
        is "$1" "$(grep -v '^sqlite> ' "$2")" "$(cat "$work/out")"
        ;;
    *)
        eval "$1" >"$work/out" 2>&1
        is "$1" "$(cat "$2")" "$(cat "$work/out")"
        ;;
    esac
}

published=$(published_table)
if [ -n "$published" ]; then
    echo "tests/readme.sh: with $published"
    mkdir "$work/room"
    ln -s "$PWD/uca" "$PWD/ucasort" "$PWD/rules" "$PWD/bindings" "$PWD/Makefile" "$work/room/"
    cd "$work/room" || exit 2
    has_compiler=yes
    for program in cc make objcopy pkg-config sqlite3; do command -v "$program" >/dev/null || has_compiler=; done
    has_python=yes
    command -v python3 >/dev/null || { has_python= && echo "tests/readme.sh: left out: the commands with python3, which is not there"; }
    echo '#include <sqlite3ext.h>' | cc -E - >/dev/null 2>&1 || has_compiler=
    [ -n "$has_compiler" ] || echo "tests/readme.sh: left out: C and SQLite, since their compiler, headers or programs are not there"
    builds=${has_compiler:+$(python_that_builds)}
    [ -n "$builds" ] || echo "tests/readme.sh: left out: the package of Python, since the library or python3's header, pip, setuptools, wheel or venv is not there"
    for command in $(find "$work" -name '*.command' | sort -V); do
        line=$(cat "$command")
        case $line in
        .ci/run | psql* | "sudo -u postgres psql"* | "make -C bindings/postgresql"* | "install "*/usr/local/*) ;; # those of PostgreSQL: tests/callers.sh
        "/usr/bin/python3 -m venv"* | venv/*) [ -z "$builds" ] || runs_with_compiler "${line/#\/usr\/bin\/python3/$builds}" "${command%.command}.wanted" ;;
        *python3*) [ -z "$has_python" ] || runs_with_compiler "$line" "${command%.command}.wanted" ;;
        table=*)
            eval "$line"
            is "$line" "allkeys.txt" "${table##*/}"
            table=$published
            ;;
        make* | cc* | ./compare* | sqlite3* | export*) [ -z "$has_compiler" ] || runs_with_compiler "$line" "${command%.command}.wanted" ;;
        *)
            eval "$line" >"$work/out" 2>&1
            is "$line" "$(cat "${command%.command}.wanted")" "$(cat "$work/out")"
            ;;
        esac
    done
else
    echo "tests/readme.sh: no allkeys.txt in perl's folders, so no command was run"
fi

sum_up
