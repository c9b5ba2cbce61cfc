#!/usr/bin/env bash
# docs/HOW-IT-WORKS.md names only things that exist: each file, crate, command, function, type, lemma and definition in backquotes, and
# each name with an underscore and each file in its drawings. If it says in which file a name is, that file declares it.
source "$(dirname "${BASH_SOURCE[0]}")/checks.bash"
page=docs/HOW-IT-WORKS.md

# What each source declares, as "FILE NAME" and "CRATE NAME", a line each. An edit counts as a name of its crate.
find crates \( -name out -o -name must-fail \) -prune -o \( -name '*.rt' -o -name '*.antt' \) -print |
    grep -vE '/(Answers|Invariants)\.antt$' | LC_ALL=C sort >"$work/sources"
perl -ne '
    BEGIN { chomp(@ARGV = <STDIN>) }
    $enum = 1 if /^(?:pub(?:\([a-z]+\))? )?enum /;
    $enum = 0 if /^\}/;
    my ($crate, $base) = $ARGV =~ m{^crates/([^/]+)/.*?([^/]+)$};
    my $name = $ARGV =~ /\.antt$/ ? (/^(?:(?:pub|abbrev|unfoldable|record|data) )*([\w-]+)(?: |$)/)[0]
        : /\b(?:fn|struct|enum|trait|const|static|type|mod) (\w+)/ ? $1
        : $enum && /^    (\w+)\b.*,$/ ? $1 : undef;
    print "$base $name\n$crate $name\n" if defined $name' <"$work/sources" >"$work/declared"
find crates -path '*/must-fail/*.edit' | sed 's,^crates/\([^/]*\)/must-fail/\(.*\)\.edit$,\1 \2,' >>"$work/declared"

# All words that the page may use.
{
    sed 's/^[^ ]* //' "$work/declared"
    sed -n 's/.*\/\([A-Za-z0-9]*\)\.antt$/\1/p' "$work/sources"
    ls crates
    grep -oE '\b[a-z_]+\(' bindings/*/uca.c | sed 's/.*://; s/($//'
    printf '%s\n' bool true Option Some
} | sort -u >"$work/names"
grep -oE 'Task::[A-Z][a-z]+' crates/uca_job/src/job.rt | sed 's/Task::/uca /' | tr '[:upper:]' '[:lower:]' | sort -u >"$work/commands"

# is_there WORD: whether a file, a folder, a command or a name exists
is_there() {
    case $1 in
    *[![:ascii:]]*) return 0 ;; # a text, or rules
    uca\ *) grep -qxF "$1" "$work/commands" ;;
    */) [ -d "$1" ] || compgen -G "crates/*/$1" >/dev/null ;;
    */*) [ -e "$1" ] ;;
    *.*) grep -qE "/${1//./\\.}\$" "$work/sources" || compgen -G "bindings/*/$1" >/dev/null ;;
    *) grep -qxF -e "$1" "$work/names" || [ -d "$1" ] || compgen -G "crates/*/$1" >/dev/null ;;
    esac
}

perl -ne 'next if /^    /; print "$1\n" while /`([^`]+)`/g' "$page" | sort -u >"$work/quoted"
perl -CSD -ne 'next unless /^    /; print "$1\n" while /(\w*_\w+|\w+\.rt|\w+\.c)\b(?!\.)/g' "$page" | sort -u >"$work/drawn"
is "what the page names is there" "" "$(while IFS= read -r word; do is_there "$word" || echo "$word"; done <"$work/quoted")"
is "what its drawings name is there" "" "$(while IFS= read -r word; do is_there "$word" || echo "$word"; done <"$work/drawn")"

# "`a` and `b` in `c`", where c is a crate, a file of code, or a file of proofs without its ending
perl -ne 'next if /^    /;
    while (/((?:`[\w-]+`(?:, | and )?)+) in `([\w.]+)`/g) {
        my ($names, $file) = ($1, $2);
        $file .= ".antt" unless $file =~ /\.|^uca_/;
        print "$file $1\n" while $names =~ /`([^`]+)`/g;
    }' "$page" | sort -u >"$work/places"
is "names are in the files that the page says" "" "$(sort -u "$work/declared" | comm -13 - "$work/places")"
is "the page names enough for this to be a test" "yes" "$([ "$(wc -l <"$work/quoted")" -ge 100 ] && [ "$(wc -l <"$work/drawn")" -ge 20 ] && [ "$(wc -l <"$work/places")" -ge 25 ] && echo yes)"
is "the page has 250 lines at most" "yes" "$([ "$(wc -l <"$page")" -le 250 ] && echo yes)"

sum_up
