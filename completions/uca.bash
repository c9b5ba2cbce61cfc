# Bash completions for uca. Commands, options and values are read from the program's own help, so that they are listed only there.
_uca() {
    local word=$2 before=$3 help
    [ "$1" != ./uca ] || [ -x crates/uca/out/uca ] || return # without a build its help would run without a proof, which takes a minute
    if [ "$COMP_CWORD" -le 1 ]; then
        mapfile -t COMPREPLY < <(compgen -W "$("$1" --help 2>&1 | sed -n '/^Commands:/,/^$/s/^  \([a-z]*\) .*/\1/p')" -- "$word")
        return
    fi
    [ "$word" = = ] && word=
    [ "$before" = = ] && before=${COMP_WORDS[COMP_CWORD - 2]}
    help=$("$1" "${COMP_WORDS[1]}" --help 2>&1)
    if grep -q "^ *$before <FILE>" <<<"$help"; then
        mapfile -t COMPREPLY < <(compgen -f -- "$word")
    elif grep -q "^ *$before <" <<<"$help"; then
        mapfile -t COMPREPLY < <(compgen -W "$(sed -n "s/^ *$before <.*\[possible values: \(.*\)\]$/\1/p" <<<"$help" | tr -d ,)" -- "$word")
    else
        mapfile -t COMPREPLY < <(compgen -W "$(grep -oE '^ +(-h, )?--[a-z]+' <<<"$help" | grep -oE -e '--[a-z]+')" -- "$word")
    fi
}
complete -o filenames -F _uca uca ./uca
