# Bash completions for ucasort. Options and languages are read from ucasort itself, so that they are listed only there.
_ucasort() {
    local word=$2 before=$3
    [ "$word" = = ] && word=
    [ "$before" = = ] && before=${COMP_WORDS[COMP_CWORD - 2]}
    case $before in
    -l | --language) mapfile -t COMPREPLY < <(compgen -W "list $("$1" -l list | cut -f1)" -- "$word") ;;
    --strength) mapfile -t COMPREPLY < <(compgen -W 'primary secondary tertiary quaternary identical' -- "$word") ;;
    --variable) mapfile -t COMPREPLY < <(compgen -W 'non-ignorable blanked shifted' -- "$word") ;;
    --bad) mapfile -t COMPREPLY < <(compgen -W 'last first refuse' -- "$word") ;;
    -T | --temporary-directory) mapfile -t COMPREPLY < <(compgen -d -- "$word") ;;
    -k | --key | -t | --field-separator | -S | --buffer-size | --parallel | --batch-size | --skip-articles | --ideographs) COMPREPLY=() ;;
    *)
        if [[ $word = -* ]]; then
            mapfile -t COMPREPLY < <(compgen -W "$("$1" --help | grep -oE -e '--[a-z]+(-[a-z]+)*' | sort -u)" -- "$word")
        else
            mapfile -t COMPREPLY < <(compgen -f -- "$word")
        fi
        ;;
    esac
}
complete -o filenames -F _ucasort ucasort ./ucasort
