# Debian's word lists in several scripts, which it downloads without installing them. Measurements source it after tests/debian.bash.

# refuses WHY: ends the script because a program did not do its work
refuses() { echo "$script: $1"; exit 1; }

# The lists: script, share of a hundred words, package, file and encoding.
lists='
Latin 5 wamerican usr/share/dict/american-english UTF-8
Latin 5 wbritish usr/share/dict/british-english UTF-8
Latin 5 wfrench usr/share/dict/french UTF-8
Latin 5 wspanish usr/share/dict/spanish UTF-8
Latin 5 wngerman usr/share/dict/ngerman UTF-8
Latin 5 wpolish usr/share/dict/polish UTF-8
Latin 4 witalian usr/share/dict/italian UTF-8
Latin 4 wdanish usr/share/dict/danish UTF-8
Latin 4 wswedish usr/share/dict/swedish ISO-8859-1
Latin 4 hunspell-vi usr/share/hunspell/vi_VN.dic UTF-8
Cyrillic 6 wukrainian usr/share/dict/ukrainian UTF-8
Cyrillic 6 wbulgarian usr/share/dict/bulgarian UTF-8
Cyrillic 6 hunspell-ru usr/share/hunspell/ru_RU.dic UTF-8
Greek 6 hunspell-el usr/share/hunspell/el_GR.dic ISO-8859-7
Arabic 5 hunspell-ar usr/share/hunspell/ar.dic UTF-8
Hebrew 5 hunspell-he usr/share/hunspell/he_IL.dic UTF-8
Thai 5 hunspell-th usr/share/hunspell/th_TH.dic UTF-8
Devanagari 5 hunspell-hi usr/share/hunspell/hi_IN.dic UTF-8
Hangul 4 hunspell-ko usr/share/hunspell/ko.dic UTF-8
Japanese 3 edict usr/share/edict/edict EUC-JP
Chinese 3 elpa-pyim-basedict usr/share/emacs/site-lisp/elpa-src/pyim-basedict-0.5.4/pyim-basedict.pyim UTF-8
'

# fetched: unpacks the lists that are available, and reports which are not
fetched() {
    local package
    mkdir "$work/debs" "$work/lists"
    debian update || { echo "$script: Debian's packages are not available"; return 1; }
    for package in $(awk '{ print $3 }' <<<"$lists"); do
        (cd "$work/debs" && debian download "$package") && dpkg-deb -x "$work/debs/$package"_*.deb "$work/lists" ||
            echo "$script: package $package is not available"
    done
}

# The corpora, of which a table has a row each.
corpora='Latin Vietnamese Greek Cyrillic Arabic Hebrew Thai Devanagari Indic Hangul Han Kana Mixed Mixed-NFD Mixed-long'

# named NAME: the lists of a corpus
named() {
    case $1 in
    Vietnamese) grep 'hunspell-vi' <<<"$lists" ;;
    Latin) grep '^Latin' <<<"$lists" | grep -v 'hunspell-vi' ;;
    Han) grep '^Chinese' <<<"$lists" ;;
    Kana) grep '^Japanese' <<<"$lists" ;;
    Indic) grep -E '^(Thai|Devanagari)' <<<"$lists" ;;
    Mixed*) echo "$lists" ;;
    *) grep "^$1" <<<"$lists" ;;
    esac
}

# corpus NAME: its lines, in $work/lines
corpus() {
    local from=$work/drawn
    named "$1" | perl bench/corpus.pl "$work/lists" "$bytes" >"$from" 2>/dev/null || return 1
    case $1 in
    Mixed-NFD) perl -MUnicode::Normalize -CSD -ne 'print NFD($_)' "$from" >"$work/lines" ;;
    Mixed-long) paste -d' ' -s "$from" | perl -ne '
        my @words = split " "; print join(" ", splice @words, 0, 40), "\n" while @words' >"$work/lines" ;;
    Kana) perl -CSD -ne 'print if /[\p{Hiragana}\p{Katakana}]/ and !/\p{Han}/' "$from" >"$work/lines" ;;
    *) mv "$from" "$work/lines" ;;
    esac
    [ -s "$work/lines" ]
}

# worst NAME LINES: one of the worst texts, as this many lines
worst() {
    perl -CS -e '
        my ($name, $lines) = @ARGV;
        my %line = (
            "sixty marks" => "a" . "\x{301}" x 60,
            "sixty marks, two classes" => "a" . "\x{301}\x{323}" x 30,
            "contractions" => "\x{FB2}\x{F71}\x{F80}" x 20,
            "U+FDFA" => "\x{FDFA}" x 20,
            "Hangul parts" => "\x{1100}\x{1161}\x{11A8}" x 20,
            "variable" => "- " x 30,
            "ideographs" => "\x{4E00}\x{20000}\x{9FFF}" x 20,
        );
        print "$line{$name}$_\n" for 1 .. $lines' "$1" "$2"
}
