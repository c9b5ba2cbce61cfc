# Downloads Debian packages without installing them: apt with its own folders in $work. Sourced by scripts that have $work.

# debian WORDS..: apt-get with these words; `update` comes first
debian() {
    local release
    if [ ! -d "$work/apt" ]; then
        command -v apt-get >/dev/null || return 1
        mkdir -p "$work/apt/lists/partial" "$work/apt/cache/archives/partial"
        release=$(sed -n 's/^VERSION_CODENAME=//p' /etc/os-release)
        printf '%s http://deb.debian.org/debian %s main\n' deb "$release" deb-src "$release" >"$work/apt/sources.list"
    fi
    timeout 120 apt-get -q -o Dir::Etc::SourceList="$work/apt/sources.list" -o Dir::Etc::SourceParts=/dev/null \
        -o Dir::State::Lists="$work/apt/lists" -o Dir::Cache="$work/apt/cache" -o APT::Sandbox::User=root "$@" >>"$work/apt/log" 2>&1
}

# unpacks FOLDER PACKAGES..: unpacks these packages, and their dependencies that are not installed, in a folder
unpacks() {
    local folder=$1 packages
    shift
    debian update && mkdir -p "$folder" && : >"$work/apt/log" && debian -s install --no-install-recommends "$@" || return 1
    mapfile -t packages < <(sed -n 's/^Inst \([^ ]*\) .*/\1/p' "$work/apt/log" | sort -u)
    (cd "$folder" && debian download "${packages[@]}" && for package in *.deb; do dpkg-deb -x "$package" . && rm "$package" || exit; done)
}
