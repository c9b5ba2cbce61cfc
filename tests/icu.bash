# Builds tests/icu_keys.c as $work/icu_keys: with the system's ICU, or with Debian's packages, which it downloads without installing
# them. Sourced by scripts that have $work, after tests/debian.bash.

icu_is_built() {
    local library
    gcc -O2 -o "$work/icu_keys" tests/icu_keys.c -licui18n -licuuc 2>/dev/null && return 0
    debian update || return 1
    library=$(apt-cache -o Dir::State::Lists="$work/apt/lists" -o Dir::Cache="$work/apt/cache" -o Dir::Etc::SourceList="$work/apt/sources.list" \
        -o Dir::Etc::SourceParts=/dev/null depends libicu-dev 2>/dev/null | sed -n 's/^ *Depends: \(libicu[0-9]*\)$/\1/p' | head -n 1)
    (mkdir -p "$work/icu" && cd "$work/icu" && debian download libicu-dev "$library") || return 1
    for package in "$work"/icu/*.deb; do dpkg-deb -x "$package" "$work/icu/root" || return 1; done
    library=$(dirname "$(find "$work/icu/root" -name 'libicui18n.so' -print -quit)")
    gcc -O2 -o "$work/icu_keys" -I"$work/icu/root/usr/include" tests/icu_keys.c -L"$library" -Wl,-rpath,"$library" -licui18n -licuuc -licudata 2>/dev/null
}
