#!/usr/bin/env bash
# The explorer of the Python package: its server, and its page in a browser. With the argument `docs` it remakes the pictures of
# docs/EXPLORER.md. The browser is Debian's headless Chromium; if it is not available, the script says so and skips the page.
source "$(dirname "${BASH_SOURCE[0]}")/checks.bash"
source tests/debian.bash
source tests/python.bash

is_built
left_out() { echo "$script: left out: $1"; }

table=$(published_table)
[ -n "$table" ] || { left_out "all of it, since Debian's perl with its table is not there"; sum_up; exit; }
command -v cc >/dev/null && command -v make >/dev/null && command -v objcopy >/dev/null ||
    { left_out "all of it, since there is no C compiler, make or objcopy"; sum_up; exit; }
python=$(python_that_builds)
[ -n "$python" ] || { left_out "all of it, since no python3 has its header, pip, setuptools, wheel and venv"; sum_up; exit; }

make -s -C bindings/c install OUT="$work/c" PREFIX="$work/usr" >"$work/log" 2>&1 ||
    { cat "$work/log"; echo "$script: the C library could not be built"; exit 1; }
tree=$work/tree
mkdir "$tree" && cp -r --parents bindings/python include "$tree" && "$python" -m venv --system-site-packages --without-pip "$work/venv" &&
    PKG_CONFIG_PATH=$work/usr/lib/pkgconfig "$work/venv/bin/python" -m pip install -q --no-index --no-build-isolation "$tree/bindings/python" >"$work/log" 2>&1 ||
    { cat "$work/log"; echo "$script: the package of Python could not be installed"; exit 1; }
python=$work/venv/bin/python
export UCA_LIBRARY=$work/usr/lib/libuca.so.1

# chromium_is_here: finds headless Chromium and its driver, installed or downloaded into $work; leaves their paths in $driver and
# $chromium. Debian's headless shell opens no page by itself, which the driver expects, so it is given one.
chromium_is_here() {
    local root=$work/root package
    driver=$(command -v chromedriver) && chromium=$(command -v chromium) && return
    debian update && mkdir "$work/packages" || return 1
    debian -s install --no-install-recommends chromium-headless-shell || return 1
    mapfile -t packages < <(sed -n 's/^Inst \([^ ]*\) .*/\1/p' "$work/apt/log" | sort -u)
    (cd "$work/packages" && debian download chromium-driver "${packages[@]}" && for package in *.deb; do dpkg-deb -x "$package" "$root" || exit; done) || return 1
    driver=$root/usr/bin/chromedriver
    libraries=$root/usr/lib/x86_64-linux-gnu:$root/usr/lib/x86_64-linux-gnu/pulseaudio
    chromium=$work/headless
    printf '#!/bin/sh\nexec "%s" "$@" about:blank\n' "$root/usr/lib/chromium/chromium-headless-shell" >"$chromium"
    chmod +x "$chromium"
    LD_LIBRARY_PATH=$libraries timeout 60 "$chromium" --no-sandbox --version >>"$work/apt/log" 2>&1
}

# tries PART WORDS..: a part of tests/explorer.py, with its own server
tries() {
    "$python" tests/explorer.py "$1" --table "$table" --rules rules --uca "$PWD/crates/uca/out/uca" --work "$work" "${@:2}" 2>&1
}

is "the server" "well" "$(tries server)"
pictures=$work/pictures
[ "${1-}" != docs ] || pictures=docs
mkdir -p "$pictures"
libraries=
if chromium_is_here; then
    is "the page" "well" "$(tries page --driver "$driver" --chromium "$chromium" --libraries "$libraries" --pictures "$pictures")"
    is "the pictures are small" "" "$(find "$pictures" -name 'explorer-*.png' -size +150k)"
    is "pictures" "3" "$(find "$pictures" -name 'explorer-*.png' | wc -l)"
    echo "$script: $(cat "$work/measured")"
else
    left_out "the page, since Debian's Chromium and its driver cannot be had"
fi

sum_up
