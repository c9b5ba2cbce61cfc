#!/usr/bin/env bash
# Measures sorting in Python by keys of the package `uca` and of PyICU, in one run, over 200,000 lines from Debian's word lists: one to
# four words of all scripts, the same of Latin, and one or two Latin words. It downloads the lists and python3-icu without installing
# them, and needs Debian's python3-dev, python3-setuptools, python3-wheel, python3-pip and libicu72. It is not a test.
uca=none # the program is not measured here
source "$(dirname "${BASH_SOURCE[0]}")/shared.bash"
source tests/debian.bash
source bench/lists.bash
make -s -C bindings/c install OUT="$work/c" PREFIX="$work/usr" >"$work/log" 2>&1 || { cat "$work/log"; refuses "the C library could not be built"; }
mkdir "$work/tree" && cp -r --parents bindings/python include "$work/tree" || exit 1
PKG_CONFIG_PATH=$work/usr/lib/pkgconfig /usr/bin/python3 -m pip install -q --no-index --no-build-isolation --target "$work/site" "$work/tree/bindings/python" ||
    refuses "the package could not be installed"
fetched || exit 1
(cd "$work/debs" && debian download python3-icu) && dpkg-deb -x "$work"/debs/python3-icu_*.deb "$work/icu" || echo "$script: package python3-icu is not available"

# corpus NAME BYTES: 200,000 lines of a corpus, as $work/NAME
corpus() {
    case $1 in
    latin) grep '^Latin' <<<"$lists" | grep -v 'hunspell-vi' ;;
    *) echo "$lists" ;;
    esac | perl bench/corpus.pl "$work/lists" "$2" 2>/dev/null | head -n 200000 >"$work/$1"
    [ "$(wc -l <"$work/$1")" -eq 200000 ] || refuses "$1: not 200000 lines"
}

corpus mixed 10000000
corpus latin 8000000
cut -d" " -f1,2 "$work/latin" >"$work/names"
echo "$(nproc) processors, load $(cut -d' ' -f1-3 /proc/loadavg)"
for name in mixed latin names; do
    echo "$name"
    PYTHONPATH=$work/site:$work/icu/usr/lib/python3/dist-packages /usr/bin/python3 bench/python.py "$published" "$work/$name" || refuses "python: status $?"
done
echo "load $(cut -d' ' -f1-3 /proc/loadavg)"
