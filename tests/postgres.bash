# A PostgreSQL server with the extension, in a copy of the installed one. Sourced by scripts that have checks.bash, debian.bash, the
# installed library in $usr, and $work.

# server_headers RELEASE: Debian's headers of the server, installed or downloaded into $work; leaves their folder in $server
server_headers() {
    local release=$1
    server=/usr/include/postgresql/$release/server
    [ -f "$server/postgres.h" ] && return
    mkdir "$work/dev" && debian update || return 1
    (cd "$work/dev" && debian download "postgresql-server-dev-$release" "libpq-dev" && for package in *.deb; do dpkg -x "$package" .; done) || return 1
    server=$work/dev/usr/include/postgresql/$release/server
    [ -f "$server/postgres.h" ]
}

# postgresql_is_here: whether a server, its programs and its headers are available; leaves its version in $release
postgresql_is_here() {
    local all=(/usr/lib/postgresql/*/bin/initdb)
    release=$(printf '%s\n' "${all[@]}" | sed -n 's,^/usr/lib/postgresql/\([0-9]*\)/bin/initdb$,\1,p' | sort -n | tail -1)
    [ -n "$release" ] && command -v psql >/dev/null && server_headers "$release"
}

# extension_is_built: makes a copy of the server, with the extension; leaves the folder of its programs in $bin
extension_is_built() {
    local pg=$work/pg
    bin=$pg/usr/lib/postgresql/$release/bin
    mkdir -p "$pg/usr/lib/postgresql" "$pg/usr/share/postgresql" "$work/extension"
    cp -r "/usr/lib/postgresql/$release" "$pg/usr/lib/postgresql/" && cp -rL "/usr/share/postgresql/$release" "$pg/usr/share/postgresql/" 2>/dev/null
    cp bindings/postgresql/{Makefile,uca.control,uca--*.sql,uca_pg.c} "$work/extension/" # and nothing that was built before
    make -s -C "$work/extension" install UCA="$usr" DESTDIR="$pg" PG_CONFIG="$(command -v pg_config || echo "$work/dev/usr/bin/pg_config")" \
        COPT="-I$server -Wall -Werror" with_llvm=no >"$work/log" 2>&1 || { cat "$work/log"; return 1; }
    chmod -R a+rX "$pg"
    trap 'stop_servers; rm -rf "$work"' EXIT
}

# as_nobody WORDS..: runs them as a user without privileges, if this is root
as_nobody() {
    if [ "$(id -u)" -eq 0 ]; then
        (cd / && setpriv --reuid=nobody --regid=nogroup --clear-groups "$@")
    else
        "$@"
    fi
}

# start_server NAME WORDS..: starts a server whose data and socket are in $work/NAME, with these words; the first start creates it
start_server() {
    local data=$work/$1
    shift
    if [ ! -d "$data" ]; then
        mkdir "$data"
        [ "$(id -u)" -eq 0 ] && chown nobody:nogroup "$data"
        as_nobody "$bin/initdb" -D "$data" -U tester --encoding=UTF8 --locale=C --no-sync >"$work/log" 2>&1 || { cat "$work/log"; return 1; }
    fi
    (cd / && as_nobody "$bin/postgres" -D "$data" -k "$data" -c listen_addresses= -c fsync=off "$@") >>"$data.log" 2>&1 &
    for _ in $(seq 300); do
        [ -f "$data/postmaster.pid" ] && psql -h "$data" -U tester -d postgres -c 'SELECT 1' >/dev/null 2>&1 && return
        sleep 0.1
    done
    tail "$data.log"
    return 1
}

# stop_server NAME: stops the server, by the id that start_server kept; returns when it has ended
stop_server() {
    [ -f "$work/$1/postmaster.pid" ] && kill -INT "$(head -1 "$work/$1/postmaster.pid")" 2>/dev/null
    for _ in $(seq 300); do
        [ -f "$work/$1/postmaster.pid" ] || return
        sleep 0.1
    done
}

stop_servers() {
    local pid
    for pid in "$work"/*/postmaster.pid; do
        [ -f "$pid" ] && stop_server "$(basename "$(dirname "$pid")")"
    done
}

# sql NAME DATABASE WORDS..: psql on a server
sql() {
    local name=$1 database=$2
    shift 2
    psql -qXAt -v VERBOSITY=terse -h "$work/$name" -U tester -d "$database" "$@" 2>&1
}
