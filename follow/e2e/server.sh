# What the scripts of this folder share, to be sourced: a private PostgreSQL 15 in a folder that is removed at the end, and the programs to try.
# PG_BIN names the server's programs, CARGO_TARGET_DIR where ours are built, else target-rust.
cd "$(dirname "${BASH_SOURCE[0]}")/.."
bin=${PG_BIN:-/usr/lib/postgresql/15/bin}
e2e=$PWD/e2e
work=$(mktemp -d)
chmod 755 "$work"
began=$SECONDS
pids=()

say() { printf '%4d s  %s\n' "$((SECONDS - began))" "$*"; }
fail() { say "FAILED: $*"; tail -n 5 "$work"/*.err "$work"/log 2> /dev/null || true; exit 1; }
# PostgreSQL does not run as root.
server() {
    if [ "$(id -u)" = 0 ]; then (cd / && setpriv --reuid=postgres --regid=postgres --clear-groups "$@"); else "$@"; fi
}
cleanup() {
    for pid in "${pids[@]}"; do kill -CONT "$pid" 2> /dev/null || true; kill "$pid" 2> /dev/null || true; done
    server "$bin/pg_ctl" -D "$work/data" -m immediate stop > /dev/null 2>&1 || true
    wait || true
    rm -rf "$work"
}
trap cleanup EXIT
trap 'exit 1' INT TERM

# Where the lists of packages are missing or old, they are fetched first.
apt_install() { apt-get install -y -q --no-install-recommends "$@" >> "$work/install.err" 2>&1; }
install() { apt_install "$@" || { apt-get update >> "$work/install.err" 2>&1 && apt_install "$@"; }; }
install_server() {
    [ -x "$bin/postgres" ] && [ -x "$bin/pgbench" ] && return
    say "installing PostgreSQL 15"
    install postgresql-15 || fail "PostgreSQL 15 is missing and cannot be installed; PG_BIN may name its programs"
}
# What a check needs besides; where it cannot be had, the last line says what was left out.
left_out=()
needs() { # package, what is left out without it, command that tells whether it is there
    "${@:3}" > /dev/null 2>&1 && return
    install "$1" && "${@:3}" > /dev/null 2>&1 && return
    left_out+=("$2 ($1 cannot be installed)")
    return 1
}
passed() { # what has passed
    say "passed: $*"
    [ "${#left_out[@]}" = 0 ] || { printf 'LEFT OUT: %s\n' "${left_out[@]}"; }
}

free_port() { # a port that nobody listens on
    local port
    while port=$((20000 + RANDOM % 20000)); (exec 3<> "/dev/tcp/127.0.0.1/$port") 2> /dev/null; do :; done
    echo "$port"
}

start_server() { server "$bin/pg_ctl" -D "$work/data" -l "$work/log" -w -t 60 start > /dev/null || fail "the server does not start"; }

# A cluster with a port of its own, not started yet; more lines of postgresql.conf come on standard input.
init_server() {
    mkdir "$work/data"
    [ "$(id -u)" != 0 ] || chown postgres "$work/data"
    : > "$work/log"
    chmod 666 "$work/log"
    server "$bin/initdb" -D "$work/data" -U postgres -A trust -E UTF8 --locale=C --no-sync > /dev/null
    port=$(free_port)
    cat - >> "$work/data/postgresql.conf" << END
listen_addresses = '127.0.0.1'
port = $port
unix_socket_directories = '$work/data'
wal_level = logical
fsync = off
$(cat)
END
}

# The server's own client, not the one that Debian puts before it. The environment is the script's, so nothing of it is left to chance.
sql() { "$bin/psql" -X -q -A -t -v ON_ERROR_STOP=1 -h 127.0.0.1 -p "$port" -U postgres -d postgres "$@"; }
until_true() { # seconds, command
    local until=$((SECONDS + $1))
    shift
    until "$@"; do
        [ "$SECONDS" -lt "$until" ] || return 1
        sleep 0.1
    done
}
confirmed() { sql -c "SELECT confirmed_flush_lsn FROM pg_replication_slots WHERE slot_name = '$1'"; }
confirmed_to() { [ "$(sql -c "SELECT confirmed_flush_lsn >= '$2' FROM pg_replication_slots WHERE slot_name = '$1'")" = t ]; }
drop_slot() { until_true 10 sql -c "SELECT pg_drop_replication_slot('$1')" > /dev/null 2> "$work/slot.err" || fail "the slot $1 is not dropped"; }
ended() { ! kill -0 "$1" 2> /dev/null; }

build() {
    export CARGO_TARGET_DIR=${CARGO_TARGET_DIR:-$(cd .. && pwd)/target-rust}
    cargo build --quiet --release -j1 -p follow
    follow=$CARGO_TARGET_DIR/release/follow
}
