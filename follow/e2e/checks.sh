# What run and faults share, to be sourced: a workload over four language tables, and how what follow printed is looked at.
. "$(dirname "${BASH_SOURCE[0]}")/server.sh"
json_checked=0
python=$(command -v python3 || true)

# In the background a program takes the place of the subshell, so that signals reach it.
in_place() { if [ "$BASHPID" = $$ ]; then "$@"; else exec "$@"; fi; }
workload() { # transactions for each of four clients, transactions a second
    in_place "$bin/pgbench" -n -h 127.0.0.1 -p "$port" -U postgres -c 4 -t "$1" -R "$2" -f "$e2e/insert.sql@20" -f "$e2e/update.sql@8" \
        -f "$e2e/message.sql@4" -f "$e2e/truncate.sql@1" -f "$e2e/large.sql@1" postgres > /dev/null 2>> "$work/pgbench.err"
}
peek() { # slot, publications
    sql -c "SELECT encode(data, 'hex') FROM pg_logical_slot_peek_binary_changes('$1', NULL, NULL, 'proto_version', '1', 'publication_names', '$2', 'messages', 'true')"
}

active() { [ "$(sql -c "SELECT active FROM pg_replication_slots WHERE slot_name = '$1'")" = t ]; }

# Every whole line of a file is JSON to PostgreSQL's own parser, and to Python's, which also looks for names that come twice.
json_lines() { # files
    local file count
    for file in "$@"; do
        head -n "$(wc -l < "$file")" "$file" > "$work/json"
        sql -c 'CREATE TEMPORARY TABLE lines (line json)' -c "\copy lines FROM '$work/json' WITH (FORMAT csv, QUOTE e'\x01', DELIMITER e'\x02')" \
            -c "SELECT count(*), count(line ->> 'event') FROM lines" > "$work/json.count" 2> "$work/json.err" || fail "PostgreSQL reads no JSON in $file"
        count=$(wc -l < "$work/json")
        [ "$count" -gt 0 ] && [ "$(cat "$work/json.count")" = "$count|$count" ] || fail "$count lines, PostgreSQL reads $(cat "$work/json.count")"
        json_checked=$((json_checked + count))
        [ -z "$python" ] || "$python" -c "$PYTHON_LINES" "$work/json" || fail "Python reads no JSON in $file"
    done
}
PYTHON_LINES='
import json, sys
def unique(pairs):
    assert len(dict(pairs)) == len(pairs), pairs
    return dict(pairs)
for line in open(sys.argv[1], encoding="utf-8", newline="\n"):
    json.loads(line, object_pairs_hook=unique)
'

build_programs() {
    build
    cargo build --quiet --release -j1 -p e2e
    programs=$CARGO_TARGET_DIR/release
}
