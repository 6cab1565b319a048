#!/bin/sh
# Measures what a hub of this checkout adds to a command and to a session, side by side with HAProxy 2.6 of Debian that shares
# its connections to the node (http-reuse always) and with a plain proxy of a thread for each client (proxy.rs). One node, all on
# the loopback. In each round each of them is measured once, and the medians of the rounds are printed. Ends what it started.
#
# Usage: bench/relay/run.sh [SECONDS [ROUNDS]]    5 seconds for each measurement, 5 rounds
# GRID_HUB names another hub's program, PORT the first of four ports, else 4480. Without HAProxy its rows are left out.
set -u

here=$(cd "$(dirname "$0")" && pwd) || exit 2
top=$(dirname "$(dirname "$here")")
seconds=${1:-5}
rounds=${2:-5}
first=${PORT:-4480}
node=127.0.0.1:$((first + 1))
folder=$(mktemp -d) || exit 2
begun=

finish() {
    for it in $begun; do
        { kill "$it" && wait "$it"; } 2>/dev/null
    done
    rm -rf "$folder"
}
trap finish EXIT
trap 'exit 130' INT TERM

# Waits until somebody listens at the port.
await() {
    tries=0
    until curl -s -o "$folder/status" "http://127.0.0.1:$1/status"; do
        tries=$((tries + 1))
        [ "$tries" -lt 200 ] || exit 1
        sleep 0.1
    done
}

program=${GRID_HUB:-$top/crates/grid_hub/out/grid_hub}
if [ ! -x "$program" ]; then
    echo "run.sh: builds grid_hub, which takes some minutes the first time" >&2
    (cd "$top/crates/grid_hub" && rt run -- --port x) >&2
fi
rustc --edition 2024 -O -o "$folder/relay" "$here/main.rs" || exit 1

"$program" --port "$first" --handlers 128 2>"$folder/told" &
hub=$!
begun="$hub"
await "$first"
"$folder/relay" node $((first + 1)) "127.0.0.1:$first" &
begun="$begun $!"
await $((first + 1))
"$folder/relay" proxy $((first + 2)) "$node" &
proxy=$!
begun="$begun $proxy"
await $((first + 2))
haproxy=
if command -v haproxy >"$folder/path"; then
    cat >"$folder/haproxy.cfg" <<CONFIGURATION
global
    maxconn 1000
defaults
    mode http
    timeout connect 10s
    timeout client 60s
    timeout server 60s
    http-reuse always
frontend clients
    bind 127.0.0.1:$((first + 3))
    default_backend nodes
backend nodes
    server node $node
CONFIGURATION
    haproxy -db -f "$folder/haproxy.cfg" &
    haproxy=$!
    begun="$begun $haproxy"
    await $((first + 3))
    haproxy -v | head -n 1
fi

# measure NAME KIND PORT PID CLIENTS: one line of figures into NAME.KIND.CLIENTS.
measure() {
    "$folder/relay" "$2" "127.0.0.1:$3" "$4" "$5" "$seconds" >>"$folder/$1.$2.$5" || exit 1
}

for round in $(seq "$rounds"); do
    for clients in 16 64; do
        for kind in commands sessions; do
            measure hub $kind "$first" "$hub" $clients
            measure proxy $kind $((first + 2)) "$proxy" $clients
            [ -z "$haproxy" ] || measure haproxy $kind $((first + 3)) "$haproxy" $clients
        done
    done
done

# The median of a column.
median() {
    awk -v column="$2" '{ print $column }' "$1" | sort -n | awk '{ all[NR] = $1 } END { print all[int((NR + 1) / 2)] }'
}

for kind in commands sessions; do
    for clients in 16 64; do
        echo "$clients clients, $kind: a second, median and 99th percentile in microseconds, microseconds of processor each, KiB resident"
        for name in hub haproxy proxy; do
            file="$folder/$name.$kind.$clients"
            [ -f "$file" ] || continue
            printf '  %-8s' "$name"
            for column in 1 2 3 4 5; do
                printf ' %10s' "$(median "$file" $column)"
            done
            echo
        done
    done
done
