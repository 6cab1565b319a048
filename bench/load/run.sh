#!/bin/sh
# Builds the load program with rustc, starts a hub of this checkout on the loopback, and runs its loads over it: how fast
# sessions go through the hub, clients that vanish beside nodes that fail, and many connections at once. Ends what it started.
#
# Usage: bench/load/run.sh [SECONDS [CLIENTS]]    10 seconds for each measurement, 10000 clients in trouble
# GRID_HUB names another hub's program, PORT another port than 4470.
set -u

here=$(cd "$(dirname "$0")" && pwd) || exit 2
top=$(dirname "$(dirname "$here")")
seconds=${1:-10}
clients=${2:-10000}
port=${PORT:-4470}
at=127.0.0.1:$port
folder=$(mktemp -d) || exit 2
hub=

finish() {
    [ -z "$hub" ] || { kill "$hub" && wait "$hub"; } 2>/dev/null
    rm -rf "$folder"
}
trap finish EXIT
trap 'exit 130' INT TERM

# Starts a hub with these options and waits until it answers.
start() {
    [ -z "$hub" ] || { kill "$hub" && wait "$hub"; } 2>/dev/null
    "$program" --port "$port" --handlers 128 "$@" 2>"$folder/told" &
    hub=$!
    tries=0
    until curl -s -o "$folder/status" "http://$at/status"; do
        tries=$((tries + 1))
        [ "$tries" -lt 200 ] || exit 1
        sleep 0.1
    done
}

program=${GRID_HUB:-$top/crates/grid_hub/out/grid_hub}
if [ ! -x "$program" ]; then
    echo "run.sh: builds grid_hub, which takes some minutes the first time" >&2
    (cd "$top/crates/grid_hub" && rt run -- --port x) >&2
fi
rustc --edition 2024 -O -o "$folder/load" "$here/main.rs" || exit 1
start
"$folder/load" speed "$at" "$hub" "$seconds" || exit 1
echo "the same over a plain hub"
kill "$hub" && wait "$hub" 2>/dev/null
"$folder/load" plain "$port" &
hub=$!
sleep 1
"$folder/load" speed "$at" "$hub" "$seconds" || exit 1
start --session-timeout 10
"$folder/load" trouble "$at" "$clients" || exit 1
# Both have a socket for each connection.
ulimit -n "$(ulimit -H -n)"
# As in the unit of docs/OPERATING.md: the C library hands large blocks back at once, and keeps no small ones between them.
export MALLOC_MMAP_THRESHOLD_="${MALLOC_MMAP_THRESHOLD_:-131072}"
export GLIBC_TUNABLES="${GLIBC_TUNABLES:-glibc.malloc.mxfast=0}"
status=0
for load in rest waiting large; do
    start --connections 12000 --session-timeout 600
    "$folder/load" "$load" "$at" "$hub" || status=1
done
exit "$status"
