#!/bin/sh
# Starts a hub and a node in memory on the loopback, drives one session through them with curl, shows each request with
# its answer, and ends both. Status 0: all went well; 1: something did not; 2: wrong arguments.
#
# Usage: examples/hub.sh [--try] [HUB_PORT [NODE_PORT]]    by default 4444 and 5555
# The programs are those of this checkout, proved and built where they aren't yet, which takes long the first time;
# GRID_HUB and GRID_NODE name others. With --try they are built without being proved, with checks in them.
set -u

usage() {
    echo "usage: examples/hub.sh [--try] [HUB_PORT [NODE_PORT]]" >&2
    exit 2
}

top=$(cd "$(dirname "$0")/.." && pwd) || exit 1
is_try=false
if [ "${1:-}" = --try ]; then
    is_try=true
    shift
fi
[ $# -le 2 ] || usage
case ${1:-}${2:-} in
*[!0-9]*) usage ;;
esac
hub_port=${1:-4444}
node_port=${2:-5555}
at=http://127.0.0.1:$hub_port
hub=
node=
folder=$(mktemp -d) || exit 1
answer=$folder/answer

# Ends what this script started, and nothing else.
finish() {
    for process in $node $hub; do
        kill "$process" 2>/dev/null && wait "$process" 2>/dev/null
    done
    rm -rf "$folder"
}
trap finish EXIT
trap 'exit 130' INT TERM

fail() {
    echo "hub.sh: $1" >&2
    exit 1
}

# The program of a crate. To prove and build it, it is run with a word that it refuses.
program() {
    if [ ! -x "$top/crates/$1/out/$1" ]; then
        echo "hub.sh: proves and builds $1" >&2
        (cd "$top/crates/$1" && rt run -- --port x) >&2
    fi
    [ -x "$top/crates/$1/out/$1" ] || fail "crates/$1 has no program in out/"
    echo "$top/crates/$1/out/$1"
}

# Builds the program of a crate without proving it, and runs it until this script ends, for ten minutes at most.
try() {
    cd "$top/crates/$1" || exit 1
    name=$1
    shift
    exec rt try --seconds 600 -- "$@" >"$folder/$name" 2>&1
}

# Waits until the hub's status has the text, for so many seconds, while the process runs: TEXT SECONDS PROCESS CRATE.
await() {
    tries=0
    until curl -s "$at/status" | grep -q "$1"; do
        tries=$((tries + 1))
        if [ "$tries" -ge $(($2 * 10)) ] || ! kill -0 "$3" 2>/dev/null; then
            [ ! -f "$folder/$4" ] || cat "$folder/$4" >&2
            fail "the hub's status never had $1"
        fi
        sleep 0.1
    done
}

# Shows a request and its answer: METHOD PATH [BODY].
ask() {
    printf '\n> %s %s\n' "$1" "$2"
    if [ $# -gt 2 ]; then
        printf '> %s\n' "$3"
        curl -sS -i -X "$1" -H 'Content-Type: application/json' -d "$3" "$at$2" >"$answer" || fail "no answer"
    else
        curl -sS -i -X "$1" "$at$2" >"$answer" || fail "no answer"
    fi
    cat "$answer"
    echo
}

# Ends unless the answer has the text.
expect() {
    grep -q "$1" "$answer" || fail "the answer has no $1"
}

if curl -s -o "$answer" "$at/status"; then
    fail "something answers at port $hub_port already"
fi
begun=$(date +%s)
if $is_try; then
    echo "hub.sh: builds the hub and the node, which takes a few minutes" >&2
    try grid_hub --port "$hub_port" &
    hub=$!
    try grid_node_main --hub "127.0.0.1:$hub_port" --port "$node_port" --browser chrome --slots 2 &
    node=$!
    seconds=600
else
    grid_hub=${GRID_HUB:-$(program grid_hub)} || exit 1
    grid_node=${GRID_NODE:-$(program grid_node_main)} || exit 1
    "$grid_hub" --port "$hub_port" &
    hub=$!
    "$grid_node" --hub "127.0.0.1:$hub_port" --port "$node_port" --browser chrome --slots 2 &
    node=$!
    seconds=20
fi
await '"ready":' "$seconds" "$hub" grid_hub
await '"ready":true' "$seconds" "$node" grid_node_main
echo "hub.sh: after $(($(date +%s) - begun)) s the hub is up at $at, with a node of two slots"

ask GET /status
expect '"availability":"UP"'
ask POST /session '{"capabilities":{"alwaysMatch":{"browserName":"chrome"}}}'
expect '^HTTP/1.1 200 '
session=$(sed -n 's/.*"sessionId":"\([^"]*\)".*/\1/p' "$answer")
ask POST "/session/$session/url" '{"url":"http://127.0.0.1/"}'
expect '{"value":null}'
ask GET "/session/$session/url"
expect '{"value":"http://127.0.0.1/"}'
ask GET /status
expect '"state":"BUSY"'
ask DELETE "/session/$session"
expect '{"value":null}'
if curl -s "$at/session/$session/url" | grep -vq 'no such session'; then
    fail "the session is still there"
fi
printf '\nhub.sh: all went well: a session was created, used and ended\n'
