#!/bin/sh
# Starts a hub and a node in memory behind HAProxy by haproxy.cfg, shows what it lets through and what it refuses, and ends
# all three. Status 0: all went well; 1: something did not; 2: wrong arguments.
#
# Usage: examples/behind_haproxy.sh [--try] [PORT]    PORT is that for clients, by default 4443; the next is the hub's, the
# one after it that for nodes. Needs Debian's haproxy, openssl and curl. GRID_HUB and GRID_NODE name programs that are there;
# else tools/install builds them, with --try without a proof.
set -u

usage() {
    echo "usage: examples/behind_haproxy.sh [--try] [PORT]" >&2
    exit 2
}

top=$(cd "$(dirname "$0")/.." && pwd) || exit 1
try=
if [ "${1:-}" = --try ]; then
    try=--try
    shift
fi
[ $# -le 1 ] || usage
case ${1:-} in
*[!0-9]*) usage ;;
esac
CLIENTS=${1:-4443}
hub_port=$((CLIENTS + 1))
NODES=$((CLIENTS + 2))
node_port=$((CLIENTS + 3))
HUB=127.0.0.1:$hub_port
hub=
node=
proxy=
folder=$(mktemp -d) || exit 1
CERTIFICATE=$folder/certificate
TESTER=$(openssl rand -hex 16) || exit 1
OPERATOR=$(openssl rand -hex 16) || exit 1
export CLIENTS NODES HUB CERTIFICATE TESTER OPERATOR

# Ends what this script started, and nothing else.
finish() {
    for process in $node $proxy $hub; do
        kill "$process" 2>/dev/null && wait "$process" 2>/dev/null
    done
    rm -rf "$folder"
}
trap finish EXIT
trap 'exit 130' INT TERM

fail() {
    echo "behind_haproxy.sh: $1" >&2
    [ ! -s "$folder/proxy" ] || tail -3 "$folder/proxy" >&2
    exit 1
}

# Makes a request and shows its status, which has to be the one that is due: STATUS WHAT CURL'S ARGUMENTS.
ask() {
    due=$1
    what=$2
    shift 2
    status=$(curl -s --cacert "$folder/public" -o "$folder/answer" -w '%{http_code}' "$@")
    echo "$status: $what"
    [ "$status" = "$due" ] || fail "$due was due"
}

clients=https://localhost:$CLIENTS
nodes=http://127.0.0.1:$NODES
chrome='{"capabilities":{"alwaysMatch":{"browserName":"chrome"}}}'
other='{"name":"other","address":"127.0.0.1:1","maxSessions":1,"slots":[{"count":1,"stereotype":{"browserName":"firefox"}}]}'

command -v haproxy >/dev/null || fail "there is no haproxy on the path: apt-get install haproxy"
if [ -z "${GRID_HUB:-}" ] || [ -z "${GRID_NODE:-}" ]; then
    "$top/tools/install" "$folder" $try grid_hub grid_node || fail "the programs could not be built"
fi
openssl req -x509 -newkey rsa:2048 -nodes -days 1 -subj /CN=localhost -addext subjectAltName=DNS:localhost \
    -keyout "$folder/key" -out "$folder/public" 2>/dev/null || fail "no certificate could be made"
cat "$folder/public" "$folder/key" >"$CERTIFICATE"

"${GRID_HUB:-$folder/bin/grid_hub}" --port "$hub_port" --host 127.0.0.1 &
hub=$!
haproxy -db -f "$top/examples/haproxy.cfg" 2>"$folder/proxy" &
proxy=$!
# The node registers by the proxy, from an address that may.
"${GRID_NODE:-$folder/bin/grid_node}" --hub "127.0.0.1:$NODES" --port "$node_port" --browser chrome --slots 2 2>/dev/null &
node=$!
tries=0
until curl -s --cacert "$folder/public" -u "tester:$TESTER" "$clients/status" | grep -q '"ready":true'; do
    tries=$((tries + 1))
    if [ "$tries" -ge 300 ] || ! kill -0 "$proxy" 2>/dev/null || ! kill -0 "$hub" 2>/dev/null; then
        fail "no node came up behind the proxy"
    fi
    sleep 0.1
done
echo "behind_haproxy.sh: the proxy is up at $clients, with a hub and a node behind it"

ask 401 "no password, no answer" "$clients/status"
ask 401 "another password" -u tester:x "$clients/status"
ask 200 "a tester sees the status" -u "tester:$TESTER" "$clients/status"
ask 200 "and opens a session" -u "tester:$TESTER" -d "$chrome" "$clients/session"
session=$(sed -n 's/.*"sessionId":"\([^"]*\)".*/\1/p' "$folder/answer")
ask 200 "sends a command" -u "tester:$TESTER" -d '{"url":"http://127.0.0.1/"}' "$clients/session/$session/url"
ask 200 "and ends it" -u "tester:$TESTER" -X DELETE "$clients/session/$session"
ask 403 "but clears no queue" -u "tester:$TESTER" -X DELETE "$clients/se/grid/newsessionqueue/queue"
ask 403 "also not by the older path" -u "tester:$TESTER" -X DELETE "$clients/wd/hub/se/grid/newsessionqueue/queue"
ask 400 "nor by a target that names a host" -u "tester:$TESTER" -X DELETE \
    --request-target http://localhost/se/grid/newsessionqueue/queue "$clients"
ask 200 "an operator does" -u "operator:$OPERATOR" -X DELETE "$clients/se/grid/newsessionqueue/queue"
ask 403 "a node from another address is not registered" --interface 127.0.0.2 -d "$other" "$nodes/se/grid/distributor/node"
ask 200 "one from an address of the list is" -d "$other" "$nodes/se/grid/distributor/node"
ask 200 "and gives a sign of life" -X POST "$nodes/se/grid/distributor/node/2/beat"
ask 403 "the nodes' port opens no session" -d "$chrome" "$nodes/session"
ask 403 "and drains no node" -X POST "$nodes/se/grid/distributor/node/1/drain"
echo "behind_haproxy.sh: all went well"
