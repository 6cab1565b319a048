#!/bin/sh
# Removes the registered node of a name from a hub, as before a driver is attached again under that name.
#
# Usage: examples/remove_node.sh HUB NAME    HUB is an address as 127.0.0.1:4444
# Status 0: no node has the name any more; 1: the hub can't be reached or answers an error; 2: wrong arguments.
set -u

usage() {
    echo "usage: remove_node.sh HUB NAME, with a NAME of letters, digits, '-', '_' and '.'" >&2
    exit 2
}

[ $# -eq 2 ] || usage
case $2 in
'' | *[!A-Za-z0-9._-]*) usage ;;
esac
status=$(curl -sS -f "$1/status") || exit 1
# The name is taken literally: of what a name may have, a dot alone means more in a pattern.
name=$(printf '%s' "$2" | sed 's/\./\\./g')
# A removed node is listed too while a session runs on it, and is not removed again.
nodes=$(printf '%s' "$status" | sed 's/{"node":/\n&/g' |
    sed -n -E "s/^\{\"node\":([0-9]+),\"name\":\"$name\",\"address\":\"([^\"\\\\]|\\\\.)*\",\"availability\":\"(UP|SUSPECT|DRAINING)\".*/\1/p")
if [ -z "$nodes" ]; then
    echo "remove_node.sh: no node is registered as $2" >&2
fi
for node in $nodes; do
    curl -sS --fail-with-body -X DELETE "$1/se/grid/distributor/node/$node" || exit 1
    echo
done
