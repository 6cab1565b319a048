#!/bin/sh
# Writes a page of HTML and metrics for Prometheus from a hub's journal, each in place of the last at once, so that no reader
# meets half of one:
#     examples/show_journal.sh JOURNAL PAGE METRICS
# GRID_LOG says where the program is, else it is looked for in PATH. An entry that is still being written is left out.
set -u

if [ $# -ne 3 ]; then
    echo "usage: $0 JOURNAL PAGE METRICS" >&2
    exit 2
fi

# Writes what a word asks for, beside the file, and puts it in its place where it is whole.
show() {
    "${GRID_LOG:-grid_log}" "$1" < "$2" > "$3.new"
    status=$?
    # 3: the journal ends inside an entry, or inside its head, of which nothing is told.
    if { [ $status -eq 0 ] || [ $status -eq 3 ]; } && [ -s "$3.new" ]; then
        chmod 644 "$3.new" && mv "$3.new" "$3"
        return
    fi
    rm -f "$3.new"
    echo "$0: grid_log $1 ended with status $status" >&2
    return 1
}

failed=0
show --page "$1" "$2" || failed=1
show --metrics "$1" "$3" || failed=1
exit $failed
