#!/bin/sh
# Two people have copies of one log, edit them apart, and exchange over a connection of this machine: both then show the same text.
# Run it at the top of the repository. It takes the program that PROGRAM names, else that of `make`, else that of `make quick`.
# A port may be given, else it is 7000.
set -e
program=$("$(dirname "$0")/../tools/program")
port=${1:-7000}
work=$(mktemp -d)
server=
trap 'test -z "$server" || kill "$server" 2> /dev/null || true; rm -rf "$work"' EXIT

printf 'COTLOG2\n' > "$work/empty"
"$program" edit 0 ins 0 'Agenda: budget' < "$work/empty" > "$work/shared"

# Ann, site 0, and Bob, site 1, know nothing of each other's edit.
"$program" edit 0 ins 8 'draft ' < "$work/shared" > "$work/ann"
"$program" edit 1 ins 14 ', staff' < "$work/shared" > "$work/bob"

"$program" serve "$port" < "$work/ann" > "$work/ann.new" &
server=$!

# Until Ann's program waits at the port, `join` ends with status 6.
tries=0
status=6
while [ "$status" -eq 6 ] && [ "$tries" -lt 50 ]; do
    sleep 0.1
    tries=$((tries + 1))
    status=0
    "$program" join "$port" < "$work/bob" > "$work/bob.new" || status=$?
done
test "$status" -eq 0
wait "$server"
server=

echo 'Ann:'
"$program" show < "$work/ann.new"
echo 'Bob:'
"$program" show < "$work/bob.new"
