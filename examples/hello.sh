#!/bin/sh
# Makes hello.log: a text that site 0 typed, from which site 1 deleted the first character, and site 2 took that back.
# Run it at the top of the repository. It takes the program that PROGRAM names, else that of `make`, else that of `make quick`.
set -e
program=$("$(dirname "$0")/../tools/program")
work=$(mktemp -d)
trap 'rm -rf "$work"' EXIT
printf 'COTLOG2\n' > "$work/0"
"$program" edit 0 ins 0 Hello < "$work/0" > "$work/1"
"$program" edit 0 ins 5 ', you' < "$work/1" > "$work/2"
"$program" edit 1 del 0 < "$work/2" > "$work/3"
"$program" edit 2 undo 1.1 < "$work/3" > "$work/4"
mv "$work/4" examples/hello.log
