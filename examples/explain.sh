#!/bin/sh
# Makes explain.log: site 1 typed x, site 0 typed a without knowing of it, and site 1 undid and redid its x.
# A log takes frames of operations that were made apart: they are put one after the other, and the header stands once.
# Run it at the top of the repository. It takes the program that PROGRAM names, else that of `make`, else that of `make quick`.
set -e
program=$("$(dirname "$0")/../tools/program")
work=$(mktemp -d)
trap 'rm -rf "$work"' EXIT
printf 'COTLOG2\n' > "$work/empty"
"$program" edit 1 ins 0 x < "$work/empty" > "$work/x"
"$program" edit 0 ins 0 a < "$work/empty" > "$work/a"
"$program" edit 1 undo 1.1 < "$work/x" > "$work/undone"
"$program" edit 1 redo 1.1 < "$work/undone" > "$work/redone"
header=8
x=$(wc -c < "$work/x")
{
    cat "$work/x"
    tail -c +$((header + 1)) "$work/a"
    tail -c +$((x + 1)) "$work/redone"
} > "$work/log"
mv "$work/log" examples/explain.log
