#!/bin/sh
# What the program says on its standard error, and its status, where a command isn't done. The word is a port at which nobody waits.
# It takes the program that PROGRAM names, else that of `make`, else that of `make quick`.
program=$("$(dirname "$0")/../tools/program") || exit 1
said() {
    "$@" 2>&1 > /dev/null
    echo "status $?"
}
said "$program" help
said "$program" frobnicate
printf 'not a log' | said "$program" show
said "$program" show < /
said "$program" join "$1" < examples/hello.log
"$program" help 2>&1 > /dev/full
echo "status $?"
