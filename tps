#!/bin/sh
# Runs the program with the words, the input, the output, the status and the folder of this call, and builds it first
# where it isn't built or a source is newer; standard error tells that, and how far the building is.
top=$(cd "$(dirname "$0")" && pwd)
program=$top/crates/process_main/out/process_main
if ! "$top/build" --is-built; then
    echo 'tps: the program is proved and built first: about 25 minutes on four processors from nothing, a line a crate' >&2
    rm -f "$program"
    "$top/build" </dev/null >&2
    [ -x "$program" ] || exit 70
fi
exec "$program" "$@"
