#!/bin/sh
# Runs the program on its words and its standard input, and ends with its status.
#
# The built program runs where it is not older than its sources. Else its sources are run before
# their proof, which is told on standard error; `./build` proves and builds them. Statuses of the
# script's own: 7 where the sources could not be run to an end, 127 where `rt` is missing.
top=$(cd "$(dirname "$0")" && pwd) || exit 7
crate=$top/crates/alg_cli
program=$crate/out/alg_cli

newer_sources() {
    find "$top"/crates.txt "$top"/crates/*/src "$top"/crates/*/specs "$top"/crates/*/proofs \
        -type f -newer "$program" 2>/dev/null | head -n 1
}

if [ -x "$program" ] && [ -z "$(newer_sources)" ]; then
    exec "$program" "$@"
fi
if ! command -v rt > /dev/null; then
    echo "alg: not built yet, and the Rattle kit's command rt is not on the path" >&2
    exit 127
fi
echo "alg: running the sources before their proof, up to a minute; ./build proves and builds them" >&2
log=$(mktemp) || exit 7
trap 'rm -f "$log"' EXIT
(cd "$crate" && rt try -- "$@") 2> "$log"
status=$(sed -n 's/^run=ended status=\([0-9]*\) .*/\1/p' "$log")
if [ -z "$status" ]; then
    cat "$log" >&2
    echo "alg: no answer; ./build makes the program, which is faster and has more room" >&2
    exit 7
fi
exit "$status"
