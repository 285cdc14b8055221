#!/usr/bin/env bash
# Proves and builds the program where that is not done yet, and runs it: ./plot [KIND [BLOCKS [FILE]]]
set -eu
root=$(cd "$(dirname "$0")" && pwd)
log="$root/target/plot.log"
program="$root/crates/plot/out/plot"
mkdir -p "$root/target"
[ -x "$program" ] || echo "plot: proving and building the program first; this takes a minute or two, once" >&2
# What builds the program also runs it once, with no file named: it writes nothing.
if ! (cd "$root/crates/plot" && rt run </dev/null) >"$log" 2>&1; then
    echo "plot: the program could not be proved and built; target/plot.log says why" >&2
    exit 1
fi
exec "$program" "$@"
