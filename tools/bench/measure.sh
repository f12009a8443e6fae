#!/bin/sh
# The benchmarks: proves and builds ranges and the program bench.rt.txt, builds the C programs, checks that all answer the
# bench scripts as they should, and prints the tables of docs/BENCHMARKS.md. What it builds beside ranges stays in target/bench.
set -eu
root=$(cd "$(dirname "$0")/../.." && pwd)
here=$root/tools/bench
work=$root/target/bench
mkdir -p "$work"
room=$(mktemp -d)
trap 'rm -rf "$room"' EXIT
trap 'exit 130' INT TERM HUP
"$root/run" </dev/null >/dev/null
# bench is proved in a copy of the crates, which lies outside the repository: rt ci stops at a .rt file of no listed crate.
# The copy needs no out/, since rt takes what the repository's own has.
newer() { find "$root/crates" "$root/crates.txt" "$here/bench.rt.txt" -name out -prune -o -newer "$work/bench" -type f -print -quit; }
if [ ! -x "$work/bench" ] || [ -n "$(newer)" ]; then
    (cd "$root" && cp -R --parents crates/*/src crates/*/specs crates/*/proofs "$room")
    mkdir -p "$room/crates/bench/src"
    cp "$here/bench.rt.txt" "$room/crates/bench/src/main.rt"
    { cat "$root/crates.txt"; echo 'bench: binary32 counters catalogue'; } > "$room/crates.txt"
    echo "measure: proving and building bench, some minutes the first time (log: target/bench/log)" >&2
    # rt run proves, builds and runs it, here to measure nothing
    (cd "$room/crates/bench" && rt run </dev/null) > "$work/log" 2>&1 || { echo "measure: not proved; see target/bench/log" >&2; exit 1; }
    cp "$room/crates/bench/out/bench" "$work/bench"
fi
c='clang -O2 -Wall -Wextra'
$c -frounding-math -o "$work/hardware" "$here/hardware.c" -lm
$c -frounding-math -o "$work/byhand-plain" "$here/byhand.c" -lm
$c -frounding-math -DTUNED -o "$work/byhand-tuned" "$here/byhand.c" -lm
$c -o "$work/runs" "$here/runs.c"
python3 -B "$here/tables.py"
