#!/bin/sh
# Runs `ranges` under valgrind on the scripts of the repository and on those that tools/compare makes:
#
#     tools/fuzz/valgrind.sh [PROGRAM]
#
# It fails on any error of memory use, on memory that is not given back by the end, on a status other than 0, and where
# the answers are not those of a run without valgrind. It takes some minutes and is no part of the whole test.
set -eu
root=$(cd "$(dirname "$0")/../.." && pwd)
program=${1:-$root/crates/ranges/out/ranges}
if [ ! -x "$program" ]; then echo "there is no $program" >&2; exit 2; fi
command -v valgrind >/dev/null || { echo "valgrind is wanted" >&2; exit 2; }
work=$(mktemp -d)
trap 'rm -rf "$work"' EXIT
mkdir "$work/scripts"
python3 -B - "$root/tools" "$work/scripts" <<'PYTHON'
import pathlib
import sys
tools, out = sys.argv[1:]
sys.path[:0] = [tools + "/fuzz", tools + "/compare"]
import compare
import scripts
found = [*scripts.scripts_of_repository().values(), *compare.edges(), *compare.random_scripts(400)]
for number, script in enumerate(found):
    pathlib.Path(out, f"{number:04}").write_bytes(script)
PYTHON
done=0
for script in "$work"/scripts/*; do
    status=0
    valgrind --quiet --error-exitcode=99 --leak-check=full --show-leak-kinds=all --errors-for-leak-kinds=all \
        "$program" < "$script" > "$work/answers" 2> "$work/log" || status=$?
    plain=0
    "$program" < "$script" > "$work/plain" || plain=$?
    if [ "$status" -ne 0 ] || [ "$plain" -ne 0 ] || [ -s "$work/log" ] || ! cmp -s "$work/answers" "$work/plain"; then
        cp "$script" /tmp/ranges-valgrind.txt
        cat "$work/log"
        echo "status $status under valgrind, $plain without, on /tmp/ranges-valgrind.txt"
        exit 1
    fi
    done=$((done + 1))
done
echo "valgrind found no error on $done scripts"
