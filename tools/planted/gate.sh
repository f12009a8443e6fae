#!/bin/sh
# What the rest of the gate says of bugs that are still proved: gate.sh CRATE/LABEL.. Each one is planted in a copy of the
# repository, and then every crate is checked and every program run, what must be derived is looked at, the code that the
# build must reject is tried, and the program is compared with the model. It says which of these fails first, or that none
# does; with --quick it leaves out the last two. A program that has the bug and is still proved is kept as
# target/planted/CRATE.LABEL.bin.
set -u
root=$(cd "$(dirname "$0")/../.." && pwd) || exit 2
quick=0
if [ "${1:-}" = --quick ]; then quick=1; shift; fi
kept=$root/target/planted
mkdir -p "$kept"
if ! mkdir "$kept/running" 2>/dev/null; then
    echo "gate.sh: it runs already; if not, remove $kept/running" >&2
    exit 2
fi
room=$(mktemp -d)
trap 'rm -rf "$room" "$kept/running"' EXIT
trap 'exit 130' INT TERM HUP
for what in "$@"; do
    crate=${what%%/*} label=${what#*/}
    said=$kept/$crate.$label.gate
    rm -rf "${room:?}"/*
    # rt takes what the repository's own out/ has, so the copy needs none; and the edits that must fail say nothing here
    tar -C "$root" --exclude='crates/*/out' --exclude='crates/*/must-fail' -cf - crates crates.txt tools run | tar -C "$room" -xf - || exit 2
    python3 -B "$root/tools/planted/plant.py" "$room/crates/$crate" "$root/tools/planted/$crate/$label.edit" || exit 2
    # the crate itself, and whatever depends on it
    above=$(awk -v crate="$crate" '
        /^#/ || !NF { next }
        { name = $1; sub(/:$/, "", name); names[++n] = name; deps[name] = " " $0 " " }
        END {
            hit[crate] = 1
            for (more = 1; more;) { more = 0; for (i = 1; i <= n; i++) for (d in hit) if (!hit2[names[i]] && !(names[i] in hit) && index(substr(deps[names[i]], length(names[i]) + 3), " " d " ")) { hit[names[i]] = 1; more = 1 } }
            for (i = 1; i <= n; i++) if (names[i] in hit) printf "%s ", names[i]
        }' "$room/crates.txt")
    # rt ci refuses a file that is not laid out, whatever it says
    (cd "$room/crates/$crate" && rt fmt) >"$said" 2>&1
    # shellcheck disable=SC2086
    (cd "$room" && RT_JOBS=1 nice -n 10 rt ci $above) >>"$said" 2>&1
    status=$?
    if [ -f "$room/crates/$crate/src/main.rt" ]; then
        (cd "$room/crates/$crate" && nice -n 10 rt run </dev/null) >"$room/run.log" 2>&1
        cp -f "$room/crates/$crate/out/$crate" "$kept/$crate.$label.bin" 2>/dev/null
    fi
    if [ $status -ne 0 ]; then
        echo "$what: refused by rt ci: $(grep -E '^rt: .*(NOT PROVED|FAILED|what the program wrote|the program (ended|had not ended|was stopped))' "$said" | head -n 1 | cut -c1-200)"
        continue
    fi
    if ! "$room/tools/derived.sh" >>"$said" 2>&1; then
        echo "$what: refused by tools/derived.sh: $(tail -n 1 "$said")"
        continue
    fi
    if [ $quick -eq 0 ]; then
        if ! (cd "$room" && tools/refused.sh) >>"$said" 2>&1; then
            echo "$what: refused by tools/refused.sh: $(grep 'NOT rejected' "$said" | head -n 1)"
            continue
        fi
        if ! (cd "$room" && ./run </dev/null >/dev/null && nice -n 10 python3 -B tools/compare/compare.py) >>"$said" 2>&1; then
            echo "$what: refused by tools/compare: $(tail -n 1 "$said" | cut -c1-200)"
            continue
        fi
    fi
    if [ $quick -eq 1 ]; then echo "$what: proved, built and run as before; the last two were not tried"; else echo "$what: NOTHING REFUSES IT"; fi
done
