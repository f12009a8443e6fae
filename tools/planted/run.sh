#!/bin/sh
# Plants the bugs of tools/planted/CRATE/*.edit, one at a time, and says of each where the check refuses it, or that the
# crate is STILL PROVED with it. run.sh tries all crates; run.sh CRATE.. some; run.sh CRATE/LABEL.. single bugs.
# It works on a copy, in which the planted bugs take the place of the edits that must fail. The results are kept in
# target/planted/results.txt. rt must-fail judges and keeps no log, so a bug that it refuses is checked once more, to see
# where: that log is kept in target/planted/CRATE/LABEL.log.
set -u
root=$(cd "$(dirname "$0")/../.." && pwd) || exit 2
here=$root/tools/planted
kept=$root/target/planted
mkdir -p "$kept"
if ! mkdir "$kept/running" 2>/dev/null; then
    echo "run.sh: it runs already; if not, remove $kept/running" >&2
    exit 2
fi
room=$(mktemp -d)
trap 'rm -rf "$room" "$kept/running"' EXIT
trap 'exit 130' INT TERM HUP
if [ $# -eq 0 ]; then
    set -- words commands answers session promise counters client examples worked ranges vectors long_use sheet catalogue binary32
fi
# rt takes what the repository's own out/ has, so the copy needs none
tar -C "$root" --exclude='crates/*/out' --exclude='crates/*/must-fail' -cf - crates crates.txt | tar -C "$room" -xf - || exit 2
touch "$kept/results.txt"

note() { # CRATE/LABEL RESULT
    grep -v "^$1 " "$kept/results.txt" >"$room/others" || true
    { cat "$room/others"; echo "$1 $2"; } | sort >"$kept/results.txt"
    echo "$1: $2"
}

# What rt says of an edit: its line, and the line after it where that still tells of the same edit.
said_of() { # CRATE LABEL
    grep -F -A 1 "rt: must-fail $1/$2.edit: " "$kept/$1.out" | sed '2{/^rt: /d}' | head -n 2 | tr '\n' ' '
}

survived=0
for what in "$@"; do
    crate=${what%%/*}
    case $what in */*) only=${what#*/} ;; *) only='*' ;; esac
    mkdir -p "$room/crates/$crate/must-fail" "$kept/$crate"
    labels=
    for edit in "$here/$crate"/$only.edit; do
        label=$(basename "$edit" .edit)
        if [ ! -f "$edit" ]; then echo "run.sh: there is no $edit" >&2; exit 2; fi
        if ! why=$(python3 -B "$here/plant.py" --look "$room/crates/$crate" "$edit"); then
            note "$crate/$label" "DOES NOT FIT: $why"; survived=1; continue
        fi
        cp "$edit" "$room/crates/$crate/must-fail/"
        labels="$labels $label"
    done
    [ -n "$labels" ] || continue
    (cd "$room" && RT_JOBS=1 nice -n 10 rt must-fail "$crate") >"$kept/$crate.out" 2>&1
    rm -rf "$room/crates/$crate/must-fail" "$room/src"
    cp -R "$room/crates/$crate/src" "$room/src"
    for label in $labels; do
        log=$kept/$crate/$label.log
        said=$(said_of "$crate" "$label")
        case $said in
        *': refused, '*)
            python3 -B "$here/plant.py" "$room/crates/$crate" "$here/$crate/$label.edit"
            (cd "$room/crates/$crate" && nice -n 10 rt check) >"$log" 2>&1
            rm -rf "$room/crates/$crate/src"
            cp -R "$room/src" "$room/crates/$crate/src"
            note "$crate/$label" "refused $(python3 -B "$here/where.py" "$log")" ;;
        *': NOT REFUSED: '*) note "$crate/$label" "STILL PROVED"; survived=1 ;;
        *': BAD EDIT: '*) note "$crate/$label" "BAD EDIT, not a fact that fails: ${said##*BAD EDIT: }"; survived=1 ;;
        *) note "$crate/$label" "NOT TRIED: see target/planted/$crate.out"; survived=1 ;;
        esac
    done
done
exit $survived
