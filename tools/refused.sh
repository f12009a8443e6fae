#!/bin/sh
# The build must reject calling code that enters a drawn line, enters a line twice, makes a checked line by hand or clones
# one, changes a sheet while a look stands, makes a look by hand, reaches into a sheet's table, or replaces its catalogue.
# Each file of crates/client/refused/ names the compiler's error in its first line; the rest of it is appended to a copy
# of the client crate, which is accepted as it stands, and the check must then fail with that very error.
set -u
root=$(cd "$(dirname "$0")/.." && pwd)
room=$(mktemp -d)
trap 'rm -rf "$room"' EXIT
cp -R "$root/crates" "$root/crates.txt" "$room/"
cd "$room" || exit 2
check_client() { (cd crates/client && rt check); }
bad=0
if ! check_client > accepted.log 2>&1; then
    echo "the client crate is not accepted as it stands"; tail -n 5 accepted.log; exit 1
fi
echo "accepted: the client crate as it stands"
cp crates/client/src/lib.rt client.rt
for case in crates/client/refused/*.txt; do
    want=$(sed -n 's/^error: //p' "$case")
    { cat client.rt; echo; sed 1d "$case"; } > crates/client/src/lib.rt
    check_client > refused.log 2>&1
    if [ -n "$want" ] && grep -qF "error[$want]" refused.log; then
        echo "rejected: $(basename "$case" .txt) ($want)"
    else
        echo "NOT rejected by $want: $case"; tail -n 5 refused.log; bad=1
    fi
    cp client.rt crates/client/src/lib.rt
done
exit $bad
