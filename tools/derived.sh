#!/bin/sh
# No impl of PartialEq, Eq, PartialOrd, Ord, Hash, Clone, Copy or Debug in crates/*/src may be written by hand, nor may one
# of these get another name there: they must be derived, since no contract says what an equality, an order, a hash, a copy
# or a debug text of a type is. A debug text that a contract tells (`ghost debug_output`) may be written by hand; today that
# of a sheet alone is (sheet/src/sheet.rt). And nothing there may use `forget`, `leak`, `into_raw` or `ManuallyDrop`, since no
# contract sees memory that is not given back. Each place that does is named by file and line. Lines of comment are passed
# over.
set -eu
cd "$(dirname "$0")/.."
find crates/*/src -type f -exec awk '
    function line_at(spot) { return gsub(/\n/, "&", text) - gsub(/\n/, "&", rest) + gsub(/\n/, "&", spot) }
    function found(pattern, what, unless,   spot) {
        rest = text
        while (match(rest, pattern)) {
            spot = substr(rest, 1, RSTART)
            if (unless == "" || substr(rest, RSTART + RLENGTH) !~ unless) {
                printf "%s:%d: %s\n", file, line_at(spot), what
                bad = 1
            }
            rest = substr(rest, RSTART + RLENGTH)
        }
    }
    function look() {
        found(edge "impl" edge "([^{;]*" edge ")?" named "(<[^{;]*>)?[ \n]+for" edge, "an impl of what must be derived", told)
        found(edge named "[ \n]+as" edge, "another name for what must be derived", "")
        found(edge "(forget|leak|into_raw|ManuallyDrop)" edge, "memory that may not be given back", "")
    }
    BEGIN {
        edge = "[^A-Za-z0-9_]"
        # a debug text that a contract tells
        told = "^[^{]*[{][ \n]*ghost debug_output = "
        named = "(PartialEq|Eq|PartialOrd|Ord|Hash|Clone|Copy|Debug)"
    }
    FNR == 1 { if (file) look(); file = FILENAME; text = "\n" }
    { text = text (/^ *\/\// ? "" : $0) "\n" }
    END { if (file) look(); exit bad }
' {} +
