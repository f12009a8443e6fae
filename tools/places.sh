#!/bin/sh
# Lists the places that the design pass looks at: tools/places.sh [FOLDER] prints, for each point, the lines of src/ that its pattern finds.
# The numbers, 1a to 7, are those of the points in docs/DESIGN-PASS.md.
cd "${1:-.}" || exit 1
show() {
    title=$1
    shift
    found=$("$@" | sort)
    count=$(printf '%s' "$found" | grep -c '')
    printf '== %s: %s\n%s\n' "$title" "$count" "$found"
}
find_in() { grep -rnE --include='*.rt' "$1" crates/*/src || true; }
show '1a a flag beside what was changed' find_in 'fn .*&mut .*-> bool'
show '1b arms over Option and Result that only pass on or turn' find_in '^ *(Some|Ok|Err|None)\b.* => (Some|None|Ok|Err|return|false|true|Answer|\{?$)'
show '1c a refusal or a missing value as another kind of value' find_in 'Declined\(|_ => [0-9]+,|-> Option<\(\)>|let (Some|Ok|Err)\(.*else|if let State::'
show '1d numbers for kinds, modes, registers and places' find_in '^ *(pub(\([a-z]+\))? )?(kind|modes|place|register|x|y|z|bits): u(8|32|64),|fn kind_(of|number)\(|fn outcome\(|fn number\(self'
show '3 loops that are counted or stepped by hand' find_in '^ *(while |for .* in [0-9a-z_]+\.\.)|\.enumerate\(\)'
show '4a comparing, converting and printing functions' find_in 'fn (equal|number|row|drawn|outcome|kind_of|kind_number|board_of|signed|expected|rank|is_empty|is_smaller|lies_inside|holds_all|ended|state|glyph|print[a-z_]*|look_at|only|pattern_of|rank_of|rank_to|pattern_to|from_[a-z]+|to_[a-z]+)\b'
show '4b small types without Debug and equality' find_in 'derive\(Clone, Copy\)|derive\(Drop\)'
show '5a preconditions' find_in '^ *requires'
show '6 arrays, bit sets and indices' find_in '\[[A-Za-z<>]+; [0-9]+\]|bits: u(8|64)|as usize\]'
show '7 kinds of step as values or flags' find_in 'enum (Asks|Operand|Event|Rest|Board)|\((up|rises|like|above|away|negative): bool|, (like|above|away): bool|dyn |impl Fn'
