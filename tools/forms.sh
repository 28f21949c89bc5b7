#!/bin/sh
# Lists the places where older forms stand or might stand, by point. Run at the top of a checkout; `tools/forms.sh -c` gives counts.
list() {
    title=$1
    shift
    if [ "$count" = -c ]; then
        printf '%s: %s\n' "$title" "$(grep -nE "$@" crates/*/src/*.rt | wc -l)"
    else
        printf '\n== %s\n' "$title"
        grep -nE "$@" crates/*/src/*.rt
    fi
}
count=$1
list '1 enums' '^ *(pub )?enum '
list '1 flags' ': bool,|bool>|-> \((bool|.*, bool)|^fn masks'
list '1 numbers for kinds' '\b(kind|inner): u8|\bkind [<>=]+ [0-9]|^ +[0-9]( \| [0-9])* => Ok'
list '1 enums as numbers' '[A-Za-z]::[A-Za-z]+(\(_\)| \{ \.\. \})? => [0-9]+,$'
list '2 functions and types' '^ *(pub(\(crate\))? )?(fn|struct|enum) '
list '3 loops' '^ *(for|while|loop)\b|= loop \{'
list '4 casts' ' as u(8|16|32)\b'
list '4 comparisons field by field' '\.(count|owner) (==|>|<|>=|<=) .*\.(count|owner)'
list '4 words, parsing and printing' 'fn (later|parse_|show|number|[a-z]+_word)|\.parse::<|^impl.* Display'
list '5 the ends lie within' 'Ends m\.(old|now)'
list '5 a station of the line' 'IsStation \(seen m\.(old|now)\) station'
list '5 the hand held is this one' 'hand_of \(seen m\.(old|now)\) [a-z.]+ ≡ Some'
list '5 the telegram has its places' 'Placed m\.now t'
list '5 room for all cabinets' 'm\.old\.sent \+ length m\.old\.replicas'
list '5 cabinets from 1 to 16' '1 ≤ (cabinets|number)'
list '5 each member told' 'Member k [a-z]+ → k < length tags'
list '6 lent slices and ends' "&'m mut \[|^ +pub (sent|written): usize"
list '6 arrays and vectors in types' '^ +(pub )?[a-z]+: (\[|Vec)'
list '7 switches on what to run' 'match (name|verb|command|choice|kind)(\.as_str\(\))? \{|if masks'
list '7 closures, dyn, tables' '[(,] *(move )?\|[a-z_, &*()]*\| |impl Fn|dyn |: fn\('
