#!/bin/sh
# Lists the places in the code where an older form may stand, as of a commit: tools/forms.sh [COMMIT]
# It goes by text, so each line still has to be read; docs/DESIGN-PASS.md says what was found.
at=${1:-HEAD}
list() {
    name=$1
    shift
    found=$(git grep -nE "$@" "$at" -- 'crates/*/src/*' | sed "s|^$at:crates/||")
    echo "## $name: $(printf '%s' "$found" | grep -c .)"
    [ -z "$found" ] || printf '%s\n' "$found"
}
list 'enums' '^ *(pub(\([a-z]+\))? )?enum '
list 'a flag inside an option or a pair' 'Option<bool>|Option<Option|\(bool,|, bool\)'
list 'odd colours as numbers' '\b(p|q|colour|odd): u(8|16)\b'
list 'numbers that stand for none' 'for none|one more than the row'
list 'structs' '^ *(pub(\([a-z]+\))? )?struct '
list 'loops' '^ *(.[a-z_]+: )?(for|while|loop)\b'
list 'conversions, comparisons and printing by hand' '^impl.* (From|TryFrom|FromStr|PartialEq|PartialOrd|Ord|Clone|Hash|fmt::Display|fmt::Debug)\b.* for |^ *(pub(\([a-z]+\))? )?fn (same|same_clock|is_everywhere|is_from_zero|lesser_fault|of_text|of_table|losing_loop|is_for|is_word|asked)\b'
list 'one call for each clock or colour' '^ *(&& |\|\| )?(x|y|z|tick|one|three|five|seven): [a-z_:.]+\(|(\.|[a-z_]\()(x|one)\b.*(&&|\|\|)|keeps_for\(ranks|push_column\(columns'
list 'buffers of a fixed length' '\[[^]]*; [A-Z_]+\]'
list 'an index in a read' '[a-z_)]\[[^];]+\]'
list 'switches and functions as values' 'forward|impl Fn|dyn |: fn\(|<F: Fn'
