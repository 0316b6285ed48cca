#!/bin/sh
# The lines of src/ at a commit among which the places of docs/DESIGN-PASS.md are found.
# design_places.sh COMMIT counts the lines of each point; design_places.sh COMMIT POINT shows them.
set -eu
commit=$1 point=${2:-all}
lines() { # POINT PATTERN
    if [ "$point" = all ]; then
        echo "point $1: $(git grep -nE "$2" "$commit" -- 'crates/*/src/*.rt' | wc -l) lines"
    elif [ "$point" = "$1" ]; then
        git grep -nE "$2" "$commit" -- 'crates/*/src/*.rt'
    fi
}
lines 1 '^ *(pub )?enum |^ *[a-z_]+: bool,$|Option<\(|class: u16|-> bool$|-> bool [;{]|file: &|fn number'
lines 2 '^ *(pub(\(crate\))? )?(fn|struct|enum) '
lines 3 '\bfor [a-z_(&, )]+ in |\bwhile\b|\bloop\b|(wrapping|saturating)_add\('
lines 4 'fn (number|from_[a-z_]+|to_[a-z_]+|named|kind|bit|digit|done|value|[a-z]+_(digit|word|name|of))\(|matches!|impl.* (From|TryFrom|FromStr|Display|PartialEq|Ord)\b'
lines 5 '^ +(requires|ensures) |^ +ghost [a-z_]+: '
lines 6 'Vec<|: \[[A-Za-z0-9_<>]+; |usize,$|\[[a-z_]+( as usize)?\]'
lines 7 '\bmatch \b|\bdyn \b|Box<|\bimpl Fn|\bFn(Mut|Once)?\('
