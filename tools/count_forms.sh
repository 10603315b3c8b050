#!/bin/sh
# Prints the places of the older forms in src/, as docs/DESIGN-PASS.md counts them: `tools/count_forms.sh [-v]`, at the repository's root.
# With -v each line that is counted is printed too.

count() {
    found=$(grep -rnE -e "$2" crates/*/src | grep -vE '^[^:]*:[0-9]+: *//' | grep -vE "${3:-^\$}")
    printf '%-64s %s\n' "$1" "$(printf '%s' "$found" | grep -c .)"
    if [ "$verbose" = -v ] && [ -n "$found" ]; then printf '%s\n' "$found" | sed 's/^/    /'; fi
}

verbose=$1
count '1a tests that answer a refusal as an Option' '-> Option<Refusal>'
count '1b refusals handed on by hand' 'if let Some\(refusal\)|Err\(refusal\) => (return )?Err|return Err\((Fault::Refused\()?refusal|return Err\(Fault::(Refused\(Refusal|NoArchive)'
count '1c variants that say "none"' '^ *(Nothing|Neither|Unknown|Nowhere),$'
count '1d flags: bool fields, parameters, answers beside a value' ': bool[,)]|Result<bool'
count '2a bodies of impls that differ in a constant or a type' 'binary_(sum|product|inverse)::<|^ *Self::ORDER$|tables::[A-Z_]+\['
count '2b readers that differ in a count of tokens' 'fn read_(none|one|two|three|one_and_rest)\b|let \[.*\] = \*.*as_slice\(\) else'
count '2c printing of a numbered refusal' 'refused by \{'
count '3a while loops' '^ *while '
count '3b for loops over a range' '^ *for .* in .*\.\.'
count '3c for loops over items' '^ *for .* in ' '\.\.| for .* in \(?[a-z0-9]*\.\.'
count '4a Clone and Copy by hand' '^impl.* (Clone|Copy) for '
count '4b comparisons by hand' '^impl.* (PartialEq|Eq|PartialOrd|Ord|Hash) for '
count '4c names, copies and conversions as functions' 'fn (field_name|read_field|copied|count_at|add_section)\b'
count '4d casts' ' as (u8|u16|u32|u64|usize)\b'
count '5a shapes taken apart or passed as three numbers' 'shape\.[012]|shape: \(usize|let \(.*\) = .*shape\(\);|^ *limit: u32,$'
count '5b the parts of a description, listed' '^ *check_bays(: (u32|usize))?,$'
count '5c events and their count, passed together' 'events: &(mut )?\[Event\]|&(mut )?self\.events, self\.count'
count '6a arrays with a count beside, parallel buffers' 'used: usize|marks: (&mut \[u8\]|&.a \[u8\]|Vec<u8>)'
count '7a tests of a name, one after another' '\bis\((name|token), "'
count '7b a flag that picks the step' 'run_length\('
