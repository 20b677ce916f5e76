#!/bin/sh
# Lists the places in the crates' sources that may be written in a newer form, a heading for each kind of place with how many there are.
# tools/places.sh counts, tools/places.sh -l lists them too. docs/DESIGN-PASS.md tells what was done about them.
cd "$(dirname "$0")/../crates" || exit 1
list=$1

report() {
    found=$(cat)
    if [ -z "$found" ]; then n=0; else n=$(printf '%s\n' "$found" | wc -l); fi
    printf '%4d  %s\n' "$n" "$1"
    if [ "$list" = -l ] && [ "$n" -gt 0 ]; then printf '%s\n' "$found" | sed 's/^/          /'; fi
}

of() { grep -nE "$1" */src/*.rt; }

# Enums by hand, numbers for kinds
of '^ *[0-9]+ => |=> \(?[0-9]+[,)]' | report '1a a number in an arm, for what it is matched with or for what is given'
of 'Result<[^;{]*, (u8|u16|u32|u64|usize)>' | report '1b a number as the error of a Result'
grep -nE -A1 '(else|none\(\)|err\(\)) \{$' */src/*.rt | grep -E 'return (None|Err)' | report '1c a let .. else that returns None or an Err'
of '^ *(Err\(_\)|Some\(_\)|Ok\([a-z()]*\)|Err\([a-z]+\)) => (Err|Ok|None|Some|Answer)' | report '1d an arm that makes one Option or Result of another'
of '\b(gone|come)(: usize|,$| = )' | report '1e a count that is 0 or 1'
# Twins
grep -oE '\b(fn|const|struct|enum) [A-Za-z_0-9]+' */src/*.rt | sort -u | awk -F: '{print $2}' | sort | uniq -c | awk '$1 > 1 && $3 != "main" && $3 != "fmt" && $3 != "from" {print $2, $3, "in", $1, "files"}' | report '2a a name that several files define'
# Index loops
of '^ *(for [a-z_]+ in [^{]*\.\.|while [^l])' | report '3a a loop over a range of numbers, or with a test'
# Written by hand
of '\bfn (number|place|place_of|kind|form|of|verb_of|keyword_of|key_of|letter_of|hex_digit|field|seen|add|opening_number|refused_by)\(' | report '4a a function that turns one type into another, or adds'
of 'impl(<[^>]*>)? (From|TryFrom|fmt::Display|Iterator|AddAssign)' | report '4b the same as an impl of a trait'
of 'derive\(.*(PartialEq|Debug|Default)' | report '4c a derive of more than copying'
# Facts and parameters
for fact in '64 ≤ length rest' 'bulk ≤ length work' 'slot_place bulk' 'LineFits' 'Broken sheet' 'Opened tokens' 'HasRoom' '36864 ≤' 'length words.now ≤ 8'; do
    of "(requires|ensures).*$fact" | report "5a a clause with: $fact"
done
of 'fn .*tokens: &(mut )?\[u8\], rest: &(mut )?\[u64\]|^ *rest: &mut \[u64\],' | report '5b a function of both lent slices'
of 'fn .*work: &(mut )?\[u64\], sheet' | report '5c a function of the working part and a sheet'
# Buffers with a length
of '\[(u64|u8)\], (n|bulk|written): usize' | report '6a a slice with a length beside it'
# Closures
of '\|[&a-z_, ]+\||F: Fn|impl Fn' | report '7a a closure, or a bound on one'
