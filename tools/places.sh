#!/bin/sh
# Counts the places that docs/DESIGN-PASS.md is about, in the tree that this file stands in, point by point. A line counts what its command finds, also where the
# place is meant to be so: the page says which of them are.
cd "$(dirname "$0")/.." || exit 2
sources=$(ls crates/*/src/*.rt)
count() { printf '%-62s %6s\n' "$1" "$2"; }
hits() { # WHAT PATTERN
    # shellcheck disable=SC2086
    count "$1" "$(cat $sources | grep -cE "$2")"
}
# Functions whose parameters have both patterns.
both() { # WHAT PATTERN PATTERN
    # shellcheck disable=SC2086
    count "$1" "$(cat $sources | perl -0ne 'while (/fn \w+(?:<[^>]*>)?\(([^)]*)\)/g) { $p = $1; $n++ if $p =~ /'"$2"'/ && $p =~ /'"$3"'/ } print $n + 0')"
}

hits '1 enums' '^(pub(\(crate\))? )?enum '
hits '1 truth values in a struct' '^    (pub(\(crate\))? )?[a-z_]+: bool,$'
hits '1 numbers that stand for none' '== 16|65536$|NO_NUMBER\b|NEVER|NO_NAME|return (16|h|held|i|count);'
hits '1 numbers for kinds' '(\bop|\bkind|guard|refused|width) (==|!=|<=|<) [0-9]|match (op|guard|b|i) \{'
hits '1 refusals by number, with their zeros' '\b(put|put_refusal|put_numbers|refuse)\((rt, |page, )?[0-9]+,'
# shellcheck disable=SC2086
count '2 names that stand in two files' "$(grep -hoE '^ *(pub(\(crate\))? )?(fn|struct|enum|const) [A-Za-z_0-9]+' $sources | awk '{ print $NF }' | sort | uniq -d | wc -l)"
hits '3 while and loop' '^ +(while|loop)\b'
hits '4 tests, copies and conversions with a function of their own' 'fn (is_[a-z]+|same|copy|fill|larger|less|byte|noted|high|low|hex_digit|digit|number|line|store)\b'
hits '4 lines with a cast' ' as (u8|u16|usize)\b'
hits '5 clauses with a fact that many repeat' '^ +requires.*\b(Fits|Ready|PlaceIn|Read|At|Starts|Going|Entered|WellFormed)\b'
both '5 functions that take tables and what belongs to them' 'tables: &' '(grades|rises|old): &'
hits '6 arrays of a fixed size' '\[(0u8|0usize|NEVER|0u16|1u8); '
both '6 buffers with a place or a length beside' '(page|bytes|out|steps): &(.a )?mut' '\b(at|n|i): usize'
hits '7 functions as parameters, and dyn' 'Fn\(|FnMut|FnOnce|dyn |: fn\('
answers=$(find crates/*/proofs -name Answers.antt)
count '8 files of answers' "$(printf '%s\n' "$answers" | wc -l)"
# shellcheck disable=SC2086
count '8 lines of answers' "$(cat $answers | wc -l)"
count '8 lines of proofs' "$(find crates/*/proofs -name '*.antt' -exec cat {} + | wc -l)"
