#!/bin/sh
# Counts the places of each point of docs/DESIGN-PASS.md in src/ (and, for point 8, in proofs/), at a commit: tools/design_counts.sh [COMMIT]
# A line is 'point letter: count - what', in the order of the page. Each count is one grep, so that a reader can list the places: put -n for -c.
set -eu
commit=${1:-HEAD}
cd "$(dirname "$0")/.."
places() {
    # label, pattern, what
    n=$(git grep -hE "$2" "$commit" -- 'crates/*/src/*.rt' | grep -cvE '^\s*//' || true)
    echo "$1: $n - $3"
}
files() {
    n=$(git grep -hE "$2" "$commit" -- "$4" | wc -l)
    echo "$1: $n - $3"
}
places '1a' 'pub const [A-Z_]+: u8 =' 'numbers for kinds, stages and refusals, declared'
places '1b' '(Answer|Reader)::[A-Z]+(_[A-Z]+)*\b|kind == [A-Z]+\b' 'lines that compare or hand on such a number'
places '1c' '(begun: bool, last: usize|pub struct Choice|pub struct Told)' 'a flag or a number of none with a value beside it, as parameters or a struct'
places '1d' '<= (u|v|first|node|edge|transfer|row)\b.*\{|(node|edge|transfer|state|row) < .*\.len\(\)|limit < (rows|at|made)|== NO_ROW|known == [01]|!= MARKED|!= 1 \{|mark_at\(' 'tests of a number that stands for none, or for yes and no'
places '2a' 'fn [a-z_]*(8|16|32|64)\b' 'functions named by a width'
places '2b' '^(pub(\(crate\))? )?fn (read_full|write_name|write_owed|take_byte|close|refusal|offer|try_rows|attempt|leave|begin|over|plain|rows|few|full|full_plain|full_rows|over_plain|over_rows|overfull|wide_short|narrow_short|room_5|room_6|short_room_plain|short_room_rows|ask_plain|ask_rows|ask_contracted|letter|write_letter)\b' 'functions that have a twin by name or by form'
places '2c' '^(pub(\(crate\))? )?fn first_bad_' 'scans for the lowest that breaks a rule'
places '3a' '^\s+while ' 'while loops'
places '3b' '^\s+[a-z]+ [+-]= 1;' 'lines that count by hand'
places '3c' '^\s+loop \{' 'loops with no head'
places '4a' 'fn (lighter|shorter|heavier|legs_told|word_of|wide8|wide16|wide32|most_shortcuts|show)\b' 'order, minimum, maximum, conversion by hand'
places '4b' '^\s+return (true|false);' 'returns of a truth value by hand'
places '5a' '^\s+node_modes: &|[(, ]node_modes: &' 'functions that take the network column by column'
places '5b' '^\s+shortcut_tails: &|[(, ]shortcut_tails: &' 'functions that take the shortcuts column by column'
places '5c' 'sheet: \[State; 8\]' 'functions that take the sheet as entries (and a count beside them)'
places '5d' '\(network (node_modes|\[\]).*lengths\.now\)' 'clauses that name the columns of the network one by one'
places '5e' '^\s+requires .*(Ready|Hinted|Even|Table|InTurn|Spacious|Addable|TestFits) ' 'requires that repeat a fact about what is lent'
places '5f' '^\s+wide: &(mut )?\[u64|[(, ]wide: &(mut )?\[u64' 'functions that take the two work rooms'
places '6a' 'n: usize.*\{|^\s+n: usize,|written: usize' 'a length beside a buffer'
places '6b' 'let mut (node_modes|shortcut_tails|tails|heads) = \[' 'parallel arrays made by a program'
places '7a' 'plain: bool|around: bool' 'a switch as a parameter'
places '7b' 'if kind == ' 'a switch on the kind of record'
files '8a' '^pub [^ ]+ : goal\.' 'answers' 'crates/*/proofs/**/Answers.antt'
files '8b' '^\s*pub [a-z_0-9-]+ :' 'public lemmas (and fields) outside answers' 'crates/*/proofs/*.antt'
