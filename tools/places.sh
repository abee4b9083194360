#!/usr/bin/env bash
# Where the sources read like an older Rattle: for each kind of place the lines that a search finds. With `-c`, only how
# many. docs/DESIGN-PASS.md says what each kind is and what became of it.
set -uo pipefail
cd "$(dirname "$0")/.."
count=${1:-}
src() { find crates -path '*/src/*.rt' -not -path '*/out/*' | sort; }
show() {
    local title=$1 lines=$2
    if [ "$count" = -c ]; then
        printf '%4d  %s\n' "$(printf '%s' "$lines" | grep -c .)" "$title"
    else
        printf '== %s\n%s\n' "$title" "$lines"
    fi
}
found() { show "$1" "$(src | xargs grep -nE "$2")"; }

found '1a an error or a none passed on by hand' 'Err\((why|_|_e)\) =>|if let Err\(|None => (return )?Err|None => 0|_ => (Err|None|Ok)'
found '1b a flag beside a value' '(goes_on|loading|is_[a-z]+): bool|Result<bool'
found '1c a number that stands for none' 'order. if none|if there is none|stands for none|[Pp]ast the row.s end|is 0 at a list.s end'
found '1d a number for a kind' '(Layout|Lengths|Misplaced)\([0-9]\)'
show '2a functions that only lend parts of arrays to another' "$(src | xargs grep -nE 'fn [a-z_]+_at(<|\()')"
found '2b functions that differ in a call, a type or a constant' 'fn (states_commuting|next_column|next_stored|columns|figures|column_working|row_working|work_columns|work_rows|carry_back|carry_forward|answer_column_working|answer_row_working|end_of_line|end_of_input|number_at|capacity_at|figure_at|with_word|with_index|with_figure|read_line|amounts|write_added|added_length|write_product|product_length|row_size)(<|\()'
found '3a a loop with a counter of its own' '^[[:space:]]*while '
found '3b a loop over indices' 'for \(?[a-z_, ]+\)? in [^{]*\.\.'
found '3c where a row lies, written out' 'words\[[a-z]+\] as usize\.\.(self\.|sheet\.)?words\[[a-z]+ \+ 1\] as usize'
found '4a an impl of a derivable or conversion trait' '^impl.* (fmt::Display|fmt::Debug|From<.*>|PartialEq|PartialOrd|Ord|Clone|Copy|Default|Hash) for'
found '4b a conversion that is a method' 'fn (new|value|number|place|in_days|told|amounts|blocks|waits)\('
found '5a a clause that says that a sheet is sound or paired' '(requires|ensures).*(Sound F|SideBySide index|length (figures|first_figures|second_figures)\.(now|old) ≡ length (words|index|first|second)\.)'
found '5b a parameter that is a part of a sheet, of a pair or of a list of entries' '^[[:space:]]+(words|first_end|first_figures|columns): (&|usize)|words: &\[u32\]'
found '5c a call on a book, by its three arrays' '^[[:space:]]+header2?: |header: &'
found '5d a word of a header, by its place' 'header\[[0-9]'
found '6 an array of fixed length' ': \[[A-Za-z0-9_]+; [0-9A-Z_]+\]|-> \[[A-Za-z0-9_]+; [0-9A-Z_]+\]'
found '7 a switch on what to do' 'match (command|call|self|part|line\.head|sent\.refusal|\(self)'
show '8 answers in proofs' "$(find crates -path '*/proofs/*' -name Answers.antt -not -path '*/out/*' | sort | xargs grep -n '^pub ')"
