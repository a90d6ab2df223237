#!/usr/bin/env bash
# tools/design_counts.sh [COMMIT]: the places of docs/DESIGN-PASS.md in crates/*/src, a line for each row of its table: how many, and by which pattern.
# Comments do not count. Without COMMIT it reads the files as they stand.
set -euo pipefail
cd "$(dirname "$0")/.."
rev=("$@")
count() { # what, pattern, [pattern of lines that do not count]
    local n
    n=$(git grep -hE -e "$2" ${rev[0]+"${rev[0]}"} -- 'crates/*/src/*.rt' | grep -vE '^ *//' | { [ $# -lt 3 ] && cat || grep -vE "$3"; } | wc -l) || true
    printf '%4d  %-58s %s\n' "$n" "$1" "$2"
}
count '1a enums of a value or a refusal, or of a value or none' '^(pub )?enum (Referent|Place|Located|Reading)\b'
count '1b structs with a refusal number beside their values' '^ +pub number: u32,'
count '1c refusals as literal numbers' '(return |refused\(|Refused\(|number: |\{ |=> |^    )(1?[1-9]|10|2[0-9]|30)[,;)]?( \}|$|\)|,|;)' '\{ 1 \} else|(Register|Byte|Half|Word) =>'
count '1d operations and words as literal numbers in a match' '^ +(0x[0-9a-f]{4}|[0-9]+) =>'
count '1e functions that give a refusal number, 0 for none' '^(pub )?fn (access|request|grid_place|arguments|before_call|number_of|number_for|put|refusal|judge_head|replay)\(.*-> u32$'
count '1f a number for none: 0 or a constant past the last' '(NOWHERE|UNDECIDED|NO_REGISTER)\b|(\(SLOT_ORDER|SLOT_ORDER\)|\bm|row|\)) == 0 \{|\{ COUNT \}'
count '3  loops with a condition' '\bwhile '
count '4a conversions by as' ' as (u8|u16|u32|u64|usize)\b'
count '4b conversions by own functions' '\b(wide|index)\('
count '7  matches on an operation or a word' 'match (op|operation|word|.*Operation.*) \{'
