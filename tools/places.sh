#!/bin/bash
# The places in src/ that the design pass looks at, point by point: `tools/places.sh [COMMIT]` prints the lines and how many
# there are. Each pattern finds more than the places, which are picked from its lines by reading them (docs/DESIGN-PASS.md).
cd "$(dirname "$0")/.." || exit 1
commit=${1:-HEAD}

look() {
    echo "== $1"
    git grep -nE "$2" "$commit" -- 'crates/*/src/*.rt' | sed "s/^$commit://" | tee /dev/stderr | wc -l
} 2>&1

look '1a own enums' '^(pub(\(crate\))? )?enum '
look '1b numbers for kinds and refusals' '\b(number|kind|governor|origin): u8|fn (question|origin_number)\(|const [A-Z]+: u8 = [0-9]+;|Option<Option'
look '1c flags' ': bool,|-> anyhow::Result<bool>'
look '1d a number that stands for none' '^ *//.*; the (count|length) where|^ *//.*or the length where'
look '2 functions that stand twice' 'fn (published|digit|digit_value|letters|name_text|refusal|same_kind|same_governor|has_flag|is_present|governor_fits|answer_(one|two|upper)|put_questions|extend|count_over|look|count_all)\b|char::from\(a\)|^const [A-Z]+_[0-9]+: \[TableRow'
look '3 loops' 'for [a-z_]+ in .*\.\.|while |saturating_add\(1\)'
look '3 an answer that cannot come' 'unreachable\(\)'
look '4 equality, conversion and printing' 'fn (refusal|name|question|part_name|same_kind|same_governor|is_octet|is_bit|letters|name_text|governor_text|bits_text|digit|digit_value|decode|published|layout_in|governor_of|accept|decode_entry|may_lead)\b|fn new\(raw|char::from\(a\)|(present: false|row = Row)'
look '5 facts in contracts' 'requires .*(≡ length|≤ 64|2 \^ 64|12 ≤|9216)|ensures (chain|laid_out|extends|exclude|order|topmost|published|only_cut|rows_show|worked) '
look '6 fixed buffers and counts' '(: |= )\[[a-zA-Z0-9_&]+; [A-Z_0-9]+\]|pub(\(crate\))? count: usize'
look '7 steps that are switched on' 'match (letter|line\.split|word\()|: fn\(|dyn '
