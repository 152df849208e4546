#!/bin/sh
# The lines of crates/*/src in which a place of each point of docs/DESIGN-PASS.md can stand, with their number. Run it at the top of a clone.
rt=$(git ls-files 'crates/*/src/*.rt')
answers=$(git ls-files 'crates/*/proofs/*' | grep 'Answers.antt$')
show() { echo "== $1: $(printf '%s' "$2" | grep -c .)"; [ "${3:-}" = quiet ] || printf '%s\n' "$2"; }
# runs of three lines with words in them that stand more than once
runs() {
    awk 'FNR == 1 { a = b = "" }
         { line = $0; gsub(/^[ \t]+|[ \t]+$/, "", line) }
         line !~ /[a-z]/ || line ~ /^(\/\/|use |ghost use |type |pub type )/ { next }
         { if (a != "" && n[a " | " b " | " line]++ == 1) print a " | " b " | " line; a = b; b = line }' $rt
}
show "1 numbers, flags, sentinels" "$(grep -nE -e '-> u8( |$|\{)' -e 'as u(8|32) ==|NO_RECORD|straight: bool|^ *(Unknown|Refused\(u8\)),|Err\(_\) => 0x|Ok\(_\) => 0,|_(even|repeated|static): bool|unwrap_or\((""|f64::NAN|0|EulerRot::ZYX)\)|map_or\(f64::NAN|None => f64::NAN|0x7FF8_0000' $rt)"
show "2 names of functions that stand more than once" "$(cat $rt | grep -oE '\bfn [a-z_0-9]+' | sort | uniq -c | awk '$1 > 1 { print $3, $1 }')"
show "2 runs of three lines that stand more than once" "$(runs)"
show "3 loops that count" "$(grep -nE '\b(for [a-z_]+ in 0\.\.|while |loop )' $rt)"
show "4 by hand" "$(grep -nE '^impl(<.*>)? (From|PartialEq|Eq|Ord|Clone|Copy|Debug|Display|fmt::Display|FromStr|TryFrom|Default|Add|Sub|Mul|Div|Neg)\b|fn (add|sub|mul|div|neg|mul_scalar|div_scalar|from_name|default_order|from_euler|to_vec4|from_vec4|from_array|to_array|from_slice|write_to_slice|from_cols_array_2d|put[a-z_0-9]*|shown?)\(|self as u8' $rt)"
show "5 parameters together" "$(grep -nE 'y: DVec3, z: DVec3|name: &str, words|\bi: usize, j: usize, k: usize|\(y: f64, x: f64\)|a: f64, b: f64, c: f64|end: DQuat, .*s: f64' $rt)"
show "5 preconditions" "$(grep -nE '^ *requires' $rt)"
show "6 buffers" "$(grep -nE '&mut \[|, *(len|used|count): usize|\[[a-z0-9.]+; *[A-Z0-9]+\]|^    (sin|cos|atan2|sqrt|acos): Tally' $rt)"
show "7 switches" "$(grep -nE 'match (self\.)?name \{|\bfn\(|dyn |straight: bool' $rt)"
show "8 files of answers" "$answers" quiet
show "8 answers" "$(grep -hE '^pub .* : goal\.' $answers)" quiet
