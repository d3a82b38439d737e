#!/bin/sh
# Counts, in a checkout (by default this one), the places that docs/DESIGN-PASS.md counts. What is built beside the sources is not counted.
set -eu
tools=$(cd "$(dirname "$0")" && pwd)
cd "${1:-$tools/..}"
code() { git ls-files -z 'crates/*/src/*.rt' | xargs -0 cat; }
answers() { git ls-files -z 'crates/*Answers.antt' | xargs -0 cat; }
proofs() { git ls-files -z 'crates/*/proofs/*.antt' | xargs -0 cat; }
count() { printf '%-58s %s\n' "$1" "$(cat)"; }
lines() { grep -cE "$1" || true; }

code | lines '^ +(Refused|NeedMore|Cut|BelowNull|NoList|NoMode|Oversize|Stop|NoRow|NoEnd|CutItem|None|Missing|End|Done|Wrong)[,(]' | count '1a variants that say a failure'
code | lines '^pub const [A-Z_]+: u8 = [0-9]+;' | count '1b constants that number a refusal'
code | lines '\(u8, usize\)|number: u8, place: usize' | count '1c a number and a place side by side'
code | lines "^ +(b')?[0-5]'? => [a-z_:]+\(" | count '1d a mode told by its number'
python3 "$tools/alike.py" . | tail -1 | count '2  functions alike but for names and numbers'
code | lines '^ *while ' | count '3a while'
code | lines 'for [a-z_]+ in 0\.\.' | count '3b for over 0 to a number'
code | lines '/ 256|/ 16777216|% 256|255 - |65535 - |4294967295 - ' | count '4a bits and bytes by hand'
code | lines 'fn (is_same|same|equal|is_equal|write_[a-z_]*|put_number|digit[a-z_]*|put_digit[a-z]*|show[a-z_]*)\(' | count '4b own equality and printing'
code | lines 'rules: Rules, frame: &\[u8\]' | count '5a rules and frame travel together'
code | lines 'out: &mut \[u8\], at: usize' | count '5b output and place travel together'
code | lines 'row: Row, room' | count '5c row and room travel together'
code | lines '\[u8; 20\]' | count '6a an array filled up to its length'
code | lines 'lengths: &(mut )?\[' | count '6b lists side by side'
code | lines 'enum (Item|Act|Direction|Sort|Which)\b|writing: bool' | count '7  enums and flags that choose a step'
answers | lines '^pub ' | count '8a answers'
answers | wc -l | count '8b lines of answers'
answers | lines '^ +let ' | count '8c lines of answers that only name a step'
code | wc -l | count '   lines of src'
proofs | wc -l | count '   lines of proofs'
