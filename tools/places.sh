#!/usr/bin/env bash
# Counts in crates/*/src the places that docs/DESIGN-PASS.md speaks of, by point, and lists them: tools/places.sh [COMMIT]
set -eu
cd "$(dirname "$0")/.."
if [ $# -gt 0 ]; then
    made=$(mktemp -d)
    trap 'rm -rf "$made"' EXIT
    git archive "$1" crates | tar -x -C "$made"
    cd "$made"
fi

# count POINT WHAT PATTERN: how often it stands, and where
count() {
    local found
    found=$(grep -nE "$3" crates/*/src/*.rt | sed 's#^crates/\([^/]*\)/src/[a-z]*\.rt:#\1:#' || true)
    printf '%s. %s: %s\n' "$1" "$2" "$(grep -c . <<<"$found" || true)"
    [ -z "$found" ] || sed 's/^/    /; s/  */ /g' <<<"$found"
}

count 1 'own enums' '^(pub )?enum '
count 1 'flags in structs' '^    (pub )?[a-z_]+: (bool|Check),$'
count 1 'numbers for kinds' '\b(operation|field|piece|stop|format): u8\b'
count 1 'refusals as numbers' '\.number\(\) as u32'
count 2 'the same function for each width' 'fn (load|store)[1248]\b'
count 2 'the same function with masks and without' 'fn (step|run|run_slot)(_masked)?\('
count 2 'a function for each kind of operation' 'fn (cond|load|store|imm|shift|arith|mul_div)_(number|code7?)\b|fn an?_(branch|load|imm|arith|mul_div)\b'
count 2 'the same choice in each crate' 'fn (pick|larger|leftmost|at)\b'
count 2 'a text of 32 and of 16 bits' 'fn text_of(_word|_half)?\b'
count 2 'two passes over the lines' 'fn (measure|write_lines)\b'
count 2 'an answer as a call' 'fn answer\b'
count 3 'loops' '^ *(while|loop)\b'
count 4 'equality, conversion and copying by hand' 'fn (same_parts|signed32|signed64|plain64|low32|narrow|is_aligned|is_word|count|word)\b|^ +(pc|x|count|stop|address): self\.|std::num::'
count 5 'a row of 512 bytes' 'length row\.(old|now) ≡ 512'
count 5 'masks that travel together' 'own: u64,'
count 5 'a room and a place that travel together' 'room: &mut \[u8\], (at|from): usize'
count 6 'arrays with padding or with 0 for none' '\[\[u8; 16\]; 48\]|\[u8; (16|128|256)\]'
count 7 'switches on what to run' 'fn (quadrant[012]|c_alu|c_pair|c_register|without_immediate|perform|decide)\b'
printf '8. lines of answers: %s\n' "$(cat crates/*/proofs/*/Answers.antt crates/*/proofs/*/*/Answers.antt 2>/dev/null | wc -l)"
printf '8. lines of proofs in all: %s\n' "$(find crates/*/proofs -name '*.antt' -print0 | xargs -0 cat | wc -l)"
