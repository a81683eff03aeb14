#!/usr/bin/env bash
# Counts the places in src/ that an older form of the language leaves behind, by text: tools/places.sh [COMMIT] (HEAD without one).
# docs/DESIGN-PASS.md says what each line counts, and what became of the places. With --list as the second argument each place is printed.
set -u
cd "$(dirname "$0")/.." || exit 1
at=${1:-HEAD}
list=${2:-}
grep_src() { git grep -nP "$1" "$at" -- 'crates/*/src/*.rt' | sed "s/^$at://"; }
show() {
    local found
    found=$(cat)
    printf '%-4s %4d  %s\n' "$1" "$(printf '%s' "$found" | grep -c .)" "$2"
    if [ -n "$list" ]; then printf '%s\n' "$found" | sed 's/^/          /'; fi
}
grep_src '^\s*(pub(\(crate\))? )?enum ' | show 1a 'enums of our own'
grep_src '\b(number|carried|carrying): (Option<)?u8\b|\bplain\([0-9]+\)|\bwords\(number' | show 1b 'numbers of refusals in place of the refusal'
grep_src '(Err\(\w+\) => (return )?(Ok\(.*)?Err\(|None => (return )?(None|Err\()|Ok\((\w+)\) => Ok\(|Some\((\w+)\) => Some\()' | show 1c 'an Ok, Err, Some or None handed on by a match'
git grep -nP -A1 'else \{$' "$at" -- 'crates/*/src/*.rt' | sed "s/^$at://" | grep -P 'return (Err|None)' | show 1d 'a let .. else that only hands on an Err or a None'
grep_src '^\s+(pub(\(crate\))? )?(repeat|limit|floor|slots|tablet|budget|line|proof): bool|_field: u32|let mut (program|wants_folder)\b' | show 1e 'flags beside the value that they tell of'
grep_src '^\s*(while |loop |.\w+: loop )' | show 3a 'while and loop'
grep_src '^\s*for \w+ in [^{]*\.\.' | show 3b 'for over a range of numbers'
grep_src '^\s*for _ in 0\.\.\w+\.len\(\)' | show 3c '  of these, those that only count turns up to a length'
grep_src '\[(i|j|k|p|n|place|2 \* i.*)\]' | show 3d 'elements by an index that a loop counts'
grep_src 'fn (number|words|digit|pair|byte_of|hex|hex_digit|digit_char|word|stone|board_row|standing|refused|text_of_line|print_answer|side_of|score_of|same_position|verdict_word|verdict_number)\b' | show 4a 'conversions, comparisons and printing of our own'
grep_src '^impl.*\b(From|TryFrom|Display|PartialEq|Ord|Clone|Default)\b.* for ' | show 4b 'impls of the conversion and printing traits'
git grep -hP '^\s+(requires|ensures) ' "$at" -- 'crates/*/src/*.rt' | sed 's/^ *//' | sort | uniq -c | awk '$1 >= 3' | show 5a 'clauses that stand three times or more, word for word'
grep_src '^\s+lines: &mut \[|\bplays: &mut Budget\b|^\s+claim: Claim,|^\s+out: &mut \[u8\]|\bboard: &Board, (own|s|x|black)|\bmemory: &mut .*(Memory|WorkMemory)' | show 5b 'parameters of the groups that travel together'
grep_src '^\s+(pub(\(crate\))? )?\w+: \[\w+; \d+\],|^\s+(pub(\(crate\))? )?(len|size|played|count): (usize|u8|u32),' | show 6a 'arrays in structs, and lengths beside them'
grep_src '\b(requests|replies|other_requests|other_replies): &' | show 6b 'parallel rows'
grep_src '^\s*(pub(\(crate\))? )?enum (Step|Weight|Request|Rules|Asked)\b|\bdyn |: fn\(' | show 7 'decisions as enums, dyn, function pointers'
git ls-tree -r --name-only "$at" crates | grep -P 'proofs/.*/(Answers|Invariants|Proof)\.antt$' | show 8a 'files of answers and invariants'
git grep -hP '^(abbrev )?pub \S+ : goal\.' "$at" -- 'crates/*/proofs/*/*.antt' | show 8b 'answers and invariants'
git grep -hP '^(  )?(abbrev )?(pub )?[a-z_][\w-]* : ' "$at" -- 'crates/*/proofs/*.antt' | show 8c 'lemmas and definitions of proofs/'
printf '8d  %5d  %s\n' "$(git grep -hc '' "$at" -- 'crates/*/proofs/*.antt' | awk '{s+=$1} END {print s}')" 'lines of proofs/'
