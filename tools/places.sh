#!/usr/bin/env bash
# places.sh [TREE]: counts the places that docs/DESIGN-PASS.md speaks of, point by point, in the src/ (8: the proofs/) of the tree given or of this one.
# With LIST=1 it prints each place.
set -u
cd "${1:-$(dirname "$0")/..}" || exit 2
src=$(git ls-files 'crates/*/src/*.rt')

count() { # what it counts, and the lines that it counts
  local lines; lines=$(cat)
  printf '%-9s %4s  %s\n' "$1" "$(printf '%s' "$lines" | grep -c .)" "$2"
  [ -z "${LIST:-}" ] || printf '%s\n' "$lines" | sed 's/^/            /'
}
lines() { grep -nE "$1" $src; }

lines '^ *(pub )?(refusal|number): u32,|Refused\(u32\)' | count 1a "own enums and structs of the shape of Result: a number of a refusal in a field or a variant"
lines 'return [1-9][0-9]*;|\b(refusal|number): [0-9]+|^    [0-9]+$' | count 1b "a refusal answered as a number"
lines '\b(refusal|no|bad|number|process|slot|call) != 0' | count 1c "a refusal's number held against 0"
lines 'kind: u(8|32)|event: u(8|32)|[^_]code\(place|place_of\(' | count 1d "a number for a kind, an event or a place"
lines '\b(while|loop)\b.*\{' | count 3 "loops that count by hand"
lines '=> (true|false|[0-9]+),' | count 4a "equality, order and numbers of variants written out, a line a variant"
lines '\bas (u8|u16|u32|u64|usize)\b' | count 4b "conversions by as, each proved to lose nothing"
lines '\b(values|deadlines|last|flags|newest|rows): *&' | count 5a "parts of a state lent apart"
awk '/^ *requires /{ t = $0; sub(/^[^{]*\{ */, "", t); sub(/ *\}.*/, "", t); n[t]++; at[t] = at[t] FILENAME ":" FNR " " }
     END { for (t in n) if (n[t] > 2) for (i = 0; i < n[t]; i++) print t ": " at[t] }' $src | sort | count 5b "clauses of a fact that three or more functions require"
lines '\bat: usize\b|NUMBERS' | count 6 "an index beside a buffer, rows as one list of numbers"
lines '\bmatch \(?(\*?[a-z_.]*)?(place|kind)\b' | count 7 "a switch on a place or a kind"
git ls-files 'crates/*/proofs/**/Answers.antt' | count 8a "answer files"
git ls-files 'crates/*/proofs/**/Answers.antt' | xargs cat | grep -E '^[^ -].* c? ?=|^pub ' | grep -E '^pub ' | count 8b "answers"
