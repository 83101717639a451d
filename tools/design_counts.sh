#!/usr/bin/env bash
# Lists where src/ may read like an older language, by the points of docs/DESIGN-PASS.md:
#
#     tools/design_counts.sh [COMMIT]       the number of places of each point
#     tools/design_counts.sh -l [COMMIT]    the places
#
# A pattern finds candidates; which of them are places is read, and said in docs/DESIGN-PASS.md.
set -euo pipefail
cd "$(dirname "$0")/.."

list=no
if [ "${1:-}" = -l ]; then
    list=yes
    shift
fi
commit=${1:-HEAD}

# lines of src/ that match a pattern
places() {
    git grep -nE "$1" "$commit" -- 'crates/*/src/*.rt' || true
}

show() {
    local lines
    lines=$(cat)
    printf '%s: %s\n' "$1" "$(grep -c . <<<"$lines" || true)"
    if [ "$list" = yes ] && [ -n "$lines" ]; then
        sed "s/^$commit:crates\//    /" <<<"$lines"
    fi
}

places '^ *(None|Some\(\w+\)|Ok\(\w+\)|Err\(\w+\)) => (return )?(None|Err|Ok|Some)\b' |
    show '1  arms that only hand an Option or a Result on'
places '\b(cause|layer|place): u8|-> (Result<|Option<)?u8' |
    show '1  numbers that stand for kinds or refusals'
git grep -hoE '^ *(pub(\(crate\))? )?fn [a-z_]+' "$commit" -- 'crates/*/src/*.rt' | awk '{print $NF}' | sort | uniq -d |
    show '2  names that several functions have'
places 'for \w+ in [0-9a-z_.]*(\(\))?\.\.|while |\.enumerate\(\)' |
    show '3  loops over a count, and while'
places '\[[^];]*[a-z_]+ [-+*] [^]]*\]|\[[0-9]\]' |
    show '3  places in an array counted by hand'
places 'fn (told|number|cause|name_of|print_number|write_numbers|listed)\b' |
    show '4  conversions and printing by hand'
places '\bas (u|i)(8|16|32|64|128|size)\b' |
    show '4  casts'
places '\.0 (<|>|<=|>=) |\.0\.(min|max)\(' |
    show '4  order taken on the insides of a quantity'
places '(store|rolled|district_of|session_of|staged|standing_of) P\.Places\.reservoirs|gauges? [FSTR]\.|volumes \(take' |
    show '5  clauses that map a value to what it stands for'
places ': \[\w+; *\w+\],|: usize,$|Vec<Option' |
    show '6  arrays, lengths, places and cells'
places '\bdyn |Box<|: fn\(|FnOnce|FnMut|match \(stage' |
    show '7  steps chosen at run time, and functions as values'
git ls-tree -r --name-only "$commit" crates | grep -E 'proofs/.*/Answers\.antt$' |
    show '8  files of answers'
